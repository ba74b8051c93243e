//! `compare [SEED] [COUNT]` makes COUNT random cases by the proved search and by the second
//! implementation, and stops at the first disagreement. It also fails if the cases were many, and
//! yet a fault that they should have never came. With `--trace` before these it names each case
//! first, so that one that crashes is known. `compare --replay KIND SEED` makes one case, and
//! prints every call with both outcomes.

use std::collections::BTreeMap;
use std::env;
use std::process::ExitCode;
use std::time::Instant;

use harness::random::Random;
use harness::scenarios::{Judge, Kind, KINDS, MANY};

const SEED: u64 = 1;
const COUNT: usize = 100_000;

/// How often each pair of numbers came, and pairs that have to come: a number, and each that may
/// stand second.
type Counts = BTreeMap<(u32, u32), u64>;
type Wanted<const N: usize> = [(u32, &'static [u32]); N];

enum Task {
    Compare {
        trace: bool,
        seed: u64,
        count: usize,
    },
    Replay {
        kind: Kind,
        seed: u64,
    },
}

fn main() -> ExitCode {
    let arguments: Vec<String> = env::args().skip(1).collect();
    let arguments: Vec<&str> = arguments.iter().map(String::as_str).collect();
    match task(&arguments) {
        Some(Task::Compare { trace, seed, count }) => compare(trace, seed, count),
        Some(Task::Replay { kind, seed }) => replay(kind, seed),
        None => usage(),
    }
}

fn task(arguments: &[&str]) -> Option<Task> {
    if let ["--replay", kind, seed] = arguments {
        return Some(Task::Replay {
            kind: Kind::named(kind)?,
            seed: seed.parse().ok()?,
        });
    }
    let trace = arguments.first() == Some(&"--trace");
    let (seed, count) = match arguments[usize::from(trace)..] {
        [] => (SEED, COUNT),
        [seed] => (seed.parse().ok()?, COUNT),
        [seed, count] => (seed.parse().ok()?, count.parse().ok()?),
        _ => return None,
    };
    Some(Task::Compare { trace, seed, count })
}

fn usage() -> ExitCode {
    let kinds = KINDS.map(|kind| kind.name).join(", ");
    eprintln!("compare [--trace] [SEED] [COUNT]\ncompare --replay KIND SEED\nkinds: {kinds}");
    ExitCode::from(2)
}

fn compare(trace: bool, seed: u64, count: usize) -> ExitCode {
    let begin = Instant::now();
    let mut random = Random::new(seed);
    let mut judges = KINDS.map(|_| Judge::default());
    for case in 0..count {
        let number = kind_of(case);
        let (kind, seed) = (KINDS[number], random.word());
        if trace {
            println!("compare --replay {} {seed}", kind.name);
        }
        if let Err(disagreement) = kind.run(&mut judges[number], seed) {
            println!("{disagreement}");
            println!("to replay: compare --replay {} {seed}", kind.name);
            return ExitCode::FAILURE;
        }
    }
    summarise(&judges);
    let missing = missing(&judges);
    if count >= COUNT && !missing.is_empty() {
        println!("never came: {}", missing.join(", "));
        return ExitCode::FAILURE;
    }
    println!("all agree ({:.1} s)", begin.elapsed().as_secs_f64());
    ExitCode::SUCCESS
}

/// The kinds take turns by their shares of each thousand.
fn kind_of(case: usize) -> usize {
    let mut turn = case % 1000;
    let is_next = |kind: &Kind| {
        let found = turn < kind.share;
        turn = turn.saturating_sub(kind.share);
        found
    };
    let found = KINDS.iter().position(is_next);
    found.expect("the shares add up to a thousand")
}

fn summarise(judges: &[Judge]) {
    let mut total = 0;
    for (kind, judge) in KINDS.iter().zip(judges) {
        println!("{:8} {:7} comparisons", kind.name, judge.comparisons);
        total += judge.comparisons;
    }
    println!("all      {total:7} comparisons");
    let answers = sums(judges.iter().map(|judge| &judge.answers));
    println!("answers  {}", listed(answers));
    let inputs = inputs(judges);
    for (about, _) in INPUTS {
        println!("about {about}  {}", listed(second_of(about, &inputs)));
    }
    let faults = faults(judges);
    for (fault, _) in FAULTS {
        println!("{fault} with  {}", listed(second_of(fault, &faults)));
    }
    let own_edges = own_edges(judges);
    for (number, _) in OWN_EDGES {
        let without = listed(second_of(number, &own_edges));
        println!("{number} for own edges, without these  {without}");
    }
    let islands = islands(judges);
    for (number, _) in ISLANDS {
        let first = listed(second_of(number, &islands));
        println!("{number} for islands, in the first search  {first}");
    }
    let [first, second] = searches(judges);
    println!("taken by the first search {first}, by the second {second}");
    println!("descents begun anew  {}", listed(beginnings(judges)));
}

/// The second numbers of the pairs that begin with `first`.
fn second_of(first: u32, counts: &Counts) -> impl Iterator<Item = (u32, u64)> + '_ {
    let of_it = counts
        .iter()
        .filter(move |((number, _), _)| *number == first);
    of_it.map(|(&(_, second), &times)| (second, times))
}

/// What the test of the inputs is about: nothing (0), the old graph, the new one, the list. Each with
/// the numbers that have to come.
const INPUTS: Wanted<4> = [(0, &[0]), (1, OF_GRAPH), (2, OF_GRAPH), (3, &[23, 24])];
const OF_GRAPH: &[u32] = &[1, 2, 3, 4, 5, 7, 8, 9, 27];

/// The faults of a list, too many old vertices for clique branching, and labels that do not fit
/// edition 1. Each with what else may be wrong with such a call: nothing (0), something of a graph,
/// which comes before it, or each of the faults that come before it or after it. Of a graph that is
/// moved back it comes after: such a label is judged at its command.
const FAULTS: Wanted<4> = [
    (23, BESIDE_LIST),
    (24, BESIDE_LIST),
    (25, &[0, 1, 2, 5, 9, 13, 23, 24, 27]),
    (28, &[0, 1, 2, 4, 5, 9, 13]),
];
const BESIDE_LIST: &[u32] = &[
    0, 1, 2, 5, 9, 13, 14, 15, 16, 17, 18, 19, 20, 21, 22, 25, 27,
];

/// Kinds of comparison, and the numbers that have to come in each.
const ANSWERS: [(&str, &[u32]); 9] = [
    ("graph", &[0, 1, 2, 3, 4, 5, 7, 8, 9, 27]),
    ("mover", &[0, 1, 2, 3, 4, 5, 7, 8, 9, 13, 27, 28]),
    ("relisted", &[0, 14]),
    ("rewired", &[0, 14]),
    ("crossed", &[0, 14]),
    ("floor", &[0, 1, 2, 5, 9, 13, 23, 24, 27]),
    ("whole", &[0, 1, 13, 14, 15, 16, 17, 23, 24, 27]),
    ("handed", &[0, 13, 14, 15, 16, 17]),
    ("lent", &[0, 14, 16, 17, 23, 24]),
];

/// What a call is refused with for own edges alone: a checkpoint out of shape, a row of a mapping
/// named twice. Each with what the call may answer without any own edges: nothing (0), or one of
/// the faults that come after it.
const OWN_EDGES: Wanted<2> = [(14, &[0, 16]), (22, &[0, 19, 20, 21, 22])];

/// What the second search refuses for a mapping that is not connected. With what the call may answer
/// in the first search: nothing (0), or one of the faults that come after it.
const ISLANDS: Wanted<1> = [(14, &[0, 13, 15, 16])];

/// What never came: a refusal of each input, each of the faults with each other one, a refusal of
/// graph bytes, a search that goes on under another list, with other own edges or as the other
/// search, taken and refused, a refusal of a descent's call, and one that began anew so many times.
fn missing(judges: &[Judge]) -> Vec<String> {
    let never = never_came(INPUTS, inputs(judges));
    let mut missing: Vec<String> = never.map(|(a, n)| format!("{n} about {a}")).collect();
    let never = never_came(FAULTS, faults(judges));
    missing.extend(never.map(|(fault, beside)| format!("{fault} with {beside}")));
    let never = never_came(OWN_EDGES, own_edges(judges));
    missing.extend(never.map(|(number, other)| format!("{number}, without own edges {other}")));
    let never = never_came(ISLANDS, islands(judges));
    missing.extend(never.map(|(number, other)| format!("{number}, in the first search {other}")));
    for (name, numbers) in ANSWERS {
        let kind = KINDS.iter().position(|kind| kind.name == name);
        let answers = kind.map(|kind| &judges[kind].answers);
        for number in numbers {
            if answers.is_none_or(|answers| !answers.contains_key(number)) {
                missing.push(format!("{name} with {number}"));
            }
        }
    }
    let beginnings = beginnings(judges);
    let never = (0..=MANY).filter(|times| !beginnings.contains_key(times));
    missing.extend(never.map(|times| format!("a call that began anew {times} times")));
    missing
}

/// Those of the pairs that are not among `counts`.
fn never_came<const N: usize>(
    wanted: Wanted<N>,
    counts: Counts,
) -> impl Iterator<Item = (u32, u32)> {
    let pairs = wanted
        .into_iter()
        .flat_map(|(first, second)| second.iter().map(move |&second| (first, second)));
    pairs.filter(move |pair| !counts.contains_key(pair))
}

fn inputs(judges: &[Judge]) -> Counts {
    sums(judges.iter().map(|judge| &judge.inputs))
}

fn faults(judges: &[Judge]) -> Counts {
    sums(judges.iter().map(|judge| &judge.faults))
}

fn own_edges(judges: &[Judge]) -> Counts {
    sums(judges.iter().map(|judge| &judge.own_edges))
}

fn islands(judges: &[Judge]) -> Counts {
    sums(judges.iter().map(|judge| &judge.islands))
}

fn beginnings(judges: &[Judge]) -> BTreeMap<u32, u64> {
    sums(judges.iter().map(|judge| &judge.beginnings))
}

fn searches(judges: &[Judge]) -> [u64; 2] {
    [0, 1].map(|search| judges.iter().map(|judge| judge.searches[search]).sum())
}

fn sums<'a, K: Copy + Ord + 'a>(
    counts: impl Iterator<Item = &'a BTreeMap<K, u64>>,
) -> BTreeMap<K, u64> {
    let mut sums = BTreeMap::new();
    for (key, times) in counts.flatten() {
        *sums.entry(*key).or_default() += times;
    }
    sums
}

fn listed(counts: impl IntoIterator<Item = (u32, u64)>) -> String {
    let counts = counts.into_iter();
    let texts = counts.map(|(number, times)| format!("{number}: {times}"));
    texts.collect::<Vec<_>>().join(", ")
}

fn replay(kind: Kind, seed: u64) -> ExitCode {
    let mut judge = Judge {
        aloud: true,
        ..Judge::default()
    };
    match kind.run(&mut judge, seed) {
        Ok(()) => {
            println!("{} comparisons agree", judge.comparisons);
            ExitCode::SUCCESS
        }
        Err(disagreement) => {
            println!("{disagreement}");
            ExitCode::FAILURE
        }
    }
}
