//! The kinds of comparison. A kind and a seed give one case: one call or a list of calls, each
//! made by the library and by the second implementation.

use std::collections::BTreeMap;
use std::mem;
use std::ops::{Range, RangeInclusive};

use crate::answer::Answer;
use crate::brute;
use crate::call::{Buffer, Call, Clique, Given, Move, Outcome, Resume, LIBRARY, REFERENCE};
use crate::cases::{self, ANY_ORDER};
use crate::fast::{self, descend::Descent};
use crate::library::{CLIQUE_VERTICES, FIRST_SEARCH, GRAPH_BYTES};
use crate::panels;
use crate::random::Random;
use crate::reference::{advance, ceiling, descend, entries_from_bytes, entries_to_bytes};
use crate::reference::{Checkpoint, Edition, Graph, Problem, Sought, Substitutes};
use crate::reference::{CHECKPOINT_BYTES, MAX_VERTICES, WORKSPACE_WORDS};

/// The error is what to print about a disagreement.
pub type Verdict<T> = Result<T, String>;

type Scenario = fn(&mut Judge, &mut Random) -> Verdict<()>;

#[derive(Clone, Copy)]
pub struct Kind {
    pub name: &'static str,
    /// Cases of this kind in each thousand.
    pub share: usize,
    scenario: Scenario,
}

pub const KINDS: [Kind; 25] = [
    kind("inputs", 40, inputs),
    kind("graph", 62, graph),
    kind("mover", 51, mover),
    kind("moved", 9, moved),
    kind("mapping", 128, mapping),
    kind("start", 43, start),
    kind("room", 34, room),
    kind("crafted", 119, crafted),
    kind("damaged", 111, damaged),
    kind("small", 111, small),
    kind("relisted", 26, relisted),
    kind("rewired", 17, rewired),
    kind("crossed", 26, crossed),
    kind("middle", 19, middle),
    kind("large", 3, large),
    kind("long", 5, long),
    kind("clique", 34, clique),
    kind("crowded", 13, crowded),
    kind("limit", 5, limit),
    kind("floor", 20, floor),
    kind("whole", 50, whole),
    kind("panel", 15, panel),
    kind("deep", 4, deep),
    kind("handed", 25, handed),
    kind("lent", 30, lent),
];

/// A search that the fast walk is through with after so many visits is made beside a descent.
const SOON: u64 = 200_000;
/// How often a call begins anew is counted up to here.
pub const MANY: u32 = 3;

const fn kind(name: &'static str, share: usize, scenario: Scenario) -> Kind {
    Kind {
        name,
        share,
        scenario,
    }
}

impl Kind {
    pub fn named(name: &str) -> Option<Kind> {
        KINDS.into_iter().find(|kind| kind.name == name)
    }

    pub fn run(&self, judge: &mut Judge, seed: u64) -> Verdict<()> {
        (self.scenario)(judge, &mut Random::new(seed))
    }
}

/// Compares outcomes, and counts the comparisons.
#[derive(Default)]
pub struct Judge {
    pub comparisons: u64,
    /// How often each number was answered.
    pub answers: BTreeMap<u32, u64>,
    /// How often `golfcedar_check_problem` answered so: by what it is about, and by the number.
    pub inputs: BTreeMap<(u32, u32), u64>,
    /// How often a list was at fault, or clique branching had too many old vertices, or a label did
    /// not fit the edition: by the number, and by what the call answers without that fault, 0 where
    /// nothing else is wrong.
    pub faults: BTreeMap<(u32, u32), u64>,
    /// How often own edges were what a call was refused for: by its number, and by what the call
    /// answers without any own edges, 0 where nothing else is wrong.
    pub own_edges: BTreeMap<(u32, u32), u64>,
    /// How often the second search refused a checkpoint whose mapping is not connected: by its
    /// number, 14, and by what the call answers in the first search.
    pub islands: BTreeMap<(u32, u32), u64>,
    /// How often each search made an accepted call on a checkpoint, the first search's first.
    pub searches: [u64; 2],
    /// How often a call of a descent began anew so many times. `MANY` stands for more too.
    pub beginnings: BTreeMap<u32, u64>,
    /// Print the calls that agree too.
    pub aloud: bool,
}

impl Judge {
    fn compare(&mut self, call: Call) -> Verdict<Outcome> {
        let expected = call.made_by(&REFERENCE);
        self.compare_with(call, expected)
    }

    fn compare_with(&mut self, call: Call, expected: Outcome) -> Verdict<Outcome> {
        if self.aloud {
            print!("{call}");
        }
        let outcome = call.made_by(&LIBRARY);
        self.comparisons += 1;
        *self.answers.entry(expected.answer.number).or_default() += 1;
        for (fault, without) in faults(&call) {
            let beside = without.made_by(&REFERENCE).answer.number;
            *self.faults.entry((fault, beside)).or_default() += 1;
        }
        let number = expected.answer.number;
        if let Call::CheckProblem { .. } = call {
            let about = expected.answer.about as u32;
            *self.inputs.entry((about, number)).or_default() += 1;
        }
        if let Some(without) = refused_for_own_edges(&call, &expected) {
            *self.own_edges.entry((number, without)).or_default() += 1;
        }
        if let Some(first) = refused_for_islands(&call, &expected) {
            *self.islands.entry((number, first)).or_default() += 1;
        }
        if let (Some(connected), true) = (call.connected(), expected.answer.is_accepted()) {
            self.searches[usize::from(connected != FIRST_SEARCH)] += 1;
        }
        if let Some(times) = beginnings(&call, &expected) {
            *self.beginnings.entry(times.min(MANY)).or_default() += 1;
        }
        let both = || {
            let [library, wanted] = [&outcome, &expected].map(|outcome| outcome.describe(&call));
            format!("library: {library}expected: {wanted}")
        };
        if outcome != expected {
            return Err(format!("this call disagrees: {call}{}", both()));
        }
        if let Some(first) = other_refusal(&call, &outcome) {
            return Err(format!("{call}{}but of its inputs: {first:?}", both()));
        }
        if self.aloud {
            println!("{}", both());
        }
        Ok(outcome)
    }
}

/// What `golfcedar_check_problem` answers of the call's two graphs and list, if the call itself is
/// not refused with the same number and value, or is refused for one of them where that accepts.
fn other_refusal(call: &Call, outcome: &Outcome) -> Option<Answer> {
    let given = call.given()?.clone();
    let first = Call::CheckProblem { given }.made_by(&LIBRARY).answer;
    let Answer { number, value, .. } = outcome.answer;
    let is_same = match first.is_accepted() {
        true => !matches!(number, 1..=9 | 23 | 24 | 27),
        false => (number, value) == (first.number, first.value),
    };
    (!is_same).then_some(first)
}

/// What is wrong with the list and with the number of old vertices, whether or not the call comes
/// to it, and with labels that are to be moved, each with the call that has this fault no more.
fn faults(call: &Call) -> Vec<(u32, Call)> {
    let mut faults = Vec::new();
    if let Some(given) = call.given() {
        if let Err(refusal) = Substitutes::parse(&given.substitutes) {
            let without = call.clone().without_substitutes();
            faults.push((refusal.reason as u32, without));
        }
    }
    if let Call::Move(call) = call {
        let without = call.with_narrow_labels();
        faults.extend(without.map(|without| (28, Call::Move(without))));
    }
    if let Call::Clique(call) = call {
        match Graph::parse(&call.given.old) {
            Ok(old) if old.order() > CLIQUE_VERTICES => {
                let mut without = call.clone();
                without.given.old = old.first(CLIQUE_VERTICES).save();
                faults.push((25, Call::Clique(without)));
            }
            _ => {}
        }
    }
    faults
}

/// What the call answers without any own edges, if they are what it is refused for: a checkpoint
/// that is in shape without them, or a row of a mapping that is named twice.
fn refused_for_own_edges(call: &Call, expected: &Outcome) -> Option<u32> {
    let Answer {
        number,
        value,
        earlier,
        ..
    } = expected.answer;
    let without = || {
        let call = call.clone().without_own_edges()?;
        Some(call.made_by(&REFERENCE).answer.number)
    };
    match number {
        14 => without().filter(|&without| without != 14),
        22 if value == earlier => without(),
        _ => None,
    }
}

/// What the call answers in the first search, if it is refused by the second one alone.
fn refused_for_islands(call: &Call, expected: &Outcome) -> Option<u32> {
    if expected.answer.number != 14 {
        return None;
    }
    let first = call.clone().for_first_search()?;
    let number = first.made_by(&REFERENCE).answer.number;
    (number != 14).then_some(number)
}

/// How often an accepted call of a descent began anew: by so much it lowered the minimum, which is
/// the second byte of a checkpoint.
fn beginnings(call: &Call, expected: &Outcome) -> Option<u32> {
    match (call, &expected.memory) {
        (Call::Resume(call), Call::Resume(memory))
            if call.floor.is_some() && expected.answer.is_accepted() =>
        {
            Some((call.checkpoint[1] - memory.next.lent()[1]).into())
        }
        _ => None,
    }
}

/// The first search, or the second one by any number that says so.
fn any_search(random: &mut Random) -> u32 {
    match random.percent(50) {
        true => FIRST_SEARCH,
        false => any_connected(random),
    }
}

/// With one bit anywhere, with several, or with all.
fn any_connected(random: &mut Random) -> u32 {
    let bit = 1 << random.within(0..32);
    random.pick(&[1, 1, 1, 2, 255, 256, 0xFFFF_0000, u32::MAX, bit])
}

/// Two graphs and a list, each sound or not, or in another's place; and then another call on them.
fn inputs(judge: &mut Judge, random: &mut Random) -> Verdict<()> {
    let problem = cases::problem(random, 0..6);
    let mut given = given(random, &problem);
    if random.percent(40) {
        spoil_graph(random, &mut given.old);
    }
    if random.percent(60) {
        spoil_graph(random, &mut given.new);
    }
    if random.percent(40) {
        cases::spoil_substitutes(random, &mut given.substitutes);
    }
    match random.within(0..15) {
        0 => mem::swap(&mut given.old, &mut given.new),
        1 => mem::swap(&mut given.old, &mut given.substitutes),
        2 => mem::swap(&mut given.new, &mut given.substitutes),
        _ => {}
    }
    judge.compare(Call::CheckProblem {
        given: given.clone(),
    })?;
    let minimum = random.within(0..4) as u8;
    let connected = any_search(random);
    let mut caller = Caller {
        given,
        connected,
        floor: None,
        checkpoint: Checkpoint::fresh(minimum).save(),
    };
    let given = caller.given.clone();
    let checkpoint = output(random, CHECKPOINT_BYTES, 20);
    let call = match random.within(0..6) {
        0 => return caller.check_mapping(judge, cases::any_mapping(random, &problem)),
        1 => return caller.read_out(judge, random),
        2 => Call::Start {
            given,
            connected,
            minimum,
            checkpoint,
        },
        3 => Call::DescendStart {
            given,
            connected,
            floor: minimum,
            checkpoint,
        },
        4 => Call::Resume(caller.resume_call(random, 10)),
        _ => {
            caller.floor = Some(any_floor(random, minimum));
            Call::Resume(caller.resume_call(random, 10))
        }
    };
    judge.compare(call).map(drop)
}

/// A 0 anywhere in a graph's bytes, for the labels, or any bytes in their place.
fn spoil_graph(random: &mut Random, bytes: &mut Vec<u8>) {
    if random.percent(20) {
        let place = random.within(0..bytes.len());
        bytes[place] = 0;
    } else {
        *bytes = cases::any_graph_bytes(random);
    }
}

fn graph(judge: &mut Judge, random: &mut Random) -> Verdict<()> {
    let graph = cases::any_graph_bytes(random);
    judge.compare(Call::CheckGraph { graph }).map(drop)
}

/// Any bytes, to either edition, with enough room or too little.
fn mover(judge: &mut Judge, random: &mut Random) -> Verdict<()> {
    let to = random.pick(&[Edition::One, Edition::Two]);
    let graph = cases::any_bytes_to_move(random, to);
    let needed = to.moved_here(&graph).map_or(0, |bytes| bytes.len());
    let length = match random.within(0..10) {
        0 => random.within(0..needed + 1),
        1 => needed.saturating_sub(1),
        2..6 => needed + random.pick(&[0, 0, 1, 30]),
        _ => GRAPH_BYTES,
    };
    let out = pattern(random, length, GRAPH_BYTES);
    let call = Call::Move(Move { to, graph, out });
    judge.compare(call).map(drop)
}

/// A file of either edition moved to the other and back, with every length of the output near the
/// one needed: each time it is what that edition's writer gives of the same graph.
fn moved(judge: &mut Judge, random: &mut Random) -> Verdict<()> {
    let whole = cases::narrow_graph(random);
    let [first, second] = match random.percent(50) {
        true => [Edition::One, Edition::Two],
        false => [Edition::Two, Edition::One],
    };
    let mut graph = cases::bytes_in(random, first, &whole);
    for to in [second, first] {
        let due = to.save(&whole);
        for length in near(due.len()) {
            let out = pattern(random, length, GRAPH_BYTES);
            let graph = graph.clone();
            let call = Move { to, graph, out };
            let expected = call.writing(&due);
            judge.compare_with(Call::Move(call), expected)?;
        }
        graph = due;
    }
    let graph = Edition::Two.save(&whole);
    judge.compare(Call::CheckGraph { graph }).map(drop)
}

fn mapping(judge: &mut Judge, random: &mut Random) -> Verdict<()> {
    let most = random.pick(&[4, 9, 9, 9, 20, ANY_ORDER]);
    let problem = cases::problem(random, 0..most);
    let mut given = given(random, &problem);
    if random.percent(5) {
        damage_graph(random, &mut given);
    }
    if random.percent(10) {
        cases::spoil_substitutes(random, &mut given.substitutes);
    }
    let mapping = cases::any_mapping(random, &problem);
    let call = Call::CheckMapping { given, mapping };
    judge.compare(call).map(drop)
}

fn start(judge: &mut Judge, random: &mut Random) -> Verdict<()> {
    let problem = cases::problem(random, 0..6);
    let mut given = given(random, &problem);
    spoil_given(random, &mut given);
    let call = Call::Start {
        given,
        connected: any_search(random),
        minimum: random.byte(),
        checkpoint: output(random, CHECKPOINT_BYTES, 20),
    };
    judge.compare(call).map(drop)
}

/// The start of a descent, with floors on both sides of the orders.
fn floor(judge: &mut Judge, random: &mut Random) -> Verdict<()> {
    let most = random.pick(&[4, 9, 9, 20, ANY_ORDER]);
    let problem = cases::problem(random, 0..most);
    let mut given = given(random, &problem);
    spoil_given(random, &mut given);
    let order = problem.old.order() as u8;
    let any = random.byte();
    let call = Call::DescendStart {
        given,
        connected: any_search(random),
        floor: random.pick(&[0, 0, 1, order / 2, order, order + 1, 64, 65, 255, any]),
        checkpoint: output(random, CHECKPOINT_BYTES, 20),
    };
    judge.compare(call).map(drop)
}

/// Outputs of every length near the one needed, alone and with other things wrong.
fn room(judge: &mut Judge, random: &mut Random) -> Verdict<()> {
    let problem = cases::problem(random, 0..8);
    let connected = any_search(random);
    let sought = Sought::from_flag(connected);
    let fresh = Checkpoint::fresh(random.within(0..4) as u8);
    let cut = advance(&problem, sought, &fresh, random.within(0..60) as u64);
    let budget = random.within(0..60) as u64;
    let mut caller = Caller::with(random, &problem, connected, cut.save());

    for floor in [Some(any_floor(random, cut.minimum)), None] {
        caller.floor = floor;
        let after = match floor {
            Some(floor) => descend(&problem, sought, floor, cut.clone(), budget).0,
            None => advance(&problem, sought, &cut, budget),
        };
        for length in near(after.save().len()) {
            let mut call = caller.resume_call(random, budget);
            if random.percent(30) {
                spoil(random, &mut call, cut.steps);
            }
            call.next = pattern(random, length, CHECKPOINT_BYTES);
            judge.compare(Call::Resume(call))?;
        }
    }
    let held = cut.incumbent.as_ref().map_or(0, Vec::len);
    for length in near(held) {
        let mut call = caller.resume_call(random, 0);
        if random.percent(30) {
            spoil(random, &mut call, cut.steps);
        }
        judge.compare(Call::ReadOut {
            given: call.given,
            connected,
            checkpoint: call.checkpoint,
            mapping: pattern(random, length, MAX_VERTICES),
        })?;
    }
    for length in near(fresh.save().len()) {
        let mut given = caller.given.clone();
        spoil_given(random, &mut given);
        judge.compare(Call::Start {
            given,
            connected,
            minimum: fresh.minimum,
            checkpoint: pattern(random, length, CHECKPOINT_BYTES),
        })?;
    }
    Ok(())
}

fn near(needed: usize) -> RangeInclusive<usize> {
    needed.saturating_sub(3)..=needed + 2
}

/// Checkpoints that no walk made, in shape or nearly so.
fn crafted(judge: &mut Judge, random: &mut Random) -> Verdict<()> {
    go_on_crafted(judge, random, |_, _| None)
}

/// A search cut at a random visit, and its checkpoint's bytes damaged.
fn damaged(judge: &mut Judge, random: &mut Random) -> Verdict<()> {
    go_on_damaged(judge, random, |_, _| None)
}

/// Both, lent to a descent.
fn lent(judge: &mut Judge, random: &mut Random) -> Verdict<()> {
    let floor = |random: &mut Random, minimum| Some(any_floor(random, minimum));
    match random.percent(60) {
        true => go_on_crafted(judge, random, floor),
        false => go_on_damaged(judge, random, floor),
    }
}

fn go_on_crafted(
    judge: &mut Judge,
    random: &mut Random,
    floor: impl Fn(&mut Random, u8) -> Option<u8>,
) -> Verdict<()> {
    let orders = match random.within(0..100) {
        0 => 60..ANY_ORDER,
        1..15 => 0..3,
        15..40 => 0..6,
        _ => 3..14,
    };
    let problem = cases::problem(random, orders);
    let mut checkpoint = cases::crafted_checkpoint(random, &problem);
    if random.percent(40) {
        cases::misshape(random, &problem, &mut checkpoint);
    }
    let connected = any_search(random);
    let mut caller = Caller::with(random, &problem, connected, checkpoint.save());
    caller.floor = floor(random, checkpoint.minimum);
    if random.percent(5) {
        cases::spoil_substitutes(random, &mut caller.given.substitutes);
    }
    caller.read_out(judge, random)?;
    let room = u64::MAX - checkpoint.steps;
    let budget = match random.within(0..4) {
        0 if room < 100 => room + 1,
        1 if room < 100 => room,
        _ => random.within(0..120) as u64,
    };
    caller.resume(judge, random, budget)?;
    caller.read_out(judge, random)
}

fn go_on_damaged(
    judge: &mut Judge,
    random: &mut Random,
    floor: impl Fn(&mut Random, u8) -> Option<u8>,
) -> Verdict<()> {
    let problem = cases::problem(random, 0..8);
    let fresh = Checkpoint::fresh(random.within(0..4) as u8);
    let connected = any_search(random);
    let visits = random.within(0..60) as u64;
    let mut checkpoint = advance(&problem, Sought::from_flag(connected), &fresh, visits).save();
    for _ in 0..random.within(1..3) {
        cases::damage(random, &mut checkpoint);
    }
    let mut caller = Caller::with(random, &problem, connected, checkpoint);
    caller.floor = floor(random, fresh.minimum);
    if random.percent(5) {
        cases::spoil_substitutes(random, &mut caller.given.substitutes);
    }
    caller.read_out(judge, random)?;
    let budget = random.within(0..60) as u64;
    caller.resume(judge, random, budget).map(drop)
}

/// Whole searches, against brute force too.
fn small(judge: &mut Judge, random: &mut Random) -> Verdict<()> {
    let problem = cases::problem(random, 0..6);
    let minimum = random.pick(&[0, 0, 1, 2, 3, 5, 255]);
    let connected = any_search(random);
    let last = session(judge, random, &problem, connected, minimum, 12, any_budget)?;
    if last.finished {
        agrees_with_brute_force(&problem, Sought::from_flag(connected), &last)
    } else {
        Ok(())
    }
}

/// For a search of few visits, which has made so many.
fn any_budget(random: &mut Random, steps: u64) -> u64 {
    match random.within(0..12) {
        0 => random.pick(&[u64::MAX - steps, 1 << 32, 1 << 63]),
        1..4 => random.within(0..200) as u64,
        _ => random.within(0..12) as u64,
    }
}

/// Whole descents, against brute force too.
fn whole(judge: &mut Judge, random: &mut Random) -> Verdict<()> {
    let problem = cases::problem(random, 0..6);
    let floor = random.pick(&[0, 0, 0, 1, 1, 2, 3, 5, 6, 255]);
    let connected = any_search(random);
    let last = descent(judge, random, &problem, connected, floor, 12, any_budget)?;
    if last.finished {
        agrees_with_brute_force(&problem, Sought::from_flag(connected), &last)
    } else {
        Ok(())
    }
}

/// Descents of panels and of other graphs, often stopped before they are done.
fn panel(judge: &mut Judge, random: &mut Random) -> Verdict<()> {
    let problem = match random.within(0..10) {
        0 => cases::problem(random, 40..ANY_ORDER),
        1..4 => cases::problem(random, 6..25),
        _ => any_panel(random, 6..25),
    };
    let floor = random.pick(&[0, 0, 1, 1, 3, 5, 8]);
    let budgets = |random: &mut Random, _| match random.within(0..10) {
        0 => 0,
        1..7 => random.within(1..30) as u64,
        _ => random.within(30..400) as u64,
    };
    let connected = any_search(random);
    descent(judge, random, &problem, connected, floor, 7, budgets).map(drop)
}

/// Descents so long that only the fast one keeps up.
fn deep(judge: &mut Judge, random: &mut Random) -> Verdict<()> {
    let problem = match random.percent(40) {
        true => cases::problem(random, 20..ANY_ORDER),
        false => any_panel(random, 24..ANY_ORDER),
    };
    let floor = random.pick(&[0, 1, 5, 10]);
    let connected = any_search(random);
    let mut caller = Caller::descend_start(judge, random, &problem, connected, floor)?;
    let mut fast = Descent::start(&problem, Sought::from_flag(connected), floor);
    for _ in 0..3 {
        let budget = random.within(0..60_000) as u64;
        let visits = fast.advance(budget);
        let next = fast.checkpoint().save();
        let call = caller.resume_call(random, budget);
        let expected = call.accepted(&next, fast.ceiling() as u64, visits);
        judge.compare_with(Call::Resume(call), expected)?;
        caller.checkpoint = next;
    }
    Ok(())
}

fn any_panel(random: &mut Random, orders: Range<usize>) -> Problem {
    let order = random.within(orders);
    let labels = random.pick(&[3, 4, 6, 8, 12]);
    match random.percent(50) {
        true => panels::edited(random, order, labels, order / 5),
        false => panels::problem(random, order, labels, 20),
    }
}

/// A search that goes on as a descent, and then as a search again, or with another floor: each goes on
/// by its own rule from what the other left.
fn handed(judge: &mut Judge, random: &mut Random) -> Verdict<()> {
    let problem = cases::problem(random, 0..8);
    let connected = any_search(random);
    let minimum = random.pick(&[0, 1, 2, 3, 4, 6, 9, 255]);
    let mut caller = match random.percent(60) {
        true => Caller::start(judge, random, &problem, connected, minimum)?,
        false => Caller::descend_start(judge, random, &problem, connected, minimum)?,
    };
    for _ in 0..random.within(2..7) {
        let last = caller.load(&problem)?;
        caller.floor = match random.percent(60) {
            true => Some(any_floor(random, last.minimum)),
            false => None,
        };
        let budget = match random.within(0..5) {
            0 => 0,
            1 => u64::MAX - last.steps,
            _ => random.within(0..40) as u64,
        };
        if random.percent(35) {
            caller.spoilt_resume(judge, random, budget, last.steps)?;
        }
        caller.resume(judge, random, budget)?;
        caller.read_out(judge, random)?;
    }
    Ok(())
}

/// Below this minimum, at it, or above.
fn any_floor(random: &mut Random, minimum: u8) -> u8 {
    let (below, above) = (minimum.saturating_sub(1), minimum.saturating_add(1));
    random.pick(&[0, 0, 0, 1, 2, 3, below, below, minimum, above, 255])
}

/// A search that goes on under another list, and then under the first one again. To either list
/// the other's checkpoint is one that no call left.
fn relisted(judge: &mut Judge, random: &mut Random) -> Verdict<()> {
    let problem = cases::problem(random, 1..9);
    let minimum = random.pick(&[0, 0, 1, 2]);
    let connected = any_search(random);
    let caller = Caller::start(judge, random, &problem, connected, minimum)?;
    let other = Given {
        substitutes: cases::other_substitutes(random, &problem).save(),
        ..caller.given.clone()
    };
    there_and_back(judge, random, caller, (other, connected))
}

/// The same with other own edges of one of the graphs or both.
fn rewired(judge: &mut Judge, random: &mut Random) -> Verdict<()> {
    let problem = cases::problem(random, 1..9);
    let minimum = random.pick(&[0, 0, 1, 2]);
    let connected = any_search(random);
    let caller = Caller::start(judge, random, &problem, connected, minimum)?;
    let other = cases::other_own_edges(random, &problem);
    let other = given(random, &other);
    there_and_back(judge, random, caller, (other, connected))
}

/// The same with the other search: its checkpoint is refused if it holds a mapping that is not
/// connected and the second search is to go on, else it is walked.
fn crossed(judge: &mut Judge, random: &mut Random) -> Verdict<()> {
    let problem = cases::problem(random, 1..9);
    let minimum = random.pick(&[0, 0, 1, 2]);
    let first = any_search(random);
    let caller = Caller::start(judge, random, &problem, first, minimum)?;
    let second = match first {
        FIRST_SEARCH => any_connected(random),
        _ => FIRST_SEARCH,
    };
    let given = caller.given.clone();
    there_and_back(judge, random, caller, (given, second))
}

/// The search goes on, is given something else for a while, or is another search, and then what it
/// began with.
fn there_and_back(
    judge: &mut Judge,
    random: &mut Random,
    mut caller: Caller,
    other: (Given, u32),
) -> Verdict<()> {
    let first = (caller.given.clone(), caller.connected);
    for (given, connected) in [first.clone(), other, first] {
        caller.given = given;
        caller.connected = connected;
        caller.read_out(judge, random)?;
        if random.percent(35) {
            let steps = u64::from(caller.has_begun());
            caller.spoilt_resume(judge, random, 40, steps)?;
        }
        let budget = random.within(0..40) as u64;
        caller.resume(judge, random, budget)?;
    }
    caller.read_out(judge, random)
}

/// Searches cut into several calls, mostly never finished.
fn middle(judge: &mut Judge, random: &mut Random) -> Verdict<()> {
    let problem = cases::problem(random, 6..25);
    let minimum = random.pick(&[0, 0, 2, 5, 8]);
    let budgets = |random: &mut Random, _| match random.within(0..10) {
        0 => 0,
        1..6 => random.within(1..30) as u64,
        _ => random.within(30..600) as u64,
    };
    let connected = any_search(random);
    session(judge, random, &problem, connected, minimum, 9, budgets).map(drop)
}

fn large(judge: &mut Judge, random: &mut Random) -> Verdict<()> {
    let least = random.pick(&[40, 40, MAX_VERTICES]);
    let problem = cases::problem(random, least..ANY_ORDER);
    let minimum = random.pick(&[0, 0, 10, 20]);
    let budgets = |random: &mut Random, _| random.within(0..150) as u64;
    let connected = any_search(random);
    session(judge, random, &problem, connected, minimum, 3, budgets).map(drop)
}

/// Walks so long that only the fast one keeps up.
fn long(judge: &mut Judge, random: &mut Random) -> Verdict<()> {
    let problem = cases::problem(random, 20..ANY_ORDER);
    let minimum = random.pick(&[0, 0, 5, 10]);
    let connected = any_search(random);
    let fresh = Checkpoint::fresh(minimum).save();
    let mut caller = Caller::with(random, &problem, connected, fresh);
    let mut search = fast::Search::start(&problem, Sought::from_flag(connected), minimum);
    for _ in 0..3 {
        let budget = random.within(0..60_000) as u64;
        search.advance(budget);
        let next = search.checkpoint().save();
        let call = caller.resume_call(random, budget);
        let expected = call.accepted(&next, search.ceiling() as u64, 0);
        judge.compare_with(Call::Resume(call), expected)?;
        caller.checkpoint = next;
    }
    Ok(())
}

/// Clique branching against the finished walk, with every length of the output near the one
/// needed; then a call with one thing or more wrong in it.
fn clique(judge: &mut Judge, random: &mut Random) -> Verdict<()> {
    let problem = cases::clique_problem(random);
    let finished = |minimum| advance(&problem, Sought::Any, &Checkpoint::fresh(minimum), u64::MAX);
    let mut call = clique_call(random, &problem);
    if random.percent(50) {
        // the greatest size, which is reached, or the one above
        let above = finished(0).cutoff() as u8;
        call.minimum = random.pick(&[above - 1, above - 1, above]);
    }
    let held = finished(call.minimum).incumbent;
    let held = held.as_deref().map(entries_to_bytes);
    for length in near(problem.old.order()) {
        let mut call = call.clone();
        call.mapping = pattern(random, length, MAX_VERTICES);
        let expected = call.holding(held.as_deref());
        judge.compare_with(Call::Clique(call), expected)?;
    }
    spoilt_clique(judge, random, call, &[1, 1, 2, 3])
}

/// Too many old vertices, alone and with other things wrong.
fn crowded(judge: &mut Judge, random: &mut Random) -> Verdict<()> {
    let problem = cases::crowded_problem(random);
    let call = clique_call(random, &problem);
    spoilt_clique(judge, random, call, &[0, 1, 1, 1, 2])
}

fn clique_call(random: &mut Random, problem: &Problem) -> Clique {
    Clique {
        given: given(random, problem),
        minimum: random.pick(&[0, 0, 0, 1, 1, 2, 3, 4, 5, 6, 7, 8, 9, 255]),
        mapping: output(random, MAX_VERTICES, 0),
    }
}

fn spoilt_clique(
    judge: &mut Judge,
    random: &mut Random,
    mut call: Clique,
    times: &[usize],
) -> Verdict<()> {
    for _ in 0..random.pick(times) {
        match random.within(0..5) {
            0 => cases::damage(random, &mut call.given.old),
            1 | 2 => cases::damage(random, &mut call.given.new),
            3 => cases::spoil_substitutes(random, &mut call.given.substitutes),
            _ => {
                let length = random.within(0..CLIQUE_VERTICES);
                call.mapping = pattern(random, length, MAX_VERTICES);
            }
        }
    }
    judge.compare(Call::Clique(call)).map(drop)
}

/// Sizes on both sides of 64, and far above it.
fn limit(judge: &mut Judge, random: &mut Random) -> Verdict<()> {
    let size = |random: &mut Random| match random.within(0..10) {
        0 => MAX_VERTICES as u64 + random.pick(&[0, 1]),
        1 => random.pick(&[255, 256, 1 << 32, (1 << 32) + 7, 1 << 63, u64::MAX]),
        _ => random.within(0..ANY_ORDER) as u64,
    };
    let call = Call::StepLimit {
        new_order: size(random),
        old_order: size(random),
    };
    judge.compare(call).map(drop)
}

/// A finished walk has made no more visits than were foretold.
fn within_limit(judge: &mut Judge, problem: &Problem, finished: &Checkpoint) -> Verdict<()> {
    let call = Call::StepLimit {
        new_order: problem.new.order() as u64,
        old_order: problem.old.order() as u64,
    };
    let limit = judge.compare(call)?.answer.value;
    if finished.steps <= limit {
        Ok(())
    } else {
        Err(format!("{finished:?}, but the limit is {limit}"))
    }
}

/// A list of calls from a fresh checkpoint, refused ones among them. It must lead to the
/// checkpoint of one walk that is never stopped.
fn session(
    judge: &mut Judge,
    random: &mut Random,
    problem: &Problem,
    connected: u32,
    minimum: u8,
    calls: usize,
    budgets: impl Fn(&mut Random, u64) -> u64,
) -> Verdict<Checkpoint> {
    let mut caller = Caller::start(judge, random, problem, connected, minimum)?;
    let mut last = Checkpoint::fresh(minimum);
    let mut granted = 0u64;
    for _ in 0..calls {
        let was_finished = last.finished;
        let budget = budgets(random, last.steps);
        if random.percent(35) {
            caller.spoilt_resume(judge, random, budget, last.steps)?;
        }
        caller.resume(judge, random, budget)?;
        granted = granted.saturating_add(budget);
        if random.percent(35) {
            caller.read_out(judge, random)?;
        }
        last = caller.load(problem)?;
        if was_finished {
            break;
        }
    }
    if let Some(incumbent) = &last.incumbent {
        caller.check_mapping(judge, entries_to_bytes(incumbent))?;
    }
    if last.finished {
        within_limit(judge, problem, &last)?;
    }
    let sought = Sought::from_flag(connected);
    let unbroken = advance(problem, sought, &Checkpoint::fresh(minimum), granted);
    if last == unbroken {
        Ok(last)
    } else {
        Err(format!(
            "the calls lead to {last:?}, one walk of {granted} visits to {unbroken:?}"
        ))
    }
}

/// A list of calls of a descent from its start, refused ones among them. It must lead where one
/// descent leads that is never stopped, in as many visits, by ceilings that do not rise; and where
/// the search from the floor leads, if that is soon through.
fn descent(
    judge: &mut Judge,
    random: &mut Random,
    problem: &Problem,
    connected: u32,
    floor: u8,
    calls: usize,
    budgets: impl Fn(&mut Random, u64) -> u64,
) -> Verdict<Checkpoint> {
    let sought = Sought::from_flag(connected);
    let mut search = fast::Search::start(problem, sought, floor);
    search.advance(SOON);
    let search = Some(search.checkpoint()).filter(|search| search.finished);
    let mut caller = Caller::descend_start(judge, random, problem, connected, floor)?;
    let start = caller.load(problem)?;
    let mut last = start.clone();
    let mut ceiling = u64::MAX;
    let [mut granted, mut visits] = [0u64; 2];
    for _ in 0..calls {
        let was_done = last.finished;
        let budget = budgets(random, last.steps);
        if random.percent(35) {
            caller.spoilt_resume(judge, random, budget, last.steps)?;
        }
        let answer = caller.resume(judge, random, budget)?;
        granted = granted.saturating_add(budget);
        visits += answer.visits;
        if random.percent(35) {
            caller.read_out(judge, random)?;
        }
        last = caller.load(problem)?;
        if answer.ceiling > ceiling {
            return Err(format!("{last:?}: the ceiling rises, from {ceiling}"));
        }
        ceiling = answer.ceiling;
        if let Some(search) = &search {
            leads_to(search, &last, ceiling)?;
        }
        if was_done {
            break;
        }
    }
    if let Some(incumbent) = &last.incumbent {
        caller.check_mapping(judge, entries_to_bytes(incumbent))?;
    }
    if last.finished {
        within_limit(judge, problem, &last)?;
    }
    let unbroken = descend(problem, sought, floor, start, granted);
    let due = if last.finished { unbroken.1 } else { granted };
    if (&last, visits) == (&unbroken.0, due) {
        Ok(last)
    } else {
        Err(format!(
            "the calls lead to {last:?} in {visits} visits, one descent to {unbroken:?}"
        ))
    }
}

/// A descent holds nothing, or already what the search from its floor holds at the end; done, it holds
/// that, and has its ceiling.
fn leads_to(search: &Checkpoint, descent: &Checkpoint, ceiling: u64) -> Verdict<()> {
    let (held, due) = (&descent.incumbent, search.cutoff() as u64);
    let is_led = match descent.finished {
        true => *held == search.incumbent && ceiling == due,
        false => (held.is_none() || *held == search.incumbent) && ceiling >= due,
    };
    if is_led {
        Ok(())
    } else {
        Err(format!(
            "{descent:?}, ceiling {ceiling}, but the search leads to {search:?}"
        ))
    }
}

/// What is held at the end, and the ceiling: one above its size, or the minimum if none is held.
fn agrees_with_brute_force(
    problem: &Problem,
    sought: Sought,
    finished: &Checkpoint,
) -> Verdict<()> {
    let largest = brute::largest(problem, sought);
    let size = brute::size(&largest);
    let minimum = finished.minimum.into();
    let reaches = size >= minimum;
    let expected = reaches.then(|| entries_from_bytes(&largest));
    let due = if reaches { size + 1 } else { minimum };
    let ceiling = ceiling(problem, finished);
    if finished.incumbent == expected && ceiling == due {
        Ok(())
    } else {
        Err(format!(
            "{finished:?}, ceiling {ceiling}, but brute force finds {expected:?}"
        ))
    }
}

/// One who passes a search on as bytes between calls.
struct Caller {
    given: Given,
    connected: u32,
    /// Of a descent; none for a search.
    floor: Option<u8>,
    checkpoint: Vec<u8>,
}

impl Caller {
    fn with(random: &mut Random, problem: &Problem, connected: u32, checkpoint: Vec<u8>) -> Caller {
        Caller {
            given: given(random, problem),
            connected,
            floor: None,
            checkpoint,
        }
    }

    fn start(
        judge: &mut Judge,
        random: &mut Random,
        problem: &Problem,
        connected: u32,
        minimum: u8,
    ) -> Verdict<Caller> {
        let caller = Caller::with(random, problem, connected, Vec::new());
        let outcome = judge.compare(Call::Start {
            given: caller.given.clone(),
            connected,
            minimum,
            checkpoint: output(random, CHECKPOINT_BYTES, 0),
        })?;
        Ok(caller.started(outcome))
    }

    fn descend_start(
        judge: &mut Judge,
        random: &mut Random,
        problem: &Problem,
        connected: u32,
        floor: u8,
    ) -> Verdict<Caller> {
        let mut caller = Caller::with(random, problem, connected, Vec::new());
        caller.floor = Some(floor);
        let outcome = judge.compare(Call::DescendStart {
            given: caller.given.clone(),
            connected,
            floor,
            checkpoint: output(random, CHECKPOINT_BYTES, 0),
        })?;
        Ok(caller.started(outcome))
    }

    fn started(mut self, outcome: Outcome) -> Caller {
        if let Call::Start { checkpoint, .. } | Call::DescendStart { checkpoint, .. } =
            outcome.memory
        {
            self.checkpoint = written(&outcome.answer, &checkpoint);
        }
        self
    }

    /// The next checkpoint takes the place of this one, unless the call is refused.
    fn resume(&mut self, judge: &mut Judge, random: &mut Random, budget: u64) -> Verdict<Answer> {
        let call = Call::Resume(self.resume_call(random, budget));
        let outcome = judge.compare(call)?;
        match outcome.memory {
            Call::Resume(memory) if outcome.answer.is_accepted() => {
                self.checkpoint = written(&outcome.answer, &memory.next);
            }
            _ => {}
        }
        Ok(outcome.answer)
    }

    /// A call with one thing or more wrong in it. What it answers is compared, and dropped.
    fn spoilt_resume(
        &self,
        judge: &mut Judge,
        random: &mut Random,
        budget: u64,
        steps: u64,
    ) -> Verdict<()> {
        let mut call = self.resume_call(random, budget);
        for _ in 0..random.pick(&[1, 1, 2, 3]) {
            spoil(random, &mut call, steps);
        }
        judge.compare(Call::Resume(call)).map(drop)
    }

    fn resume_call(&self, random: &mut Random, budget: u64) -> Resume {
        let spare = random.pick(&[0, 0, 1, 40]);
        Resume {
            given: self.given.clone(),
            connected: self.connected,
            floor: self.floor,
            checkpoint: self.checkpoint.clone(),
            budget,
            workspace: workspace(random, WORKSPACE_WORDS + spare),
            next: output(random, CHECKPOINT_BYTES, 0),
        }
    }

    fn read_out(&self, judge: &mut Judge, random: &mut Random) -> Verdict<()> {
        let call = Call::ReadOut {
            given: self.given.clone(),
            connected: self.connected,
            checkpoint: self.checkpoint.clone(),
            mapping: output(random, MAX_VERTICES, 5),
        };
        judge.compare(call).map(drop)
    }

    fn check_mapping(&self, judge: &mut Judge, mapping: Vec<u8>) -> Verdict<()> {
        let call = Call::CheckMapping {
            given: self.given.clone(),
            mapping,
        };
        judge.compare(call).map(drop)
    }

    /// Whether the steps of the checkpoint, which are its bytes 3 to 10, are not 0.
    fn has_begun(&self) -> bool {
        self.checkpoint[3..11].iter().any(|&byte| byte != 0)
    }

    fn load(&self, problem: &Problem) -> Verdict<Checkpoint> {
        Checkpoint::load(problem, Sought::from_flag(self.connected), &self.checkpoint)
            .map_err(|refusal| format!("a call left {:?}: {refusal:?}", self.checkpoint))
    }
}

fn spoil(random: &mut Random, call: &mut Resume, steps: u64) {
    match random.within(0..7) {
        0 => {
            let words = random.pick(&[0, 1, 100, WORKSPACE_WORDS - 1]);
            call.workspace = workspace(random, words);
        }
        // From a fresh checkpoint this budget overflows nothing: the walk would not end in time.
        1 if steps > 0 => call.budget = u64::MAX,
        2 => cases::damage(random, &mut call.checkpoint),
        3 => {
            let length = random.within(0..call.checkpoint.len() + 1);
            call.checkpoint.truncate(length);
        }
        4 => damage_graph(random, &mut call.given),
        5 => cases::spoil_substitutes(random, &mut call.given.substitutes),
        _ => call.next = output(random, CHECKPOINT_BYTES, 100),
    }
}

/// A buffer that holds a pattern: of `least` bytes or a few more, or at a chance in percent of
/// too few.
fn output(random: &mut Random, least: usize, too_few: usize) -> Buffer<u8> {
    let length = if random.percent(too_few) {
        random.pick(&[0, 1, least / 2, least - 1, least - 1])
    } else {
        least + random.pick(&[0, 0, 1, 30])
    };
    pattern(random, length, least)
}

/// A buffer of so many bytes that holds a pattern.
fn pattern(random: &mut Random, length: usize, needed: usize) -> Buffer<u8> {
    Buffer::filled(random.pick(&[0x55, 0xAA]), length, needed)
}

/// So many words, none of them 0 but by luck.
fn workspace(random: &mut Random, words: usize) -> Buffer<u64> {
    Buffer::filled(random.word(), words, WORKSPACE_WORDS)
}

/// The bytes that an accepted call stored at the front of `buffer`.
fn written(answer: &Answer, buffer: &Buffer<u8>) -> Vec<u8> {
    buffer.lent()[..answer.value as usize].to_vec()
}

fn given(random: &mut Random, problem: &Problem) -> Given {
    Given {
        old: cases::graph_bytes(random, &problem.old),
        new: cases::graph_bytes(random, &problem.new),
        substitutes: problem.substitutes.save(),
    }
}

/// At times damages a graph, makes the list unsound, or does both.
fn spoil_given(random: &mut Random, given: &mut Given) {
    if random.percent(30) {
        damage_graph(random, given);
    }
    if random.percent(30) {
        cases::spoil_substitutes(random, &mut given.substitutes);
    }
}

fn damage_graph(random: &mut Random, given: &mut Given) {
    if random.percent(50) {
        cases::damage(random, &mut given.old)
    } else {
        cases::damage(random, &mut given.new)
    }
}
