//! `bench` times the proved search, through the C interface, beside `fast` on the same graphs, both
//! as the first search and as the connected one. It takes processor time, so that other work on the
//! machine counts less, and the best of several rounds.
//!
//! `bench proved WALK VISITS [connected]` and `bench fast WALK VISITS [connected]` make so many
//! visits of one walk by one of the two alone, untimed, for a program that counts instructions. The
//! script `instructions` beside `run` does this with valgrind, and divides by the visits.

use std::env;
use std::mem;
use std::process::ExitCode;
use std::time::Duration;

use harness::answer::Answer;
use harness::cases::{graph, Style};
use harness::fast::Search;
use harness::library::{
    self, CHECKPOINT_BYTES, CONNECTED_SEARCH, FIRST_SEARCH, MAX_VERTICES, NO_SUBSTITUTES,
    SUBSTITUTES_BYTES, UNMAPPED, WORKSPACE_WORDS,
};
use harness::panels;
use harness::random::Random;
use harness::reference::{Checkpoint, Graph, Problem, Sought, Substitutes};
use harness::timing::timed;

/// A walk of 20 million visits is timed in slices.
const SLICES: usize = 20;
const SLICE: u64 = 1_000_000;
const ROUNDS: usize = 5;
const CALLS: u32 = 200;
const TESTS: u32 = 2000;
const WANTED_RATIO: f64 = 2.0;
/// What a visit of the connected search takes, over what one of the first search takes.
const WANTED_CONNECTED: f64 = 1.1;
const WANTED_MICROSECONDS: f64 = 100.0;

enum Shape {
    /// Two random graphs of so many vertices and labels; the density is the chance of an edge, in
    /// percent.
    Random {
        order: usize,
        vertex_labels: u16,
        edge_labels: u8,
        density: usize,
    },
    /// A panel and its changed copy, with the chance of an own edge in percent. The seeds below are
    /// among those whose walks are long.
    Panel {
        order: usize,
        vertex_labels: u16,
        holding: usize,
        seed: u64,
    },
    /// Two graphs of 64 vertices and all edges, with so many labels each and none in common: each
    /// label has one substitute.
    Strangers { vertex_labels: u16 },
}

const WALKS: [Shape; 14] = [
    random(40, 2, 1, 30),
    random(48, 2, 1, 30),
    random(48, 3, 2, 30),
    random(56, 2, 2, 30),
    random(64, 2, 1, 30),
    random(64, 3, 1, 30),
    panel(40, 12, 15),
    panel(48, 12, 19),
    panel(56, 16, 7),
    panel(56, 16, 13),
    panel(64, 20, 0),
    panel(64, 20, 21),
    holding_panel(56, 10, 30, 3),
    holding_panel(64, 12, 30, 22),
];

const SINGLE_CALLS: [Shape; 5] = [
    random(64, 2, 1, 30),
    random(64, 1, 1, 100),
    random(64, 1, 3, 100),
    random(64, 1, 1, 0),
    panel(64, 20, 0),
];

/// Whose soundness test is timed: with many unused edge bytes, with some, with none.
const TESTED: [Shape; 6] = [
    random(1, 1, 1, 0),
    random(8, 2, 1, 30),
    random(24, 2, 1, 30),
    random(40, 2, 1, 30),
    random(57, 2, 1, 30),
    random(64, 2, 1, 30),
];

/// Timed with a full list.
const LISTED_CALLS: [Shape; 5] = [
    random(64, 2, 1, 30),
    panel(64, 20, 0),
    strangers(1),
    strangers(8),
    strangers(64),
];

const fn random(order: usize, vertex_labels: u16, edge_labels: u8, density: usize) -> Shape {
    Shape::Random {
        order,
        vertex_labels,
        edge_labels,
        density,
    }
}

const fn panel(order: usize, vertex_labels: u16, seed: u64) -> Shape {
    holding_panel(order, vertex_labels, 0, seed)
}

const fn holding_panel(order: usize, vertex_labels: u16, holding: usize, seed: u64) -> Shape {
    Shape::Panel {
        order,
        vertex_labels,
        holding,
        seed,
    }
}

const fn strangers(vertex_labels: u16) -> Shape {
    Shape::Strangers { vertex_labels }
}

fn main() -> ExitCode {
    let arguments: Vec<String> = env::args().skip(1).collect();
    let arguments: Vec<&str> = arguments.iter().map(String::as_str).collect();
    match arguments[..] {
        [] => time_all(),
        [side, walk, visits] => return walk_alone(side, walk, visits, FIRST_SEARCH),
        [side, walk, visits, "connected"] => {
            return walk_alone(side, walk, visits, CONNECTED_SEARCH)
        }
        _ => return usage(),
    }
    ExitCode::SUCCESS
}

fn usage() -> ExitCode {
    eprintln!("bench\nbench proved WALK VISITS [connected]\nbench fast WALK VISITS [connected]");
    eprintln!("walks:");
    for (number, shape) in WALKS.iter().enumerate() {
        eprintln!("  {number:2}: {shape}");
    }
    ExitCode::from(2)
}

fn walk_alone(side: &str, walk: &str, visits: &str, connected: u32) -> ExitCode {
    match visits_alone(side, walk, visits, connected) {
        Some(steps) => println!("{steps} visits"),
        None => return usage(),
    }
    ExitCode::SUCCESS
}

/// How many visits were made: fewer if the walk is finished.
fn visits_alone(side: &str, walk: &str, visits: &str, connected: u32) -> Option<u64> {
    let problem = WALKS.get(walk.parse::<usize>().ok()?)?.problem();
    let visits = visits.parse().ok()?;
    match side {
        "proved" => {
            let mut library = LibrarySearch::start(&problem, connected);
            library.advance(visits);
            let reported = library.reported(&problem);
            reported.map(|checkpoint| checkpoint.steps)
        }
        "fast" => {
            let mut search = Search::start(&problem, Sought::from_flag(connected), 0);
            search.advance(visits);
            Some(search.checkpoint().steps)
        }
        _ => None,
    }
}

fn time_all() {
    println!("walks of {SLICES} * {SLICE} visits, best of {ROUNDS} rounds:");
    let walks = WALKS.map(|shape| {
        let walks = time_walks(&shape);
        println!("  {shape}: {}", walks[0]);
        walks
    });
    println!("the same walks of the connected search, and a visit over one of the first search:");
    let slowdowns = walks
        .each_ref()
        .map(|[first, connected]| connected.proved / first.proved);
    for ((shape, [_, connected]), slowdown) in WALKS.iter().zip(&walks).zip(slowdowns) {
        println!("  {shape}: {connected}, over the first {slowdown:.2}");
    }
    println!("soundness tests, best of {ROUNDS} rounds of {TESTS} calls:");
    TESTED.iter().for_each(time_soundness);
    println!("calls of one visit, best of {ROUNDS} rounds of {CALLS} calls:");
    let calls = SINGLE_CALLS.map(|shape| time_calls(&shape, FIRST_SEARCH));
    println!("the same with {SUBSTITUTES_BYTES} bytes of substitutes:");
    let listed_calls = LISTED_CALLS.map(|shape| time_listed_calls(&shape));
    println!("calls of one visit of the connected search, with the empty list:");
    let connected_calls = SINGLE_CALLS.map(|shape| time_calls(&shape, CONNECTED_SEARCH));

    let same = walks.as_flattened().iter().all(|walk| walk.same);
    println!("same steps, incumbents and ceilings: {}", yes_or_no(same));
    let worst = |search: usize| walks.iter().map(move |walks| walks[search].ratio());
    at_most("ratio", WANTED_RATIO, worst(0));
    at_most("ratio in the connected search", WANTED_RATIO, worst(1));
    at_most("connected over first search", WANTED_CONNECTED, slowdowns);
    let all_calls = calls.into_iter().chain(listed_calls).chain(connected_calls);
    let worst_call = all_calls.fold(0.0, f64::max);
    println!(
        "a call below {WANTED_MICROSECONDS} microseconds: {} (worst {worst_call:.1})",
        yes_or_no(worst_call < WANTED_MICROSECONDS)
    );
}

fn at_most(what: &str, wanted: f64, of_walks: impl IntoIterator<Item = f64>) {
    let worst = of_walks.into_iter().fold(0.0, f64::max);
    let holds = yes_or_no(worst <= wanted);
    println!("{what} at most {wanted}: {holds} (worst {worst:.2})");
}

fn yes_or_no(holds: bool) -> &'static str {
    if holds {
        "yes"
    } else {
        "NO"
    }
}

/// What a walk took of both sides, and whether they report the same.
struct Walk {
    /// Nanoseconds a visit.
    proved: f64,
    fast: f64,
    steps: u64,
    same: bool,
}

impl Walk {
    fn ratio(&self) -> f64 {
        self.proved / self.fast
    }
}

impl std::fmt::Display for Walk {
    fn fmt(&self, f: &mut std::fmt::Formatter) -> std::fmt::Result {
        let Walk { proved, fast, .. } = self;
        let ratio = self.ratio();
        write!(
            f,
            "proved {proved:5.1} ns a visit, fast {fast:5.1} ns, ratio {ratio:.2}"
        )?;
        match self.steps < SLICES as u64 * SLICE {
            true => write!(f, ", finished after {}", self.steps),
            false => Ok(()),
        }
    }
}

/// The walk of the first search and that of the connected one. Both sides of both walk on in turn,
/// slice by slice, and each slice counts with its best time.
fn time_walks(shape: &Shape) -> [Walk; 2] {
    let problem = shape.problem();
    let mut timings = [FIRST_SEARCH, CONNECTED_SEARCH].map(Timing::new);
    for _ in 0..ROUNDS {
        let mut rounds = timings
            .each_mut()
            .map(|timing| Round::begin(&problem, timing));
        for slice in 0..SLICES {
            rounds.iter_mut().for_each(|round| round.walk(slice));
        }
        rounds.into_iter().for_each(|round| round.end(&problem));
    }
    timings.map(Timing::walk)
}

/// The best times of the slices of one search.
struct Timing {
    connected: u32,
    proved: [Duration; SLICES],
    fast: [Duration; SLICES],
    steps: u64,
    same: bool,
}

impl Timing {
    fn new(connected: u32) -> Timing {
        Timing {
            connected,
            proved: [Duration::MAX; SLICES],
            fast: [Duration::MAX; SLICES],
            steps: 0,
            same: true,
        }
    }

    fn walk(self) -> Walk {
        let [proved, fast] = [self.proved, self.fast].map(|slices| {
            let whole: Duration = slices.iter().sum();
            whole.as_secs_f64() * 1e9 / self.steps as f64
        });
        Walk {
            proved,
            fast,
            steps: self.steps,
            same: self.same,
        }
    }
}

struct Round<'a> {
    timing: &'a mut Timing,
    library: LibrarySearch,
    search: Search,
    ceiling: u64,
}

impl Round<'_> {
    fn begin<'a>(problem: &Problem, timing: &'a mut Timing) -> Round<'a> {
        let connected = timing.connected;
        Round {
            timing,
            library: LibrarySearch::start(problem, connected),
            search: Search::start(problem, Sought::from_flag(connected), 0),
            ceiling: 0,
        }
    }

    fn walk(&mut self, slice: usize) {
        let proved = timed(|| self.ceiling = self.library.advance(SLICE));
        let fast = timed(|| self.search.advance(SLICE));
        let timing = &mut self.timing;
        timing.proved[slice] = timing.proved[slice].min(proved);
        timing.fast[slice] = timing.fast[slice].min(fast);
    }

    fn end(self, problem: &Problem) {
        let due = self.search.checkpoint();
        self.timing.steps = due.steps;
        self.timing.same &= self.library.reported(problem) == Some(due);
        self.timing.same &= self.ceiling == self.search.ceiling() as u64;
    }
}

/// A check of a mapping that leaves all out reads both graphs, tests both and does little else.
fn time_soundness(shape: &Shape) {
    let problem = shape.problem();
    let [old, new] = [&problem.old, &problem.new].map(Graph::save);
    let mapping = vec![UNMAPPED; problem.old.order()];
    let check = best_of_rounds(TESTS, || {
        accepted(library::check_mapping(&old, &new, NO_SUBSTITUTES, &mapping));
    });
    let read = best_of_rounds(TESTS, || {
        accepted(library::check_graph(&old));
        accepted(library::check_graph(&new));
    });
    println!(
        "  {shape}: both graphs {:.2} us, read before that in {read:.2} us",
        check - read
    );
}

/// The microseconds of one call, in the best round of so many calls.
fn best_of_rounds(calls: u32, mut call: impl FnMut()) -> f64 {
    let rounds = (0..ROUNDS).map(|_| timed(|| (0..calls).for_each(|_| call())));
    rounds.min().unwrap_or_default().as_secs_f64() * 1e6 / f64::from(calls)
}

/// The microseconds of one call from the dearest of three checkpoints: fresh, on the first way
/// down, and late.
fn time_calls(shape: &Shape, connected: u32) -> f64 {
    let problem = shape.problem();
    let mut library = LibrarySearch::start(&problem, connected);
    let times = [0, 40, 100_000].map(|visits| {
        library.advance(visits);
        library.single_call_time()
    });
    let [fresh, down, late] = times;
    println!("  {shape}: {fresh:.1} us fresh, {down:.1} us after 40 visits, {late:.1} us later");
    times.into_iter().fold(0.0, f64::max)
}

/// The microseconds of the dearest of three calls: from a fresh checkpoint with the empty list and
/// with a full one, and with that after 65 visits. Between strangers a mapping of all vertices is
/// held by then, and it and the path go through the list's last pairs.
fn time_listed_calls(shape: &Shape) -> f64 {
    let mut problem = shape.problem();
    let last = mem::take(&mut problem.substitutes.pairs);
    let empty = LibrarySearch::start(&problem, FIRST_SEARCH).single_call_time();

    // the pairs before are about the old labels too, and let none agree
    let before = (0..SUBSTITUTES_BYTES / 4 - last.len())
        .map(|number| [problem.old.label(number % MAX_VERTICES), UNUSED_LABEL]);
    problem.substitutes.pairs = before.chain(last).collect();
    let mut library = LibrarySearch::start(&problem, FIRST_SEARCH);
    let fresh = library.single_call_time();
    library.advance(MAX_VERTICES as u64 + 1);
    let down = library.single_call_time();
    println!(
        "  {shape}: {fresh:.1} us fresh, {down:.1} us after 65 visits; \
        with the empty list {empty:.1} us fresh"
    );
    empty.max(fresh).max(down)
}

impl Shape {
    fn problem(&self) -> Problem {
        match *self {
            Shape::Random {
                order,
                vertex_labels,
                edge_labels,
                density,
            } => {
                let mut random = Random::new(order as u64);
                let style = Style {
                    vertex_labels: (1..=vertex_labels).collect(),
                    edge_labels: (1..=edge_labels).collect(),
                    density,
                    own: 0,
                };
                let mut one = || graph(&mut random, &style, order);
                Problem {
                    old: one(),
                    new: one(),
                    substitutes: Substitutes::default(),
                }
            }
            Shape::Panel {
                order,
                vertex_labels,
                holding,
                seed,
            } => panels::problem(&mut Random::new(seed), order, vertex_labels, holding),
            Shape::Strangers { vertex_labels } => {
                let substitutes = (0..vertex_labels)
                    .map(|label| [OLD_LABEL, NEW_LABEL].map(|first| first + label));
                Problem {
                    old: complete(OLD_LABEL, vertex_labels),
                    new: complete(NEW_LABEL, vertex_labels),
                    substitutes: Substitutes {
                        pairs: substitutes.collect(),
                    },
                }
            }
        }
    }
}

/// The first labels of strangers, and one that no graph here has.
const OLD_LABEL: u16 = 1;
const NEW_LABEL: u16 = 101;
const UNUSED_LABEL: u16 = 255;

/// 64 vertices, whose labels go round from `first` on, and all edges.
fn complete(first: u16, vertex_labels: u16) -> Graph {
    let mut graph = Graph::default();
    for vertex in 0..MAX_VERTICES {
        let label = first + vertex as u16 % vertex_labels;
        graph.add_vertex(label).unwrap();
        for earlier in 0..vertex {
            graph.add_edge(earlier, vertex, 1).unwrap();
        }
    }
    graph
}

impl std::fmt::Display for Shape {
    fn fmt(&self, f: &mut std::fmt::Formatter) -> std::fmt::Result {
        match self {
            Shape::Random {
                order,
                vertex_labels,
                edge_labels,
                density,
            } => write!(
                f,
                "{order} vertices, {vertex_labels:2} + {edge_labels} labels, density {density:3} %"
            ),
            Shape::Panel {
                order,
                vertex_labels,
                holding,
                seed,
            } => {
                write!(
                    f,
                    "{order} vertices, {vertex_labels} + 3 labels, panel seed {seed:2}"
                )?;
                match holding {
                    0 => Ok(()),
                    _ => write!(f, ", own edges {holding} %"),
                }
            }
            Shape::Strangers { vertex_labels } => write!(
                f,
                "{MAX_VERTICES} vertices, {vertex_labels:2} + 1 labels, none in common"
            ),
        }
    }
}

/// A search through the C interface.
struct LibrarySearch {
    old: Vec<u8>,
    new: Vec<u8>,
    substitutes: Vec<u8>,
    connected: u32,
    checkpoint: Vec<u8>,
    workspace: Vec<u64>,
}

impl LibrarySearch {
    fn start(problem: &Problem, connected: u32) -> LibrarySearch {
        let (old, new) = (problem.old.save(), problem.new.save());
        let substitutes = problem.substitutes.save();
        let mut checkpoint = vec![0; CHECKPOINT_BYTES];
        let answer = library::start(&old, &new, &substitutes, connected, 0, &mut checkpoint);
        checkpoint.truncate(accepted(answer).value as usize);
        LibrarySearch {
            old,
            new,
            substitutes,
            connected,
            checkpoint,
            workspace: vec![0; WORKSPACE_WORDS],
        }
    }

    /// Answers the ceiling.
    fn advance(&mut self, budget: u64) -> u64 {
        let mut next = vec![0; CHECKPOINT_BYTES];
        let answer = accepted(self.resume(budget, &mut next));
        next.truncate(answer.value as usize);
        self.checkpoint = next;
        answer.ceiling
    }

    /// The checkpoint, if it is in shape.
    fn reported(&self, problem: &Problem) -> Option<Checkpoint> {
        Checkpoint::load(problem, Sought::from_flag(self.connected), &self.checkpoint).ok()
    }

    /// The microseconds of one call of one visit.
    fn single_call_time(&mut self) -> f64 {
        let mut next = [0; CHECKPOINT_BYTES];
        best_of_rounds(CALLS, || {
            accepted(self.resume(1, &mut next));
        })
    }

    fn resume(&mut self, budget: u64, next: &mut [u8]) -> Answer {
        let LibrarySearch {
            old,
            new,
            substitutes,
            connected,
            checkpoint,
            workspace,
        } = self;
        let search = *connected;
        library::resume(
            old,
            new,
            substitutes,
            search,
            checkpoint,
            budget,
            workspace,
            next,
        )
    }
}

fn accepted(answer: Answer) -> Answer {
    assert!(answer.is_accepted(), "refused: {answer:?}");
    answer
}
