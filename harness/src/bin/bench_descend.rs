//! `bench_descend` shows the steps and the processor time of the search with minimum 1 beside those
//! of the descent with floor 1: on panels and copies of them after some edits, on those of
//! `bench_limit`, of which a fifth is changed, and on small graphs that are not alike; then those of
//! the connected search on the same panels. What is not through after so many steps is left.

use std::time::Duration;

use harness::answer::Answer;
use harness::cases::{self, Style};
use harness::library::{self, CHECKPOINT_BYTES, CONNECTED_SEARCH, FIRST_SEARCH};
use harness::library::{MAX_VERTICES, NO_SUBSTITUTES, WORKSPACE_WORDS};
use harness::panels;
use harness::random::Random;
use harness::reference::{Problem, Substitutes};
use harness::timing::timed;

/// Orders of a panel and its copy, its labels, and the edits.
const EDITED: [(usize, u16, usize); 4] = [(40, 5, 8), (48, 6, 8), (56, 8, 10), (64, 8, 10)];
/// Orders of a panel and its copy, and its labels.
const CHANGED: [(usize, u16); 3] = [(24, 8), (40, 12), (64, 20)];
/// Orders of two random graphs, and their labels.
const UNLIKE: [(usize, u16); 5] = [(8, 1), (8, 2), (12, 2), (16, 4), (24, 6)];
const SEEDS: u64 = 20;
/// The minimum of the search, and the floor of the descent.
const LEAST: u8 = 1;
const BUDGET: u64 = 200_000_000;

fn main() {
    println!("through of {SEEDS}; steps, median and most; processor time of all");
    compare_panels(FIRST_SEARCH);
    println!("two random graphs, half of all edges:");
    for (order, labels) in UNLIKE {
        let name = format!("{order:2} vertices, {labels:2} labels");
        let problem = |random: &mut Random| unlike(random, order, labels);
        compare(&name, FIRST_SEARCH, problem);
    }
    println!("the panels in the connected search:");
    compare_panels(CONNECTED_SEARCH);
}

fn compare_panels(connected: u32) {
    println!("a panel and its copy after edits:");
    for (order, labels, edits) in EDITED {
        let name = format!("{order:2} vertices, {labels:2} labels, {edits:2} edits");
        let problem = |random: &mut Random| panels::edited(random, order, labels, edits);
        compare(&name, connected, problem);
    }
    println!("a panel and its copy, a fifth of the vertices changed:");
    for (order, labels) in CHANGED {
        let name = format!("{order:2} vertices, {labels:2} labels");
        let problem = |random: &mut Random| panels::problem(random, order, labels, 0);
        compare(&name, connected, problem);
    }
}

fn compare(name: &str, connected: u32, problem: impl Fn(&mut Random) -> Problem) {
    let problems: Vec<Problem> = (0..SEEDS)
        .map(|seed| problem(&mut Random::new(seed)))
        .collect();
    let [search, descent] = [Way::Search, Way::Descent].map(|way| {
        let walks = problems.iter().map(|problem| walk(problem, connected, way));
        walks.collect::<Vec<Walk>>()
    });
    for (search, descent) in search.iter().zip(&descent) {
        assert!(!search.through || !descent.through || search.held == descent.held);
    }
    println!("  {name}:");
    println!("    search  {}", told(&search));
    println!("    descent {}", told(&descent));
}

#[derive(Clone, Copy)]
enum Way {
    Search,
    Descent,
}

/// How far one came, and what it holds.
struct Walk {
    through: bool,
    steps: u64,
    time: Duration,
    held: Vec<u8>,
}

/// Those that are not through come last.
fn told(walks: &[Walk]) -> String {
    let steps = |walk: &Walk| match walk.through {
        true => walk.steps,
        false => u64::MAX,
    };
    let through = walks.iter().filter(|walk| walk.through).count();
    let time: Duration = walks.iter().map(|walk| walk.time).sum();
    let mut steps: Vec<u64> = walks.iter().map(steps).collect();
    steps.sort();
    let [median, most] = [steps.len() / 2, steps.len() - 1].map(|at| match steps[at] {
        u64::MAX => format!("more than {BUDGET}"),
        steps => steps.to_string(),
    });
    let seconds = time.as_secs_f64();
    format!("{through:2}; {median}, {most}; {seconds:.4} s")
}

/// Two graphs that were not made from each other.
fn unlike(random: &mut Random, order: usize, labels: u16) -> Problem {
    let style = Style {
        vertex_labels: (1..=labels).collect(),
        edge_labels: vec![1],
        density: 50,
        own: 0,
    };
    Problem {
        old: cases::graph(random, &style, order),
        new: cases::graph(random, &style, order),
        substitutes: Substitutes::default(),
    }
}

fn walk(problem: &Problem, search: u32, way: Way) -> Walk {
    let (old, new) = (problem.old.save(), problem.new.save());
    let list = NO_SUBSTITUTES;
    let mut fresh = [0; CHECKPOINT_BYTES];
    let mut words = [0; WORKSPACE_WORDS];
    let mut last = [0; CHECKPOINT_BYTES];
    let (mut resumed, mut mapping) = (Answer::default(), [0; MAX_VERTICES]);
    let time = timed(|| {
        let start = match way {
            Way::Search => library::start,
            Way::Descent => library::descend_start,
        };
        let started = start(&old, &new, list, search, LEAST, &mut fresh);
        let fresh = &fresh[..started.value as usize];
        let (words, last) = (&mut words, &mut last);
        resumed = match way {
            Way::Search => library::resume(&old, &new, list, search, fresh, BUDGET, words, last),
            Way::Descent => {
                library::descend_resume(&old, &new, list, search, LEAST, fresh, BUDGET, words, last)
            }
        };
    });
    let last = &last[..resumed.value as usize];
    let read = library::read_out(&old, &new, list, search, last, &mut mapping);
    assert!(read.is_accepted());
    Walk {
        through: read.value >= 2,
        steps: match way {
            Way::Search => read.steps,
            Way::Descent => resumed.visits,
        },
        time,
        held: mapping.to_vec(),
    }
}
