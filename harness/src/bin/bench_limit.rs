//! `bench_limit` shows the step limit foretold beside the steps that searches took, on panels of
//! several sizes and copies of them, and where all vertices are alike; then the steps of the
//! connected search on the same panels, and how often it maps fewer vertices. What is not through
//! after so many steps is left.

use harness::library::{
    self, CHECKPOINT_BYTES, CONNECTED_SEARCH, FIRST_SEARCH, NO_SUBSTITUTES, WORKSPACE_WORDS,
};
use harness::panels;
use harness::random::Random;
use harness::reference::{Graph, Problem, Substitutes};

/// Orders of a panel and its copy, and its labels.
const PANELS: [(usize, u16); 6] = [(8, 4), (12, 5), (16, 6), (24, 8), (40, 12), (64, 20)];
/// Orders of two graphs whose vertices are all alike and unlinked.
const ALIKE: [usize; 4] = [4, 8, 16, 64];
const SEEDS: u64 = 20;
const MINIMUM: u8 = 1;
const BUDGET: u64 = 200_000_000;

fn main() {
    println!("a panel and its copy, median and most of {SEEDS}:");
    let panels = PANELS.map(|(order, labels)| {
        let problem = |seed| panels::problem(&mut Random::new(seed), order, labels, 0);
        let problems: Vec<Problem> = (0..SEEDS).map(problem).collect();
        let found = all_found(&problems, FIRST_SEARCH);
        let (limit, steps) = (limit(order), steps_of(&found));
        println!("  {order:2} vertices, {labels:2} labels: limit {limit}, steps {steps}");
        (problems, found)
    });
    println!("two graphs, all vertices alike and unlinked:");
    for order in ALIKE {
        let found = found(&alike(order), FIRST_SEARCH);
        let (limit, steps) = (limit(order), told(found.map(|found| found.steps)));
        println!("  {order:2} vertices: limit {limit}, steps {steps}");
    }
    println!("the panels in the connected search:");
    for ((order, labels), (problems, first)) in PANELS.into_iter().zip(panels) {
        let connected = all_found(&problems, CONNECTED_SEARCH);
        let both = first.iter().zip(&connected).filter_map(|(&a, &b)| a.zip(b));
        let (smaller, same): (Vec<_>, Vec<_>) = both.partition(|(a, b)| b.size < a.size);
        let (smaller, through) = (smaller.len(), smaller.len() + same.len());
        let steps = steps_of(&connected);
        println!(
            "  {order:2} vertices, {labels:2} labels: steps {steps}, \
            fewer vertices in {smaller} of {through}"
        );
    }
}

/// What a whole search took and found.
#[derive(Clone, Copy)]
struct Found {
    steps: u64,
    size: u64,
}

fn all_found(problems: &[Problem], connected: u32) -> Vec<Option<Found>> {
    let found = problems.iter().map(|problem| found(problem, connected));
    found.collect()
}

/// The median and the most. Those that are not through come last.
fn steps_of(found: &[Option<Found>]) -> String {
    let steps = found.iter().map(|found| found.map(|found| found.steps));
    let mut steps: Vec<_> = steps.collect();
    steps.sort_by_key(|steps| steps.unwrap_or(u64::MAX));
    let [median, most] = [steps.len() / 2, steps.len() - 1].map(|at| told(steps[at]));
    format!("{median}, {most}")
}

fn limit(order: usize) -> String {
    match library::step_limit(order as u64, order as u64).value {
        u64::MAX => "2^64 - 1 or more".into(),
        limit => limit.to_string(),
    }
}

fn told(steps: Option<u64>) -> String {
    steps.map_or(format!("more than {BUDGET}"), |steps| steps.to_string())
}

fn alike(order: usize) -> Problem {
    let mut graph = Graph::default();
    (0..order).for_each(|_| graph.add_vertex(7).unwrap());
    Problem {
        old: graph.clone(),
        new: graph,
        substitutes: Substitutes::default(),
    }
}

/// If the search is through within the budget.
fn found(problem: &Problem, search: u32) -> Option<Found> {
    let (old, new) = (problem.old.save(), problem.new.save());
    let mut fresh = [0; CHECKPOINT_BYTES];
    let list = NO_SUBSTITUTES;
    let started = library::start(&old, &new, list, search, MINIMUM, &mut fresh);
    let fresh = &fresh[..started.value as usize];
    let mut workspace = [0; WORKSPACE_WORDS];
    let mut last = [0; CHECKPOINT_BYTES];
    let (budget, words, room) = (BUDGET, &mut workspace, &mut last);
    let resumed = library::resume(&old, &new, list, search, fresh, budget, words, room);
    let last = &last[..resumed.value as usize];
    let read = library::read_out(&old, &new, list, search, last, &mut [0; 64]);
    assert!(read.is_accepted());
    (read.value >= 2).then_some(Found {
        steps: read.steps,
        size: read.size,
    })
}
