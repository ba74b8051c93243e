//! `bench_clique` times the proved clique branching, through the C interface, beside a fast one on
//! the same graphs, in processor time: eight old vertices against more and more new ones, alike and
//! unlinked, which is the worst case, and against panels that they are a part of. Then it says what
//! larger ones would take.

use std::time::Duration;

use harness::fast::clique;
use harness::library::{self, CLIQUE_VERTICES, NO_SUBSTITUTES};
use harness::panels;
use harness::random::Random;
use harness::reference::{Graph, Problem, Substitutes};
use harness::timing::timed;

/// New vertices, with one label for all.
const ALIKE: [usize; 4] = [8, 10, 12, 16];
/// The same, foretold.
const FORETOLD: [usize; 4] = [20, 24, 32, 64];
/// New vertices of a panel, and its labels.
const PANELS: [(usize, u16); 8] = [
    (8, 4),
    (16, 6),
    (32, 8),
    (32, 12),
    (64, 8),
    (64, 12),
    (64, 16),
    (64, 20),
];
const SEEDS: u64 = 20;
/// Shorter calls are made again, and the best time counts.
const LONG: Duration = Duration::from_secs(2);
const ROUNDS: usize = 5;

fn main() {
    println!("eight old vertices against new ones, all alike and unlinked:");
    let mut nanoseconds = 0.0;
    for order in ALIKE {
        let time = time(&alike(order));
        println!("  {order:2} new vertices: {time}");
        nanoseconds = time.proved_per_node();
    }
    println!("foretold, with {nanoseconds:.1} ns a node:");
    for order in FORETOLD {
        let nodes = library::step_limit(order as u64, CLIQUE_VERTICES as u64).value as f64;
        let seconds = nodes * nanoseconds / 1e9;
        let days = seconds / 86_400.0;
        println!("  {order:2} new vertices: {nodes:.1e} nodes, {seconds:.0} s, {days:.1} days");
    }
    println!("eight old vertices against a panel that they are from, dearest of {SEEDS} panels:");
    for (order, labels) in PANELS {
        let cut = |seed| cut_panel(seed, order, labels);
        let dearest = (0..SEEDS).max_by_key(|&seed| clique::branch(&cut(seed), 0).nodes);
        let time = time(&cut(dearest.expect("a panel")));
        println!("  {order:2} new vertices, {labels:2} labels: {time}");
    }
}

fn alike(order: usize) -> Problem {
    let graph = |order| {
        let mut graph = Graph::default();
        (0..order).for_each(|_| graph.add_vertex(7).unwrap());
        graph
    };
    Problem {
        old: graph(CLIQUE_VERTICES),
        new: graph(order),
        substitutes: Substitutes::default(),
    }
}

fn cut_panel(seed: u64, order: usize, labels: u16) -> Problem {
    let mut problem = panels::problem(&mut Random::new(seed), order, labels, 0);
    problem.old = problem.old.first(CLIQUE_VERTICES);
    problem
}

struct Times {
    nodes: u64,
    proved: Duration,
    fast: Duration,
    /// Both hold the same.
    same: bool,
}

impl Times {
    fn proved_per_node(&self) -> f64 {
        self.proved.as_secs_f64() * 1e9 / self.nodes as f64
    }
}

impl std::fmt::Display for Times {
    fn fmt(&self, f: &mut std::fmt::Formatter) -> std::fmt::Result {
        let [proved, fast] = [self.proved, self.fast].map(|time| time.as_secs_f64());
        write!(
            f,
            "{} nodes, proved {:.6} s ({:.1} ns a node), fast {:.6} s, ratio {:.2}{}",
            self.nodes,
            proved,
            self.proved_per_node(),
            fast,
            proved / fast,
            if self.same { "" } else { ", NOT THE SAME" }
        )
    }
}

fn time(problem: &Problem) -> Times {
    let (old, new) = (problem.old.save(), problem.new.save());
    let mut times = Times {
        nodes: 0,
        proved: Duration::MAX,
        fast: Duration::MAX,
        same: true,
    };
    for _ in 0..ROUNDS {
        let mut mapping = vec![0; CLIQUE_VERTICES];
        let mut answer = Default::default();
        let proved =
            timed(|| answer = library::clique(&old, &new, NO_SUBSTITUTES, 0, &mut mapping));
        let mut branched = None;
        let fast = timed(|| branched = Some(clique::branch(problem, 0)));
        let branched = branched.expect("it ran");
        times.nodes = branched.nodes;
        times.proved = times.proved.min(proved);
        times.fast = times.fast.min(fast);
        times.same &= answer.is_accepted() && branched.held == Some(mapping);
        if proved > LONG {
            break;
        }
    }
    times
}
