//! The step limit foretold (02, U5), by both implementations: every pair of sizes, what is capped
//! and what refused, the script that writes the table, and walks that stay within it.

use std::process::Command;

use harness::answer::Answer;
use harness::call::{each, Implementation, LIBRARY, REFERENCE};
use harness::cases;
use harness::fast;
use harness::random::Random;
use harness::reference::Substitutes;
use harness::reference::{advance, uncapped_limits, Checkpoint, Graph, Problem, Sought};

const CAP: u64 = u64::MAX;
const MAX_SIZE: u64 = 64;

fn limit(by: &Implementation, m: u64, n: u64) -> u64 {
    let answer = (by.step_limit)(m, n);
    assert_eq!(
        answer,
        Answer::accepted(answer.value),
        "{} {m} {n}",
        by.name
    );
    answer.value
}

#[test]
fn every_pair_of_sizes_agrees() {
    for m in 0..=MAX_SIZE + 2 {
        for n in 0..=MAX_SIZE + 2 {
            let [library, reference] = [LIBRARY, REFERENCE].map(|by| (by.step_limit)(m, n));
            assert_eq!(library, reference, "{m} {n}");
        }
    }
}

/// "V(2, 2) is 11"; the new size comes first.
#[test]
fn small_sizes() {
    each(|by| {
        for n in 0..=MAX_SIZE {
            assert_eq!(limit(by, 0, n), n + 1);
            assert_eq!(limit(by, n, 0), 1);
            assert_eq!(limit(by, n, 1), n + 2);
        }
        assert_eq!(limit(by, 2, 2), 11);
        assert_eq!(limit(by, 1, 2), 6);
        assert_eq!(limit(by, 3, 2), 18);
        assert_eq!(limit(by, 2, 3), 24);
        // the nodes that clique branching has where eight old vertices lie on any of eight
        assert_eq!(limit(by, 8, 8), 1_952_457);
    });
}

/// "An entry above 2^64 - 1 is stored as 2^64 - 1".
#[test]
fn capped_sizes() {
    each(|by| {
        for (m, n) in [(61, 11), (45, 12), (11, 54)] {
            assert_eq!(limit(by, m, n), CAP);
            assert!(limit(by, m - 1, n) < CAP);
            assert!(limit(by, m, n - 1) < CAP);
        }
        assert_eq!(limit(by, 11, 53), 18_027_476_126_247_161_925);
        let sizes = || 0..=MAX_SIZE;
        let all = sizes().flat_map(|m| sizes().map(move |n| limit(by, m, n)));
        let (capped, below): (Vec<u64>, Vec<u64>) = all.partition(|&value| value == CAP);
        assert_eq!(capped.len(), 2_647);
        assert_eq!(below.iter().max(), Some(&18_027_476_126_247_161_925));
        for n in 0..=10 {
            assert!(limit(by, MAX_SIZE, n) < CAP);
            assert!(limit(by, n, MAX_SIZE) < CAP);
        }
    });
}

/// So a stored cap means more, not just that many.
#[test]
fn no_limit_is_the_cap_itself() {
    assert!(uncapped_limits().iter().flatten().all(|&v| v != CAP.into()));
}

#[test]
fn sizes_above_64_are_26() {
    let refused = Answer {
        number: 26,
        ..Answer::default()
    };
    for by in [LIBRARY, REFERENCE] {
        for above in [65, 66, 128, 255, 256, 320, 1 << 32, 1 << 63, u64::MAX] {
            for other in [0, 1, 64, 65, u64::MAX] {
                assert_eq!((by.step_limit)(above, other), refused);
                assert_eq!((by.step_limit)(other, above), refused);
            }
        }
    }
}

#[test]
fn the_table_is_as_its_script_writes_it() {
    let script = env!("CARGO_BIN_EXE_step_limit_table");
    let written = Command::new(script).output().unwrap();
    assert!(written.status.success());
    let table = include_str!("../../crates/step_limit/src/table.rt");
    assert!(String::from_utf8(written.stdout).unwrap() == table);
}

/// "the walk's total is at most the uncapped V", whatever the minimum, in both searches.
#[test]
fn walks_stay_within_the_limit() {
    for seed in 0..1_000 {
        let mut random = Random::new(seed);
        let problem = cases::problem(&mut random, 0..7);
        let [m, n] = [&problem.new, &problem.old].map(|graph| graph.order() as u64);
        for minimum in [0, 1, 3, 255] {
            for sought in [Sought::Any, Sought::Connected] {
                let last = advance(&problem, sought, &Checkpoint::fresh(minimum), u64::MAX);
                assert!(last.finished);
                assert!(last.steps <= limit(&LIBRARY, m, n), "seed {seed}");
            }
        }
    }
}

/// Where every mapping is common and no bound cuts the tree, it has exactly so many nodes.
#[test]
fn a_whole_tree_has_so_many_nodes() {
    let alike = |order| {
        let mut graph = Graph::default();
        (0..order).for_each(|_| graph.add_vertex(7).unwrap());
        graph
    };
    for n in 0..=6 {
        for m in 0..=6 {
            let problem = Problem {
                old: alike(n),
                new: alike(m),
                substitutes: Substitutes::default(),
            };
            let nodes = fast::clique::branch(&problem, 0).nodes;
            assert_eq!(nodes, limit(&LIBRARY, m as u64, n as u64), "{m} {n}");
        }
    }
}
