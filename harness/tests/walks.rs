//! The reference against brute force and against its own clique branching, and the fast walk and the
//! fast descent against the reference.

use harness::brute;
use harness::cases;
use harness::fast::{self, descend::Descent, Search};
use harness::panels;
use harness::random::Random;
use harness::reference::{advance, ceiling, clique_branch, descend, descent_ceiling};
use harness::reference::{entries_from_bytes, start_minimum, Checkpoint, Problem, Sought};

const SEARCHES: [Sought; 2] = [Sought::Any, Sought::Connected];

/// The finished search holds the first of the largest, if it reaches the minimum; its ceiling is one
/// above, or the minimum. The second search takes no fewer steps than the first, and often the two
/// find another mapping, or one of another size.
#[test]
fn reference_finds_what_brute_force_finds() {
    let [mut others, mut smaller] = [0; 2];
    for seed in 0..2_000 {
        let mut random = Random::new(seed);
        let problem = cases::problem(&mut random, 0..6);
        let minimum = random.within(0..5) as u8;
        let [(any, steps), (connected, more_steps)] = SEARCHES.map(|sought| {
            let last = advance(&problem, sought, &Checkpoint::fresh(minimum), u64::MAX);
            let largest = brute::largest(&problem, sought);
            let size = brute::size(&largest);
            let reaches = size >= minimum.into();
            let expected = reaches.then(|| entries_from_bytes(&largest));
            assert!(last.finished);
            assert_eq!(last.incumbent, expected, "seed {seed}, {sought:?}");
            let due = if reaches { size + 1 } else { minimum.into() };
            assert_eq!(ceiling(&problem, &last), due, "seed {seed}, {sought:?}");
            (largest, last.steps)
        });
        assert!(steps <= more_steps, "seed {seed}");
        others += usize::from(any != connected);
        smaller += usize::from(brute::size(&any) > brute::size(&connected));
    }
    assert!(others > 300 && smaller > 300, "{others}, {smaller}");
}

/// 02, U2: "the same matching as the finished walk for the same floor".
#[test]
fn clique_branching_holds_what_the_walk_holds() {
    for seed in 0..2_000 {
        let mut random = Random::new(seed);
        let problem = cases::clique_problem(&mut random);
        for minimum in [0, 1, 2, 4, 8, 9, 255] {
            let last = advance(&problem, Sought::Any, &Checkpoint::fresh(minimum), u64::MAX);
            let held = clique_branch(&problem, minimum);
            let fast = fast::clique::branch(&problem, minimum).held;
            let fast = fast.map(|bytes| entries_from_bytes(&bytes));
            assert_eq!(fast, last.incumbent, "seed {seed}, minimum {minimum}");
            assert_eq!(held, Ok(last.incumbent), "seed {seed}, minimum {minimum}");
        }
    }
}

/// The fast walk stops where the reference does, wherever it is cut.
fn walk_alike(seed: u64, random: &mut Random, problem: &Problem, calls: usize, budgets: usize) {
    let minimum = random.pick(&[0, 0, 1, 3, 6]);
    let sought = random.pick(&SEARCHES);
    let mut fast = Search::start(problem, sought, minimum);
    let mut plain = Checkpoint::fresh(minimum);
    for _ in 0..calls {
        let budget = random.within(0..budgets) as u64;
        fast.advance(budget);
        plain = advance(problem, sought, &plain, budget);
        assert_eq!(fast.checkpoint(), plain, "seed {seed}");
        assert_eq!(fast.ceiling(), ceiling(problem, &plain), "seed {seed}");
    }
}

#[test]
fn fast_walks_as_the_reference() {
    for seed in 0..3_000 {
        let mut random = Random::new(seed);
        let problem = cases::problem(&mut random, 0..16);
        walk_alike(seed, &mut random, &problem, 8, 100);
    }
}

#[test]
fn fast_walks_large_graphs_as_the_reference() {
    for seed in 0..80 {
        let mut random = Random::new(seed);
        let problem = cases::problem(&mut random, 40..65);
        walk_alike(seed, &mut random, &problem, 3, 400);
    }
}

#[test]
fn fast_descends_as_the_reference() {
    for seed in 0..1_000 {
        let mut random = Random::new(seed);
        let problem = match random.percent(50) {
            true => cases::problem(&mut random, 0..16),
            false => panels::edited(&mut random, 12, 4, 3),
        };
        let floor = random.pick(&[0, 0, 1, 3, 6]);
        let sought = random.pick(&SEARCHES);
        let mut fast = Descent::start(&problem, sought, floor);
        let mut plain = Checkpoint::fresh(start_minimum(&problem, floor));
        for _ in 0..8 {
            let budget = random.within(0..100) as u64;
            let visits = fast.advance(budget);
            let (after, made) = descend(&problem, sought, floor, plain, budget);
            plain = after;
            assert_eq!(visits, made, "seed {seed}");
            assert_eq!(fast.checkpoint(), plain, "seed {seed}");
            let ceiling = descent_ceiling(&problem, &plain);
            assert_eq!(fast.ceiling(), ceiling, "seed {seed}");
        }
    }
}
