//! The descent, which is beyond 01 and 02: from include/golfcedar.h.

use super::{advance, ceiling, size, Checkpoint, Node, Problem, Sought};

/// No mapping has more pairs than this, unless it is the floor.
pub fn start_minimum(problem: &Problem, floor: u8) -> u8 {
    let [old, new] = [&problem.old, &problem.new].map(|graph| graph.order());
    let most = old.min(new).min(Node::root(problem).upper_bound());
    floor.max(most as u8)
}

/// The checkpoint after as many visits as the budget says, fewer only if the descent is done, and
/// how many were made. The sum of steps and budget must not overflow.
pub fn descend(
    problem: &Problem,
    sought: Sought,
    floor: u8,
    checkpoint: Checkpoint,
    budget: u64,
) -> (Checkpoint, u64) {
    let mut at = begun_anew(floor, checkpoint);
    let mut visits = 0;
    while visits < budget && !at.finished {
        let after = advance(problem, sought, &at, budget - visits);
        visits += after.steps - at.steps;
        at = begun_anew(floor, after);
    }
    (at, visits)
}

/// One lower, if the search found nothing and is above the floor.
fn begun_anew(floor: u8, checkpoint: Checkpoint) -> Checkpoint {
    match checkpoint.minimum {
        minimum if checkpoint.state() == 2 && minimum > floor => Checkpoint::fresh(minimum - 1),
        _ => checkpoint,
    }
}

/// No mapping has more pairs than the minimum, unless one is held, as no descent does.
pub fn descent_ceiling(problem: &Problem, checkpoint: &Checkpoint) -> usize {
    let (minimum, own) = (checkpoint.minimum.into(), ceiling(problem, checkpoint));
    match &checkpoint.incumbent {
        Some(mapping) if size(mapping) > minimum => own,
        _ => own.min(minimum + 1),
    }
}
