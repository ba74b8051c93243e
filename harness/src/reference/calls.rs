//! The functions of include/golfcedar.h, but for the version and the refusals' texts: their answers,
//! and what they leave in lent memory.

use super::{advance, capped_limit, ceiling, check, clique_branch};
use super::{descend, descent_ceiling, start_minimum};
use super::{entries_from_bytes, entries_to_bytes, size};
use super::{Checkpoint, Edition, Graph, Problem, Reason, Refusal, Sought, Substitutes};
use crate::answer::Answer;

pub const CHECKPOINT_BYTES: usize = 270;
pub const WORKSPACE_WORDS: usize = 4160;

/// Each of the three is judged by itself, and the first at fault is told.
pub fn check_problem(old: &[u8], new: &[u8], substitutes: &[u8]) -> Answer {
    let faults = [
        (1, Graph::parse(old).err()),
        (2, Graph::parse(new).err()),
        (3, Substitutes::parse(substitutes).err()),
    ];
    let first = faults
        .into_iter()
        .find_map(|(about, fault)| Some((about, fault?)));
    match first {
        None => Answer::accepted(0),
        Some((about, fault)) => Answer {
            about,
            ..answer(Err(fault))
        },
    }
}

pub fn check_graph(graph: &[u8]) -> Answer {
    answer(Graph::parse(graph).map(|graph| Answer::accepted(graph.order() as u64)))
}

pub fn check_mapping(old: &[u8], new: &[u8], substitutes: &[u8], mapping: &[u8]) -> Answer {
    let checked = Problem::parse(old, new, substitutes)
        .and_then(|problem| check(&problem, &entries_from_bytes(mapping)))
        .map(|size| Answer::accepted(size as u64));
    answer(checked)
}

/// A checkpoint that has not begun holds nothing, so it is the same for both searches.
pub fn start(
    old: &[u8],
    new: &[u8],
    substitutes: &[u8],
    _connected: u32,
    minimum: u8,
    checkpoint: &mut [u8],
) -> Answer {
    let started = Problem::parse(old, new, substitutes)
        .and_then(|_| fill(checkpoint, &Checkpoint::fresh(minimum).save()))
        .map(Answer::accepted);
    answer(started)
}

#[allow(clippy::too_many_arguments)]
pub fn resume(
    old: &[u8],
    new: &[u8],
    substitutes: &[u8],
    connected: u32,
    checkpoint: &[u8],
    budget: u64,
    workspace: &mut [u64],
    next: &mut [u8],
) -> Answer {
    let resumed = Problem::parse(old, new, substitutes).and_then(|problem| {
        let sought = Sought::from_flag(connected);
        let checkpoint = Checkpoint::load(&problem, sought, checkpoint)?;
        may_advance(&checkpoint, budget, workspace)?;
        let after = advance(&problem, sought, &checkpoint, budget);
        let value = fill(next, &after.save())?;
        workspace[..WORKSPACE_WORDS].fill(0);
        Ok(Answer {
            value,
            ceiling: ceiling(&problem, &after) as u64,
            ..Answer::default()
        })
    });
    answer(resumed)
}

pub fn read_out(
    old: &[u8],
    new: &[u8],
    substitutes: &[u8],
    connected: u32,
    checkpoint: &[u8],
    mapping: &mut [u8],
) -> Answer {
    let read = Problem::parse(old, new, substitutes).and_then(|problem| {
        let checkpoint = Checkpoint::load(&problem, Sought::from_flag(connected), checkpoint)?;
        let incumbent = checkpoint.incumbent.as_deref().unwrap_or_default();
        fill(mapping, &entries_to_bytes(incumbent))?;
        Ok(Answer {
            value: checkpoint.state().into(),
            steps: checkpoint.steps,
            size: size(incumbent) as u64,
            ceiling: ceiling(&problem, &checkpoint) as u64,
            ..Answer::default()
        })
    });
    answer(read)
}

pub fn descend_start(
    old: &[u8],
    new: &[u8],
    substitutes: &[u8],
    _connected: u32,
    floor: u8,
    checkpoint: &mut [u8],
) -> Answer {
    let started = Problem::parse(old, new, substitutes).and_then(|problem| {
        let fresh = Checkpoint::fresh(start_minimum(&problem, floor));
        fill(checkpoint, &fresh.save())
    });
    answer(started.map(Answer::accepted))
}

#[allow(clippy::too_many_arguments)]
pub fn descend_resume(
    old: &[u8],
    new: &[u8],
    substitutes: &[u8],
    connected: u32,
    floor: u8,
    checkpoint: &[u8],
    budget: u64,
    workspace: &mut [u64],
    next: &mut [u8],
) -> Answer {
    let resumed = Problem::parse(old, new, substitutes).and_then(|problem| {
        let sought = Sought::from_flag(connected);
        let checkpoint = Checkpoint::load(&problem, sought, checkpoint)?;
        may_advance(&checkpoint, budget, workspace)?;
        let (after, visits) = descend(&problem, sought, floor, checkpoint, budget);
        let value = fill(next, &after.save())?;
        workspace[..WORKSPACE_WORDS].fill(0);
        Ok(Answer {
            value,
            ceiling: descent_ceiling(&problem, &after) as u64,
            visits,
            ..Answer::default()
        })
    });
    answer(resumed)
}

pub fn clique(
    old: &[u8],
    new: &[u8],
    substitutes: &[u8],
    minimum: u8,
    mapping: &mut [u8],
) -> Answer {
    let branched = Problem::parse(old, new, substitutes).and_then(|problem| {
        let Some(held) = clique_branch(&problem, minimum)? else {
            return Ok(Answer::accepted(0));
        };
        fill(mapping, &entries_to_bytes(&held))?;
        Ok(Answer {
            size: size(&held) as u64,
            ..Answer::accepted(1)
        })
    });
    answer(branched)
}

pub fn step_limit(new_order: u64, old_order: u64) -> Answer {
    answer(capped_limit(new_order, old_order).map(Answer::accepted))
}

pub fn to_edition_2(graph: &[u8], out: &mut [u8]) -> Answer {
    move_to(Edition::Two, graph, out)
}

pub fn to_edition_1(graph: &[u8], out: &mut [u8]) -> Answer {
    move_to(Edition::One, graph, out)
}

fn move_to(edition: Edition, graph: &[u8], out: &mut [u8]) -> Answer {
    let moved = edition
        .moved_here(graph)
        .and_then(|bytes| fill(out, &bytes));
    answer(moved.map(Answer::accepted))
}

fn may_advance(checkpoint: &Checkpoint, budget: u64, workspace: &[u64]) -> Result<(), Refusal> {
    if workspace.len() < WORKSPACE_WORDS {
        return Err(Reason::WorkspaceTooShort.into());
    }
    if !checkpoint.finished && checkpoint.steps.checked_add(budget).is_none() {
        return Err(Reason::StepsOverflow.into());
    }
    Ok(())
}

/// Stores `bytes` at the front of `output`, if they fit, and answers how many these are.
fn fill(output: &mut [u8], bytes: &[u8]) -> Result<u64, Refusal> {
    if output.len() < bytes.len() {
        return Err(Reason::OutputTooShort.into());
    }
    output[..bytes.len()].copy_from_slice(bytes);
    Ok(bytes.len() as u64)
}

fn answer(result: Result<Answer, Refusal>) -> Answer {
    result.unwrap_or_else(|refusal| Answer {
        number: refusal.reason as u32,
        value: refusal.value as u64,
        earlier: refusal.earlier as u64,
        ..Answer::default()
    })
}
