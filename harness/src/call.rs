//! One call of the C interface with all the memory lent to it, made by either implementation.

use std::fmt::{self, Display};
use std::mem;
use std::ops::Range;

use crate::answer::Answer;
use crate::library::FIRST_SEARCH;
use crate::reference::{Edition, Graph, Reason, Refusal, UNMAPPED, WORKSPACE_WORDS};
use crate::{library, reference};

/// The functions of include/golfcedar.h, but for the version and the refusals' texts.
#[allow(clippy::type_complexity)]
pub struct Implementation {
    pub name: &'static str,
    pub check_problem: fn(&[u8], &[u8], &[u8]) -> Answer,
    pub check_graph: fn(&[u8]) -> Answer,
    pub check_mapping: fn(&[u8], &[u8], &[u8], &[u8]) -> Answer,
    pub start: fn(&[u8], &[u8], &[u8], u32, u8, &mut [u8]) -> Answer,
    pub resume: fn(&[u8], &[u8], &[u8], u32, &[u8], u64, &mut [u64], &mut [u8]) -> Answer,
    pub read_out: fn(&[u8], &[u8], &[u8], u32, &[u8], &mut [u8]) -> Answer,
    pub descend_start: fn(&[u8], &[u8], &[u8], u32, u8, &mut [u8]) -> Answer,
    pub descend_resume:
        fn(&[u8], &[u8], &[u8], u32, u8, &[u8], u64, &mut [u64], &mut [u8]) -> Answer,
    pub clique: fn(&[u8], &[u8], &[u8], u8, &mut [u8]) -> Answer,
    pub step_limit: fn(u64, u64) -> Answer,
    pub to_edition_2: fn(&[u8], &mut [u8]) -> Answer,
    pub to_edition_1: fn(&[u8], &mut [u8]) -> Answer,
}

pub const LIBRARY: Implementation = Implementation {
    name: "library",
    check_problem: library::check_problem,
    check_graph: library::check_graph,
    check_mapping: library::check_mapping,
    start: library::start,
    resume: library::resume,
    read_out: library::read_out,
    descend_start: library::descend_start,
    descend_resume: library::descend_resume,
    clique: library::clique,
    step_limit: library::step_limit,
    to_edition_2: library::to_edition_2,
    to_edition_1: library::to_edition_1,
};

pub const REFERENCE: Implementation = Implementation {
    name: "reference",
    check_problem: reference::check_problem,
    check_graph: reference::check_graph,
    check_mapping: reference::check_mapping,
    start: reference::start,
    resume: reference::resume,
    read_out: reference::read_out,
    descend_start: reference::descend_start,
    descend_resume: reference::descend_resume,
    clique: reference::clique,
    step_limit: reference::step_limit,
    to_edition_2: reference::to_edition_2,
    to_edition_1: reference::to_edition_1,
};

/// A test that holds both implementations to what it says.
pub fn each(test: fn(&Implementation)) {
    test(&LIBRARY);
    test(&REFERENCE);
}

/// Memory lent for output, with a margin on both sides that shows a write out of bounds.
#[derive(Clone, Debug, PartialEq, Eq)]
pub struct Buffer<T> {
    fill: T,
    lent: Range<usize>,
    cells: Vec<T>,
}

impl<T: Copy> Buffer<T> {
    const MARGIN: usize = 9;

    /// Lends `length` cells. There are `needed` in any case, so that a callee that does not look
    /// at the length is found out and not killed.
    pub fn filled(fill: T, length: usize, needed: usize) -> Buffer<T> {
        Buffer {
            fill,
            lent: Self::MARGIN..Self::MARGIN + length,
            cells: vec![fill; length.max(needed) + 2 * Self::MARGIN],
        }
    }

    pub fn lent(&self) -> &[T] {
        &self.cells[self.lent.clone()]
    }

    fn lend(&mut self) -> &mut [T] {
        &mut self.cells[self.lent.clone()]
    }
}

impl<T: Copy + Display + PartialEq> Display for Buffer<T> {
    fn fmt(&self, f: &mut fmt::Formatter) -> fmt::Result {
        write!(f, "{}", Listed(self.lent()))?;
        let (before, after) = (&self.cells[..self.lent.start], &self.cells[self.lent.end..]);
        for (side, margin) in [("before", before), ("after", after)] {
            if margin.iter().any(|&cell| cell != self.fill) {
                write!(f, ", WRITTEN {side} it: {}", Listed(margin))?;
            }
        }
        Ok(())
    }
}

/// Prints the length and the elements in base ten; five or more equal ones as "count * element".
struct Listed<'a, T>(&'a [T]);

impl<T: Display + PartialEq> Display for Listed<'_, T> {
    fn fmt(&self, f: &mut fmt::Formatter) -> fmt::Result {
        write!(f, "[{}]", self.0.len())?;
        for run in self.0.chunk_by(PartialEq::eq) {
            match run.len() {
                1..5 => run.iter().try_for_each(|item| write!(f, " {item}"))?,
                count => write!(f, " {count} * {}", run[0])?,
            }
        }
        Ok(())
    }
}

/// The bytes that each call on two graphs begins with, sound or not.
#[derive(Clone, Debug, PartialEq, Eq)]
pub struct Given {
    pub old: Vec<u8>,
    pub new: Vec<u8>,
    pub substitutes: Vec<u8>,
}

#[derive(Clone, Debug, PartialEq, Eq)]
pub enum Call {
    CheckProblem {
        given: Given,
    },
    CheckGraph {
        graph: Vec<u8>,
    },
    CheckMapping {
        given: Given,
        mapping: Vec<u8>,
    },
    Start {
        given: Given,
        connected: u32,
        minimum: u8,
        checkpoint: Buffer<u8>,
    },
    DescendStart {
        given: Given,
        connected: u32,
        floor: u8,
        checkpoint: Buffer<u8>,
    },
    Resume(Resume),
    ReadOut {
        given: Given,
        connected: u32,
        checkpoint: Vec<u8>,
        mapping: Buffer<u8>,
    },
    Clique(Clique),
    StepLimit {
        new_order: u64,
        old_order: u64,
    },
    Move(Move),
}

#[derive(Clone, Debug, PartialEq, Eq)]
pub struct Resume {
    pub given: Given,
    pub connected: u32,
    /// Of a descent; none for a search.
    pub floor: Option<u8>,
    pub checkpoint: Vec<u8>,
    pub budget: u64,
    pub workspace: Buffer<u64>,
    pub next: Buffer<u8>,
}

impl Resume {
    /// The outcome of this call if it is accepted with such a checkpoint and ceiling, and after so
    /// many visits: 0 for a search, which does not answer them.
    pub fn accepted(&self, next: &[u8], ceiling: u64, visits: u64) -> Outcome {
        let mut memory = self.clone();
        memory.workspace.lend()[..WORKSPACE_WORDS].fill(0);
        memory.next.lend()[..next.len()].copy_from_slice(next);
        Outcome {
            answer: Answer {
                ceiling,
                visits,
                ..Answer::accepted(next.len() as u64)
            },
            memory: Call::Resume(memory),
        }
    }
}

#[derive(Clone, Debug, PartialEq, Eq)]
pub struct Clique {
    pub given: Given,
    pub minimum: u8,
    pub mapping: Buffer<u8>,
}

impl Clique {
    /// The outcome of this call if such a mapping is held, or none; 13 if it does not fit.
    pub fn holding(&self, held: Option<&[u8]>) -> Outcome {
        let mut memory = self.clone();
        let answer = match held {
            None => Answer::accepted(0),
            Some(bytes) if bytes.len() > self.mapping.lent().len() => Answer {
                number: 13,
                ..Answer::default()
            },
            Some(bytes) => {
                memory.mapping.lend()[..bytes.len()].copy_from_slice(bytes);
                Answer {
                    size: bytes.iter().filter(|&&byte| byte != UNMAPPED).count() as u64,
                    ..Answer::accepted(1)
                }
            }
        };
        Outcome {
            answer,
            memory: Call::Clique(memory),
        }
    }
}

/// A file to be moved to an edition from the other one.
#[derive(Clone, Debug, PartialEq, Eq)]
pub struct Move {
    pub to: Edition,
    pub graph: Vec<u8>,
    pub out: Buffer<u8>,
}

impl Move {
    /// The outcome of this call if such bytes are to be written; 13 if they do not fit.
    pub fn writing(&self, bytes: &[u8]) -> Outcome {
        let mut memory = self.clone();
        let answer = if bytes.len() > self.out.lent().len() {
            Answer {
                number: 13,
                ..Answer::default()
            }
        } else {
            memory.out.lend()[..bytes.len()].copy_from_slice(bytes);
            Answer::accepted(bytes.len() as u64)
        };
        Outcome {
            answer,
            memory: Call::Move(memory),
        }
    }

    /// The same call with small labels in the place of those that do not fit edition 1. None where
    /// the reading comes to no such label.
    pub fn with_narrow_labels(&self) -> Option<Move> {
        let mut narrow = self.clone();
        while let Err(Refusal {
            reason: Reason::LabelAboveByte,
            value,
            ..
        }) = self.to.moved_here(&narrow.graph)
        {
            narrow.graph[value + 1..value + 3].copy_from_slice(&[1, 0]);
        }
        (narrow != *self).then_some(narrow)
    }
}

/// What a call answered, and the memory that was lent to it as it stands afterwards, inputs too.
#[derive(Clone, Debug, PartialEq, Eq)]
pub struct Outcome {
    pub answer: Answer,
    pub memory: Call,
}

impl Call {
    pub fn made_by(&self, by: &Implementation) -> Outcome {
        let mut memory = self.clone();
        let answer = match &mut memory {
            Call::CheckProblem { given } => {
                (by.check_problem)(&given.old, &given.new, &given.substitutes)
            }
            Call::CheckGraph { graph } => (by.check_graph)(graph),
            Call::CheckMapping { given, mapping } => {
                (by.check_mapping)(&given.old, &given.new, &given.substitutes, mapping)
            }
            Call::Start {
                given,
                connected,
                minimum,
                checkpoint,
            } => (by.start)(
                &given.old,
                &given.new,
                &given.substitutes,
                *connected,
                *minimum,
                checkpoint.lend(),
            ),
            Call::DescendStart {
                given,
                connected,
                floor,
                checkpoint,
            } => (by.descend_start)(
                &given.old,
                &given.new,
                &given.substitutes,
                *connected,
                *floor,
                checkpoint.lend(),
            ),
            Call::Resume(call) => match call.floor {
                None => (by.resume)(
                    &call.given.old,
                    &call.given.new,
                    &call.given.substitutes,
                    call.connected,
                    &call.checkpoint,
                    call.budget,
                    call.workspace.lend(),
                    call.next.lend(),
                ),
                Some(floor) => (by.descend_resume)(
                    &call.given.old,
                    &call.given.new,
                    &call.given.substitutes,
                    call.connected,
                    floor,
                    &call.checkpoint,
                    call.budget,
                    call.workspace.lend(),
                    call.next.lend(),
                ),
            },
            Call::ReadOut {
                given,
                connected,
                checkpoint,
                mapping,
            } => (by.read_out)(
                &given.old,
                &given.new,
                &given.substitutes,
                *connected,
                checkpoint,
                mapping.lend(),
            ),
            Call::Clique(call) => (by.clique)(
                &call.given.old,
                &call.given.new,
                &call.given.substitutes,
                call.minimum,
                call.mapping.lend(),
            ),
            Call::StepLimit {
                new_order,
                old_order,
            } => (by.step_limit)(*new_order, *old_order),
            Call::Move(call) => match call.to {
                Edition::One => (by.to_edition_1)(&call.graph, call.out.lend()),
                Edition::Two => (by.to_edition_2)(&call.graph, call.out.lend()),
            },
        };
        Outcome { answer, memory }
    }

    /// None where the call is on a single graph, or on none.
    pub fn given(&self) -> Option<&Given> {
        match self {
            Call::CheckGraph { .. } | Call::StepLimit { .. } | Call::Move(_) => None,
            Call::CheckProblem { given }
            | Call::CheckMapping { given, .. }
            | Call::Start { given, .. }
            | Call::DescendStart { given, .. }
            | Call::Resume(Resume { given, .. })
            | Call::ReadOut { given, .. }
            | Call::Clique(Clique { given, .. }) => Some(given),
        }
    }

    fn given_mut(&mut self) -> Option<&mut Given> {
        match self {
            Call::CheckGraph { .. } | Call::StepLimit { .. } | Call::Move(_) => None,
            Call::CheckProblem { given }
            | Call::CheckMapping { given, .. }
            | Call::Start { given, .. }
            | Call::DescendStart { given, .. }
            | Call::Resume(Resume { given, .. })
            | Call::ReadOut { given, .. }
            | Call::Clique(Clique { given, .. }) => Some(given),
        }
    }

    /// This call with the empty list.
    pub fn without_substitutes(mut self) -> Call {
        if let Some(given) = self.given_mut() {
            given.substitutes.clear();
        }
        self
    }

    /// Of a call on a checkpoint: for which search it is.
    pub fn connected(&self) -> Option<u32> {
        match self {
            Call::Resume(Resume { connected, .. }) | Call::ReadOut { connected, .. } => {
                Some(*connected)
            }
            _ => None,
        }
    }

    /// This call for the first search. None where it is none of the second.
    pub fn for_first_search(mut self) -> Option<Call> {
        let connected = match &mut self {
            Call::Start { connected, .. }
            | Call::DescendStart { connected, .. }
            | Call::Resume(Resume { connected, .. })
            | Call::ReadOut { connected, .. } => connected,
            _ => return None,
        };
        (mem::replace(connected, FIRST_SEARCH) != FIRST_SEARCH).then_some(self)
    }

    /// This call on the same two graphs without their own edges. None where it is not on two graphs,
    /// or one of the two is refused.
    pub fn without_own_edges(mut self) -> Option<Call> {
        let given = self.given_mut()?;
        for bytes in [&mut given.old, &mut given.new] {
            let graph = Graph::parse(bytes).ok()?;
            *bytes = graph.with_own_edges(|_, _| 0).save();
        }
        Some(self)
    }

    fn function(&self) -> &'static str {
        match self {
            Call::CheckProblem { .. } => "golfcedar_check_problem",
            Call::CheckGraph { .. } => "golfcedar_check_graph",
            Call::CheckMapping { .. } => "golfcedar_check_mapping",
            Call::Start { .. } => "golfcedar_start",
            Call::DescendStart { .. } => "golfcedar_descend_start",
            Call::Resume(Resume { floor, .. }) => match floor {
                None => "golfcedar_resume",
                Some(_) => "golfcedar_descend_resume",
            },
            Call::ReadOut { .. } => "golfcedar_read_out",
            Call::Clique(_) => "golfcedar_clique",
            Call::StepLimit { .. } => "golfcedar_step_limit",
            Call::Move(Move { to, .. }) => match to {
                Edition::One => "golfcedar_to_edition_1",
                Edition::Two => "golfcedar_to_edition_2",
            },
        }
    }

    /// Each argument by name, as it is printed.
    fn arguments(&self) -> Vec<(&'static str, String)> {
        let mut arguments = Vec::new();
        if let Some(given) = self.given() {
            arguments.extend([
                ("old_graph", Listed(&given.old).to_string()),
                ("new_graph", Listed(&given.new).to_string()),
                ("substitutes", Listed(&given.substitutes).to_string()),
            ]);
        }
        match self {
            Call::CheckProblem { .. } => {}
            Call::CheckGraph { graph } => {
                arguments.push(("graph", Listed(graph).to_string()));
            }
            Call::CheckMapping { mapping, .. } => {
                arguments.push(("mapping", Listed(mapping).to_string()));
            }
            Call::Start {
                connected,
                minimum,
                checkpoint,
                ..
            } => arguments.extend([
                ("connected", connected.to_string()),
                ("minimum", minimum.to_string()),
                ("checkpoint", checkpoint.to_string()),
            ]),
            Call::DescendStart {
                connected,
                floor,
                checkpoint,
                ..
            } => arguments.extend([
                ("connected", connected.to_string()),
                ("floor", floor.to_string()),
                ("checkpoint", checkpoint.to_string()),
            ]),
            Call::Resume(call) => {
                arguments.push(("connected", call.connected.to_string()));
                arguments.extend(call.floor.map(|floor| ("floor", floor.to_string())));
                arguments.extend([
                    ("checkpoint", Listed(&call.checkpoint).to_string()),
                    ("budget", call.budget.to_string()),
                    ("workspace", call.workspace.to_string()),
                    ("next", call.next.to_string()),
                ]);
            }
            Call::ReadOut {
                connected,
                checkpoint,
                mapping,
                ..
            } => arguments.extend([
                ("connected", connected.to_string()),
                ("checkpoint", Listed(checkpoint).to_string()),
                ("mapping", mapping.to_string()),
            ]),
            Call::Clique(call) => arguments.extend([
                ("minimum", call.minimum.to_string()),
                ("mapping", call.mapping.to_string()),
            ]),
            Call::StepLimit {
                new_order,
                old_order,
            } => arguments.extend([
                ("new_order", new_order.to_string()),
                ("old_order", old_order.to_string()),
            ]),
            Call::Move(call) => arguments.extend([
                ("graph", Listed(&call.graph).to_string()),
                ("out", call.out.to_string()),
            ]),
        }
        arguments
    }
}

impl Display for Call {
    fn fmt(&self, f: &mut fmt::Formatter) -> fmt::Result {
        writeln!(f, "{}", self.function())?;
        for (name, text) in self.arguments() {
            writeln!(f, "  {name}: {text}")?;
        }
        Ok(())
    }
}

impl Outcome {
    /// The answer, and the arguments that the call changed.
    pub fn describe(&self, before: &Call) -> String {
        let mut text = format!("{:?}\n", self.answer);
        for (then, (name, now)) in before.arguments().iter().zip(self.memory.arguments()) {
            if then.1 != now {
                text += &format!("  {name} afterwards: {now}\n");
            }
        }
        text
    }
}
