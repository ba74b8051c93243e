//! The second implementation: the rules of 01 and 02, plain and recursive, one definition for each
//! sentence.

mod calls;
mod checkpoint;
mod clique;
mod connected;
mod descend;
mod edition;
mod graph;
mod mapping;
mod search;
mod step_limit;
mod substitutes;

pub use calls::{check_graph, check_mapping, check_problem, clique, descend_resume};
pub use calls::{descend_start, read_out, resume, start, step_limit, to_edition_1, to_edition_2};
pub use calls::{CHECKPOINT_BYTES, WORKSPACE_WORDS};
pub use checkpoint::Checkpoint;
pub use clique::clique_branch;
pub use connected::Sought;
pub use descend::{descend, descent_ceiling, start_minimum};
pub use edition::Edition;
pub use graph::{Graph, Problem, MAX_VERTICES};
pub use mapping::{check, entries_from_bytes, entries_to_bytes, size, Entry, UNMAPPED};
pub use search::{advance, ceiling, Node};
pub use step_limit::{capped_limit, uncapped_limits};
pub use substitutes::Substitutes;

/// Why an input is refused, by its number in 01 or 02.
#[derive(Clone, Copy, Debug, PartialEq, Eq)]
pub enum Reason {
    CutOff = 1,
    UnknownCommand = 2,
    VertexLabelZero = 3,
    TooManyVertices = 4,
    VertexNotGiven = 5,
    EdgeLabelZero = 7,
    EdgeGivenAlready = 8,
    BytesAfterEnd = 9,
    OutputTooShort = 13,
    NotInShape = 14,
    WorkspaceTooShort = 15,
    StepsOverflow = 16,
    NotInForm = 17,
    WrongLength = 18,
    NoNewVertex = 19,
    SameNewVertex = 20,
    LabelsDiffer = 21,
    EdgesDiffer = 22,
    SubstitutesLength = 23,
    SubstituteLabelZero = 24,
    TooManyOldVertices = 25,
    SizeTooLarge = 26,
    OtherBeginning = 27,
    LabelAboveByte = 28,
}

/// A reason with the place or row that 01 gives along with it, 0 where it gives none.
#[derive(Clone, Copy, Debug, PartialEq, Eq)]
pub struct Refusal {
    pub reason: Reason,
    pub value: usize,
    pub earlier: usize,
}

impl Refusal {
    pub fn at(reason: Reason, value: usize) -> Refusal {
        Refusal {
            reason,
            value,
            earlier: 0,
        }
    }

    pub fn against(reason: Reason, row: usize, earlier: usize) -> Refusal {
        Refusal {
            reason,
            value: row,
            earlier,
        }
    }
}

impl From<Reason> for Refusal {
    fn from(reason: Reason) -> Refusal {
        Refusal::at(reason, 0)
    }
}
