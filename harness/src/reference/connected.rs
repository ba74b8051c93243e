//! The second search (02, U7): which common subgraphs it holds.

use super::{Entry, Graph};

/// What a search looks for.
#[derive(Clone, Copy, Debug, PartialEq, Eq)]
pub enum Sought {
    /// The first search: any common subgraph.
    Any,
    /// The second one: those whose "kept old parts hang together by links among themselves".
    Connected,
}

impl Sought {
    /// As include/golfcedar.h has it.
    pub fn from_flag(connected: u32) -> Sought {
        match connected {
            0 => Sought::Any,
            _ => Sought::Connected,
        }
    }

    /// Whether a common subgraph is one that is looked for.
    pub fn admits(self, old: &Graph, mapping: &[Entry]) -> bool {
        match self {
            Sought::Any => true,
            Sought::Connected => islands(old, mapping) <= 1,
        }
    }
}

/// Each mapped vertex is an island at first, and each edge of two mapped vertices makes the islands
/// of its ends one. An own edge has one end only.
fn islands(old: &Graph, mapping: &[Entry]) -> usize {
    let is_mapped = |vertex: usize| mapping[vertex].is_some();
    let mut count = (0..old.order()).filter(|&vertex| is_mapped(vertex)).count();
    let mut parents: Vec<usize> = (0..old.order()).collect();
    for (a, b, _) in old.edges() {
        if is_mapped(a) && is_mapped(b) {
            let [a, b] = [a, b].map(|end| island(&parents, end));
            if a != b {
                parents[a] = b;
                count -= 1;
            }
        }
    }
    count
}

/// The vertex that stands for the island.
fn island(parents: &[usize], vertex: usize) -> usize {
    match parents[vertex] {
        parent if parent == vertex => vertex,
        parent => island(parents, parent),
    }
}
