//! Mappings, and the check whether one is a common subgraph (01, "Good partner lists").

use super::{Problem, Reason, Refusal};

/// The byte of an old vertex that is left out.
pub const UNMAPPED: u8 = 255;

/// What a mapping says of one old vertex: its new vertex, or left out.
pub type Entry = Option<usize>;

pub fn entries_from_bytes(bytes: &[u8]) -> Vec<Entry> {
    let entry = |&byte: &u8| (byte != UNMAPPED).then_some(byte.into());
    bytes.iter().map(entry).collect()
}

pub fn entries_to_bytes(entries: &[Entry]) -> Vec<u8> {
    let byte = |entry: &Entry| entry.map_or(UNMAPPED, |vertex| vertex as u8);
    entries.iter().map(byte).collect()
}

/// The number of mapped vertices.
pub fn size(entries: &[Entry]) -> usize {
    entries.iter().flatten().count()
}

/// The size of a common subgraph, or the first row at fault.
pub fn check(problem: &Problem, mapping: &[Entry]) -> Result<usize, Refusal> {
    if mapping.len() != problem.old.order() {
        return Err(Reason::WrongLength.into());
    }
    for (row, entry) in mapping.iter().enumerate() {
        if let Some(vertex) = *entry {
            check_row(problem, &mapping[..row], row, vertex)?;
        }
    }
    Ok(size(mapping))
}

fn check_row(
    problem: &Problem,
    before: &[Entry],
    row: usize,
    vertex: usize,
) -> Result<(), Refusal> {
    let Problem { old, new, .. } = problem;
    if vertex >= new.order() {
        return Err(Refusal::at(Reason::NoNewVertex, row));
    }
    if !problem.labels_agree(row, vertex) {
        return Err(Refusal::at(Reason::LabelsDiffer, row));
    }
    if !problem.own_edges_agree(row, vertex) {
        return Err(Refusal::against(Reason::EdgesDiffer, row, row));
    }
    for (earlier, entry) in before.iter().enumerate() {
        let Some(other) = *entry else { continue };
        if other == vertex {
            return Err(Refusal::against(Reason::SameNewVertex, row, earlier));
        }
        if old.edge(earlier, row) != new.edge(other, vertex) {
            return Err(Refusal::against(Reason::EdgesDiffer, row, earlier));
        }
    }
    Ok(())
}
