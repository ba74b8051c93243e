//! Clique branching made fast (02, U2): the yardstick for the time of a node of the proved one, and
//! the count of its nodes.

use super::{root, Level, Members, Tables};
use crate::reference::{Problem, UNMAPPED};

/// What a branching holds at its end, and how many nodes its tree has.
pub struct Branched {
    pub held: Option<Vec<u8>>,
    pub nodes: u64,
}

pub fn branch(problem: &Problem, minimum: u8) -> Branched {
    let mut branching = Branching {
        tables: Tables::new(problem),
        path: vec![UNMAPPED; problem.old.order()],
        cutoff: minimum.into(),
        held: None,
        nodes: 0,
    };
    branching.row(0, 0, &root(problem));
    Branched {
        held: branching.held,
        nodes: branching.nodes,
    }
}

struct Branching {
    tables: Tables,
    path: Vec<u8>,
    cutoff: usize,
    held: Option<Vec<u8>>,
    nodes: u64,
}

impl Branching {
    fn row(&mut self, row: usize, size: usize, words: &Level) {
        self.nodes += 1;
        if row == self.path.len() {
            if size >= self.cutoff {
                self.held = Some(self.path.clone());
                self.cutoff = size + 1;
            }
            return;
        }
        let mut beside = *words;
        for vertex in Members(words[row]) {
            self.path[row] = vertex as u8;
            let masks = &self.tables.masks[vertex * self.tables.class_count..];
            let classes = &self.tables.classes[row];
            for later in row + 1..self.path.len() {
                beside[later] = words[later] & masks[usize::from(classes[later])];
            }
            self.row(row + 1, size + 1, &beside);
        }
        self.path[row] = UNMAPPED;
        self.row(row + 1, size, words);
    }
}
