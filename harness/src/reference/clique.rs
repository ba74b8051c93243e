//! Clique branching (02, U2): the search of document 004 over the association graph of a problem.

use super::{Entry, Problem, Reason, Refusal};

const MAX_OLD_VERTICES: usize = 8;

/// A vertex of the association graph: an old vertex and a new one.
type Pair = (usize, usize);

/// Document 004's graph, with the conditions that it lacks: only pairs whose labels agree (01) and
/// whose own edges agree (02, U4) are in it.
struct Association {
    /// For each old vertex the pairs that it is in, by rising new vertex: 004's row-cliques.
    rows: Vec<Vec<Pair>>,
    /// For each pair of an old and a new vertex those that it can stand beside in a clique.
    adjacent: Vec<Vec<bool>>,
    columns: usize,
}

impl Association {
    fn of(problem: &Problem) -> Association {
        let Problem { old, new, .. } = problem;
        let columns = new.order();
        let row = |u| (0..columns).map(move |v| (u, v));
        let pairs: Vec<Pair> = (0..old.order()).flat_map(row).collect();
        let joined =
            |&(a, v): &Pair, &(b, w): &Pair| a != b && v != w && old.edge(a, b) == new.edge(v, w);
        let beside = |pair| pairs.iter().map(|other| joined(pair, other)).collect();
        let alike = |&(u, v): &Pair| problem.vertices_agree(u, v);
        Association {
            rows: (0..old.order())
                .map(|u| row(u).filter(alike).collect())
                .collect(),
            adjacent: pairs.iter().map(beside).collect(),
            columns,
        }
    }

    fn adjacent(&self, (a, v): Pair, (b, w): Pair) -> bool {
        self.adjacent[a * self.columns + v][b * self.columns + w]
    }
}

/// 004's Branch, which counts the pairs that are left in the cover; here those that are taken out
/// of it, the clique, are kept.
struct Branching<'a> {
    association: &'a Association,
    minimum: usize,
    clique: Vec<Pair>,
    held: Option<Vec<Pair>>,
}

impl Branching<'_> {
    fn branch(&mut self, row: usize) {
        let association = self.association;
        let Some(pairs) = association.rows.get(row) else {
            return self.hold();
        };
        for &pair in pairs {
            let mut taken = self.clique.iter();
            if taken.all(|&other| association.adjacent(other, pair)) {
                self.clique.push(pair);
                self.branch(row + 1);
                self.clique.pop();
            }
        }
        self.branch(row + 1);
    }

    fn hold(&mut self) {
        let holds = match &self.held {
            Some(held) => self.clique.len() > held.len(),
            None => self.clique.len() >= self.minimum,
        };
        if holds {
            self.held = Some(self.clique.clone());
        }
    }
}

/// The mapping that the branching holds at its end, if any.
pub fn clique_branch(problem: &Problem, minimum: u8) -> Result<Option<Vec<Entry>>, Refusal> {
    let order = problem.old.order();
    if order > MAX_OLD_VERTICES {
        return Err(Reason::TooManyOldVertices.into());
    }
    let mut branching = Branching {
        association: &Association::of(problem),
        minimum: minimum.into(),
        clique: Vec::new(),
        held: None,
    };
    branching.branch(0);
    let entries = |clique: Vec<Pair>| {
        let mut entries = vec![None; order];
        for (row, vertex) in clique {
            entries[row] = Some(vertex);
        }
        entries
    };
    Ok(branching.held.map(entries))
}
