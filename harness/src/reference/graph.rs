//! Graphs (01, "Charts"), with labels of two bytes (02, U6).

use super::{Edition, Reason, Refusal, Substitutes};

pub const MAX_VERTICES: usize = 64;

#[derive(Clone, Debug, Default, PartialEq, Eq)]
pub struct Graph {
    labels: Vec<u16>,
    /// The label of the edge of a and b at `edges[a][b]` for b <= a; 0 for the null edge.
    edges: Vec<Vec<u8>>,
}

impl Graph {
    /// Of edition 2, as all bytes but those of the mover.
    pub fn parse(bytes: &[u8]) -> Result<Graph, Refusal> {
        Edition::Two.parse(bytes, u16::MAX)
    }

    /// In edition 2.
    pub fn save(&self) -> Vec<u8> {
        Edition::Two.save(self)
    }

    /// The edges that are not null: a <= b and the label, by rising a, then rising b.
    pub fn edges(&self) -> impl Iterator<Item = (usize, usize, u8)> + '_ {
        let pairs = (0..self.order()).flat_map(|a| (a..self.order()).map(move |b| (a, b)));
        pairs
            .map(|(a, b)| (a, b, self.edge(a, b)))
            .filter(|&(_, _, label)| label != 0)
    }

    pub fn add_vertex(&mut self, label: u16) -> Result<(), Reason> {
        if label == 0 {
            return Err(Reason::VertexLabelZero);
        }
        if self.order() == MAX_VERTICES {
            return Err(Reason::TooManyVertices);
        }
        self.labels.push(label);
        self.edges.push(vec![0; self.order()]);
        Ok(())
    }

    pub fn add_edge(&mut self, a: usize, b: usize, label: u8) -> Result<(), Reason> {
        if a.max(b) >= self.order() {
            return Err(Reason::VertexNotGiven);
        }
        if label == 0 {
            return Err(Reason::EdgeLabelZero);
        }
        if self.edge(a, b) != 0 {
            return Err(Reason::EdgeGivenAlready);
        }
        self.edges[a.max(b)][a.min(b)] = label;
        Ok(())
    }

    /// The same graph, but for the own edges: `own` says the label of each, from its vertex and the
    /// label that it had, 0 for none.
    pub fn with_own_edges(mut self, mut own: impl FnMut(usize, u8) -> u8) -> Graph {
        for vertex in 0..self.order() {
            self.edges[vertex][vertex] = own(vertex, self.own_edge(vertex));
        }
        self
    }

    /// The graph on the first vertices, so many of them or all.
    pub fn first(&self, count: usize) -> Graph {
        Graph {
            labels: self.labels.iter().copied().take(count).collect(),
            edges: self.edges.iter().take(count).cloned().collect(),
        }
    }

    /// 01's n.
    pub fn order(&self) -> usize {
        self.labels.len()
    }

    pub fn label(&self, vertex: usize) -> u16 {
        self.labels[vertex]
    }

    pub fn edge(&self, a: usize, b: usize) -> u8 {
        self.edges[a.max(b)][a.min(b)]
    }

    /// A vertex's edge with itself (02, U4).
    pub fn own_edge(&self, vertex: usize) -> u8 {
        self.edge(vertex, vertex)
    }
}

/// The two graphs of a search, and which labels may stand in for others.
#[derive(Clone, Debug, PartialEq, Eq)]
pub struct Problem {
    pub old: Graph,
    pub new: Graph,
    pub substitutes: Substitutes,
}

impl Problem {
    pub fn parse(old: &[u8], new: &[u8], substitutes: &[u8]) -> Result<Problem, Refusal> {
        Ok(Problem {
            old: Graph::parse(old)?,
            new: Graph::parse(new)?,
            substitutes: Substitutes::parse(substitutes)?,
        })
    }

    /// Of an old vertex and a new one.
    pub fn labels_agree(&self, row: usize, vertex: usize) -> bool {
        let (old, new) = (self.old.label(row), self.new.label(vertex));
        old == new || self.substitutes.list(old, new)
    }

    /// Of an old vertex and a new one; 02, U4: "paired parts need equal own links".
    pub fn own_edges_agree(&self, row: usize, vertex: usize) -> bool {
        self.old.own_edge(row) == self.new.own_edge(vertex)
    }

    /// Nothing of the two vertices alone is against their being a pair.
    pub fn vertices_agree(&self, row: usize, vertex: usize) -> bool {
        self.labels_agree(row, vertex) && self.own_edges_agree(row, vertex)
    }
}
