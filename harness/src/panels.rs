//! Graphs like those of panels: few edges, many labels, and a new graph that is for the most part a
//! copy of the old one.

use std::collections::BTreeMap;

use crate::random::Random;
use crate::reference::{Graph, Problem, Substitutes};

const EDGE_LABELS: [u8; 3] = [1, 2, 3];
/// One vertex in so many is changed in the copy.
const CHANGED: usize = 5;

/// A panel, and a copy of it in which a fifth of the vertices is changed, in another numbering.
/// `holding` is the chance of an own edge, in percent.
pub fn problem(random: &mut Random, order: usize, vertex_labels: u16, holding: usize) -> Problem {
    let vertex_labels: Vec<u16> = (1..=vertex_labels).collect();
    let mut panel = Panel::random(random, order, &vertex_labels);
    let mut copy = panel.clone();
    copy.change(random, &vertex_labels);
    let [numbers, shuffled] = numberings(random, order);
    // drawn last: all else is the same whether there are own edges or not
    if holding > 0 {
        let mut own_edge = || match random.percent(holding) {
            true => random.pick(&EDGE_LABELS),
            false => 0,
        };
        panel.own_edges.fill_with(&mut own_edge);
        copy.own_edges.clone_from(&panel.own_edges);
        let changed = copy.own_edges.iter_mut().step_by(CHANGED);
        changed.for_each(|own| *own = own_edge());
    }
    Problem {
        old: panel.graph(&numbers),
        new: copy.graph(&shuffled),
        substitutes: Substitutes::default(),
    }
}

/// A panel, and a copy of it after so many edits, in another numbering.
pub fn edited(random: &mut Random, order: usize, vertex_labels: u16, edits: usize) -> Problem {
    let vertex_labels: Vec<u16> = (1..=vertex_labels).collect();
    let panel = Panel::random(random, order, &vertex_labels);
    let mut copy = panel.clone();
    for _ in 0..edits {
        copy.edit(random, &vertex_labels);
    }
    let [numbers, shuffled] = numberings(random, order);
    Problem {
        old: panel.graph(&numbers),
        new: copy.graph(&shuffled),
        substitutes: Substitutes::default(),
    }
}

/// That of a panel, and another one.
fn numberings(random: &mut Random, order: usize) -> [Vec<usize>; 2] {
    let numbers: Vec<usize> = (0..order).collect();
    let mut shuffled = numbers.clone();
    random.shuffle(&mut shuffled);
    [numbers, shuffled]
}

#[derive(Clone)]
struct Panel {
    labels: Vec<u16>,
    /// By their ends, the smaller first; no own edges.
    edges: BTreeMap<(usize, usize), u8>,
    /// One for each vertex, 0 for none.
    own_edges: Vec<u8>,
}

impl Panel {
    /// Connected, with three edges for two vertices: a vertex has three on the average.
    fn random(random: &mut Random, order: usize, vertex_labels: &[u16]) -> Panel {
        let mut panel = Panel {
            labels: (0..order).map(|_| random.pick(vertex_labels)).collect(),
            edges: BTreeMap::new(),
            own_edges: vec![0; order],
        };
        for vertex in 1..order {
            let end = random.within(0..vertex);
            panel.edges.insert((end, vertex), random.pick(&EDGE_LABELS));
        }
        while panel.edges.len() < 3 * order / 2 {
            let vertex = random.within(0..order);
            panel.add_edge_of(random, vertex);
        }
        panel
    }

    /// To any vertex that it has none to, if there is one.
    fn add_edge_of(&mut self, random: &mut Random, vertex: usize) {
        let between = |end: usize| (vertex.min(end), vertex.max(end));
        let is_free = |&end: &usize| end != vertex && !self.edges.contains_key(&between(end));
        let ends: Vec<usize> = (0..self.labels.len()).filter(is_free).collect();
        if !ends.is_empty() {
            let end = random.pick(&ends);
            self.edges.insert(between(end), random.pick(&EDGE_LABELS));
        }
    }

    /// A changed vertex has a label of its own choice, and one of its edges leads elsewhere.
    fn change(&mut self, random: &mut Random, vertex_labels: &[u16]) {
        let mut vertices: Vec<usize> = (0..self.labels.len()).collect();
        random.shuffle(&mut vertices);
        vertices.truncate(self.labels.len() / CHANGED);
        for vertex in vertices {
            self.labels[vertex] = random.pick(vertex_labels);
            let has_it = |&(a, b): &(usize, usize)| a == vertex || b == vertex;
            let edges: Vec<_> = self.edges.keys().copied().filter(has_it).collect();
            if !edges.is_empty() {
                self.edges.remove(&random.pick(&edges));
                self.add_edge_of(random, vertex);
            }
        }
    }

    /// A vertex has a label of its own choice, or an edge is no more, or there is one more.
    fn edit(&mut self, random: &mut Random, vertex_labels: &[u16]) {
        let vertex = random.within(0..self.labels.len());
        match random.within(0..3) {
            0 => self.labels[vertex] = random.pick(vertex_labels),
            1 => {
                let edges: Vec<_> = self.edges.keys().copied().collect();
                self.edges.remove(&random.pick(&edges));
            }
            _ => self.add_edge_of(random, vertex),
        }
    }

    /// The graph in which vertex `numbers[i]` of the panel has number i.
    fn graph(&self, numbers: &[usize]) -> Graph {
        let mut graph = Graph::default();
        for (number, &vertex) in numbers.iter().enumerate() {
            graph.add_vertex(self.labels[vertex]).unwrap();
            for (earlier, &other) in numbers[..number].iter().enumerate() {
                let ends = (vertex.min(other), vertex.max(other));
                if let Some(&label) = self.edges.get(&ends) {
                    graph.add_edge(earlier, number, label).unwrap();
                }
            }
        }
        graph.with_own_edges(|number, _| self.own_edges[numbers[number]])
    }
}
