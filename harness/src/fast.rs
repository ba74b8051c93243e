//! The same walk made fast: the yardstick for the time of the proved search.
//!
//! - For each number of pairs on the path there is a level: the candidate word of each row. Beside
//!   the words goes the set of the rows that have candidates, and the upper bound. A row that is
//!   left out changes no word.
//! - A pair meets each row of the set with one mask: the other new vertices whose edge to the paired
//!   one has the label of the old edge. Own edges are read for the words of the root only.
//! - A node is left early. Its bound is its parent's, less one for each row that loses its last
//!   candidate. The rows with an edge to the row just mapped come first, since most losses are
//!   among them. If they leave the bound below the cutoff, the others are not looked at; else these
//!   all meet one mask, that of the null edges.
//! - The second search (02, U7) looks at edges at its last nodes only: from the least mapped row it
//!   spreads over the mapped rows, by a word of neighbours for each.
//!
//! Each visit is made, by one call of `visit`. To pass a run of rows without candidates at once was
//! a fifth faster, but then the time of a visit would say little.

pub mod clique;
pub mod descend;

use std::array;
use std::collections::BTreeMap;

use crate::reference::{entries_from_bytes, Checkpoint, Problem, Sought};
use crate::reference::{MAX_VERTICES, UNMAPPED};

pub struct Search {
    tables: Tables,
    sought: Sought,
    /// By the number of pairs on the path.
    levels: Box<[Level; MAX_VERTICES + 1]>,
    /// One for each pair on the path.
    choices: [Choice; MAX_VERTICES],
    minimum: u8,
    steps: u64,
    /// None when finished.
    next: Option<Next>,
    incumbent: Option<Vec<u8>>,
}

/// The candidate word of each row that had candidates on the level before.
type Level = [u64; MAX_VERTICES];

/// The next node, and the cutoff that it meets: what changes with each visit, by value so that it
/// can stay in registers.
#[derive(Clone, Copy)]
struct Next {
    pairs: usize,
    depth: usize,
    open: Open,
    cutoff: usize,
}

/// The undecided rows that have candidates, and the upper bound. Below the cutoff both may be too
/// great: the node is left, whatever they are.
#[derive(Clone, Copy, Default)]
struct Open {
    rows: u64,
    bound: usize,
}

/// A row that takes one candidate after the other: those to come, and what is open after the row
/// if no later row loses its last candidate.
#[derive(Clone, Copy, Default)]
struct Choice {
    row: usize,
    rest: u64,
    open: Open,
}

struct Tables {
    order: usize,
    /// For each old vertex: the rows to meet first, those with an edge to it. Where edges are many
    /// it is all rows: a second loop then costs more in mispredictions than it saves.
    first: Vec<u64>,
    /// The class of each edge of two old vertices. Classes number the labels of these edges, the
    /// null edge's first.
    classes: Vec<[u8; MAX_VERTICES]>,
    class_count: usize,
    /// For each old vertex: the others that it has an edge to.
    neighbours: Vec<u64>,
    /// For each new vertex and class: the other new vertices with an edge of that class to it.
    masks: Vec<u64>,
}

const NULL_CLASS: usize = 0;
/// Edges are many if more than one pair of vertices in so many has one.
const MANY_EDGES: usize = 6;

impl Search {
    pub fn start(problem: &Problem, sought: Sought, minimum: u8) -> Search {
        let mut levels = Box::new([[0; MAX_VERTICES]; MAX_VERTICES + 1]);
        levels[0] = root(problem);
        let open = Open {
            rows: set((0..MAX_VERTICES).filter(|&row| levels[0][row] != 0)),
            bound: levels[0].iter().filter(|&&word| word != 0).count(),
        };
        Search {
            tables: Tables::new(problem),
            sought,
            levels,
            choices: [Choice::default(); MAX_VERTICES],
            minimum,
            steps: 0,
            next: Some(Next {
                pairs: 0,
                depth: 0,
                open,
                cutoff: minimum.into(),
            }),
            incumbent: None,
        }
    }

    pub fn advance(&mut self, budget: u64) {
        let mut left = budget;
        let mut next = self.next;
        while let (Some(node), 1..) = (next, left) {
            left -= 1;
            next = self.visit(node);
        }
        self.next = next;
        self.steps += budget - left;
    }

    #[inline(always)]
    fn visit(&mut self, mut node: Next) -> Option<Next> {
        if node.open.bound >= node.cutoff {
            if node.depth == self.tables.order {
                if self.sought == Sought::Any || self.is_connected(node) {
                    self.incumbent = Some(self.path(node));
                    node.cutoff = node.pairs + 1;
                }
            } else if node.open.rows >> node.depth & 1 == 0 {
                node.depth += 1;
                return Some(node);
            } else {
                self.choices[node.pairs] = Choice {
                    row: node.depth,
                    rest: self.levels[node.pairs][node.depth],
                    open: Open {
                        rows: node.open.rows & (node.open.rows - 1),
                        bound: node.open.bound,
                    },
                };
                node.pairs += 1;
            }
        }
        self.choose(node)
    }

    /// The last row with a choice takes its next candidate; after the last it is left out.
    #[inline(always)]
    fn choose(&mut self, mut node: Next) -> Option<Next> {
        if node.pairs == 0 {
            return None;
        }
        let choice = &mut self.choices[node.pairs - 1];
        node.depth = choice.row + 1;
        node.open = choice.open;
        if choice.rest == 0 {
            node.pairs -= 1;
            node.open.bound -= 1;
            return Some(node);
        }
        let vertex = choice.rest.trailing_zeros() as usize;
        choice.rest &= choice.rest - 1;
        let [from, to, ..] = &mut self.levels[node.pairs - 1..] else {
            unreachable!("a level for each number of pairs");
        };
        let pair = (choice.row, vertex);
        node.open = (self.tables).refine((from, to), pair, choice.open, node.cutoff);
        Some(node)
    }

    /// The mapped rows hang together.
    fn is_connected(&self, node: Next) -> bool {
        let choices = &self.choices[..node.pairs];
        let mapped = set(choices.iter().map(|choice| choice.row));
        let mut reached = 0;
        let mut border = mapped & mapped.wrapping_neg();
        while border != 0 {
            reached |= border;
            let beside = Members(border).fold(0, |word, row| word | self.tables.neighbours[row]);
            border = beside & mapped & !reached;
        }
        reached == mapped
    }

    #[cold]
    fn path(&self, node: Next) -> Vec<u8> {
        let mut path = vec![UNMAPPED; node.depth];
        for (level, choice) in self.levels.iter().zip(&self.choices[..node.pairs]) {
            let taken = level[choice.row] & !choice.rest;
            path[choice.row] = taken.ilog2() as u8;
        }
        path
    }

    pub fn checkpoint(&self) -> Checkpoint {
        let path = self.next.map(|node| self.path(node));
        let mapping = self.incumbent.as_ref();
        Checkpoint {
            minimum: self.minimum,
            steps: self.steps,
            path: entries_from_bytes(&path.unwrap_or_default()),
            finished: self.next.is_none(),
            incumbent: mapping.map(|bytes| entries_from_bytes(bytes)),
        }
    }

    /// A bound below the cutoff, exact or not, has no say in it.
    pub fn ceiling(&self) -> usize {
        let Some(next) = self.next else {
            return self.checkpoint().cutoff();
        };
        let later = (0..next.pairs).map(|pairs| self.greatest_later_bound(pairs, next.cutoff));
        next.cutoff.max(1 + later.fold(next.open.bound, usize::max))
    }

    /// Over the later siblings of the node that the choice after so many pairs leads to.
    fn greatest_later_bound(&self, pairs: usize, cutoff: usize) -> usize {
        let (from, choice) = (&self.levels[pairs], self.choices[pairs]);
        let mut child = [0; MAX_VERTICES];
        let paired = Members(choice.rest).map(|vertex| {
            let pair = (choice.row, vertex);
            let open = (self.tables).refine((from, &mut child), pair, choice.open, cutoff);
            open.bound
        });
        let left_out = choice.open.bound - 1;
        paired.fold(left_out, usize::max)
    }
}

fn root(problem: &Problem) -> Level {
    let Problem {
        old,
        new,
        substitutes,
    } = problem;
    let mut labelled = BTreeMap::<u16, u64>::new();
    // by the label of its own edge, 0 for none
    let mut holding = [0; 256];
    for vertex in 0..new.order() {
        *labelled.entry(new.label(vertex)).or_default() |= 1 << vertex;
        holding[usize::from(new.own_edge(vertex))] |= 1 << vertex;
    }
    let mut agreeing = labelled.clone();
    for [from, to] in &substitutes.pairs {
        if let Some(word) = labelled.get(to) {
            *agreeing.entry(*from).or_default() |= word;
        }
    }
    let candidates = |row| {
        let agreeing = agreeing.get(&old.label(row)).copied().unwrap_or_default();
        agreeing & holding[usize::from(old.own_edge(row))]
    };
    array::from_fn(|row| {
        if row < old.order() {
            candidates(row)
        } else {
            0
        }
    })
}

impl Tables {
    fn new(problem: &Problem) -> Tables {
        let Problem { old, new, .. } = problem;
        let edges: Vec<_> = old.edges().filter(|(a, b, _)| a != b).collect();
        let mut labels: Vec<u8> = edges.iter().map(|edge| edge.2).chain([0]).collect();
        labels.sort();
        labels.dedup();
        let class_of = |label| labels.binary_search(&label).ok();
        let mut first = vec![0; old.order()];
        let mut neighbours = vec![0; old.order()];
        let mut classes = vec![[0; MAX_VERTICES]; old.order()];
        for &(a, b, label) in &edges {
            first[a] |= 1 << b;
            neighbours[a] |= 1 << b;
            neighbours[b] |= 1 << a;
            classes[a][b] = class_of(label).expect("a label of the old graph") as u8;
        }
        let pairs = old.order() * old.order() / 2;
        if edges.len() > pairs / MANY_EDGES {
            first.fill(u64::MAX);
        }
        let mut masks = vec![0; labels.len() * new.order()];
        for (v, u) in pairs_of(new.order()) {
            if let Some(class) = class_of(new.edge(v, u)) {
                masks[v * labels.len() + class] |= 1 << u;
            }
        }
        Tables {
            order: old.order(),
            first,
            classes,
            class_count: labels.len(),
            neighbours,
            masks,
        }
    }

    /// What is open after `row` took `vertex`, with its words in `to`. A bound below the cutoff may
    /// be too great, and then has no words. No loop stops in its midst: that was not faster.
    #[inline(always)]
    fn refine(
        &self,
        (from, to): (&Level, &mut Level),
        (row, vertex): (usize, usize),
        mut open: Open,
        cutoff: usize,
    ) -> Open {
        let masks = &self.masks[vertex * self.class_count..];
        let classes = &self.classes[row];
        let near = open.rows & self.first[row];
        let far = open.rows & !near;
        for r in Members(near) {
            to[r] = from[r] & masks[usize::from(classes[r])];
            open.close_if(to[r] == 0, r);
        }
        if open.bound < cutoff {
            return open;
        }
        let mask = masks[NULL_CLASS];
        for r in Members(far) {
            to[r] = from[r] & mask;
            open.close_if(to[r] == 0, r);
        }
        open
    }
}

impl Open {
    /// The row is one of the set.
    #[inline(always)]
    fn close_if(&mut self, empty: bool, row: usize) {
        self.rows ^= u64::from(empty) << row;
        self.bound -= usize::from(empty);
    }
}

/// Any two different vertices, both ways.
fn pairs_of(order: usize) -> impl Iterator<Item = (usize, usize)> {
    (0..order * order)
        .map(move |number| (number / order, number % order))
        .filter(|(a, b)| a != b)
}

fn set(members: impl Iterator<Item = usize>) -> u64 {
    members.fold(0, |word, member| word | 1 << member)
}

/// The members of a set, rising.
struct Members(u64);

impl Iterator for Members {
    type Item = usize;

    #[inline(always)]
    fn next(&mut self) -> Option<usize> {
        if self.0 == 0 {
            return None;
        }
        let least = self.0.trailing_zeros() as usize;
        self.0 &= self.0 - 1;
        Some(least)
    }
}
