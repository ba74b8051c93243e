//! The search tree and the walk over it (01, "The walk"), of either search (02, U7).

use std::ops::ControlFlow::{self, Break, Continue};

use super::{size, Checkpoint, Entry, Problem, Sought};

/// A node decides the old vertices before `path.len()`.
pub struct Node<'a> {
    problem: &'a Problem,
    path: Vec<Entry>,
    /// For each undecided row, the first one first: its candidates, rising.
    candidates: Vec<Vec<usize>>,
}

impl<'a> Node<'a> {
    pub fn root(problem: &'a Problem) -> Node<'a> {
        let Problem { old, new, .. } = problem;
        let alike = |row| (0..new.order()).filter(move |&v| problem.vertices_agree(row, v));
        Node {
            problem,
            path: Vec::new(),
            candidates: (0..old.order()).map(|row| alike(row).collect()).collect(),
        }
    }

    pub fn is_last(&self) -> bool {
        self.candidates.is_empty()
    }

    pub fn upper_bound(&self) -> usize {
        let open_rows = self.candidates.iter().filter(|set| !set.is_empty());
        size(&self.path) + open_rows.count()
    }

    /// What the first undecided row may take, in the order of the walk; nothing at a last node.
    pub fn choices(&self) -> Vec<Entry> {
        match self.candidates.first() {
            Some(set) => set.iter().copied().map(Some).chain([None]).collect(),
            None => Vec::new(),
        }
    }

    pub fn child(&self, choice: Entry) -> Node<'a> {
        let row = self.path.len();
        let mut path = self.path.clone();
        path.push(choice);
        let undecided = self.candidates.iter().enumerate().skip(1);
        let candidates = undecided
            .map(|(ahead, set)| self.compatible(row, choice, row + ahead, set))
            .collect();
        Node {
            problem: self.problem,
            path,
            candidates,
        }
    }

    /// Those candidates of `later` that stay when `row` takes `choice`.
    fn compatible(&self, row: usize, choice: Entry, later: usize, set: &[usize]) -> Vec<usize> {
        let Some(vertex) = choice else {
            return set.to_vec();
        };
        let Problem { old, new, .. } = self.problem;
        let edge = old.edge(row, later);
        let stays = |&&v: &&usize| v != vertex && new.edge(vertex, v) == edge;
        set.iter().filter(stays).copied().collect()
    }

    fn children(&self) -> impl Iterator<Item = Node<'a>> + '_ {
        self.choices().into_iter().map(|choice| self.child(choice))
    }

    fn children_after(&self, choice: Entry) -> impl Iterator<Item = Node<'a>> + '_ {
        let from_choice = self.choices().into_iter().skip_while(move |&c| c != choice);
        from_choice.skip(1).map(|later| self.child(later))
    }
}

/// What changes along the walk.
struct Walk {
    sought: Sought,
    budget: u64,
    steps: u64,
    cutoff: usize,
    incumbent: Option<Vec<Entry>>,
}

impl Walk {
    /// Goes on from the descendant of `node` that `rest` leads to. Once the budget is spent it
    /// breaks off with the path of the next node.
    fn resume(&mut self, node: &Node, rest: &[Entry]) -> ControlFlow<Vec<Entry>> {
        let Some((&choice, beyond)) = rest.split_first() else {
            return self.visit(node);
        };
        self.resume(&node.child(choice), beyond)?;
        let mut later = node.children_after(choice);
        later.try_for_each(|child| self.visit(&child))
    }

    fn visit(&mut self, node: &Node) -> ControlFlow<Vec<Entry>> {
        if self.budget == 0 {
            return Break(node.path.clone());
        }
        self.budget -= 1;
        self.steps += 1;
        if node.upper_bound() < self.cutoff {
            return Continue(());
        }
        if node.is_last() {
            if self.sought.admits(&node.problem.old, &node.path) {
                self.cutoff = size(&node.path) + 1;
                self.incumbent = Some(node.path.clone());
            }
            return Continue(());
        }
        node.children().try_for_each(|child| self.visit(&child))
    }
}

/// The checkpoint after `budget` more visits, fewer only if the search finishes. The sum of steps
/// and budget must not overflow.
pub fn advance(
    problem: &Problem,
    sought: Sought,
    checkpoint: &Checkpoint,
    budget: u64,
) -> Checkpoint {
    if checkpoint.finished {
        return checkpoint.clone();
    }
    let mut walk = Walk {
        sought,
        budget,
        steps: checkpoint.steps,
        cutoff: checkpoint.cutoff(),
        incumbent: checkpoint.incumbent.clone(),
    };
    let next = walk.resume(&Node::root(problem), &checkpoint.path);
    Checkpoint {
        minimum: checkpoint.minimum,
        steps: walk.steps,
        finished: next.is_continue(),
        path: next.break_value().unwrap_or_default(),
        incumbent: walk.incumbent,
    }
}

/// 01's fence.
pub fn ceiling(problem: &Problem, checkpoint: &Checkpoint) -> usize {
    let cutoff = checkpoint.cutoff();
    if checkpoint.finished {
        return cutoff;
    }
    cutoff.max(1 + greatest_open_bound(&Node::root(problem), &checkpoint.path))
}

/// Over the descendant of `node` that `rest` leads to, its later siblings, and the later siblings
/// of its ancestors below `node`.
fn greatest_open_bound(node: &Node, rest: &[Entry]) -> usize {
    let Some((&choice, beyond)) = rest.split_first() else {
        return node.upper_bound();
    };
    let later = node.children_after(choice).map(|child| child.upper_bound());
    later.fold(greatest_open_bound(&node.child(choice), beyond), usize::max)
}
