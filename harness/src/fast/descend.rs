//! The descent over the fast walk.

use super::Search;
use crate::reference::{start_minimum, Checkpoint, Problem, Sought};

pub struct Descent<'a> {
    problem: &'a Problem,
    sought: Sought,
    floor: u8,
    search: Search,
}

impl Descent<'_> {
    pub fn start(problem: &Problem, sought: Sought, floor: u8) -> Descent<'_> {
        Descent {
            problem,
            sought,
            floor,
            search: Search::start(problem, sought, start_minimum(problem, floor)),
        }
    }

    /// Answers how many visits were made.
    pub fn advance(&mut self, budget: u64) -> u64 {
        let mut left = budget;
        loop {
            let before = self.search.steps;
            self.search.advance(left);
            left -= self.search.steps - before;
            if !self.is_exhausted() {
                return budget - left;
            }
            let lower = self.search.minimum - 1;
            self.search = Search::start(self.problem, self.sought, lower);
        }
    }

    fn is_exhausted(&self) -> bool {
        let Search {
            next,
            incumbent,
            minimum,
            ..
        } = &self.search;
        next.is_none() && incumbent.is_none() && *minimum > self.floor
    }

    pub fn checkpoint(&self) -> Checkpoint {
        self.search.checkpoint()
    }

    pub fn ceiling(&self) -> usize {
        let above = usize::from(self.search.minimum) + 1;
        self.search.ceiling().min(above)
    }
}
