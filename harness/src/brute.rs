//! Brute force: every list of entries is judged by formula (1), with no tree and no bound.

use crate::reference::{Problem, Sought, UNMAPPED};

/// The first in the order among the largest common subgraphs that are looked for, as bytes. There is
/// one: all left out.
pub fn largest(problem: &Problem, sought: Sought) -> Vec<u8> {
    let mut best = vec![UNMAPPED; problem.old.order()];
    for_each_list(problem, &mut |list| {
        let admitted = sought == Sought::Any || is_connected(problem, list);
        if admitted && is_common(problem, list) && is_better(list, &best) {
            best.copy_from_slice(list);
        }
    });
    best
}

pub fn size(list: &[u8]) -> usize {
    list.iter().filter(|&&byte| byte != UNMAPPED).count()
}

fn is_better(list: &[u8], best: &[u8]) -> bool {
    size(list) > size(best) || (size(list) == size(best) && list < best)
}

fn is_common(problem: &Problem, list: &[u8]) -> bool {
    let pairs: Vec<(usize, usize)> = (0..list.len())
        .filter(|&row| list[row] != UNMAPPED)
        .map(|row| (row, list[row].into()))
        .collect();
    let Problem { old, new, .. } = problem;
    // read here again, and not by the reference: an old label, and those that it agrees with
    let agreeing = |label: u16| {
        let listed = problem.substitutes.pairs.iter();
        let listed = listed.filter(move |[from, _]| *from == label);
        [label].into_iter().chain(listed.map(|&[_, to]| to))
    };
    pairs.iter().all(|&(x, y)| {
        agreeing(old.label(x)).any(|label| label == new.label(y))
            && pairs.iter().all(|&(other_x, other_y)| {
                // also of a pair with itself
                (x == other_x) == (y == other_y) && old.edge(x, other_x) == new.edge(y, other_y)
            })
    })
}

/// However the mapped old vertices are parted in two, an edge leads from the one part to the other.
/// The vertices of the one part are the bits of a number.
fn is_connected(problem: &Problem, list: &[u8]) -> bool {
    let mapped: Vec<usize> = (0..list.len())
        .filter(|&row| list[row] != UNMAPPED)
        .collect();
    let whole = (1u32 << mapped.len()) - 1;
    (1..whole).all(|part| {
        let (inside, outside): (Vec<_>, Vec<_>) =
            (0..mapped.len()).partition(|&place| part >> place & 1 == 1);
        let edge = |a: usize, b: usize| problem.old.edge(mapped[a], mapped[b]) != 0;
        inside.iter().any(|&a| outside.iter().any(|&b| edge(a, b)))
    })
}

/// Each list with one entry for each old vertex, a new vertex or left out, in no promised order.
fn for_each_list(problem: &Problem, judge: &mut impl FnMut(&[u8])) {
    let choices: Vec<u8> = (0..problem.new.order() as u8).chain([UNMAPPED]).collect();
    let mut digits = vec![0; problem.old.order()];
    loop {
        let list: Vec<u8> = digits.iter().map(|&digit| choices[digit]).collect();
        judge(&list);
        let Some(row) = digits.iter().position(|&digit| digit + 1 < choices.len()) else {
            return;
        };
        digits[..row].fill(0);
        digits[row] += 1;
    }
}
