//! `step_limit_table` writes crates/step_limit/src/table.rt: the step limits of 02, U5, a row for
//! each old size, in it a number for each new size. Nothing is linked but Rust's own library, so
//! that `rustc` alone makes it. What it writes is proved where it is used.

const SIZES: usize = 65;

fn main() {
    println!("{HEAD}");
    let mut row = [1u64; SIZES];
    for _ in 0..SIZES {
        for limit in row {
            println!("    {limit},");
        }
        row = next(row);
    }
    println!("];");
}

/// The row of one old vertex more. A number that would be above 2^64 - 1 stays there.
fn next(row: [u64; SIZES]) -> [u64; SIZES] {
    let mut next = row;
    for (m, limit) in next.iter_mut().enumerate() {
        let taken = match m {
            0 => 0,
            _ => row[m - 1].saturating_mul(m as u64),
        };
        *limit = limit.saturating_add(taken).saturating_add(1);
    }
    next
}

const HEAD: &str = "\
// The table of step limits: a row for each old order, in it an entry for each new order. harness/src/bin/step_limit_table.rs writes this file.

use super::ENTRIES;

pub const STEP_LIMITS: [u64; ENTRIES] = [";
