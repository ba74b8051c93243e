//! The step limit foretold (02, U5).

use super::{Reason, Refusal, MAX_VERTICES};

/// V for all sizes up to 64: `uncapped_limits()[m][n]` for m new vertices and n old ones. What does not
/// fit into 128 bits stays at their greatest number, which is far above any cap.
pub fn uncapped_limits() -> Vec<Vec<u128>> {
    let sizes = MAX_VERTICES + 1;
    let mut v = vec![vec![1u128; sizes]; sizes];
    for n in 1..sizes {
        for m in 0..sizes {
            let taken = match m {
                0 => 0,
                _ => (m as u128).saturating_mul(v[m - 1][n - 1]),
            };
            v[m][n] = taken.saturating_add(v[m][n - 1]).saturating_add(1);
        }
    }
    v
}

/// "An entry above 2^64 - 1 is stored as 2^64 - 1".
pub fn capped_limit(new_order: u64, old_order: u64) -> Result<u64, Refusal> {
    let size = |order| match usize::try_from(order) {
        Ok(order) if order <= MAX_VERTICES => Ok(order),
        _ => Err(Refusal::from(Reason::SizeTooLarge)),
    };
    let (m, n) = (size(new_order)?, size(old_order)?);
    Ok(u64::try_from(uncapped_limits()[m][n]).unwrap_or(u64::MAX))
}
