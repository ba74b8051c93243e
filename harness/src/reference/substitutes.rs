//! Labels that agree though they differ (02, U1), of two bytes each (02, U6).

use super::{Reason, Refusal};

const MAX_BYTES: usize = 1024;

/// Pairs of vertex labels, old then new. They are read one way only, and never one after another.
#[derive(Clone, Debug, Default, PartialEq, Eq)]
pub struct Substitutes {
    pub pairs: Vec<[u16; 2]>,
}

impl Substitutes {
    /// Four bytes a pair, each label with its lower byte first.
    pub fn parse(bytes: &[u8]) -> Result<Substitutes, Refusal> {
        let (pairs, rest) = bytes.as_chunks();
        if !rest.is_empty() || bytes.len() > MAX_BYTES {
            return Err(Reason::SubstitutesLength.into());
        }
        let label = |low, high| u16::from_le_bytes([low, high]);
        let pairs: Vec<_> = pairs
            .iter()
            .map(|&[a, b, c, d]| [label(a, b), label(c, d)])
            .collect();
        if pairs.as_flattened().contains(&0) {
            return Err(Reason::SubstituteLabelZero.into());
        }
        Ok(Substitutes { pairs })
    }

    pub fn save(&self) -> Vec<u8> {
        let labels = self.pairs.as_flattened().iter();
        labels.flat_map(|label| label.to_le_bytes()).collect()
    }

    pub fn list(&self, old: u16, new: u16) -> bool {
        self.pairs.contains(&[old, new])
    }
}
