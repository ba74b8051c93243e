//! The number results of a call, in the C interface's terms.

/// A function leaves the fields that it does not have at 0.
#[derive(Clone, Copy, Debug, Default, PartialEq, Eq)]
pub struct Answer {
    /// 0 where the call was accepted, else the refusal's number.
    pub number: u32,
    pub value: u64,
    pub earlier: u64,
    pub about: u64,
    pub steps: u64,
    pub size: u64,
    pub ceiling: u64,
    pub visits: u64,
}

impl Answer {
    pub fn accepted(value: u64) -> Answer {
        Answer {
            value,
            ..Answer::default()
        }
    }

    /// A refusal that has neither place nor row.
    pub fn refused(number: u32) -> Answer {
        Answer {
            number,
            ..Answer::default()
        }
    }

    pub fn is_accepted(&self) -> bool {
        self.number == 0
    }
}
