//! What a function of the header gives back.

/// The numbers of verdicts, of least costs and of a sheet, as in the header.
pub const PLAN: u64 = 0;
pub const BLOCKED: u64 = 1;
pub const UNFINISHED: u64 = 2;
pub const MISSED: u64 = 3;
pub const LEAST: u64 = 4;
pub const DEARER: u64 = 5;
pub const COSTS: u64 = 6;
pub const NONE: u64 = 7;
pub const LAID: u64 = 8;

/// 0 or the refusal's number, and five numbers.
#[derive(Clone, Copy, Debug, PartialEq, Eq)]
pub struct Answer {
    pub number: u32,
    pub values: [u64; 5],
}

impl Answer {
    /// An answer that refuses nothing.
    pub fn accepted(values: [u64; 5]) -> Answer {
        Answer { number: 0, values }
    }

    /// A refusal by its number and place.
    pub fn refused(number: u32, place: u64) -> Answer {
        Answer { number, values: [place, 0, 0, 0, 0] }
    }
}
