//! What is said of a list of moves or steps.

/// A verdict; a plan comes with its cost, and blocked with the number of entries that can be made.
#[derive(Clone, Copy, Debug, PartialEq, Eq)]
pub enum Verdict {
    Plan(u64),
    Blocked(usize),
    Unfinished,
    Missed,
}
