//! The comparison: every operation (`operation`) asked of both sides, with lists, tables and outputs of several lengths
//! (`calls`, `lengths`), on many cases (`run`), with a count of the answers and limits that occurred (`tally`). `report`
//! writes down what differs.

mod calls;
mod lengths;
pub mod operation;
mod report;
pub mod run;
mod tally;
