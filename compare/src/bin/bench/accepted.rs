//! The library's operations on texts that it accepts, with no costs text.

use jesmovit_compare::answer::Answer;
use jesmovit_compare::library::{self, NONE_GIVEN};

/// The answer's numbers; ends the program where the library refuses the text.
fn accepted(answer: Answer) -> [u64; 5] {
    assert!(answer.number == 0, "refused by {} at {}", answer.number, answer.values[0]);
    answer.values
}

pub fn read_job(job: &[u8]) -> [u64; 5] {
    accepted(library::read_job(job))
}

pub fn compile(job: &[u8], list: &mut [u16]) -> [u64; 5] {
    accepted(library::compile(job, list))
}

pub fn check_moves(job: &[u8], plan: &[u8], list: &mut [u16]) -> [u64; 5] {
    accepted(library::check_moves(job, plan, NONE_GIVEN, list))
}

pub fn least_cost(job: &[u8], list: &mut [u16], table: &mut [u64]) -> [u64; 5] {
    accepted(library::least_cost(job, NONE_GIVEN, list, table))
}
