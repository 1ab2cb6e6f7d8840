//! Lists of 0, 7, 8 and 9 numbers and tables of 0, 11, 12 and 13 on the sample, which needs 8 and 12: the answers, and
//! all that list and table hold afterwards.

use jesmovit_compare::answer::{BLOCKED, COSTS, LEAST, PLAN};
use jesmovit_compare::comparison::operation::Operation;

use crate::both::refused;
use crate::sample::{sample, sample_text};

#[test]
fn compile() {
    sample().compiles();
}

#[test]
fn check_moves() {
    sample().checks_moves(&[0, 1], [PLAN, 25]);
    sample().checks_moves(&[1], [BLOCKED, 0]);
}

#[test]
fn check_steps() {
    sample().checks_steps(&[0, 1], [PLAN, 25]);
    sample().checks_steps(&[1, 0], [BLOCKED, 0]);
}

#[test]
fn least_cost() {
    sample().costs([COSTS, 25]);
}

#[test]
fn judge() {
    sample().judges(&[0, 1], [LEAST, 25, 25]);
    sample().judges(&[1], [BLOCKED, 0, 0]);
}

#[test]
fn a_bad_plan_comes_before_every_length() {
    refused(Operation::CheckMoves, sample_text().as_bytes(), b"plan=2\nm=0\nm=2\n", 5, 3);
    refused(Operation::CheckSteps, sample_text().as_bytes(), b"plan=2\nt=0\nt=2\n", 5, 3);
    refused(Operation::Judge, sample_text().as_bytes(), b"plan=2\nm=0\nm=2\n", 5, 3);
    refused(Operation::Sheet, sample_text().as_bytes(), b"plan=2\nm=0\nm=2\n", 5, 3);
}
