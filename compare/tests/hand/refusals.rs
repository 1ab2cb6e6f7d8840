//! The refusal table, and the order of refusals.

use jesmovit_compare::answer::{Answer, UNFINISHED};
use jesmovit_compare::comparison::operation::Operation::{self, *};
use jesmovit_compare::second::job::Move;

use crate::both::{all_refuse, ask, refused};
use crate::sample::{sample, sample_text, sample_with, text_of};

/// The sample with one line changed is refused so.
fn changed(from: &str, to: &str, number: u32, place: u64) {
    let job = sample_text();
    assert!(job.contains(from));
    all_refuse(job.replacen(from, to, 1).as_bytes(), number, place);
}

#[test]
fn the_sample_reads() {
    assert_eq!(ask(ReadJob, sample_text().as_bytes(), b"", 0, 0).answer, Answer::accepted([2, 4, 2, 2, 3]));
}

#[test]
fn examples_of_the_table() {
    changed("job=1", "job=2", 1, 1);
    changed("facts=2", "facts=13", 2, 2);
    changed("goal=1", "goal=4", 3, 14);
    let rows: String = (0..8).map(|row| format!("p=4,{row},{row},0\n")).collect();
    let job = sample_with(&format!("program=9\np=1,0,0,0\n{rows}"));
    all_refuse(job.as_bytes(), 4, 25);
    refused(CheckMoves, sample_text().as_bytes(), b"plan=1\nm=2\n", 5, 2);
    refused(Judge, sample_text().as_bytes(), b"plan=1\nm=2\n", 5, 2);
    let short = ask(LeastCost, sample_text().as_bytes(), b"", 8, 11);
    assert_eq!(short.answer, Answer::refused(6, 12));
    short.holds(&[], &[]);
}

/// What `tests/job_texts.table` lacks.
#[test]
fn forms_and_fields() {
    changed("facts=2", "facts=65536", 1, 2);
    changed("facts=2", "facts=65535", 2, 2);
    changed("facts=2", "facts=2\r", 1, 2);
    // The bytes beside the digits, a zero with a sign, and something before the first line.
    changed("facts=2", "facts=:", 1, 2);
    changed("facts=2", "facts=1/", 1, 2);
    changed("init=0", "init=-0", 1, 3);
    changed("job=1", "\njob=1", 1, 1);
    changed("job=1", "\u{feff}job=1", 1, 1);
    changed("m=0,3,1,0,0", "m=9,16,17,0,0", 2, 10);
    changed("p=4,0,1,0", "p=12,0,0,0", 3, 19);
}

#[test]
fn no_fact_to_refer_to() {
    let nil = [[0, 0, 0, 0]];
    let set = Move::plain(0, 0, vec![[0, 0, 1]]);
    all_refuse(text_of(0, &[[2, 0, 0]], Vec::new(), 0, &nil).as_bytes(), 3, 5);
    all_refuse(text_of(0, &[[1, 0, 0]], vec![set], 0, &nil).as_bytes(), 3, 8);
}

/// An operation refuses this plan text for the sample by 5.
fn bad_plan(operation: Operation, plan: &str, place: u64) {
    refused(operation, sample_text().as_bytes(), plan.as_bytes(), 5, place);
}

#[test]
fn plans() {
    for operation in [CheckMoves, Judge, Sheet] {
        bad_plan(operation, "plan=1\nt=0\n", 2);
        bad_plan(operation, "plan=1\nm=2\n", 2);
    }
    bad_plan(CheckSteps, "plan=1\nm=0\n", 2);
    bad_plan(CheckSteps, "plan=1\nt=2\n", 2);
    for operation in [CheckMoves, CheckSteps, Judge, Sheet] {
        bad_plan(operation, "", 1);
        bad_plan(operation, "plan=4001\n", 1);
        bad_plan(operation, "plan=4000\n", 2);
        bad_plan(operation, "plan=0\nm=0\n", 2);
        bad_plan(operation, "plan=0", 1);
    }
    sample().checks_moves(&[0], [UNFINISHED, 0]);
    sample().checks_steps(&[0], [UNFINISHED, 0]);
}

#[test]
fn the_first_bad_line_decides() {
    // Line 2 is of wrong form, line 3 outside its range.
    let job = sample_text().replace("facts=2", "facts=02").replace("init=0", "init=9");
    all_refuse(job.as_bytes(), 1, 2);
    // Line 19, the last, is wrong, and line 20 is extra.
    let job = sample_text().replace("p=4,0,1,0", "p=4,0,2,0") + "p=0,0,0,0\n";
    all_refuse(job.as_bytes(), 3, 19);
    // Line 14 is wrong, and the plan too.
    let job = sample_text().replace("goal=1", "goal=4");
    refused(Judge, job.as_bytes(), b"plan=1\nm=2\n", 3, 14);
}
