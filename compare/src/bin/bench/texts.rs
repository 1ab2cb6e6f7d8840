//! Sections 1 to 3: reading, compiling, and checking lists of moves.

use crate::inputs::plan_in_turn;
use crate::print::{self, micros, ratio};
use crate::timing::{self, Budget};
use crate::{accepted, position_sets};
use jesmovit_compare::answer::{BLOCKED, MISSED, PLAN, UNFINISHED};
use jesmovit_compare::generator::jobs;
use jesmovit_compare::generator::writer::job_text;
use jesmovit_compare::second::compiler::{compile, Compiled};
use jesmovit_compare::second::job::Job;
use jesmovit_compare::second::reader::read_job;
use jesmovit_compare::second::verdict::Verdict;
use std::hint::black_box;

fn line(name: &str, size: String, [library, other]: [f64; 2]) {
    print::line(name, &[size, micros(library), micros(other), ratio(library / other)]);
}

fn lines(text: &[u8]) -> usize {
    text.iter().filter(|&&byte| byte == b'\n').count()
}

/// Section 1.
pub fn reading(budget: Budget) {
    print::title("1. reading a job text", "job", &["lines", "library", "second", "ratio"]);
    for (name, job) in [("sample", jobs::sample()), ("medium", jobs::medium()), ("longest", jobs::longest())] {
        let text = job_text(&job);
        check_counts(name, &job, accepted::read_job(&text));
        let mut library = || {
            black_box(accepted::read_job(&text));
        };
        let mut second = || drop(black_box(read_job(&text)));
        let times = timing::measure(budget, [&mut library, &mut second]);
        line(name, lines(&text).to_string(), times);
    }
}

/// Ends the program unless the library has read what was written.
fn check_counts(name: &str, job: &Job, answer: [u64; 5]) {
    let counts = [usize::from(job.facts), job.formulas.len(), job.moves.len(), job.effects(), job.rows.len()];
    assert!(answer == counts.map(|n| n as u64), "job {name} is read as {answer:?}, not {counts:?}");
}

/// What the second implementation makes of a job text.
fn compile_text(text: &[u8]) -> Compiled {
    let job = read_job(text).expect("the job is read");
    compile(&job).expect("the program compiles")
}

/// Section 2.
pub fn compiling(budget: Budget, list: &mut [u16]) {
    print::title("2. compiling, from the text", "job", &["steps", "library", "second", "ratio"]);
    for (name, job) in [("sample", jobs::sample()), ("medium", jobs::medium()), ("wide", jobs::wide())] {
        let text = job_text(&job);
        let [positions, steps, ..] = accepted::compile(&text, list);
        let compiled = compile_text(&text);
        assert!(positions == compiled.positions as u64, "job {name}: {positions} positions");
        assert!(list[..steps as usize * 4] == *compiled.steps.concat(), "job {name}: steps differ");
        let mut library = || {
            black_box(accepted::compile(&text, list));
        };
        let mut second = || drop(black_box(compile_text(&text)));
        let times = timing::measure(budget, [&mut library, &mut second]);
        line(name, steps.to_string(), times);
    }
}

/// The verdict that the library's answer has.
fn verdict_of(answer: [u64; 5]) -> Verdict {
    match answer {
        [PLAN, cost, ..] => Verdict::Plan(cost),
        [BLOCKED, i, ..] => Verdict::Blocked(i as usize),
        [UNFINISHED, ..] => Verdict::Unfinished,
        [MISSED, ..] => Verdict::Missed,
        _ => panic!("{answer:?} is no verdict"),
    }
}

/// The times of checking a plan, once the verdicts are the same.
pub fn check_times(name: &str, job: &[u8], plan: &[u8], budget: Budget, list: &mut [u16]) -> [f64; 2] {
    let verdict = verdict_of(accepted::check_moves(job, plan, list));
    let other = position_sets::check_moves(job, plan);
    assert!(verdict == other, "job {name}: the library says {verdict:?}, the other {other:?}");
    assert!(!matches!(verdict, Verdict::Blocked(_)), "job {name}: the plan is blocked");
    let mut library = || {
        black_box(accepted::check_moves(job, plan, list));
    };
    let mut position_sets = || {
        black_box(position_sets::check_moves(job, plan));
    };
    timing::measure(budget, [&mut library, &mut position_sets])
}

/// Section 3.
pub fn checking(budget: Budget, list: &mut [u16]) {
    print::title("3. checking 4,000 moves, from both texts", "job", &["steps", "library", "sets", "ratio"]);
    let jobs = [("sample star", jobs::sample_star()), ("medium star", jobs::medium_star()), ("wide", jobs::wide())];
    for (name, job) in jobs {
        let text = job_text(&job);
        let plan = plan_in_turn(&job, 4000);
        let [_, steps, ..] = accepted::compile(&text, list);
        let times = check_times(name, &text, &plan, budget, list);
        line(name, steps.to_string(), times);
    }
}
