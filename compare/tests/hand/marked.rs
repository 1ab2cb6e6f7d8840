//! The ten marked cases of document 01, the mistakes that it warns of, and effects that conflict.

use jesmovit_compare::answer::{BLOCKED, COSTS, DEARER, LEAST, MISSED, NONE, PLAN, UNFINISHED};
use jesmovit_compare::comparison::operation::Operation;
use jesmovit_compare::generator::writer::plan_text;
use jesmovit_compare::second::compiler::compile_with;
use jesmovit_compare::second::domain::Domain;
use jesmovit_compare::second::fault::Fault;
use jesmovit_compare::second::job::{Move, HOUSE_COSTS};
use jesmovit_compare::second::reader::read_job;
use jesmovit_compare::second::steps::Steps;
use jesmovit_compare::second::verdict::Verdict;

use crate::both::ask;
use crate::sample::{nil_at_goal, one_move, sample, sample_with, star_of_or, star_of_while, text_of, X};
use crate::worked::Worked;

/// Moves that are a plan of this cost, where the least cost is as given.
fn is_plan(job: &Worked, moves: &[u16], cost: u64, least: u64) {
    job.compiles();
    job.checks_moves(moves, [PLAN, cost]);
    job.judges(moves, [if cost == least { LEAST } else { DEARER }, cost, least]);
    job.costs([COSTS, least]);
}

/// Moves that are no plan.
fn is_no_plan(job: &Worked, moves: &[u16], [number, value]: [u64; 2]) {
    job.checks_moves(moves, [number, value]);
    job.judges(moves, [number, value, 0]);
    job.lays_nothing(moves, [number, value]);
}

#[test]
fn case_1_least() {
    is_plan(&sample(), &[0, 1], 25, 25);
}

#[test]
fn case_2_unfinished() {
    is_no_plan(&sample(), &[], [UNFINISHED, 0]);
}

#[test]
fn case_3_blocked() {
    is_no_plan(&sample(), &[1], [BLOCKED, 0]);
}

#[test]
fn case_4_unfinished() {
    is_no_plan(&sample(), &[0], [UNFINISHED, 0]);
}

#[test]
fn case_5_blocked() {
    is_no_plan(&sample(), &[0, 1, 1], [BLOCKED, 2]);
}

#[test]
fn case_6_dearer() {
    is_plan(&star_of_or(), &[0, 0, 1], 45, 25);
}

#[test]
fn case_7_missed() {
    is_no_plan(&star_of_or(), &[], [MISSED, 0]);
}

#[test]
fn case_8_unfinished() {
    star_of_while().compiles();
    is_no_plan(&star_of_while(), &[0], [UNFINISHED, 0]);
    star_of_while().costs([NONE, 0]);
}

#[test]
fn case_9_cleared_and_set() {
    for effects in [[[0, 0, 0], [0, 0, 1]], [[0, 0, 1], [0, 0, 0]]] {
        let job = Worked { table: vec![0, X, X, X], ..one_move(&effects) };
        job.compiles();
        is_no_plan(&job, &[0], [BLOCKED, 0]);
        job.checks_steps(&[0], [BLOCKED, 0]);
        job.costs([NONE, 0]);
    }
}

#[test]
fn case_10_empty_plan() {
    is_plan(&nil_at_goal(), &[], 0, 0);
}

#[test]
fn step_lists_get_no_step_added() {
    let through = [6, 2, 0, 4, 7, 6, 3, 1, 5, 7, 8];
    let said = |steps: &[u16], verdict| star_of_or().checks_steps(steps, verdict);
    said(&through, [PLAN, 25]);
    said(&through[..10], [UNFINISHED, 0]);
    said(&[8], [MISSED, 0]);
    said(&[6, 3, 1], [BLOCKED, 2]);
    said(&[6, 0], [BLOCKED, 1]);
}

#[test]
fn case_8_with_the_faulty_star() {
    let job = read_job(star_of_while().job.as_bytes()).expect("the job reads");
    let compiled = compile_with(&job, Fault::Star).expect("the job compiles");
    assert_eq!(compiled.positions, 5);
    let domain = Domain::new(&job, HOUSE_COSTS, Fault::None);
    // Formula 3 holds, move 0, back to the while, and out through the star.
    assert_eq!(Steps::new(&domain, &compiled).verdict(&[1, 0, 3, 4], Fault::None), Verdict::Missed);
}

/// What the judge says of a list of moves, with room enough.
fn judged(job: &str, moves: &[u16]) -> [u64; 3] {
    let asked = ask(Operation::Judge, job.as_bytes(), &plan_text("m", moves), 4096, 6144);
    assert_eq!(asked.answer.number, 0);
    let [_, _, number, value, least] = asked.answer.values;
    [number, value, least]
}

#[test]
fn conditions_are_judged_in_the_old_state() {
    // The first effect sets fact 0, the second sets fact 1 where fact 0 holds.
    let action = Move::plain(0, 0, vec![[0, 0, 1], [1, 1, 1]]);
    let job = text_of(2, &[[1, 0, 0], [2, 0, 0], [2, 1, 0]], vec![action], 2, &[[1, 0, 0, 0]]);
    assert_eq!(judged(&job, &[0]), [MISSED, 0, 0]);
}

/// One move clears fact 0, and sets it where it is true before; the goal holds everywhere.
fn set_where_true(init: u16) -> Worked {
    let job =
        one_move(&[[1, 0, 1], [0, 0, 0]]).job.replace("goal=1", "goal=0").replace("init=0", &format!("init={init}"));
    let table = if init == 0 { vec![0, 5, X, X] } else { vec![X, X, 0, X] };
    Worked { job, table, ..one_move(&[]) }
}

#[test]
fn a_conflict_is_of_effects_that_hold() {
    is_plan(&set_where_true(0), &[0], 5, 5);
    set_where_true(0).checks_steps(&[0], [PLAN, 5]);
    is_no_plan(&set_where_true(1), &[0], [BLOCKED, 0]);
    set_where_true(1).checks_steps(&[0], [BLOCKED, 0]);
    set_where_true(1).costs([NONE, 0]);
}

#[test]
fn the_same_value_twice_is_no_conflict() {
    is_plan(&one_move(&[[0, 0, 1], [0, 0, 1]]), &[0], 5, 5);
}

#[test]
fn every_open_branch_of_a_choice_is_taken() {
    // Move 0 or move 0 then move 1: after move 0 the program is complete by the first branch, after 0 and 1 by the second.
    let job = sample_with("program=4\np=1,0,0,0\np=1,1,0,0\np=4,0,1,0\np=6,0,2,0\n");
    assert_eq!(judged(&job, &[0]), [MISSED, 0, 0]);
    assert_eq!(judged(&job, &[0, 1]), [LEAST, 25, 25]);
}

#[test]
fn a_loop_of_no_ops_ends() {
    // Star of star of nil, then move 0, then move 1.
    let job = sample_with("program=7\np=0,0,0,0\np=8,0,0,0\np=8,1,0,0\np=1,0,0,0\np=1,1,0,0\np=4,2,3,0\np=4,5,4,0\n");
    assert_eq!(judged(&job, &[0, 1]), [LEAST, 25, 25]);
}
