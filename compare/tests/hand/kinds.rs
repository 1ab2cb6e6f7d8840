//! Kinds of program rows, each by its steps of document 01's compiling table and by what a program of it allows: rows
//! that the marked cases don't have, parts without a step, and loops that are never left or never entered.

use jesmovit_compare::answer::{BLOCKED, COSTS, DEARER, LEAST, MISSED, NONE, PLAN, UNFINISHED};
use jesmovit_compare::comparison::operation::Operation::{CheckMoves, Judge};
use jesmovit_compare::second::job::Move;

use crate::both::refused;
use crate::sample::{nil_at_goal, sample, sample_over, text_of, X};
use crate::worked::Worked;

/// No fact, formulas 0 true and 1 false, one move that changes nothing at 5, and these rows; this formula is the goal.
fn one_free_move(goal: u16, rows: &[[u16; 4]], positions: u64, list: &[[u16; 4]], table: &[u64]) -> Worked {
    let job = text_of(0, &[[1, 0, 0], [0, 0, 0]], vec![Move::plain(0, 1, Vec::new())], goal, rows);
    Worked { job, costs: None, positions, list: list.concat(), table: table.to_vec() }
}

/// The steps of an if: its parts take one step each, `yes` from 1 to 2 and `no` from 3 to 4.
fn steps_of_if(formula: u16, yes: [u16; 4], no: [u16; 4]) -> [[u16; 4]; 6] {
    [yes, no, [1, 0, 1, formula], [2, 0, 3, formula], [0, 2, 5, 0], [0, 4, 5, 0]]
}

#[test]
#[rustfmt::skip]
fn an_if() {
    // If fact 0 is false move 0, otherwise move 1. No row has the number 3.
    let job = sample_over(0, &[[1, 0, 0, 0], [1, 1, 0, 0], [5, 3, 0, 1]]);
    let list = steps_of_if(3, [3, 1, 2, 0], [3, 3, 4, 1]).concat();
    let at_0 = Worked { job: job.clone(), costs: None, positions: 6, list: list.clone(), table: vec![
        0, 0, X, X, X, X,
        X, X, X, X, X, X,
        X, X, 20, X, X, 20,
        X, X, X, X, X, X,
    ] };
    at_0.compiles();
    at_0.judges(&[0], [MISSED, 0, 0]);
    at_0.judges(&[1], [BLOCKED, 0, 0]);
    at_0.judges(&[0, 1], [BLOCKED, 1, 0]);
    at_0.judges(&[], [UNFINISHED, 0, 0]);
    at_0.checks_steps(&[2, 0, 4], [MISSED, 0]);
    at_0.checks_steps(&[2, 0, 5], [BLOCKED, 2]);
    at_0.checks_steps(&[3], [BLOCKED, 0]);
    at_0.costs([NONE, 0]);
    let at_3 = Worked { job: job.replace("init=0", "init=3"), costs: None, positions: 6, list, table: vec![
        X, X, X, X, X, X,
        X, X, X, X, X, X,
        X, X, X, X, X, X,
        0, X, X, 0, 5, 5,
    ] };
    at_3.judges(&[1], [LEAST, 5, 5]);
    at_3.judges(&[0], [BLOCKED, 0, 0]);
    at_3.checks_steps(&[3, 1, 5], [PLAN, 5]);
    at_3.checks_steps(&[2], [BLOCKED, 0]);
    at_3.costs([COSTS, 5]);
}

#[test]
fn the_other_part_of_an_if_is_not_open() {
    // The formula holds, and the part for it is a test that fails.
    let list = steps_of_if(0, [1, 1, 2, 1], [3, 3, 4, 0]);
    let worked = one_free_move(0, &[[3, 1, 0, 0], [1, 0, 0, 0], [5, 0, 0, 1]], 6, &list, &[0, 0, X, X, X, X]);
    worked.compiles();
    worked.judges(&[0], [BLOCKED, 0, 0]);
    worked.judges(&[], [UNFINISHED, 0, 0]);
    worked.checks_steps(&[2, 0], [BLOCKED, 1]);
    worked.costs([NONE, 0]);
}

#[test]
fn a_test() {
    let test_and_move = |row, list, table| one_free_move(0, &[[3, 1, 0, 0], [1, 0, 0, 0], row], 3, list, table);
    // A test that fails, before a move and behind it.
    let before = test_and_move([4, 0, 1, 0], &[[1, 0, 1, 1], [3, 1, 2, 0]], &[0, X, X]);
    before.compiles();
    before.judges(&[0], [BLOCKED, 0, 0]);
    before.judges(&[], [UNFINISHED, 0, 0]);
    before.checks_steps(&[0], [BLOCKED, 0]);
    before.costs([NONE, 0]);
    let behind = test_and_move([4, 1, 0, 0], &[[3, 0, 1, 0], [1, 1, 2, 1]], &[0, 5, X]);
    behind.compiles();
    behind.judges(&[0], [UNFINISHED, 0, 0]);
    behind.judges(&[0, 0], [BLOCKED, 1, 0]);
    behind.checks_steps(&[0, 1], [BLOCKED, 1]);
    behind.costs([NONE, 0]);
    // And one that holds.
    let list = [[3, 0, 1, 0], [1, 1, 2, 0]];
    let holds = one_free_move(0, &[[3, 0, 0, 0], [1, 0, 0, 0], [4, 1, 0, 0]], 3, &list, &[0, 5, 5]);
    holds.judges(&[0], [LEAST, 5, 5]);
    holds.checks_steps(&[0, 1], [PLAN, 5]);
    holds.checks_steps(&[0], [UNFINISHED, 0]);
}

#[test]
fn any_of_no_move() {
    let job = |rows: &[[u16; 4]]| text_of(0, &[[1, 0, 0]], Vec::new(), 0, rows);
    let any = Worked { job: job(&[[2, 0, 0, 0]]), costs: None, positions: 2, list: Vec::new(), table: vec![0, X] };
    any.compiles();
    any.judges(&[], [UNFINISHED, 0, 0]);
    any.costs([NONE, 0]);
    let list = [[0, 0, 1, 0], [0, 2, 0, 0], [0, 0, 3, 0]].concat();
    let job = job(&[[2, 0, 0, 0], [8, 0, 0, 0]]);
    let star = Worked { job, costs: None, positions: 4, list, table: vec![0, 0, X, 0] };
    star.compiles();
    star.judges(&[], [LEAST, 0, 0]);
    star.lays(&[], b"");
    star.checks_steps(&[2], [PLAN, 0]);
    star.checks_steps(&[0], [UNFINISHED, 0]);
    star.checks_steps(&[0, 2], [BLOCKED, 1]);
    star.costs([COSTS, 0]);
    for operation in [CheckMoves, Judge] {
        refused(operation, star.job.as_bytes(), b"plan=1\nm=0\n", 5, 2);
    }
}

#[test]
fn a_pick_over_no_object_beside_a_move() {
    // Row 0 is the move, row 2 the pick: the pick behind the move, before it, and as the other branch.
    let beside = |row, positions, list, table| {
        one_free_move(0, &[[1, 0, 0, 0], [0, 0, 0, 0], [9, 1, 0, 0], row], positions, list, table)
    };
    let behind = beside([4, 0, 2, 0], 3, &[[3, 0, 1, 0]], &[0, 5, X]);
    behind.compiles();
    behind.judges(&[0], [UNFINISHED, 0, 0]);
    behind.judges(&[0, 0], [BLOCKED, 1, 0]);
    behind.costs([NONE, 0]);
    let before = beside([4, 2, 0, 0], 3, &[[3, 1, 2, 0]], &[0, X, X]);
    before.compiles();
    before.judges(&[0], [BLOCKED, 0, 0]);
    before.checks_steps(&[0], [BLOCKED, 0]);
    before.costs([NONE, 0]);
    let list = [[3, 3, 4, 0], [0, 0, 1, 0], [0, 0, 3, 0], [0, 2, 5, 0], [0, 4, 5, 0]];
    let either = beside([6, 2, 0, 0], 6, &list, &[0, 0, X, 0, 5, 5]);
    either.compiles();
    either.judges(&[0], [LEAST, 5, 5]);
    either.judges(&[], [UNFINISHED, 0, 0]);
    either.checks_steps(&[2, 0, 4], [PLAN, 5]);
    either.checks_steps(&[1, 3], [BLOCKED, 1]);
}

#[test]
fn missed_where_another_run_is_unfinished() {
    // The move twice or once, and a goal that is false: after one move the first branch is not complete, the second is.
    let list = [[3, 1, 2, 0], [3, 2, 3, 0], [3, 4, 5, 0], [0, 0, 1, 0], [0, 0, 4, 0], [0, 3, 6, 0], [0, 5, 6, 0]];
    let worked = one_free_move(1, &[[1, 0, 0, 0], [4, 0, 0, 0], [6, 1, 0, 0]], 7, &list, &[0, 0, 5, 10, 0, 5, 5]);
    worked.compiles();
    worked.judges(&[0], [MISSED, 0, 0]);
    worked.judges(&[0, 0], [MISSED, 0, 0]);
    worked.judges(&[0, 0, 0], [BLOCKED, 2, 0]);
    worked.judges(&[], [UNFINISHED, 0, 0]);
    worked.checks_steps(&[3, 0], [UNFINISHED, 0]);
    worked.checks_steps(&[4, 2, 6], [MISSED, 0]);
    worked.checks_steps(&[4, 2, 5], [BLOCKED, 2]);
    worked.checks_steps(&[2], [BLOCKED, 0]);
    worked.costs([NONE, 0]);
}

#[test]
fn the_step_of_nil() {
    nil_at_goal().checks_steps(&[], [UNFINISHED, 0]);
    nil_at_goal().checks_steps(&[0], [PLAN, 0]);
    nil_at_goal().checks_steps(&[0, 0], [BLOCKED, 1]);
}

#[test]
fn a_while_never_left_and_one_never_entered() {
    let steps = |formula| [[3, 1, 2, 0], [1, 0, 1, formula], [2, 0, 3, formula], [0, 2, 0, 0]];
    let always = one_free_move(0, &[[1, 0, 0, 0], [7, 0, 0, 0]], 4, &steps(0), &[0, 0, 5, X]);
    always.compiles();
    always.judges(&[], [UNFINISHED, 0, 0]);
    always.judges(&[0; 3], [UNFINISHED, 0, 0]);
    always.checks_steps(&[1, 0, 3, 1, 0], [UNFINISHED, 0]);
    always.checks_steps(&[2], [BLOCKED, 0]);
    always.costs([NONE, 0]);
    let never = one_free_move(0, &[[1, 0, 0, 0], [7, 1, 0, 0]], 4, &steps(1), &[0, X, X, 0]);
    never.judges(&[], [LEAST, 0, 0]);
    never.judges(&[0], [BLOCKED, 0, 0]);
    never.checks_steps(&[2], [PLAN, 0]);
    never.checks_steps(&[1], [BLOCKED, 0]);
    never.costs([COSTS, 0]);
}

#[test]
#[rustfmt::skip]
fn two_facts_are_swapped() {
    // Each fact is set where the other is true and cleared where it is false, all judged before the move. The goal is
    // fact 1 without fact 0, from fact 0 without fact 1; the program is the star of the move.
    let formulas = [[1, 0, 0], [2, 0, 0], [2, 1, 0], [3, 1, 0], [3, 2, 0], [4, 2, 3]];
    let swap = Move::plain(0, 1, vec![[1, 1, 1], [3, 1, 0], [2, 0, 1], [4, 0, 0]]);
    let job = text_of(2, &formulas, vec![swap], 5, &[[1, 0, 0, 0], [8, 0, 0, 0]]).replace("init=0", "init=1");
    let list = [[3, 1, 2, 0], [0, 0, 1, 0], [0, 2, 0, 0], [0, 0, 3, 0]].concat();
    let worked = Worked { job, costs: None, positions: 4, list, table: vec![
        X, X, X, X,
        0, 0, 10, 0,
        5, 5, 5, 5,
        X, X, X, X,
    ] };
    worked.judges(&[0], [LEAST, 5, 5]);
    worked.judges(&[0, 0], [MISSED, 0, 0]);
    worked.judges(&[0, 0, 0], [DEARER, 15, 5]);
    worked.costs([COSTS, 5]);
}

#[test]
fn unused_rows_may_be_too_large() {
    // Move 0 doubled 124 times, and behind it the sample's own program.
    let mut rows = vec![[1, 0, 0, 0]];
    rows.extend((0..124).map(|row| [4, row, row, 0]));
    rows.extend([[1, 0, 0, 0], [1, 1, 0, 0], [4, 125, 126, 0]]);
    assert_eq!(rows.len(), 128);
    let worked = Worked { job: sample_over(0, &rows), ..sample() };
    worked.compiles();
    worked.judges(&[0, 1], [LEAST, 25, 25]);
    worked.costs([COSTS, 25]);
}
