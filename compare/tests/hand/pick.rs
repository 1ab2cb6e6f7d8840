//! Picks, request (f) of document 02: their compiled steps, the plans that they allow, and the least cost over every
//! choice of object.

use jesmovit_compare::answer::{Answer, BLOCKED, COSTS, DEARER, LEAST, MISSED, NONE, PLAN, UNFINISHED};
use jesmovit_compare::comparison::operation::Operation;
use jesmovit_compare::second::job::Move;

use crate::both::{all_refuse, ask};
use crate::sample::{sample_over, text_of, X};
use crate::worked::Worked;

/// The sample with two objects and these rows.
fn over_two(rows: &[[u16; 4]], positions: u64, list: &[[u16; 4]], table: Vec<u64>) -> Worked {
    Worked { job: sample_over(2, rows), costs: None, positions, list: list.concat(), table }
}

/// The steps of a pick of move x over two objects.
pub const PICK: [[u16; 4]; 6] = [[3, 1, 2, 0], [3, 3, 4, 1], [0, 0, 1, 0], [0, 0, 3, 0], [0, 2, 5, 0], [0, 4, 5, 0]];

#[test]
#[rustfmt::skip]
fn a_pick_of_a_move() {
    let table = vec![
        0, 0, X, 0, X, X,
        X, X, X, X, X, X,
        X, X, 20, X, X, 20,
        X, X, X, X, X, X,
    ];
    let worked = over_two(&[[10, 0, 0, 0], [9, 0, 0, 0]], 6, &PICK, table);
    worked.compiles();
    // Move 1 needs fact 1, which is false at first.
    worked.checks_moves(&[], [UNFINISHED, 0]);
    worked.checks_moves(&[0], [MISSED, 0]);
    worked.checks_moves(&[1], [BLOCKED, 0]);
    worked.checks_moves(&[0, 1], [BLOCKED, 1]);
    worked.checks_steps(&[2, 0, 4], [MISSED, 0]);
    worked.checks_steps(&[2, 0], [UNFINISHED, 0]);
    worked.checks_steps(&[2, 1], [BLOCKED, 1]);
    worked.checks_steps(&[3, 1], [BLOCKED, 1]);
    worked.costs([NONE, 0]);
}

#[test]
fn the_least_over_every_object() {
    // Both moves set fact 0, the goal, move 0 at 20 and move 1 at 5.
    let [dear, cheap] = [3, 1].map(|class| Move::plain(0, class, vec![[0, 0, 1]]));
    let job = text_of(1, &[[1, 0, 0], [2, 0, 0]], vec![dear, cheap], 1, &[[10, 0, 0, 0], [9, 0, 0, 0]]);
    let job = job.replace("objects=0", "objects=2");
    let table = vec![0, 0, X, 0, X, X, X, X, 20, X, 5, 5];
    let worked = Worked { job, costs: None, positions: 6, list: PICK.concat(), table };
    worked.judges(&[0], [DEARER, 20, 5]);
    worked.judges(&[1], [LEAST, 5, 5]);
    worked.checks_steps(&[2, 0, 4], [PLAN, 20]);
    worked.checks_steps(&[3, 1, 5], [PLAN, 5]);
    worked.costs([COSTS, 5]);
    // With one object the cheap move is never made.
    let list = [[3, 1, 2, 0], [0, 0, 1, 0], [0, 2, 3, 0]].concat();
    let job = worked.job.replace("objects=2", "objects=1");
    let worked = Worked { job, costs: None, positions: 4, list, table: vec![0, 0, X, X, X, X, 20, 20] };
    worked.judges(&[0], [LEAST, 20, 20]);
    worked.judges(&[1], [BLOCKED, 0, 0]);
    worked.costs([COSTS, 20]);
}

#[test]
#[rustfmt::skip]
fn one_row_picked_twice_in_sequence() {
    // Each pick takes an object of its own: move 0, then move 1.
    let list = [
        PICK,
        [[3, 6, 7, 0], [3, 8, 9, 1], [0, 5, 6, 0], [0, 5, 8, 0], [0, 7, 10, 0], [0, 9, 10, 0]],
    ].concat();
    let table = vec![
        0, 0, X, 0, X, X, X, X, X, X, X,
        X, X, X, X, X, X, X, X, X, X, X,
        X, X, 20, X, X, 20, 20, 40, 20, X, 40,
        X, X, X, X, X, X, X, X, X, 25, 25,
    ];
    let worked = over_two(&[[10, 0, 0, 0], [9, 0, 0, 0], [4, 1, 1, 0]], 11, &list, table);
    assert_eq!(list.len(), 12);
    worked.compiles();
    worked.judges(&[0, 1], [LEAST, 25, 25]);
    worked.judges(&[0, 0], [MISSED, 0, 0]);
    worked.judges(&[0], [UNFINISHED, 0, 0]);
    worked.checks_steps(&[2, 0, 4, 9, 7, 11], [PLAN, 25]);
    worked.costs([COSTS, 25]);
}

#[test]
#[rustfmt::skip]
fn one_object_for_both_parts_of_a_sequence() {
    // Move 0 twice, or move 1 twice: never move 0 and then move 1.
    let list = [
        [3, 1, 2, 0], [3, 2, 3, 0], [3, 4, 5, 1], [3, 5, 6, 1],
        [0, 0, 1, 0], [0, 0, 4, 0], [0, 3, 7, 0], [0, 6, 7, 0],
    ];
    let table = vec![
        0, 0, X, X, 0, X, X, X,
        X, X, X, X, X, X, X, X,
        X, X, 20, 40, X, X, X, 40,
        X, X, X, X, X, X, X, X,
    ];
    let worked = over_two(&[[10, 0, 0, 0], [4, 0, 0, 0], [9, 1, 0, 0]], 8, &list, table);
    worked.compiles();
    worked.judges(&[0, 1], [BLOCKED, 1, 0]);
    worked.judges(&[0, 0], [MISSED, 0, 0]);
    worked.costs([NONE, 0]);
}

/// The sample with these rows, the last a pick, and no object: of its two positions the first has no step.
fn has_no_step(rows: &[[u16; 4]]) {
    let job = sample_over(0, rows);
    let worked = Worked { job, costs: None, positions: 2, list: Vec::new(), table: vec![0, X, X, X, X, X, X, X] };
    worked.compiles();
    worked.judges(&[], [UNFINISHED, 0, 0]);
    worked.judges(&[0], [BLOCKED, 0, 0]);
    worked.checks_steps(&[], [UNFINISHED, 0]);
    worked.costs([NONE, 0]);
}

#[test]
fn a_pick_over_no_object() {
    // Whatever the body: move 0 of an object, or any.
    for body in [[10, 0, 0, 0], [2, 0, 0, 0]] {
        has_no_step(&[body, [9, 0, 0, 0]]);
    }
    // A star may do without it.
    let list = [[0, 0, 1, 0], [0, 2, 0, 0], [0, 0, 3, 0]].concat();
    let job = sample_over(0, &[[2, 0, 0, 0], [9, 0, 0, 0], [8, 1, 0, 0]]).replace("goal=1", "goal=0");
    let table = [&[0, 0, X, 0], &[X; 12][..]].concat();
    let worked = Worked { job, costs: None, positions: 4, list, table };
    worked.compiles();
    worked.judges(&[], [LEAST, 0, 0]);
}

#[test]
fn a_large_body_over_no_object() {
    // Move 0 doubled 126 times is too large, and so is its pick over one object; over none there is no copy of it.
    let mut rows = vec![[1, 0, 0, 0]];
    rows.extend((0..126).map(|row| [4, row, row, 0]));
    all_refuse(sample_over(0, &rows).as_bytes(), 4, 16 + 127);
    rows.push([9, 126, 0, 0]);
    assert_eq!(rows.len(), 128);
    has_no_step(&rows);
    all_refuse(sample_over(1, &rows).as_bytes(), 4, 16 + 128);
}

#[test]
#[rustfmt::skip]
fn a_test_of_an_object() {
    // That fact x is true, then move x. Fact 1 alone is true at first, so it is move 1.
    let list = [
        [1, 1, 2, 1], [3, 2, 3, 0], [1, 4, 5, 2], [3, 5, 6, 1],
        [0, 0, 1, 0], [0, 0, 4, 0], [0, 3, 7, 0], [0, 6, 7, 0],
    ];
    let table = vec![
        X, X, X, X, X, X, X, X,
        X, X, X, X, X, X, X, X,
        0, 0, X, X, 0, 0, X, X,
        X, X, X, X, X, X, 5, 5,
    ];
    let mut worked = over_two(&[[11, 1, 0, 0], [10, 0, 0, 0], [4, 0, 1, 0], [9, 2, 0, 0]], 8, &list, table);
    worked.job = worked.job.replace("init=0", "init=2");
    worked.compiles();
    worked.judges(&[1], [LEAST, 5, 5]);
    worked.judges(&[0], [BLOCKED, 0, 0]);
    worked.checks_steps(&[5, 2, 3, 7], [PLAN, 5]);
    worked.costs([COSTS, 5]);
}

#[test]
#[rustfmt::skip]
fn a_test_of_the_outer_object() {
    // Pick x, then pick y: that fact x is true, then move y. Fact 1 alone is true at first, so x is 1, and y is either.
    let list = [
        [1, 2, 3, 1], [3, 3, 4, 0], [1, 5, 6, 1], [3, 6, 7, 1], [0, 1, 2, 0], [0, 1, 5, 0], [0, 4, 8, 0], [0, 7, 8, 0],
        [1, 10, 11, 2], [3, 11, 12, 0], [1, 13, 14, 2], [3, 14, 15, 1],
        [0, 9, 10, 0], [0, 9, 13, 0], [0, 12, 16, 0], [0, 15, 16, 0],
        [0, 0, 1, 0], [0, 0, 9, 0], [0, 8, 17, 0], [0, 16, 17, 0],
    ];
    let mut table = vec![X; 2 * 18];
    table.extend([0, 0, 0, X, X, 0, X, X, X, 0, 0, 0, 20, 0, 0, X, 20, 20]);
    table.extend([X; 15]);
    table.extend([5; 3]);
    let rows = [[11, 1, 1, 0], [10, 0, 0, 0], [4, 0, 1, 0], [9, 2, 0, 0], [9, 3, 0, 0]];
    let mut worked = over_two(&rows, 18, &list, table);
    worked.job = worked.job.replace("init=0", "init=2");
    worked.compiles();
    worked.judges(&[0], [MISSED, 0, 0]);
    worked.judges(&[1], [LEAST, 5, 5]);
    worked.costs([COSTS, 5]);
}

/// Pick x, then any number of times pick y: move y and then move 2 + x. Four moves cost 5, 20, 12 and 30.
#[rustfmt::skip]
fn outer_and_inner() -> Worked {
    let moves = [1, 3, 2, 4].map(|class| Move::plain(0, class, Vec::new())).to_vec();
    let rows = [[10, 0, 0, 0], [10, 2, 1, 0], [4, 0, 1, 0], [9, 2, 0, 0], [8, 3, 0, 0], [9, 4, 0, 0]];
    let list = [
        [3, 3, 4, 0], [3, 4, 5, 2], [3, 6, 7, 1], [3, 7, 8, 2], [0, 2, 3, 0], [0, 2, 6, 0], [0, 5, 9, 0], [0, 8, 9, 0],
        [0, 1, 2, 0], [0, 9, 1, 0], [0, 1, 10, 0],
        [3, 13, 14, 0], [3, 14, 15, 3], [3, 16, 17, 1], [3, 17, 18, 3],
        [0, 12, 13, 0], [0, 12, 16, 0], [0, 15, 19, 0], [0, 18, 19, 0],
        [0, 11, 12, 0], [0, 19, 11, 0], [0, 11, 20, 0],
        [0, 0, 1, 0], [0, 0, 11, 0], [0, 10, 21, 0], [0, 20, 21, 0],
    ];
    Worked {
        job: text_of(0, &[[1, 0, 0]], moves, 0, &rows).replace("objects=0", "objects=2"),
        costs: None,
        positions: 22,
        list: list.concat(),
        table: vec![0, 0, 0, 0, 5, 17, 0, 20, 32, 17, 0, 0, 0, 0, 5, 35, 0, 20, 50, 35, 0, 0],
    }
}

#[test]
fn variable_0_is_of_the_nearest_pick() {
    let worked = outer_and_inner();
    worked.compiles();
    // The outer object stays, the inner one may change.
    worked.judges(&[0, 2, 1, 2], [DEARER, 49, 0]);
    worked.judges(&[1, 3, 0, 3], [DEARER, 85, 0]);
    worked.judges(&[0, 2, 0, 3], [BLOCKED, 3, 0]);
    worked.judges(&[1, 3, 1, 2], [BLOCKED, 3, 0]);
    worked.judges(&[2], [BLOCKED, 0, 0]);
    worked.judges(&[0], [UNFINISHED, 0, 0]);
    worked.judges(&[], [LEAST, 0, 0]);
    worked.costs([COSTS, 0]);
}

#[test]
fn sixteen_objects() {
    // Move k is of class 15 - k and does nothing: the last object costs nothing.
    let moves = (0..16).map(|object| Move::plain(0, 15 - object, Vec::new())).collect();
    let job = text_of(0, &[[1, 0, 0]], moves, 0, &[[10, 0, 0, 0], [9, 0, 0, 0]]).replace("objects=0", "objects=16");
    let mut list: Vec<u16> = (0..16).flat_map(|k| [3, 2 * k + 1, 2 * k + 2, k]).collect();
    list.extend((0..16).flat_map(|k| [0, 0, 2 * k + 1, 0]));
    list.extend((0..16).flat_map(|k| [0, 2 * k + 2, 33, 0]));
    let mut table = vec![0; 34];
    for (k, cost) in [3600, 1800, 900, 600, 360, 240, 180, 120, 90, 60, 45, 30, 20, 12, 5].into_iter().enumerate() {
        table[2 * k + 2] = cost;
    }
    let worked = Worked { job, costs: None, positions: 34, list, table };
    worked.compiles();
    worked.judges(&[15], [LEAST, 0, 0]);
    worked.judges(&[0], [DEARER, 3600, 0]);
    worked.costs([COSTS, 0]);
}

/// So many picks inside each other, around the object of one of them.
pub fn nested(picks: u16, variable: u16) -> Vec<[u16; 4]> {
    let mut rows = vec![[10, 0, variable, 0]];
    rows.extend((0..picks).map(|body| [9, body, 0, 0]));
    rows
}

#[test]
fn a_hundred_and_twenty_seven_picks() {
    // Move 0 from position 127 to 128; the pick that starts at 126 - k ends at 129 + k.
    let mut list = vec![3, 127, 128, 0];
    list.extend((0..127).flat_map(|k| [0, 126 - k, 127 - k, 0, 0, 128 + k, 129 + k, 0]));
    let mut table = vec![X; 4 * 256];
    table[..128].fill(0);
    table[2 * 256 + 128..3 * 256].fill(20);
    for variable in [0, 1, 126] {
        let job = sample_over(1, &nested(127, variable)).replace("goal=1", "goal=2");
        let worked = Worked { job, costs: None, positions: 256, list: list.clone(), table: table.clone() };
        worked.compiles();
        worked.judges(&[0], [LEAST, 20, 20]);
        worked.costs([COSTS, 20]);
    }
    all_refuse(sample_over(1, &nested(127, 127)).as_bytes(), 8, 144);
}

/// The text of a job of 64 moves that do nothing, with so many objects.
fn free_moves(objects: u16, rows: &[[u16; 4]]) -> String {
    let free = Move::plain(0, 0, Vec::new());
    text_of(0, &[[1, 0, 0]], vec![free; 64], 0, rows).replace("objects=0", &format!("objects={objects}"))
}

/// A job compiles to so many positions and steps.
fn has_size(job: &str, positions: u64, steps: u64) {
    let asked = ask(Operation::Compile, job.as_bytes(), b"", 4096, 0);
    assert_eq!(asked.answer, Answer::accepted([positions, steps, 0, 0, 0]));
}

#[test]
fn sizes_of_nested_picks() {
    // Over two objects the end is 1, 5, 13, 29, 61, 125, 253 and 509 behind the start. Six picks make 64 moves, and one
    // pick, two, four, ... of four no-ops each.
    has_size(&free_moves(2, &nested(6, 5)), 254, 64 + 63 * 4);
    all_refuse(free_moves(2, &nested(7, 6)).as_bytes(), 4, 73 + 8);
    // Over ten 1, 21 and 221, over eleven 1, 23 and 265.
    has_size(&free_moves(10, &nested(2, 1)), 222, 100 + 11 * 20);
    all_refuse(free_moves(11, &nested(2, 1)).as_bytes(), 4, 73 + 3);
    // Over sixteen 127 picks are refused at once.
    all_refuse(free_moves(16, &nested(127, 126)).as_bytes(), 4, 73 + 128);
}

#[test]
fn steps_of_picks() {
    // Any row in a pick over fifteen objects: 960 moves, and thirty no-ops. 34 nils more are 1,024 steps, 35 aren't.
    let mut rows = vec![[2, 0, 0, 0], [9, 0, 0, 0], [0, 0, 0, 0], [4, 1, 2, 0]];
    rows.extend((3..36).map(|before| [4, before, 2, 0]));
    has_size(&free_moves(15, &rows), 32 + 34, 1024);
    rows.push([4, 36, 2, 0]);
    all_refuse(free_moves(15, &rows).as_bytes(), 4, 73 + 38);
}
