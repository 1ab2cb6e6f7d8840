//! Variables and their picks, request (f) of document 02: refusal 8, its place in the order of refusals, and the bounds
//! of the objects line and of rows with a variable.

use jesmovit_compare::answer::{Answer, COSTS, LEAST};
use jesmovit_compare::comparison::operation::Operation::*;

use crate::both::{all_refuse, ask, refused_with, Handed};
use crate::pick::nested;
use crate::sample::{sample, sample_over, sample_text};
use crate::worked::Worked;

/// The sample with these rows is refused by 8 with its last line, over no object as over one and two.
fn is_free(rows: &[[u16; 4]]) {
    for objects in 0..3 {
        all_refuse(sample_over(objects, rows).as_bytes(), 8, 16 + rows.len() as u64);
    }
}

/// The sample with these rows compiles, over no object as over one and two.
fn is_bound(rows: &[[u16; 4]]) {
    for objects in 0..3 {
        assert_eq!(ask(Compile, sample_over(objects, rows).as_bytes(), b"", 4096, 0).answer.number, 0);
    }
}

#[test]
fn one_pick_too_far() {
    for kind in [10, 11] {
        is_free(&[[kind, 0, 0, 0]]);
        is_free(&[[kind, 0, 65535, 0]]);
        is_free(&[[kind, 0, 1, 0], [9, 0, 0, 0]]);
        is_free(&[[kind, 0, 2, 0], [9, 0, 0, 0], [9, 1, 0, 0]]);
        is_bound(&[[kind, 0, 0, 0], [9, 0, 0, 0]]);
        is_bound(&[[kind, 0, 1, 0], [9, 0, 0, 0], [9, 1, 0, 0]]);
    }
    is_free(&nested(4, 4));
    is_bound(&nested(4, 3));
}

#[test]
fn every_part_is_read() {
    // Row 0 is the variable, row 1 nil, row 2 around both.
    let around: [[u16; 4]; 8] = [
        [4, 0, 1, 0],
        [4, 1, 0, 0],
        [5, 0, 0, 1],
        [5, 0, 1, 0],
        [6, 0, 1, 0],
        [6, 1, 0, 0],
        [7, 0, 0, 0],
        [8, 0, 0, 0],
    ];
    for row in around {
        is_free(&[[10, 0, 0, 0], [0, 0, 0, 0], row]);
        is_bound(&[[10, 0, 0, 0], [0, 0, 0, 0], row, [9, 2, 0, 0]]);
    }
}

#[test]
fn one_row_inside_and_outside_a_pick() {
    let [variable, pick] = [[10, 0, 0, 0], [9, 0, 0, 0]];
    is_free(&[variable, pick, [4, 1, 0, 0]]);
    is_free(&[variable, pick, [4, 0, 1, 0]]);
    is_bound(&[variable, pick, [4, 1, 0, 0], [9, 2, 0, 0]]);
    // The variable 1 inside two picks and inside one.
    is_free(&[[10, 0, 1, 0], pick, [9, 1, 0, 0], [6, 1, 2, 0]]);
    is_bound(&[[10, 0, 1, 0], pick, [9, 1, 0, 0], [6, 1, 2, 0], [9, 3, 0, 0]]);
}

#[test]
fn one_row_in_a_star_and_in_a_pick() {
    // Row 0 is inside no pick by way of the star, and inside one by way of the pick: rows 1 and 2, of which either may
    // be read first.
    let [star, pick] = [[8, 0, 0, 0], [9, 0, 0, 0]];
    for kind in [10, 11] {
        for [first, second] in [[star, pick], [pick, star]] {
            for last in [[4, 1, 2, 0], [4, 2, 1, 0]] {
                is_free(&[[kind, 0, 0, 0], first, second, last]);
                is_bound(&[[kind, 0, 0, 0], first, second, last, [9, 3, 0, 0]]);
            }
        }
    }
}

#[test]
fn a_free_variable_in_an_unused_row() {
    // The sample's program behind rows that it doesn't use.
    for unused in [[10, 0, 0, 0], [11, 0, 65535, 0], [10, 1, 3, 0]] {
        let job = sample_over(1, &[unused, [9, 0, 0, 0], [1, 0, 0, 0], [1, 1, 0, 0], [4, 2, 3, 0]]);
        let worked = Worked { job, ..sample() };
        worked.compiles();
        worked.judges(&[0, 1], [LEAST, 25, 25]);
        worked.costs([COSTS, 25]);
    }
}

#[test]
fn reading_does_not_look_for_picks() {
    let job = sample_over(2, &[[10, 0, 0, 0], [11, 2, 65535, 0], [4, 0, 1, 0]]);
    assert_eq!(ask(ReadJob, job.as_bytes(), b"", 0, 0).answer, Answer::accepted([2, 4, 2, 2, 3]));
    all_refuse(job.as_bytes(), 8, 19);
}

/// Each operation but reading refuses this job so, whatever costs, plan, list, table and output are.
fn comes_first(job: &str, number: u32, place: u64) {
    for operation in [CheckMoves, CheckSteps, LeastCost, Judge, Sheet] {
        for costs in [None, Some(&b"costs=16\n"[..])] {
            refused_with(operation, Handed { job: job.as_bytes(), plan: b"plan=4001\n", costs }, number, place);
        }
    }
    all_refuse(job.as_bytes(), number, place);
}

#[test]
fn before_4() {
    // Too large by doubling: 256 steps in sequence, in a pick or not.
    let mut rows = vec![[10, 0, 0, 0]];
    rows.extend((0..8).map(|row| [4, row, row, 0]));
    for objects in 0..3 {
        comes_first(&sample_over(objects, &rows), 8, 25);
    }
    rows.push([9, 8, 0, 0]);
    comes_first(&sample_over(1, &rows), 4, 26);
    comes_first(&sample_over(2, &nested(127, 127)), 8, 144);
    comes_first(&sample_over(2, &nested(127, 126)), 4, 144);
}

#[test]
fn after_1_to_3() {
    let free = sample_over(2, &[[10, 0, 0, 0]]);
    let all = |job: String, number, place| all_refuse(job.as_bytes(), number, place);
    all(free.clone() + "\n", 1, 18);
    all(free.replace("job=1", "job=2"), 1, 1);
    all(free.replace("objects=2", "objects=17"), 2, 15);
    all(free.replace("program=1", "program=129"), 2, 16);
    all(free.replace("goal=1", "goal=4"), 3, 14);
    all(sample_over(2, &[[10, 0, 0, 0], [9, 1, 0, 0]]), 3, 18);
}

/// The sample with this row and a pick around it compiles, or is refused by 3.
fn row_is_right(objects: u16, row: [u16; 4], right: bool) {
    let job = sample_over(objects, &[row, [9, 0, 0, 0]]);
    if right {
        assert_eq!(ask(Compile, job.as_bytes(), b"", 4096, 0).answer.number, 0);
    } else {
        all_refuse(job.as_bytes(), 3, 17);
    }
}

#[test]
fn bases() {
    // The sample has two moves and four formulas.
    for (objects, last_move, last_formula) in [(0, 2, 4), (1, 1, 3), (2, 0, 2)] {
        row_is_right(objects, [10, last_move, 0, 0], true);
        row_is_right(objects, [10, last_move + 1, 0, 0], false);
        row_is_right(objects, [11, last_formula, 0, 0], true);
        row_is_right(objects, [11, last_formula + 1, 0, 0], false);
        row_is_right(objects, [10, 65535, 0, 0], false);
        row_is_right(objects, [11, 65535, 0, 0], false);
    }
    row_is_right(3, [10, 0, 0, 0], false);
    row_is_right(4, [11, 0, 0, 0], true);
    row_is_right(5, [11, 0, 0, 0], false);
    row_is_right(16, [11, 0, 0, 0], false);
}

#[test]
fn unused_fields_and_kinds() {
    row_is_right(1, [10, 0, 0, 1], false);
    row_is_right(1, [11, 0, 0, 1], false);
    row_is_right(1, [12, 0, 0, 0], false);
    for row in [[9, 0, 1, 0], [9, 0, 0, 1], [9, 1, 0, 0]] {
        all_refuse(sample_over(1, &[[0, 0, 0, 0], row]).as_bytes(), 3, 18);
    }
}

#[test]
fn the_objects_line() {
    let with = |line: &str| sample_text().replace("objects=0\n", line);
    let counts = |job: String| ask(ReadJob, job.as_bytes(), b"", 0, 0).answer;
    for objects in 0..=16 {
        assert_eq!(counts(with(&format!("objects={objects}\n"))), Answer::accepted([2, 4, 2, 2, 3]));
    }
    for (line, number) in [("", 1), ("objects=\n", 1), ("objects=00\n", 1), ("objects=0,0\n", 1), ("object=0\n", 1)] {
        all_refuse(with(line).as_bytes(), number, 15);
    }
    for objects in [17, 18, 65535] {
        all_refuse(with(&format!("objects={objects}\n")).as_bytes(), 2, 15);
    }
}
