//! Costs by state, request (g) of document 02: behind its effect count a move line has a formula and a second class,
//! which is added to the move's cost where the formula holds before the move.
//!
//! The sample's formulas are 0 true, 1 fact 0, 2 fact 1, 3 not fact 0. Its move 0 sets fact 1, at 20; its move 1 sets
//! fact 0 where fact 1 is true, at 5. From state 0 move 0 leads to state 2, and from there move 1 to state 3; in state 3
//! both change nothing.

use jesmovit_compare::answer::{Answer, BLOCKED, COSTS, DEARER, LEAST, MISSED, PLAN};
use jesmovit_compare::comparison::operation::Operation::{LeastCost, ReadJob};
use jesmovit_compare::generator::jobs::rounds;
use jesmovit_compare::generator::writer::job_text;
use jesmovit_compare::second::job::Move;

use crate::both::{all_refuse, ask, ask_with, Handed};
use crate::costs::{all_at, house_with, is_least, sample_at};
use crate::pick::PICK;
use crate::sample::{sample, sample_text, star_of_or, text_of, X};
use crate::sheet::{has_lines, page};
use crate::worked::Worked;

/// The lines of the sample's moves, lines 10 and 12.
const FIRST: &str = "m=0,3,1,0,0";
const SECOND: &str = "m=2,1,1,0,0";

/// The text with other lines for moves 0 and 1.
fn text_with(text: &str, first: &str, second: &str) -> String {
    assert!(text.contains(FIRST) && text.contains(SECOND));
    text.replacen(SECOND, second, 1).replacen(FIRST, first, 1)
}

/// The job with other lines for moves 0 and 1, and its table then.
fn with_moves(worked: Worked, first: &str, second: &str, table: Vec<u64>) -> Worked {
    Worked { job: text_with(&worked.job, first, second), table, ..worked }
}

/// The star of (0 or 1), where move 0 costs 20 + 12 as long as fact 0 is false: 32 in states 0 and 2, 20 in state 3.
/// There position 3 is reached by 0, 1, 0: 32 + 5 + 20.
#[rustfmt::skip]
fn dear_at_first() -> Worked {
    let table = vec![
        0, 0, 0, X, 0, X, X, 0,
        X, X, X, X, X, X, X, X,
        32, 32, 32, 32, 32, X, 32, 32,
        37, 37, 37, 57, 37, 37, 37, 37,
    ];
    with_moves(star_of_or(), "m=0,3,1,3,2", SECOND, table)
}

#[test]
fn a_sum_along_the_states() {
    let worked = dear_at_first();
    worked.compiles();
    for (moves, cost) in [(&[0, 1][..], 37), (&[0, 0, 1], 69), (&[0, 1, 0], 57), (&[0, 1, 1, 0, 0], 82)] {
        worked.checks_moves(moves, [PLAN, cost]);
        worked.judges(moves, [if cost == 37 { LEAST } else { DEARER }, cost, 37]);
    }
    worked.costs([COSTS, 37]);
    worked.judges(&[], [MISSED, 0, 0]);
    worked.judges(&[0], [MISSED, 0, 0]);
    worked.judges(&[1], [BLOCKED, 0, 0]);
}

#[test]
fn the_same_for_step_lists() {
    // A round of the star with move 0 or with move 1, and the step out of it.
    let (zero, one, out) = ([6, 2, 0, 4, 7], [6, 3, 1, 5, 7], [8]);
    let worked = dear_at_first();
    worked.checks_steps(&[&zero[..], &one, &out].concat(), [PLAN, 37]);
    worked.checks_steps(&[&zero[..], &zero, &one, &out].concat(), [PLAN, 69]);
    worked.checks_steps(&[&zero[..], &one, &zero, &out].concat(), [PLAN, 57]);
    worked.checks_steps(&[&zero[..], &out].concat(), [MISSED, 0]);
}

#[test]
fn the_sheet_prints_these_costs() {
    let dear = "    1    0       32         32\n";
    let lines = [dear, "    2    0       32         64\n", "    3    1        5         69\n"];
    dear_at_first().lays(&[0, 0, 1], &page(&lines));
    let lines = [dear, "    2    1        5         37\n", "    3    0       20         57\n"];
    dear_at_first().lays(&[0, 1, 0], &page(&lines));
    dear_at_first().lays_nothing(&[0], [MISSED, 0]);
}

#[test]
#[rustfmt::skip]
fn false_before_and_true_after() {
    // Move 0 costs 20 + 12 where fact 1 is true, which it is after the move, but not before the first.
    let table = vec![
        0, 0, 0, X, 0, X, X, 0,
        X, X, X, X, X, X, X, X,
        20, 20, 20, 20, 20, X, 20, 20,
        25, 25, 25, 57, 25, 25, 25, 25,
    ];
    let worked = with_moves(star_of_or(), "m=0,3,1,2,2", SECOND, table);
    worked.judges(&[0, 1], [LEAST, 25, 25]);
    worked.judges(&[0, 0, 1], [DEARER, 57, 25]);
    worked.costs([COSTS, 25]);
}

#[test]
#[rustfmt::skip]
fn true_before_and_false_after() {
    // Move 1 costs 5 + 30 where fact 0 is false, which it is before the first time, but not after.
    let table = vec![
        0, 0, 0, X, 0, X, X, 0,
        X, X, X, X, X, X, X, X,
        20, 20, 20, 20, 20, X, 20, 20,
        55, 55, 55, 75, 55, 55, 55, 55,
    ];
    let worked = with_moves(star_of_or(), FIRST, "m=2,1,1,3,4", table);
    worked.judges(&[0, 1], [LEAST, 55, 55]);
    worked.judges(&[0, 1, 1], [DEARER, 60, 55]);
    worked.judges(&[0, 1, 0], [DEARER, 75, 55]);
    worked.costs([COSTS, 55]);
}

#[test]
#[rustfmt::skip]
fn a_free_move_that_costs_in_some_states() {
    // Move 0 is of class 0, and costs 12 as long as fact 0 is false.
    let table = vec![
        0, 0, 0, X, 0, X, X, 0,
        X, X, X, X, X, X, X, X,
        12, 12, 12, 12, 12, X, 12, 12,
        17, 17, 17, 17, 17, 17, 17, 17,
    ];
    let worked = with_moves(star_of_or(), "m=0,0,1,3,2", SECOND, table);
    worked.judges(&[0, 1, 0, 0], [LEAST, 17, 17]);
    worked.judges(&[0, 0, 1], [DEARER, 29, 17]);
    worked.costs([COSTS, 17]);
}

/// Two facts, of which fact 0 is the goal; formula 3 says that fact 1 is false, and these moves come in any order.
/// Of the four positions of the star of any, 1 is before its move and 2 behind it.
fn in_any_order(moves: Vec<Move>, table: Vec<u64>) -> Worked {
    let formulas = [[1, 0, 0], [2, 0, 0], [2, 1, 0], [3, 2, 0]];
    let job = text_of(2, &formulas, moves, 1, &[[2, 0, 0, 0], [8, 0, 0, 0]]);
    let list = [[3, 1, 2, 0], [3, 1, 2, 1], [0, 0, 1, 0], [0, 2, 0, 0], [0, 0, 3, 0]].concat();
    Worked { job, costs: None, positions: 4, list, table }
}

#[test]
#[rustfmt::skip]
fn a_detour_is_least() {
    // Move 0 sets fact 1, at 12. Move 1 sets fact 0, at 5, and at 5 + 20 as long as fact 1 is false.
    let set = |fact, class| Move::plain(0, class, vec![[0, fact, 1]]);
    let table = vec![
        0, 0, X, 0,
        25, 25, 25, 25,
        12, 12, 12, 12,
        17, 17, 17, 17,
    ];
    let worked = in_any_order(vec![set(1, 2), set(0, 1).with_second(3, 3)], table);
    worked.judges(&[0, 1], [LEAST, 17, 17]);
    worked.judges(&[1], [DEARER, 25, 17]);
    worked.judges(&[1, 0], [DEARER, 37, 17]);
    worked.judges(&[0, 0, 1], [DEARER, 29, 17]);
    worked.costs([COSTS, 17]);
    // Without the second class the one move is least.
    let table = vec![
        0, 0, X, 0,
        5, 5, 5, 5,
        12, 12, 12, 12,
        17, 17, 17, 17,
    ];
    let plain = in_any_order(vec![set(1, 2), set(0, 1)], table);
    plain.judges(&[1], [LEAST, 5, 5]);
    plain.judges(&[0, 1], [DEARER, 17, 5]);
}

/// A pick of one of two moves that set fact 0: move 0 at 20, move 1 at 5, and at 5 + 30 as long as fact 1 is false.
fn picked(init: u16, table: Vec<u64>) -> Worked {
    let [dear, cheap] = [3, 1].map(|class| Move::plain(0, class, vec![[0, 0, 1]]));
    let worked = in_any_order(vec![dear, cheap.with_second(3, 4)], table);
    let domain = worked.job.split("objects=").next().expect("a text has a first part");
    let job = format!("{domain}objects=2\nprogram=2\np=10,0,0,0\np=9,0,0,0\n");
    Worked { job: job.replace("init=0", &format!("init={init}")), positions: 6, list: PICK.concat(), ..worked }
}

#[test]
#[rustfmt::skip]
fn the_least_object_goes_by_the_state() {
    let at_0 = picked(0, vec![
        0, 0, X, 0, X, X,
        X, X, 20, X, 35, 20,
        X, X, X, X, X, X,
        X, X, X, X, X, X,
    ]);
    at_0.judges(&[0], [LEAST, 20, 20]);
    at_0.judges(&[1], [DEARER, 35, 20]);
    at_0.checks_steps(&[3, 1, 5], [PLAN, 35]);
    at_0.costs([COSTS, 20]);
    let at_2 = picked(2, vec![
        X, X, X, X, X, X,
        X, X, X, X, X, X,
        0, 0, X, 0, X, X,
        X, X, 20, X, 5, 5,
    ]);
    at_2.judges(&[0], [DEARER, 20, 5]);
    at_2.judges(&[1], [LEAST, 5, 5]);
    at_2.costs([COSTS, 5]);
}

/// The sample with these lines, by its house costs, where the two moves cost so much.
fn house_is_least(first: &str, second: &str, [zero, one]: [u64; 2]) {
    let house = sample_at(house_with(&[]), [zero, one]);
    for costs in [None, house.costs] {
        let worked = with_moves(sample(), first, second, house.table.clone());
        is_least(&Worked { costs, ..worked }, zero + one);
    }
}

#[test]
fn formula_0_and_class_0_change_no_cost() {
    house_is_least(FIRST, SECOND, [20, 5]);
    // Nor does class 0 with another formula, or another class where the formula is false.
    house_is_least("m=0,3,1,3,0", "m=2,1,1,2,0", [20, 5]);
    house_is_least("m=0,3,1,1,15", "m=2,1,1,1,15", [20, 5]);
}

#[test]
fn every_second_class() {
    let costs = [20, 25, 32, 40, 50, 65, 80, 110, 140, 200, 260, 380, 620, 920, 1820, 3620];
    for (class, cost) in costs.into_iter().enumerate() {
        house_is_least(&format!("m=0,3,1,0,{class}"), SECOND, [cost, 5]);
        house_is_least(&format!("m=0,{class},1,3,3"), SECOND, [cost, 5]);
    }
}

/// The sample with these lines and class costs, where the two moves cost so much.
fn loaded_is_least(first: &str, second: &str, costs: Vec<u8>, [zero, one]: [u64; 2]) {
    let worked = sample_at(costs, [zero, one]);
    let table = worked.table.clone();
    is_least(&with_moves(worked, first, second, table), zero + one);
}

#[test]
fn loaded_costs_of_both_classes() {
    loaded_is_least("m=0,3,1,3,2", SECOND, house_with(&[(1, 7), (2, 300), (3, 4800)]), [5100, 7]);
    // Class 0 as the second class, and as the first; one class twice.
    loaded_is_least("m=0,3,1,3,0", "m=2,0,1,3,1", all_at(100), [100, 100]);
    loaded_is_least("m=0,3,1,3,3", "m=2,0,1,3,0", all_at(100), [200, 0]);
    // Both at the greatest cost, and one below.
    loaded_is_least("m=0,3,1,3,1", "m=2,1,1,3,1", all_at(65535), [131_070, 131_070]);
    loaded_is_least("m=0,3,1,3,1", "m=2,1,1,1,3", house_with(&[(1, 65535), (3, 65534)]), [131_069, 65_535]);
}

#[test]
#[rustfmt::skip]
fn four_thousand_moves_at_131070_each() {
    // Once, twice and three times 131,070.
    let (a, b, c) = (131_070, 262_140, 393_210);
    let table = vec![
        0, 0, 0, X, 0, X, X, 0,
        X, X, X, X, X, X, X, X,
        a, a, a, a, a, X, a, a,
        b, b, b, c, b, b, b, b,
    ];
    let worked = Worked { costs: Some(all_at(65535)), ..star_of_or() };
    let worked = with_moves(worked, "m=0,3,1,0,15", "m=2,1,1,2,14", table);
    let lines = [
        (1, "    1    0   131070     131070\n"),
        (762, "  762    0   131070   99875340\n"),
        (763, "  763    0   131070  100006410\n"),
        (3999, " 3999    0   131070  524148930\n"),
        (4000, " 4000    1   131070  524280000\n"),
    ];
    has_lines(&worked, 3999, 124_620, &lines);
    let mut moves = vec![0; 4000];
    moves[3999] = 1;
    worked.checks_moves(&moves, [PLAN, 524_280_000]);
    worked.judges(&moves, [DEARER, 524_280_000, 262_140]);
}

#[test]
fn sums_above_32_bits() {
    // Eleven rounds of 4,096 moves at 65,535. Of these the 2,047 that count on where fact 11 is true, by formula 12, cost
    // twice as much; clearing doesn't. 11 times 6,143 costs.
    let mut job = rounds(12, 11);
    for action in &mut job.moves[..12] {
        (action.second_formula, action.second_class) = (12, 1);
    }
    let (text, costs) = (job_text(&job), all_at(65535));
    let handed = Handed { job: &text, plan: b"", costs: Some(&costs) };
    let asked = ask_with(LeastCost, handed, 4096, 4096 * 45);
    assert_eq!(asked.answer, Answer::accepted([COSTS, 4_428_396_555, 0, 0, 0]));
}

/// The sample with this line for move 0, or such a line for move 1, is refused there.
fn is_refused(line: &str, number: u32) {
    all_refuse(text_with(&sample_text(), line, SECOND).as_bytes(), number, 10);
    all_refuse(text_with(&sample_text(), FIRST, line).as_bytes(), number, 12);
}

#[test]
fn wrong_form() {
    for line in ["m=0,3,1", "m=0,3,1,0", "m=0,3,1,0,0,0", "m=0,3,1,0,", "m=0,3,1,,0", "m=0,3,1,00,0", "m=0,3,1,0,01"] {
        is_refused(line, 1);
    }
    // Form before 2 and 3.
    for line in ["m=0,3,1,65536,0", "m=0,3,1,0,65536", "m=9,16,17", "m=9,16,17,9", "m=9,16,17,9,16,0"] {
        is_refused(line, 1);
    }
}

#[test]
fn wrong_formula_or_class() {
    for line in ["m=0,3,1,4,2", "m=0,3,1,4,0", "m=0,3,1,65535,2", "m=0,3,1,3,16", "m=0,3,1,0,16", "m=0,3,1,3,65535"] {
        is_refused(line, 3);
    }
    for line in ["m=0,16,1,3,2", "m=4,3,1,3,2", "m=4,16,16,4,16"] {
        is_refused(line, 3);
    }
}

#[test]
fn the_effect_count_is_the_third_number() {
    for line in ["m=0,3,17,0,0", "m=0,3,17,4,16", "m=0,3,17,4,2", "m=0,3,17,3,16", "m=4,16,65535,4,16"] {
        is_refused(line, 2);
    }
    let with = |first: &str| text_with(&sample_text(), first, SECOND);
    for line in ["m=0,3,1,3,15", "m=3,15,1,0,2", "m=0,3,1,2,0"] {
        let read = ask(ReadJob, with(line).as_bytes(), b"", 0, 0);
        assert_eq!(read.answer, Answer::accepted([2, 4, 2, 2, 3]));
    }
    // Without an effect line 11 is one too many, and with two line 12 is none.
    all_refuse(with("m=0,3,0,1,1").as_bytes(), 1, 11);
    all_refuse(with("m=0,3,2,1,1").as_bytes(), 1, 12);
}

#[test]
fn the_first_bad_line_decides() {
    let job = text_with(&sample_text(), "m=0,3,1,4,2", "m=2,1,1");
    all_refuse(job.as_bytes(), 3, 10);
    all_refuse(job.replace("e=0,1,1", "e=0,1").as_bytes(), 3, 10);
    all_refuse(job.replace("m=0,3,1,4,2", "m=0,3,1,3,2").as_bytes(), 1, 12);
}
