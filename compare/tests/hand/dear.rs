//! Costs up to 65,535 and sums above 32 bits, request (b) of document 02, and tables of the greatest length.

use jesmovit_compare::answer::{Answer, COSTS, DEARER, LEAST, PLAN};
use jesmovit_compare::comparison::operation::Operation;
use jesmovit_compare::generator::jobs::{job_of, late_choices, rounds};
use jesmovit_compare::generator::moves;
use jesmovit_compare::generator::shapes::wide;
use jesmovit_compare::generator::writer::{costs_text, job_text, plan_text};
use jesmovit_compare::second::job::{Job, HOUSE_COSTS};

use crate::both::{ask_with, Handed};
use crate::costs::{all_at, bad, house_with, is_least, sample_at};
use crate::sample::{one_move_of, star_of_or, X};
use crate::worked::Worked;

/// The house's text with this line for a class.
fn with_line(class: usize, line: &str) -> Vec<u8> {
    let text = String::from_utf8(costs_text(&HOUSE_COSTS)).expect("a costs text is ASCII");
    let mut lines: Vec<&str> = text.lines().collect();
    lines[1 + class] = line;
    (lines.join("\n") + "\n").into_bytes()
}

#[test]
fn the_sample_at_the_greatest_cost() {
    is_least(&sample_at(house_with(&[(1, 65535), (3, 65535)]), [65535, 65535]), 131_070);
    is_least(&sample_at(house_with(&[(1, 3601), (3, 65534)]), [65534, 3601]), 69_135);
}

#[test]
#[rustfmt::skip]
fn a_dearer_plan_at_the_greatest_cost() {
    // Once, twice and three times 65,535.
    let (a, b, c) = (65_535, 131_070, 196_605);
    let worked = Worked {
        costs: Some(all_at(65535)),
        table: vec![
            0, 0, 0, X, 0, X, X, 0,
            X, X, X, X, X, X, X, X,
            a, a, a, a, a, X, a, a,
            b, b, b, c, b, b, b, b,
        ],
        ..star_of_or()
    };
    worked.checks_moves(&[0, 0, 1], [PLAN, c]);
    worked.judges(&[0, 0, 1], [DEARER, c, b]);
    worked.costs([COSTS, b]);
}

#[test]
fn every_class_but_0_may_cost_65535() {
    for class in 1..16 {
        let mut worked = one_move_of(class, &[[0, 0, 1]]);
        worked.costs = Some(with_line(class.into(), "c=65535"));
        worked.table = vec![0, X, X, 65535];
        worked.checks_moves(&[0], [PLAN, 65535]);
        worked.checks_steps(&[0], [PLAN, 65535]);
        worked.costs([COSTS, 65535]);
        worked.judges(&[0], [LEAST, 65535, 65535]);
    }
    bad(&with_line(0, "c=65535"), 2);
}

#[test]
fn no_class_may_cost_65536() {
    for class in 0..16 {
        bad(&with_line(class, "c=65536"), 2 + class as u64);
    }
}

/// The steps of `rounds` over twelve facts, with so many nils behind, and its table where each move costs 65,535. Of a
/// round from position n on, n is the while, n + 1 and n + 2 are before and behind its any, n + 3 is behind it, and
/// move 12, which clears the facts, leads to n + 4. Formula 48 says that some fact is false.
fn counted(count: u64, nils: u64) -> (Vec<u16>, Vec<u64>) {
    let mut list = Vec::new();
    let positions = 4 * count + 1 + nils;
    let mut table = vec![X; 4096 * positions as usize];
    // Moves before a state is at a position.
    let mut reach =
        |state: u64, position: u64, made: u64| table[(state * positions + position) as usize] = made * 65535;
    for round in 0..count {
        let (n, before) = (4 * round, 4096 * round);
        for state in 0..4095 {
            reach(state, n, before + state);
            reach(state, n + 1, before + state);
            reach(state + 1, n + 2, before + state + 1);
        }
        reach(4095, n, before + 4095);
        reach(4095, n + 3, before + 4095);
        let n = n as u16;
        list.extend((0..13).flat_map(|index| [3, n + 1, n + 2, index]));
        list.extend([[1, n, n + 1, 48], [2, n, n + 3, 48], [0, n + 2, n, 0], [3, n + 3, n + 4, 12]].concat());
    }
    for position in 4 * count..positions {
        reach(0, position, 4096 * count);
    }
    list.extend((4 * count as u16..positions as u16 - 1).flat_map(|n| [0, n, n + 1, 0]));
    (list, table)
}

/// The least cost of a job, and list and table filled; one number less is refused.
fn costs_least(job: &Job, costs: &[u8], least: u64, list: &[u16], table: &[u64]) {
    let text = job_text(job);
    let handed = Handed { job: &text, plan: b"", costs: Some(costs) };
    let asked = ask_with(Operation::LeastCost, handed, list.len(), table.len());
    assert_eq!(asked.answer, Answer::accepted([COSTS, least, 0, 0, 0]));
    asked.holds(list, table);
    let asked = ask_with(Operation::LeastCost, handed, list.len(), table.len() - 1);
    assert_eq!(asked.answer, Answer::refused(6, table.len() as u64));
    asked.holds(&[], &[]);
}

#[test]
fn a_least_cost_above_32_bits() {
    // 17 rounds of 4,096 moves: 69,632 moves.
    let (list, table) = counted(17, 0);
    costs_least(&rounds(12, 17), &all_at(65535), 4_563_333_120, &list, &table);
}

#[test]
fn the_largest_table_and_a_least_cost_above_33_bits() {
    // 59 rounds, 241,664 moves, by 237 positions, and 19 nils.
    let mut job = rounds(12, 59);
    let nil = job.rows.len() as u16;
    job.rows.push([0, 0, 0, 0]);
    job.rows.push([4, nil - 1, nil, 0]);
    (1..19).for_each(|made| job.rows.push([4, nil + made, nil, 0]));
    let (list, table) = counted(59, 19);
    assert_eq!(table.len(), 1_048_576);
    costs_least(&job, &all_at(65535), 15_837_450_240, &list, &table);
}

#[test]
fn choices_above_32_bits() {
    // 34 times 2,048 moves at 65,535, and eleven that set a fact each: 12 + 20 + 30 + 45 + 60 + 90 + 120 + 180 + 240 +
    // 360 + 600.
    let text = job_text(&late_choices(33));
    let costs = house_with(&[(1, 65535)]);
    let handed = Handed { job: &text, plan: b"", costs: Some(&costs) };
    let asked = ask_with(Operation::LeastCost, handed, 4096, 1_048_576);
    assert_eq!(asked.answer, Answer::accepted([COSTS, 4_563_334_877, 0, 0, 0]));
}

#[test]
fn a_way_above_32_bits_beside_a_cheaper_one() {
    // 17 rounds at 4,563,333,120, whose lower 32 bits are 268,365,824, or two at 536,862,720. Row 3 is one round.
    let mut job = rounds(12, 17);
    let all = job.rows.len() as u16 - 1;
    job.rows.extend([[4, 3, 3, 0], [6, all, all + 1, 0]]);
    let (text, costs) = (job_text(&job), all_at(65535));
    let handed = Handed { job: &text, plan: b"", costs: Some(&costs) };
    let asked = ask_with(Operation::LeastCost, handed, 4096, 4096 * 80);
    assert_eq!(asked.answer, Answer::accepted([COSTS, 536_862_720, 0, 0, 0]));
}

#[test]
fn a_judged_table_above_32_bits() {
    // 17 rounds from position 1 to 69, or nil from 70 to 71; both lead to 72, nil at cost 0. The empty plan takes nil.
    let mut job = rounds(12, 17);
    let all = job.rows.len() as u16 - 1;
    job.rows.extend([[0, 0, 0, 0], [6, all, all + 1, 0]]);
    let (steps, costs) = counted(17, 0);
    let mut list: Vec<u16> = steps.chunks(4).flat_map(|step| [step[0], step[1] + 1, step[2] + 1, step[3]]).collect();
    list.extend([[0, 70, 71, 0], [0, 0, 1, 0], [0, 0, 70, 0], [0, 69, 72, 0], [0, 71, 72, 0]].concat());
    let mut table: Vec<u64> = costs.chunks(69).flat_map(|row| [&[X], row, &[X; 3]].concat()).collect();
    [0, 70, 71, 72].into_iter().for_each(|position| table[position] = 0);
    let (text, costs) = (job_text(&job), all_at(65535));
    let handed = Handed { job: &text, plan: b"plan=0\n", costs: Some(&costs) };
    let asked = ask_with(Operation::Judge, handed, list.len(), table.len());
    assert_eq!(asked.answer, Answer::accepted([73, list.len() as u64 / 4, LEAST, 0, 0]));
    asked.holds(&list, &table);
}

/// What the least cost, and the judge of a plan of that cost, say of a job of twelve facts and 256 positions.
fn largest(job: &Job, plan: Option<&[u16]>, costs: Option<&[u8]>, least: u64) {
    let text = job_text(job);
    let handed = Handed { job: &text, plan: b"", costs };
    let asked = ask_with(Operation::LeastCost, handed, 4096, 1_048_576);
    assert_eq!(asked.answer, Answer::accepted([COSTS, least, 0, 0, 0]));
    if let Some(plan) = plan {
        let asked = ask_with(Operation::Judge, Handed { plan: &plan_text("m", plan), ..handed }, 4096, 1_048_576);
        assert_eq!(asked.answer, Answer::accepted([256, 1024, LEAST, least, least]));
    }
}

#[test]
fn the_largest_jobs() {
    // Only moves 0 to 11 raise the number, each by one: 4,095 moves.
    let counter = job_of(12, moves::counter(12), wide(64));
    largest(&counter, None, None, 20_475);
    largest(&counter, None, Some(&all_at(65535)), 268_365_825);
    // Twelve moves, of classes 1 to 12: 5 + 12 + 20 + 30 + 45 + 60 + 90 + 120 + 180 + 240 + 360 + 600.
    let cube = job_of(12, moves::cube(12), wide(64));
    let plan: Vec<u16> = (0..12).map(|fact| 5 * fact + 2).collect();
    largest(&cube, Some(&plan), None, 1_762);
    largest(&cube, Some(&plan), Some(&all_at(65535)), 786_420);
}
