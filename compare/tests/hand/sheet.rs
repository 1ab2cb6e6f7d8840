//! The shift sheet, request (c) of document 02: lines, pages, and outputs that are too short.

use jesmovit_compare::answer::{Answer, BLOCKED, LAID, MISSED, UNFINISHED};
use jesmovit_compare::comparison::operation::Operation::Sheet;
use jesmovit_compare::generator::writer::{costs_text, plan_text};
use jesmovit_compare::lent::Lengths;
use jesmovit_compare::second::job::Move;

use crate::both::{ask_for, Asked, Handed};
use crate::costs::{all_at, house_with, sample_at};
use crate::sample::{nil_at_goal, sample, star_of_or, text_of};
use crate::worked::Worked;

/// A line without a move.
const EMPTY: &str = "                              \n";

/// A page of these lines and others without a move.
pub fn page(lines: &[&str]) -> Vec<u8> {
    let page = lines.concat() + &EMPTY.repeat(60 - lines.len());
    assert_eq!(page.len(), 1860);
    page.into_bytes()
}

/// Asks for a sheet with a list and an output of these lengths.
fn ask_sheet(worked: &Worked, moves: &[u16], list: usize, out: usize) -> Asked {
    let handed = Handed { job: worked.job.as_bytes(), plan: &plan_text("m", moves), costs: worked.costs.as_deref() };
    ask_for(Sheet, handed, Lengths { list, table: 0, out })
}

#[test]
fn the_sample() {
    let sheet = page(&["    1    0       20         20\n", "    2    1        5         25\n"]);
    sample().lays(&[0, 1], &sheet);
    let asked = ask_sheet(&sample(), &[0, 1], 4096, 124_620);
    assert_eq!(asked.answer, Answer::accepted([LAID, 1860, 0, 0, 0]));
    asked.holds_all(&[3, 0, 1, 0, 3, 1, 2, 1], &[], &sheet);
}

#[test]
fn loaded_costs() {
    let dear = sample_at(house_with(&[(1, 7), (3, 4800)]), [4800, 7]);
    dear.lays(&[0, 1], &page(&["    1    0     4800       4800\n", "    2    1        7       4807\n"]));
    let free = sample_at(costs_text(&[0; 16]), [0, 0]);
    free.lays(&[0, 1], &page(&["    1    0        0          0\n", "    2    1        0          0\n"]));
}

#[test]
fn moves_of_one_and_two_digits() {
    // The star of any of 64 moves that change nothing, at classes 0 to 15 in turn.
    let moves = (0..64).map(|index| Move::plain(0, index % 16, Vec::new())).collect();
    let mut list: Vec<u16> = (0..64).flat_map(|index| [3, 1, 2, index]).collect();
    list.extend([[0, 0, 1, 0], [0, 2, 0, 0], [0, 0, 3, 0]].concat());
    let job = text_of(0, &[[1, 0, 0]], moves, 0, &[[2, 0, 0, 0], [8, 0, 0, 0]]);
    let worked = Worked { job, costs: None, positions: 4, list, table: vec![0; 4] };
    let lines = [
        "    1    9      180        180\n",
        "    2   10      240        420\n",
        "    3   63     3600       4020\n",
        "    4    0        0       4020\n",
    ];
    worked.lays(&[9, 10, 63, 0], &page(&lines));
}

#[test]
fn an_empty_plan_has_no_page() {
    nil_at_goal().lays(&[], b"");
    let asked = ask_sheet(&nil_at_goal(), &[], 4, 0);
    assert_eq!(asked.answer, Answer::accepted([LAID, 0, 0, 0, 0]));
    asked.holds(&[0, 0, 1, 0], &[]);
}

/// What is no plan gets its verdict, whatever the output's length; the list is filled and the output as before.
fn is_no_plan(worked: &Worked, moves: &[u16], [number, value]: [u64; 2]) {
    worked.lays_nothing(moves, [number, value]);
    for out in [0, 1859, 1860, 124_620] {
        let asked = ask_sheet(worked, moves, worked.list.len(), out);
        assert_eq!(asked.answer, Answer::accepted([number, value, 0, 0, 0]));
        asked.holds(&worked.list, &[]);
    }
}

#[test]
fn no_plan() {
    is_no_plan(&sample(), &[1], [BLOCKED, 0]);
    is_no_plan(&sample(), &[0, 1, 1], [BLOCKED, 2]);
    is_no_plan(&sample(), &[], [UNFINISHED, 0]);
    is_no_plan(&sample(), &[0], [UNFINISHED, 0]);
    is_no_plan(&star_of_or(), &[], [MISSED, 0]);
    is_no_plan(&star_of_or(), &[0; 4000], [MISSED, 0]);
}

#[test]
fn an_output_that_is_too_short() {
    for out in [0, 31, 62, 1859] {
        let asked = ask_sheet(&sample(), &[0, 1], 8, out);
        assert_eq!(asked.answer, Answer::refused(6, 1860));
        asked.holds(&[], &[]);
    }
    // The list before the output.
    for out in [0, 1859, 1860] {
        let asked = ask_sheet(&sample(), &[0, 1], 7, out);
        assert_eq!(asked.answer, Answer::refused(6, 8));
        asked.holds(&[], &[]);
    }
}

/// With the star of the sample's moves: move 0 so many times, then move 1. The sheet has so many bytes, and these lines.
pub fn has_lines(worked: &Worked, zeros: usize, bytes: usize, lines: &[(usize, &str)]) {
    let mut moves = vec![0; zeros];
    moves.push(1);
    let asked = ask_sheet(worked, &moves, worked.list.len(), bytes);
    assert_eq!(asked.answer, Answer::accepted([LAID, bytes as u64, 0, 0, 0]));
    for (number, line) in lines {
        assert_eq!(asked.line(*number, 31), *line);
    }
    let asked = ask_sheet(worked, &moves, worked.list.len(), bytes - 1);
    assert_eq!(asked.answer, Answer::refused(6, bytes as u64));
    asked.holds(&[], &[]);
}

#[test]
fn sixty_moves_fill_a_page() {
    let lines = [
        (1, "    1    0       20         20\n"),
        (9, "    9    0       20        180\n"),
        (10, "   10    0       20        200\n"),
        (59, "   59    0       20       1180\n"),
        (60, "   60    1        5       1185\n"),
    ];
    has_lines(&star_of_or(), 59, 1860, &lines);
    let lines = [(119, "  119    0       20       2380\n"), (120, "  120    1        5       2385\n")];
    has_lines(&star_of_or(), 119, 3720, &lines);
}

#[test]
fn one_move_more_takes_another_page() {
    let lines =
        [(60, "   60    0       20       1200\n"), (61, "   61    1        5       1205\n"), (62, EMPTY), (120, EMPTY)];
    has_lines(&star_of_or(), 60, 3720, &lines);
    has_lines(&star_of_or(), 120, 5580, &[(121, "  121    1        5       2405\n"), (122, EMPTY), (180, EMPTY)]);
}

#[test]
fn the_longest_sheet_at_65535_a_move() {
    let lines = [
        (1, "    1    0    65535      65535\n"),
        (999, "  999    0    65535   65469465\n"),
        (1000, " 1000    0    65535   65535000\n"),
        (1525, " 1525    0    65535   99940875\n"),
        (1526, " 1526    0    65535  100006410\n"),
        (4000, " 4000    1    65535  262140000\n"),
        (4001, EMPTY),
        (4020, EMPTY),
    ];
    has_lines(&Worked { costs: Some(all_at(65535)), ..star_of_or() }, 3999, 124_620, &lines);
}
