//! The edges of document 01.

use jesmovit_compare::answer::{Answer, COSTS, LEAST, MISSED, NONE, PLAN, UNFINISHED};
use jesmovit_compare::comparison::operation::Operation;
use jesmovit_compare::second::job::Move;

use crate::both::{all_refuse, ask};
use crate::sample::{sample, sample_with, text_of, X};
use crate::worked::Worked;

#[test]
fn twelve_facts() {
    let mut worked = sample();
    worked.job = worked.job.replace("facts=2", "facts=12");
    // The other facts stay false, so none of the further states is reached.
    worked.table.resize(12288, X);
    let read = ask(Operation::ReadJob, worked.job.as_bytes(), b"", 0, 0);
    assert_eq!(read.answer, Answer::accepted([12, 4, 2, 2, 3]));
    worked.checks_moves(&[0, 1], [PLAN, 25]);
    worked.checks_steps(&[0, 1], [PLAN, 25]);
    worked.costs([COSTS, 25]);
    worked.judges(&[0, 1], [LEAST, 25, 25]);
}

#[test]
fn a_table_of_6144_numbers() {
    // Eleven facts and three positions.
    let mut worked = sample();
    worked.job = worked.job.replace("facts=2", "facts=11");
    worked.table.resize(6144, X);
    worked.costs([COSTS, 25]);
    worked.judges(&[0, 1], [LEAST, 25, 25]);
    // Twelve facts and two positions: move 0 alone, with fact 1 for the goal.
    let job = with_rows(&["p=1,0,0,0\n".to_string()]).replace("facts=2", "facts=12").replace("goal=1", "goal=2");
    for operation in [Operation::LeastCost, Operation::Judge] {
        let asked = ask(operation, job.as_bytes(), b"plan=1\nm=0\n", 4, 6144);
        assert_eq!(asked.answer, Answer::refused(6, 8192));
        asked.holds(&[], &[]);
    }
    let mut table = vec![X; 8192];
    (table[0], table[2 * 2 + 1]) = (0, 20);
    let worked = Worked { job, costs: None, positions: 2, list: vec![3, 0, 1, 0], table };
    worked.costs([COSTS, 20]);
    worked.judges(&[0], [LEAST, 20, 20]);
}

#[test]
fn states_by_facts() {
    // Nil from state 0, where the goal holds: two positions in each of 1, 2 and 4,096 states.
    for (facts, need) in [(0, 2), (1, 4), (12, 8192)] {
        let mut table = vec![X; need];
        (table[0], table[1]) = (0, 0);
        let job = text_of(facts, &[[1, 0, 0]], Vec::new(), 0, &[[0, 0, 0, 0]]);
        let worked = Worked { job, costs: None, positions: 2, list: vec![0, 0, 1, 0], table };
        worked.costs([COSTS, 0]);
        worked.judges(&[], [LEAST, 0, 0]);
    }
}

/// The sample with a program of these rows.
fn with_rows(rows: &[String]) -> String {
    sample_with(&format!("program={}\n{}", rows.len(), rows.concat()))
}

#[test]
fn positions() {
    // 128 times move 0 by doubling, then 64, 32, ..., 1: 255 in all.
    let mut rows = vec!["p=1,0,0,0\n".to_string()];
    rows.extend((0..7).map(|row| format!("p=4,{row},{row},0\n")));
    rows.extend((0..7).map(|row| format!("p=4,{},{row},0\n", 7 + row)));
    // State 0 is left by the first move, for state 2.
    let mut table = vec![X; 4 * 256];
    table[0] = 0;
    (1..256).for_each(|made| table[2 * 256 + made] = 20 * made as u64);
    let list = (0..255).flat_map(|from| [3, from, from + 1, 0]).collect();
    let worked = Worked { job: with_rows(&rows), costs: None, positions: 256, list, table };
    worked.compiles();
    worked.checks_moves(&[0; 255], [MISSED, 0]);
    worked.checks_steps(&(0..255).collect::<Vec<u16>>(), [MISSED, 0]);
    worked.costs([NONE, 0]);
    worked.judges(&[0; 254], [UNFINISHED, 0, 0]);
    rows.push("p=4,14,0,0\n".to_string());
    all_refuse(with_rows(&rows).as_bytes(), 4, 16 + 16);
}

#[test]
fn steps() {
    let text = |rows: &[[u16; 4]]| {
        let free = Move::plain(0, 0, Vec::new());
        text_of(0, &[[1, 0, 0]], vec![free; 64], 0, rows)
    };
    let mut rows = vec![[2, 0, 0, 0], [4, 0, 0, 0], [4, 1, 1, 0], [4, 2, 2, 0], [4, 3, 3, 0]];
    let list = (0..16).flat_map(|from| (0..64).flat_map(move |index| [3, from, from + 1, index])).collect();
    let worked = Worked { job: text(&rows), costs: None, positions: 17, list, table: vec![0; 17] };
    worked.compiles();
    worked.checks_moves(&[63; 16], [PLAN, 0]);
    worked.checks_steps(&(0..16).map(|round| 64 * round + 63).collect::<Vec<u16>>(), [PLAN, 0]);
    worked.costs([COSTS, 0]);
    worked.judges(&[63; 16], [LEAST, 0, 0]);
    rows.extend([[1, 0, 0, 0], [4, 4, 5, 0]]);
    all_refuse(text(&rows).as_bytes(), 4, 6 + 64 + 3 + 7);
}

#[test]
fn doubled_rows_are_refused_at_once() {
    let mut rows = vec!["p=1,0,0,0\n".to_string()];
    rows.extend((0..127).map(|row| format!("p=4,{row},{row},0\n")));
    all_refuse(with_rows(&rows).as_bytes(), 4, 16 + 128);
}
