//! Jobs worked out by hand, and what the operations answer to them with lists, tables and outputs of all lengths of
//! interest.

use jesmovit_compare::answer::{Answer, DEARER, LAID, LEAST};
use jesmovit_compare::comparison::operation::Operation;
use jesmovit_compare::generator::writer::plan_text;
use jesmovit_compare::lent::Lengths;

use crate::both::{ask_for, Handed};

/// A job text and a costs text, or none, with the positions, the step list and the cost table that they should get.
pub struct Worked {
    pub job: String,
    pub costs: Option<Vec<u8>>,
    pub positions: u64,
    pub list: Vec<u16>,
    pub table: Vec<u64>,
}

impl Worked {
    pub fn compiles(&self) {
        self.answers(Operation::Compile, b"", [self.positions, self.steps(), 0, 0, 0], &[], b"");
    }

    /// The verdict on a list of moves, and its value.
    pub fn checks_moves(&self, moves: &[u16], [number, value]: [u64; 2]) {
        self.answers(Operation::CheckMoves, &plan_text("m", moves), [number, value, 0, 0, 0], &[], b"");
    }

    /// The verdict on a list of steps, and its value.
    pub fn checks_steps(&self, steps: &[u16], [number, value]: [u64; 2]) {
        self.answers(Operation::CheckSteps, &plan_text("t", steps), [number, value, 0, 0, 0], &[], b"");
    }

    /// What is said of the least cost, and the cost.
    pub fn costs(&self, [number, cost]: [u64; 2]) {
        self.answers(Operation::LeastCost, b"", [number, cost, 0, 0, 0], &self.table, b"");
    }

    /// What is said of a list of moves, and its values; the table is filled for a plan alone.
    pub fn judges(&self, moves: &[u16], [number, value, least]: [u64; 3]) {
        let table = if [LEAST, DEARER].contains(&number) { &self.table[..] } else { &[] };
        let values = [self.positions, self.steps(), number, value, least];
        self.answers(Operation::Judge, &plan_text("m", moves), values, table, b"");
    }

    /// The sheet of a list of moves that is a plan.
    pub fn lays(&self, moves: &[u16], sheet: &[u8]) {
        let values = [LAID, sheet.len() as u64, 0, 0, 0];
        self.answers(Operation::Sheet, &plan_text("m", moves), values, &[], sheet);
    }

    /// The verdict on a list of moves that is no plan, in place of a sheet.
    pub fn lays_nothing(&self, moves: &[u16], [number, value]: [u64; 2]) {
        self.answers(Operation::Sheet, &plan_text("m", moves), [number, value, 0, 0, 0], &[], b"");
    }

    fn steps(&self) -> u64 {
        self.list.len() as u64 / 4
    }

    /// Demands this answer, list, table and output with enough room, and refusal 6 with too little: lengths of 0, too
    /// short by one, just long enough, and one longer.
    fn answers(&self, operation: Operation, plan: &[u8], values: [u64; 5], table: &[u64], out: &[u8]) {
        let cells = if operation.takes_table() { self.table.len() } else { 0 };
        let needed = Lengths { list: self.list.len(), table: cells, out: out.len() };
        let handed = Handed { job: self.job.as_bytes(), plan, costs: self.costs.as_deref() };
        for lengths in lengths_around(needed) {
            let asked = ask_for(operation, handed, lengths);
            if let Some(place) = first_short(lengths, needed) {
                assert_eq!(asked.answer, Answer::refused(6, place as u64));
                asked.holds(&[], &[]);
            } else {
                assert_eq!(asked.answer, Answer::accepted(values));
                asked.holds_all(&self.list, table, out);
            }
        }
    }
}

/// The needed lengths and those beside them, in all combinations.
fn lengths_around(needed: Lengths) -> Vec<Lengths> {
    let mut all = Vec::new();
    for list in around(needed.list) {
        for table in around(needed.table) {
            all.extend(around(needed.out).into_iter().map(|out| Lengths { list, table, out }));
        }
    }
    all
}

/// A length of 0, one too short by one, one just long enough, and one longer.
fn around(needed: usize) -> Vec<usize> {
    let mut lengths = vec![0, needed.saturating_sub(1), needed, needed + 1];
    lengths.dedup();
    lengths
}

/// The length that is needed of the first that is too short, the list's before the table's and the output's.
fn first_short(lengths: Lengths, needed: Lengths) -> Option<usize> {
    let pairs = [(lengths.list, needed.list), (lengths.table, needed.table), (lengths.out, needed.out)];
    pairs.into_iter().find(|(length, needed)| length < needed).map(|(_, needed)| needed)
}
