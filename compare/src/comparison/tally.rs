//! How often each answer and each limit occurred.

use std::collections::BTreeMap;

use super::operation::{Operation, OPERATIONS};
use crate::answer::Answer;
use crate::cases::edges::EDGES;

/// What is counted apart: refusals by number, but those by 6 by what is too short; otherwise what is said.
const REFUSALS: [&str; 8] =
    ["refused 1", "refused 2", "refused 3", "refused 4", "refused 5", "refused 6", "refused 7", "refused 8"];
const SHORT: [&str; 3] = ["list too short", "table too short", "output too short"];
const SAYINGS: [&str; 9] = ["plan", "blocked", "unfinished", "missed", "least", "dearer", "costs", "none", "laid"];
const DEAR: &str = "costs >2^32";
const DONE: &str = "done";

pub struct Tally {
    counts: BTreeMap<(Operation, &'static str), u64>,
    edges: [u64; EDGES.len()],
}

impl Default for Tally {
    fn default() -> Tally {
        Tally { counts: BTreeMap::new(), edges: [0; EDGES.len()] }
    }
}

impl Tally {
    /// Counts an answer to a call whose list was long enough, or wasn't.
    pub fn count(&mut self, operation: Operation, answer: Answer, list_fits: bool) {
        let outcome = if answer.number == 6 { short(operation, list_fits) } else { outcome(operation, answer) };
        *self.counts.entry((operation, outcome)).or_default() += 1;
    }

    /// Counts the limits that a case meets.
    pub fn count_edges(&mut self, met: [bool; EDGES.len()]) {
        for (count, met) in self.edges.iter_mut().zip(met) {
            *count += u64::from(met);
        }
    }

    /// The number of calls.
    pub fn calls(&self) -> u64 {
        self.counts.values().sum()
    }

    /// How many cases met each limit, and how often each operation gave each answer, a line each.
    pub fn lines(&self) -> Vec<String> {
        let mut lines: Vec<String> = self.edges().map(|(name, count)| format!("{name:<24} {count:>9}")).collect();
        for operation in OPERATIONS {
            for outcome in outcomes(operation) {
                lines.push(format!("{:<12} {outcome:<16} {:>9}", operation.name(), self.of(operation, outcome)));
            }
        }
        lines
    }

    /// The limits that no case met, and the answers that an operation can give and never gave.
    pub fn missing(&self) -> Vec<String> {
        let unmet = self.edges().filter(|(_, count)| *count == 0);
        let mut missing: Vec<String> = unmet.map(|(name, _)| name.to_string()).collect();
        for operation in OPERATIONS {
            let never = outcomes(operation).into_iter().filter(|outcome| self.of(operation, outcome) == 0);
            missing.extend(never.map(|outcome| format!("{} {outcome}", operation.name())));
        }
        missing
    }

    /// The limits by name, with the number of cases that met each.
    fn edges(&self) -> impl Iterator<Item = (&'static str, u64)> + '_ {
        EDGES.iter().map(|(name, _)| *name).zip(self.edges)
    }

    fn of(&self, operation: Operation, outcome: &'static str) -> u64 {
        self.counts.get(&(operation, outcome)).copied().unwrap_or(0)
    }
}

/// Under what an answer is counted.
fn outcome(operation: Operation, answer: Answer) -> &'static str {
    let said = match operation {
        Operation::ReadJob | Operation::Compile => return refusal(answer).unwrap_or(DONE),
        Operation::Judge => answer.values[2],
        Operation::LeastCost if answer.values[1] > 1 << 32 => return DEAR,
        _ => answer.values[0],
    };
    refusal(answer).unwrap_or_else(|| SAYINGS[said as usize])
}

/// What is too short in a call that is refused by 6.
fn short(operation: Operation, list_fits: bool) -> &'static str {
    let [list, table, out] = SHORT;
    match (list_fits, operation.takes_table()) {
        (false, _) => list,
        (true, true) => table,
        (true, false) => out,
    }
}

fn refusal(answer: Answer) -> Option<&'static str> {
    let index = answer.number.checked_sub(1)?;
    Some(REFUSALS[index as usize])
}

/// All that an operation can answer.
fn outcomes(operation: Operation) -> Vec<&'static str> {
    let [one, two, three, four, five, _, seven, eight] = REFUSALS;
    let [list, table, out] = SHORT;
    let [plan, blocked, unfinished, missed, least, dearer, costs, none, laid] = SAYINGS;
    match operation {
        Operation::ReadJob => vec![DONE, one, two, three],
        Operation::Compile => vec![DONE, one, two, three, eight, four, list],
        Operation::CheckMoves | Operation::CheckSteps => {
            vec![plan, blocked, unfinished, missed, one, two, three, eight, four, seven, five, list]
        }
        Operation::LeastCost => vec![costs, DEAR, none, one, two, three, eight, four, seven, list, table],
        Operation::Judge => {
            vec![least, dearer, blocked, unfinished, missed, one, two, three, eight, four, seven, five, list, table]
        }
        Operation::Sheet => {
            vec![laid, blocked, unfinished, missed, one, two, three, eight, four, seven, five, list, out]
        }
    }
}
