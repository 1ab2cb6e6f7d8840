//! Runs over many cases, or over one.

use std::io::Write;

use super::calls::{Mismatch, Trial};
use super::report::{costs_lines, mismatch_text, text_lines};
use super::tally::Tally;
use crate::cases::edges::edges;
use crate::cases::Case;
use crate::generator::random::Random;
use crate::second::expected::Expected;
use crate::second::fault::{Fault, FAULTS};

/// In a run of this many cases every answer and every limit must occur.
pub const FULL_RUN: u64 = 50_000;

/// Compares the cases below `cases`; whether all agree and, in a full run, everything occurred that has to.
pub fn all_agree(cases: u64, seed: u64, fault: Fault) -> bool {
    let mut tally = Tally::default();
    if let Some(found) = first_mismatch(cases, seed, fault, &mut tally) {
        print(&mismatch_text(&found.mismatch, &found.case, seed, found.number));
        return false;
    }
    print(&tally.lines().join("\n"));
    print(&format!("{cases} cases, {} calls, 0 mismatches", tally.calls()));
    let missing = if cases < FULL_RUN { Vec::new() } else { tally.missing() };
    for name in &missing {
        print(&format!("never occurred in {cases} cases: {name}"));
    }
    missing.is_empty()
}

/// Repeats one case and prints its texts; whether it agrees.
pub fn case_agrees(number: u64, seed: u64, fault: Fault) -> bool {
    let mut random = Random::of_case(seed, number);
    let case = Case::random(&mut random);
    print(&text_lines("job text", &case.job));
    print(&text_lines("text of moves", &case.moves));
    print(&text_lines("text of steps", &case.steps));
    print(&costs_lines(&case));
    let mut tally = Tally::default();
    if let Err(mismatch) = ask_both(&mut random, &case, fault, &mut tally) {
        print(&mismatch_text(&mismatch, &case, seed, number));
        return false;
    }
    print(&format!("case {number} of seed {seed}, {} calls, 0 mismatches", tally.calls()));
    true
}

/// Seeds each fault in turn; whether all of them are found in the cases below `cases`.
pub fn faults_are_found(cases: u64, seed: u64) -> bool {
    let mut found = 0;
    for (name, fault) in FAULTS {
        match first_mismatch(cases, seed, fault, &mut Tally::default()) {
            Some(Found { number, mismatch, .. }) => {
                found += 1;
                print(&format!("fault {name}: found in case {number} by {}", mismatch.operation.name()));
            }
            None => print(&format!("fault {name}: not found in {cases} cases of seed {seed}")),
        }
    }
    print(&format!("{found} of {} faults seeded into the second implementation are found", FAULTS.len()));
    found == FAULTS.len()
}

/// A mismatch, with its case and the case's number.
struct Found {
    number: u64,
    case: Case,
    mismatch: Box<Mismatch>,
}

fn first_mismatch(cases: u64, seed: u64, fault: Fault, tally: &mut Tally) -> Option<Found> {
    for number in 0..cases {
        let mut random = Random::of_case(seed, number);
        let case = Case::random(&mut random);
        tally.count_edges(edges(&case));
        if let Err(mismatch) = ask_both(&mut random, &case, fault, tally) {
            return Some(Found { number, case, mismatch });
        }
    }
    None
}

fn ask_both(random: &mut Random, case: &Case, fault: Fault, tally: &mut Tally) -> Result<(), Box<Mismatch>> {
    let expected = Expected::of(&case.texts(), fault);
    Trial::new(random, case, expected).calls(random, tally)
}

/// Prints lines; a reader that has gone away is no failure.
fn print(text: &str) {
    let _ = writeln!(std::io::stdout(), "{text}");
}
