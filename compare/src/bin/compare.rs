//! Compares the library with the second implementation on random cases.
//!
//! `compare [--fault NAME] [CASES] [SEED]` compares the cases below CASES (50000) of SEED (1). With a fault seeded into
//! the second implementation, a mismatch should be found.
//! `compare [--fault NAME] --case I SEED` repeats one case and prints its texts.
//! `compare --faults CASES SEED` seeds each fault in turn and says where it is found.
//! The status is 0 where all agree, or all faults are found; 1 after a mismatch, where some answer or limit never
//! occurred in a run of 50,000 cases and more, or where a fault is not found; 2 for wrong arguments.

use std::process::ExitCode;

use jesmovit_compare::comparison::run::{all_agree, case_agrees, faults_are_found, FULL_RUN};
use jesmovit_compare::second::fault::{Fault, FAULTS};

fn main() -> ExitCode {
    let arguments: Vec<String> = std::env::args().skip(1).collect();
    let arguments: Vec<&str> = arguments.iter().map(String::as_str).collect();
    match succeeds(&arguments) {
        Some(true) => ExitCode::SUCCESS,
        Some(false) => ExitCode::from(1),
        None => {
            eprintln!("usage: compare [--fault NAME] [CASES] [SEED]");
            eprintln!("       compare [--fault NAME] --case I SEED");
            eprintln!("       compare --faults CASES SEED");
            eprintln!("faults: {}", FAULTS.map(|(name, _)| name).join(", "));
            ExitCode::from(2)
        }
    }
}

/// Whether all is well; none where the arguments are wrong.
fn succeeds(arguments: &[&str]) -> Option<bool> {
    let (fault, rest) = match arguments {
        ["--faults", cases, seed] => return Some(faults_are_found(cases.parse().ok()?, seed.parse().ok()?)),
        ["--fault", name, rest @ ..] => (Fault::named(name)?, rest),
        _ => (Fault::None, arguments),
    };
    match rest {
        [] => Some(all_agree(FULL_RUN, 1, fault)),
        ["--case", number, seed] => Some(case_agrees(number.parse().ok()?, seed.parse().ok()?, fault)),
        [cases] => Some(all_agree(cases.parse().ok()?, 1, fault)),
        [cases, seed] => Some(all_agree(cases.parse().ok()?, seed.parse().ok()?, fault)),
        _ => None,
    }
}
