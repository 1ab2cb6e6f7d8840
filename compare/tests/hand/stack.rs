//! The stack that the header names is enough: each operation runs on a thread with 128 KB, of which the thread itself
//! takes some 5.

use std::thread::Builder;

use jesmovit_compare::generator::writer::costs_text;
use jesmovit_compare::library::{self, Given, COSTS_GIVEN, NONE_GIVEN};
use jesmovit_compare::second::job::HOUSE_COSTS;

use crate::sample::{sample_text, sample_with};

const STACK: usize = 128 * 1024;

/// A job whose program has all its rows one inside the other.
fn deep() -> String {
    let inner: String = (0..127).map(|i| format!("p=8,{i},0,0\n")).collect();
    sample_with(&format!("program=128\np=1,0,0,0\n{inner}"))
}

/// The same of picks over one object.
fn deep_picks() -> String {
    deep().replace("objects=0", "objects=1").replace("p=1,0,0,0", "p=10,0,126,0").replace("p=8,", "p=9,")
}

fn all_operations(job: &[u8], given: Given) {
    let (mut list, mut table, mut out) = (vec![0; 4096], vec![0; 1024], vec![0; 1860]);
    library::read_job(job);
    library::compile(job, &mut list);
    library::check_moves(job, b"plan=1\nm=0\n", given, &mut list);
    library::check_steps(job, b"plan=1\nt=0\n", given, &mut list);
    library::least_cost(job, given, &mut list, &mut table);
    library::judge(job, b"plan=2\nm=0\nm=1\n", given, &mut list, &mut table);
    library::sheet(job, b"plan=2\nm=0\nm=1\n", given, &mut list, &mut out);
}

#[test]
fn each_operation_runs_on_the_stack_that_the_header_names() {
    for job in [sample_text(), deep(), deep_picks()] {
        let thread = Builder::new().stack_size(STACK).spawn(move || {
            let costs = costs_text(&HOUSE_COSTS);
            all_operations(job.as_bytes(), NONE_GIVEN);
            all_operations(job.as_bytes(), Given { costs: &costs, bits: COSTS_GIVEN });
        });
        thread.expect("a thread starts").join().expect("the operations return");
    }
}
