//! Class costs from a text, document 02: loaded costs in every answer, costs texts that are refused, and the order of
//! refusals.

use jesmovit_compare::answer::{Answer, BLOCKED, COSTS, DEARER, LEAST, PLAN};
use jesmovit_compare::comparison::operation::Operation::{self, *};
use jesmovit_compare::generator::writer::costs_text;
use jesmovit_compare::second::job::HOUSE_COSTS;

use crate::both::{ask_with, refused_with, Handed};
use crate::sample::{sample, sample_text, sample_with, star_of_or, X};
use crate::worked::Worked;

/// The operations that take costs, each with a plan text that the sample takes.
const TAKERS: [(Operation, &[u8]); 5] = [
    (CheckMoves, b"plan=2\nm=0\nm=1\n"),
    (CheckSteps, b"plan=2\nt=0\nt=1\n"),
    (LeastCost, b""),
    (Judge, b"plan=2\nm=0\nm=1\n"),
    (Sheet, b"plan=2\nm=0\nm=1\n"),
];

/// The house's costs with others for some classes.
pub fn house_with(others: &[(usize, u16)]) -> Vec<u8> {
    let mut costs = HOUSE_COSTS;
    for (class, cost) in others {
        costs[*class] = *cost;
    }
    costs_text(&costs)
}

/// The text of this cost for all classes but class 0.
pub fn all_at(cost: u16) -> Vec<u8> {
    let mut costs = [cost; 16];
    costs[0] = 0;
    costs_text(&costs)
}

/// The sample, whose moves 0 and 1 are of classes 3 and 1, with these costs of the two moves.
#[rustfmt::skip]
pub fn sample_at(costs: Vec<u8>, [first, second]: [u64; 2]) -> Worked {
    Worked {
        costs: Some(costs),
        table: vec![
            0, X, X,
            X, X, X,
            X, first, X,
            X, X, first + second,
        ],
        ..sample()
    }
}

/// Moves 0 and 1 are the sample's one plan.
pub fn is_least(worked: &Worked, cost: u64) {
    worked.checks_moves(&[0, 1], [PLAN, cost]);
    worked.checks_steps(&[0, 1], [PLAN, cost]);
    worked.judges(&[0, 1], [LEAST, cost, cost]);
    worked.judges(&[1], [BLOCKED, 0, 0]);
    worked.costs([COSTS, cost]);
}

#[test]
fn loaded_costs_decide() {
    is_least(&sample_at(house_with(&[(1, 7), (3, 100)]), [100, 7]), 107);
    is_least(&sample_at(house_with(&[(1, 0), (3, 3600)]), [3600, 0]), 3600);
    is_least(&sample_at(costs_text(&[0; 16]), [0, 0]), 0);
    is_least(&sample_at(house_with(&[(1, 3600), (3, 3600)]), [3600, 3600]), 7200);
}

#[test]
fn house_costs_as_a_text() {
    is_least(&sample_at(costs_text(&HOUSE_COSTS), [20, 5]), 25);
}

#[test]
#[rustfmt::skip]
fn a_dearer_plan_may_become_least() {
    let free = Worked {
        costs: Some(costs_text(&[0; 16])),
        table: vec![
            0, 0, 0, X, 0, X, X, 0,
            X, X, X, X, X, X, X, X,
            0, 0, 0, 0, 0, X, 0, 0,
            0, 0, 0, 0, 0, 0, 0, 0,
        ],
        ..star_of_or()
    };
    free.judges(&[0, 0, 1], [LEAST, 0, 0]);
    free.costs([COSTS, 0]);
    // Crossing costs 1, laying nothing: each crossing more is dearer by 1.
    let cheap = Worked {
        costs: Some(house_with(&[(1, 0), (3, 1)])),
        table: vec![
            0, 0, 0, X, 0, X, X, 0,
            X, X, X, X, X, X, X, X,
            1, 1, 1, 1, 1, X, 1, 1,
            1, 1, 1, 2, 1, 1, 1, 1,
        ],
        ..star_of_or()
    };
    cheap.judges(&[0, 0, 1], [DEARER, 2, 1]);
    cheap.costs([COSTS, 1]);
}

/// Each operation that takes costs refuses this text by 7, whatever the lengths of list and table.
pub fn bad(costs: &[u8], place: u64) {
    for (operation, plan) in TAKERS {
        refused_with(operation, Handed { job: sample_text().as_bytes(), plan, costs: Some(costs) }, 7, place);
    }
}

/// The house's text with one line changed is refused there.
fn changed(from: &str, to: &str, place: u64) {
    let text = String::from_utf8(costs_text(&HOUSE_COSTS)).expect("a costs text is ASCII");
    assert!(text.contains(from));
    bad(text.replacen(from, to, 1).as_bytes(), place);
}

#[test]
fn counts() {
    bad(b"", 1);
    changed("costs=16\n", "", 1);
    changed("costs=16", "costs=15", 1);
    changed("costs=16", "costs=17", 1);
    changed("costs=16", "costs=016", 1);
    changed("costs=16", "costs=16,0", 1);
    changed("costs=16", "cost=16", 1);
    changed("costs=16", "costs=0", 1);
    bad(b"costs=16", 1);
}

#[test]
fn missing_and_extra_lines() {
    bad(b"costs=16\n", 2);
    changed("c=3600\n", "", 17);
    changed("c=3600\n", "c=3600", 17);
    changed("c=3600\n", "c=3600\nc=0\n", 18);
    changed("c=3600\n", "c=3600\n\n", 18);
    changed("c=3600\n", "c=3600\n0", 18);
}

#[test]
fn costs_and_forms() {
    changed("c=0", "c=1", 2);
    changed("c=0", "c=00", 2);
    changed("c=0", "c=", 2);
    changed("c=5", "m=5", 3);
    changed("c=5", "c=5,0", 3);
    changed("c=5", "c=65536", 3);
    changed("c=5", "c=100000", 3);
    changed("c=5", " c=5", 3);
    changed("c=5", "c=5\r", 3);
    changed("c=3600", "c=65536", 17);
    // The first bad line decides.
    changed("c=0\nc=5", "c=1\nc=65536", 2);
    changed("c=5\nc=12", "c=65536\nc=", 3);
}

#[test]
fn the_second_implementation_reads_and_compiles_whatever_the_costs() {
    let sample = sample_text();
    for operation in [ReadJob, Compile] {
        let handed = Handed { job: sample.as_bytes(), plan: b"", costs: Some(b"") };
        assert_eq!(ask_with(operation, handed, 8, 0).answer.number, 0);
    }
}

#[test]
fn the_order_of_refusals() {
    let sample = sample_text();
    let doubled: String = (0..8).map(|row| format!("p=4,{row},{row},0\n")).collect();
    let bad_jobs = [
        (sample.replace("job=1", "job=2"), 1, 1),
        (sample.replace("facts=2", "facts=13"), 2, 2),
        (sample.replace("goal=1", "goal=4"), 3, 14),
        (sample_with(&format!("program=9\np=1,0,0,0\n{doubled}")), 4, 25),
    ];
    for (operation, _) in TAKERS {
        // The job before the costs, whatever the plan.
        for (job, number, place) in &bad_jobs {
            let handed = Handed { job: job.as_bytes(), plan: b"", costs: Some(b"costs=16\n") };
            refused_with(operation, handed, *number, *place);
        }
        // The costs before the plan.
        let handed = Handed { job: sample.as_bytes(), plan: b"", costs: Some(b"costs=16\n") };
        refused_with(operation, handed, 7, 2);
    }
    // With good costs the plan, and then list and table.
    let house = costs_text(&HOUSE_COSTS);
    for operation in [CheckMoves, CheckSteps, Judge, Sheet] {
        refused_with(operation, Handed { job: sample.as_bytes(), plan: b"", costs: Some(&house) }, 5, 1);
    }
    for (operation, plan) in TAKERS {
        let handed = Handed { job: sample.as_bytes(), plan, costs: Some(&house) };
        assert_eq!(ask_with(operation, handed, 7, 11).answer, Answer::refused(6, 8));
    }
}
