//! The jobs whose cost tables are filled, by name or by size, and the plans to be checked.

use jesmovit_compare::generator::jobs::{self, job_of, two_counters};
use jesmovit_compare::generator::random::Random;
use jesmovit_compare::generator::writer::{job_text, plan_text};
use jesmovit_compare::generator::{moves, shapes};
use jesmovit_compare::second::job::Job;

/// A job's text under a name.
pub struct Named {
    pub name: &'static str,
    pub text: Vec<u8>,
}

/// A plan text that takes the job's moves in turn.
pub fn plan_in_turn(job: &Job, length: usize) -> Vec<u8> {
    let entries: Vec<u16> = (0..job.moves.len() as u16).cycle().take(length).collect();
    plan_text("m", &entries)
}

/// All jobs to fill the cost table of.
pub fn named() -> Vec<Named> {
    let mut jobs = vec![
        ("sample", jobs::sample()),
        ("sample star", jobs::sample_star()),
        ("medium star", jobs::medium_star()),
        ("medium", jobs::medium()),
        ("medium 8", jobs::tangled(8, 64, 600, 29)),
    ];
    jobs.extend(largest());
    jobs.into_iter().map(|(name, job)| Named { name, text: job_text(&job) }).collect()
}

/// The largest jobs: 12 facts and 256 positions, or nearly.
fn largest() -> Vec<(&'static str, Job)> {
    let mut random = Random::new(7);
    let wide = || shapes::wide(64);
    let close = moves::flips(12, 1, 5, &mut random);
    let flips = moves::flips(12, 0, 15, &mut random);
    let toggles = moves::toggles(12, &mut random);
    let sequence = shapes::long_sequence(64, &mut random);
    let pairs: Vec<(u16, u16)> = (0..24).map(|m| (2 * m, 2 * m + 1)).collect();
    vec![
        ("counter", job_of(12, moves::counter(12), wide())),
        ("cube", job_of(12, moves::cube(12), wide())),
        ("conditional", job_of(12, moves::conditional(12), wide())),
        ("mixed", jobs::mixed(12, 17, wide())),
        ("tangled", jobs::tangled(12, 256, 1024, 1)),
        ("improving", job_of(12, moves::improving(12), shapes::chain(22, 44))),
        ("close", job_of(12, close, wide())),
        ("few", job_of(12, moves::few(), wide())),
        ("loops", job_of(12, flips.clone(), shapes::loops(64, 12))),
        ("sequence", job_of(12, toggles, sequence)),
        ("choices", job_of(12, flips, shapes::choices(64, &pairs))),
        ("zero", job_of(12, moves::flips(12, 0, 0, &mut random), wide())),
        ("dear", job_of(12, moves::flips(12, 15, 15, &mut random), wide())),
    ]
}

/// Jobs by their size.
pub type Growing = Vec<(usize, Vec<u8>)>;

/// Jobs whose facts grow, under one program.
pub fn by_facts() -> Growing {
    let of = |facts: u16| {
        let flips = moves::flips(facts, 0, 15, &mut Random::new(31));
        job_text(&job_of(facts, flips, shapes::wide(64)))
    };
    (8..=12).map(|facts| (usize::from(facts), of(facts))).collect()
}

/// Jobs whose positions double, with four steps from each.
pub fn by_positions() -> Growing {
    let of = |positions: usize| job_text(&two_counters(12, 4, shapes::chain(4, positions - 4), &mut Random::new(37)));
    [16, 32, 64, 128, 256].map(|positions| (positions, of(positions))).to_vec()
}

/// Jobs whose steps double, over 18 positions.
pub fn by_steps() -> Growing {
    let of = |moves: usize| job_text(&two_counters(12, moves, shapes::chain(moves, 14), &mut Random::new(41)));
    [4, 8, 16, 32, 64].map(|moves| (15 * moves + 3, of(moves))).to_vec()
}
