//! Random jobs: random facts, formulas and moves (`domains`) or a counter (`counters`), with a random program
//! (`programs`), perhaps one of nested picks (`picks`) or at the limits (`limits`); a few jobs of the greatest size
//! (`largest`), and jobs of long plans. Most of their moves cost more in some states (`second_classes`), which the least
//! plans of some jobs avoid (`flips`).

mod counters;
mod domains;
mod flips;
mod largest;
mod limits;
mod picks;
mod programs;
mod second_classes;

pub use counters::long_counter;

use super::random::Random;
use crate::second::job::Job;

/// A job that is read, though perhaps of too many positions or steps, or with a variable that has too few picks around
/// it.
pub fn random_job(random: &mut Random) -> Job {
    let mut job = match random.below(10_000) {
        0..=2 => largest::largest_job(random),
        3..=302 => with_program(random, counters::random_counter),
        303..=702 => return flips::random_flips(random),
        _ => with_program(random, domains::random_domain),
    };
    second_classes::add_second_classes(random, &mut job);
    job
}

/// Objects and a random program for a job that has none yet.
fn with_program(random: &mut Random, domain: fn(&mut Random) -> Job) -> Job {
    let mut job = domain(random);
    job.objects = domains::random_objects(random, &job);
    job.rows = programs::random_program(random, &job);
    job
}
