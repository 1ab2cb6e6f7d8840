//! Random cases.
//!
//! The mix: jobs come from the generator; 7 of 10 goals are replaced by ones that some complete run reaches. Plans are
//! walks, some of them cheapest ones, walks that are cut, continued or changed, and random lists (`plans`, `walks`). In
//! 6 of 10 cases a costs text is handed in (`costs`). In a few the least cost is above 2^32. Of each sort of text 23 in
//! 100 are then damaged (`damage`, `fields`); a damaged text may still be a right one. `edges` says which limits a case
//! meets, by what `look` and `made` find in it.

mod costs;
mod damage;
pub mod edges;
mod fields;
mod look;
mod made;
mod plans;
mod walks;

use crate::generator::random::Random;
use crate::generator::random_jobs::{long_counter, random_job};
use crate::generator::writer::{costs_text, job_text, plan_text};
use crate::library::{Given, COSTS_GIVEN};
use crate::second::compiler::compile;
use crate::second::expected::Texts;
use crate::second::job::{ClassCosts, Job, HOUSE_COSTS};
use crate::second::reader::read_costs;
use costs::{random_bits, random_costs, GREATEST_COSTS};
use damage::damage;
use plans::{random_plans, Plans};

/// A job text, a text of moves, a text of steps, the bytes of a costs text, and the bits that say whether it is handed
/// in.
pub struct Case {
    pub job: Vec<u8>,
    pub moves: Vec<u8>,
    pub steps: Vec<u8>,
    pub costs: Vec<u8>,
    pub bits: u32,
}

impl Case {
    pub fn random(random: &mut Random) -> Case {
        let mut case = Case::undamaged(random);
        for text in [&mut case.job, &mut case.moves, &mut case.steps, &mut case.costs] {
            if random.chance(230) {
                damage(random, text);
            }
        }
        case
    }

    /// What may be left out, as the library takes it.
    pub fn given(&self) -> Given<'_> {
        Given { costs: &self.costs, bits: self.bits }
    }

    /// The texts that are handed in.
    pub fn texts(&self) -> Texts<'_> {
        let costs = (self.bits & COSTS_GIVEN != 0).then_some(&self.costs[..]);
        Texts { job: &self.job, moves: &self.moves, steps: &self.steps, costs }
    }

    fn undamaged(random: &mut Random) -> Case {
        if random.below(10_000) < 5 {
            let job = long_counter(random);
            return Case { costs: costs_text(&GREATEST_COSTS), bits: COSTS_GIVEN, ..Case::of(random, job) };
        }
        let job = random_job(random);
        Case::of(random, job)
    }

    /// A case of this job, perhaps with another goal. The plans are empty where the job doesn't compile.
    fn of(random: &mut Random, mut job: Job) -> Case {
        let (costs, bits) = (random_costs(random), random_bits(random));
        let plans = match compile(&job) {
            Ok(compiled) => random_plans(random, &job, &compiled, loaded(&costs, bits)),
            Err(_) => Plans { goal: job.goal, moves: Vec::new(), steps: Vec::new() },
        };
        job.goal = plans.goal;
        let [move_key, step_key] = random.weighted(&[(98, ["m", "t"]), (1, ["t", "m"]), (1, ["m", "m"])]);
        Case {
            job: job_text(&job),
            moves: plan_text(move_key, &plans.moves),
            steps: plan_text(step_key, &plans.steps),
            costs,
            bits,
        }
    }
}

/// The costs that are loaded where this text is right and handed in, otherwise the house's.
fn loaded(costs: &[u8], bits: u32) -> ClassCosts {
    match read_costs(costs) {
        Ok(costs) if bits & COSTS_GIVEN != 0 => costs,
        _ => HOUSE_COSTS,
    }
}
