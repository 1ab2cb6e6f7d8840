//! Jobs in which every state has to be passed: the facts are the digits of a binary number, and moves add one to it.

use super::domains::random_move;
use super::second_classes::add_second_classes;
use crate::generator::jobs::{job_of, rounds};
use crate::generator::moves::increments;
use crate::generator::random::Random;
use crate::second::job::{Job, MOST_FACTS};

/// A counter of some facts, perhaps with a few random moves beside, and with no objects and no program yet.
pub fn random_counter(random: &mut Random) -> Job {
    let facts = random.ranged(&[(20, (1, 6)), (8, (7, 9)), (1, (10, 12))]) as u16;
    let moves = increments(facts, || random.pick(&[0, 1, 3, 15, 15]));
    let mut job = job_of(facts, moves, Vec::new());
    for _ in 0..random.pick(&[0, 0, 0, 1, 2]) {
        job.moves.push(random_move(random, usize::from(facts), &job.formulas));
    }
    job
}

/// A counter of all facts, or of one less, that counts so often that its one plan has more than 65,537 moves; many of
/// them cost more.
pub fn long_counter(random: &mut Random) -> Job {
    let (facts, least) = random.pick(&[(MOST_FACTS, 17), (MOST_FACTS - 1, 33)]);
    let mut job = rounds(facts, least + random.below(3));
    add_second_classes(random, &mut job);
    job
}
