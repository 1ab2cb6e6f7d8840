//! Jobs of the greatest size: 12 facts and 256 positions, so that the cost table has 1,048,576 numbers.

use crate::generator::jobs::{job_of, two_counters};
use crate::generator::random::Random;
use crate::generator::{moves, shapes};
use crate::second::compiler::MOST_POSITIONS;
use crate::second::job::{Job, MOST_FACTS};

/// A job of the greatest size: moves that reach most states, under a program of 256 positions.
pub fn largest_job(random: &mut Random) -> Job {
    if random.chance(250) {
        let rows = shapes::chain(4, MOST_POSITIONS as usize - 4);
        return two_counters(MOST_FACTS, 4, rows, random);
    }
    let moves = match random.below(4) {
        0 => moves::counter(MOST_FACTS),
        1 => moves::cube(MOST_FACTS),
        2 => moves::flips(MOST_FACTS, 0, 15, random),
        _ => moves::toggles(MOST_FACTS, random),
    };
    let rows = match random.below(4) {
        0..=1 => shapes::wide(moves.len()),
        2 => shapes::long_sequence(moves.len(), random),
        _ => shapes::choices(moves.len(), &random_pairs(random, moves.len())),
    };
    job_of(MOST_FACTS, moves, rows)
}

/// Some pairs of moves.
fn random_pairs(random: &mut Random, moves: usize) -> Vec<(u16, u16)> {
    (0..24).map(|_| (random.below(moves) as u16, random.below(moves) as u16)).collect()
}
