//! Jobs in which it may pay to prepare the state first: moves set and clear single facts, in any order, and half of
//! them cost much more as long as another fact is what it is at first.

use crate::generator::formulas::Formulas;
use crate::generator::jobs::job_of;
use crate::generator::moves;
use crate::generator::program::{any, star};
use crate::generator::random::Random;
use crate::second::job::{Job, CLASSES};

/// A few facts, each with a move that sets it and one that clears it; one fact is the goal.
pub fn random_flips(random: &mut Random) -> Job {
    let facts = random.between(2, 5) as u16;
    let formulas = Formulas { facts };
    let init = random.below_u16(1 << facts);
    let mut moves = moves::flips(facts, 0, 4, random);
    moves.truncate(2 * usize::from(facts));
    for action in &mut moves {
        let fact = random.below_u16(facts);
        if random.chance(500) {
            let at_first = if init >> fact & 1 == 1 { formulas.fact(fact) } else { formulas.no(fact) };
            (action.second_formula, action.second_class) = (at_first, 5 + random.below_u16(CLASSES - 5));
        }
    }
    let goal = formulas.fact(random.below_u16(facts));
    Job { init, goal, ..job_of(facts, moves, vec![any(), star(0)]) }
}
