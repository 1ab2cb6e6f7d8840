//! A plan as it is looked at: what its moves cost, and how it stands beside the other plans of its job.

use crate::second::domain::Domain;
use crate::second::fault::Fault;
use crate::second::runs::Runs;
use crate::second::verdict::Verdict;

/// A move of a plan: its number, what its class and its second class cost, and whether the condition of the second
/// class holds before the move, and after it.
pub struct Made {
    pub index: u16,
    costs: [u64; 2],
    condition: [bool; 2],
}

impl Made {
    /// What the move costs.
    pub fn cost(&self) -> u64 {
        let [class, second] = self.costs;
        class + if self.condition[0] { second } else { 0 }
    }

    /// Whether the second class costs something, and its condition is so before and after the move.
    pub fn has_second(&self, before: bool, after: bool) -> bool {
        self.costs[1] > 0 && self.condition == [before, after]
    }
}

/// The moves of a list that is a plan.
pub fn made(domain: &Domain, moves: &[u16]) -> Option<Vec<Made>> {
    let Verdict::Plan(_) = Runs::new(domain, Fault::None).verdict(moves) else {
        return None;
    };
    let mut state = domain.job.init;
    let mut all = Vec::new();
    for index in moves {
        let before = state;
        state = domain.successor(*index, before)?;
        let condition = [before, state].map(|state| domain.is_dearer(*index, state));
        all.push(Made { index: *index, costs: domain.class_costs(*index), condition });
    }
    Some(all)
}

/// What a plan costs, and what the least plan does; and the same without second classes, with the fewest moves that a
/// least plan has then.
pub struct Standing {
    pub cost: u64,
    pub least: u64,
    pub plain_cost: u64,
    pub plain_least: u64,
    pub moves: u64,
    pub fewest_moves: u64,
}

/// How many bits of a sum count moves.
const MOVE_BITS: u32 = 24;

/// How a plan stands.
pub fn standing(domain: &Domain, plan: &[Made]) -> Option<Standing> {
    let mut runs = Runs::new(domain, Fault::None);
    let plain = runs.least_by(|index, _| domain.class_costs(index)[0] << MOVE_BITS | 1)?;
    Some(Standing {
        cost: plan.iter().map(Made::cost).sum(),
        least: runs.least()?,
        plain_cost: plan.iter().map(|made| made.costs[0]).sum(),
        plain_least: plain >> MOVE_BITS,
        moves: plan.len() as u64,
        fewest_moves: plain & ((1 << MOVE_BITS) - 1),
    })
}
