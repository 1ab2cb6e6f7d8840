//! The exact cost table: the least cost of reaching each state and position.

use std::cmp::Reverse;
use std::collections::BinaryHeap;

use super::domain::state_count;
use super::fault::Fault;
use super::steps::{made_by, Steps};

/// An entry that can't be reached.
pub const UNREACHED: u64 = u64::MAX;

/// The cost table, at state × positions + position.
pub fn cost_table(steps: &Steps, fault: Fault) -> Vec<u64> {
    let positions = steps.compiled.positions;
    let index = |state: u16, position: u16| usize::from(state) * positions + usize::from(position);
    let unreached = if fault == Fault::OldUnreached { u32::MAX.into() } else { UNREACHED };
    let mut table = vec![unreached; state_count(steps.domain.job) * positions];
    let start = (steps.domain.job.init, 0);
    table[index(start.0, start.1)] = 0;
    let mut open = BinaryHeap::from([Reverse((0, start))]);
    while let Some(Reverse((cost, (state, position)))) = open.pop() {
        if table[index(state, position)] < cost {
            continue;
        }
        for (_, step) in steps.from(position) {
            let Some(after) = steps.after(state, step) else {
                continue;
            };
            let sum = cost + made_by(step).map_or(0, |index| steps.domain.searched_cost(index, state));
            let reached = if fault == Fault::LowSums { sum & u64::from(u32::MAX) } else { sum };
            let entry = &mut table[index(after, step[2])];
            if reached < *entry {
                *entry = reached;
                open.push(Reverse((reached, (after, step[2]))));
            }
        }
    }
    table
}
