//! Steps of the compiled job, and the verdict of a step list.

use super::compiler::{Compiled, FAILS, HOLDS, MOVE, NO_OP};
use super::domain::Domain;
use super::fault::Fault;
use super::verdict::Verdict;

/// The compiled job over its states, with the numbers of the steps from each position.
pub struct Steps<'a> {
    pub domain: &'a Domain<'a>,
    pub compiled: &'a Compiled,
    from: Vec<Vec<u16>>,
}

impl<'a> Steps<'a> {
    pub fn new(domain: &'a Domain<'a>, compiled: &'a Compiled) -> Self {
        let mut from = vec![Vec::new(); compiled.positions];
        for (number, [_, position, ..]) in compiled.steps.iter().enumerate() {
            from[usize::from(*position)].push(number as u16);
        }
        Steps { domain, compiled, from }
    }

    /// The steps from a position, each with its number.
    pub fn from(&self, position: u16) -> impl Iterator<Item = (u16, [u16; 4])> + '_ {
        let numbers = &self.from[usize::from(position)];
        numbers.iter().map(|number| (*number, self.compiled.steps[usize::from(*number)]))
    }

    /// The final position.
    pub fn last(&self) -> u16 {
        self.compiled.positions as u16 - 1
    }

    /// The state after a step that is made in a state, where it can be.
    pub fn after(&self, state: u16, [kind, _, _, arg]: [u16; 4]) -> Option<u16> {
        match kind {
            NO_OP => Some(state),
            HOLDS => self.domain.holds(arg, state).then_some(state),
            FAILS => (!self.domain.holds(arg, state)).then_some(state),
            _ => self.domain.successor(arg, state),
        }
    }

    /// The verdict of a list of steps.
    pub fn verdict(&self, entries: &[u16], fault: Fault) -> Verdict {
        let (mut state, mut position) = (self.domain.job.init, 0);
        let mut cost = 0;
        for (made, entry) in entries.iter().enumerate() {
            let step = self.compiled.steps[usize::from(*entry)];
            let [_, from, to, _] = step;
            let Some(after) = self.after(state, step).filter(|_| from == position) else {
                return Verdict::Blocked(made);
            };
            cost += made_by(step).map_or(0, |index| self.domain.cost(index, state));
            (state, position) = (after, to);
        }
        if fault == Fault::LateSteps {
            position = self.slide(state, position);
        }
        if position != self.last() {
            Verdict::Unfinished
        } else if !self.domain.is_goal(state) {
            Verdict::Missed
        } else {
            Verdict::Plan(cost)
        }
    }

    /// Fault: one silent step is added behind the list where there is one.
    fn slide(&self, state: u16, position: u16) -> u16 {
        let silent = |step: &[u16; 4]| step[0] == NO_OP && self.after(state, *step).is_some();
        self.from(position).map(|(_, step)| step).find(silent).map_or(position, |[_, _, to, _]| to)
    }
}

/// The move that a step makes, if any.
pub fn made_by([kind, _, _, arg]: [u16; 4]) -> Option<u16> {
    (kind == MOVE).then_some(arg)
}
