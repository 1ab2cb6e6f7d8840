//! Runs of the program: configurations of a state and a residual program, the verdict of a move list, the least cost.

use std::cmp::Reverse;
use std::collections::BinaryHeap;

use super::domain::{state_count, Domain};
use super::fault::Fault;
use super::job::HOUSE_COSTS;
use super::residual::{Label, Residual, Residuals, Transition, NIL};
use super::verdict::Verdict;

/// The runs of a job's program.
pub struct Runs<'a> {
    domain: &'a Domain<'a>,
    residuals: Residuals<'a>,
    fault: Fault,
}

/// A configuration: the state, and the residual program.
pub type Configuration = (u16, Residual);

impl<'a> Runs<'a> {
    pub fn new(domain: &'a Domain<'a>, fault: Fault) -> Self {
        Runs { domain, residuals: Residuals::new(domain.job, fault), fault }
    }

    /// The configuration at first.
    pub fn start(&mut self) -> Configuration {
        (self.domain.job.init, self.residuals.program())
    }

    /// The configurations one transition later, each with the move that is made.
    pub fn next(&mut self, (state, residual): Configuration) -> Vec<(Option<u16>, Configuration)> {
        let domain = self.domain;
        let made = |transition: &Transition| match transition.label {
            Label::Silent => Some((None, (state, transition.to))),
            Label::Holds(formula) => domain.holds(formula, state).then_some((None, (state, transition.to))),
            Label::Fails(formula) => (!domain.holds(formula, state)).then_some((None, (state, transition.to))),
            Label::Move(index) => Some((Some(index), (domain.successor(index, state)?, transition.to))),
        };
        self.residuals.transitions(residual).iter().filter_map(made).collect()
    }

    /// The verdict of a list of moves.
    pub fn verdict(&mut self, moves: &[u16]) -> Verdict {
        let (mut state, program) = self.start();
        let mut residuals = self.closed(state, vec![program]);
        let mut cost = 0;
        for (made, index) in moves.iter().enumerate() {
            let (Some(after), reached) = self.advance(state, &residuals, *index) else {
                return Verdict::Blocked(made);
            };
            cost += self.domain.cost(*index, state);
            residuals = self.closed(after, reached);
            state = after;
        }
        if !residuals.contains(&NIL) {
            Verdict::Unfinished
        } else if !self.domain.is_goal(state) {
            Verdict::Missed
        } else {
            Verdict::Plan(cost)
        }
    }

    /// The state and the residual programs after a move, where some run makes it.
    fn advance(&mut self, state: u16, residuals: &[Residual], index: u16) -> (Option<u16>, Vec<Residual>) {
        let mut after = None;
        let mut reached = Vec::new();
        for residual in residuals {
            for (made, (next_state, next)) in self.next((state, *residual)) {
                if made == Some(index) {
                    after = Some(next_state);
                    reached.push(next);
                }
            }
        }
        (after, reached)
    }

    /// The residual programs that silent transitions reach from the given ones, each once.
    fn closed(&mut self, state: u16, start: Vec<Residual>) -> Vec<Residual> {
        let mut open = start;
        let mut met = Vec::new();
        let mut seen = Vec::new();
        while let Some(residual) = open.pop() {
            if mark(&mut seen, residual) {
                continue;
            }
            met.push(residual);
            let next = self.next((state, residual));
            open.extend(next.iter().filter(|(made, _)| made.is_none()).map(|(_, (_, next))| next));
        }
        met
    }

    /// The least cost of all allowed plans; none where there is no plan.
    pub fn least(&mut self) -> Option<u64> {
        let domain = self.domain;
        match self.fault {
            Fault::HouseLeast => self.least_by(|index, state| domain.cost_by(&HOUSE_COSTS, index, state)),
            _ => self.least_by(|index, state| domain.searched_cost(index, state)),
        }
    }

    /// The least sum over all allowed plans of what each move costs in the state before it, by these costs.
    pub fn least_by(&mut self, cost_of: impl Fn(u16, u16) -> u64) -> Option<u64> {
        let start = self.start();
        let mut best = Best { costs: vec![Vec::new(); state_count(self.domain.job)] };
        let mut open = BinaryHeap::from([Reverse((0, start))]);
        best.lower(start, 0);
        while let Some(Reverse((cost, from))) = open.pop() {
            if from.1 == NIL && self.domain.is_goal(from.0) {
                return Some(cost);
            }
            if *best.cost(from) < cost {
                continue;
            }
            for (made, to) in self.next(from) {
                let reached = cost + made.map_or(0, |index| cost_of(index, from.0));
                if best.lower(to, reached) {
                    open.push(Reverse((reached, to)));
                } else if self.fault == Fault::FreeLoops && made.is_none() {
                    return None;
                }
            }
        }
        None
    }
}

/// Marks a number, and says whether it was marked before.
fn mark(seen: &mut Vec<bool>, number: usize) -> bool {
    if seen.len() <= number {
        seen.resize(number + 1, false);
    }
    std::mem::replace(&mut seen[number], true)
}

/// The least costs found so far, by state and residual program.
struct Best {
    costs: Vec<Vec<u64>>,
}

impl Best {
    fn cost(&mut self, (state, residual): Configuration) -> &mut u64 {
        let row = &mut self.costs[usize::from(state)];
        if row.len() <= residual {
            row.resize(residual + 1, u64::MAX);
        }
        &mut row[residual]
    }

    /// Keeps a lower cost, and says whether it is lower.
    fn lower(&mut self, to: Configuration, cost: u64) -> bool {
        let entry = self.cost(to);
        let lower = cost < *entry;
        if lower {
            *entry = cost;
        }
        lower
    }
}
