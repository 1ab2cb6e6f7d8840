//! States, the formulas that hold in them, the successors that moves lead to, and what moves cost there.

use std::cell::OnceCell;

use super::fault::Fault;
use super::job::{ClassCosts, Effect, Job, Move};

/// What is true of one state: the value of each formula, and the successor by each move that is applicable.
pub struct View {
    pub values: Vec<bool>,
    pub successors: Vec<Option<u16>>,
}

/// The states of a job and the costs of its moves; what is true of a state is worked out once.
pub struct Domain<'a> {
    pub job: &'a Job,
    costs: ClassCosts,
    fault: Fault,
    views: Vec<OnceCell<View>>,
}

impl<'a> Domain<'a> {
    pub fn new(job: &'a Job, costs: ClassCosts, fault: Fault) -> Self {
        let views = (0..state_count(job)).map(|_| OnceCell::new()).collect();
        Domain { job, costs, fault, views }
    }

    /// The value of a formula in a state.
    pub fn holds(&self, formula: u16, state: u16) -> bool {
        self.view(state).values[usize::from(formula)]
    }

    /// The state after a move, where it is applicable.
    pub fn successor(&self, index: u16, state: u16) -> Option<u16> {
        self.view(state).successors[usize::from(index)]
    }

    /// What a move costs that is made in a state.
    pub fn cost(&self, index: u16, state: u16) -> u64 {
        self.cost_by(&self.costs, index, state)
    }

    /// The same by these class costs: its class, and its second class where the condition holds in that state.
    pub fn cost_by(&self, costs: &ClassCosts, index: u16, state: u16) -> u64 {
        let [class, second] = of_classes(self.action(index), costs);
        if !self.is_dearer(index, state) {
            return class;
        }
        if self.fault == Fault::SecondForSum {
            return second;
        }
        class + second
    }

    /// What a move costs that is made in a state, while least costs are looked for.
    pub fn searched_cost(&self, index: u16, state: u16) -> u64 {
        match self.fault {
            Fault::PlainLeast => self.class_costs(index)[0],
            _ => self.cost(index, state),
        }
    }

    /// What the class and the second class of a move cost.
    pub fn class_costs(&self, index: u16) -> [u64; 2] {
        of_classes(self.action(index), &self.costs)
    }

    /// Whether a move's second class is added in a state, or what a fault takes for it.
    pub fn is_dearer(&self, index: u16, state: u16) -> bool {
        let judged = match self.fault {
            Fault::CostAfterMove => self.successor(index, state).unwrap_or(state),
            _ => state,
        };
        self.holds(self.action(index).second_formula, judged)
    }

    fn action(&self, index: u16) -> &Move {
        &self.job.moves[usize::from(index)]
    }

    /// Whether the goal holds.
    pub fn is_goal(&self, state: u16) -> bool {
        self.holds(self.job.goal, state)
    }

    fn view(&self, state: u16) -> &View {
        self.views[usize::from(state)].get_or_init(|| self.look(state))
    }

    fn look(&self, state: u16) -> View {
        let values = formula_values(&self.job.formulas, state);
        let successors = self.job.moves.iter().map(|action| self.after(action, state, &values)).collect();
        View { values, successors }
    }

    /// The state after a move, given the formulas' values before it: none where its precondition fails, and none where
    /// its effects that hold conflict.
    fn after(&self, action: &Move, state: u16, values: &[bool]) -> Option<u16> {
        if !values[usize::from(action.pre)] {
            return None;
        }
        let holding = self.holding(action, state, values);
        let judged = if self.fault == Fault::ConflictWithoutConditions { &action.effects } else { &holding };
        if self.is_conflict(judged) {
            return None;
        }
        let given =
            |value| holding.iter().filter(|effect| effect[2] == value).fold(0, |facts, effect| facts | 1 << effect[1]);
        Some(state & !given(0) | given(1))
    }

    /// The effects of a move that hold, given the formulas' values before it.
    fn holding(&self, action: &Move, state: u16, values: &[bool]) -> Vec<Effect> {
        let mut holding = Vec::new();
        let mut reached = state;
        for effect in &action.effects {
            let [condition, fact, value] = *effect;
            let holds = match self.fault {
                Fault::Effects => formula_values(&self.job.formulas, reached)[usize::from(condition)],
                _ => values[usize::from(condition)],
            };
            if holds {
                holding.push(*effect);
                reached = reached & !(1 << fact) | value << fact;
            }
        }
        holding
    }

    /// Whether effects conflict, or what a fault takes for it.
    fn is_conflict(&self, effects: &[Effect]) -> bool {
        match self.fault {
            Fault::ConflictIgnored => false,
            Fault::ConflictOfEquals => {
                (0..effects.len()).any(|i| effects[..i].iter().any(|one| one[1] == effects[i][1]))
            }
            _ => clear_and_set(effects),
        }
    }
}

/// What the class and the second class of a move cost by these class costs.
fn of_classes(action: &Move, costs: &ClassCosts) -> [u64; 2] {
    [action.class, action.second_class].map(|class| costs[usize::from(class)].into())
}

/// Whether effects both clear and set one fact.
pub fn clear_and_set(effects: &[Effect]) -> bool {
    effects.iter().any(|one| effects.iter().any(|other| one[1] == other[1] && one[2] != other[2]))
}

/// The number of states of a job.
pub fn state_count(job: &Job) -> usize {
    1 << job.facts
}

/// The values of all formulas in a state; each refers to earlier ones only.
fn formula_values(formulas: &[[u16; 3]], state: u16) -> Vec<bool> {
    let mut values: Vec<bool> = Vec::with_capacity(formulas.len());
    for [kind, a, b] in formulas {
        let value = match kind {
            0 => false,
            1 => true,
            2 => state >> a & 1 == 1,
            3 => !values[usize::from(*a)],
            4 => values[usize::from(*a)] && values[usize::from(*b)],
            _ => values[usize::from(*a)] || values[usize::from(*b)],
        };
        values.push(value);
    }
    values
}
