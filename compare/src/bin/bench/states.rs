//! What the baselines know of a job's states: formula values, successors and costs, prepared for speed.

use jesmovit_compare::second::costs::UNREACHED;
use jesmovit_compare::second::job::{Job, Move, HOUSE_COSTS};

/// The values of all formulas in a state, a bit each.
#[derive(Clone, Copy, Default)]
pub struct Values([u64; 4]);

impl Values {
    pub fn holds(&self, formula: u16) -> bool {
        self.0[usize::from(formula >> 6) & 3] >> (formula & 63) & 1 == 1
    }

    fn put(&mut self, formula: usize, value: bool) {
        self.0[(formula >> 6) & 3] |= u64::from(value) << (formula & 63);
    }
}

/// An effect with the facts that it clears and sets, as bits.
struct Effect {
    condition: u16,
    clears: u16,
    sets: u16,
}

/// What a move costs, and what more where a condition holds.
#[derive(Clone, Copy)]
pub struct Cost {
    plain: u64,
    condition: u16,
    second: u64,
}

impl Cost {
    /// Of a step that makes no move.
    pub const NONE: Cost = Cost { plain: 0, condition: 0, second: 0 };

    fn of(action: &Move) -> Cost {
        let by = |class: u16| HOUSE_COSTS[usize::from(class)].into();
        Cost { plain: by(action.class), condition: action.second_formula, second: by(action.second_class) }
    }

    /// The cost in a state, by the values of its formulas.
    pub fn given(&self, values: &Values) -> u64 {
        self.plain + if values.holds(self.condition) { self.second } else { 0 }
    }
}

struct Action {
    pre: u16,
    cost: Cost,
    effects: Vec<Effect>,
}

pub struct States {
    pub count: usize,
    pub moves: usize,
    formulas: Vec<[u16; 3]>,
    goal: u16,
    actions: Vec<Action>,
}

impl States {
    pub fn new(job: &Job) -> States {
        let effect = |&[condition, fact, value]: &[u16; 3]| Effect {
            condition,
            clears: (1 - value) << fact,
            sets: value << fact,
        };
        let actions = job.moves.iter().map(|m| Action {
            pre: m.pre,
            cost: Cost::of(m),
            effects: m.effects.iter().map(effect).collect(),
        });
        States {
            count: 1 << job.facts,
            moves: job.moves.len(),
            formulas: job.formulas.clone(),
            goal: job.goal,
            actions: actions.collect(),
        }
    }

    /// The values of all formulas in a state.
    pub fn values(&self, state: u16) -> Values {
        let mut values = Values::default();
        for (i, &[kind, a, b]) in self.formulas.iter().enumerate() {
            let value = match kind {
                0 => false,
                1 => true,
                2 => state >> a & 1 == 1,
                3 => !values.holds(a),
                4 => values.holds(a) & values.holds(b),
                _ => values.holds(a) | values.holds(b),
            };
            values.put(i, value);
        }
        values
    }

    /// The state after a move: none where its precondition fails, or where its effects that hold conflict.
    pub fn successor(&self, values: &Values, m: u16, state: u16) -> Option<u16> {
        let action = &self.actions[usize::from(m)];
        if !values.holds(action.pre) {
            return None;
        }
        let (mut clears, mut sets) = (0, 0);
        for effect in &action.effects {
            if values.holds(effect.condition) {
                clears |= effect.clears;
                sets |= effect.sets;
            }
        }
        (clears & sets == 0).then_some(state & !clears | sets)
    }

    pub fn cost(&self, m: u16) -> Cost {
        self.actions[usize::from(m)].cost
    }

    pub fn is_goal(&self, values: &Values) -> bool {
        values.holds(self.goal)
    }
}

/// The least entry at the last position, of the states where the goal holds.
pub fn least_entry(states: &States, positions: usize, table: &[u64]) -> u64 {
    let mut least = UNREACHED;
    for state in 0..states.count {
        let entry = table[state * positions + positions - 1];
        if entry < least && states.is_goal(&states.values(state as u16)) {
            least = entry;
        }
    }
    least
}
