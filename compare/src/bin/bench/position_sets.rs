//! A list of moves checked by the set of positions that the program may be at.

use crate::states::{States, Values};
use jesmovit_compare::second::compiler::{compile, Compiled, FAILS, HOLDS, NO_OP};
use jesmovit_compare::second::reader::{read_job, read_plan};
use jesmovit_compare::second::verdict::Verdict;

/// Silent steps and moves by the positions that they start from.
struct Grouped {
    silent: Vec<Vec<[u16; 3]>>,
    moves: Vec<Vec<[u16; 2]>>,
}

fn group(compiled: &Compiled) -> Grouped {
    let mut silent = vec![Vec::new(); compiled.positions];
    let mut moves = vec![Vec::new(); compiled.positions];
    for &[kind, from, to, arg] in &compiled.steps {
        if kind < 3 {
            silent[usize::from(from)].push([kind, to, arg]);
        } else {
            moves[usize::from(from)].push([arg, to]);
        }
    }
    Grouped { silent, moves }
}

/// A set of positions: a mark for each, and those that are marked.
struct Positions {
    marks: [bool; 256],
    marked: Vec<u16>,
}

impl Positions {
    fn new() -> Positions {
        Positions { marks: [false; 256], marked: Vec::with_capacity(256) }
    }

    fn clear(&mut self) {
        for &p in &self.marked {
            self.marks[usize::from(p)] = false;
        }
        self.marked.clear();
    }

    fn add(&mut self, p: u16) {
        if !self.marks[usize::from(p)] {
            self.marks[usize::from(p)] = true;
            self.marked.push(p);
        }
    }

    /// Adds what silent steps reach, breadth first.
    fn close(&mut self, steps: &Grouped, values: &Values) {
        let mut done = 0;
        while done < self.marked.len() {
            for &[kind, to, arg] in &steps.silent[usize::from(self.marked[done])] {
                let open = match kind {
                    NO_OP => true,
                    HOLDS => values.holds(arg),
                    FAILS => !values.holds(arg),
                    _ => false,
                };
                if open {
                    self.add(to);
                }
            }
            done += 1;
        }
    }

    /// Where move m leads from the positions of `before`.
    fn advance(&mut self, before: &Positions, steps: &Grouped, m: u16) {
        self.clear();
        for &p in &before.marked {
            for &[arg, to] in &steps.moves[usize::from(p)] {
                if arg == m {
                    self.add(to);
                }
            }
        }
    }
}

/// The verdict on a list of moves.
fn check(compiled: &Compiled, states: &States, init: u16, plan: &[u16]) -> Verdict {
    let steps = group(compiled);
    let (mut now, mut next) = (Positions::new(), Positions::new());
    let (mut state, mut cost) = (init, 0);
    let mut values = states.values(state);
    now.add(0);
    now.close(&steps, &values);
    for (i, &m) in plan.iter().enumerate() {
        let Some(after) = states.successor(&values, m, state) else { return Verdict::Blocked(i) };
        next.advance(&now, &steps, m);
        if next.marked.is_empty() {
            return Verdict::Blocked(i);
        }
        cost += states.cost(m).given(&values);
        if after != state {
            state = after;
            values = states.values(state);
        }
        next.close(&steps, &values);
        std::mem::swap(&mut now, &mut next);
    }
    match (now.marks[compiled.positions - 1], states.is_goal(&values)) {
        (false, _) => Verdict::Unfinished,
        (true, false) => Verdict::Missed,
        (true, true) => Verdict::Plan(cost),
    }
}

/// Reads both texts, compiles the job, and checks the plan.
pub fn check_moves(job: &[u8], plan: &[u8]) -> Verdict {
    let job = read_job(job).expect("the job is read");
    let plan = read_plan(plan, b'm', job.moves.len()).expect("the plan is read");
    let compiled = compile(&job).expect("the program compiles");
    check(&compiled, &States::new(&job), job.init, &plan)
}
