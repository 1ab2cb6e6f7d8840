//! The cost table filled by Dijkstra's algorithm with a binary heap: plainly, or with the cells that free steps lead to
//! on a stack beside the heap.

use crate::states::{least_entry, Cost, States, Values};
use jesmovit_compare::second::compiler::{compile, Compiled, FAILS, HOLDS, NO_OP};
use jesmovit_compare::second::costs::UNREACHED;
use jesmovit_compare::second::reader::read_job;
use std::cmp::Reverse;
use std::collections::BinaryHeap;

/// A step but for where it starts, with its cost.
#[derive(Clone, Copy)]
struct Link {
    kind: u16,
    to: u16,
    arg: u16,
    cost: Cost,
}

/// Steps by the positions that they start from: those from p are `links[starts[p]..starts[p + 1]]`.
struct Grouped {
    starts: Vec<usize>,
    links: Vec<Link>,
}

fn group(compiled: &Compiled, states: &States) -> Grouped {
    let mut starts = vec![0; compiled.positions + 1];
    for step in &compiled.steps {
        starts[usize::from(step[1]) + 1] += 1;
    }
    for p in 0..compiled.positions {
        starts[p + 1] += starts[p];
    }
    let mut places = starts.clone();
    let mut links = vec![Link { kind: 0, to: 0, arg: 0, cost: Cost::NONE }; compiled.steps.len()];
    for &[kind, from, to, arg] in &compiled.steps {
        let cost = if kind < 3 { Cost::NONE } else { states.cost(arg) };
        let place = &mut places[usize::from(from)];
        links[*place] = Link { kind, to, arg, cost };
        *place += 1;
    }
    Grouped { starts, links }
}

/// What was worked out so far: formula values once for each state, a successor once for each state and move.
struct Memo<'a> {
    states: &'a States,
    visited: Vec<bool>,
    values: Vec<Values>,
    /// 0 where it is not worked out, 1 for an inapplicable move, and otherwise the state and 2.
    successors: Vec<u16>,
}

impl<'a> Memo<'a> {
    fn new(states: &'a States) -> Memo<'a> {
        Memo {
            states,
            visited: vec![false; states.count],
            values: vec![Values::default(); states.count],
            successors: vec![0; states.count * states.moves],
        }
    }

    fn values(&mut self, state: u16) -> Values {
        let s = usize::from(state);
        if !self.visited[s] {
            self.visited[s] = true;
            self.values[s] = self.states.values(state);
        }
        self.values[s]
    }

    fn successor(&mut self, values: &Values, m: u16, state: u16) -> Option<u16> {
        let note = &mut self.successors[usize::from(state) * self.states.moves + usize::from(m)];
        if *note == 0 {
            *note = self.states.successor(values, m, state).map_or(1, |t| t + 2);
        }
        note.checked_sub(2)
    }
}

/// A cell and its cost in one number, which orders by cost: 8 bits of it are the position, 12 the state. No cost needs
/// more than 37: a cell is reached over each of 1,048,576 once at most, by moves of at most 131,070.
fn entry(cost: u64, state: u16, position: u16) -> Reverse<u64> {
    Reverse(cost << 20 | u64::from(state) << 8 | u64::from(position))
}

/// Fills the table's front, which is unreached but for cell 0 of init. With `STACK`, what a free step lowers is settled
/// at once and never in the heap.
fn settle<const STACK: bool>(init: u16, positions: usize, steps: &Grouped, memo: &mut Memo, table: &mut [u64]) {
    let mut heap = BinaryHeap::new();
    let mut stack = Vec::new();
    heap.push(entry(0, init, 0));
    while let Some(Reverse(top)) = stack.pop().or_else(|| heap.pop()) {
        let (cost, state, p) = (top >> 20, (top >> 8) as u16 & 0xfff, usize::from(top as u8));
        if table[usize::from(state) * positions + p] < cost {
            continue;
        }
        let values = memo.values(state);
        for link in &steps.links[steps.starts[p]..steps.starts[p + 1]] {
            let (after, more) = match link.kind {
                NO_OP => (Some(state), 0),
                HOLDS => (values.holds(link.arg).then_some(state), 0),
                FAILS => ((!values.holds(link.arg)).then_some(state), 0),
                _ => (memo.successor(&values, link.arg, state), link.cost.given(&values)),
            };
            let Some(next) = after else { continue };
            let cell = &mut table[usize::from(next) * positions + usize::from(link.to)];
            if cost + more < *cell {
                *cell = cost + more;
                let lowered = entry(*cell, next, link.to);
                if STACK && more == 0 {
                    stack.push(lowered);
                } else {
                    heap.push(lowered);
                }
            }
        }
    }
}

/// Reads and compiles the job, fills the table's front, and answers the least cost.
pub fn least_cost<const STACK: bool>(text: &[u8], table: &mut [u64]) -> u64 {
    let job = read_job(text).expect("the job is read");
    let compiled = compile(&job).expect("the program compiles");
    let states = States::new(&job);
    let steps = group(&compiled, &states);
    let positions = compiled.positions;
    table[..states.count * positions].fill(UNREACHED);
    table[usize::from(job.init) * positions] = 0;
    settle::<STACK>(job.init, positions, &steps, &mut Memo::new(&states), table);
    least_entry(&states, positions, table)
}
