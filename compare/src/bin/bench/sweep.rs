//! The cost table filled by plain sweeps: all steps of all states, until nothing changes.

use crate::states::{least_entry, States, Values};
use crate::timing::used;
use jesmovit_compare::second::compiler::{compile, Compiled, FAILS, HOLDS, NO_OP};
use jesmovit_compare::second::costs::UNREACHED;
use jesmovit_compare::second::reader::read_job;
use std::time::Duration;

/// The values and the successors of a state.
struct View {
    values: Values,
    successors: Vec<Option<u16>>,
}

fn view(states: &States, state: u16) -> View {
    let values = states.values(state);
    let successor = |m| states.successor(&values, m as u16, state);
    View { values, successors: (0..states.moves).map(successor).collect() }
}

/// Follows all steps of a state; whether a cell was lowered.
fn sweep_state(compiled: &Compiled, states: &States, state: u16, view: &View, table: &mut [u64]) -> bool {
    let mut changed = false;
    for &[kind, from, to, arg] in &compiled.steps {
        let cost = table[usize::from(state) * compiled.positions + usize::from(from)];
        if cost == UNREACHED {
            continue;
        }
        let (after, more) = match kind {
            NO_OP => (Some(state), 0),
            HOLDS => (view.values.holds(arg).then_some(state), 0),
            FAILS => ((!view.values.holds(arg)).then_some(state), 0),
            _ => (view.successors[usize::from(arg)], states.cost(arg).given(&view.values)),
        };
        let Some(next) = after else { continue };
        let cell = &mut table[usize::from(next) * compiled.positions + usize::from(to)];
        if cost + more < *cell {
            *cell = cost + more;
            changed = true;
        }
    }
    changed
}

/// Reads and compiles the job, fills the table's front, and answers the least cost; none where it takes too long.
pub fn least_cost(text: &[u8], table: &mut [u64], most: Duration) -> Option<u64> {
    let end = used() + most.as_secs_f64() * 1e6;
    let job = read_job(text).expect("the job is read");
    let compiled = compile(&job).expect("the program compiles");
    let states = States::new(&job);
    let positions = compiled.positions;
    let views: Vec<View> = (0..states.count).map(|s| view(&states, s as u16)).collect();
    table[..states.count * positions].fill(UNREACHED);
    table[usize::from(job.init) * positions] = 0;
    loop {
        let mut changed = false;
        for (s, view) in views.iter().enumerate() {
            changed |= sweep_state(&compiled, &states, s as u16, view, table);
        }
        if !changed {
            return Some(least_entry(&states, positions, table));
        }
        if used() > end {
            return None;
        }
    }
}
