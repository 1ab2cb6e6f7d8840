//! Section 5: how times grow with the input.

use crate::filling::{self, Room};
use crate::inputs::Growing;
use crate::print::{self, micros, ratio};
use crate::timing::{self, Budget};
use crate::{accepted, dijkstra, inputs, texts};
use jesmovit_compare::generator::jobs::wide;
use jesmovit_compare::generator::writer::job_text;

/// One line: the size, what it counts, both times, each with its factor to the line before, and their ratio.
fn line(size: usize, count: usize, times: [f64; 2], before: Option<[f64; 2]>) {
    let factor = |i: usize| before.map_or(String::new(), |earlier| ratio(times[i] / earlier[i]));
    let columns =
        [count.to_string(), micros(times[0]), factor(0), micros(times[1]), factor(1), ratio(times[0] / times[1])];
    print::line(&size.to_string(), &columns);
}

/// The times of the library and of Dijkstra.
fn filling_times(text: &[u8], budget: Budget, room: &mut Room) -> [f64; 2] {
    let mut library = || {
        accepted::least_cost(text, &mut room.list, &mut room.table);
    };
    let mut plain = || {
        dijkstra::least_cost::<false>(text, &mut room.other);
    };
    timing::measure(budget, [&mut library, &mut plain])
}

/// The cost table filled, as the jobs grow.
fn filling(title: &str, first: &str, jobs: Growing, budget: Budget, room: &mut Room) {
    print::title(title, first, &["reached", "library", "factor", "dijkstra", "factor", "ratio"]);
    let mut before = None;
    for (size, text) in jobs {
        let reached = filling::check_tables(first, &text, room);
        let times = filling_times(&text, budget, room);
        line(size, reached, times, before);
        before = Some(times);
    }
}

/// Moves checked, as the plan grows.
fn checking(budget: Budget, list: &mut [u16]) {
    let headings = ["steps", "library", "factor", "sets", "factor", "ratio"];
    print::title("5. growth: checking, by moves of the plan", "moves", &headings);
    let job = wide();
    let text = job_text(&job);
    let [_, steps, ..] = accepted::compile(&text, list);
    let mut before = None;
    for moves in [500, 1000, 2000, 4000] {
        let times = texts::check_times("wide", &text, &inputs::plan_in_turn(&job, moves), budget, list);
        line(moves, steps as usize, times, before);
        before = Some(times);
    }
}

/// Prints the section.
pub fn section(budget: Budget, room: &mut Room) {
    filling("5. growth: filling, by facts", "facts", inputs::by_facts(), budget, room);
    filling("5. growth: filling, by positions", "positions", inputs::by_positions(), budget, room);
    filling("5. growth: filling, by steps", "steps", inputs::by_steps(), budget, room);
    checking(budget, &mut room.list);
}
