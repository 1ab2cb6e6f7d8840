//! Section 4: the cost table filled.

use crate::inputs::{self, Named};
use crate::print::{self, micros, ratio};
use crate::timing::{self, Budget};
use crate::{accepted, dijkstra, sweep, Settings};
use jesmovit_compare::answer::COSTS;
use jesmovit_compare::second::costs::UNREACHED;
use std::time::Duration;

/// Numbers of the largest cost table.
const CELLS: usize = 1 << 20;

/// Room for a list, for the library's table and for those of two others.
pub struct Room {
    pub list: Vec<u16>,
    pub table: Vec<u64>,
    pub other: Vec<u64>,
    third: Vec<u64>,
}

impl Room {
    pub fn new() -> Room {
        let table = || vec![0; CELLS];
        Room { list: vec![0; 4096], table: table(), other: table(), third: table() }
    }
}

/// The sizes of a job.
struct Sizes {
    states: u64,
    positions: u64,
    steps: u64,
}

impl Sizes {
    fn of(text: &[u8], room: &mut Room) -> Sizes {
        let facts = accepted::read_job(text)[0];
        let [positions, steps, ..] = accepted::compile(text, &mut room.list);
        Sizes { states: 1 << facts, positions, steps }
    }

    fn cells(&self) -> usize {
        (self.states * self.positions) as usize
    }
}

/// The least cost that the library finds; UNREACHED for none.
fn library_least(text: &[u8], room: &mut Room) -> u64 {
    match accepted::least_cost(text, &mut room.list, &mut room.table) {
        [COSTS, least, ..] => least,
        _ => UNREACHED,
    }
}

/// Ends the program unless the least costs and the fronts of the tables are equal.
fn demand_equal(name: &str, least: [u64; 2], table: &[u64], other: &[u64]) {
    let [a, b] = least;
    assert!(a == b, "job {name}: the library's least cost is {a}, the other's {b}");
    for (i, (a, b)) in table.iter().zip(other).enumerate() {
        assert!(a == b, "job {name}: cell {i} of the library's table is {a}, of the other {b}");
    }
}

/// Compares the library's table with those of both Dijkstras; answers how many cells are reached.
pub fn check_tables(name: &str, text: &[u8], room: &mut Room) -> usize {
    let cells = Sizes::of(text, room).cells();
    let least = library_least(text, room);
    let plain = dijkstra::least_cost::<false>(text, &mut room.other);
    demand_equal(name, [least, plain], &room.table[..cells], &room.other[..cells]);
    let stacked = dijkstra::least_cost::<true>(text, &mut room.third);
    demand_equal(name, [least, stacked], &room.table[..cells], &room.third[..cells]);
    room.table[..cells].iter().filter(|&&cost| cost < UNREACHED).count()
}

/// The times of the library, of Dijkstra, and of Dijkstra with a stack.
fn times(text: &[u8], budget: Budget, room: &mut Room) -> [f64; 3] {
    let Room { list, table, other, third } = room;
    let mut library = || {
        accepted::least_cost(text, list, table);
    };
    let mut plain = || {
        dijkstra::least_cost::<false>(text, other);
    };
    let mut stacked = || {
        dijkstra::least_cost::<true>(text, third);
    };
    timing::measure(budget, [&mut library, &mut plain, &mut stacked])
}

/// The time of the sweep, where it ends soon enough; its table is compared then.
fn sweep_time(job: &Named, cells: usize, most: Duration, room: &mut Room) -> Option<f64> {
    let mut found = None;
    let other = &mut room.other;
    let time = timing::once(&mut || found = sweep::least_cost(&job.text, other, most));
    let least = library_least(&job.text, room);
    demand_equal(job.name, [least, found?], &room.table[..cells], &room.other[..cells]);
    Some(time)
}

/// Prints one line; answers the ratio to Dijkstra and that to Dijkstra with a stack.
fn row(job: &Named, settings: &Settings, room: &mut Room) -> [f64; 2] {
    let sizes = Sizes::of(&job.text, room);
    let reached = check_tables(job.name, &job.text, room) as u64;
    let [library, plain, stacked] = times(&job.text, settings.filling, room);
    let ratios = [library / plain, library / stacked];
    let mut columns = [sizes.states, sizes.positions, sizes.steps, reached].map(|n| n.to_string()).to_vec();
    columns.push(micros(library));
    columns.extend([micros(plain), ratio(ratios[0]), micros(stacked), ratio(ratios[1])]);
    match sweep_time(job, sizes.cells(), settings.sweep, room) {
        Some(time) => columns.extend([micros(time), ratio(library / time)]),
        None => columns.push(format!("> {} s", settings.sweep.as_secs_f64())),
    }
    print::line(job.name, &columns);
    ratios
}

/// A ratio and its job.
pub type Largest = (f64, &'static str);

/// Prints the section, or the one job's line; answers the largest ratio to Dijkstra, and to Dijkstra with a stack.
pub fn section(settings: &Settings, only: Option<&String>, room: &mut Room) -> [Largest; 2] {
    let title = "4. filling the cost table, from the text\n   \
        (stack: Dijkstra with free steps on a stack; sweep: all steps until nothing changes)";
    let sizes = ["states", "pos.", "steps", "reached"];
    let times = ["library", "dijkstra", "ratio", "stack", "ratio", "sweep", "ratio"];
    print::title(title, "job", &[&sizes[..], &times[..]].concat());
    let mut largest = [(0.0, ""); 2];
    for job in inputs::named().into_iter().filter(|job| only.is_none_or(|name| name == job.name)) {
        let ratios = row(&job, settings, room);
        for (most, ratio) in largest.iter_mut().zip(ratios) {
            if ratio > most.0 {
                *most = (ratio, job.name);
            }
        }
    }
    assert!(!largest[0].1.is_empty(), "section 4 has no job of that name");
    largest
}
