//! Random plans: walks through the configurations, cheapest ones among them, walks that are cut, continued or changed,
//! and lists of random entries.

use std::hash::Hash;

use super::costs::GREATEST_COSTS;
use super::walks::Graph;
use crate::generator::random::Random;
use crate::second::compiler::Compiled;
use crate::second::domain::Domain;
use crate::second::fault::Fault;
use crate::second::job::{ClassCosts, Job, MOST_ENTRIES};
use crate::second::residual::{Residual, NIL};
use crate::second::runs::Runs;
use crate::second::sheet::PAGE_LINES;
use crate::second::steps::{made_by, Steps};

/// A goal for a job, and the entries of a list of moves and of a list of steps.
pub struct Plans {
    pub goal: u16,
    pub moves: Vec<u16>,
    pub steps: Vec<u16>,
}

/// Random plans for a job that compiles, by these costs; mostly for a goal that some complete run reaches. Where every
/// class but the first costs most, more of them are as long as is allowed.
pub fn random_plans(random: &mut Random, job: &Job, compiled: &Compiled, costs: ClassCosts) -> Plans {
    let domain = Domain::new(job, costs, Fault::None);
    let runs = run_graph(&domain);
    let reached = if random.chance(700) { reached_goal(random, &domain, &runs) } else { None };
    let goal = reached.unwrap_or(job.goal);
    let is_goal = |state| domain.holds(goal, state);
    let move_cost = |index, state| domain.cost(index, state);
    let step_cost =
        |number: u16, state| made_by(compiled.steps[usize::from(number)]).map_or(0, |m| move_cost(m, state));
    let at_limit = if costs == GREATEST_COSTS { 80 } else { 10 };
    let aim = Aim { is_goal: &is_goal, cost_of: &move_cost, entries: job.moves.len(), at_limit };
    let moves = random_plan(random, &runs, &aim);
    let aim = Aim { cost_of: &step_cost, entries: compiled.steps.len(), ..aim };
    let steps = random_plan(random, &step_graph(&domain, compiled), &aim);
    Plans { goal, moves, steps }
}

/// What a plan is for: the states in which the goal holds, what an entry costs in the state before it, how many entries
/// there are to choose from, and how likely a plan is that is as long as is allowed.
struct Aim<'a> {
    is_goal: &'a dyn Fn(u16) -> bool,
    cost_of: &'a dyn Fn(u16, u16) -> u64,
    entries: usize,
    at_limit: usize,
}

/// A formula that holds where some run completes the program, and if possible not at first; none where no such run is
/// met.
fn reached_goal(random: &mut Random, domain: &Domain, runs: &Graph<Residual>) -> Option<u16> {
    let ends = runs.end_states();
    if ends.is_empty() {
        return None;
    }
    let state = random.pick(&ends);
    let job = domain.job;
    let mut held: Vec<u16> = (0..job.formulas.len() as u16).filter(|formula| domain.holds(*formula, state)).collect();
    if held.iter().any(|formula| !domain.holds(*formula, job.init)) {
        held.retain(|formula| !domain.holds(*formula, job.init));
    }
    (!held.is_empty()).then(|| random.pick(&held))
}

/// The configurations of the program's runs.
fn run_graph(domain: &Domain) -> Graph<Residual> {
    let mut runs = Runs::new(domain, Fault::None);
    let start = runs.start();
    Graph::of(start, NIL, |from| runs.next(from))
}

/// The configurations of the compiled job.
fn step_graph(domain: &Domain, compiled: &Compiled) -> Graph<u16> {
    let steps = Steps::new(domain, compiled);
    let next = |(state, position)| {
        let made = |(number, step)| Some((Some(number), (steps.after(state, step)?, step[2])));
        steps.from(position).filter_map(made).collect()
    };
    Graph::of((domain.job.init, 0), steps.last(), next)
}

/// How a plan is made.
#[derive(Clone, Copy)]
enum PlanStyle {
    Complete,
    Cheapest,
    Missed,
    Cut,
    Continued,
    Changed,
    Random,
    Empty,
    AtLimit,
    AtPage,
}

/// A random plan.
fn random_plan<P: Copy + Eq + Hash>(random: &mut Random, graph: &Graph<P>, aim: &Aim) -> Vec<u16> {
    let style = random.weighted(&[
        (330, PlanStyle::Complete),
        (120, PlanStyle::Cheapest),
        (100, PlanStyle::Missed),
        (100, PlanStyle::Cut),
        (90, PlanStyle::Continued),
        (90, PlanStyle::Changed),
        (95, PlanStyle::Random),
        (40, PlanStyle::Empty),
        (aim.at_limit, PlanStyle::AtLimit),
        (25, PlanStyle::AtPage),
    ]);
    let wander = random.ranged(&[(300, (0, 2)), (500, (3, 12)), (188, (12, 60)), (10, (60, 600)), (2, (600, 4000))]);
    match style {
        PlanStyle::Complete => graph.walk(random, aim.is_goal, wander),
        PlanStyle::Cheapest => graph.cheapest(random, aim.is_goal, aim.cost_of),
        PlanStyle::Missed => graph.walk(random, |state| !(aim.is_goal)(state), wander),
        PlanStyle::Random => random_list(random, wander, aim.entries),
        PlanStyle::Empty => Vec::new(),
        PlanStyle::AtLimit | PlanStyle::AtPage => {
            let count = limit(random, style) - 1 + random.pick(&[0, 1, 1, 2]);
            of_length(random, graph, aim, count)
        }
        PlanStyle::Cut | PlanStyle::Continued | PlanStyle::Changed => {
            let plan = graph.walk(random, |_| true, wander);
            altered(random, plan, aim.entries, style)
        }
    }
}

/// A walk that is cut short, continued, or has one entry changed.
fn altered(random: &mut Random, mut plan: Vec<u16>, bound: usize, style: PlanStyle) -> Vec<u16> {
    let place = random.below(plan.len() + 1);
    match style {
        PlanStyle::Cut => plan.truncate(place),
        PlanStyle::Changed if place < plan.len() => plan[place] = random_entry(random, bound),
        _ => {
            let count = random.between(1, 3);
            plan.extend(random_list(random, count, bound));
        }
    }
    plan
}

/// As many entries as are allowed, or as some pages of a sheet have.
fn limit(random: &mut Random, style: PlanStyle) -> usize {
    match style {
        PlanStyle::AtPage => PAGE_LINES * random.between(1, 3),
        _ => MOST_ENTRIES.into(),
    }
}

/// A plan of so many entries.
fn of_length<P: Copy + Eq + Hash>(random: &mut Random, graph: &Graph<P>, aim: &Aim, count: usize) -> Vec<u16> {
    let mut plan = if random.chance(700) { graph.walk_of(random, aim.is_goal, count) } else { Vec::new() };
    plan.truncate(count);
    let missing = count - plan.len();
    plan.extend(random_list(random, missing, aim.entries));
    plan
}

fn random_list(random: &mut Random, count: usize, bound: usize) -> Vec<u16> {
    (0..count).map(|_| random_entry(random, bound)).collect()
}

fn random_entry(random: &mut Random, bound: usize) -> u16 {
    random.below(bound.max(1)) as u16
}
