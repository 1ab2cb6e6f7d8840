//! The seven operations as they should answer, with what list, table and output should hold afterwards.

use super::fault::Fault;
use super::job::{Job, Refusal};
use super::known::{class_costs, same, Built, Known};
use super::reader::read_job;
use super::verdict::Verdict;
use crate::answer::*;
use crate::lent::Lengths;

impl From<Refusal> for Answer {
    fn from(refusal: Refusal) -> Answer {
        Answer::refused(refusal.number, refusal.place as u64)
    }
}

/// A job text, a text of moves, a text of steps, and the costs text where one is handed in.
#[derive(Clone, Copy)]
pub struct Texts<'a> {
    pub job: &'a [u8],
    pub moves: &'a [u8],
    pub steps: &'a [u8],
    pub costs: Option<&'a [u8]>,
}

/// What the operations should answer to some texts: `job` is refused by 1 to 3, `built` by 8 and 4 too, `known`
/// also by 7.
pub struct Expected {
    job: Result<Job, Refusal>,
    built: Result<Built, Refusal>,
    known: Result<Known, Refusal>,
    fault: Fault,
}

impl Expected {
    pub fn of(texts: &Texts, fault: Fault) -> Expected {
        let job = read_job(texts.job);
        let built = same(&job).and_then(|job| Built::of(job, fault));
        let costs = class_costs(texts.costs, fault);
        let first = if fault == Fault::CostsFirst { costs } else { same(&built).and(costs) };
        let known = first.and_then(|costs| Ok(Known::of(same(&job)?, same(&built)?, costs, texts, fault)));
        Expected { job, built, known, fault }
    }

    /// The lengths that list, table and output need, where the job compiles; an output is needed for a plan alone.
    pub fn lengths(&self) -> Option<Lengths> {
        let built = self.built.as_ref().ok()?;
        let out = self.known.as_ref().map_or(0, |known| known.sheet.len());
        Some(Lengths { list: built.list.len(), table: built.cells, out })
    }

    /// Reads the job text: facts, formulas, moves, effects, program rows.
    pub fn read_job(&self) -> Answer {
        let count =
            |job: &Job| [usize::from(job.facts), job.formulas.len(), job.moves.len(), job.effects(), job.rows.len()];
        finish(same(&self.job).map(|job| count(job).map(|number| number as u64)))
    }

    /// Compiles the program: positions and steps.
    pub fn compile(&self, list: &mut [u16]) -> Answer {
        finish(self.compiled(list))
    }

    /// Checks the list of moves.
    pub fn check_moves(&self, list: &mut [u16]) -> Answer {
        finish(self.checked(|known| known.moves, list))
    }

    /// Checks the list of steps.
    pub fn check_steps(&self, list: &mut [u16]) -> Answer {
        finish(self.checked(|known| known.steps, list))
    }

    /// Finds the least cost.
    pub fn least_cost(&self, list: &mut [u16], table: &mut [u64]) -> Answer {
        finish(self.searched(list, table))
    }

    /// Judges the list of moves.
    pub fn judge(&self, list: &mut [u16], table: &mut [u64]) -> Answer {
        finish(self.judged(list, table))
    }

    /// Lays out the list of moves.
    pub fn sheet(&self, list: &mut [u16], out: &mut [u8]) -> Answer {
        finish(self.laid(list, out))
    }

    fn compiled(&self, list: &mut [u16]) -> Result<[u64; 5], Refusal> {
        let built = same(&self.built)?;
        room(list.len(), built.list.len())?;
        built.fill_list(list);
        let [positions, steps] = built.sizes();
        Ok([positions, steps, 0, 0, 0])
    }

    fn checked(
        &self,
        sort: impl Fn(&Known) -> Result<Verdict, Refusal>,
        list: &mut [u16],
    ) -> Result<[u64; 5], Refusal> {
        let (known, built) = self.known()?;
        let verdict = sort(known)?;
        room(list.len(), built.list.len())?;
        built.fill_list(list);
        let [number, value] = numbers(verdict);
        Ok([number, value, 0, 0, 0])
    }

    fn searched(&self, list: &mut [u16], table: &mut [u64]) -> Result<[u64; 5], Refusal> {
        let (known, built) = self.known()?;
        self.both_rooms(built, list.len(), table.len())?;
        built.fill_list(list);
        known.fill_table(table, self.fault);
        Ok(match known.least {
            Some(cost) => [COSTS, cost, 0, 0, 0],
            None => [NONE, 0, 0, 0, 0],
        })
    }

    fn judged(&self, list: &mut [u16], table: &mut [u64]) -> Result<[u64; 5], Refusal> {
        let (known, built) = self.known()?;
        let verdict = known.moves?;
        self.both_rooms(built, list.len(), table.len())?;
        built.fill_list(list);
        let [number, value] = numbers(verdict);
        let [number, value, least] = match (verdict, known.least) {
            (Verdict::Plan(cost), Some(least)) => {
                known.fill_table(table, self.fault);
                [if cost == least { LEAST } else { DEARER }, cost, least]
            }
            _ => [number, value, 0],
        };
        let [positions, steps] = built.sizes();
        Ok([positions, steps, number, value, least])
    }

    /// The check's refusals and verdict; a sheet that finds no room leaves the list as it was.
    fn laid(&self, list: &mut [u16], out: &mut [u8]) -> Result<[u64; 5], Refusal> {
        let mut filled = list.to_vec();
        let said = self.checked(|known| known.moves, &mut filled)?;
        if self.fault == Fault::EarlyList {
            list.copy_from_slice(&filled);
        }
        let sheet = &self.known()?.0.sheet;
        room(out.len(), sheet.len())?;
        list.copy_from_slice(&filled);
        out[..sheet.len()].copy_from_slice(sheet);
        Ok(if said[0] == PLAN { [LAID, sheet.len() as u64, 0, 0, 0] } else { said })
    }

    fn known(&self) -> Result<(&Known, &Built), Refusal> {
        Ok((same(&self.known)?, same(&self.built)?))
    }

    fn both_rooms(&self, built: &Built, list: usize, table: usize) -> Result<(), Refusal> {
        if self.fault == Fault::TableFirst {
            room(table, built.cells)?;
        }
        room(list, built.list.len())?;
        room(table, built.cells)
    }
}

/// Refusal 6.
fn room(length: usize, needed: usize) -> Result<(), Refusal> {
    if length < needed {
        return Err(Refusal { number: 6, place: needed });
    }
    Ok(())
}

/// A verdict's number and value.
fn numbers(verdict: Verdict) -> [u64; 2] {
    match verdict {
        Verdict::Plan(cost) => [PLAN, cost],
        Verdict::Blocked(made) => [BLOCKED, made as u64],
        Verdict::Unfinished => [UNFINISHED, 0],
        Verdict::Missed => [MISSED, 0],
    }
}

fn finish(result: Result<[u64; 5], Refusal>) -> Answer {
    match result {
        Ok(values) => Answer::accepted(values),
        Err(refusal) => refusal.into(),
    }
}
