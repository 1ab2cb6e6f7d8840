//! What is known of the texts that are handed in, before an operation is asked.

use super::compiler::{compile_with, Compiled};
use super::costs::cost_table;
use super::domain::{state_count, Domain};
use super::expected::Texts;
use super::fault::Fault;
use super::job::{ClassCosts, Job, Refusal, HOUSE_COSTS, MOST_FACTS};
use super::reader::{read_costs, read_plan};
use super::runs::Runs;
use super::sheet::sheet;
use super::steps::Steps;
use super::verdict::Verdict;

/// A job that compiles: the list of its steps, and how many numbers its cost table has.
pub struct Built {
    pub compiled: Compiled,
    pub list: Vec<u16>,
    pub cells: usize,
}

/// All that is known of a job that compiles with its class costs, and the verdicts of the two plan texts; the sheet of
/// the moves, which is empty where they are no plan.
pub struct Known {
    pub table: Vec<u64>,
    pub least: Option<u64>,
    pub moves: Result<Verdict, Refusal>,
    pub steps: Result<Verdict, Refusal>,
    pub sheet: Vec<u8>,
}

impl Built {
    pub fn of(job: &Job, fault: Fault) -> Result<Built, Refusal> {
        let compiled = compile_with(job, fault)?;
        let states = match fault {
            Fault::LastDoubling => state_count(job).min(1 << (MOST_FACTS - 1)),
            _ => state_count(job),
        };
        Ok(Built { list: compiled.steps.concat(), cells: states * compiled.positions, compiled })
    }

    /// Positions and steps.
    pub fn sizes(&self) -> [u64; 2] {
        [self.compiled.positions, self.compiled.steps.len()].map(|number| number as u64)
    }

    pub fn fill_list(&self, list: &mut [u16]) {
        list[..self.list.len()].copy_from_slice(&self.list);
    }
}

impl Known {
    pub fn of(job: &Job, built: &Built, costs: ClassCosts, texts: &Texts, fault: Fault) -> Known {
        let compiled = &built.compiled;
        let domain = Domain::new(job, costs, fault);
        let mut runs = Runs::new(&domain, fault);
        let list = read_plan(texts.moves, b'm', job.moves.len());
        let moves = same(&list).map(|list| runs.verdict(list));
        let sheet = match (&list, moves) {
            (Ok(list), Ok(Verdict::Plan(_))) => sheet(&domain, list, fault),
            _ => Vec::new(),
        };
        let path = Steps::new(&domain, compiled);
        let steps = read_plan(texts.steps, b't', compiled.steps.len()).map(|steps| path.verdict(&steps, fault));
        Known { table: cost_table(&path, fault), least: runs.least(), moves, steps, sheet }
    }

    pub fn fill_table(&self, table: &mut [u64], fault: Fault) {
        for (entry, cost) in table.iter_mut().zip(&self.table) {
            *entry = match fault {
                Fault::LowHalves => *entry >> 32 << 32 | cost & u64::from(u32::MAX),
                _ => *cost,
            };
        }
    }
}

/// What is there, or the same refusal.
pub fn same<T>(result: &Result<T, Refusal>) -> Result<&T, Refusal> {
    result.as_ref().map_err(|refusal| *refusal)
}

/// The class costs of a costs text, or the house's where none is handed in; refusal 7.
pub fn class_costs(text: Option<&[u8]>, fault: Fault) -> Result<ClassCosts, Refusal> {
    match text {
        None => Ok(HOUSE_COSTS),
        Some([]) if fault == Fault::EmptyCosts => Ok(HOUSE_COSTS),
        Some(text) => {
            let costs = read_costs(text)?;
            match costs.iter().position(|cost| *cost > 3600) {
                Some(class) if fault == Fault::OldCosts => Err(Refusal { number: 7, place: class + 2 }),
                _ => Ok(costs),
            }
        }
    }
}
