//! What is looked at in a case, beside its bytes, to say which limits it meets.

use std::cell::OnceCell;

use super::fields::{move_of, number_of, variable_of};
use super::made::{made, standing, Made, Standing};
use super::Case;
use crate::second::compiler::{program_size, Size};
use crate::second::domain::Domain;
use crate::second::fault::Fault;
use crate::second::job::*;
use crate::second::reader::{read_costs, read_job, read_plan};
use crate::second::runs::Runs;
use crate::second::scope::{fewest_picks, has_free_variable, is_variable, most_picks};
use crate::second::verdict::Verdict;

/// A plan text as it is read.
pub type Plan = Result<Vec<u16>, Refusal>;

/// A job, the size of its program, and the fewest picks around each row; and whether one of its variables is free.
struct Measured {
    job: Job,
    size: Size,
    picks: Vec<Option<u16>>,
    free: bool,
}

/// A case, with its job where it is read, and otherwise the line that is refused by reason 1, by 2, or by 3; and with
/// its costs text as it is read, where one is handed in. What its moves are as a plan is worked out when it is asked
/// for.
pub struct Look<'a> {
    pub case: &'a Case,
    job: Option<Measured>,
    formless_line: Option<&'a [u8]>,
    pub refused_line: Option<&'a [u8]>,
    wrong_line: Option<&'a [u8]>,
    pub costs: Option<Result<ClassCosts, Refusal>>,
    made: OnceCell<Option<Vec<Made>>>,
    standing: OnceCell<Option<Standing>>,
}

/// For cost tables of no more numbers it is found out how a plan stands.
const SMALL: u64 = 1000;

/// A line of a text by its number, without its line feed; none past the last.
fn line_of(text: &[u8], place: usize) -> Option<&[u8]> {
    let line = text.split_inclusive(|byte| *byte == b'\n').nth(place - 1)?;
    Some(line.strip_suffix(b"\n").unwrap_or(line))
}

/// Whether a plan that is read has as many entries as are allowed.
pub fn is_longest(plan: Option<Plan>) -> bool {
    matches!(plan, Some(Ok(entries)) if entries.len() == usize::from(MOST_ENTRIES))
}

/// The verdict on a list of moves, with a fault in the domain or none; costs don't matter.
fn verdict(job: &Job, moves: &[u16], fault: Fault) -> Verdict {
    let domain = Domain::new(job, HOUSE_COSTS, fault);
    Runs::new(&domain, Fault::None).verdict(moves)
}

fn is_plan(job: &Job, moves: &[u16]) -> bool {
    matches!(verdict(job, moves, Fault::None), Verdict::Plan(_))
}

/// Whether a list of moves is a plan, and no picks of object 0 alone make it one.
fn is_plan_by_later_object(job: &Job, moves: &[u16]) -> bool {
    is_plan(job, moves) && !is_plan(&Job { objects: 1, ..job.clone() }, moves)
}

/// Whether a list of moves is blocked, and there it would not be if a conflict were ignored.
fn is_blocked_by_conflict(job: &Job, moves: &[u16]) -> bool {
    let said = verdict(job, moves, Fault::None);
    matches!(said, Verdict::Blocked(_)) && said != verdict(job, moves, Fault::ConflictIgnored)
}

/// Whether a line is of the form of a cost.
pub fn is_cost(line: &[u8]) -> bool {
    line.strip_prefix(b"c=").is_some_and(|value| !value.is_empty() && value.iter().all(u8::is_ascii_digit))
}

impl Measured {
    fn of(job: Job) -> Measured {
        let free = has_free_variable(&job, Fault::None);
        Measured { size: program_size(&job), picks: fewest_picks(&job), free, job }
    }

    fn compiles(&self) -> bool {
        !self.free && self.size.fits()
    }

    /// Each row, with the fewest picks around it where the program reaches it.
    fn rows(&self) -> impl Iterator<Item = (&[u16; 4], Option<u16>)> {
        self.job.rows.iter().zip(self.picks.iter().copied())
    }
}

impl<'a> Look<'a> {
    pub fn at(case: &'a Case) -> Look<'a> {
        let read = read_job(&case.job);
        let refused_by = |reason| match read {
            Err(Refusal { number, place }) if number == reason => line_of(&case.job, place),
            _ => None,
        };
        let [formless_line, refused_line, wrong_line] = [1, 2, 3].map(refused_by);
        Look {
            case,
            formless_line,
            refused_line,
            wrong_line,
            job: read.ok().map(Measured::of),
            costs: case.texts().costs.map(read_costs),
            made: OnceCell::new(),
            standing: OnceCell::new(),
        }
    }
}

impl Look<'_> {
    pub fn job(&self, holds: impl Fn(&Job) -> bool) -> bool {
        self.job.as_ref().is_some_and(|own| holds(&own.job))
    }

    /// Whether no variable is free, and something holds of the program's size and the number of facts.
    pub fn size(&self, holds: impl Fn(Size, u16) -> bool) -> bool {
        self.job.as_ref().is_some_and(|own| !own.free && holds(own.size, own.job.facts))
    }

    /// Whether a variable is free, and something holds of the program's size.
    pub fn free(&self, holds: impl Fn(Size) -> bool) -> bool {
        self.job.as_ref().is_some_and(|own| own.free && holds(own.size))
    }

    /// Whether a variable is free that stands inside a pick over no object.
    pub fn free_in_empty_pick(&self) -> bool {
        let is_free = |(row, picks): (&[u16; 4], Option<u16>)| {
            is_variable(row) && picks.is_some_and(|picks| picks > 0 && row[2] >= picks)
        };
        self.job.as_ref().is_some_and(|own| own.job.objects == 0 && own.rows().any(is_free))
    }

    pub fn compiles(&self) -> bool {
        self.job.as_ref().is_some_and(Measured::compiles)
    }

    /// Whether the job compiles, and something holds of it and of a row that its program reaches, inside so many picks.
    pub fn reaches(&self, holds: impl Fn(&Job, &[u16; 4], u16) -> bool) -> bool {
        let meets =
            |own: &Measured| own.rows().any(|(row, picks)| picks.is_some_and(|picks| holds(&own.job, row, picks)));
        self.compiles() && self.job.as_ref().is_some_and(meets)
    }

    /// Whether the job is read, and something holds of a row that its program reaches, and of the fewest and the most
    /// picks around the row.
    pub fn uses(&self, holds: impl Fn(&[u16; 4], u16, u16) -> bool) -> bool {
        let Some(own) = &self.job else {
            return false;
        };
        let meets =
            |(row, picks): (&[u16; 4], Option<(u16, u16)>)| picks.is_some_and(|(low, high)| holds(row, low, high));
        own.rows().zip(most_picks(&own.job)).map(|((row, low), high)| (row, low.zip(high))).any(meets)
    }

    /// Whether the job compiles, and something holds of a row that its program doesn't reach.
    pub fn leaves(&self, holds: impl Fn(&[u16; 4]) -> bool) -> bool {
        let meets = |own: &Measured| own.rows().any(|(row, picks)| picks.is_none() && holds(row));
        self.compiles() && self.job.as_ref().is_some_and(meets)
    }

    /// Whether the program reaches a variable of this kind whose base is the greatest for the job's objects.
    pub fn greatest_base(&self, kind: u16) -> bool {
        self.reaches(|job, row, _| {
            let count = if kind == 10 { job.moves.len() } else { job.formulas.len() };
            row[0] == kind && job.objects > 0 && usize::from(row[1] + job.objects) == count
        })
    }

    /// Whether the job is refused for a variable of this kind whose base is one more than that.
    pub fn base_too_great(&self, kind: usize) -> bool {
        let Some([own_kind, base, ..]) = self.wrong_line.and_then(variable_of) else {
            return false;
        };
        let lines = self.job_lines();
        let count = number_of(&lines, if kind == 10 { "moves" } else { "formulas" });
        own_kind == kind && base + number_of(&lines, "objects") == count + 1
    }

    /// Whether a costs text is handed in and read, for a job that compiles, and something holds of the costs.
    pub fn costs(&self, holds: impl Fn(&ClassCosts) -> bool) -> bool {
        self.compiles() && matches!(&self.costs, Some(Ok(costs)) if holds(costs))
    }

    pub fn costs_are_bad(&self) -> bool {
        matches!(self.costs, Some(Err(_)))
    }

    /// Whether the job is read, and the text of moves is bad for it.
    pub fn moves_are_bad(&self) -> bool {
        self.job(|job| read_plan(&self.case.moves, b'm', job.moves.len()).is_err())
    }

    /// Whether the costs text decides, and something holds of the place and the line there.
    pub fn bad_costs(&self, holds: impl Fn(usize, Option<&[u8]>) -> bool) -> bool {
        let Some(Err(Refusal { place, .. })) = self.costs else {
            return false;
        };
        self.compiles() && holds(place, line_of(&self.case.costs, place))
    }

    /// The text of moves as it is read, where the job compiles.
    pub fn moves(&self) -> Option<Plan> {
        self.entries(&self.case.moves, b'm', |own| own.job.moves.len())
    }

    /// The text of steps as it is read, where the job compiles.
    pub fn steps(&self) -> Option<Plan> {
        self.entries(&self.case.steps, b't', |own| own.size.steps as usize)
    }

    /// Whether the moves get the verdict of a check, and something holds of the job and of them.
    fn checked(&self, holds: impl Fn(&Job, &[u16]) -> bool) -> bool {
        let Some(Ok(moves)) = self.moves() else {
            return false;
        };
        !self.costs_are_bad() && self.job(|job| holds(job, &moves))
    }

    pub fn blocked_by_conflict(&self) -> bool {
        self.checked(is_blocked_by_conflict)
    }

    pub fn plan_by_later_object(&self) -> bool {
        self.checked(|job, moves| job.objects > 1 && is_plan_by_later_object(job, moves))
    }

    /// Whether the moves are a plan, and so get a sheet where there is room for it, and something holds of the plan.
    pub fn plan(&self, holds: impl Fn(&[Made]) -> bool) -> bool {
        self.made().is_some_and(holds)
    }

    /// The moves, where they are a plan.
    fn made(&self) -> Option<&[Made]> {
        let find = || made(&self.domain()?, &self.moves()?.ok()?);
        self.made.get_or_init(find).as_deref()
    }

    /// Whether the moves are a plan, and something holds of a move of the job that it makes.
    pub fn plan_with(&self, holds: impl Fn(&Move) -> bool) -> bool {
        let one = |job: &Job, plan: &[Made]| plan.iter().any(|made| holds(&job.moves[usize::from(made.index)]));
        self.plan(|plan| self.job(|job| one(job, plan)))
    }

    /// Whether the moves are a plan, the cost table is small, and something holds of how the plan stands.
    pub fn stands(&self, holds: impl Fn(&Standing) -> bool) -> bool {
        let small = self.size(|size, facts| (size.length + 1) << facts <= SMALL);
        let find = || standing(&self.domain()?, self.made()?);
        small && self.standing.get_or_init(find).as_ref().is_some_and(holds)
    }

    /// The states of the job, with the costs that are loaded; none where they are bad.
    fn domain(&self) -> Option<Domain<'_>> {
        let costs = match self.costs {
            None => HOUSE_COSTS,
            Some(costs) => costs.ok()?,
        };
        self.job.as_ref().map(|own| Domain::new(&own.job, costs, Fault::None))
    }

    /// Whether the job is refused by 1 for a move that has so many numbers.
    pub fn move_of_numbers(&self, count: usize) -> bool {
        self.formless_line.and_then(move_of).is_some_and(|numbers| numbers.len() == count)
    }

    /// Whether the job is refused by 2 for a move, and something holds of its numbers and of how many formulas there are.
    pub fn move_out_of_range(&self, holds: impl Fn([usize; 5], usize) -> bool) -> bool {
        self.refused_line.and_then(move_of).is_some_and(|numbers| self.of_move(numbers, holds))
    }

    /// The same of a move that is refused by 3.
    pub fn wrong_move(&self, holds: impl Fn([usize; 5], usize) -> bool) -> bool {
        self.wrong_line.and_then(move_of).is_some_and(|numbers| self.of_move(numbers, holds))
    }

    fn of_move(&self, numbers: Vec<usize>, holds: impl Fn([usize; 5], usize) -> bool) -> bool {
        let formulas = number_of(&self.job_lines(), "formulas");
        numbers.try_into().is_ok_and(|numbers| holds(numbers, formulas))
    }

    /// The lines of the job text, each with its line feed.
    fn job_lines(&self) -> Vec<&[u8]> {
        self.case.job.split_inclusive(|byte| *byte == b'\n').collect()
    }

    fn entries(&self, text: &[u8], key: u8, bound: impl Fn(&Measured) -> usize) -> Option<Plan> {
        let own = self.job.as_ref().filter(|own| own.compiles())?;
        Some(read_plan(text, key, bound(own)))
    }
}
