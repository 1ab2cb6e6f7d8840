//! Which rows the program reaches, inside how many picks, and whether one of its variables has too few of them.

use super::fault::Fault;
use super::job::{part_fields, Job};

/// The picks around each row, reading down from the program; none for a row that it doesn't reach. Picks over no object
/// are read into too. For a row that is used several times, `of_two` says what counts of a use read first and another.
fn picks_around(job: &Job, of_two: fn(u16, u16) -> u16) -> Vec<Option<u16>> {
    let mut picks = vec![None; job.rows.len()];
    picks[job.rows.len() - 1] = Some(0);
    // A row's parts are earlier rows, so those that use a row are all read before it.
    for (index, row) in job.rows.iter().enumerate().rev() {
        let Some(around) = picks[index] else {
            continue;
        };
        let inside = around + u16::from(row[0] == 9);
        for field in part_fields(row[0]) {
            let part = &mut picks[usize::from(row[*field])];
            *part = Some(part.map_or(inside, |first| of_two(first, inside)));
        }
    }
    picks
}

/// The fewest picks around each row.
pub fn fewest_picks(job: &Job) -> Vec<Option<u16>> {
    picks_around(job, u16::min)
}

/// The most picks around each row.
pub fn most_picks(job: &Job) -> Vec<Option<u16>> {
    picks_around(job, u16::max)
}

/// Whether a row that the program reaches has a variable with too few enclosing picks.
pub fn has_free_variable(job: &Job, fault: Fault) -> bool {
    let picks = if fault == Fault::FirstUse { picks_around(job, |first, _| first) } else { fewest_picks(job) };
    let is_free =
        |(row, around): (&[u16; 4], Option<u16>)| is_variable(row) && around.is_some_and(|around| row[2] >= around);
    job.rows.iter().zip(picks).any(is_free)
}

/// Whether a row is a move or a test of an object.
pub fn is_variable(row: &[u16; 4]) -> bool {
    matches!(row[0], 10 | 11)
}
