//! The shift sheet of document 02: a plan laid out for the operator, page by page.

use super::domain::Domain;
use super::fault::Fault;

/// The lines of a page.
pub const PAGE_LINES: usize = 60;

/// The bytes of a line without its line feed.
const WIDTH: usize = 30;

/// The sheet of a plan: a line for each move, and lines of spaces up to the end of the last page.
pub fn sheet(domain: &Domain, moves: &[u16], fault: Fault) -> Vec<u8> {
    let mut lines = Vec::new();
    let mut state = domain.job.init;
    let mut total = 0;
    for (made, index) in moves.iter().enumerate() {
        let cost = domain.cost(*index, state);
        state = domain.successor(*index, state).expect("each move of a plan can be made");
        let before = total;
        total += cost;
        let shown = if fault == Fault::LateTotals { before } else { total };
        lines.push(format!("{:>5}  {index:>3}  {cost:>7}  {shown:>9}\n", made + 1));
    }
    while lines.len() % PAGE_LINES != 0 && fault != Fault::OpenPage {
        lines.push(format!("{:WIDTH$}\n", ""));
    }
    lines.concat().into_bytes()
}
