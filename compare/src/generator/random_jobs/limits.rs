//! Programs with exactly as many positions or steps as are allowed, and one more or less.

use super::programs::Sketch;
use crate::generator::program::{any, nil, test, then, Row};
use crate::second::compiler::{MOST_POSITIONS, MOST_STEPS};
use crate::second::job::MOST_ROWS;

/// Rows that copies of one row take at most: two for each binary digit of their count, and two more.
const COPY_ROWS: usize = 2 * 11 + 2;

impl Sketch<'_> {
    /// A random program followed by as many single rows as the positions still want.
    pub fn at_position_limit(&mut self) {
        self.mixed(12);
        let positions = self.random.pick(&[MOST_POSITIONS - 1, MOST_POSITIONS, MOST_POSITIONS, MOST_POSITIONS + 1]);
        let wanted = (positions - 1).saturating_sub(self.size().length);
        let quiet = self.random.pick(&[nil(), nil(), test(0)]);
        let row = if self.random.chance(300) { self.plain_leaf() } else { quiet };
        self.pad(row, wanted as usize);
    }

    /// A random program followed by as many any rows and single rows as the steps still want.
    pub fn at_step_limit(&mut self) {
        self.mixed(12);
        let steps = self.random.pick(&[MOST_STEPS - 1, MOST_STEPS, MOST_STEPS, MOST_STEPS + 1]);
        let wanted = steps.saturating_sub(self.size().steps) as usize;
        let moves = self.job.moves.len().max(1);
        self.pad(any(), wanted / moves);
        self.pad(nil(), wanted % moves);
    }

    /// Puts copies of a row behind the last row, where there is room for them.
    fn pad(&mut self, row: Row, count: usize) {
        if count == 0 || self.program.rows.len() + COPY_ROWS > usize::from(MOST_ROWS) {
            return;
        }
        let before = self.program.last();
        let copy = self.program.add(row);
        let copies = self.program.sequence(copy, count);
        self.program.add(then(before, copies));
    }
}
