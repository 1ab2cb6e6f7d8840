//! Picks in random programs, and the moves and tests of their objects.

use super::programs::Sketch;
use crate::generator::program::{either, make_of, nil, pick, star, test_of, then, Row};
use crate::second::job::MOST_ROWS;

impl Sketch<'_> {
    /// Picks inside each other, around moves and tests of their objects; a few times the outermost is left out. The
    /// body of one may also be used outside it, and then every other time picks for all variables follow.
    pub fn picks(&mut self) {
        let depth = self.depth();
        let row = self.variable(depth);
        let mut body = self.program.add(row);
        let outermost = if self.random.chance(100) { 2 } else { 1 };
        let used_outside = self.random.chance(200).then(|| self.random.between(1, depth.into()) as u16);
        for picks in (outermost..=depth).rev() {
            while self.has_room(picks) && self.random.chance(400) {
                body = self.beside(body, picks);
            }
            let outside_too = used_outside == Some(picks) && self.has_room(picks);
            body = if outside_too { self.in_and_out(body) } else { self.program.add(pick(body)) };
        }
        if used_outside.is_some() && self.random.chance(500) {
            self.close();
        }
    }

    /// Whether there is room for two rows beside so many picks.
    fn has_room(&self, picks: u16) -> bool {
        self.program.rows.len() + usize::from(picks) + 2 <= MOST_ROWS.into()
    }

    /// How many picks stand inside each other: a few, as many as fit around one step, or one more.
    fn depth(&mut self) -> u16 {
        let most = MOST_ROWS - 1;
        let deepest = (1..=most).take_while(|picks| self.program.fits_inside(nil(), *picks)).count();
        let few = self.random.between(1, deepest.min(4));
        let any = self.random.between(1, deepest);
        most.min(self.random.weighted(&[(14, few), (3, any), (2, deepest), (1, deepest + 1)]) as u16)
    }

    /// A body inside so many picks with a variable beside it, or a star around it, where that fits.
    fn beside(&mut self, body: u16, picks: u16) -> u16 {
        let row = self.variable(picks);
        let other = self.program.add(row);
        let row = self.random.pick(&[then(body, other), then(other, body), either(other, body), star(body)]);
        if self.program.fits_inside(row, picks) {
            return self.program.add(row);
        }
        body
    }

    /// A pick of a body, and a star of it outside the pick; each may be read before the other.
    fn in_and_out(&mut self, body: u16) -> u16 {
        let rows = self.random.pick(&[[star(body), pick(body)], [pick(body), star(body)]]);
        let [first, second] = rows.map(|row| self.program.add(row));
        let row = self.random.pick(&[then(first, second), then(second, first), either(first, second)]);
        self.program.add(row)
    }

    /// A move or a test of the object of one of so many enclosing picks, mostly of the nearest or of the outermost; a
    /// row without a variable where there are more objects than moves and formulas.
    pub fn variable(&mut self, picks: u16) -> Row {
        let any = self.random.below_u16(picks);
        let pick = self.random.weighted(&[(5, 0), (3, picks - 1), (2, any)]);
        let bases = [self.job.moves.len(), self.job.formulas.len()].map(|count| self.base(count));
        match bases {
            [Some(base), None] => make_of(base, pick),
            [Some(base), Some(_)] if self.random.chance(800) => make_of(base, pick),
            [_, Some(base)] => test_of(base, pick),
            [None, None] => self.plain_leaf(),
        }
    }

    /// A number that becomes one of so many moves or formulas by every object that is added; often the last such one.
    fn base(&mut self, count: usize) -> Option<u16> {
        let last = count.checked_sub(self.job.objects.into())?;
        let any = self.random.between(0, last);
        Some(self.random.pick(&[any, any, last]) as u16)
    }

    /// Puts picks around the program until each variable has its own; a few times one too few.
    pub fn close(&mut self) {
        let missing = u16::from(self.random.chance(100));
        while self.program.wanted(self.program.last()) > missing && self.program.rows.len() < MOST_ROWS.into() {
            self.program.add(pick(self.program.last()));
        }
    }
}
