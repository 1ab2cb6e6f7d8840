//! Programs under construction, and their rows by name.

use crate::second::compiler::{size_of, Size};
use crate::second::job::part_fields;

/// A program row: kind, and the fields a, b and c.
pub type Row = [u16; 4];

pub fn nil() -> Row {
    [0, 0, 0, 0]
}

pub fn make(index: u16) -> Row {
    [1, index, 0, 0]
}

pub fn any() -> Row {
    [2, 0, 0, 0]
}

pub fn test(formula: u16) -> Row {
    [3, formula, 0, 0]
}

pub fn then(first: u16, second: u16) -> Row {
    [4, first, second, 0]
}

pub fn branch(formula: u16, yes: u16, no: u16) -> Row {
    [5, formula, yes, no]
}

pub fn either(first: u16, second: u16) -> Row {
    [6, first, second, 0]
}

pub fn repeat_while(formula: u16, body: u16) -> Row {
    [7, formula, body, 0]
}

pub fn star(body: u16) -> Row {
    [8, body, 0, 0]
}

pub fn pick(body: u16) -> Row {
    [9, body, 0, 0]
}

/// The move whose number is `base` plus the object of an enclosing pick, 0 being the nearest.
pub fn make_of(base: u16, pick: u16) -> Row {
    [10, base, pick, 0]
}

/// The test of such a formula.
pub fn test_of(base: u16, pick: u16) -> Row {
    [11, base, pick, 0]
}

/// Rows so far, with their sizes, and with the number of picks that each still wants around it, for a job of so many
/// moves and objects.
pub struct Program {
    pub rows: Vec<Row>,
    sizes: Vec<Size>,
    wanted: Vec<u16>,
    moves: usize,
    objects: u16,
}

impl Program {
    /// For a job without objects.
    pub fn new(moves: usize) -> Program {
        Program::over(moves, 0)
    }

    pub fn over(moves: usize, objects: u16) -> Program {
        Program { rows: Vec::new(), sizes: Vec::new(), wanted: Vec::new(), moves, objects }
    }

    /// Adds a row, and gives its number.
    pub fn add(&mut self, row: Row) -> u16 {
        self.sizes.push(self.size_with(row));
        self.wanted.push(self.wanted_with(row));
        self.rows.push(row);
        self.last()
    }

    /// Drops the rows behind this one.
    pub fn end_at(&mut self, row: u16) {
        let length = usize::from(row) + 1;
        self.rows.truncate(length);
        self.sizes.truncate(length);
        self.wanted.truncate(length);
    }

    /// The number of the last row.
    pub fn last(&self) -> u16 {
        self.rows.len() as u16 - 1
    }

    /// The size of the program whose last row is this one.
    pub fn size(&self, row: u16) -> Size {
        self.sizes[usize::from(row)]
    }

    /// The size that the program would have with one more row.
    pub fn size_with(&self, row: Row) -> Size {
        size_of(row, self.moves, self.objects, &self.sizes)
    }

    /// Whether a row would fit inside so many picks.
    pub fn fits_inside(&self, row: Row, picks: u16) -> bool {
        let around = |size, _| size_of(pick(0), self.moves, self.objects, &[size]);
        (0..picks).fold(self.size_with(row), around).fits()
    }

    /// How many picks a row still wants around it, so that each of its variables has its pick.
    pub fn wanted(&self, row: u16) -> u16 {
        self.wanted[usize::from(row)]
    }

    fn wanted_with(&self, row: Row) -> u16 {
        let most = part_fields(row[0]).iter().map(|field| self.wanted(row[*field])).max().unwrap_or(0);
        match row {
            [9, ..] => most.saturating_sub(1),
            [10 | 11, _, pick, _] => pick.saturating_add(1),
            _ => most,
        }
    }

    /// A row so many times in sequence.
    pub fn sequence(&mut self, row: u16, count: usize) -> u16 {
        self.copies(row, count, then)
    }

    /// A choice of so many copies of a row.
    pub fn choice(&mut self, row: u16, count: usize) -> u16 {
        self.copies(row, count, either)
    }

    /// Copies of a row, at least one, joined in blocks that double.
    fn copies(&mut self, row: u16, count: usize, join: fn(u16, u16) -> Row) -> u16 {
        let mut block = row;
        let mut all = (count % 2 == 1).then_some(row);
        let mut left = count / 2;
        while left > 0 {
            block = self.add(join(block, block));
            if left % 2 == 1 {
                all = Some(match all {
                    None => block,
                    Some(rest) => self.add(join(block, rest)),
                });
            }
            left /= 2;
        }
        all.unwrap_or(row)
    }
}
