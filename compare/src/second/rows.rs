//! Program rows, and those that come of them when an object is put in for a variable: equation (13) of document 003.

use std::collections::HashMap;

use super::job::part_fields;

/// A program row; its parts may be rows that stand behind it.
pub type Row = [usize; 4];

/// A variable's row inside so many picks, and what becomes of it.
type Change<'a> = &'a dyn Fn(Row, usize) -> Row;

/// The rows of a job, and behind them all that were made of these.
pub struct Rows {
    rows: Vec<Row>,
    numbers: HashMap<Row, usize>,
}

impl Rows {
    pub fn new(rows: &[[u16; 4]]) -> Rows {
        let rows: Vec<Row> = rows.iter().map(|row| row.map(usize::from)).collect();
        let numbers = rows.iter().enumerate().map(|(number, row)| (*row, number)).collect();
        Rows { rows, numbers }
    }

    pub fn get(&self, number: usize) -> Row {
        self.rows[number]
    }

    /// The body of a pick with an object put in for the pick's variable, which is 0, and inside another pick one more.
    pub fn put_in(&mut self, body: usize, object: usize) -> usize {
        let put = |[kind, a, b, c]: Row, picks: usize| match kind {
            10 if b == picks => [1, a + object, 0, 0],
            11 if b == picks => [3, a + object, 0, 0],
            _ => [kind, a, b, c],
        };
        self.change(body, 0, &put, &mut HashMap::new())
    }

    /// Fault: a program whose variables counted from the outermost pick, counted from the nearest.
    pub fn turn(&mut self, program: usize) -> usize {
        let turned = |[kind, a, b, c]: Row, picks: usize| [kind, a, picks - 1 - b, c];
        self.change(program, 0, &turned, &mut HashMap::new())
    }

    /// What becomes of a row inside so many picks when its variables are changed; what is `done` is not done again.
    fn change(&mut self, row: usize, picks: usize, change: Change, done: &mut HashMap<[usize; 2], usize>) -> usize {
        if let Some(number) = done.get(&[row, picks]) {
            return *number;
        }
        let mut new = self.rows[row];
        let [kind, ..] = new;
        if matches!(kind, 10 | 11) {
            new = change(new, picks);
        }
        let inside = picks + usize::from(kind == 9);
        for field in part_fields(kind as u16) {
            new[*field] = self.change(new[*field], inside, change, done);
        }
        let number = self.number(new);
        done.insert([row, picks], number);
        number
    }

    /// The number of a row, which is put behind the others if it is new.
    fn number(&mut self, row: Row) -> usize {
        let next = self.rows.len();
        let number = *self.numbers.entry(row).or_insert(next);
        if number == next {
            self.rows.push(row);
        }
        number
    }
}
