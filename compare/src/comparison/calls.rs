//! The calls of one case: every operation, with lists, tables and outputs of several lengths, full of junk before.

use super::lengths::{greatest, lengths_for};
use super::operation::{Operation, OPERATIONS};
use super::tally::Tally;
use crate::answer::Answer;
use crate::cases::Case;
use crate::generator::random::Random;
use crate::lent::{Held, Lengths};
use crate::second::expected::Expected;

/// How many numbers, or bytes, may stand behind what is handed in.
const GUARDS: usize = 8;

/// A call that the two sides answer differently, or after which they hold something else: where, and both numbers.
pub struct Mismatch {
    pub operation: Operation,
    pub lengths: Lengths,
    pub library: Answer,
    pub second: Answer,
    pub list: Option<(usize, u16, u16)>,
    pub table: Option<(usize, u64, u64)>,
    pub out: Option<(usize, u8, u8)>,
}

/// A case, what it should be answered, and what lists, tables and outputs hold before a call.
pub struct Trial<'a> {
    case: &'a Case,
    expected: Expected,
    needed: Option<Lengths>,
    junk: Held,
}

impl<'a> Trial<'a> {
    pub fn new(random: &mut Random, case: &'a Case, expected: Expected) -> Trial<'a> {
        let needed = expected.lengths();
        let Lengths { list, table, out } = greatest(needed);
        let junk = Held {
            list: (0..list + GUARDS).map(|_| random.bits() as u16).collect(),
            table: (0..table + GUARDS).map(|_| random.bits()).collect(),
            out: (0..out + GUARDS).map(|_| random.bits() as u8).collect(),
        };
        Trial { case, expected, needed, junk }
    }

    /// Makes all calls up to the first mismatch, and counts the answers.
    pub fn calls(&self, random: &mut Random, tally: &mut Tally) -> Result<(), Box<Mismatch>> {
        for operation in OPERATIONS {
            for lengths in lengths_for(random, operation, self.needed) {
                let guards = if random.chance(500) { GUARDS } else { 0 };
                let answer = self.call(operation, lengths, guards)?;
                let list_fits = self.needed.is_some_and(|needed| needed.list <= lengths.list);
                tally.count(operation, answer, list_fits);
            }
        }
        Ok(())
    }

    /// Makes one call of both sides on equal junk, with so many numbers behind what is handed in.
    fn call(&self, operation: Operation, lengths: Lengths, guards: usize) -> Result<Answer, Box<Mismatch>> {
        let [mut left, mut right] = [(); 2].map(|()| self.junk.front(lengths, guards));
        let library = operation.ask_library(self.case, left.lend(lengths));
        let second = operation.ask_second(&self.expected, right.lend(lengths));
        if library == second && left == right {
            return Ok(library);
        }
        Err(Box::new(Mismatch {
            operation,
            lengths,
            library,
            second,
            list: difference(&left.list, &right.list),
            table: difference(&left.table, &right.table),
            out: difference(&left.out, &right.out),
        }))
    }
}

/// The first index at which two lists differ, with both numbers.
fn difference<T: Copy + PartialEq>(left: &[T], right: &[T]) -> Option<(usize, T, T)> {
    let index = (0..left.len()).find(|index| left[*index] != right[*index])?;
    Some((index, left[index], right[index]))
}
