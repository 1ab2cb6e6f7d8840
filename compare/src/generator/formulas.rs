//! The formulas that all jobs but the random ones start with.

/// Their numbers, in a job of so many facts.
#[derive(Clone, Copy)]
pub struct Formulas {
    pub facts: u16,
}

impl Formulas {
    /// Fact i is true.
    pub fn fact(self, i: u16) -> u16 {
        1 + i
    }

    /// Fact i is false.
    pub fn no(self, i: u16) -> u16 {
        1 + self.facts + i
    }

    /// Facts 0 to i are true.
    pub fn all(self, i: u16) -> u16 {
        1 + 2 * self.facts + i
    }

    /// Of facts 0 to i just the last is false.
    pub fn last_false(self, i: u16) -> u16 {
        if i == 0 {
            self.no(0)
        } else {
            3 * self.facts + i
        }
    }

    /// The formulas themselves; formula 0 is true.
    pub fn rows(self) -> Vec<[u16; 3]> {
        let mut rows = vec![[1, 0, 0]];
        rows.extend((0..self.facts).map(|i| [2, i, 0]));
        rows.extend((0..self.facts).map(|i| [3, self.fact(i), 0]));
        rows.push([4, 0, self.fact(0)]);
        rows.extend((1..self.facts).map(|i| [4, self.all(i - 1), self.fact(i)]));
        rows.extend((1..self.facts).map(|i| [4, self.all(i - 1), self.no(i)]));
        rows
    }
}
