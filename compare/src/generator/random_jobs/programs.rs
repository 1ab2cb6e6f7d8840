//! Random programs.

use std::cmp::Reverse;

use super::domains::open_formula;
use crate::generator::program::{any, branch, either, make, nil, pick, repeat_while, star, test, then, Program, Row};
use crate::generator::random::Random;
use crate::second::compiler::Size;
use crate::second::job::{Job, MOST_ROWS};

/// A random program under construction.
pub struct Sketch<'a> {
    pub random: &'a mut Random,
    pub job: &'a Job,
    pub program: Program,
}

/// How a program is built.
#[derive(Clone, Copy)]
enum ProgramStyle {
    Mixed,
    Staged,
    Loops,
    AnyStar,
    Free,
    Doubling,
    Picks,
    AtPositions,
    AtSteps,
}

/// A random program for a job.
pub fn random_program(random: &mut Random, job: &Job) -> Vec<Row> {
    let style = random.weighted(&[
        (380, ProgramStyle::Mixed),
        (290, ProgramStyle::Staged),
        (100, ProgramStyle::Loops),
        (70, ProgramStyle::AnyStar),
        (30, ProgramStyle::Free),
        (10, ProgramStyle::Doubling),
        (if job.objects == 0 { 20 } else { 140 }, ProgramStyle::Picks),
        (15, ProgramStyle::AtPositions),
        (15, ProgramStyle::AtSteps),
    ]);
    let mut sketch = Sketch { random, job, program: Program::over(job.moves.len(), job.objects) };
    match style {
        ProgramStyle::Mixed => sketch.mixed(job.facts),
        ProgramStyle::Staged => sketch.staged(),
        ProgramStyle::Loops => sketch.loops(),
        ProgramStyle::AnyStar => sketch.any_star(),
        ProgramStyle::Free => sketch.free(),
        ProgramStyle::Doubling => sketch.doubling(),
        ProgramStyle::Picks => sketch.picks(),
        ProgramStyle::AtPositions => sketch.at_position_limit(),
        ProgramStyle::AtSteps => sketch.at_step_limit(),
    }
    sketch.program.rows
}

impl Sketch<'_> {
    /// The size of the program so far.
    pub fn size(&self) -> Size {
        self.program.size(self.program.last())
    }

    /// Rows of all kinds, of which none is longer than a bound; the last is the longest whose variables have picks.
    pub fn mixed(&mut self, facts: u16) {
        let usual = if facts > 8 { (4, 14) } else { (4, 30) };
        let bound = self.random.ranged(&[(850, usual), (130, (30, 80)), (20, (80, 255))]) as u64;
        let counts = [(100, (1, 3)), (700, (4, 10)), (190, (11, 30)), (5, (31, 127)), (5, (128, 128))];
        let count = self.random.ranged(&counts);
        for index in 0..count {
            let row = if index <= count / 3 { self.leaf() } else { self.compound() };
            let size = self.program.size_with(row);
            let row = if size.length <= bound && size.fits() { row } else { self.leaf() };
            self.program.add(row);
        }
        if self.random.chance(950) {
            self.end_at_longest();
        }
        self.close();
    }

    /// Drops the rows behind the longest of those that want the fewest picks around them.
    fn end_at_longest(&mut self) {
        let program = &mut self.program;
        let merits = |row: &u16| (Reverse(program.wanted(*row)), program.size(*row).length);
        let longest = (0..=program.last()).max_by_key(merits).unwrap_or(0);
        program.end_at(longest);
    }

    /// Small stages one after the other, most of which make a move.
    fn staged(&mut self) {
        let mut all = self.stage();
        for _ in 0..self.random.ranged(&[(8, (1, 5)), (2, (6, 12))]) {
            let next = self.stage();
            all = self.program.add(then(all, next));
        }
        self.close();
    }

    /// A part, mostly with the picks around it that it wants.
    fn stage(&mut self) -> u16 {
        let mut part = self.part();
        while self.program.wanted(part) > 0 && self.random.chance(700) {
            part = self.program.add(pick(part));
        }
        part
    }

    /// A row without parts, often any, or one or two of these under one construct.
    fn part(&mut self) -> u16 {
        let [left, right] = [self.leaf(), self.leaf()].map(|leaf| if self.random.chance(400) { any() } else { leaf });
        let first = self.program.add(left);
        let formula = self.formula();
        match self.random.weighted(&[(8, 0), (4, 6), (3, 5), (2, 7), (2, 8)]) {
            0 => first,
            7 => self.program.add(repeat_while(formula, first)),
            8 => self.program.add(star(first)),
            kind => {
                let second = self.program.add(right);
                let row = if kind == 5 { branch(formula, first, second) } else { either(first, second) };
                self.program.add(row)
            }
        }
    }

    /// Nested loops, often of silent steps alone.
    fn loops(&mut self) {
        let leaf = self.leaf();
        let first = self.random.pick(&[leaf, leaf, nil()]);
        self.program.add(first);
        for _ in 0..self.random.between(1, 9) {
            let row = self.around(self.program.last());
            self.program.add(row);
        }
        self.close();
    }

    /// A row around another one, mostly a loop.
    fn around(&mut self, inner: u16) -> Row {
        let formula = self.formula();
        let leaf = self.leaf();
        match self.random.weighted(&[(4, 8), (4, 7), (2, 6), (1, 5), (2, 4), (self.pick_weight(inner), 9)]) {
            9 => pick(inner),
            8 => star(inner),
            7 => repeat_while(formula, inner),
            kind => {
                let other = self.program.add(leaf);
                let [first, second] = self.random.pick(&[[inner, other], [other, inner], [inner, inner]]);
                [then(first, second), branch(formula, first, second), either(first, second)][kind - 4]
            }
        }
    }

    /// Any move, any number of times, perhaps with stages before it.
    fn any_star(&mut self) {
        self.staged();
        let before = self.program.last();
        let one = self.program.add(any());
        let formula = self.formula();
        let body = self.random.pick(&[star(one), repeat_while(formula, one)]);
        let rounds = self.program.add(body);
        if self.random.chance(400) {
            self.program.add(then(before, rounds));
        }
    }

    /// Rows that may take any size.
    fn free(&mut self) {
        let leaf = self.leaf();
        self.program.add(leaf);
        for _ in 0..self.random.between(1, usize::from(MOST_ROWS) - 1) {
            let row = if self.random.chance(200) { self.leaf() } else { self.compound() };
            self.program.add(row);
        }
        self.close();
    }

    /// Rows that each use the row before twice.
    fn doubling(&mut self) {
        let leaf = self.leaf();
        let mut last = self.program.add(leaf);
        for _ in 0..self.random.ranged(&[(6, (1, 9)), (1, (10, 126)), (1, (127, 127))]) {
            let join = self.random.pick(&[then, then, then, either]);
            last = self.program.add(join(last, last));
        }
        self.close();
    }

    /// A row that has no parts: mostly a move, sometimes a move or a test of an object.
    fn leaf(&mut self) -> Row {
        let variables = if self.job.objects == 0 { 15 } else { 300 };
        if self.random.chance(variables) {
            let picks = if self.job.objects > 4 { 1 } else { self.random.weighted(&[(6, 1), (3, 2), (1, 3)]) };
            return self.variable(picks);
        }
        self.plain_leaf()
    }

    /// A row that has neither parts nor a variable: mostly a move.
    pub fn plain_leaf(&mut self) -> Row {
        match self.random.weighted(&[(2, 0), (12, 1), (5, 2), (2, 3)]) {
            0 => nil(),
            1 if !self.job.moves.is_empty() => make(self.random.below(self.job.moves.len()) as u16),
            2 => any(),
            _ => test(open_formula(self.random, &self.job.formulas, 600)),
        }
    }

    /// A row that has parts, each mostly one of the last rows.
    fn compound(&mut self) -> Row {
        let (first, second) = (self.earlier(), self.earlier());
        match self.random.weighted(&[(14, 4), (4, 5), (5, 6), (4, 7), (5, 8), (3 * self.pick_weight(first), 9)]) {
            9 => pick(first),
            4 => then(first, second),
            5 => branch(self.formula(), first, second),
            6 => either(first, second),
            7 => repeat_while(self.formula(), first),
            _ => star(first),
        }
    }

    /// How likely a pick around a row is, beside other rows around it: likely where the row wants one.
    fn pick_weight(&self, inner: u16) -> usize {
        match (self.program.wanted(inner), self.job.objects) {
            (0, 0) => 0,
            (0, _) => 1,
            _ => 5,
        }
    }

    fn formula(&mut self) -> u16 {
        self.random.below(self.job.formulas.len()) as u16
    }

    fn earlier(&mut self) -> u16 {
        let rows = self.program.rows.len();
        let most = if self.random.chance(800) { rows.min(4) } else { rows };
        (rows - 1 - self.random.below(most)) as u16
    }
}
