//! The compiling table, with the pick of document 02: from program rows to numbered steps, and refusals 8 and 4.

use super::fault::Fault;
use super::job::{Job, Refusal};
use super::scope::has_free_variable;

/// The highest number of positions.
pub const MOST_POSITIONS: u64 = 256;
/// The highest number of steps.
pub const MOST_STEPS: u64 = 1024;

/// Kinds of steps: no-op, formula holds, formula doesn't hold, move.
pub const NO_OP: u16 = 0;
pub const HOLDS: u16 = 1;
pub const FAILS: u16 = 2;
pub const MOVE: u16 = 3;

/// A compiled job: the number of positions, of which the last is the final one, and its steps `[kind, from, to, arg]`.
#[derive(Clone, Debug, PartialEq, Eq)]
pub struct Compiled {
    pub positions: usize,
    pub steps: Vec<[u16; 4]>,
}

/// How far a row's end is behind its start, and how many steps it has; saturating.
#[derive(Clone, Copy, Debug, PartialEq, Eq)]
pub struct Size {
    pub length: u64,
    pub steps: u64,
}

impl Size {
    /// Whether a program of this size is within the limits.
    pub fn fits(self) -> bool {
        self.length < MOST_POSITIONS && self.steps <= MOST_STEPS
    }

    fn plus(self, other: Size) -> Size {
        Size { length: self.length.saturating_add(other.length), steps: self.steps.saturating_add(other.steps) }
    }

    fn times(self, count: u16) -> Size {
        let count = count.into();
        Size { length: self.length.saturating_mul(count), steps: self.steps.saturating_mul(count) }
    }
}

/// The size of a row over `moves` moves and `objects` objects, given the sizes of the rows before it.
pub fn size_of(row: [u16; 4], moves: usize, objects: u16, earlier: &[Size]) -> Size {
    let size = |length, steps| Size { length, steps };
    let part = |index: u16| earlier[usize::from(index)];
    let [kind, a, b, c] = row;
    match kind {
        2 => size(1, moves as u64),
        4 => part(a).plus(part(b)),
        5 => size(3, 4).plus(part(b)).plus(part(c)),
        6 => size(3, 4).plus(part(a)).plus(part(b)),
        7 => size(2, 3).plus(part(b)),
        8 => size(2, 3).plus(part(a)),
        // Each copy of the body with the position behind it, and with a step into it and one out of it.
        9 => size(1, 0).plus(size(1, 2).plus(part(a)).times(objects)),
        _ => size(1, 1),
    }
}

/// The size of the job's program, from the sizes of all rows in their order.
pub fn program_size(job: &Job) -> Size {
    let mut sizes = Vec::new();
    for row in &job.rows {
        sizes.push(size_of(*row, job.moves.len(), job.objects, &sizes));
    }
    sizes[job.rows.len() - 1]
}

/// Compiles the job's program; refused by 8 and 4.
pub fn compile(job: &Job) -> Result<Compiled, Refusal> {
    compile_with(job, Fault::None)
}

/// Compiles the job's program with a seeded fault.
pub fn compile_with(job: &Job, fault: Fault) -> Result<Compiled, Refusal> {
    let refused = |number| Err(Refusal { number, place: job.lines() });
    if has_free_variable(job, fault) {
        return refused(8);
    }
    if !program_size(job).fits() {
        return refused(4);
    }
    let mut compiler = Compiler { job, fault, steps: Vec::new(), objects: Vec::new() };
    let end = compiler.row(job.rows.len() as u16 - 1, 0);
    Ok(Compiled { positions: usize::from(end) + 1, steps: compiler.steps })
}

/// The steps so far, and the objects of the picks around the present row, the nearest last.
struct Compiler<'a> {
    job: &'a Job,
    fault: Fault,
    steps: Vec<[u16; 4]>,
    objects: Vec<u16>,
}

impl Compiler<'_> {
    /// Writes the steps of a row that starts at position `n`, and gives its end.
    fn row(&mut self, index: u16, n: u16) -> u16 {
        let [kind, a, b, c] = self.job.rows[usize::from(index)];
        match kind {
            0 => self.one(NO_OP, n, 0),
            1 => self.one(MOVE, n, a),
            2 => self.any(n),
            3 => self.one(HOLDS, n, a),
            4 => {
                let n1 = self.row(a, n);
                self.row(b, n1)
            }
            5 => self.branch(n, b, c, HOLDS, FAILS, a),
            6 => self.branch(n, a, b, NO_OP, NO_OP, 0),
            7 => self.repeat(n, b, a),
            8 => self.star(n, a),
            9 => self.pick(n, a),
            10 => self.of_object(MOVE, n, a, b),
            _ => self.of_object(HOLDS, n, a, b),
        }
    }

    /// One step from `n` to the next position.
    fn one(&mut self, kind: u16, n: u16, arg: u16) -> u16 {
        self.steps.push([kind, n, n + 1, arg]);
        n + 1
    }

    fn any(&mut self, n: u16) -> u16 {
        for index in 0..self.job.moves.len() as u16 {
            self.steps.push([MOVE, n, n + 1, index]);
        }
        n + 1
    }

    /// Two rows side by side, each entered by a step of its own kind: if, and or.
    fn branch(&mut self, n: u16, left: u16, right: u16, enter_left: u16, enter_right: u16, arg: u16) -> u16 {
        let n1 = self.row(left, n + 1);
        let n2 = self.row(right, n1 + 1);
        self.steps.push([enter_left, n, n + 1, arg]);
        self.steps.push([enter_right, n, n1 + 1, arg]);
        self.steps.push([NO_OP, n1, n2 + 1, 0]);
        self.steps.push([NO_OP, n2, n2 + 1, 0]);
        n2 + 1
    }

    /// While formula `condition` do row `body`.
    fn repeat(&mut self, n: u16, body: u16, condition: u16) -> u16 {
        let n1 = self.row(body, n + 1);
        self.steps.push([HOLDS, n, n + 1, condition]);
        self.steps.push([FAILS, n, n1 + 1, condition]);
        self.steps.push([NO_OP, n1, n, 0]);
        n1 + 1
    }

    fn star(&mut self, n: u16, body: u16) -> u16 {
        if self.fault == Fault::Star {
            let n1 = self.row(body, n);
            self.steps.push([NO_OP, n, n1 + 1, 0]);
            self.steps.push([NO_OP, n1, n, 0]);
            return n1 + 1;
        }
        let n1 = self.row(body, n + 1);
        self.steps.push([NO_OP, n, n + 1, 0]);
        self.steps.push([NO_OP, n1, n, 0]);
        self.steps.push([NO_OP, n, n1 + 1, 0]);
        n1 + 1
    }

    /// A copy of row `body` for each object, one behind the other.
    fn pick(&mut self, n: u16, body: u16) -> u16 {
        let mut objects: Vec<u16> = (0..self.job.objects).collect();
        if self.fault == Fault::ObjectOrder {
            objects.reverse();
        }
        let mut copies = Vec::new();
        let mut next = n + 1;
        for object in objects {
            self.objects.push(object);
            let end = self.row(body, next);
            self.objects.pop();
            copies.push((next, end));
            next = end + 1;
        }
        self.steps.extend(copies.iter().map(|(start, _)| [NO_OP, n, *start, 0]));
        self.steps.extend(copies.iter().map(|(_, end)| [NO_OP, *end, next, 0]));
        next
    }

    /// One step by the object of an enclosing pick, 0 being the nearest; none where a fault lets a variable be free.
    fn of_object(&mut self, kind: u16, n: u16, base: u16, pick: u16) -> u16 {
        match self.objects.iter().rev().nth(pick.into()) {
            Some(object) => self.one(kind, n, base + object),
            None => n + 1,
        }
    }
}
