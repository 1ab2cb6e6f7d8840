//! Jobs, class costs, their limits, and refusals.

/// The highest number of facts.
pub const MOST_FACTS: u16 = 12;
/// The highest number of formulas.
pub const MOST_FORMULAS: u16 = 255;
/// The highest number of moves.
pub const MOST_MOVES: u16 = 64;
/// The highest number of effects of one move.
pub const MOST_EFFECTS: u16 = 16;
/// The highest number of objects.
pub const MOST_OBJECTS: u16 = 16;
/// The highest number of program rows.
pub const MOST_ROWS: u16 = 128;
/// The number of cost classes.
pub const CLASSES: u16 = 16;
/// The highest cost of a class; no number of a line is higher.
pub const MOST_COST: u16 = 65535;
/// The highest number of entries of a plan.
pub const MOST_ENTRIES: u16 = 4000;

/// The cost of each class in tenths of a second.
pub type ClassCosts = [u16; CLASSES as usize];

/// The costs that hold where no others are handed in.
pub const HOUSE_COSTS: ClassCosts = [0, 5, 12, 20, 30, 45, 60, 90, 120, 180, 240, 360, 600, 900, 1800, 3600];

/// An effect `[condition, fact, value]`.
pub type Effect = [u16; 3];

/// A move: its precondition, its cost class and its effects, and a second class that is added to its cost where a
/// condition holds before it.
#[derive(Clone, Debug, PartialEq, Eq)]
pub struct Move {
    pub pre: u16,
    pub class: u16,
    pub effects: Vec<Effect>,
    pub second_formula: u16,
    pub second_class: u16,
}

impl Move {
    /// A move that costs the same everywhere: the formula and the second class are 0.
    pub fn plain(pre: u16, class: u16, effects: Vec<Effect>) -> Move {
        Move { pre, class, effects, second_formula: 0, second_class: 0 }
    }

    /// The move with this second class where a condition holds.
    pub fn with_second(self, condition: u16, class: u16) -> Move {
        Move { second_formula: condition, second_class: class, ..self }
    }
}

/// A job.
#[derive(Clone, Debug, PartialEq, Eq)]
pub struct Job {
    pub facts: u16,
    pub init: u16,
    pub formulas: Vec<[u16; 3]>,
    pub moves: Vec<Move>,
    pub goal: u16,
    pub objects: u16,
    pub rows: Vec<[u16; 4]>,
}

impl Job {
    /// The number of effects of all moves.
    pub fn effects(&self) -> usize {
        self.moves.iter().map(|action| action.effects.len()).sum()
    }

    /// The number of lines of its text: eight that every job has, and one for each row.
    pub fn lines(&self) -> usize {
        8 + self.formulas.len() + self.moves.len() + self.effects() + self.rows.len()
    }
}

/// The fields of a program row of this kind that are numbers of other rows.
pub fn part_fields(kind: u16) -> &'static [usize] {
    match kind {
        4 | 6 => &[1, 2],
        5 => &[2, 3],
        7 => &[2],
        8 | 9 => &[1],
        _ => &[],
    }
}

/// The number of a reason and the place: a line, or for reason 6 a length.
#[derive(Clone, Copy, Debug, PartialEq, Eq)]
pub struct Refusal {
    pub number: u32,
    pub place: usize,
}
