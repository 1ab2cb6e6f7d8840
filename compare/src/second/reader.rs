//! Job texts, costs texts and plan texts, and the refusals 1, 2, 3, 7 and 5.

use super::job::*;
use super::lines::Lines;

/// Reads a job text; refused by 1 to 3.
pub fn read_job(text: &[u8]) -> Result<Job, Refusal> {
    JobReader { lines: Lines::new(text) }.job()
}

/// Reads a costs text, by document 02: `costs=16`, then the cost of each class, which is any number that a line may
/// have, and 0 for class 0; refused by 7.
pub fn read_costs(text: &[u8]) -> Result<ClassCosts, Refusal> {
    let mut lines = Lines::new(text);
    let wrong = |place| Refusal { number: 7, place };
    let [count] = lines.row(b"costs").map_err(wrong)?;
    if count != CLASSES {
        return Err(wrong(lines.read()));
    }
    let mut costs = ClassCosts::default();
    for (class, cost) in costs.iter_mut().enumerate() {
        [*cost] = lines.row(b"c").map_err(wrong)?;
        if class == 0 && *cost != 0 {
            return Err(wrong(lines.read()));
        }
    }
    lines.end().map_err(wrong)?;
    Ok(costs)
}

/// Reads a plan text whose entries have the key `key` and are below `bound`; refused by 5.
pub fn read_plan(text: &[u8], key: u8, bound: usize) -> Result<Vec<u16>, Refusal> {
    let mut lines = Lines::new(text);
    let wrong = |place| Refusal { number: 5, place };
    let [count] = lines.row(b"plan").map_err(wrong)?;
    if count > MOST_ENTRIES {
        return Err(wrong(lines.read()));
    }
    let mut entries = Vec::new();
    for _ in 0..count {
        let [entry] = lines.row(&[key]).map_err(wrong)?;
        if usize::from(entry) >= bound {
            return Err(wrong(lines.read()));
        }
        entries.push(entry);
    }
    lines.end().map_err(wrong)?;
    Ok(entries)
}

/// The counts that bound what program rows refer to.
#[derive(Clone, Copy)]
struct Bounds {
    formulas: usize,
    moves: usize,
    objects: usize,
}

/// A job text that is being read.
struct JobReader<'a> {
    lines: Lines<'a>,
}

impl JobReader<'_> {
    fn job(&mut self) -> Result<Job, Refusal> {
        let [version] = self.row(b"job")?;
        self.demand(version == 1, 1)?;
        let facts = self.count(b"facts", 0, MOST_FACTS)?;
        let init = self.count(b"init", 0, (1 << facts) - 1)?;
        let formulas = self.formulas(facts)?;
        let moves = self.moves(facts, formulas.len())?;
        let [goal] = self.row(b"goal")?;
        self.demand(usize::from(goal) < formulas.len(), 3)?;
        let objects = self.count(b"objects", 0, MOST_OBJECTS)?;
        let bounds = Bounds { formulas: formulas.len(), moves: moves.len(), objects: objects.into() };
        let rows = self.rows(bounds)?;
        self.lines.end().map_err(wrong_form)?;
        Ok(Job { facts, init, formulas, moves, goal, objects, rows })
    }

    fn formulas(&mut self, facts: u16) -> Result<Vec<[u16; 3]>, Refusal> {
        let count = self.count(b"formulas", 1, MOST_FORMULAS)?;
        let mut formulas = Vec::new();
        for earlier in 0..count {
            let formula = self.row(b"f")?;
            self.demand(formula_is_right(formula, facts, earlier), 3)?;
            formulas.push(formula);
        }
        Ok(formulas)
    }

    fn moves(&mut self, facts: u16, formulas: usize) -> Result<Vec<Move>, Refusal> {
        let count = self.count(b"moves", 0, MOST_MOVES)?;
        let mut moves = Vec::new();
        for _ in 0..count {
            let [pre, class, effect_count, second_formula, second_class] = self.row(b"m")?;
            self.demand(effect_count <= MOST_EFFECTS, 2)?;
            self.demand([pre, second_formula].into_iter().all(|formula| usize::from(formula) < formulas), 3)?;
            self.demand(class < CLASSES && second_class < CLASSES, 3)?;
            let mut effects = Vec::new();
            for _ in 0..effect_count {
                let [condition, fact, value] = self.row(b"e")?;
                self.demand(usize::from(condition) < formulas && fact < facts && value < 2, 3)?;
                effects.push([condition, fact, value]);
            }
            moves.push(Move { pre, class, effects, second_formula, second_class });
        }
        Ok(moves)
    }

    fn rows(&mut self, bounds: Bounds) -> Result<Vec<[u16; 4]>, Refusal> {
        let count = self.count(b"program", 1, MOST_ROWS)?;
        let mut rows = Vec::new();
        for earlier in 0..usize::from(count) {
            let row = self.row(b"p")?;
            self.demand(row_is_right(row, bounds, earlier), 3)?;
            rows.push(row);
        }
        Ok(rows)
    }

    /// The numbers of the next line, which must have this key and this many numbers.
    fn row<const N: usize>(&mut self, key: &[u8]) -> Result<[u16; N], Refusal> {
        self.lines.row(key).map_err(wrong_form)
    }

    /// The number of the next line, which must be from `low` to `high`.
    fn count(&mut self, key: &[u8], low: u16, high: u16) -> Result<u16, Refusal> {
        let [number] = self.row(key)?;
        self.demand((low..=high).contains(&number), 2)?;
        Ok(number)
    }

    /// Refuses the line that was read last unless it is right.
    fn demand(&self, right: bool, number: u32) -> Result<(), Refusal> {
        if right {
            return Ok(());
        }
        Err(Refusal { number, place: self.lines.read() })
    }
}

fn wrong_form(place: usize) -> Refusal {
    Refusal { number: 1, place }
}

/// Whether kind, references and unused fields of a formula are right.
fn formula_is_right([kind, a, b]: [u16; 3], facts: u16, earlier: u16) -> bool {
    match kind {
        0 | 1 => a == 0 && b == 0,
        2 => a < facts && b == 0,
        3 => a < earlier && b == 0,
        4 | 5 => a < earlier && b < earlier,
        _ => false,
    }
}

/// Whether kind, references and unused fields of a program row are right. Which pick a variable is of isn't asked here.
fn row_is_right(row: [u16; 4], bounds: Bounds, earlier: usize) -> bool {
    let Bounds { formulas, moves, objects } = bounds;
    let [kind, a, b, c] = row.map(usize::from);
    match kind {
        0 | 2 => a == 0 && b == 0 && c == 0,
        1 => a < moves && b == 0 && c == 0,
        3 => a < formulas && b == 0 && c == 0,
        4 | 6 => a < earlier && b < earlier && c == 0,
        5 => a < formulas && b < earlier && c < earlier,
        7 => a < formulas && b < earlier && c == 0,
        8 | 9 => a < earlier && b == 0 && c == 0,
        10 => a + objects <= moves && c == 0,
        11 => a + objects <= formulas && c == 0,
        _ => false,
    }
}
