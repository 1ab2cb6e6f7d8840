//! Random facts, formulas and moves.

use crate::generator::random::Random;
use crate::second::job::{Job, Move, MOST_OBJECTS};

/// A job with random facts, formulas and moves, and with no objects and no program yet.
pub fn random_domain(random: &mut Random) -> Job {
    let facts =
        random.ranged(&[(30, (0, 0)), (440, (1, 3)), (370, (4, 5)), (120, (6, 8)), (30, (9, 11)), (10, (12, 12))]);
    let init = random.below(1 << facts) as u16;
    let formulas = random_formulas(random, facts);
    let moves = random_moves(random, facts, &formulas);
    let goal = random.below(formulas.len()) as u16;
    Job { facts: facts as u16, init, formulas, moves, goal, objects: 0, rows: Vec::new() }
}

fn random_formulas(random: &mut Random, facts: usize) -> Vec<[u16; 3]> {
    let count = random.ranged(&[(300, (1, 5)), (600, (6, 14)), (80, (15, 60)), (10, (254, 254)), (10, (255, 255))]);
    let mut formulas = Vec::new();
    for earlier in 0..count {
        formulas.push(random_formula(random, facts, earlier));
    }
    formulas
}

fn random_formula(random: &mut Random, facts: usize, earlier: usize) -> [u16; 3] {
    let kind = random.weighted(&[(1, 0), (4, 1), (10, 2), (3, 3), (2, 4), (3, 5)]);
    match kind {
        2 if facts > 0 => [2, random.below(facts) as u16, 0],
        3 if earlier > 0 => [3, random.below(earlier) as u16, 0],
        4 | 5 if earlier > 0 => [kind, random.below(earlier) as u16, random.below(earlier) as u16],
        0 => [0, 0, 0],
        _ => [1, 0, 0],
    }
}

fn random_moves(random: &mut Random, facts: usize, formulas: &[[u16; 3]]) -> Vec<Move> {
    let count = random.ranged(&[(40, (0, 0)), (500, (1, 4)), (400, (5, 10)), (40, (11, 40)), (20, (63, 64))]);
    (0..count).map(|_| random_move(random, facts, formulas)).collect()
}

pub fn random_move(random: &mut Random, facts: usize, formulas: &[[u16; 3]]) -> Move {
    let pre = open_formula(random, formulas, 700);
    let class = random.ranged(&[(200, (0, 0)), (300, (1, 3)), (500, (0, 15))]) as u16;
    let most = if facts == 0 { 0 } else { random.ranged(&[(900, (1, 4)), (80, (5, 15)), (20, (16, 16))]) };
    let mut effects = Vec::new();
    for _ in 0..most {
        let condition = open_formula(random, formulas, 400);
        let value = u16::from(random.chance(600));
        effects.push([condition, random.below(facts) as u16, value]);
    }
    Move::plain(pre, class, effects)
}

/// A number of objects for a job, mostly one for which it has moves enough.
pub fn random_objects(random: &mut Random, job: &Job) -> u16 {
    let most = if random.chance(850) { MOST_OBJECTS.min(job.moves.len() as u16) } else { MOST_OBJECTS };
    let objects =
        random.ranged(&[(400, (0, 0)), (120, (1, 1)), (270, (2, 2)), (90, (3, 4)), (40, (5, 15)), (80, (16, 16))]);
    most.min(objects as u16)
}

/// A formula; so many times in a thousand one that is true everywhere, where there is one.
pub fn open_formula(random: &mut Random, formulas: &[[u16; 3]], thousandths: usize) -> u16 {
    let first = random.below(formulas.len());
    let found = formulas.iter().position(|[kind, ..]| *kind == 1);
    found.filter(|_| random.chance(thousandths)).unwrap_or(first) as u16
}
