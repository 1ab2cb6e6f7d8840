//! Certain jobs, the same in every run.

use super::formulas::Formulas;
use super::moves::{self, unconditional};
use super::program::{any, branch, either, make, nil, repeat_while, star, then, Program, Row};
use super::random::Random;
use super::shapes;
use crate::second::compiler::Size;
use crate::second::job::{part_fields, Job, Move, MOST_EFFECTS, MOST_FORMULAS, MOST_ROWS};

/// A job from init 0 without objects, whose goal is that all facts are true.
pub fn job_of(facts: u16, moves: Vec<Move>, rows: Vec<Row>) -> Job {
    let formulas = Formulas { facts };
    Job { facts, init: 0, formulas: formulas.rows(), moves, goal: formulas.all(facts - 1), objects: 0, rows }
}

/// The sample, with these program rows.
fn sample_with(rows: Vec<Row>) -> Job {
    Job {
        facts: 2,
        init: 0,
        formulas: vec![[1, 0, 0], [2, 0, 0], [2, 1, 0], [3, 1, 0]],
        moves: vec![unconditional(0, 3, &[(1, 1)]), unconditional(2, 1, &[(0, 1)])],
        goal: 1,
        objects: 0,
        rows,
    }
}

/// The sample.
pub fn sample() -> Job {
    sample_with(vec![[1, 0, 0, 0], [1, 1, 0, 0], [4, 0, 1, 0]])
}

/// The sample, with the star of a choice of its moves.
pub fn sample_star() -> Job {
    sample_with(vec![[1, 0, 0, 0], [1, 1, 0, 0], [6, 0, 1, 0], [8, 2, 0, 0]])
}

/// A job of mixed moves, with 255 formulas: those of every job, and random ones of two literals or of a formula before.
pub fn mixed(facts: u16, seed: u64, rows: Vec<Row>) -> Job {
    let mut random = Random::new(seed);
    let mut job = job_of(facts, Vec::new(), rows);
    while job.formulas.len() < usize::from(MOST_FORMULAS) {
        let a = 1 + random.below_u16(2 * facts);
        let b = 1 + random.below_u16(2 * facts);
        let earlier = random.below(job.formulas.len()) as u16;
        let row = match random.below(4) {
            0 => [3, earlier, 0],
            1 => [4, a, b],
            2 => [5, a, b],
            _ => [4 + random.below_u16(2), earlier, a],
        };
        job.formulas.push(row);
    }
    job.moves = moves::mixed(facts, MOST_FORMULAS, &mut random);
    job
}

/// Mixed moves under a random program of at most so many positions and steps.
pub fn tangled(facts: u16, positions: u64, steps: u64, seed: u64) -> Job {
    let most = Size { length: positions - 1, steps };
    let rows = shapes::tangled(64, MOST_FORMULAS, most, &mut Random::new(seed + 1));
    mixed(facts, seed, rows)
}

/// The job of most lines: 255 formulas, 64 moves with 16 effects each, and 128 program rows.
pub fn longest() -> Job {
    let mut job = mixed(12, 5, shapes::wide(64));
    for action in &mut job.moves {
        action.effects.resize(usize::from(MOST_EFFECTS), [254, 11, 1]);
    }
    while job.rows.len() < usize::from(MOST_ROWS) {
        job.rows.insert(0, [3, 254, 0, 0]);
        job.rows[1..].iter_mut().for_each(shift);
    }
    job
}

/// Adds one to each number of another row that a program row has.
fn shift(row: &mut Row) {
    for field in part_fields(row[0]) {
        row[*field] += 1;
    }
}

/// A job of medium size: 7 facts, a random program of some 50 positions.
pub fn medium() -> Job {
    tangled(7, 50, 500, 11)
}

/// `wide` over 64 moves that change nothing, with the sample's facts.
pub fn wide() -> Job {
    let mut job = sample_with(shapes::wide(64));
    job.moves = vec![unconditional(0, 3, &[]); 64];
    job
}

/// A medium job that allows every list of moves: a star over any rows, branches and nils.
pub fn medium_star() -> Job {
    let formulas = Formulas { facts: 6 };
    let mut program = Program::new(16);
    let one = program.add(any());
    let none = program.add(nil());
    let mut body = program.add(either(one, none));
    for i in 0..formulas.facts {
        body = program.add(branch(formulas.fact(i), body, one));
    }
    program.add(star(body));
    let mut moves = moves::flips(formulas.facts, 0, 15, &mut Random::new(3));
    moves.truncate(16);
    job_of(formulas.facts, moves, program.rows)
}

/// The number that the facts write is counted up to the greatest and then cleared, so many times in sequence. Each move
/// is of class 1 and forced; a round has one for each state, and four positions.
pub fn rounds(facts: u16, count: usize) -> Job {
    let formulas = Formulas { facts };
    let full = formulas.all(facts - 1);
    let mut moves = moves::increments(facts, || 1);
    let clearing: Vec<(u16, u16)> = (0..facts).map(|i| (i, 0)).collect();
    moves.push(unconditional(full, 1, &clearing));
    let mut job = job_of(facts, moves, Vec::new());
    let not_full = job.formulas.len() as u16;
    job.formulas.push([3, full, 0]);
    job.goal = 0;
    let mut program = Program::new(job.moves.len());
    let one = program.add(any());
    let up = program.add(repeat_while(not_full, one));
    let clear = program.add(make(facts));
    let round = program.add(then(up, clear));
    program.sequence(round, count);
    job.rows = program.rows;
    job
}

/// So many rounds over eleven facts, and behind them the number counted up once more, cleared, and fact 11 set: from
/// then on moves that set the other facts, at classes 2 to 12, may come in any order.
pub fn late_choices(count: usize) -> Job {
    let mut job = rounds(11, count);
    job.facts = 12;
    job.goal = Formulas { facts: 11 }.all(10);
    let late = job.formulas.len() as u16;
    job.formulas.push([2, 11, 0]);
    let switch = job.moves.len() as u16;
    let effects: Vec<(u16, u16)> = (0..12).map(|fact| (fact, fact / 11)).collect();
    job.moves.push(unconditional(job.goal, 1, &effects));
    job.moves.extend((0..11).map(|fact| unconditional(late, fact + 2, &[(fact, 1)])));
    // Of the rounds row 0 is any, row 1 its while, the last one all of them.
    let end = job.rows.len() as u16;
    job.rows.extend([then(end - 1, 1), make(switch), then(end, end + 1), star(0), then(end + 2, end + 3)]);
    job
}

/// Two counters, of the lower and of the upper facts, and other moves up to the number: two moves reach all states.
pub fn two_counters(facts: u16, moves: usize, rows: Vec<Row>, random: &mut Random) -> Job {
    let mut job = job_of(facts, Vec::new(), rows);
    for (from, to) in [(0, facts / 2), (facts / 2, facts)] {
        let effects = carry(&mut job, from, to);
        job.moves.push(Move::plain(0, 1 + random.below_u16(5), effects));
    }
    job.moves.extend(moves::flips(facts, 1, 12, random).into_iter().take(moves - 2));
    job
}

/// The effects, with new formulas for their conditions, that add one to the number that these facts write.
fn carry(job: &mut Job, from: u16, to: u16) -> Vec<[u16; 3]> {
    let formulas = Formulas { facts: job.facts };
    let mut effects = Vec::new();
    // That all facts below the present one are true.
    let mut lower = 0;
    for i in from..to {
        let next = job.formulas.len() as u16;
        job.formulas.push([4, lower, formulas.no(i)]);
        job.formulas.push([4, lower, formulas.fact(i)]);
        effects.push([next, i, 1]);
        effects.push([next + 1, i, 0]);
        lower = next + 1;
    }
    effects
}
