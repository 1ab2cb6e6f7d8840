//! Shapes of programs, most of them of 256 positions or nearly.

use super::program::{any, branch, either, make, nil, repeat_while, star, test, then, Program, Row};
use super::random::Random;
use crate::second::compiler::{Size, MOST_POSITIONS};
use crate::second::job::MOST_ROWS;

/// `wide` of tests/jobs: a star over a choice of twelve any rows and 205 nils in sequence; 256 positions, and 1,024
/// steps over 64 moves.
pub fn wide(moves: usize) -> Vec<Row> {
    let mut program = Program::new(moves);
    let one = program.add(any());
    let moving = program.choice(one, 12);
    let idle = program.add(nil());
    let idle = program.sequence(idle, 205);
    let body = program.add(either(moving, idle));
    program.add(star(body));
    program.rows
}

/// A star over any, and then n any rows in sequence: n + 4 positions, all of whose cells are reached where the moves
/// reach all states.
pub fn chain(moves: usize, n: usize) -> Vec<Row> {
    let mut program = Program::new(moves);
    let one = program.add(any());
    let tail = program.sequence(one, n);
    let start = program.add(star(one));
    program.add(then(start, tail));
    program.rows
}

/// A star over any, and then 252 move rows in sequence, of 32 moves: 256 positions.
pub fn long_sequence(moves: usize, random: &mut Random) -> Vec<Row> {
    let mut program = Program::new(moves);
    let mut blocks: Vec<u16> = (0..32).map(|_| program.add(make(random.below(moves) as u16))).collect();
    // Blocks of 2, 4, 8, 16 and 32 moves, and then 7 x 32 + 4 + 8 + 16 = 252.
    let mut first = Vec::new();
    while blocks.len() > 1 {
        blocks = blocks.chunks(2).map(|pair| program.add(then(pair[0], pair[1]))).collect();
        first.push(blocks[0]);
    }
    let mut tail = program.sequence(first[4], 7);
    for block in &first[1..4] {
        tail = program.add(then(tail, *block));
    }
    let one = program.add(any());
    let start = program.add(star(one));
    program.add(then(start, tail));
    program.rows
}

/// 51 choices between two moves in sequence: 256 positions. The choices are those of `pairs`, taken in turn.
pub fn choices(moves: usize, pairs: &[(u16, u16)]) -> Vec<Row> {
    let mut program = Program::new(moves);
    let mut rows = Vec::new();
    for &(a, b) in pairs {
        let a = program.add(make(a));
        let b = program.add(make(b));
        rows.push(program.add(either(a, b)));
    }
    let mut all = rows[0];
    for i in 1..51 {
        all = program.add(then(all, rows[i % rows.len()]));
    }
    program.rows
}

/// Stars around stars, beside whiles of nil, which never end where their fact is true: as many as 256 positions allow,
/// with any rows here and there.
pub fn loops(moves: usize, facts: u16) -> Vec<Row> {
    let mut program = Program::new(moves);
    let one = program.add(any());
    let none = program.add(nil());
    let mut body = program.add(either(one, none));
    let mut depth = 0;
    while program.size(body).length + 17 <= MOST_POSITIONS && program.rows.len() + 7 <= usize::from(MOST_ROWS) {
        for _ in 0..3 {
            body = program.add(star(body));
        }
        let idle = program.add(repeat_while(1 + depth % facts, none));
        body = program.add(either(idle, body));
        if depth % 3 == 0 {
            body = program.add(either(one, body));
        }
        depth += 1;
    }
    program.add(star(body));
    program.rows
}

/// A star over a choice of any and random sequences, as many as fit below `most`; small parts of every kind, some used
/// again.
pub fn tangled(moves: usize, formulas: u16, most: Size, random: &mut Random) -> Vec<Row> {
    let mut program = Program::new(moves);
    let mut body = program.add(any());
    let mut parts = vec![program.add(nil())];
    while program.rows.len() < 100 {
        let part = draw(&mut program, moves, formulas, random);
        parts.push(part);
        let mut chunk = part;
        for _ in 0..3 {
            let part = random.pick(&parts);
            let row = match random.below(3) {
                0 => branch(random.below_u16(formulas), chunk, part),
                _ => then(chunk, part),
            };
            chunk = program.add(row);
        }
        // The choice, and the star around it, have to fit.
        let size = program.size_with(either(chunk, body));
        if size.length + 3 <= most.length && size.steps + 3 <= most.steps {
            body = program.add(either(chunk, body));
        }
    }
    program.add(star(body));
    program.rows
}

/// A small part of a random program, whose row 0 is any.
fn draw(program: &mut Program, moves: usize, formulas: u16, random: &mut Random) -> u16 {
    let formula = random.below_u16(formulas);
    let one = program.add(make(random.below(moves) as u16));
    match random.below(6) {
        0 => {
            let guard = program.add(test(formula));
            program.add(either(guard, one))
        }
        1 => program.add(repeat_while(formula, 0)),
        2 => program.add(star(one)),
        3 => {
            let idle = program.add(star(one));
            program.add(repeat_while(formula, idle))
        }
        4 => {
            let other = program.add(make(random.below(moves) as u16));
            program.add(branch(formula, one, other))
        }
        _ => one,
    }
}
