//! Sets of moves, over the formulas of `formulas`.

use super::formulas::Formulas;
use super::random::Random;
use crate::second::job::{Move, MOST_EFFECTS};

/// A move whose effects (fact, value) have the condition formula 0, which is true.
pub fn unconditional(pre: u16, class: u16, effects: &[(u16, u16)]) -> Move {
    Move::plain(pre, class, effects.iter().map(|&(fact, value)| [0, fact, value]).collect())
}

/// Moves that add one to the number that the facts write, each of a class of its own: move i sets fact i where it alone
/// of facts 0 to i is false, and clears those below.
pub fn increments(facts: u16, mut class: impl FnMut() -> u16) -> Vec<Move> {
    let formulas = Formulas { facts };
    let increment = |i: u16| {
        let mut effects = vec![(i, 1)];
        effects.extend((0..i).map(|j| (j, 0)));
        unconditional(formulas.last_false(i), class(), &effects)
    };
    (0..facts).map(increment).collect()
}

/// `counter` of tests/jobs: increments at class 1, and moves that clear a fact at class 0.
pub fn counter(facts: u16) -> Vec<Move> {
    let mut moves = increments(facts, || 1);
    for m in moves.len() as u16..64 {
        moves.push(unconditional(0, 0, &[(m % facts, 0)]));
    }
    moves
}

/// `cube` of tests/jobs: for each fact i three moves set it, at classes i + 3 to i + 1, two clear it at class 0, and
/// the others change nothing.
pub fn cube(facts: u16) -> Vec<Move> {
    let mut moves = Vec::new();
    for i in 0..facts {
        for class in [i + 3, i + 2, i + 1] {
            moves.push(unconditional(0, class, &[(i, 1)]));
        }
        moves.push(unconditional(0, 0, &[(i, 0)]));
        moves.push(unconditional(0, 0, &[(i, 0)]));
    }
    while moves.len() < 64 {
        moves.push(unconditional(0, 0, &[]));
    }
    moves
}

/// `cube`, whose moves cost more where some fact is true: second classes 1 to 15, in turn.
pub fn conditional(facts: u16) -> Vec<Move> {
    let formulas = Formulas { facts };
    let dearer = |(m, action): (u16, Move)| action.with_second(formulas.fact((7 * m + 3) % facts), 1 + m % 15);
    (0..).zip(cube(facts)).map(dearer).collect()
}

/// Moves of which each sets or clears one fact, at random classes from `low` to `high`.
pub fn flips(facts: u16, low: u16, high: u16, random: &mut Random) -> Vec<Move> {
    let flip = |m: u16| {
        let class = low + random.below_u16(high - low + 1);
        unconditional(0, class, &[(m / 2 % facts, m % 2)])
    };
    (0..64).map(flip).collect()
}

/// Moves of which each sets or clears fact 0 or 1, of all classes.
pub fn few() -> Vec<Move> {
    (0..64).map(|m| unconditional(0, m % 16, &[(m / 2 % 2, m % 2)])).collect()
}

/// Moves of which each changes one to three facts, whatever they are, so that a state has one predecessor by each; of
/// random classes.
pub fn toggles(facts: u16, random: &mut Random) -> Vec<Move> {
    let formulas = Formulas { facts };
    let toggle = |m: u16| {
        let effects = (0..1 + m / facts % 3).flat_map(|k| {
            let i = (m + k * 5) % facts;
            [[formulas.no(i), i, 1], [formulas.fact(i), i, 0]]
        });
        Move::plain(0, random.below_u16(16), effects.collect())
    };
    (0..64).map(toggle).collect()
}

/// Increments at class 1, and for facts 0 to 9 a move that sets it, at a class at which counting up to there is
/// cheaper: a state is reached by long jumps first, and then again and again at less.
pub fn improving(facts: u16) -> Vec<Move> {
    let formulas = Formulas { facts };
    let mut moves = increments(facts, || 1);
    for (i, class) in [2, 2, 4, 5, 7, 9, 11, 13, 14, 15].into_iter().enumerate() {
        moves.push(unconditional(formulas.no(i as u16), class, &[(i as u16, 1)]));
    }
    moves
}

/// Moves that set or clear each fact, and others of random preconditions and effects over so many formulas, which
/// conflict in many states; all of random classes.
pub fn mixed(facts: u16, formulas: u16, random: &mut Random) -> Vec<Move> {
    let mut moves = Vec::new();
    for m in 0..64 {
        let class = random.below_u16(16);
        if m < 2 * facts {
            moves.push(unconditional(0, class, &[(m / 2, m % 2)]));
            continue;
        }
        let count = 1 + random.below_u16(MOST_EFFECTS);
        let effect = |random: &mut Random| {
            let condition = random.below_u16(formulas);
            [condition, random.below_u16(facts), random.below_u16(2)]
        };
        let effects = (0..count).map(|_| effect(random)).collect();
        let pre = random.below_u16(formulas);
        moves.push(Move::plain(pre, class, effects));
    }
    moves
}
