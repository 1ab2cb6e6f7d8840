//! The sample of document 01 and jobs made from it, worked out by hand.

use jesmovit_compare::generator::writer::job_text;
use jesmovit_compare::second::job::{Job, Move};

use crate::worked::Worked;

/// An entry of the cost table that can't be reached.
pub const X: u64 = 18_446_744_073_709_551_615;

/// The sample's text; its 19 lines are job, facts, init, formulas, 4 f, moves, m, e, m, e, goal, objects, program, 3 p.
pub fn sample_text() -> String {
    include_str!("../../../sample/job.txt").to_string()
}

/// The sample's text with another program.
pub fn sample_with(program: &str) -> String {
    let text = sample_text();
    let domain = text.split("program=").next().expect("a text has a first part");
    format!("{domain}{program}")
}

/// The sample's text with so many objects and another program.
pub fn sample_over(objects: u16, rows: &[[u16; 4]]) -> String {
    let rows: String = rows.iter().map(|[kind, a, b, c]| format!("p={kind},{a},{b},{c}\n")).collect();
    let program = format!("program={}\n{rows}", rows.lines().count());
    sample_with(&program).replace("objects=0", &format!("objects={objects}"))
}

/// The sample. Move 0 leads from state 0 to state 2 at 20, move 1 from there to state 3 at 5.
#[rustfmt::skip]
pub fn sample() -> Worked {
    Worked {
        job: sample_text(),
        costs: None,
        positions: 3,
        list: vec![3, 0, 1, 0, 3, 1, 2, 1],
        table: vec![
            0, X, X,
            X, X, X,
            X, 20, X,
            X, X, 25,
        ],
    }
}

/// The sample with the program star of (0 or 1). In state 3 position 3 is reached by move 0 once more.
#[rustfmt::skip]
pub fn star_of_or() -> Worked {
    Worked {
        job: sample_with("program=4\np=1,0,0,0\np=1,1,0,0\np=6,0,1,0\np=8,2,0,0\n"),
        costs: None,
        positions: 8,
        list: [
            [3, 2, 3, 0], [3, 4, 5, 1], [0, 1, 2, 0], [0, 1, 4, 0], [0, 3, 6, 0], [0, 5, 6, 0],
            [0, 0, 1, 0], [0, 6, 0, 0], [0, 0, 7, 0],
        ].concat(),
        table: vec![
            0, 0, 0, X, 0, X, X, 0,
            X, X, X, X, X, X, X, X,
            20, 20, 20, 20, 20, X, 20, 20,
            25, 25, 25, 45, 25, 25, 25, 25,
        ],
    }
}

/// The sample with the program star of (while formula 3 do 0). Fact 0 stays false, so the while is never left.
#[rustfmt::skip]
pub fn star_of_while() -> Worked {
    Worked {
        job: sample_with("program=3\np=1,0,0,0\np=7,3,0,0\np=8,1,0,0\n"),
        costs: None,
        positions: 6,
        list: [
            [3, 2, 3, 0], [1, 1, 2, 3], [2, 1, 4, 3], [0, 3, 1, 0],
            [0, 0, 1, 0], [0, 4, 0, 0], [0, 0, 5, 0],
        ].concat(),
        table: vec![
            0, 0, 0, X, X, 0,
            X, X, X, X, X, X,
            X, 20, 20, 20, X, X,
            X, X, X, X, X, X,
        ],
    }
}

/// The text of a job from init 0 without objects.
pub fn text_of(facts: u16, formulas: &[[u16; 3]], moves: Vec<Move>, goal: u16, rows: &[[u16; 4]]) -> String {
    let job = Job { facts, init: 0, formulas: formulas.to_vec(), moves, goal, objects: 0, rows: rows.to_vec() };
    String::from_utf8(job_text(&job)).expect("a job text is ASCII")
}

/// One fact, false at first and true at the goal, and one move of class 1 with these effects, which is the program.
pub fn one_move(effects: &[[u16; 3]]) -> Worked {
    one_move_of(1, effects)
}

/// The same with a move of this class; the table is that of a move that costs 5.
pub fn one_move_of(class: u16, effects: &[[u16; 3]]) -> Worked {
    let action = Move::plain(0, class, effects.to_vec());
    Worked {
        job: text_of(1, &[[1, 0, 0], [2, 0, 0]], vec![action], 1, &[[1, 0, 0, 0]]),
        costs: None,
        positions: 2,
        list: vec![3, 0, 1, 0],
        table: vec![0, X, X, 5],
    }
}

/// The sample with init=1 and the program nil.
pub fn nil_at_goal() -> Worked {
    Worked {
        job: sample_with("program=1\np=0,0,0,0\n").replace("init=0", "init=1"),
        costs: None,
        positions: 2,
        list: vec![0, 0, 1, 0],
        table: vec![X, X, 0, 0, X, X, X, X],
    }
}
