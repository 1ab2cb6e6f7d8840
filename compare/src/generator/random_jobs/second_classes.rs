//! Second classes of random moves, with the conditions under which they are added.

use crate::generator::random::Random;
use crate::second::job::{Job, CLASSES};

/// How the moves of a job get second classes: none does, each under a condition of its own, or all under one.
#[derive(Clone, Copy)]
enum Style {
    Plain,
    Own,
    Common,
}

/// Gives the moves of a job second classes and conditions, or some of them none.
pub fn add_second_classes(random: &mut Random, job: &mut Job) {
    let style = random.weighted(&[(100, Style::Plain), (750, Style::Own), (150, Style::Common)]);
    let open = with_facts(&job.formulas);
    let common = condition(random, job.formulas.len(), &open);
    for action in &mut job.moves {
        let own = condition(random, job.formulas.len(), &open);
        (action.second_formula, action.second_class) = match style {
            Style::Own if random.chance(800) => (own, class(random)),
            Style::Common => (common, class(random)),
            _ => (0, 0),
        };
    }
}

/// The formulas with a fact in them.
fn with_facts(formulas: &[[u16; 3]]) -> Vec<u16> {
    let mut found = Vec::new();
    for (formula, [kind, a, b]) in (0..).zip(formulas) {
        let has_fact = match kind {
            0 | 1 => false,
            2 => true,
            3 => found.contains(a),
            _ => found.contains(a) || found.contains(b),
        };
        if has_fact {
            found.push(formula);
        }
    }
    found
}

/// One of so many formulas, mostly one with a fact in it; often the last of these.
fn condition(random: &mut Random, formulas: usize, open: &[u16]) -> u16 {
    let any = random.below(formulas) as u16;
    let Some(last) = open.last() else {
        return any;
    };
    let with_fact = random.pick(open);
    random.weighted(&[(15, any), (75, with_fact), (10, *last)])
}

/// A class, mostly above 0.
fn class(random: &mut Random) -> u16 {
    let last = usize::from(CLASSES) - 1;
    random.ranged(&[(100, (0, 0)), (500, (1, 4)), (300, (1, last)), (100, (last, last))]) as u16
}
