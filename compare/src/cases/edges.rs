//! Which limits of documents 01 and 02 a case meets, or passes by one; which costs texts it has, and which bad texts
//! beside each other; where effects conflict; where moves cost more, and what that makes of a plan; which picks and
//! variables its program has; how its moves fill the pages of a sheet.

use super::costs::GREATEST_COSTS;
use super::look::{is_cost, is_longest, Look};
use super::made::Made;
use super::Case;
use crate::second::compiler::{MOST_POSITIONS, MOST_STEPS};
use crate::second::domain::clear_and_set;
use crate::second::job::*;
use crate::second::reader::read_costs;
use crate::second::scope::is_variable;
use crate::second::sheet::PAGE_LINES;

/// A limit, and whether a case meets it.
type Edge = (&'static str, fn(&Look) -> bool);

/// The limits, in the order in which they are printed.
pub const EDGES: [Edge; 99] = [
    ("0 facts", |look| look.job(|job| job.facts == 0)),
    ("12 facts", |look| look.job(|job| job.facts == MOST_FACTS)),
    ("13 facts", |look| look.refused_line == Some(b"facts=13")),
    ("greatest init", |look| look.job(|job| job.facts > 0 && job.init == (1 << job.facts) - 1)),
    ("init too large", |look| look.refused_line.is_some_and(|line| line.starts_with(b"init="))),
    ("0 formulas", |look| look.refused_line == Some(b"formulas=0")),
    ("255 formulas", |look| look.job(|job| job.formulas.len() == usize::from(MOST_FORMULAS))),
    ("256 formulas", |look| look.refused_line == Some(b"formulas=256")),
    ("0 moves", |look| look.job(|job| job.moves.is_empty())),
    ("64 moves", |look| look.job(|job| job.moves.len() == usize::from(MOST_MOVES))),
    ("65 moves", |look| look.refused_line == Some(b"moves=65")),
    ("16 effects", |look| {
        look.job(|job| job.moves.iter().any(|action| action.effects.len() == usize::from(MOST_EFFECTS)))
    }),
    ("17 effects", |look| look.move_out_of_range(|[_, _, effects, ..], _| effects == 17)),
    ("17 effects, bad class", |look| {
        look.move_out_of_range(|[_, _, effects, _, second], _| effects == 17 && second == 16)
    }),
    ("17 effects, bad formula", |look| {
        look.move_out_of_range(|[_, _, effects, condition, _], formulas| effects == 17 && condition == formulas)
    }),
    ("move of 3 numbers", |look| look.move_of_numbers(3)),
    ("move of 4 numbers", |look| look.move_of_numbers(4)),
    ("move of 6 numbers", |look| look.move_of_numbers(6)),
    ("blocked by a conflict", |look| look.blocked_by_conflict()),
    ("conflict if all held", |look| look.plan_with(|action| clear_and_set(&action.effects))),
    ("class 15", |look| look.job(|job| job.moves.iter().any(|action| action.class == CLASSES - 1))),
    ("second class 15", |look| look.job(|job| job.moves.iter().any(|action| action.second_class == CLASSES - 1))),
    ("second class 16", |look| {
        look.wrong_move(|[pre, class, _, condition, second], formulas| {
            second == 16 && class < 16 && pre.max(condition) < formulas
        })
    }),
    ("second by last formula", |look| {
        look.job(|job| job.moves.iter().any(|action| has_second_by(action, job.formulas.len() - 1)))
    }),
    ("second by no formula", |look| {
        look.wrong_move(|[pre, class, _, condition, second], formulas| {
            condition == formulas && pre < formulas && class.max(second) < 16
        })
    }),
    ("one move at two costs", |look| look.plan(has_two_costs)),
    ("second only before a move", |look| look.plan(|plan| plan.iter().any(|made| made.has_second(true, false)))),
    ("second only after a move", |look| look.plan(|plan| plan.iter().any(|made| made.has_second(false, true)))),
    ("move at 131070", |look| look.plan(|plan| plan.iter().any(|made| made.cost() == 131_070))),
    ("dearer by second classes", |look| {
        look.stands(|plan| plan.cost > plan.least && plan.plain_cost == plan.plain_least)
    }),
    ("least by second classes", |look| {
        look.stands(|plan| plan.cost == plan.least && plan.plain_cost > plan.plain_least)
    }),
    ("least by a longer way", |look| {
        look.stands(|plan| {
            plan.cost == plan.least && plan.plain_cost > plan.plain_least && plan.moves > plan.fewest_moves
        })
    }),
    ("any over 0 moves", |look| look.job(|job| job.moves.is_empty() && job.rows.iter().any(|row| row[0] == 2))),
    ("17 objects", |look| look.refused_line == Some(b"objects=17")),
    ("pick over 0 objects", |look| look.reaches(|job, row, _| row[0] == 9 && job.objects == 0)),
    ("pick over 1 object", |look| look.reaches(|job, row, _| row[0] == 9 && job.objects == 1)),
    ("pick over 16 objects", |look| look.reaches(|job, row, _| row[0] == 9 && job.objects == MOST_OBJECTS)),
    ("6 picks deep, 2 objects", |look| look.reaches(|job, _, picks| picks == 6 && job.objects == 2)),
    ("127 picks deep", |look| look.reaches(|_, _, picks| picks == MOST_ROWS - 1)),
    ("move of an object", |look| look.reaches(|job, row, _| row[0] == 10 && job.objects > 0)),
    ("test of an object", |look| look.reaches(|job, row, _| row[0] == 11 && job.objects > 0)),
    ("object of an outer pick", |look| look.reaches(|job, row, _| is_variable(row) && row[2] > 0 && job.objects > 1)),
    ("greatest base of a move", |look| look.greatest_base(10)),
    ("greatest base of a test", |look| look.greatest_base(11)),
    ("base of a move one more", |look| look.base_too_great(10)),
    ("base of a test one more", |look| look.base_too_great(11)),
    ("variable in unused row", |look| look.leaves(is_variable)),
    ("65535 in an unused move", |look| look.leaves(|row| is_last_variable(row, 10))),
    ("65535 in an unused test", |look| look.leaves(|row| is_last_variable(row, 11))),
    ("row in and out of a pick", |look| look.compiles() && look.uses(|_, fewest, most| fewest < most)),
    ("plan by a later object", |look| look.plan_by_later_object()),
    ("free variable", |look| look.free(|_| true)),
    ("variable 65535 in a move", |look| look.uses(|row, _, _| is_last_variable(row, 10))),
    ("variable 65535 in a test", |look| look.uses(|row, _, _| is_last_variable(row, 11))),
    ("free in one of its uses", |look| {
        look.uses(|row, fewest, most| is_variable(row) && (fewest..most).contains(&row[2]))
    }),
    ("free in an empty pick", |look| look.free_in_empty_pick()),
    ("free and too large", |look| look.free(|size| !size.fits())),
    ("free and bad costs", |look| look.free(|_| true) && look.costs_are_bad()),
    ("free and bad moves", |look| look.free(|_| true) && look.moves_are_bad()),
    ("0 rows", |look| look.refused_line == Some(b"program=0")),
    ("128 rows", |look| look.job(|job| job.rows.len() == usize::from(MOST_ROWS))),
    ("129 rows", |look| look.refused_line == Some(b"program=129")),
    ("256 positions", |look| look.size(|size, _| size.length + 1 == MOST_POSITIONS && size.fits())),
    ("257 positions", |look| look.size(|size, _| size.length == MOST_POSITIONS && size.steps <= MOST_STEPS)),
    ("1024 steps", |look| look.size(|size, _| size.steps == MOST_STEPS && size.fits())),
    ("1025 steps", |look| look.size(|size, _| size.steps == MOST_STEPS + 1 && size.length < MOST_POSITIONS)),
    ("100000 costs and more", |look| look.size(|size, facts| size.fits() && (size.length + 1) << facts >= 100_000)),
    ("1048576 costs", |look| look.size(|size, facts| size.fits() && (size.length + 1) << facts == 1_048_576)),
    ("plan of 4000 moves", |look| is_longest(look.moves())),
    ("plan of 4000 steps", |look| is_longest(look.steps())),
    ("plan=4001", |look| {
        let texts = [&look.case.moves, &look.case.steps];
        look.compiles() && texts.iter().any(|text| text.starts_with(b"plan=4001\n"))
    }),
    ("no costs", |look| look.compiles() && look.costs.is_none()),
    ("no costs, bad bytes", |look| look.compiles() && look.costs.is_none() && read_costs(&look.case.costs).is_err()),
    ("costs of 0", |look| look.costs(|costs| costs.iter().all(|cost| *cost == 0))),
    ("costs of 65535", |look| look.costs(|costs| *costs == GREATEST_COSTS)),
    ("cost of 3601", |look| look.costs(|costs| costs.contains(&3601))),
    ("cost of 65534", |look| look.costs(|costs| costs.contains(&(MOST_COST - 1)))),
    ("house costs", |look| look.costs(|costs| *costs == HOUSE_COSTS)),
    ("empty costs", |look| look.bad_costs(|place, line| place == 1 && line.is_none())),
    ("costs=15", |look| look.bad_costs(|_, line| line == Some(b"costs=15"))),
    ("costs=17", |look| look.bad_costs(|_, line| line == Some(b"costs=17"))),
    ("cost of 65536", |look| look.bad_costs(|_, line| line == Some(b"c=65536"))),
    ("class 0 at 1", |look| look.bad_costs(|place, line| place == 2 && line == Some(b"c=1"))),
    ("class 0 at 65535", |look| look.bad_costs(|place, line| place == 2 && line == Some(b"c=65535"))),
    ("cost of wrong form", |look| look.bad_costs(|place, line| place > 1 && line.is_some_and(|line| !is_cost(line)))),
    ("cost missing", |look| look.bad_costs(|place, line| place > 1 && line.is_none())),
    ("cost extra", |look| look.bad_costs(|place, line| place == 18 && line.is_some_and(is_cost))),
    ("bad job and costs", |look| !look.job(|_| true) && look.costs_are_bad()),
    ("too large and bad moves", |look| look.size(|size, _| !size.fits()) && look.moves_are_bad()),
    ("too large and bad costs", |look| look.size(|size, _| !size.fits()) && look.costs_are_bad()),
    ("bad costs and moves", |look| look.costs_are_bad() && matches!(look.moves(), Some(Err(_)))),
    ("bad costs and steps", |look| look.costs_are_bad() && matches!(look.steps(), Some(Err(_)))),
    ("sheet of no page", |look| look.plan(|plan| plan.is_empty())),
    ("sheet of several pages", |look| look.plan(|plan| plan.len() > PAGE_LINES)),
    ("last page full", |look| look.plan(|plan| !plan.is_empty() && plan.len() % PAGE_LINES == 0)),
    ("last page of one move", |look| look.plan(|plan| plan.len() > PAGE_LINES && plan.len() % PAGE_LINES == 1)),
    ("sheet of 4000 moves", |look| look.plan(|plan| plan.len() == usize::from(MOST_ENTRIES))),
    ("total of 9 digits", |look| look.plan(|plan| total(plan) >= 100_000_000)),
    ("total above 262140000", |look| look.plan(|plan| total(plan) > 262_140_000)),
];

/// Whether a move has a second class above 0 under this formula.
fn has_second_by(action: &Move, formula: usize) -> bool {
    action.second_class > 0 && usize::from(action.second_formula) == formula
}

/// Whether a plan makes one move at two costs.
fn has_two_costs(plan: &[Made]) -> bool {
    let mut first = [None; MOST_MOVES as usize];
    plan.iter().any(|made| *first[usize::from(made.index)].get_or_insert(made.cost()) != made.cost())
}

/// What a plan costs.
fn total(plan: &[Made]) -> u64 {
    plan.iter().map(Made::cost).sum()
}

/// Whether a row is of this kind, a move or a test of an object, and its pick is as far out as a number can say.
fn is_last_variable(row: &[u16; 4], kind: u16) -> bool {
    row[0] == kind && row[2] == u16::MAX
}

/// Whether the case meets each limit.
pub fn edges(case: &Case) -> [bool; EDGES.len()] {
    let look = Look::at(case);
    EDGES.map(|(_, meets)| meets(&look))
}
