//! The order of refusals: every set of flaws at once, in job, costs, plan, list, table and output, asked of every
//! operation. The first flaw that the operation looks for decides, and then nothing is changed.

use jesmovit_compare::answer::Answer;
use jesmovit_compare::comparison::operation::{Operation, Operation::*, OPERATIONS};
use jesmovit_compare::lent::Lengths;

use crate::both::{ask_for, Handed};
use crate::costs::house_with;
use crate::sample::{sample_over, sample_text};

/// The sample's list, table and sheet need these.
const NEEDED: Lengths = Lengths { list: 8, table: 12, out: 1860 };

#[derive(Clone, Copy, Debug, PartialEq)]
enum Flaw {
    Form,
    Range,
    Field,
    Variable,
    Large,
    Costs,
    Plan,
    List,
    Table,
    Output,
}

use Flaw::*;

/// In the order in which they are looked for: the job's first three stand on lines 1, 3 and 14.
const ORDER: [Flaw; 10] = [Form, Range, Field, Variable, Large, Costs, Plan, List, Table, Output];

/// Whether the operation looks for the flaw.
fn looks_for(operation: Operation, flaw: Flaw) -> bool {
    match flaw {
        Form | Range | Field => true,
        Variable | Large | List => operation.takes_list(),
        Costs => operation.takes_costs(),
        Plan => !matches!(operation, ReadJob | Compile | LeastCost),
        Table => operation.takes_table(),
        Output => operation.takes_out(),
    }
}

/// The number and the place of a refusal, where the job text has so many lines.
fn refusal(flaw: Flaw, lines: u64) -> Answer {
    match flaw {
        Form => Answer::refused(1, 1),
        Range => Answer::refused(2, 3),
        Field => Answer::refused(3, 14),
        Variable => Answer::refused(8, lines),
        Large => Answer::refused(4, lines),
        Costs => Answer::refused(7, 17),
        Plan => Answer::refused(5, 3),
        List => Answer::refused(6, NEEDED.list as u64),
        Table => Answer::refused(6, NEEDED.table as u64),
        Output => Answer::refused(6, NEEDED.out as u64),
    }
}

/// The sample with the job's flaws of the set: a variable in the program's first row, 257 positions by doubling.
fn job_with(flaws: &[Flaw]) -> String {
    let first = if flaws.contains(&Variable) { [10, 0, 0, 0] } else { [1, 0, 0, 0] };
    let doubled = (0..8).map(|row| [4, row, row, 0]);
    let rows: Vec<[u16; 4]> = if flaws.contains(&Large) {
        std::iter::once(first).chain(doubled).collect()
    } else {
        vec![first, [1, 1, 0, 0], [4, 0, 1, 0]]
    };
    let changes = [(Form, "job=1\n", "job=01\n"), (Range, "init=0\n", "init=4\n"), (Field, "goal=1\n", "goal=4\n")];
    changes.into_iter().filter(|(flaw, ..)| flaws.contains(flaw)).fold(sample_over(0, &rows), |job, (_, from, to)| {
        assert!(job.contains(from));
        job.replacen(from, to, 1)
    })
}

/// The sample's plan in moves or steps; the bad text has one entry that the job lacks.
fn plan_with(operation: Operation, flaws: &[Flaw]) -> String {
    let key = if operation == CheckSteps { "t" } else { "m" };
    format!("plan=2\n{key}=0\n{key}={}\n", if flaws.contains(&Plan) { 9 } else { 1 })
}

/// The house's costs; the bad text lacks its last line feed.
fn costs_with(flaws: &[Flaw]) -> Vec<u8> {
    let mut costs = house_with(&[]);
    costs.truncate(costs.len() - usize::from(flaws.contains(&Costs)));
    costs
}

/// The lengths that are needed, one less of what the set makes too short.
fn lengths_with(flaws: &[Flaw]) -> Lengths {
    let short = |flaw| usize::from(flaws.contains(&flaw));
    Lengths { list: NEEDED.list - short(List), table: NEEDED.table - short(Table), out: NEEDED.out - short(Output) }
}

/// Asks an operation with all flaws of a set, and demands the refusal of the first of them that it looks for.
fn first_decides(operation: Operation, flaws: &[Flaw]) {
    let job = job_with(flaws);
    let (plan, costs) = (plan_with(operation, flaws), costs_with(flaws));
    let handed = Handed { job: job.as_bytes(), plan: plan.as_bytes(), costs: Some(&costs) };
    let asked = ask_for(operation, handed, lengths_with(flaws));
    match flaws.iter().find(|flaw| looks_for(operation, **flaw)) {
        Some(flaw) => {
            assert_eq!(asked.answer, refusal(*flaw, job.lines().count() as u64), "{operation:?}, {flaws:?}");
            asked.holds(&[], &[]);
        }
        None => assert_eq!(asked.answer.number, 0, "{operation:?}, {flaws:?}"),
    }
}

#[test]
fn every_set_of_flaws() {
    assert_eq!(job_with(&[]), sample_text());
    for set in 0..1usize << ORDER.len() {
        let flaws: Vec<Flaw> = (0..ORDER.len()).filter(|i| set >> i & 1 == 1).map(|i| ORDER[i]).collect();
        OPERATIONS.iter().for_each(|operation| first_decides(*operation, &flaws));
    }
}
