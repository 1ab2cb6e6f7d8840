//! Asks the library and the second implementation the same, and gives what both answer and leave.

use std::fmt::Debug;

use jesmovit_compare::answer::Answer;
use jesmovit_compare::cases::Case;
use jesmovit_compare::comparison::operation::{Operation, OPERATIONS};
use jesmovit_compare::lent::{Held, Lengths, Lent};
use jesmovit_compare::library::COSTS_GIVEN;
use jesmovit_compare::second::expected::Expected;
use jesmovit_compare::second::fault::Fault;

/// What every number of a list, of a table, and of an output is before a call: a seven in each byte.
const SEVENS: (u16, u64, u8) = (0x0707, 0x0707_0707_0707_0707, 7);

/// How many numbers stand behind a list, table or output that is handed in.
const GUARDS: usize = 3;

/// Lengths of list, table and output, too short for the sample, just enough, and longer.
#[rustfmt::skip]
const LENGTHS: [(usize, usize, usize); 7] = [
    (0, 0, 0), (7, 11, 1859), (7, 12, 1860), (8, 11, 1859), (8, 12, 1860), (9, 13, 1861), (4096, 6144, 124_620),
];

/// What a call answered, and what list, table and output hold afterwards, with the numbers behind them.
pub struct Asked {
    pub answer: Answer,
    held: Held,
}

impl Asked {
    /// Demands that list and table start with these numbers and hold sevens behind them, and the output nothing else.
    pub fn holds(&self, list: &[u16], table: &[u64]) {
        self.holds_all(list, table, b"");
    }

    /// A line of the output by its number from 1, where each has so many bytes.
    pub fn line(&self, number: usize, bytes: usize) -> String {
        String::from_utf8_lossy(&self.held.out[(number - 1) * bytes..number * bytes]).into_owned()
    }

    /// Demands that list, table and output start so, and hold sevens behind.
    pub fn holds_all(&self, list: &[u16], table: &[u64], out: &[u8]) {
        let Held { list: own_list, table: own_table, out: own_out } = &self.held;
        same("list", own_list, &resized(list, own_list.len(), SEVENS.0));
        same("table", own_table, &resized(table, own_table.len(), SEVENS.1));
        same("output", own_out, &resized(out, own_out.len(), SEVENS.2));
    }
}

/// Demands equal numbers; what is said of others is the first that differs.
fn same<T: Copy + Debug + PartialEq>(name: &str, left: &[T], right: &[T]) {
    let differs = left.iter().zip(right).position(|(left, right)| left != right);
    assert_eq!(differs.map(|index| (index, left[index])), differs.map(|index| (index, right[index])), "{name}");
    assert_eq!(left.len(), right.len(), "{name}");
}

/// These numbers and others behind them, up to a length.
fn resized<T: Copy>(front: &[T], length: usize, behind: T) -> Vec<T> {
    let mut numbers = front.to_vec();
    numbers.resize(length, behind);
    numbers
}

/// A job text, the text of moves or of steps that an operation takes, and the costs text where one is handed in.
#[derive(Clone, Copy)]
pub struct Handed<'a> {
    pub job: &'a [u8],
    pub plan: &'a [u8],
    pub costs: Option<&'a [u8]>,
}

impl Handed<'_> {
    /// The case of these texts. Where no costs text is handed in its bytes are bad, and only other bits are set.
    fn case(&self) -> Case {
        let [job, plan, costs] = [self.job, self.plan, self.costs.unwrap_or(b"bad")].map(<[u8]>::to_vec);
        let bits = if self.costs.is_some() { COSTS_GIVEN } else { !COSTS_GIVEN };
        Case { job, moves: plan.clone(), steps: plan, costs, bits }
    }
}

/// Asks both with a list and a table of these lengths, and no costs text.
pub fn ask(operation: Operation, job: &[u8], plan: &[u8], list: usize, table: usize) -> Asked {
    ask_with(operation, Handed { job, plan, costs: None }, list, table)
}

/// Asks both with a list and a table of these lengths, and no room for a sheet.
pub fn ask_with(operation: Operation, handed: Handed, list: usize, table: usize) -> Asked {
    ask_for(operation, handed, Lengths { list, table, out: 0 })
}

/// Asks both with a list, a table and an output of these lengths.
pub fn ask_for(operation: Operation, handed: Handed, lengths: Lengths) -> Asked {
    let case = handed.case();
    let expected = Expected::of(&case.texts(), Fault::None);
    let asked = |call: &dyn Fn(Lent) -> Answer| {
        let mut held = sevens(lengths);
        let answer = call(held.lend(lengths));
        Asked { answer, held }
    };
    let library = asked(&|lent| operation.ask_library(&case, lent));
    let second = asked(&|lent| operation.ask_second(&expected, lent));
    assert_eq!(library.answer, second.answer, "{operation:?}, {lengths:?}");
    library.holds_all(&second.held.list, &second.held.table, &second.held.out);
    library
}

/// Sevens in parts of these lengths, and behind them.
fn sevens(Lengths { list, table, out }: Lengths) -> Held {
    Held {
        list: vec![SEVENS.0; list + GUARDS],
        table: vec![SEVENS.1; table + GUARDS],
        out: vec![SEVENS.2; out + GUARDS],
    }
}

/// Demands a refusal that leaves list, table and output as they were, whatever their lengths.
pub fn refused(operation: Operation, job: &[u8], plan: &[u8], number: u32, place: u64) {
    refused_with(operation, Handed { job, plan, costs: None }, number, place);
}

/// The same with a costs text.
pub fn refused_with(operation: Operation, handed: Handed, number: u32, place: u64) {
    for (list, table, out) in LENGTHS {
        let asked = ask_for(operation, handed, Lengths { list, table, out });
        assert_eq!(asked.answer, Answer::refused(number, place), "{operation:?}");
        asked.holds(&[], &[]);
    }
}

/// Demands that every operation that looks for this reason refuses the job text so.
pub fn all_refuse(job: &[u8], number: u32, place: u64) {
    for operation in OPERATIONS {
        if operation == Operation::ReadJob && number > 3 {
            assert_eq!(ask(operation, job, b"", 0, 0).answer.number, 0);
        } else {
            refused(operation, job, b"plan=0\n", number, place);
        }
    }
}
