//! The seven operations, asked of the library and of the second implementation.

use crate::answer::Answer;
use crate::cases::Case;
use crate::lent::Lent;
use crate::library;
use crate::second::expected::Expected;

#[derive(Clone, Copy, Debug, PartialEq, Eq, PartialOrd, Ord)]
pub enum Operation {
    ReadJob,
    Compile,
    CheckMoves,
    CheckSteps,
    LeastCost,
    Judge,
    Sheet,
}

use Operation::*;

pub const OPERATIONS: [Operation; 7] = [ReadJob, Compile, CheckMoves, CheckSteps, LeastCost, Judge, Sheet];

impl Operation {
    pub fn name(self) -> &'static str {
        match self {
            ReadJob => "read_job",
            Compile => "compile",
            CheckMoves => "check_moves",
            CheckSteps => "check_steps",
            LeastCost => "least_cost",
            Judge => "judge",
            Sheet => "sheet",
        }
    }

    pub fn takes_list(self) -> bool {
        self != ReadJob
    }

    pub fn takes_table(self) -> bool {
        matches!(self, LeastCost | Judge)
    }

    pub fn takes_out(self) -> bool {
        self == Sheet
    }

    pub fn takes_costs(self) -> bool {
        !matches!(self, ReadJob | Compile)
    }

    /// The plan text that the operation takes.
    pub fn plan(self, case: &Case) -> Option<&[u8]> {
        match self {
            CheckMoves | Judge | Sheet => Some(&case.moves),
            CheckSteps => Some(&case.steps),
            ReadJob | Compile | LeastCost => None,
        }
    }

    /// What the library answers.
    pub fn ask_library(self, case: &Case, Lent { list, table, out }: Lent) -> Answer {
        match self {
            ReadJob => library::read_job(&case.job),
            Compile => library::compile(&case.job, list),
            CheckMoves => library::check_moves(&case.job, &case.moves, case.given(), list),
            CheckSteps => library::check_steps(&case.job, &case.steps, case.given(), list),
            LeastCost => library::least_cost(&case.job, case.given(), list, table),
            Judge => library::judge(&case.job, &case.moves, case.given(), list, table),
            Sheet => library::sheet(&case.job, &case.moves, case.given(), list, out),
        }
    }

    /// What the second implementation answers.
    pub fn ask_second(self, expected: &Expected, Lent { list, table, out }: Lent) -> Answer {
        match self {
            ReadJob => expected.read_job(),
            Compile => expected.compile(list),
            CheckMoves => expected.check_moves(list),
            CheckSteps => expected.check_steps(list),
            LeastCost => expected.least_cost(list, table),
            Judge => expected.judge(list, table),
            Sheet => expected.sheet(list, out),
        }
    }
}
