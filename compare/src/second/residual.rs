//! Residual programs and their transitions, by the section of document 01 on what a program allows, and for a pick by
//! equation (13) of document 003. No positions occur here.

use std::collections::HashMap;

use super::fault::Fault;
use super::job::Job;
use super::rows::Rows;

/// A residual program by its number; equal ones have the same number.
pub type Residual = usize;

/// The residual program nil.
pub const NIL: Residual = 0;

/// A residual program: nil, a row that is neither nil nor a sequence, or a residual program with a row behind it.
#[derive(Clone, Copy, PartialEq, Eq, Hash)]
enum Term {
    Nil,
    Row(usize),
    Then(Residual, usize),
}

/// What a transition asks for: nothing, a formula that holds or doesn't, or a move that is made.
#[derive(Clone, Copy, Debug, PartialEq, Eq)]
pub enum Label {
    Silent,
    Holds(u16),
    Fails(u16),
    Move(u16),
}

/// A transition of a residual program.
#[derive(Clone, Copy, Debug, PartialEq, Eq)]
pub struct Transition {
    pub label: Label,
    pub to: Residual,
}

/// All residual programs met so far, with their transitions once these were asked for.
pub struct Residuals<'a> {
    job: &'a Job,
    fault: Fault,
    rows: Rows,
    terms: Vec<Term>,
    numbers: HashMap<Term, Residual>,
    transitions: Vec<Option<Vec<Transition>>>,
}

impl<'a> Residuals<'a> {
    pub fn new(job: &'a Job, fault: Fault) -> Self {
        let rows = Rows::new(&job.rows);
        let mut residuals =
            Residuals { job, fault, rows, terms: Vec::new(), numbers: HashMap::new(), transitions: Vec::new() };
        residuals.number(Term::Nil);
        residuals
    }

    /// The whole program.
    pub fn program(&mut self) -> Residual {
        let last = self.job.rows.len() - 1;
        let program = if self.fault == Fault::NearestForOutermost { self.rows.turn(last) } else { last };
        self.row(program)
    }

    /// The transitions of a residual program.
    pub fn transitions(&mut self, from: Residual) -> &[Transition] {
        self.work_out(from);
        self.transitions[from].as_deref().unwrap_or_default()
    }

    fn work_out(&mut self, from: Residual) {
        if self.transitions[from].is_some() {
            return;
        }
        let found = match self.terms[from] {
            Term::Nil => Vec::new(),
            Term::Row(index) => self.of_row(index),
            Term::Then(NIL, behind) => vec![Transition { label: Label::Silent, to: self.row(behind) }],
            Term::Then(first, behind) => {
                let mut found = self.transitions(first).to_vec();
                for transition in &mut found {
                    transition.to = self.number(Term::Then(transition.to, behind));
                }
                found
            }
        };
        self.transitions[from] = Some(found);
    }

    fn of_row(&mut self, index: usize) -> Vec<Transition> {
        let [kind, a, b, c] = self.rows.get(index);
        let to = |label, to| Transition { label, to };
        let [holds, fails] = [Label::Holds(a as u16), Label::Fails(a as u16)];
        match kind {
            1 => vec![to(Label::Move(a as u16), NIL)],
            2 => (0..self.job.moves.len() as u16).map(|index| to(Label::Move(index), NIL)).collect(),
            3 => vec![to(holds, NIL)],
            5 => vec![to(holds, self.row(b)), to(fails, self.row(c))],
            6 => self.choice(a, b),
            7 => {
                let body = self.row(b);
                let again = self.number(Term::Then(body, index));
                vec![to(holds, again), to(fails, NIL)]
            }
            8 => {
                let body = self.row(a);
                vec![to(Label::Silent, NIL), to(Label::Silent, self.number(Term::Then(body, index)))]
            }
            9 => (0..self.job.objects).map(|object| to(Label::Silent, self.picked(a, object))).collect(),
            _ => Vec::new(),
        }
    }

    fn choice(&mut self, a: usize, b: usize) -> Vec<Transition> {
        let first = Transition { label: Label::Silent, to: self.row(a) };
        let second = Transition { label: Label::Silent, to: self.row(b) };
        if self.fault == Fault::FirstBranch {
            return vec![first];
        }
        vec![first, second]
    }

    /// The residual program that is the body of a pick for an object.
    fn picked(&mut self, body: usize, object: u16) -> Residual {
        let row = self.rows.put_in(body, object.into());
        self.row(row)
    }

    /// The residual program that is this row; a sequence is its first part with the second behind it.
    fn row(&mut self, index: usize) -> Residual {
        match self.rows.get(index) {
            [0, ..] => NIL,
            [4, a, b, _] => {
                let first = self.row(a);
                self.number(Term::Then(first, b))
            }
            _ => self.number(Term::Row(index)),
        }
    }

    fn number(&mut self, term: Term) -> Residual {
        let next = self.terms.len();
        let number = *self.numbers.entry(term).or_insert(next);
        if number == next {
            self.terms.push(term);
            self.transitions.push(None);
        }
        number
    }
}
