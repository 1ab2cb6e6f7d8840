//! The library under test compared with a second implementation of the same specification, documents 01 and 02.
//!
//! - `second`: the second implementation, written from these documents and the decisions on what they leave open
//! - `library`: the library under test, by its C header
//! - `answer`: what a function of the header gives back, which both sides answer
//! - `lent`: the list, the table and the output that a caller lends
//! - `generator`: jobs, random and certain ones, and the texts of jobs, class costs and plans
//! - `cases`: random cases, each of a job text, a text of moves, a text of steps and a costs text, some damaged
//! - `comparison`: every operation asked of both sides on many cases

pub mod answer;
pub mod cases;
pub mod comparison;
pub mod generator;
pub mod lent;
pub mod library;
pub mod second;
