//! The second implementation. Its verdicts on moves and its least costs come from the program's own transitions
//! (`residual`, `runs`), without positions; those on steps and the cost table from the compiled job (`compiler`,
//! `steps`, `costs`). So a pick is taken in two ways: an object is put into its body (`rows`), and its body is compiled
//! once for each. `scope` says whether each variable has its pick. `sheet` lays a plan out. `known` puts them together,
//! and `expected` is what the seven operations should answer.

pub mod compiler;
pub mod costs;
pub mod domain;
pub mod expected;
pub mod fault;
pub mod job;
mod known;
pub mod lines;
pub mod reader;
pub mod residual;
mod rows;
pub mod runs;
pub mod scope;
pub mod sheet;
pub mod steps;
pub mod verdict;
