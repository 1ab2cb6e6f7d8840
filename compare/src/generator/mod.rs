//! Jobs, and the texts of jobs, class costs and plans.
//!
//! `random_jobs` draws jobs from random numbers (`random`); `jobs` has certain ones, the benchmarks' among them. Both
//! use the same sets of moves (`moves`, `formulas`), shapes of programs (`shapes`, `program`) and writer (`writer`).
//! What is random in a certain job is drawn by a plain rule of its own, since measured figures are about just that job.

mod formulas;
pub mod jobs;
pub mod moves;
mod program;
pub mod random;
pub mod random_jobs;
pub mod shapes;
pub mod writer;
