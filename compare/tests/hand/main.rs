//! Expectations worked out by hand from documents 01 and 02, of the library and of the second implementation.

mod both;
mod conditional;
mod costs;
mod dear;
mod edges;
mod kinds;
mod lengths;
mod marked;
mod order;
mod pick;
mod refusals;
mod sample;
mod scope;
mod sheet;
mod stack;
mod worked;
