//! The engine of documents 01 and 02, written a second time and from these documents alone, and what the comparisons share:
//! lent memory as plain data, the faults that can be planted, and pseudo-random numbers.

mod banks;
pub mod engine;
pub mod fault;
pub mod memory;
pub mod rng;
mod tracker;
