//! Makes instructions, and asks the original for the line and the marks of each.

pub mod ask;
pub mod chosen;
pub mod command;
pub mod make;
mod opcodes;
mod operands;
pub mod products;
pub mod random;
mod rng;
pub mod topics;
pub mod words;
pub mod write;
