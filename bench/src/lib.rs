//! A second head in plain Rust, written from docs/ alone, to be compared with the proved one.

pub mod board;
pub mod head;
pub mod packet;
pub mod report;
pub mod ring;
pub mod script;
