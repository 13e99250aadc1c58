//! RothC field carbon in exact arithmetic, written from the papers alone.
//! Slow and plain on purpose: a thing to hold another program against.

pub mod big;
pub mod book;
pub mod call_lines;
pub mod calls;
pub mod differ;
pub mod exponential;
pub mod fixed;
pub mod fraction;
pub mod light;
pub mod measured;
pub mod memory;
pub mod model;
pub mod recurrence;
pub mod table;
pub mod vectors;
