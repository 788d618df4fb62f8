//! What the commands of `vmstate` do, in plain Rust over `std`.

pub mod analyze;
pub mod board;
pub mod check;
pub mod clock;
pub mod convert;
pub mod counter;
pub mod desc;
pub mod describe;
pub mod drill;
pub mod json;
pub mod load;
pub mod pic;
pub mod pit;
pub mod play;
pub mod restoring;
pub mod rules;
pub mod saving;
pub mod script;
pub mod serial;
pub mod setfile;
pub mod shelf;
pub mod shipped;
pub mod stream;
pub mod values;
pub mod words;
pub mod write;
