//! Plans as text, read and written; docs/REGISTRAR.md has the grammar.

mod forms;
mod heads;
mod lines;
mod names;
mod numbers;
mod read;
mod tables;
mod write;

pub use names::names_from;
pub use read::read;
pub use write::write;

/// The most faults that are told of one text.
pub const MOST_FAULTS: usize = 20;
