//! Retraction manager for register plans: a second implementation, written
//! from the paper alone, for word-for-word comparison with the first.
//!
//! - [`days`]: days and dates, refusal 26 of the conversions.
//! - [`plan`]: the plan reader, refusals 2 to 16, 25 and 27; and who may do what.
//! - [`limit`]: the most entries that a track holds, the caller's on each call.
//! - [`ledger`]: leading words and tracks, and what makes a ledger sound.
//! - [`rules`]: what the calls do, on an accepted plan and a sound ledger.
//! - [`paths`]: how many entries a plan can ask for, refusal 29.
//! - [`manager`]: the six calls, on plan bytes and lent words, the one on plan
//!   bytes alone, and the two conversions.
//! - [`journal`]: the program `unwind` as a function of bytes.
//! - [`record`], [`refusal`]: a record's first four bytes, and the numbers.

pub mod days;
pub mod journal;
pub mod ledger;
pub mod limit;
pub mod manager;
pub mod paths;
pub mod plan;
pub mod record;
pub mod refusal;
pub mod rules;
