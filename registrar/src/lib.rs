//! Plans and journals as text, with the retractions listed beside each step.
//!
//! Every decision is made by the proved calls of the crate `retraction`: which
//! plan is accepted, what a call does, which track may be fired, which day a
//! date is. What is here reads and writes text, explains and draws.

pub mod command;
pub mod compare;
pub mod day;
pub mod draft;
pub mod explain;
pub mod fault;
pub mod journal;
pub mod journal_text;
pub mod limit;
pub mod list;
pub mod look;
pub mod lookup;
pub mod page;
pub mod phrase;
pub mod picture;
pub mod place;
pub mod plan_text;
pub mod printed;
pub mod record;
pub mod records;
pub mod run;
pub mod standing;
pub mod tell;
pub mod withdraw;
pub mod words;
