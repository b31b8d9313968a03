//! Seeded generation of plans, journals, ledgers and calls, good and damaged.

pub mod damage;
pub mod days;
pub mod journals;
pub mod ledgers;
pub mod neighbours;
pub mod paths;
pub mod plans;
pub mod rng;
pub mod singles;
pub mod societies;
pub mod withdrawals;
