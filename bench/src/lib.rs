//! What the benchmark times: the proved calls, and two opponents that make the
//! same checks on each call.
//!
//! - [`fast`]: the second opponent, written for speed.
//! - [`sides`]: a call by each of the three, or a conversion.
//! - [`sum`]: the sum of a plan's bytes alone, by each of them.

#![deny(unsafe_code)]

pub mod fast;
pub mod sides;
pub mod sum;
