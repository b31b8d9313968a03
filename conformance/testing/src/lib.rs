//! Cases for comparing the proved program with the second one.
//!
//! - [`generate`], [`coverage`], [`vectors`]: random cases, what they cover,
//!   and their lines of text.
//! - [`faults`]: what is wrong with a refused plan or a broken journal.
//! - [`samples`], [`cases`], [`calls`]: plans and journals by hand, the stored
//!   runs and the stored calls.
//! - [`theorems`]: the same cases, said of the definitions of the rules.

pub mod calls;
pub mod cases;
pub mod coverage;
pub mod faults;
pub mod generate;
pub mod samples;
pub mod theorems;
pub mod vectors;
