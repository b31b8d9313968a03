//! What the tests share.
#![allow(dead_code)]

use second::journal::{self, Record};
use second::limit::Limit;
#[allow(unused_imports)]
pub use testing::samples::*;

/// The main program's limit.
pub const MAIN: Limit = Limit::MAIN;

/// The output of `unwind`, as lines.
pub fn unwind(plan: &[u8], journal: &[u8]) -> Vec<String> {
    let text = String::from_utf8(journal::unwind(plan, journal)).expect("text");
    assert!(text.ends_with('\n'));
    text.lines().map(str::to_string).collect()
}

/// The output of `unwind` on whole records.
pub fn run(plan: &[u8], records: &[Record]) -> Vec<String> {
    unwind(plan, &journal(records))
}
