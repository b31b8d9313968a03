//! The paper's sample plan P, and a ledger begun under it.

use retraction::raw::begin;
use retraction::{Limit, NONE};

/// The society that has every right under plan P, and the only one.
pub const SOCIETY: u16 = 1;

/// The tracks of plan P.
pub const TRACKS: usize = 3;

/// The records of plan P: length, kind, fields.
const RECORDS: &[&[u16]] = &[
    &[6, 1, NONE],
    &[6, 1, 1],
    &[6, 1, 1],
    &[10, 2, 0, 0, 0],
    &[10, 2, 0, 0, 90],
    &[10, 2, 0, 1, 0],
    &[10, 2, 1, 0, 0],
    &[10, 2, 1, 1, 0],
    &[10, 2, 2, 0, 0],
    &[10, 2, 2, 0, 0],
    &[10, 2, 2, 1, 0],
    &[14, 3, 0, 10, 50, NONE, 1],
    &[14, 3, 1, 13, 0, NONE, 2],
    &[14, 3, 3, 11, 51, NONE, 4],
    &[14, 3, 5, 12, 52, NONE, 6],
    &[14, 3, 6, 14, 54, NONE, 7],
    &[10, 6, SOCIETY, 0, 7],
    &[4, 4],
];

pub fn plan() -> Vec<u8> {
    let words = RECORDS.iter().flat_map(|record| record.iter());
    words.flat_map(|word| word.to_le_bytes()).collect()
}

/// Plan P begun at a limit, with words beyond that stay as they are.
pub fn begun(limit: Limit) -> (Vec<u8>, Vec<u16>) {
    let (plan, words) = (plan(), limit.ledger_words(TRACKS));
    let mut ledger = vec![7; words + 5];
    assert_eq!(begin(&plan, &mut ledger, limit.options()), Ok(()));
    assert_eq!(ledger[words..], [7; 5]);
    (plan, ledger)
}
