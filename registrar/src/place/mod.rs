//! Which record of a refused plan the refusal is about, and what is wrong with
//! it. The number is the proved reader's; here its record is found.

mod bytes;
mod records;

use crate::draft::Draft;
use crate::journal::MOST_BYTES;
use crate::records::{kind, Records, KINDS};
use retraction::Refusal;

/// Where a plan is wrong.
#[derive(Clone, Debug, PartialEq, Eq)]
pub struct Place {
    /// The record, counted from 0 through the whole file; for 2 the one that is
    /// missing. None where the refusal is about no record, as 1 and 8 are.
    pub record: Option<usize>,
    /// Its first byte, counted from 0.
    pub byte: Option<usize>,
    /// Its line, where the draft was read from a text.
    pub line: Option<usize>,
    /// What is wrong, in words.
    pub what: String,
}

/// The place that a refusal of these bytes is about. A draft of them gives names,
/// and lines if it was read from a text.
#[must_use]
pub fn of(refusal: Refusal, bytes: &[u8], draft: Option<&Draft>) -> Place {
    let found = match refusal.number() {
        1 => Some(whole(format!(
            "its records have {} bytes, and {MOST_BYTES} are the most",
            bytes.len()
        ))),
        2..=7 => bytes::find(refusal, bytes),
        8 => Some(whole("no track is there".to_string())),
        _ => among_records(refusal, bytes, draft),
    };
    let mut place = found.unwrap_or_else(|| whole(NOT_FOUND.to_string()));
    place.line = draft
        .zip(place.record)
        .and_then(|(draft, record)| line_of(draft, record));
    place
}

/// What is said where no record fits, which a test shows not to happen.
pub const NOT_FOUND: &str = "its record was not found";

/// A place that is no record's.
fn whole(what: String) -> Place {
    Place {
        record: None,
        byte: None,
        line: None,
        what,
    }
}

fn among_records(refusal: Refusal, bytes: &[u8], draft: Option<&Draft>) -> Option<Place> {
    let named;
    let draft = match draft {
        Some(draft) => draft,
        None => {
            named = Draft::of_records(Records::decode(bytes)?);
            &named
        }
    };
    let (at, what) = records::find(refusal, draft)?;
    let (record, byte) = at.in_file(&draft.records);
    Some(Place {
        record: Some(record),
        byte: Some(byte),
        line: None,
        what,
    })
}

/// A record by its kind and its number among those of its kind.
#[derive(Clone, Copy, Debug, PartialEq, Eq)]
struct At {
    kind: u16,
    number: usize,
}

impl At {
    /// The record's place in the file, and its first byte.
    fn in_file(self, records: &Records) -> (usize, usize) {
        let (mut record, mut byte) = (0, 0);
        for (kind, length, _) in KINDS {
            let before = match kind == self.kind {
                true => self.number,
                false => count(records, kind),
            };
            record += before;
            byte += length * before;
            if kind == self.kind {
                break;
            }
        }
        (record, byte)
    }

    /// The record as a person is told of it beside another one: its line, or its
    /// place in the file.
    fn said(self, draft: &Draft) -> String {
        let (record, _) = self.in_file(&draft.records);
        match line_of(draft, record) {
            Some(line) => format!("line {line}"),
            None => format!("record {record}"),
        }
    }
}

fn count(records: &Records, kind: u16) -> usize {
    match kind {
        kind::TRACK => records.tracks.len(),
        kind::STATE => records.states.len(),
        kind::STEP => records.steps.len(),
        kind::WINDOW => records.windows.len(),
        kind::GRANT => records.grants.len(),
        _ => 1,
    }
}

/// The line of a record, counted through the whole file.
fn line_of(draft: &Draft, record: usize) -> Option<usize> {
    let lines = &draft.lines;
    let sorts = [
        &lines.tracks,
        &lines.states,
        &lines.steps,
        &lines.windows,
        &lines.grants,
    ];
    sorts.into_iter().flatten().nth(record).copied()
}
