//! A journal's records: the calls that it asks for, and their bytes.

use crate::record::{self, Record, HEADER};

/// The most bytes that a plan file or a journal may have.
pub const MOST_BYTES: usize = 32_768;

/// A call that a journal asks for.
#[derive(Clone, Copy, Debug, PartialEq, Eq)]
pub enum Call {
    Event {
        event: u16,
        day: i32,
        society: u16,
    },
    Signal {
        society: u16,
    },
    Fire {
        track: u16,
        society: u16,
    },
    /// Fires the lowest track that may be fired, and by this society.
    FireLowest {
        society: u16,
    },
}

/// Kinds of a journal's records, with their lengths in bytes.
const SIGNAL: u16 = 17;
const FIRE: u16 = 18;
const LOWEST: u16 = 19;
const EVENT: u16 = 20;
const LENGTHS: [(u16, usize); 4] = [(SIGNAL, 6), (FIRE, 8), (LOWEST, 6), (EVENT, 12)];

impl Call {
    /// The society that makes it.
    #[must_use]
    pub fn society(self) -> u16 {
        match self {
            Call::Event { society, .. }
            | Call::Signal { society }
            | Call::Fire { society, .. }
            | Call::FireLowest { society } => society,
        }
    }

    /// An event's day.
    #[must_use]
    pub fn day(self) -> Option<i32> {
        match self {
            Call::Event { day, .. } => Some(day),
            _ => None,
        }
    }

    fn encode(self, out: &mut Vec<u8>) {
        match self {
            Call::Event {
                event,
                day,
                society,
            } => {
                let [low, high] = record::words_of(day);
                record::put(out, EVENT, &[event, low, high, society]);
            }
            Call::Signal { society } => record::put(out, SIGNAL, &[society]),
            Call::Fire { track, society } => record::put(out, FIRE, &[track, society]),
            Call::FireLowest { society } => record::put(out, LOWEST, &[society]),
        }
    }

    fn decode(record: &Record) -> Option<Call> {
        match (record.kind, &record.fields[..]) {
            (EVENT, &[event, low, high, society]) => Some(Call::Event {
                event,
                day: record::day_of(low, high),
                society,
            }),
            (SIGNAL, &[society]) => Some(Call::Signal { society }),
            (FIRE, &[track, society]) => Some(Call::Fire { track, society }),
            (LOWEST, &[society]) => Some(Call::FireLowest { society }),
            _ => None,
        }
    }
}

/// The bytes of a journal.
#[must_use]
pub fn encode(calls: &[Call]) -> Vec<u8> {
    let mut out = Vec::new();
    for call in calls {
        call.encode(&mut out);
    }
    out
}

/// Where a journal is broken: refusal 23.
#[derive(Clone, Debug, PartialEq, Eq)]
pub struct Broken {
    /// The record, counted from 0.
    pub record: usize,
    /// Its first byte, counted from 0.
    pub byte: usize,
    pub what: String,
}

/// The calls of a journal's bytes, as far as it is not broken, and where it is.
#[must_use]
pub fn decode(bytes: &[u8]) -> (Vec<Call>, Option<Broken>) {
    let mut calls = Vec::new();
    let mut rest = bytes;
    while !rest.is_empty() {
        let taken = record::take(rest).and_then(|(record, after)| {
            let call = Call::decode(&record)?;
            Some((call, after))
        });
        match taken {
            Some((call, after)) => {
                calls.push(call);
                rest = after;
            }
            None => {
                let broken = Broken {
                    record: calls.len(),
                    byte: bytes.len() - rest.len(),
                    what: what_is_broken(rest),
                };
                return (calls, Some(broken));
            }
        }
    }
    (calls, None)
}

/// What is wrong with the record at the front.
fn what_is_broken(rest: &[u8]) -> String {
    let left = rest.len();
    let (length, kind) = match record::header(rest) {
        Some(header) => header,
        None => return format!("{left} bytes are left, and a record starts with {HEADER}"),
    };
    let known = LENGTHS.iter().find(|(known, _)| *known == kind);
    match known {
        None if kind == 16 => {
            "kind 16 was withdrawn: an event has kind 20, a day and a society".to_string()
        }
        None => format!("its kind is {kind}, and a journal's are 17 to 20"),
        Some(&(_, wanted)) if wanted != length => {
            format!("its length is {length}, and one of kind {kind} has {wanted} bytes")
        }
        Some(_) => format!("{length} bytes are wanted, {left} are left"),
    }
}
