//! Refusals 2 to 7: the first record, from the front of the file, whose bytes do
//! not fit.

use super::Place;
use crate::record::{self, HEADER};
use crate::records::{kind, KINDS};
use retraction::Refusal;

/// The most tracks, states and steps that a plan has.
const MOST: [(u16, usize); 3] = [(kind::TRACK, 32), (kind::STATE, 128), (kind::STEP, 256)];

/// A place of a file where a record starts.
struct Front<'a> {
    record: usize,
    byte: usize,
    rest: &'a [u8],
    /// The kind of the record before, and how many of that kind there are so far.
    before: u16,
    alike: usize,
}

pub fn find(refusal: Refusal, bytes: &[u8]) -> Option<Place> {
    let mut front = Front {
        record: 0,
        byte: 0,
        rest: bytes,
        before: 0,
        alike: 0,
    };
    loop {
        if let Some(what) = front.fault(refusal) {
            return Some(Place {
                record: Some(front.record),
                byte: Some(front.byte),
                line: None,
                what,
            });
        }
        front = front.next()?;
    }
}

impl<'a> Front<'a> {
    /// What is wrong here, if the refusal is about this record.
    fn fault(&self, refusal: Refusal) -> Option<String> {
        let left = self.rest.len();
        if refusal == Refusal::AfterEnd {
            let after = self.before == kind::END && left > 0;
            return Some(format!("{left} bytes follow the end record")).filter(|_| after);
        }
        let (length, kind) = match record::header(self.rest) {
            Some(header) => header,
            None => return Some(self.missing()).filter(|_| refusal == Refusal::NoRecord),
        };
        match refusal {
            Refusal::Kind => self.misplaced(kind),
            Refusal::Length => {
                let (wanted, name) = known(kind)?;
                let what = format!("its length is {length}, and {name} has {wanted} bytes");
                Some(what).filter(|_| length != wanted)
            }
            Refusal::CutShort => {
                let (_, name) = known(kind)?;
                let what = format!("{name} has {length} bytes, and {left} are left");
                Some(what).filter(|_| length > left)
            }
            Refusal::TooMany => {
                let most = MOST.iter().find(|(counted, _)| *counted == kind)?.1;
                let (_, name) = known(kind)?;
                let what = format!("this is {name} too many: {most} are the most");
                let alike = if kind == self.before { self.alike } else { 0 };
                Some(what).filter(|_| alike >= most)
            }
            _ => None,
        }
    }

    fn missing(&self) -> String {
        match (self.record, self.rest.len()) {
            (0, 0) => "the file is empty".to_string(),
            (_, 0) => "the file ends without an end record".to_string(),
            (_, left) => format!("{left} bytes are left, and a record has {HEADER} or more"),
        }
    }

    fn misplaced(&self, kind: u16) -> Option<String> {
        let name = match known(kind) {
            Some((_, name)) => name,
            None => return Some(format!("its kind is {kind}, and a plan's are 1 to 6")),
        };
        let place = |kind: u16| KINDS.iter().position(|(known, _, _)| *known == kind);
        let (_, before) = known(self.before)?;
        let order = "tracks come first, then states, steps, windows, rights, and the end";
        let what = format!("{name} stands behind {before}: {order}");
        Some(what).filter(|_| place(kind) < place(self.before))
    }

    /// The next record's start, if this one can be passed over.
    fn next(self) -> Option<Front<'a>> {
        let (length, kind) = record::header(self.rest)?;
        let rest = self.rest.get(length..).filter(|_| length >= HEADER)?;
        let alike = if kind == self.before { self.alike } else { 0 };
        Some(Front {
            record: self.record + 1,
            byte: self.byte + length,
            rest,
            before: kind,
            alike: alike + 1,
        })
    }
}

/// The length of a kind, and what its record is called.
fn known(kind: u16) -> Option<(usize, String)> {
    let known = KINDS.iter().find(|(known, _, _)| *known == kind);
    known.map(|&(_, length, name)| {
        let article = if name == "end" { "an" } else { "a" };
        (length, format!("{article} {name}"))
    })
}
