//! Plans and journals out of files, as text or as bytes.

use super::answer::{Answer, Or};
use super::limits;
use crate::draft::Draft;
use crate::fault::Fault;
use crate::journal::{self, Broken};
use crate::place::{self, Place};
use crate::plan_text::MOST_FAULTS;
use crate::records::Records;
use crate::run::{self, Run};
use crate::{journal_text, phrase, plan_text};
use retraction::{Limit, Plan, Refusal};
use std::fmt::Write;
use std::fs;

/// Whether a file has bytes; every other is text.
#[must_use]
pub fn has_bytes(path: &str) -> bool {
    path.ends_with(".bin")
}

/// A file that could not be read or written.
#[must_use]
pub fn unfit(path: &str, error: &std::io::Error) -> Answer {
    Answer::unfit(format!("{path}: {}", phrase::error(error)))
}

pub fn bytes_of(path: &str) -> Or<Vec<u8>> {
    fs::read(path).map_err(|error| unfit(path, &error))
}

fn text_of(path: &str) -> Or<String> {
    let not_text = |error: std::string::FromUtf8Error| {
        let byte = error.utf8_error().valid_up_to();
        let hint = "save a text as UTF-8; the name of a file with bytes ends in .bin";
        Answer::unfit(format!("{path}: no UTF-8 text, by its byte {byte}; {hint}"))
    };
    String::from_utf8(bytes_of(path)?).map_err(not_text)
}

/// The faults of a text, each with its place.
#[must_use]
pub fn faults(path: &str, text: &str, faults: &[Fault]) -> Answer {
    let shown = faults.iter().map(|fault| fault.show(path, text));
    let mut said = shown.collect::<String>();
    if faults.len() == MOST_FAULTS {
        let _ = writeln!(said, "{path}: these are the first {MOST_FAULTS} faults");
    }
    Answer::refused(said)
}

/// A plan file, accepted or not.
pub struct Given {
    /// Without records where the bytes are not whole records.
    pub draft: Draft,
    pub bytes: Vec<u8>,
    /// The proved reader's word, and a refusal told.
    pub judged: Result<Plan, (Refusal, Answer)>,
}

/// An accepted plan, with its names.
pub struct Filed {
    pub draft: Draft,
    pub plan: Plan,
}

/// The plan of a file, whether it is accepted or not.
pub fn given(path: &str) -> Or<Given> {
    let (draft, bytes, text) = if has_bytes(path) {
        let bytes = bytes_of(path)?;
        let records = Records::decode(&bytes).unwrap_or_default();
        (Draft::of_records(records), bytes, None)
    } else {
        let text = text_of(path)?;
        let draft = plan_text::read(&text).map_err(|found| faults(path, &text, &found))?;
        let bytes = draft.records.encode();
        (draft, bytes, Some(text))
    };
    let judged = run::fits(&bytes).and_then(|()| Plan::read(&bytes[..]));
    let named = Some(&draft).filter(|_| text.is_some());
    let told = |refusal| {
        let place = place::of(refusal, &bytes, named);
        (refusal, refused(path, refusal, &place, text.as_deref()))
    };
    let judged = judged.map_err(told);
    Ok(Given {
        draft,
        bytes,
        judged,
    })
}

/// The plan of a file, which must be accepted.
pub fn plan(path: &str) -> Or<Filed> {
    let Given { draft, judged, .. } = given(path)?;
    let plan = judged.map_err(|(_, told)| told)?;
    Ok(Filed { draft, plan })
}

/// A refused plan in words: the line and what is wrong with it, or the record and
/// its byte.
fn refused(path: &str, refusal: Refusal, place: &Place, text: Option<&str>) -> Answer {
    let what = &place.what;
    let at = match (place.record, place.byte) {
        (Some(record), Some(byte)) if text.is_none() => {
            format!("record {record}, at byte {byte}: ")
        }
        _ => String::new(),
    };
    let what = format!("refused, {refusal}\n  {at}{what}");
    let mut said = match (place.line, text) {
        (Some(line), Some(text)) => Fault {
            line,
            mark: None,
            what,
        }
        .show(path, text),
        _ => format!("{path}: {what}\n"),
    };
    let number = refusal.number();
    let _ = writeln!(said, "  'registrar explain {number}' says more");
    Answer::refused(said)
}

/// A journal out of a file.
pub struct Journal {
    /// Its calls, their lines in a text, the day and the society in force at its
    /// end, and the limit.
    pub read: journal_text::Journal,
    /// All of it, what is broken too.
    pub bytes: Vec<u8>,
    /// Where bytes are broken, if they are.
    pub broken: Option<Broken>,
    /// Refused for its length.
    pub refused: Option<Refusal>,
}

impl Journal {
    /// Runs it by the proved calls, at its limit.
    #[must_use]
    pub fn run<'plan>(&self, plan: &'plan Plan) -> Run<'plan> {
        let journal_text::Journal { calls, limit, .. } = &self.read;
        Run::of(plan, *limit, calls, self.broken.clone())
    }

    /// Ends the command where it is too long or broken.
    pub fn whole(self, path: &str) -> Or<Journal> {
        if let Some(refusal) = self.refused {
            return Err(too_long(path, refusal));
        }
        match &self.broken {
            Some(broken) => Err(Answer::refused(broken_words(path, broken))),
            None => Ok(self),
        }
    }
}

/// A journal that is refused for its length.
#[must_use]
pub fn too_long(path: &str, refusal: Refusal) -> Answer {
    Answer::refused(format!("{path}: refused, {refusal}\n"))
}

/// A broken journal in words.
#[must_use]
pub fn broken_words(path: &str, broken: &Broken) -> String {
    let Broken { record, byte, what } = broken;
    let refusal = Refusal::BrokenRecord;
    format!("{path}: refused, {refusal}\n  record {record}, at byte {byte}: {what}\n")
}

/// The journal of a file under a plan. Bytes are at the limit that is said, or else
/// at the main one; a text tells its own, and no other may be said of it.
pub fn journal(path: &str, said: Option<Limit>, draft: &Draft) -> Or<Journal> {
    let (read, bytes, broken) = if has_bytes(path) {
        let bytes = bytes_of(path)?;
        let (calls, broken) = journal::decode(&bytes);
        let limit = said.unwrap_or_default();
        let read = journal_text::Journal::of_calls(calls, limit);
        (read, bytes, broken)
    } else {
        let text = text_of(path)?;
        let read = journal_text::read(&text, draft).map_err(|found| faults(path, &text, &found))?;
        limits::agree(path, read.limit, said)?;
        let bytes = journal::encode(&read.calls);
        (read, bytes, None)
    };
    Ok(Journal {
        refused: run::fits(&bytes).err(),
        read,
        bytes,
        broken,
    })
}
