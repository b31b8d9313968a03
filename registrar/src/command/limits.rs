//! The option --limit, and journals whose limit would be lost. Bytes have no room
//! for it, and programs that are run keep to the main one.

use super::answer::{Answer, Or};
use super::options::Options;
use crate::limit;
use retraction::Limit;

/// The option's name.
const OPTION: &str = "--limit";

/// The limit that the command was given, if it was.
pub fn said(options: &Options) -> Or<Option<Limit>> {
    let parsed = options.value(OPTION).map(limit::parse).transpose();
    parsed.map_err(|what| Answer::unfit(format!("{OPTION}: {what}")))
}

/// Ends the command where a text is at one limit and another is said.
pub fn agree(path: &str, text: Limit, said: Option<Limit>) -> Or<()> {
    let (is, said) = (text.entries(), said.unwrap_or(text).entries());
    if is == said {
        return Ok(());
    }
    Err(Answer::unfit(format!(
        "{path}: is at limit {is} by its first line, and {OPTION} says {said}"
    )))
}

/// Ends the command where a text becomes bytes and its limit is not said: whoever
/// reads them must know it.
pub fn known(path: &str, text: Limit, said: Option<Limit>) -> Or<()> {
    if said.unwrap_or_default() == text {
        return Ok(());
    }
    let is = text.entries();
    Err(Answer::unfit(format!(
        "{path}: is at limit {is}, which bytes cannot tell; {OPTION} {is} writes them all the same"
    )))
}

/// How bytes are to be read, as the end of a sentence.
#[must_use]
pub fn to_be_read(limit: Limit) -> String {
    match limit {
        Limit::Main => String::new(),
        Limit::ReadingRoom => format!(", to be read with {OPTION} {}", limit.entries()),
    }
}

/// Ends the command where programs are to be run on a journal at another limit
/// than theirs.
pub fn of_programs(path: &str, text: Limit) -> Or<()> {
    let (is, theirs) = (text.entries(), Limit::Main.entries());
    if is == theirs {
        return Ok(());
    }
    Err(Answer::unfit(format!(
        "{path}: is at limit {is}, and programs are compared at {theirs}"
    )))
}
