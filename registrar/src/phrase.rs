//! Words for what a plan has, as they stand in a sentence.

use crate::draft::{Draft, Table};
use retraction::Entry;
use std::collections::BTreeSet;

/// So many of something: `1 track`, `7 tracks`, `no window`.
#[must_use]
pub fn count(number: usize, one: &str) -> String {
    match number {
        0 => format!("no {one}"),
        1 => format!("1 {one}"),
        _ => format!("{number} {one}s"),
    }
}

/// The verb for so many: `is` for one, `are` for several.
#[must_use]
pub fn verb(number: usize, one: &'static str, several: &'static str) -> &'static str {
    if number == 1 {
        one
    } else {
        several
    }
}

/// Why the system did not do something, without its number.
#[must_use]
pub fn error(error: &std::io::Error) -> String {
    let error = error.to_string();
    let words = error.split(" (os error").next();
    words.unwrap_or_default().to_string()
}

/// Several in a row: `a, b and c`.
#[must_use]
pub fn row(items: &[String]) -> String {
    match items {
        [] => String::new(),
        [one] => one.clone(),
        [all @ .., last] => format!("{} and {last}", all.join(", ")),
    }
}

/// The words or the name of a number, or what it is and its number.
fn said(table: &Table, what: &str, number: u16) -> String {
    match table.names.get(&number) {
        Some(name) => name.said().to_string(),
        None => format!("{what} {number}"),
    }
}

/// An event.
#[must_use]
pub fn event(draft: &Draft, event: u16) -> String {
    said(&draft.names.events, "event", event)
}

/// A society, as it stands within a sentence: `the hub` for `The hub`.
#[must_use]
pub fn society(draft: &Draft, society: u16) -> String {
    let said = said(&draft.names.societies, "society", society);
    let articles = [("The ", "the "), ("A ", "a "), ("An ", "an ")];
    let rest =
        |(at_start, within): (&str, &str)| Some(within.to_string() + said.strip_prefix(at_start)?);
    articles.into_iter().find_map(rest).unwrap_or(said)
}

/// The same at the start of a sentence, as the author wrote it.
#[must_use]
pub fn society_first(draft: &Draft, society: u16) -> String {
    said(&draft.names.societies, "Society", society)
}

/// A retraction, with its number.
#[must_use]
pub fn retraction(draft: &Draft, code: u16) -> String {
    entry(
        draft,
        Entry {
            code,
            deviation: None,
        },
    )
}

/// A retraction as it is held, with its number and its deviation.
#[must_use]
pub fn entry(draft: &Draft, entry: Entry) -> String {
    let code = entry.code;
    let onward = entry.deviation;
    let onward = onward.map(|state| format!("then on in {}", draft.state(state)));
    match (draft.names.retractions.names.get(&code), onward) {
        (Some(name), None) => format!("{} ({code})", name.said()),
        (Some(name), Some(onward)) => format!("{} ({code}, {onward})", name.said()),
        (None, None) => format!("retraction {code}"),
        (None, Some(onward)) => format!("retraction {code} ({onward})"),
    }
}

/// Retractions in a row.
#[must_use]
pub fn entries(draft: &Draft, entries: impl IntoIterator<Item = Entry>) -> String {
    let words: Vec<String> = entries.into_iter().map(|e| entry(draft, e)).collect();
    row(&words)
}

/// Tracks in a row.
#[must_use]
pub fn tracks(draft: &Draft, tracks: &[u16]) -> String {
    let names: Vec<String> = tracks.iter().map(|&t| draft.track(t)).collect();
    row(&names)
}

/// A text in lines of at most so many characters; those behind the first are set
/// in by as many blanks.
#[must_use]
pub fn wrapped(text: &str, width: usize, blanks: usize) -> String {
    let mut lines = String::new();
    let mut used = 0;
    for word in text.split(' ') {
        let length = word.chars().count();
        if used > 0 && used + 1 + length > width {
            lines += &format!("\n{:blanks$}", "");
            used = blanks;
        } else if used > 0 {
            lines.push(' ');
            used += 1;
        }
        lines += word;
        used += length;
    }
    lines
}

/// Whether the plan's rights records name several societies.
#[must_use]
pub fn several_societies(draft: &Draft) -> bool {
    let named = draft.records.grants.iter().map(|grant| grant.society);
    named.collect::<BTreeSet<u16>>().len() > 1
}

#[cfg(test)]
mod tests {
    use super::*;

    #[test]
    fn rows_and_counts() {
        let names = ["a", "b", "c"].map(String::from);
        assert_eq!(row(&names), "a, b and c");
        assert_eq!(row(&names[..2]), "a and b");
        assert_eq!(row(&names[..1]), "a");
        assert_eq!(row(&[]), "");
        assert_eq!(count(1, "track"), "1 track");
        assert_eq!(count(0, "window"), "no window");
        assert_eq!(count(7, "state"), "7 states");
        assert_eq!(wrapped("one two three", 9, 2), "one two\n  three");
        assert_eq!(wrapped("one two", 7, 2), "one two");
    }
}
