//! Words that stand for something: its name, or its number.

use crate::day;
use crate::draft::{Names, Table};
use crate::fault::{suggestion, Fault};
use crate::words::{Line, Word};

/// The words of a plan's text, and `next`, which stands for a track in a
/// journal's: none of them is a name.
pub const RESERVED: [&str; 23] = [
    "plan", "event", "retract", "society", "track", "right", "state", "on", "go", "undo", "then",
    "step", "from", "to", "window", "in", "final", "when", "complete", "move", "signal", "fire",
    "next",
];

fn is_reserved(word: &Word) -> bool {
    !word.quoted && RESERVED.contains(&word.text.as_str())
}

/// The next word as the name of something new.
pub fn new_name(line: &mut Line, of: &str) -> Result<Word, Fault> {
    let wanted = format!("the name of {of} is wanted here");
    let wrong = match line.peek() {
        None => Some(wanted),
        Some(word) => what_is_no_name(word).map(|why| format!("{wanted}; {why}")),
    };
    match (wrong, line.peek()) {
        (None, Some(_)) => Ok(line.take().unwrap_or_default()),
        (wrong, _) => Err(line.fault(wrong.unwrap_or_default())),
    }
}

fn what_is_no_name(word: &Word) -> Option<String> {
    let text = &word.text;
    let signless = text.strip_prefix(&['-', '+'][..]).unwrap_or(text);
    let digits = !signless.is_empty() && signless.bytes().all(|b| b.is_ascii_digit());
    if word.quoted {
        Some("words in quotes are no name and stand behind it".to_string())
    } else if is_reserved(word) {
        Some(format!("'{text}' is one of the text's own words"))
    } else if digits {
        Some(format!("'{text}' is a number"))
    } else if text.contains('.') {
        Some("a name has no dot in it".to_string())
    } else {
        None
    }
}

/// The next word as something that is meant by its name or its number.
pub fn meant(line: &mut Line, what: &str) -> Result<Word, Fault> {
    let fits = |word: &&Word| !word.quoted && !is_reserved(word);
    if line.peek().filter(fits).is_none() {
        return Err(line.fault(format!("{what} is wanted here")));
    }
    Ok(line.take().unwrap_or_default())
}

/// The next word as a day.
pub fn day(line: &mut Line) -> Result<i32, Fault> {
    let word = meant(line, "a day")?;
    day::parse(&word.text).map_err(|what| word.fault(line.number, what))
}

/// The next word as a number that must be there.
pub fn number(line: &mut Line, of: &str) -> Result<u16, Fault> {
    let word = line.peek().filter(|word| word.is_number()).cloned();
    let word = word.ok_or_else(|| line.fault(format!("the number of {of} is wanted here")))?;
    let number = value(&word).map_err(|what| word.fault(line.number, what))?;
    line.take();
    Ok(number)
}

/// What a word of digits is worth.
fn value(word: &Word) -> Result<u16, String> {
    let high = || format!("{} is too high: numbers go from 0 to 65535", word.text);
    word.text.parse().map_err(|_| high())
}

/// The number that a word means: its own, or that of the name. `find` finds a
/// name's number; where it does not, `missing` says what there is none of, and
/// `known` are the names that there are.
pub fn resolve<'a>(
    word: &Word,
    missing: &str,
    find: impl Fn(&str) -> Option<u16>,
    known: impl IntoIterator<Item = &'a str>,
) -> Result<u16, String> {
    if word.is_number() {
        return value(word);
    }
    let meant = || suggestion(&word.text, known);
    find(&word.text).ok_or_else(|| format!("{missing} '{}'{}", word.text, meant()))
}

/// The number that a word means in a table.
pub fn in_table(word: &Word, table: &Table, of: &str) -> Result<u16, String> {
    let known = table.names.values().map(|name| name.name.as_str());
    let missing = format!("there is no {of}");
    resolve(word, &missing, |name| table.number(name), known)
}

/// The track that a word of a journal means, where `next` could stand as well.
pub fn track(word: &Word, names: &Names) -> Result<u16, String> {
    let known = names.tracks.iter().map(|name| name.name.as_str());
    let find = |name: &str| {
        let track = names.tracks.iter().position(|known| known.name == name)?;
        Some(track as u16)
    };
    resolve(word, "there is no track", find, known.chain(["next"]))
}
