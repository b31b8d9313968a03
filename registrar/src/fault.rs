//! A fault in a text: which line, which word of it, what is wrong, and what was
//! perhaps meant.

use std::fmt::Write;

/// A fault at a place of a text.
#[derive(Clone, Debug, PartialEq, Eq)]
pub struct Fault {
    /// The line, counted from 1.
    pub line: usize,
    /// The characters of the line that are meant, the first counted from 0, and
    /// how many; where there are none the line as a whole is meant.
    pub mark: Option<(usize, usize)>,
    /// What is wrong.
    pub what: String,
}

impl Fault {
    /// The fault as a person is shown it: file, line, what is wrong, and the line
    /// itself with the place marked.
    #[must_use]
    pub fn show(&self, file: &str, text: &str) -> String {
        let what: String = self.what.chars().take(WIDEST).collect();
        let mut shown = format!("{file}:{}: {what}\n", self.line);
        let line = text.lines().nth(self.line.saturating_sub(1));
        let line = line.filter(|line| line.chars().count() <= WIDEST);
        if let Some(line) = line {
            let _ = writeln!(shown, "  {}", plain(line.trim_end()));
            if let Some((start, count)) = self.mark {
                let blank = |c: char| if c == '\t' { '\t' } else { ' ' };
                let before = line.chars().take(start).filter(|&c| c != BYTE_ORDER);
                let before: String = before.map(blank).collect();
                let _ = writeln!(shown, "  {before}{}", "^".repeat(count.max(1)));
            }
        }
        shown
    }
}

/// A longer line would fill the screen and is not shown.
const WIDEST: usize = 500;

/// The mark that some editors put in front of a text: it has no width.
const BYTE_ORDER: char = '\u{feff}';

/// A line without the characters that a terminal would obey.
fn plain(line: &str) -> String {
    let obeyed = |c: char| c.is_control() && c != '\t';
    line.replace(BYTE_ORDER, "").replace(obeyed, "\u{fffd}")
}

/// A word of more bytes is no slip of another.
const LONGEST: usize = 100;

/// The known word that is nearest to one that is not known, if one is near.
pub fn nearest<'a>(word: &str, known: impl IntoIterator<Item = &'a str>) -> Option<&'a str> {
    if word.len() > LONGEST {
        return None;
    }
    let far = |known: &&str| (distance(word, known), known.len());
    let count = word.chars().count();
    let allowed = (1 + count / 4).min(count.saturating_sub(1));
    let known = known.into_iter().filter(|known| known.len() <= LONGEST);
    let nearest = known.min_by_key(far);
    nearest.filter(|known| distance(word, known) <= allowed)
}

/// The nearest known word as the end of a sentence; empty where none is near.
pub fn suggestion<'a>(word: &str, known: impl IntoIterator<Item = &'a str>) -> String {
    match nearest(word, known) {
        Some(known) => format!("; did you mean '{known}'?"),
        None => String::new(),
    }
}

/// How many characters must be put in, left out, changed or exchanged with their
/// neighbour to turn one word into the other.
fn distance(one: &str, other: &str) -> usize {
    let (one, other): (Vec<char>, Vec<char>) = (one.chars().collect(), other.chars().collect());
    let mut rows: Vec<Vec<usize>> = vec![(0..=other.len()).collect()];
    for i in 1..=one.len() {
        let mut row = vec![i];
        for j in 1..=other.len() {
            let changed = rows[i - 1][j - 1] + usize::from(one[i - 1] != other[j - 1]);
            let mut least = changed.min(rows[i - 1][j] + 1).min(row[j - 1] + 1);
            if i > 1 && j > 1 && one[i - 1] == other[j - 2] && one[i - 2] == other[j - 1] {
                least = least.min(rows[i - 2][j - 2] + 1);
            }
            row.push(least);
        }
        rows.push(row);
    }
    rows[one.len()][other.len()]
}

#[cfg(test)]
mod tests {
    use super::*;

    #[test]
    fn near_words_are_suggested() {
        assert_eq!(distance("waitng", "waiting"), 1);
        assert_eq!(distance("wiating", "waiting"), 1);
        assert_eq!(distance("", "abc"), 3);
        let known = ["waiting", "received", "by-post"];
        assert_eq!(
            suggestion("waitng", known),
            "; did you mean 'waiting'?".to_string()
        );
        assert_eq!(suggestion("shelf", known), "");
        assert_eq!(nearest("y", ["x"]), None);
        let long = "x".repeat(1_000_000);
        assert_eq!(nearest(&long, [&long[1..], "x"]), None);
        assert_eq!(nearest("xx", [&long[..], "x"]), Some("x"));
    }

    #[test]
    fn a_fault_shows_its_place() {
        let fault = Fault {
            line: 2,
            mark: Some((5, 3)),
            what: "no such state".into(),
        };
        let shown = "a.txt:2: no such state\n    go wat\n       ^^^\n";
        assert_eq!(fault.show("a.txt", "track x\n  go wat\n"), shown);
        let marked = "\n\u{feff}track x";
        let shown = "a.txt:2: no such state\n  track x\n      ^^^\n";
        assert_eq!(fault.show("a.txt", marked), shown);
        let shown = "a.txt:2: no such state\n  \tgo \u{fffd}[2J\n  \t    ^^^\n";
        assert_eq!(fault.show("a.txt", "\n\tgo \u{1b}[2J"), shown);
    }
}
