//! A line of a text as words, read from the left.
//!
//! Blanks part words. A word in double quotes may have blanks in it, and two
//! quotes there are one. `#` outside of quotes begins a remark.

use crate::fault::{suggestion, Fault};

/// A word, and where it stands on its line, in characters.
#[derive(Clone, Debug, Default, PartialEq, Eq)]
pub struct Word {
    /// Without its quotes.
    pub text: String,
    pub start: usize,
    pub count: usize,
    /// A quoted word is no keyword, no number and no name.
    pub quoted: bool,
}

impl Word {
    /// A word that stands on no line.
    #[must_use]
    pub fn of(text: &str) -> Word {
        Word {
            text: text.to_string(),
            ..Word::default()
        }
    }

    #[must_use]
    pub fn is(&self, keyword: &str) -> bool {
        !self.quoted && self.text == keyword
    }

    /// Whether it is written as a number, be it too high.
    #[must_use]
    pub fn is_number(&self) -> bool {
        let digits = self.text.bytes().all(|b| b.is_ascii_digit());
        !self.quoted && digits && !self.text.is_empty()
    }

    #[must_use]
    pub fn fault(&self, line: usize, what: impl Into<String>) -> Fault {
        Fault {
            line,
            mark: Some((self.start, self.count)),
            what: what.into(),
        }
    }
}

/// The words of a line. Where a quote or a control character does not fit, those
/// before it and the fault.
#[must_use]
pub fn split(text: &str, line: usize) -> (Vec<Word>, Option<Fault>) {
    let chars: Vec<char> = text.chars().collect();
    let mut words = Vec::new();
    let mut at = 0;
    while at < chars.len() && chars[at] != '#' {
        if is_blank(chars[at]) {
            at += 1;
            continue;
        }
        let taken = if chars[at] == '"' {
            quoted(&chars, at)
        } else {
            bare(&chars, at)
        };
        match taken.and_then(printable) {
            Ok(word) => {
                at = word.start + word.count;
                words.push(word);
            }
            Err((mark, what)) => {
                let (mark, what) = (Some(mark), what.to_string());
                return (words, Some(Fault { line, mark, what }));
            }
        }
    }
    (words, None)
}

/// What is wrong with a word, and at which characters.
type Wrong = ((usize, usize), &'static str);

/// Some editors put a mark of the byte order in front of a text.
fn is_blank(c: char) -> bool {
    c.is_whitespace() || c == '\u{feff}'
}

/// A control character in a word would be lost on a page, or obeyed by a terminal.
fn printable(word: Word) -> Result<Word, Wrong> {
    match word.text.contains(char::is_control) {
        true => Err((
            (word.start, word.count),
            "this has a control character in it, such as a tab",
        )),
        false => Ok(word),
    }
}

fn bare(chars: &[char], start: usize) -> Result<Word, Wrong> {
    let within = |c: &&char| !is_blank(**c) && **c != '#' && **c != '"';
    let text: String = chars[start..].iter().take_while(within).collect();
    let count = text.chars().count();
    if chars.get(start + count) == Some(&'"') {
        return Err(((start + count, 1), "a blank is missing before this quote"));
    }
    Ok(Word {
        text,
        start,
        count,
        quoted: false,
    })
}

fn quoted(chars: &[char], start: usize) -> Result<Word, Wrong> {
    let mut text = String::new();
    let mut at = start + 1;
    loop {
        match chars.get(at..).unwrap_or_default() {
            ['"', '"', ..] => {
                text.push('"');
                at += 2;
            }
            ['"', after, ..] if !is_blank(*after) && *after != '#' => {
                return Err((
                    (at + 1, 1),
                    "a blank is missing behind the quote before this",
                ));
            }
            ['"', ..] => break,
            [c, ..] => {
                text.push(*c);
                at += 1;
            }
            [] => {
                let mark = (start, chars.len() - start);
                return Err((mark, "this quote is not closed on its line"));
            }
        }
    }
    Ok(Word {
        text,
        start,
        count: at + 1 - start,
        quoted: true,
    })
}

/// Words in quotes, as [`split`] reads them.
#[must_use]
pub fn quote(words: &str) -> String {
    format!("\"{}\"", words.replace('"', "\"\""))
}

/// A line that is read word by word.
#[derive(Clone, Debug)]
pub struct Line {
    /// Counted from 1.
    pub number: usize,
    words: Vec<Word>,
    at: usize,
}

impl Line {
    #[must_use]
    pub fn new(number: usize, words: Vec<Word>) -> Line {
        Line {
            number,
            words,
            at: 0,
        }
    }

    #[must_use]
    pub fn peek(&self) -> Option<&Word> {
        self.words.get(self.at)
    }

    pub fn take(&mut self) -> Option<Word> {
        let word = self.peek().cloned();
        self.at += usize::from(word.is_some());
        word
    }

    /// Takes the next word if it is this keyword.
    pub fn take_if(&mut self, keyword: &str) -> bool {
        let fits = self.peek().map_or(false, |word| word.is(keyword));
        self.at += usize::from(fits);
        fits
    }

    /// The words behind a name, if there are any, without the blanks around them.
    pub fn take_words(&mut self) -> String {
        let quoted = self.peek().map_or(false, |word| word.quoted);
        let word = if quoted { self.take() } else { None };
        word.map_or_else(String::new, |word| word.text.trim().to_string())
    }

    /// Takes the next word, which is to be this keyword.
    pub fn keyword(&mut self, keyword: &str) -> Result<(), Fault> {
        if self.take_if(keyword) {
            return Ok(());
        }
        Err(self.fault(format!("'{keyword}' is wanted here")))
    }

    /// A fault at the next word, or behind the last.
    #[must_use]
    pub fn fault(&self, what: impl Into<String>) -> Fault {
        let behind = |last: &Word| Word {
            start: last.start + last.count,
            count: 1,
            ..Word::default()
        };
        let behind = || self.words.last().map(behind).unwrap_or_default();
        let word = self.peek().cloned().unwrap_or_else(behind);
        word.fault(self.number, what)
    }

    /// No word is left. `more` are the keywords that could stand here; `form` is
    /// how the line is written.
    pub fn end(&self, more: &[&str], form: &str) -> Result<(), Fault> {
        let word = match self.peek() {
            Some(word) => word,
            None => return Ok(()),
        };
        let said = if word.quoted {
            "words in quotes do not fit here".to_string()
        } else {
            format!("'{}' does not fit here", word.text)
        };
        let known = word.quoted || more.contains(&word.text.as_str());
        let mut meant = suggestion(&word.text, more.iter().copied());
        if known || meant.is_empty() {
            meant = format!("; the line is: {form}");
        }
        Err(self.fault(format!("{said}{meant}")))
    }
}

#[cfg(test)]
mod tests {
    use super::*;

    #[test]
    fn words_and_their_places() {
        let (words, fault) = split("\tétat 7 \"on \"\"it\"\" #\"#remark \" open", 1);
        let found = words
            .iter()
            .map(|w| (&w.text[..], w.start, w.count, w.quoted));
        let found: Vec<_> = found.collect();
        assert_eq!(fault, None);
        let quoted = ("on \"it\" #", 8, 13, true);
        assert_eq!(found, [("état", 1, 4, false), ("7", 6, 1, false), quoted]);
        assert!(words[1].is_number() && !words[2].is_number());
        assert!(!split("\"7\" \"go\"", 1)
            .0
            .iter()
            .any(|w| w.is_number() || w.is("go")));
    }

    #[test]
    fn words_before_what_does_not_fit() {
        for (line, mark) in [
            ("a b c\u{1b}[31m", (4, 6)),
            ("a \"b\tc\" d", (2, 5)),
            ("a b \"c", (4, 2)),
            ("a b\"c\"", (3, 1)),
            ("a \"b\"c", (5, 1)),
        ] {
            let (words, fault) = split(line, 3);
            let fault = fault.expect(line);
            assert_eq!((fault.line, fault.mark), (3, Some(mark)), "{line}");
            assert_eq!(words[0].text, "a");
        }
    }

    #[test]
    fn words_behind_a_name() {
        for (text, taken) in [("\" a  b \"", "a  b"), ("\"  \"", ""), ("a", "")] {
            let mut line = Line::new(1, split(text, 1).0);
            assert_eq!(line.take_words(), taken, "{text}");
        }
    }

    #[test]
    fn quoted_words_are_read_back() {
        for text in ["", "a", "\"", "say \"no\" # twice"] {
            let (words, fault) = split(&quote(text), 1);
            assert_eq!((words.len(), fault), (1, None));
            assert_eq!((&words[0].text[..], words[0].quoted), (text, true));
        }
    }
}
