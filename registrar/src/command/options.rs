//! The words behind a command: what it is about, and its options.

use super::answer::{Answer, Or};
use crate::fault::suggestion;
use std::collections::BTreeMap;

/// What a command was given.
#[derive(Clone, Debug, Default)]
pub struct Options {
    words: Vec<String>,
    values: BTreeMap<&'static str, String>,
}

impl Options {
    /// Parts the words from the options, each of which takes a value and is one
    /// of these.
    pub fn of(given: &[String], known: &[&'static str]) -> Or<Options> {
        let mut options = Options::default();
        let mut given = given.iter();
        while let Some(word) = given.next() {
            if word == "--" {
                options.words.extend(given.cloned());
                break;
            }
            if !is_option(word) {
                options.words.push(word.clone());
                continue;
            }
            let found = known.iter().copied().find(|option| option == word);
            let option = found.ok_or_else(|| unknown(word, known))?;
            let missing = || Answer::unfit(format!("{option} wants a value behind it"));
            let value = given.next().ok_or_else(missing)?;
            options.values.insert(option, value.clone());
        }
        Ok(options)
    }

    /// The word at a place; the caller has seen to it that there are so many.
    #[must_use]
    pub fn word(&self, place: usize) -> &str {
        &self.words[place]
    }

    #[must_use]
    pub fn words(&self) -> &[String] {
        &self.words
    }

    /// The value of an option, if it was given.
    #[must_use]
    pub fn value(&self, option: &str) -> Option<&str> {
        self.values.get(option).map(String::as_str)
    }
}

/// A day before 1900 may be a number with its sign, and is no option.
fn is_option(word: &str) -> bool {
    let begins = |rest: &str| rest.starts_with(|c: char| !c.is_ascii_digit());
    word.strip_prefix('-').map_or(false, begins)
}

fn unknown(word: &str, known: &[&'static str]) -> Answer {
    let suggestion = suggestion(word, known.iter().copied());
    Answer::unfit(format!("no option '{word}' here{suggestion}"))
}
