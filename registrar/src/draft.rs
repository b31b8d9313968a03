//! A draft: the records of a plan with the names that its author gave, whether
//! it will be accepted or not. Whether it is, the proved reader decides.

use crate::records::Records;
use std::collections::BTreeMap;

/// A name, and what it stands for in plain words.
#[derive(Clone, Debug, Default, PartialEq, Eq)]
pub struct Name {
    pub name: String,
    /// Empty where the author wrote none.
    pub words: String,
}

impl Name {
    /// The words, or else the name.
    #[must_use]
    pub fn said(&self) -> &str {
        if self.words.is_empty() {
            &self.name
        } else {
            &self.words
        }
    }
}

/// Names of numbers that the author chose: events, retractions or societies.
#[derive(Clone, Debug, Default, PartialEq, Eq)]
pub struct Table {
    pub names: BTreeMap<u16, Name>,
}

impl Table {
    /// The name of a number, or else the number.
    #[must_use]
    pub fn name(&self, number: u16) -> String {
        let name = self.names.get(&number);
        name.map_or_else(|| number.to_string(), |name| name.name.clone())
    }

    /// What a number stands for in words, or else its name, or else the number.
    #[must_use]
    pub fn said(&self, number: u16) -> String {
        let name = self.names.get(&number);
        name.map_or_else(|| number.to_string(), |name| name.said().to_string())
    }

    /// The number of a name.
    #[must_use]
    pub fn number(&self, name: &str) -> Option<u16> {
        let mut names = self.names.iter();
        let found = names.find(|(_, known)| known.name == name)?;
        Some(*found.0)
    }
}

/// The names of a plan and of all that stands in it.
#[derive(Clone, Debug, Default, PartialEq, Eq)]
pub struct Names {
    pub plan: Name,
    pub events: Table,
    pub retractions: Table,
    pub societies: Table,
    /// By track number.
    pub tracks: Vec<Name>,
    /// By state number; names are unique within a track.
    pub states: Vec<Name>,
}

/// The line of each record in the text that it was read from, counted from 1,
/// in file order; empty for a plan of bytes.
#[derive(Clone, Debug, Default, PartialEq, Eq)]
pub struct Lines {
    pub tracks: Vec<usize>,
    pub states: Vec<usize>,
    pub steps: Vec<usize>,
    pub windows: Vec<usize>,
    pub grants: Vec<usize>,
}

/// A plan as its author has it.
#[derive(Clone, Debug, Default, PartialEq, Eq)]
pub struct Draft {
    pub names: Names,
    pub records: Records,
    pub lines: Lines,
}

impl Draft {
    /// A draft of records alone: tracks are called t0, t1 and so on, states s0,
    /// s1 and so on; events, retractions and societies go by their numbers.
    #[must_use]
    pub fn of_records(records: Records) -> Draft {
        let numbered = |letter: char, count: usize| -> Vec<Name> {
            let name = |n| Name {
                name: format!("{letter}{n}"),
                words: String::new(),
            };
            (0..count).map(name).collect()
        };
        let names = Names {
            tracks: numbered('t', records.tracks.len()),
            states: numbered('s', records.states.len()),
            ..Names::default()
        };
        Draft {
            names,
            records,
            lines: Lines::default(),
        }
    }

    /// A track's name, or its number where there is no such track.
    #[must_use]
    pub fn track(&self, track: u16) -> String {
        let name = self.names.tracks.get(usize::from(track));
        name.map_or_else(|| track.to_string(), |name| name.name.clone())
    }

    /// A state's name, or its number where there is no such state.
    #[must_use]
    pub fn state(&self, state: u16) -> String {
        let name = self.names.states.get(usize::from(state));
        name.map_or_else(|| state.to_string(), |name| name.name.clone())
    }
}
