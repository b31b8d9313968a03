//! A plan's text into a draft: what its words stand for.

use super::lines::{StepLine, Text};
use super::numbers::Numbers;
use super::MOST_FAULTS;
use crate::draft::{Draft, Lines, Name, Names};
use crate::fault::Fault;
use crate::lookup;
use crate::records::{Grant, Records, State, Step, Track, Window};
use crate::words::Word;
use retraction::NONE;
use std::collections::BTreeMap;

/// The draft that a text describes, or what is wrong with the text, in the order
/// of its lines. Whether the plan is accepted is not asked here: what can be
/// written as records is taken.
pub fn read(text: &str) -> Result<Draft, Vec<Fault>> {
    let mut text = Text::of(text);
    let mut faults = std::mem::take(&mut text.faults);
    let numbers = Numbers::of(&text, &mut faults);
    let mut reader = Reader {
        text: &text,
        numbers: &numbers,
        tracks: BTreeMap::new(),
        own: BTreeMap::new(),
        called: BTreeMap::new(),
        faults,
    };
    reader.gather_tracks();
    reader.gather_states();
    let records = reader.records();
    let mut faults = reader.faults;
    if !faults.is_empty() {
        faults.sort_by_key(|fault| (fault.line, fault.mark));
        faults.truncate(MOST_FAULTS);
        return Err(faults);
    }
    Ok(Draft {
        names: names(&text, &numbers),
        records,
        lines: lines(&text, &numbers),
    })
}

/// Tracks and states are counted in the order of the text.
struct Reader<'a> {
    text: &'a Text,
    numbers: &'a Numbers,
    tracks: BTreeMap<&'a str, usize>,
    /// By track and name.
    own: BTreeMap<(usize, &'a str), usize>,
    /// All states of a name.
    called: BTreeMap<&'a str, Vec<usize>>,
    faults: Vec<Fault>,
}

impl<'a> Reader<'a> {
    fn gather_tracks(&mut self) {
        for (t, track) in self.text.tracks.iter().enumerate() {
            let (name, line) = (track.head.name.name.as_str(), track.head.given.line);
            match self.tracks.get(name) {
                _ if name.is_empty() => {}
                Some(&other) => {
                    let above = self.text.tracks[other].head.given.line;
                    let what = format!("the track on line {above} is called '{name}' already");
                    self.faults.push(track.head.word.fault(line, what));
                }
                None => {
                    self.tracks.insert(name, t);
                }
            }
        }
    }

    fn gather_states(&mut self) {
        for (s, state) in self.text.states.iter().enumerate() {
            let (name, line) = (state.head.name.name.as_str(), state.head.given.line);
            match self.own.get(&(state.track, name)) {
                _ if name.is_empty() => {}
                Some(&other) => {
                    let above = self.text.states[other].head.given.line;
                    let what = format!(
                        "the state on line {above} of this track is called '{name}' already"
                    );
                    self.faults.push(state.head.word.fault(line, what));
                }
                None => {
                    self.own.insert((state.track, name), s);
                    self.called.entry(name).or_default().push(s);
                }
            }
        }
    }

    fn records(&mut self) -> Records {
        let (text, numbers) = (self.text, self.numbers);
        let track = |t: usize| numbers.tracks[t];
        let tracks = text.tracks.iter().map(|line| Track {
            host: self.host(line.host.as_ref(), line.head.given.line),
        });
        let tracks = tracks.collect();
        let states = text.states.iter().map(|line| State {
            track: track(line.track),
            last: u16::from(line.last),
            replacement: self.retraction(line.replacement.as_ref(), line.head.given.line),
        });
        let states = states.collect();
        let steps = text.steps.iter().map(|line| self.step(line)).collect();
        let windows = text.windows.iter().map(|line| Window {
            step: numbers.steps[line.step],
            first: line.first,
            last: line.last,
        });
        let grants = text.grants.iter().map(|line| {
            let society = lookup::in_table(&line.society, &text.societies.table, "society");
            Grant {
                society: self.or_fault(society, &line.society, line.given.line),
                root: track(line.track),
                sum: line.sum,
            }
        });
        let grants = grants.collect();
        Records {
            tracks: in_order(&numbers.tracks, tracks),
            states: in_order(&numbers.states, states),
            steps: in_order(&numbers.steps, steps),
            windows: in_order(&numbers.windows, windows.collect()),
            grants: in_order(&numbers.grants, grants),
        }
    }

    fn step(&mut self, step: &StepLine) -> Step {
        let line = step.given.line;
        let track = self.text.states[step.source].track;
        let event = lookup::in_table(&step.event, &self.text.events.table, "event");
        let destination = self.state_of(&step.destination, track);
        let deviation = step.deviation.as_ref().map(|word| {
            let state = self.state_of(word, track);
            self.or_fault(state, word, line)
        });
        Step {
            source: self.numbers.states[step.source],
            event: self.or_fault(event, &step.event, line),
            code: self.retraction(step.code.as_ref(), line),
            deviation: deviation.filter(|&state| state != NONE),
            destination: self.or_fault(destination, &step.destination, line),
        }
    }

    /// What was found, or 0 and a fault.
    fn or_fault(&mut self, found: Result<u16, String>, word: &Word, line: usize) -> u16 {
        found.unwrap_or_else(|what| {
            self.faults.push(word.fault(line, what));
            0
        })
    }

    fn retraction(&mut self, word: Option<&Word>, line: usize) -> u16 {
        let word = match word {
            Some(word) => word,
            None => return 0,
        };
        let table = &self.text.retractions.table;
        let found = lookup::in_table(word, table, "retraction");
        self.or_fault(found, word, line)
    }

    fn host(&mut self, word: Option<&Word>, line: usize) -> Option<u16> {
        let word = word?;
        let found = self.any_state(word);
        let host = self.or_fault(found, word, line);
        Some(host).filter(|&host| host != NONE)
    }

    /// A state that a step of this track means.
    fn state_of(&self, word: &Word, track: usize) -> Result<u16, String> {
        if word.text.contains('.') {
            return self.dotted(&word.text);
        }
        self.state_in(word, track)
    }

    /// A state of a track by its name or number.
    fn state_in(&self, word: &Word, track: usize) -> Result<u16, String> {
        let find = |name: &str| {
            let state = self.own.get(&(track, name))?;
            Some(self.numbers.states[*state])
        };
        let missing = format!("track '{}' has no state", self.track_name(track));
        let own = self.text.states.iter().filter(|s| s.track == track);
        let known = own.map(|state| state.head.name.name.as_str());
        lookup::resolve(word, &missing, find, known)
    }

    fn track_name(&self, track: usize) -> &'a str {
        &self.text.tracks[track].head.name.name
    }

    /// TRACK.STATE.
    fn dotted(&self, text: &str) -> Result<u16, String> {
        let (track, state) = text.split_once('.').unwrap_or_default();
        let number = |t: usize| self.numbers.tracks[t];
        let known = self.tracks.keys().copied();
        let find = |name: &str| self.tracks.get(name).map(|&t| number(t));
        let track = lookup::resolve(&Word::of(track), "there is no track", find, known)?;
        let at = self.numbers.tracks.iter().position(|&t| t == track);
        let at = at.ok_or_else(|| format!("there is no track {track}"))?;
        if Word::of(state).is_number() {
            return Err("a state's number stands by itself, without a track".to_string());
        }
        self.state_in(&Word::of(state), at)
    }

    /// A state of whichever track.
    fn any_state(&self, word: &Word) -> Result<u16, String> {
        if word.text.contains('.') {
            return self.dotted(&word.text);
        }
        let called = self.called.get(word.text.as_str());
        if let Some([one, other, ..]) = called.map(Vec::as_slice) {
            let full = |s: usize| {
                let state = &self.text.states[s];
                let track = self.track_name(state.track);
                format!("'{track}.{}'", state.head.name.name)
            };
            return Err(format!(
                "several states are called '{}'; write TRACK.STATE, such as {} or {}",
                word.text,
                full(*one),
                full(*other)
            ));
        }
        let find = |name: &str| {
            let states = self.called.get(name)?;
            Some(self.numbers.states[states[0]])
        };
        lookup::resolve(word, "there is no state", find, self.called.keys().copied())
    }
}

/// Items in the order of their numbers.
fn in_order<T>(numbers: &[u16], items: Vec<T>) -> Vec<T> {
    let mut numbered: Vec<(u16, T)> = numbers.iter().copied().zip(items).collect();
    numbered.sort_by_key(|(number, _)| *number);
    numbered.into_iter().map(|(_, item)| item).collect()
}

fn names(text: &Text, numbers: &Numbers) -> Names {
    let plan = text.plan.as_ref().map(|(name, _)| name.clone());
    let tracks = text.tracks.iter().map(|track| track.head.name.clone());
    let states = text.states.iter().map(|state| state.head.name.clone());
    Names {
        plan: plan.unwrap_or_default(),
        events: text.events.table.clone(),
        retractions: text.retractions.table.clone(),
        societies: text.societies.table.clone(),
        tracks: in_order(&numbers.tracks, tracks.collect::<Vec<Name>>()),
        states: in_order(&numbers.states, states.collect::<Vec<Name>>()),
    }
}

fn lines(text: &Text, numbers: &Numbers) -> Lines {
    let tracks = text.tracks.iter().map(|track| track.head.given.line);
    let states = text.states.iter().map(|state| state.head.given.line);
    let steps = text.steps.iter().map(|step| step.given.line);
    let windows = text.windows.iter().map(|window| window.given.line);
    let grants = text.grants.iter().map(|grant| grant.given.line);
    Lines {
        tracks: in_order(&numbers.tracks, tracks.collect()),
        states: in_order(&numbers.states, states.collect()),
        steps: in_order(&numbers.steps, steps.collect()),
        windows: in_order(&numbers.windows, windows.collect()),
        grants: in_order(&numbers.grants, grants.collect()),
    }
}
