//! The lines of a plan's text, each by itself: what they give, with the words
//! that stand for something still as words.

use super::forms::{form, FORMS};
use super::heads::{at, head, name, or_nameless, written, Given, Head};
use super::tables::Rows;
use crate::draft::Name;
use crate::fault::{nearest, Fault};
use crate::lookup;
use crate::records::RIGHTS;
use crate::words::{self, Line, Word};

pub struct TrackLine {
    pub head: Head,
    pub host: Option<Word>,
}

pub struct StateLine {
    pub head: Head,
    /// Its track, counted in the order of the text.
    pub track: usize,
    pub last: bool,
    pub replacement: Option<Word>,
}

pub struct StepLine {
    pub given: Given,
    /// The state it leaves, counted in the order of the text.
    pub source: usize,
    pub event: Word,
    pub destination: Word,
    pub code: Option<Word>,
    pub deviation: Option<Word>,
}

pub struct WindowLine {
    pub given: Given,
    /// Its step, counted in the order of the text.
    pub step: usize,
    pub first: i32,
    pub last: i32,
}

pub struct GrantLine {
    pub given: Given,
    pub track: usize,
    pub society: Word,
    pub sum: u16,
}

/// All lines of a text, each sort in the order of the text.
#[derive(Default)]
pub struct Text {
    pub plan: Option<(Name, usize)>,
    pub events: Rows,
    pub retractions: Rows,
    pub societies: Rows,
    pub tracks: Vec<TrackLine>,
    pub states: Vec<StateLine>,
    pub steps: Vec<StepLine>,
    pub windows: Vec<WindowLine>,
    pub grants: Vec<GrantLine>,
    /// Whether a state stands above under the track that is read.
    in_state: bool,
    pub faults: Vec<Fault>,
}

impl Text {
    pub fn of(text: &str) -> Text {
        let mut read = Text::default();
        for (at, text) in text.lines().enumerate() {
            let (words, broken) = words::split(text, at + 1);
            let mut line = Line::new(at + 1, words);
            let fault = read.line(&mut line).err();
            read.faults.extend(broken.or(fault));
        }
        read
    }

    fn line(&mut self, line: &mut Line) -> Result<(), Fault> {
        let first = match line.take() {
            Some(first) => first,
            None => return Ok(()),
        };
        let known = || FORMS.iter().map(|(word, _)| *word);
        let exact = known().find(|word| first.is(word));
        let near = match exact {
            None if !first.quoted => nearest(&first.text, known()),
            _ => None,
        };
        let read = match exact.or(near) {
            Some("plan") => self.plan(line),
            Some("event") => self.events.row(line, "event"),
            Some("retract") => self.retractions.row(line, "retract"),
            Some("society") => self.societies.row(line, "society"),
            Some("track") => self.track(line),
            Some("right") => self.right(line, &first),
            Some("state") => self.state(line, &first),
            Some("on") => self.step(line, &first),
            _ => Ok(()),
        };
        // A misspelt line is read as what it seems to be, for those below it.
        match exact {
            Some(_) => read,
            None => Err(first.fault(line.number, unknown(&first, near))),
        }
    }

    fn plan(&mut self, line: &mut Line) -> Result<(), Fault> {
        let word = lookup::new_name(line, "the plan")?;
        if let Some((_, above)) = self.plan {
            let what = format!("the plan has its name already, on line {above}");
            return Err(word.fault(line.number, what));
        }
        let name = name(line, &word);
        self.plan = Some((name, line.number));
        line.end(&[], form("plan"))
    }

    fn track(&mut self, line: &mut Line) -> Result<(), Fault> {
        let head = head(line, "the track");
        self.in_state = false;
        self.tracks.push(TrackLine {
            head: or_nameless(&head, line),
            host: None,
        });
        head?;
        if line.take_if("in") {
            let host = lookup::meant(line, "a state")?;
            self.tracks.last_mut().expect("a track").host = Some(host);
        }
        line.end(&["in"], form("track"))
    }

    fn state(&mut self, line: &mut Line, first: &Word) -> Result<(), Fault> {
        let track = self.under_track(line, first)?;
        let head = head(line, "the state");
        self.in_state = true;
        self.states.push(StateLine {
            head: or_nameless(&head, line),
            track,
            last: false,
            replacement: None,
        });
        head?;
        let state = self.states.last_mut().expect("a state");
        state.last = line.take_if("final");
        if line.take_if("when") {
            line.keyword("complete")?;
            line.keyword("undo")?;
            state.replacement = Some(lookup::meant(line, "a retraction")?);
        }
        line.end(&["final", "when"], form("state"))
    }

    fn step(&mut self, line: &mut Line, first: &Word) -> Result<(), Fault> {
        self.under_track(line, first)?;
        if !self.in_state {
            let what = "a step stands under the state that it leaves; there is none above";
            return Err(first.fault(line.number, what));
        }
        let mut step = StepLine {
            given: at(line, None),
            source: self.states.len() - 1,
            event: lookup::meant(line, "an event")?,
            destination: {
                line.keyword("go")?;
                lookup::meant(line, "a state")?
            },
            code: None,
            deviation: None,
        };
        if line.take_if("undo") {
            step.code = Some(lookup::meant(line, "a retraction")?);
            if line.take_if("then") {
                step.deviation = Some(lookup::meant(line, "a state")?);
            }
        }
        if line.take_if("step") {
            step.given.number = Some(written(line, "the step")?);
        }
        let window = self.window(line)?;
        self.steps.push(step);
        self.windows.extend(window);
        line.end(&["undo", "then", "step", "from", "window"], form("on"))
    }

    /// The window of the step that is read.
    fn window(&self, line: &mut Line) -> Result<Option<WindowLine>, Fault> {
        if !line.take_if("from") {
            return Ok(None);
        }
        let first = lookup::day(line)?;
        line.keyword("to")?;
        let last = lookup::day(line)?;
        let number = if line.take_if("window") {
            Some(written(line, "the window")?)
        } else {
            None
        };
        Ok(Some(WindowLine {
            given: at(line, number),
            step: self.steps.len(),
            first,
            last,
        }))
    }

    fn right(&mut self, line: &mut Line, first: &Word) -> Result<(), Fault> {
        let track = self.under_track(line, first)?;
        let is_right = |word: &Word| RIGHTS.iter().any(|(right, _)| word.is(right));
        let mut ahead = line.clone();
        let leading = ahead.take().filter(Word::is_number).is_some();
        let numbered = leading && ahead.peek().map_or(false, |word| !is_right(word));
        let number = if numbered {
            Some(written(line, "the right")?)
        } else {
            None
        };
        let society = lookup::meant(line, "a society")?;
        let mut sum = 0;
        while let Some(word) = line.peek().filter(|word| is_right(word)) {
            let right = RIGHTS.iter().find(|(right, _)| word.is(right));
            let part = right.map_or(0, |(_, part)| *part);
            if sum & part != 0 {
                return Err(line.fault(format!("'{}' stands here twice", word.text)));
            }
            sum += part;
            line.take();
        }
        self.grants.push(GrantLine {
            given: at(line, number),
            track,
            society,
            sum,
        });
        line.end(&RIGHTS.map(|(right, _)| right), form("right"))
    }

    /// The track that is read, counted in the order of the text.
    fn under_track(&self, line: &Line, first: &Word) -> Result<usize, Fault> {
        let thing = match first.text.as_str() {
            "on" => "step",
            other => other,
        };
        let what = format!("a {thing} stands under its track; there is none above");
        let missing = || first.fault(line.number, what);
        self.tracks.len().checked_sub(1).ok_or_else(missing)
    }
}

fn unknown(first: &Word, near: Option<&str>) -> String {
    let text = &first.text;
    match near {
        _ if first.quoted => "a line does not begin with a quote".to_string(),
        Some(near) => format!("no line begins with '{text}'; did you mean '{near}'?"),
        None => {
            let known = FORMS.map(|(word, _)| word).join(", ");
            format!("no line begins with '{text}'; lines begin with {known}")
        }
    }
}
