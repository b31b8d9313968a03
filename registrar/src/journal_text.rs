//! Journals as text, read and written; docs/REGISTRAR.md has the grammar.

use crate::day;
use crate::draft::Draft;
use crate::fault::{suggestion, Fault};
use crate::journal::Call;
use crate::limit;
use crate::lookup;
use crate::plan_text::MOST_FAULTS;
use crate::words::{self, Line, Word};
use retraction::Limit;

/// The calls of a journal's text.
#[derive(Clone, Debug, Default, PartialEq, Eq)]
pub struct Journal {
    pub calls: Vec<Call>,
    /// The line of each call, counted from 1.
    pub lines: Vec<usize>,
    /// The day and the society in force at the end.
    pub day: Option<i32>,
    pub society: Option<u16>,
    /// The limit that every call is made at.
    pub limit: Limit,
}

const HEAD: &str = "journal [of NAME] [at limit 8]";
const FORM: &str = "[on DAY] [as SOCIETY] [CALL], where CALL is 'event EVENT', 'withdraw', \
                    'take back TRACK' or 'take back next'";
const FIRST_WORDS: [&str; 6] = ["journal", "on", "as", "event", "withdraw", "take"];

/// The calls of a text, or what is wrong with it, in the order of its lines.
pub fn read(text: &str, draft: &Draft) -> Result<Journal, Vec<Fault>> {
    let mut journal = Journal::default();
    let mut faults = Vec::new();
    let mut headed = false;
    for (at, text) in text.lines().enumerate() {
        let (words, broken) = words::split(text, at + 1);
        if words.is_empty() && broken.is_none() {
            continue;
        }
        let mut line = Line::new(at + 1, words);
        let result = if headed {
            journal.line(&mut line, draft)
        } else {
            journal.first_line(&mut line, draft)
        };
        headed = true;
        faults.extend(broken.or_else(|| result.err()));
    }
    if !headed {
        faults.push(Line::new(1, Vec::new()).fault(beginning()));
    }
    faults.truncate(MOST_FAULTS);
    match faults.is_empty() {
        true => Ok(journal),
        false => Err(faults),
    }
}

/// The one call of a line that is to follow a journal. Faults are on line 1.
pub fn read_line(text: &str, draft: &Draft, journal: &Journal) -> Result<Call, Vec<Fault>> {
    let (words, broken) = words::split(text, 1);
    let mut line = Line::new(1, words);
    let mut longer = journal.clone();
    let result = longer.line(&mut line, draft);
    let added = longer.calls.get(journal.calls.len()).copied();
    let none = || line.fault("a call is wanted here: 'event EVENT', 'withdraw' or 'take back ..'");
    let call = result.and_then(|()| added.ok_or_else(none));
    match broken {
        Some(fault) => Err(vec![fault]),
        None => call.map_err(|fault| vec![fault]),
    }
}

/// What is said where the first line is missing.
fn beginning() -> String {
    format!("a journal begins with the line: {HEAD}")
}

/// The first line, behind its first word: the limit.
fn head(line: &mut Line, draft: &Draft) -> Result<Limit, Fault> {
    if line.take_if("of") {
        let word = line.peek().cloned().unwrap_or_default();
        let name = lookup::meant(line, "the name of the plan")?;
        let plan = &draft.names.plan.name;
        if !plan.is_empty() && name.text != *plan {
            let what = format!("this plan is called '{plan}', not '{}'", name.text);
            return Err(word.fault(line.number, what));
        }
    }
    let limit = line.take_if("at").then(|| a_limit(line)).transpose()?;
    line.end(&["of", "at"], HEAD)?;
    Ok(limit.unwrap_or_default())
}

fn a_limit(line: &mut Line) -> Result<Limit, Fault> {
    line.keyword("limit")?;
    let word = lookup::meant(line, "the limit, 8 or 32,")?;
    limit::parse(&word.text).map_err(|what| word.fault(line.number, what))
}

fn a_society(line: &mut Line, draft: &Draft) -> Result<u16, Fault> {
    let word = lookup::meant(line, "a society")?;
    let society = lookup::in_table(&word, &draft.names.societies, "society");
    society.map_err(|what| word.fault(line.number, what))
}

impl Journal {
    /// The journal of calls that have no text, at a limit: what the last of them
    /// have is in force.
    #[must_use]
    pub fn of_calls(calls: Vec<Call>, limit: Limit) -> Journal {
        Journal {
            day: calls.iter().rev().find_map(|call| call.day()),
            society: calls.last().map(|call| call.society()),
            lines: Vec::new(),
            calls,
            limit,
        }
    }

    /// A journal whose head is missing is read on, for the lines below.
    fn first_line(&mut self, line: &mut Line, draft: &Draft) -> Result<(), Fault> {
        if line.take_if("journal") {
            self.limit = head(line, draft)?;
            return Ok(());
        }
        let word = line.peek().map_or("", |word| &word.text);
        let meant = suggestion(word, ["journal"]);
        let fault = line.fault(beginning() + &meant);
        let _ = self.line(line, draft);
        Err(fault)
    }

    fn line(&mut self, line: &mut Line, draft: &Draft) -> Result<(), Fault> {
        let day = line.take_if("on").then(|| lookup::day(line)).transpose();
        let society = line
            .take_if("as")
            .then(|| a_society(line, draft))
            .transpose();
        // A faulty day or society is in force as well, for the lines below.
        self.day = day.as_ref().map_or(Some(0), |day| day.or(self.day));
        self.society = society
            .as_ref()
            .map_or(Some(0), |society| society.or(self.society));
        day?;
        society?;
        let first = match line.take() {
            Some(first) => first,
            None => return Ok(()),
        };
        let call = self.call(&first, line, draft)?;
        line.end(&[], FORM)?;
        self.calls.push(call);
        self.lines.push(line.number);
        Ok(())
    }

    fn call(&self, first: &Word, line: &mut Line, draft: &Draft) -> Result<Call, Fault> {
        let fault = |what: String| first.fault(line.number, what);
        let nobody = "who does it? write 'as SOCIETY' on this line or above";
        let society = self.society.ok_or_else(|| fault(nobody.to_string()));
        if first.is("event") {
            let undated = "on which day? write 'on DAY' on this line or above";
            let day = self.day.ok_or_else(|| fault(undated.to_string()));
            let word = lookup::meant(line, "an event")?;
            let event = lookup::in_table(&word, &draft.names.events, "event");
            return Ok(Call::Event {
                event: event.map_err(|what| word.fault(line.number, what))?,
                day: day?,
                society: society?,
            });
        }
        if first.is("withdraw") {
            return Ok(Call::Signal { society: society? });
        }
        if !first.is("take") {
            return Err(fault(unknown(first)));
        }
        line.keyword("back")?;
        if line.take_if("next") {
            return Ok(Call::FireLowest { society: society? });
        }
        let word = lookup::meant(line, "a track, or 'next',")?;
        let track = lookup::track(&word, &draft.names);
        Ok(Call::Fire {
            track: track.map_err(|what| word.fault(line.number, what))?,
            society: society?,
        })
    }
}

fn unknown(word: &Word) -> String {
    let text = &word.text;
    let meant = suggestion(text, FIRST_WORDS);
    if word.is("journal") {
        format!("the line '{HEAD}' stands at the top alone")
    } else if word.is("at") || word.is("limit") {
        format!("the limit stands on the first line: {HEAD}")
    } else if word.quoted || meant.is_empty() {
        format!("'{text}' does not fit here; the line is: {FORM}")
    } else {
        format!("'{text}' does not fit here{meant}")
    }
}

/// The text of calls at a limit. Read again it gives the same.
#[must_use]
pub fn write(calls: &[Call], limit: Limit, draft: &Draft) -> String {
    let plan = match draft.names.plan.name.as_str() {
        "" => String::new(),
        name => format!(" of {name}"),
    };
    let mut text = format!("journal{plan}{}\n", limit::written(limit));
    let (mut day, mut society) = (None, None);
    for &call in calls {
        let mut changes = Vec::new();
        if let Call::Event { day: new, .. } = call {
            if day.replace(new) != Some(new) {
                changes.push(format!("on {}", day::text(new)));
            }
        }
        if society.replace(call.society()) != Some(call.society()) {
            let name = draft.names.societies.name(call.society());
            changes.push(format!("as {name}"));
        }
        if !changes.is_empty() {
            text += &format!("{}\n", changes.join(" "));
        }
        text += &format!("  {}\n", line_of(call, draft));
    }
    text
}

/// A call as its words, without its day and its society.
#[must_use]
pub fn line_of(call: Call, draft: &Draft) -> String {
    match call {
        Call::Event { event, .. } => format!("event {}", draft.names.events.name(event)),
        Call::Signal { .. } => "withdraw".to_string(),
        Call::Fire { track, .. } => format!("take back {}", draft.track(track)),
        Call::FireLowest { .. } => "take back next".to_string(),
    }
}
