//! What the second program answers, as the number that the calls for C give.

use second::ledger::PAIRS;
use second::limit::Limit;
use second::manager::{self, Answer};
use second::plan;
use testing::generate::singles;

use crate::case::{Call, Given};
use crate::paths;

/// A call's answer and the words afterwards, and the answers to the steps of a
/// path that it shows: those of the path, two beyond, and the greatest index.
#[derive(Clone, Debug, PartialEq, Eq)]
pub struct Done {
    pub answer: u64,
    pub words: Vec<u16>,
    pub steps: Vec<u64>,
}

impl Done {
    /// The number and the words, in hex, and the steps where there are some.
    pub fn text(&self) -> String {
        let words: String = self.words.iter().map(|w| format!("{w:04x}")).collect();
        let steps: String = self.steps.iter().map(|s| format!(" {s:#x}")).collect();
        let steps = Some(steps).filter(|steps| !steps.is_empty());
        let steps = steps.map_or(String::new(), |steps| format!(", steps{steps}"));
        format!("{:#x}, words {words}{steps}", self.answer)
    }
}

/// The call, made by the second program.
pub fn answer(given: &Given) -> Done {
    let plan = &given.plan[..];
    let mut words = given.words.clone();
    let answer = match given.call {
        Call::Read => read(plan),
        Call::Begin => number(manager::begin(given.limit, plan, &mut words), |()| 0),
        Call::Largest(track) => {
            let shown = paths::shown(plan, track);
            return Done { words, ..shown };
        }
        Call::Other(call) => other(given.limit, plan, &mut words, call),
    };
    Done {
        answer,
        words,
        steps: Vec::new(),
    }
}

fn other(limit: Limit, plan: &[u8], words: &mut [u16], call: singles::Call) -> u64 {
    match call {
        singles::Call::Event(event, day, society) => {
            let answer = manager::event(limit, plan, words, event, day, society);
            number(answer, |m| pair(m.moved, m.closed))
        }
        singles::Call::Signal(society) => {
            let answer = manager::signal(limit, plan, words, society);
            number(answer, |turned| pair(turned, 0))
        }
        singles::Call::Fire(track, society) => {
            let answer = manager::fire(limit, plan, words, track, society);
            number(answer, |entry| pair(entry.code, entry.deviation))
        }
        singles::Call::Ready => {
            let answer = manager::ready(limit, plan, words);
            number(answer, |bits| u64::from(bits) << 32)
        }
        singles::Call::Entries(track) => {
            part(limit, manager::entries(limit, plan, words, track), track)
        }
        singles::Call::DateOfDay(day) => number(manager::date_of_day(day), |date| {
            pair(date.year, date.month) | u64::from(date.day) << 48
        }),
        singles::Call::DayOfDate(date) => number(manager::day_of_date(date), |day| {
            u64::from(day as u32) << 32
        }),
    }
}

/// Bits 0 to 15 a refusal; else tracks, states and transitions.
fn read(bytes: &[u8]) -> u64 {
    match plan::read(bytes) {
        Ok(plan) => {
            let states = pair(plan.track_count() as u16, plan.state_count() as u16);
            states | (plan.transition_count() as u64) << 48
        }
        Err(refusal) => u64::from(refusal.number()),
    }
}

/// Bits 0 to 15 a refusal; else the figures.
fn number<Figures>(answer: Answer<Figures>, figures: impl FnOnce(Figures) -> u64) -> u64 {
    match answer {
        Answer::Done(done) => figures(done),
        Answer::Refused(refusal) => u64::from(refusal.number()),
    }
}

/// Bits 16 to 31 and 32 to 47.
pub fn pair(first: u16, second: u16) -> u64 {
    u64::from(first) << 16 | u64::from(second) << 32
}

/// Bits 0 to 15 the count of words, bits 16 to 47 the index of the first one.
fn part(limit: Limit, words: &[u16], track: u16) -> u64 {
    let index = limit.track_start(usize::from(track)) + PAIRS;
    match words.len() as u64 {
        0 => 0,
        count => count | (index as u64) << 16,
    }
}

#[cfg(test)]
mod tests {
    use super::*;
    use second::days::Date;
    use testing::samples::{sample, sample_records};

    /// The sample plan's ledger after events 10 and 11.
    fn worked_at(limit: Limit) -> Vec<u16> {
        let mut words = vec![0; 205];
        manager::begin(limit, &sample(), &mut words);
        for event in [10, 11] {
            manager::event(limit, &sample(), &mut words, event, 0, 1);
        }
        words
    }

    fn worked() -> Vec<u16> {
        worked_at(Limit::MAIN)
    }

    fn answered_at(limit: Limit, plan: Vec<u8>, call: singles::Call) -> Done {
        answer(&Given {
            limit,
            plan,
            words: worked_at(limit),
            call: Call::Other(call),
        })
    }

    fn answered(plan: Vec<u8>, call: singles::Call) -> Done {
        answered_at(Limit::MAIN, plan, call)
    }

    #[test]
    fn the_part_of_a_track_is_counted_from_the_leading_words() {
        let done = answered(sample(), singles::Call::Entries(1));
        assert_eq!(done.answer, 2 | (4 + 67 + 3) << 16);
        assert_eq!(done.words[74..76], [51, 65535]);
        let limit = Limit::READING_ROOM;
        let done = answered_at(limit, sample(), singles::Call::Entries(1));
        assert_eq!(done.answer, 2 | (4 + 19 + 3) << 16);
        assert_eq!(done.words[26..28], [51, 65535]);
    }

    #[test]
    fn under_another_plan_a_call_is_24_and_a_part_is_0() {
        let mut other = sample_records();
        other.transitions[0].code = 60;
        for (call, answer) in [
            (singles::Call::Ready, 24),
            (singles::Call::Fire(1, 1), 24),
            (singles::Call::Entries(1), 0),
        ] {
            let done = answered(other.encode(), call);
            assert_eq!((done.answer, done.words), (answer, worked()));
        }
    }

    #[test]
    fn a_society_without_rights_is_28_and_changes_no_word() {
        for call in [
            singles::Call::Event(12, 0, 2),
            singles::Call::Signal(2),
            singles::Call::Fire(1, 2),
        ] {
            let done = answered(sample(), call);
            assert_eq!((done.answer, done.words), (28, worked()));
        }
        assert_eq!(answered(sample(), singles::Call::Signal(1)).answer, 3 << 16);
    }

    #[test]
    fn conversions_are_a_refusal_or_their_figures() {
        let converted = |call| answer(&Given::conversion(call)).answer;
        let last = singles::Call::DateOfDay(-1);
        assert_eq!(converted(last), 1899 << 16 | 12 << 32 | 31 << 48);
        assert_eq!(converted(singles::Call::DateOfDay(182_621)), 26);
        let date = |year, month, day| singles::Call::DayOfDate(Date { year, month, day });
        assert_eq!(converted(date(1899, 12, 31)), 0xFFFF_FFFF << 32);
        assert_eq!(converted(date(1900, 3, 1)), 59 << 32);
        assert_eq!(converted(date(1900, 2, 29)), 26);
    }
}
