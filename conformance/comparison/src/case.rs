//! A case: a call with what it is given, or a journal with its plan, as a
//! line of text from which it can be run again.

use second::days::Date;
use second::limit::Limit;
use testing::generate::journals::Case as Journal;
use testing::generate::singles::{self, Single};
use testing::vectors;

/// A call: a read, a begin, the largest number of entries of a track, or another
/// one.
#[derive(Clone, Copy, Debug, PartialEq, Eq)]
pub enum Call {
    Read,
    Begin,
    Largest(u16),
    Other(singles::Call),
}

impl Call {
    /// The call's letter and its arguments.
    pub fn text(self) -> String {
        match self {
            Call::Read => "P".to_string(),
            Call::Begin => "B".to_string(),
            Call::Largest(track) => format!("M{track}"),
            Call::Other(call) => vectors::call_text(call),
        }
    }

    fn parse(text: &str) -> Option<Call> {
        let (letter, argument) = (text.get(..1)?, text.get(1..)?);
        Some(Call::Other(match letter {
            "P" => return Some(Call::Read),
            "B" => return Some(Call::Begin),
            "M" => return Some(Call::Largest(argument.parse().ok()?)),
            "E" => {
                let (event, rest) = argument.split_once('@')?;
                let (day, society) = rest.split_once(':')?;
                let (event, day) = (event.parse().ok()?, day.parse().ok()?);
                singles::Call::Event(event, day, society.parse().ok()?)
            }
            "S" => singles::Call::Signal(argument.strip_prefix(':')?.parse().ok()?),
            "F" => {
                let (track, society) = argument.split_once(':')?;
                singles::Call::Fire(track.parse().ok()?, society.parse().ok()?)
            }
            "Y" => singles::Call::Ready,
            "N" => singles::Call::Entries(argument.parse().ok()?),
            "D" => singles::Call::DateOfDay(argument.parse().ok()?),
            "G" => singles::Call::DayOfDate(date(argument)?),
            _ => return None,
        }))
    }
}

/// Year, month and day, between hyphens.
fn date(text: &str) -> Option<Date> {
    let fields: Result<Vec<u16>, _> = text.split('-').map(str::parse).collect();
    match fields.ok()?[..] {
        [year, month, day] => Some(Date { year, month, day }),
        _ => None,
    }
}

/// A single call with what it is given; where no ledger is, the limit has no say.
#[derive(Clone, Debug, PartialEq, Eq)]
pub struct Given {
    pub limit: Limit,
    pub plan: Vec<u8>,
    pub words: Vec<u16>,
    pub call: Call,
}

impl From<Single> for Given {
    fn from(single: Single) -> Given {
        Given {
            limit: single.limit,
            plan: single.plan,
            words: single.words,
            call: Call::Other(single.call),
        }
    }
}

impl Given {
    /// The largest number of entries of a track, which is given no words.
    pub fn largest(plan: Vec<u8>, track: u16) -> Given {
        Given {
            limit: Limit::MAIN,
            plan,
            words: Vec::new(),
            call: Call::Largest(track),
        }
    }

    /// A conversion, which is given no plan and no words.
    pub fn conversion(call: singles::Call) -> Given {
        Given {
            limit: Limit::MAIN,
            plan: Vec::new(),
            words: Vec::new(),
            call: Call::Other(call),
        }
    }

    /// The options of the call: bit 0 for the reading rooms' limit, and others,
    /// which mean nothing, set by what is given, so that a line tells them too.
    pub fn options(&self) -> u32 {
        let setting = u32::from(self.limit == Limit::READING_ROOM);
        let bytes = self
            .plan
            .iter()
            .copied()
            .chain(self.call.text().into_bytes());
        let words = self.words.iter().map(|&word| u32::from(word));
        let mixed = bytes
            .map(u32::from)
            .chain(words)
            .fold(0x811C_9DC5, |sum: u32, n| {
                (sum ^ n).wrapping_mul(0x0100_0193)
            });
        match mixed % 4 {
            0 => setting,
            1 => setting | 2,
            2 => setting | 0xFFFF_FFFE,
            _ => setting | (mixed & 0xFFFF_FFFE),
        }
    }
}

/// `L;plan;words;call`: bytes are two hex digits each, words four. The limit is
/// a number after the letter where it is not the main program's.
pub fn call_line(given: &Given) -> String {
    let words = given.words.iter().map(|word| format!("{word:04x}"));
    let words: String = words.collect();
    let (mark, plan) = (vectors::mark("L", given.limit), hex(&given.plan));
    format!("{mark};{plan};{words};{}", given.call.text())
}

/// `U;plan;journal`, with the limit as in a call's line.
pub fn journal_line(limit: Limit, journal: &Journal) -> String {
    let (plan, records) = (hex(&journal.plan), hex(&journal.journal));
    format!("{};{plan};{records}", vectors::mark("U", limit))
}

/// A case to run again.
pub enum Again {
    Call(Given),
    Journal(Limit, Journal),
}

/// The case of a line; further fields are not looked at.
pub fn parse(line: &str) -> Option<Again> {
    let fields: Vec<&str> = line.trim_end().split(';').collect();
    let (first, rest) = fields.split_first()?;
    let (letter, limit) = vectors::letter_and_limit(first)?;
    if !Limit::SETTINGS.contains(&limit) {
        return None;
    }
    match (letter, rest) {
        ("L", &[plan, words, call, ..]) => Some(Again::Call(Given {
            limit,
            plan: numbers(plan, 2)?,
            words: numbers(words, 4)?,
            call: Call::parse(call)?,
        })),
        ("U", &[plan, journal, ..]) => {
            let (plan, journal) = (numbers(plan, 2)?, numbers(journal, 2)?);
            Some(Again::Journal(limit, Journal { plan, journal }))
        }
        _ => None,
    }
}

fn hex(bytes: &[u8]) -> String {
    bytes.iter().map(|byte| format!("{byte:02x}")).collect()
}

/// Numbers of so many hex digits each.
fn numbers<Number: TryFrom<u32>>(hex: &str, digits: usize) -> Option<Vec<Number>> {
    let starts = (0..hex.len()).step_by(digits);
    let number = |at| {
        let number = u32::from_str_radix(hex.get(at..at + digits)?, 16).ok()?;
        number.try_into().ok()
    };
    starts.map(number).collect()
}

#[cfg(test)]
mod tests {
    use super::*;

    #[test]
    fn a_call_is_read_back_from_its_line() {
        let calls = [
            (singles::Call::Fire(7, 2), "F7:2"),
            (singles::Call::Signal(65535), "S:65535"),
            (singles::Call::Event(7, -3, 0), "E7@-3:0"),
            (singles::Call::Event(7, i32::MAX, 1), "E7@2147483647:1"),
        ];
        for (call, text) in calls {
            for (limit, letter) in [(Limit::MAIN, "L"), (Limit::READING_ROOM, "L8")] {
                let given = Given {
                    limit,
                    plan: vec![4, 0, 255],
                    words: vec![1, 65535, 0],
                    call: Call::Other(call),
                };
                let line = call_line(&given);
                assert_eq!(line, format!("{letter};0400ff;0001ffff0000;{text}"));
                assert!(matches!(parse(&line), Some(Again::Call(same)) if same == given));
            }
        }
    }

    #[test]
    fn a_call_on_a_plan_alone_is_read_back_from_its_line() {
        let given = Given::largest(vec![4, 0, 255], 65535);
        let line = call_line(&given);
        assert_eq!(line, "L;0400ff;;M65535");
        assert!(matches!(parse(&line), Some(Again::Call(same)) if same == given));
    }

    #[test]
    fn a_conversion_is_read_back_from_its_line() {
        let date = Date {
            year: 1900,
            month: 2,
            day: 29,
        };
        let calls = [
            (singles::Call::DateOfDay(i32::MIN), "L;;;D-2147483648"),
            (singles::Call::DayOfDate(date), "L;;;G1900-2-29"),
        ];
        for (call, text) in calls {
            let given = Given::conversion(call);
            assert_eq!(call_line(&given), text);
            assert!(matches!(parse(text), Some(Again::Call(same)) if same == given));
        }
    }

    #[test]
    fn a_journal_is_read_back_from_its_line() {
        let journal = Journal {
            plan: vec![],
            journal: vec![6, 0, 17, 0, 1, 0],
        };
        let same = |again: &Journal| again.plan.is_empty() && again.journal == journal.journal;
        for (limit, letter) in [(Limit::MAIN, "U"), (Limit::READING_ROOM, "U8")] {
            let line = journal_line(limit, &journal);
            assert_eq!(line, format!("{letter};;060011000100"));
            let read = parse(&line);
            assert!(matches!(read, Some(Again::Journal(l, ref j)) if l == limit && same(j)));
        }
    }

    #[test]
    fn a_limit_that_no_caller_can_choose_is_no_case() {
        for line in ["L3;;;Y", "L0;;;Y", "U33;;", "Lx;;;Y", "L65536;;;Y"] {
            assert!(parse(line).is_none(), "{line}");
        }
        assert!(parse("L32;;;Y").is_some());
    }

    #[test]
    fn options_tell_the_limit_in_bit_0_and_have_any_others() {
        let given = |limit, word| Given {
            limit,
            plan: vec![],
            words: vec![word],
            call: Call::Begin,
        };
        let all = |limit| (0..1_000).map(move |word| given(limit, word).options());
        assert!(all(Limit::MAIN).all(|options| options & 1 == 0));
        assert!(all(Limit::READING_ROOM).all(|options| options & 1 == 1));
        let some = |wanted: u32| all(Limit::READING_ROOM).any(|options| options == wanted);
        assert!(some(1) && some(3) && some(u32::MAX));
        for bit in 1..32 {
            let set = all(Limit::MAIN).filter(|options| options >> bit & 1 == 1);
            assert!((100..900).contains(&set.count()), "{bit}");
        }
    }
}
