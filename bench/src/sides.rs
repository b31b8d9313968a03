//! A call by the proved library, by the second program and by the fast one, at
//! either limit, each answer packed into one number, as the calls for C have it.
//! Of the path with the most entries each side shows its own; [`agreed`] leaves
//! it out.

use retraction::{raw, Limit, NONE};
use second::days::Date;
use second::limit;
use second::manager::{self, Answer};

use crate::fast::limit::{Limit as Constant, Main, ReadingRoom};
use crate::fast::{self, Refused};

/// Both limits, the main program's first.
pub const LIMITS: [Limit; 2] = [Limit::Main, Limit::ReadingRoom];

/// A call on lent words, on the plan alone, or a conversion, which is given
/// neither.
#[derive(Clone, Copy, Debug, PartialEq, Eq)]
pub enum Call {
    Begin,
    /// An event, its day and the society.
    Event(u16, i32, u16),
    /// A signal of a society.
    Signal(u16),
    /// A track and the society.
    Fire(u16, u16),
    Ready,
    Entries(u16),
    DateOfDay(i32),
    DayOfDate(Date),
    /// The most entries that a track can ask for.
    Largest(u16),
    /// A track, and an index of a path with so many.
    LargestStep(u16, u16),
}

/// Who makes a call: on the plan's bytes and the words lent, at a limit. The
/// conversions and the calls on the plan alone do not read it.
pub type Side = fn(&[u8], &mut [u16], Call, Limit) -> u64;

/// A side and its name.
pub type Named = (&'static str, Side);

/// The three sides.
pub const SIDES: [Named; 3] = [("proved", proved), ("second", second), ("fast", fast)];

/// What the sides agree on in an answer: all of it, but where a path is free,
/// its length and its steps.
pub fn agreed(call: Call, answer: u64) -> u64 {
    match call {
        Call::Largest(_) => answer & 0xFFFF_FFFF,
        Call::LargestStep(..) => answer & 0xFFFF,
        _ => answer,
    }
}

/// The call by the proved library.
pub fn proved(plan: &[u8], words: &mut [u16], call: Call, limit: Limit) -> u64 {
    let refused = |refusal: retraction::Refusal| refusal.number();
    let options = limit.options();
    match call {
        Call::Begin => number(raw::begin(plan, words, options).map_err(refused), |()| 0),
        Call::Event(event, day, society) => {
            let done = raw::event(plan, words, event, day, society, options).map_err(refused);
            number(done, |figures| pair(figures.moved, figures.closed))
        }
        Call::Signal(society) => {
            let done = raw::signal(plan, words, society, options).map_err(refused);
            number(done, |turned| pair(turned, 0))
        }
        Call::Fire(track, society) => {
            let done = raw::fire(plan, words, track, society, options).map_err(refused);
            number(done, |e| pair(e.code, e.deviation.unwrap_or(NONE)))
        }
        Call::Ready => number(raw::ready(plan, words, options).map_err(refused), bits),
        Call::Entries(track) => part(words, raw::entries(plan, words, track, options)),
        Call::DateOfDay(day) => number(raw::date_of_day(day).map_err(refused), |d| {
            triple(d.year, d.month, d.day)
        }),
        Call::DayOfDate(Date { year, month, day }) => {
            let date = retraction::Date { year, month, day };
            number(raw::day_of_date(date).map_err(refused), signed)
        }
        Call::Largest(track) => {
            let done = raw::largest(plan, track).map_err(refused);
            number(done, |(figure, length)| pair(figure, length))
        }
        Call::LargestStep(track, index) => {
            let done = raw::largest_step(plan, track, index).map_err(refused);
            number(done, |step| pair(step.unwrap_or(NONE), 0))
        }
    }
}

/// The call by the second program.
pub fn second(plan: &[u8], words: &mut [u16], call: Call, limit: Limit) -> u64 {
    second_at(plan, words, call, limit::Limit(limit.entries()))
}

/// The call by the second program at any limit.
pub fn second_at(plan: &[u8], words: &mut [u16], call: Call, limit: limit::Limit) -> u64 {
    match call {
        Call::Begin => number(result(manager::begin(limit, plan, words)), |()| 0),
        Call::Event(event, day, society) => {
            let done = result(manager::event(limit, plan, words, event, day, society));
            number(done, |figures| pair(figures.moved, figures.closed))
        }
        Call::Signal(society) => {
            let done = result(manager::signal(limit, plan, words, society));
            number(done, |turned| pair(turned, 0))
        }
        Call::Fire(track, society) => {
            let done = result(manager::fire(limit, plan, words, track, society));
            number(done, |entry| pair(entry.code, entry.deviation))
        }
        Call::Ready => number(result(manager::ready(limit, plan, words)), bits),
        Call::Entries(track) => part(words, manager::entries(limit, plan, words, track)),
        Call::DateOfDay(day) => number(result(manager::date_of_day(day)), |d| {
            triple(d.year, d.month, d.day)
        }),
        Call::DayOfDate(date) => number(result(manager::day_of_date(date)), signed),
        Call::Largest(track) => number(second_largest(plan, track), |(figure, path)| {
            pair(figure, path.len() as u16)
        }),
        Call::LargestStep(track, index) => number(second_largest(plan, track), |(_, path)| {
            pair(path.get(usize::from(index)).copied().unwrap_or(NONE), 0)
        }),
    }
}

/// The figure and the path of a track by the second program, or its refusal.
fn second_largest(plan: &[u8], track: u16) -> Result<(u16, Vec<u16>), u16> {
    result(manager::largest(plan, track)).map(|largest| (largest.figure, largest.path))
}

/// The call by the fast program.
pub fn fast(plan: &[u8], words: &mut [u16], call: Call, limit: Limit) -> u64 {
    match limit {
        Limit::Main => fast_at::<Main>(plan, words, call),
        Limit::ReadingRoom => fast_at::<ReadingRoom>(plan, words, call),
    }
}

/// The call by the fast program at any limit.
pub fn fast_at<L: Constant>(plan: &[u8], words: &mut [u16], call: Call) -> u64 {
    let refused = |Refused(number)| number;
    match call {
        Call::Begin => number(fast::begin::<L>(plan, words).map_err(refused), |()| 0),
        Call::Event(event, day, society) => {
            let done = fast::event::<L>(plan, words, event, day, society).map_err(refused);
            number(done, |figures| pair(figures.moved, figures.closed))
        }
        Call::Signal(society) => {
            let done = fast::signal::<L>(plan, words, society).map_err(refused);
            number(done, |turned| pair(turned, 0))
        }
        Call::Fire(track, society) => {
            let done = fast::fire::<L>(plan, words, track, society).map_err(refused);
            number(done, |entry| pair(entry.code, entry.deviation))
        }
        Call::Ready => number(fast::ready::<L>(plan, words).map_err(refused), bits),
        Call::Entries(track) => part(words, fast::entries::<L>(plan, words, track)),
        Call::DateOfDay(day) => number(fast::days::date_of_day(day).map_err(refused), |d| {
            triple(d.year, d.month, d.day)
        }),
        Call::DayOfDate(Date { year, month, day }) => {
            let date = fast::days::Date { year, month, day };
            number(fast::days::day_of_date(date).map_err(refused), signed)
        }
        Call::Largest(track) => {
            let done = fast::largest(plan, track).map_err(refused);
            number(done, |(figure, length)| pair(figure, length))
        }
        Call::LargestStep(track, index) => {
            let done = fast::largest_step(plan, track, index).map_err(refused);
            number(done, |step| pair(step, 0))
        }
    }
}

/// The second program's answer, its refusal by number.
fn result<Figures>(answer: Answer<Figures>) -> Result<Figures, u16> {
    match answer {
        Answer::Done(figures) => Ok(figures),
        Answer::Refused(refusal) => Err(u16::from(refusal.number())),
    }
}

/// Bits 0 to 15 a refusal; else the figures.
fn number<Figures>(done: Result<Figures, u16>, figures: impl FnOnce(Figures) -> u64) -> u64 {
    done.map_or_else(u64::from, figures)
}

/// Bits 16 to 31 and 32 to 47.
fn pair(first: u16, second: u16) -> u64 {
    u64::from(first) << 16 | u64::from(second) << 32
}

/// Bits 16 to 31, 32 to 47 and 48 to 63.
fn triple(first: u16, second: u16, third: u16) -> u64 {
    pair(first, second) | u64::from(third) << 48
}

/// Bits 32 to 63.
fn bits(tracks: u32) -> u64 {
    u64::from(tracks) << 32
}

/// Bits 32 to 63, a day.
fn signed(day: i32) -> u64 {
    bits(day as u32)
}

/// Bits 0 to 15 the count of words, the others the index of the first one.
fn part(words: &[u16], part: &[u16]) -> u64 {
    if part.is_empty() {
        return 0;
    }
    let bytes = part.as_ptr() as usize - words.as_ptr() as usize;
    part.len() as u64 | (bytes as u64 / 2) << 16
}
