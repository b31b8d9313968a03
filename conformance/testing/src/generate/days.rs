//! Days in range and out of it, terms, and dates that are and are not.

use super::rng::Rng;
use second::days::{self, Date, Term};

/// A day of the range: an end of it, day 0 or near it, or any.
pub fn any_day(rng: &mut Rng) -> i32 {
    let Term { first, last } = Term::RANGE;
    match rng.below(100) {
        0..=7 => first,
        8..=15 => last,
        16..=25 => 0,
        26..=35 => first + rng.below(40) as i32,
        36..=45 => last - rng.below(40) as i32,
        46..=60 => rng.below(200) as i32 - 100,
        _ => between(rng, first, last),
    }
}

/// A day from `low` to `high`, both included.
pub fn between(rng: &mut Rng, low: i32, high: i32) -> i32 {
    let days = high.abs_diff(low) as usize + 1;
    low.wrapping_add(rng.below(days) as i32)
}

/// A day out of range, on either side.
pub fn outside(rng: &mut Rng) -> i32 {
    if rng.chance(50) {
        before_range(rng)
    } else {
        after_range(rng)
    }
}

/// A day before the range, often just so, now and then the least number.
pub fn before_range(rng: &mut Rng) -> i32 {
    let last = Term::RANGE.first - 1;
    match rng.below(10) {
        0..=3 => last,
        4..=5 => i32::MIN,
        6..=7 => last - rng.below(1000) as i32,
        _ => between(rng, i32::MIN, last),
    }
}

/// A day after the range, often just so, now and then the greatest number.
pub fn after_range(rng: &mut Rng) -> i32 {
    let first = Term::RANGE.last + 1;
    match rng.below(10) {
        0..=3 => first,
        4..=5 => i32::MAX,
        6..=7 => first + rng.below(1000) as i32,
        _ => between(rng, first, i32::MAX),
    }
}

/// The day, or the end of the range that it lies beyond.
pub fn clamped(day: i32) -> i32 {
    day.clamp(Term::RANGE.first, Term::RANGE.last)
}

/// The days of a window: near a day, of one day, open to an end of the range,
/// all of them, or any.
pub fn term(rng: &mut Rng, near: i32) -> Term {
    let Term { first, last } = Term::RANGE;
    let start = clamped(near - 20 + rng.below(41) as i32);
    let (first, last) = match rng.below(100) {
        0..=49 => (start, start + rng.below(30) as i32),
        50..=69 => (start, start),
        70..=77 => (first, start),
        78..=85 => (start, last),
        86..=88 => (first, last),
        89..=91 => (first, first),
        92..=94 => (last, last),
        _ => {
            let start = any_day(rng);
            (start, between(rng, start, last))
        }
    };
    Term {
        first,
        last: clamped(last),
    }
}

/// A conversion's day: of the range, near its first day, or out of it.
pub fn day_to_convert(rng: &mut Rng) -> i32 {
    match rng.below(10) {
        0..=3 => Term::RANGE.first + rng.below(400) as i32,
        4..=6 => any_day(rng),
        7..=8 => outside(rng),
        _ => rng.draw() as i32,
    }
}

/// A conversion's date: one of the range, one with a field changed, or three
/// words.
pub fn date_to_convert(rng: &mut Rng) -> Date {
    let day = any_day(rng);
    let mut date = days::date_of_day(day).expect("a day of the range");
    match rng.below(10) {
        0..=3 => {}
        4 => date.day = rng.pick(&[0, 29, 30, 31, 32]).unwrap_or(0),
        5 => date.month = rng.pick(&[0, 2, 12, 13]).unwrap_or(0),
        6 => date.year = rng.pick(&[0, 1599, 1900, 2000, 2400]).unwrap_or(0),
        7 => leap_day(rng, &mut date),
        _ => date = three_words(rng),
    }
    date
}

/// 29 February of a year, often of a last one of a century.
fn leap_day(rng: &mut Rng, date: &mut Date) {
    if rng.chance(50) {
        date.year = 100 * rng.between(15, 24) as u16;
    }
    (date.month, date.day) = (2, 29);
}

fn three_words(rng: &mut Rng) -> Date {
    Date {
        year: rng.word(),
        month: rng.word(),
        day: rng.word(),
    }
}
