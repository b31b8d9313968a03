//! Days and dates of the Gregorian calendar. Day 0 is 1 January 1900.

use crate::refusal::{demand, Refusal};

/// Days from first to last, both included.
#[derive(Clone, Copy, Debug, PartialEq, Eq)]
pub struct Term {
    pub first: i32,
    pub last: i32,
}

impl Term {
    /// The day range: 1 January 1600 to 31 December 2399.
    pub const RANGE: Term = Term {
        first: -109_573,
        last: 182_620,
    };

    pub fn contains(self, day: i32) -> bool {
        self.first <= day && day <= self.last
    }

    /// Does not end before it begins, and does not leave the day range.
    pub fn fits(self) -> bool {
        self.first <= self.last
            && Term::RANGE.contains(self.first)
            && Term::RANGE.contains(self.last)
    }
}

/// A date; months and days are counted from 1.
#[derive(Clone, Copy, Debug, PartialEq, Eq)]
pub struct Date {
    pub year: u16,
    pub month: u16,
    pub day: u16,
}

/// The first and the last year of the day range.
const YEARS: (u16, u16) = (1600, 2399);
/// The year that day 0 starts.
const YEAR_ZERO: i32 = 1900;
/// Days of the longest year.
const LONGEST_YEAR: i32 = 366;
/// Days of each month of a year without a leap day.
const MONTHS: [u16; 12] = [31, 28, 31, 30, 31, 30, 31, 31, 30, 31, 30, 31];
const FEBRUARY: u16 = 2;

/// The date of a day; 26 for a day out of range.
pub fn date_of_day(day: i32) -> Result<Date, Refusal> {
    demand(Term::RANGE.contains(day), Refusal::Day)?;
    let year = year_of(day);
    let mut rest = (day - year_start(year)) as u16;
    let mut month = 1;
    while rest >= month_length(year, month) {
        rest -= month_length(year, month);
        month += 1;
    }
    Ok(Date {
        year,
        month,
        day: rest + 1,
    })
}

/// The day of a date; 26 for what is no date, or none of the range.
pub fn day_of_date(date: Date) -> Result<i32, Refusal> {
    let Date { year, month, day } = date;
    let exists = (YEARS.0..=YEARS.1).contains(&year)
        && (1..=MONTHS.len() as u16).contains(&month)
        && (1..=month_length(year, month)).contains(&day);
    demand(exists, Refusal::Day)?;
    let before: u16 = (1..month).map(|m| month_length(year, m)).sum();
    Ok(year_start(year) + i32::from(before + day - 1))
}

/// The year of a day of the range. The guess takes every year before it for a
/// longest one, so it is never too late.
fn year_of(day: i32) -> u16 {
    let mut year = YEARS.0 + ((day - Term::RANGE.first) / LONGEST_YEAR) as u16;
    while year_start(year + 1) <= day {
        year += 1;
    }
    year
}

/// The day of 1 January.
fn year_start(year: u16) -> i32 {
    let years = i32::from(year) - YEAR_ZERO;
    365 * years + leap_years_before(i32::from(year)) - leap_years_before(YEAR_ZERO)
}

/// The leap years from year 1 on that are before this one.
fn leap_years_before(year: i32) -> i32 {
    let past = year - 1;
    past / 4 - past / 100 + past / 400
}

fn is_leap(year: u16) -> bool {
    year % 4 == 0 && (year % 100 != 0 || year % 400 == 0)
}

/// Days of a month, which is 1 to 12.
fn month_length(year: u16, month: u16) -> u16 {
    let leap_day = month == FEBRUARY && is_leap(year);
    MONTHS[usize::from(month) - 1] + u16::from(leap_day)
}
