//! Days and dates: every day of the range against a calendar that goes one day
//! after another, and the dates that there are not.

use second::days::{Date, Term};
use second::manager::{self, Answer};
use second::refusal::Refusal;

fn date(year: u16, month: u16, day: u16) -> Date {
    Date { year, month, day }
}

fn is_leap(year: u16) -> bool {
    match (year % 100, year % 400) {
        (0, 0) => true,
        (0, _) => false,
        _ => year % 4 == 0,
    }
}

fn last_of_month(year: u16, month: u16) -> u16 {
    match month {
        2 if is_leap(year) => 29,
        2 => 28,
        4 | 6 | 9 | 11 => 30,
        _ => 31,
    }
}

/// The date after a date.
fn tomorrow(today: Date) -> Date {
    let Date { year, month, day } = today;
    if day < last_of_month(year, month) {
        date(year, month, day + 1)
    } else if month < 12 {
        date(year, month + 1, 1)
    } else {
        date(year + 1, 1, 1)
    }
}

fn converts(day: i32, date: Date) {
    assert_eq!(manager::date_of_day(day), Answer::Done(date), "{day}");
    assert_eq!(manager::day_of_date(date), Answer::Done(day), "{date:?}");
}

fn no_day(day: i32) {
    let refused = Answer::Refused(Refusal::Day);
    assert_eq!(manager::date_of_day(day), refused, "{day}");
}

fn no_date(date: Date) {
    let refused = Answer::Refused(Refusal::Day);
    assert_eq!(manager::day_of_date(date), refused, "{date:?}");
}

#[test]
fn the_paper_s_days_are_the_paper_s_dates() {
    converts(0, date(1900, 1, 1));
    converts(-1, date(1899, 12, 31));
    converts(59, date(1900, 3, 1));
    converts(58, date(1900, 2, 28));
    converts(-109_573, date(1600, 1, 1));
    converts(182_620, date(2399, 12, 31));
}

#[test]
fn every_day_of_the_range_is_the_day_after_the_one_before() {
    let mut today = date(1600, 1, 1);
    let mut days = 0;
    for day in Term::RANGE.first..=Term::RANGE.last {
        converts(day, today);
        today = tomorrow(today);
        days += 1;
    }
    assert_eq!(days, 292_194);
    assert_eq!(today, date(2400, 1, 1));
}

#[test]
fn days_out_of_range_are_26() {
    for day in [-109_574, 182_621, -200_000, 200_000, i32::MIN, i32::MAX] {
        no_day(day);
    }
}

#[test]
fn dates_that_there_are_not_are_26() {
    for month in [0, 13, 14, 256, 65_535] {
        no_date(date(2000, month, 1));
    }
    for day in [0, 32, 33, 256, 65_535] {
        no_date(date(2000, 1, day));
    }
    for year in [1599, 2400, 0, 1, 800, 65_535] {
        no_date(date(year, 1, 1));
        no_date(date(year, 12, 31));
    }
    no_date(date(1900, 2, 30));
    no_date(date(2000, 2, 30));
    no_date(date(2001, 4, 31));
    no_date(date(0, 0, 0));
}

#[test]
fn a_leap_day_is_every_fourth_year_but_for_three_centuries_of_four() {
    for year in [1600, 1604, 1896, 1904, 2000, 2396] {
        assert!(matches!(
            manager::day_of_date(date(year, 2, 29)),
            Answer::Done(_)
        ));
    }
    for year in [1601, 1700, 1800, 1899, 1900, 2100, 2200, 2300, 2399] {
        no_date(date(year, 2, 29));
    }
}

#[test]
fn exactly_the_dates_of_the_calendar_convert() {
    let mut found = 0;
    for year in 1590..=2410 {
        for month in 0..=13 {
            for day in 0..=32 {
                let exists = (1600..=2399).contains(&year)
                    && (1..=12).contains(&month)
                    && (1..=last_of_month(year, month)).contains(&day);
                let answer = manager::day_of_date(date(year, month, day));
                assert_eq!(matches!(answer, Answer::Done(_)), exists);
                found += u32::from(exists);
            }
        }
    }
    assert_eq!(found, 292_194);
}
