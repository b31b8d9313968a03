//! Days and dates of the Gregorian calendar, without loops and tables: years
//! are counted from a 1 March, so that a leap day ends its year, and divisions
//! by what is not a power of two are products where they can be.

use super::Refused;

/// The range of days: 1 January 1600 to 31 December 2399.
pub const FIRST_DAY: i32 = -109_573;
pub const LAST_DAY: i32 = 182_620;

/// Days from 1 March 1200, which starts 400 years, to day 0.
const BEFORE_DAY_0: i32 = 255_610;
/// Days of 400 years.
const CYCLE: u32 = 146_097;
/// The years of the range.
const FIRST_YEAR: u16 = 1600;
const LAST_YEAR: u16 = 2399;

#[derive(Clone, Copy, Debug, PartialEq, Eq)]
pub struct Date {
    pub year: u16,
    pub month: u16,
    pub day: u16,
}

#[inline(always)]
pub fn in_range(day: i32) -> bool {
    (FIRST_DAY..=LAST_DAY).contains(&day)
}

/// The date of a day; 26 for a day out of range.
#[inline]
pub fn date_of_day(day: i32) -> Result<Date, Refused> {
    if !in_range(day) {
        return Err(Refused(26));
    }
    let quarters = 4 * (day + BEFORE_DAY_0) as u32 + 3;
    let (century, of_century) = (quarters / CYCLE, (quarters % CYCLE) | 3);
    // A product by 2^32 / 1461: the year above, the part of it below.
    let product = u64::from(of_century) * 2_939_745;
    let (year, of_year) = ((product >> 32) as u32, product as u32 / 2_939_745 / 4);
    // The same with months: 5 have 153 days, and so on.
    let months = 2141 * of_year + 197_913;
    let (month, of_month) = (months >> 16, (months & 65_535) / 2141);
    let new_year = u32::from(of_year >= 306);
    Ok(Date {
        year: (1200 + 100 * century + year + new_year) as u16,
        month: (month - 12 * new_year) as u16,
        day: of_month as u16 + 1,
    })
}

/// The day of a date; 26 for what is no date, or none of the range.
#[inline]
pub fn day_of_date(date: Date) -> Result<i32, Refused> {
    let Date { year, month, day } = date;
    let known = (FIRST_YEAR..=LAST_YEAR).contains(&year) && (1..=12).contains(&month);
    if !known || day == 0 || day > month_length(year, month) {
        return Err(Refused(26));
    }
    let early = u32::from(month <= 2);
    let (years, months) = (
        u32::from(year) - 1200 - early,
        u32::from(month) + 12 * early,
    );
    let century = years / 100;
    let before_year = 1461 * years / 4 - century + century / 4;
    let before_month = (979 * months - 2919) / 32;
    Ok((before_year + before_month + u32::from(day) - 1) as i32 - BEFORE_DAY_0)
}

/// Days of a month, which is 1 to 12.
#[inline(always)]
fn month_length(year: u16, month: u16) -> u16 {
    let leap = year % if year % 100 == 0 { 400 } else { 4 } == 0;
    match month {
        2 => 28 + u16::from(leap),
        _ => 30 | ((month ^ (month >> 3)) & 1),
    }
}
