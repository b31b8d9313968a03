//! The calls on any bytes and any words, as `include/retraction.h` has them:
//! each reads the plan and checks the ledger anew. [`crate::Plan`] and
//! [`crate::Ledger`] keep the two together and need no such care.
//!
//! Any bytes and any words may be given. A refused call changes no word, and
//! words beyond the plan's are never touched. [`begin`] writes the leading
//! words; the calls after it refuse a ledger whose first two are not those of
//! the plan as 24, and [`entries`] then gives the empty part. The next two hold
//! the last accepted day, which an [`event`] writes.
//!
//! [`event`], [`signal`] and [`fire`] are each a society's. The plan says what it
//! may do; any number may be given.
//!
//! Each call on a ledger has options last, which [`crate::Limit::options`] gives.
//! Bit 0 tells the limit; the other bits are ignored. The words needed, the place
//! of a track's words, the count and refusals 17, 18 and 21 are read at that
//! limit. No word of a ledger names it: keep to the limit of its [`begin`]. A
//! ledger begun at one limit is promised neither to be sound nor to be refused at
//! the other.
//!
//! [`largest`] and [`largest_step`] are given the plan alone, as [`read`] is.

use crate::{Counts, Date, Entry, Moved, Refusal, NONE};

mod c {
    extern "C" {
        pub fn retraction_read(plan: *const u8, plan_len: usize) -> u64;
        pub fn retraction_begin(
            plan: *const u8,
            plan_len: usize,
            ledger: *mut u16,
            ledger_len: usize,
            options: u32,
        ) -> u64;
        pub fn retraction_event(
            plan: *const u8,
            plan_len: usize,
            ledger: *mut u16,
            ledger_len: usize,
            event: u16,
            day: i32,
            society: u16,
            options: u32,
        ) -> u64;
        pub fn retraction_signal(
            plan: *const u8,
            plan_len: usize,
            ledger: *mut u16,
            ledger_len: usize,
            society: u16,
            options: u32,
        ) -> u64;
        pub fn retraction_fire(
            plan: *const u8,
            plan_len: usize,
            ledger: *mut u16,
            ledger_len: usize,
            track: u16,
            society: u16,
            options: u32,
        ) -> u64;
        pub fn retraction_ready(
            plan: *const u8,
            plan_len: usize,
            ledger: *mut u16,
            ledger_len: usize,
            options: u32,
        ) -> u64;
        pub fn retraction_entries(
            plan: *const u8,
            plan_len: usize,
            ledger: *const u16,
            ledger_len: usize,
            track: u16,
            options: u32,
        ) -> u64;
        pub fn retraction_date_of_day(day: i32) -> u64;
        pub fn retraction_day_of_date(year: u16, month: u16, day: u16) -> u64;
        pub fn retraction_largest(plan: *const u8, plan_len: usize, track: u16) -> u64;
        pub fn retraction_largest_step(
            plan: *const u8,
            plan_len: usize,
            track: u16,
            index: u16,
        ) -> u64;
    }
}

/// An answer whose bits 0 to 15 are a refusal's number, or 0.
///
/// # Panics
/// If the library linked gives a number that this crate does not know.
fn accepted(answer: u64) -> Result<u64, Refusal> {
    let number = bits(answer, 0);
    if number == 0 {
        return Ok(answer);
    }
    match Refusal::from_number(number) {
        Some(refusal) => Err(refusal),
        None => panic!("libretraction gave a refusal that this crate does not know: {number}"),
    }
}

/// The 16 bits of an answer from this one on.
fn bits(answer: u64, from: u32) -> u16 {
    (answer >> from) as u16
}

/// How many tracks, states and transitions a plan has.
pub fn read(plan: &[u8]) -> Result<Counts, Refusal> {
    // SAFETY: the slice is whole and lives through the call, which reads it alone.
    let answer = accepted(unsafe { c::retraction_read(plan.as_ptr(), plan.len()) })?;
    Ok(Counts {
        tracks: bits(answer, 16),
        states: bits(answer, 32),
        transitions: bits(answer, 48),
    })
}

/// Overwrites the ledger: the plan's length and sum lead, the first day of the
/// range is the last accepted one, roots are forward in their first states,
/// others asleep.
pub fn begin(plan: &[u8], ledger: &mut [u16], options: u32) -> Result<(), Refusal> {
    let (words, len) = (ledger.as_mut_ptr(), ledger.len());
    // SAFETY: both slices are whole, apart, and live through the call.
    let answer = unsafe { c::retraction_begin(plan.as_ptr(), plan.len(), words, len, options) };
    accepted(answer).map(|_| ())
}

/// Tracks moved and scopes closed by a society's event on a day. It may leave
/// the ledger over, as [`crate::Ledger::is_over`] has it.
pub fn event(
    plan: &[u8],
    ledger: &mut [u16],
    event: u16,
    day: i32,
    society: u16,
    options: u32,
) -> Result<Moved, Refusal> {
    let (bytes, size) = (plan.as_ptr(), plan.len());
    let (words, len) = (ledger.as_mut_ptr(), ledger.len());
    // SAFETY: as under `begin`.
    let answer =
        unsafe { c::retraction_event(bytes, size, words, len, event, day, society, options) };
    let answer = accepted(answer)?;
    Ok(Moved {
        moved: bits(answer, 16),
        closed: bits(answer, 32),
    })
}

/// Tracks turned by a society's signal. It may leave the ledger over, as
/// [`crate::Ledger::is_over`] has it.
pub fn signal(plan: &[u8], ledger: &mut [u16], society: u16, options: u32) -> Result<u16, Refusal> {
    let (bytes, size) = (plan.as_ptr(), plan.len());
    let (words, len) = (ledger.as_mut_ptr(), ledger.len());
    // SAFETY: as under `begin`.
    let answer = unsafe { c::retraction_signal(bytes, size, words, len, society, options) };
    Ok(bits(accepted(answer)?, 16))
}

/// The entry fired by a society. It may leave the ledger over, as
/// [`crate::Ledger::is_over`] has it.
pub fn fire(
    plan: &[u8],
    ledger: &mut [u16],
    track: u16,
    society: u16,
    options: u32,
) -> Result<Entry, Refusal> {
    let (bytes, size) = (plan.as_ptr(), plan.len());
    let (words, len) = (ledger.as_mut_ptr(), ledger.len());
    // SAFETY: as under `begin`.
    let answer = unsafe { c::retraction_fire(bytes, size, words, len, track, society, options) };
    let answer = accepted(answer)?;
    Ok(entry(bits(answer, 16), bits(answer, 32)))
}

/// Bit n of the number is set exactly if track n may be fired, whoever has the
/// right to. No word is changed.
pub fn ready(plan: &[u8], ledger: &mut [u16], options: u32) -> Result<u32, Refusal> {
    let (words, len) = (ledger.as_mut_ptr(), ledger.len());
    // SAFETY: as under `begin`.
    let answer = unsafe { c::retraction_ready(plan.as_ptr(), plan.len(), words, len, options) };
    Ok((accepted(answer)? >> 32) as u32)
}

/// The part of the ledger that holds a track's pairs of code and deviation,
/// oldest first; empty on a refusal, which [`ready`] tells.
#[must_use]
pub fn entries<'a>(plan: &[u8], ledger: &'a [u16], track: u16, options: u32) -> &'a [u16] {
    let (bytes, size) = (plan.as_ptr(), plan.len());
    let (words, len) = (ledger.as_ptr(), ledger.len());
    // SAFETY: as under `begin`; the ledger is only read.
    let answer = unsafe { c::retraction_entries(bytes, size, words, len, track, options) };
    let from = (answer >> 16) as usize;
    &ledger[from..][..usize::from(answer as u16)]
}

/// The date of a day; refused as 26 where the day is out of range.
pub fn date_of_day(day: i32) -> Result<Date, Refusal> {
    // SAFETY: a number is given, and a number is answered.
    let answer = accepted(unsafe { c::retraction_date_of_day(day) })?;
    Ok(Date {
        year: bits(answer, 16),
        month: bits(answer, 32),
        day: bits(answer, 48),
    })
}

/// The day of a date; refused as 26 where there is no such date, or its year is
/// not 1600 to 2399.
pub fn day_of_date(date: Date) -> Result<i32, Refusal> {
    let Date { year, month, day } = date;
    // SAFETY: numbers are given, and a number is answered.
    let answer = accepted(unsafe { c::retraction_day_of_date(year, month, day) })?;
    Ok((answer >> 32) as i32)
}

/// The largest number of entries along any path of a track, from its first
/// state on, and the length of such a path; 0 and 0 where there is no such
/// track. Refused as 29 where the plan has a deviation or a cycle of
/// transitions.
pub fn largest(plan: &[u8], track: u16) -> Result<(u16, u16), Refusal> {
    // SAFETY: as under `read`.
    let answer = unsafe { c::retraction_largest(plan.as_ptr(), plan.len(), track) };
    let answer = accepted(answer)?;
    Ok((bits(answer, 16), bits(answer, 32)))
}

/// The transition at an index of the path of which [`largest`] gives the
/// length, the same one in every call; `None` beyond it, and where there is no
/// such track. Refused as [`largest`] is.
pub fn largest_step(plan: &[u8], track: u16, index: u16) -> Result<Option<u16>, Refusal> {
    let (bytes, size) = (plan.as_ptr(), plan.len());
    // SAFETY: as under `read`.
    let answer = unsafe { c::retraction_largest_step(bytes, size, track, index) };
    let step = bits(accepted(answer)?, 16);
    Ok(Some(step).filter(|&transition| transition != NONE))
}

pub(crate) fn entry(code: u16, deviation: u16) -> Entry {
    Entry {
        code,
        deviation: Some(deviation).filter(|&state| state != NONE),
    }
}
