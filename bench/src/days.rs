//! Times of the conversions, a day to its date and a date to its day, by each
//! side on the same days.

use std::time::Instant;

use bench::sides::{self, Call, Side, SIDES};
use retraction::Limit;
use second::days::{date_of_day, Term};
use testing::generate::rng::Rng;

use crate::calls::ROUNDS;
use crate::rounds::Rounds;

/// Conversions of a round.
const CONVERSIONS: usize = 1024;

/// Nanoseconds a conversion, and the sum of the answers. It reads no limit.
fn round(calls: &[Call], side: Side) -> (f64, u64) {
    let mut sum = 0u64;
    let start = Instant::now();
    for &call in calls {
        sum = sum.wrapping_add(side(&[], &mut [], call, Limit::default()));
    }
    let time = start.elapsed().as_nanos() as f64;
    (time / calls.len() as f64, sum)
}

/// Days of the range, in any order.
fn days() -> Vec<i32> {
    let Term { first, last } = Term::RANGE;
    let mut rng = Rng::new(8);
    let among = (last - first) as usize + 1;
    let mut day = || first + rng.below(among) as i32;
    (0..CONVERSIONS).map(|_| day()).collect()
}

/// The table of both conversions.
///
/// # Panics
/// If the sides give different answers.
pub fn print(rounds: &mut Rounds) {
    println!("## Days and dates\n");
    println!(
        "| Conversion | Proved, ns | Second, ns | Fast, ns | Proved to second | Proved to fast |"
    );
    println!("|---|---:|---:|---:|---:|---:|");
    let days = days();
    let date = |&day: &i32| date_of_day(day).expect("a day of the range");
    let to_dates: Vec<Call> = days.iter().copied().map(Call::DateOfDay).collect();
    let to_days: Vec<Call> = days.iter().map(date).map(Call::DayOfDate).collect();
    for (name, calls) in [("date of a day", to_dates), ("day of a date", to_days)] {
        let expected = round(&calls, sides::second).1;
        let [proved, second, fast] = rounds.medians(ROUNDS, |number| {
            let (time, sum) = round(&calls, SIDES[number].1);
            assert_eq!(sum, expected, "the sides give different answers");
            time
        });
        let (to_second, to_fast) = (proved / second, proved / fast);
        println!(
            "| {name} | {proved:.1} | {second:.1} | {fast:.1} | {to_second:.2} | {to_fast:.2} |"
        );
    }
}
