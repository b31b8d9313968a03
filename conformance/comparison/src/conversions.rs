//! The conversions that are compared: every day of the range and around it,
//! every date of its years and around them, and random numbers.

use second::days::{Date, Term};
use testing::generate::rng::Rng;
use testing::generate::singles::Call;

use crate::case::Given;

/// Days on each side of the range.
const MARGIN: i32 = 2_000;
/// Random days, and as many random dates.
const RANDOM: u64 = 50_000;

/// All conversions of a seed.
pub fn all(seed: u64) -> impl Iterator<Item = Given> {
    let days = days(seed).map(Call::DateOfDay);
    let dates = dates(seed).map(Call::DayOfDate);
    days.chain(dates).map(Given::conversion)
}

fn days(seed: u64) -> impl Iterator<Item = i32> {
    let Term { first, last } = Term::RANGE;
    let random = (0..RANDOM).map(move |index| Rng::for_case(seed, 3, index).draw() as i32);
    let near = first - MARGIN..=last + MARGIN;
    near.chain([i32::MIN, i32::MAX]).chain(random)
}

fn dates(seed: u64) -> impl Iterator<Item = Date> {
    let days = |year, month| (0..=32).map(move |day| Date { year, month, day });
    let months = move |year| (0..=13).flat_map(move |month| days(year, month));
    let random = (0..RANDOM).map(move |index| {
        let mut rng = Rng::for_case(seed, 4, index);
        let [year, month, day] = [rng.word(), rng.word(), rng.word()];
        Date { year, month, day }
    });
    (1590..=2410).flat_map(months).chain(random)
}

#[cfg(test)]
mod tests {
    use super::*;
    use crate::expected;

    #[test]
    fn each_day_and_each_date_of_the_range_is_among_them() {
        let refused = |given: &Given| expected::answer(given).answer == 26;
        let found = all(1).filter(|given| !refused(given)).count();
        // Each day and each date once, and those of the random ones.
        let random = found - 2 * 292_194;
        assert!((1..100).contains(&random), "{random}");
        assert_eq!(all(1).count(), 775_498);
    }
}
