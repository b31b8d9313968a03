//! Days as a person writes them: a date, YYYY-MM-DD, or a number of days from
//! 1 January 1900. The proved conversions go from one to the other.

use retraction::{date_of_day, day_of_date, Date};

/// A day as a date, or as its number where it is out of range.
#[must_use]
pub fn text(day: i32) -> String {
    match date_of_day(day) {
        Ok(date) => format!("{:04}-{:02}-{:02}", date.year, date.month, date.day),
        Err(_) => day.to_string(),
    }
}

/// The days from the first to the last.
#[must_use]
pub fn span(first: i32, last: i32) -> String {
    if first == last {
        return text(first);
    }
    format!("{} to {}", text(first), text(last))
}

/// The day that a word means, or what is wrong with it.
pub fn parse(word: &str) -> Result<i32, String> {
    if let Ok(day) = word.parse() {
        return Ok(day);
    }
    let fields: Vec<&str> = word.split('-').collect();
    let numbers: Result<Vec<u16>, _> = fields.iter().map(|field| field.parse()).collect();
    match (&fields[..], numbers.as_deref()) {
        ([y, m, d], Ok(&[year, month, day])) if (y.len(), m.len(), d.len()) == (4, 2, 2) => {
            let date = Date { year, month, day };
            let missing = "there is no such date, or its year is not 1600 to 2399";
            day_of_date(date).map_err(|_| missing.to_string())
        }
        _ => Err("a day is wanted: YYYY-MM-DD, or a number of days from 1900-01-01".to_string()),
    }
}

#[cfg(test)]
mod tests {
    use super::*;

    #[test]
    fn dates_and_numbers() {
        assert_eq!(parse("1900-03-01"), Ok(59));
        assert_eq!(parse("-1"), Ok(-1));
        assert_eq!(parse("+7"), Ok(7));
        assert_eq!(text(59), "1900-03-01");
        assert_eq!(text(182_621), "182621");
        assert_eq!(span(59, 59), "1900-03-01");
        assert_eq!(span(-1, 0), "1899-12-31 to 1900-01-01");
        for wrong in [
            "1900-02-29",
            "1900-3-1",
            "1599-12-31",
            "soon",
            "1900-03",
            "",
        ] {
            assert!(parse(wrong).is_err(), "{wrong}");
        }
        for day in retraction::FIRST_DAY..=retraction::LAST_DAY {
            assert_eq!(parse(&text(day)), Ok(day));
        }
    }
}
