//! The limit, the most entries that a track holds: how it is written, and how it
//! is told. What a limit allows, the proved calls decide.

use retraction::Limit;

/// Every limit.
const LIMITS: [Limit; 2] = [Limit::ReadingRoom, Limit::Main];

/// The limit that a word means, or what is wrong with it.
pub fn parse(word: &str) -> Result<Limit, String> {
    let is_meant = |limit: &Limit| limit.entries().to_string() == word;
    let found = LIMITS.into_iter().find(is_meant);
    found.ok_or_else(|| {
        let [rooms, main] = LIMITS.map(Limit::entries);
        let nearer = nearer(word);
        format!("a limit is {rooms}, the reading rooms', or {main}, the main program's{nearer}")
    })
}

/// The limit that is nearer to a number, as the end of a sentence; empty where the
/// word is no number.
fn nearer(word: &str) -> String {
    let number: u16 = match word.parse() {
        Ok(number) => number,
        Err(_) => return String::new(),
    };
    let far = |entries: &u16| entries.abs_diff(number);
    let nearer = LIMITS.map(Limit::entries).into_iter().min_by_key(far);
    nearer.map_or_else(String::new, |limit| format!("; did you mean '{limit}'?"))
}

/// The end of a journal's first line; empty for the main program's limit.
#[must_use]
pub fn written(limit: Limit) -> String {
    match limit {
        Limit::Main => String::new(),
        Limit::ReadingRoom => format!(" at limit {}", limit.entries()),
    }
}

/// Whose limit it is, where it is not the main program's.
#[must_use]
pub fn whose(limit: Limit) -> Option<&'static str> {
    match limit {
        Limit::Main => None,
        Limit::ReadingRoom => Some("the reading rooms' limit"),
    }
}

/// At which limit a ledger is kept, where it is not the main program's.
#[must_use]
pub fn told(limit: Limit) -> Option<String> {
    let (whose, entries) = (whose(limit)?, limit.entries());
    Some(format!("at {whose} of {entries} entries for each track"))
}

#[cfg(test)]
mod tests {
    use super::*;

    #[test]
    fn numbers_that_are_limits() {
        assert_eq!(parse("8"), Ok(Limit::ReadingRoom));
        assert_eq!(parse("32"), Ok(Limit::Main));
        for (wrong, meant) in [
            ("9", "; did you mean '8'?"),
            ("08", "; did you mean '8'?"),
            ("0", "; did you mean '8'?"),
            ("31", "; did you mean '32'?"),
            ("65535", "; did you mean '32'?"),
            ("65536", ""),
            ("eight", ""),
            ("", ""),
        ] {
            let what = "a limit is 8, the reading rooms', or 32, the main program's";
            assert_eq!(parse(wrong), Err(format!("{what}{meant}")), "{wrong}");
        }
    }

    #[test]
    fn the_main_limit_is_not_told() {
        assert_eq!((written(Limit::Main), told(Limit::Main)), ("".into(), None));
        assert_eq!(written(Limit::ReadingRoom), " at limit 8");
        let rooms = "at the reading rooms' limit of 8 entries for each track";
        assert_eq!(told(Limit::ReadingRoom).as_deref(), Some(rooms));
    }
}
