//! Cases as theorems for antt: the lines of `vectors`, said of the
//! definitions of the rules in the words of `agreement/Statements.antt`.

use crate::vectors::letter_and_limit;
use second::limit::Limit;

/// A limit as the terms that the definitions take.
fn terms(limit: Limit) -> String {
    match limit {
        Limit::MAIN => "main_terms".to_string(),
        Limit::READING_ROOM => "reading_room_terms".to_string(),
        Limit(entries) => format!("(terms_of {entries})"),
    }
}

/// What the theorem of a case says.
pub fn statement(fields: &[&str]) -> Option<String> {
    let (first, rest) = fields.split_first()?;
    let (letter, limit) = letter_and_limit(first)?;
    let terms = terms(limit);
    Some(match (letter, rest) {
        ("H", &[plan, lent, calls, answers, after]) => {
            let given = format!("{terms} {} {}", bytes(plan)?, words(lent)?);
            let calls = list(parts(calls, ',').map(call))?;
            let answers = list(parts(answers, '|').map(answer))?;
            format!("HistoryAgrees {given} {calls} {answers} {}", words(after)?)
        }
        ("P", &[plan, answer]) => format!("PlanAgrees {} ({})", bytes(plan)?, reading(answer)?),
        ("L", &[plan, "", called, answered, ""]) if called.starts_with('M') => {
            largest(&bytes(plan)?, called, answered)?
        }
        ("L", &[plan, before, called, answered, after]) => {
            let given = format!("{terms} {} {}", bytes(plan)?, words(before)?);
            single(&given, called, answered, &words(after)?)?
        }
        ("U", &[plan, journal, output]) => {
            let given = format!("{terms} {} {}", bytes(plan)?, bytes(journal)?);
            format!("RunAgrees {given} {}", bytes(output)?)
        }
        ("W", &[plan, counts, before, society, tests, held]) => {
            let given = read(&terms, plan, counts, before)?;
            format!(
                "WithdrawalAgrees {given} {society} {} {held}",
                truths(tests)?
            )
        }
        ("O", &[plan, counts, before, tracks, "no"]) => {
            let given = read(&terms, plan, counts, before)?;
            format!("NoOrder {given} {}", numbers(tracks)?)
        }
        ("O", &[plan, counts, before, tracks, left]) => {
            let given = read(&terms, plan, counts, before)?;
            let left = left.strip_prefix('D')?.replace(',', " ");
            format!("OrderAgrees {given} {} {left}", numbers(tracks)?)
        }
        _ => return None,
    })
}

/// Terms, a plan, its counts and the words of a ledger.
fn read(terms: &str, plan: &str, counts: &str, before: &str) -> Option<String> {
    let counts = counts.strip_prefix('A')?.replace(',', " ");
    let (plan, before) = (bytes(plan)?, words(before)?);
    Some(format!("{terms} {plan} (counts_of {counts}) {before}"))
}

/// 1 is true, 0 is false.
fn truths(text: &str) -> Option<String> {
    let truth = |digit| match digit {
        "1" => Some("true"),
        "0" => Some("false"),
        _ => None,
    };
    let truths: Option<Vec<&str>> = parts(text, ',').map(truth).collect();
    Some(truths?.join(" "))
}

/// The same for a single call, with the terms, the plan and the ledger it was
/// given; a conversion is given none of them.
fn single(given: &str, called: &str, answered: &str, after: &str) -> Option<String> {
    Some(match first_letter(called)? {
        ("D", day) => date_of_day(&integer(day)?, answered)?,
        ("G", date) => day_of_date(&date.replace('-', " "), answered)?,
        ("N", track) => format!("EntriesAgree {given} {track} {}", words(answered)?),
        ("Y", "") => format!("ReadyAgrees {given} ({}) {after}", answer(answered)?),
        _ => {
            let (called, answered) = (call(called)?, answer(answered)?);
            format!("CallAgrees {given} ({called}) ({answered}) {after}")
        }
    })
}

/// The same for the largest number of entries of a track; the figure is 0 where
/// the plan is refused.
fn largest(plan: &str, called: &str, answered: &str) -> Option<String> {
    let track = called.strip_prefix('M')?;
    Some(match first_letter(answered)? {
        ("D", figure) => format!("LargestAgrees {plan} {track} (done []) {figure}"),
        _ => format!("LargestAgrees {plan} {track} ({}) 0", answer(answered)?),
    })
}

fn date_of_day(day: &str, answered: &str) -> Option<String> {
    Some(match first_letter(answered)? {
        ("R", number) => format!("NoDate {day} {number}"),
        (_, date) => format!("DateIs {day} {}", date.replace(',', " ")),
    })
}

fn day_of_date(date: &str, answered: &str) -> Option<String> {
    Some(match first_letter(answered)? {
        ("R", number) => format!("NoDay {date} {number}"),
        (_, day) => format!("DayIs {date} {}", integer(day)?),
    })
}

/// A day: `pos` of a number from 0 on, `negsuc` of one less than how far it is
/// below 0.
fn integer(text: &str) -> Option<String> {
    let number: i64 = text.parse().ok()?;
    Some(if number < 0 {
        format!("(negsuc {})", -number - 1)
    } else {
        format!("(pos {number})")
    })
}

/// A letter and what follows it.
fn first_letter(text: &str) -> Option<(&str, &str)> {
    Some((text.get(..1)?, text.get(1..)?))
}

fn call(text: &str) -> Option<String> {
    match first_letter(text)? {
        ("E", given) => {
            let (event, given) = given.split_once('@')?;
            let (day, society) = given.split_once(':')?;
            Some(format!("e {event} {} {society}", integer(day)?))
        }
        ("S", given) => Some(format!("s {}", given.strip_prefix(':')?)),
        ("F", given) => {
            let (track, society) = given.split_once(':')?;
            Some(format!("f {track} {society}"))
        }
        _ => None,
    }
}

fn answer(text: &str) -> Option<String> {
    if text == "begun" {
        return Some("done []".to_string());
    }
    match first_letter(text)? {
        ("R", number) => Some(format!("refusal {number}")),
        ("D", figures) => Some(format!("done {}", numbers(figures)?)),
        _ => None,
    }
}

fn reading(text: &str) -> Option<String> {
    Some(match text.strip_prefix('A') {
        Some(counts) => format!("accepted_with {}", counts.replace(',', " ")),
        None => format!("turned_back {text}"),
    })
}

/// The parts of a text between separators; the empty text has none.
pub fn parts(text: &str, separator: char) -> impl Iterator<Item = &str> {
    text.split(separator).filter(|part| !part.is_empty())
}

fn list(items: impl Iterator<Item = Option<String>>) -> Option<String> {
    let mut text = String::from("(");
    for item in items {
        text.push_str(&item?);
        text.push_str(" ∷ ");
    }
    Some(text + "[])")
}

fn numbers(text: &str) -> Option<String> {
    list(parts(text, ',').map(|part| Some(part.to_string())))
}

fn bytes(hex: &str) -> Option<String> {
    hex_list(hex, 2)
}

fn words(hex: &str) -> Option<String> {
    hex_list(hex, 4)
}

/// Numbers of so many hex digits each.
fn hex_list(hex: &str, digits: usize) -> Option<String> {
    let starts = (0..hex.len()).step_by(digits);
    list(starts.map(|at| {
        let number = u16::from_str_radix(hex.get(at..at + digits)?, 16).ok()?;
        Some(number.to_string())
    }))
}
