//! A line that some program prints, read as one of `unwind`'s.

use crate::draft::Draft;
use crate::phrase;
use retraction::{Entry, Refusal};

/// What a line says, or that it is none of `unwind`'s.
#[must_use]
pub fn meaning(draft: &Draft, line: &str) -> String {
    read(draft, line).unwrap_or_else(|| "no line of unwind's".to_string())
}

fn read(draft: &Draft, line: &str) -> Option<String> {
    let words: Vec<&str> = line.split(' ').collect();
    match words[..] {
        ["PLAN", tracks, states, steps] => {
            let tracks = phrase::count(number(tracks)?.into(), "track");
            let states = phrase::count(number(states)?.into(), "state");
            let steps = phrase::count(number(steps)?.into(), "step");
            Some(format!("the plan is taken: {tracks}, {states}, {steps}"))
        }
        ["E", event, moved, closed] => {
            let event = phrase::event(draft, number(event)?);
            let moved = phrase::count(number(moved)?.into(), "track");
            let closed = phrase::count(number(closed)?.into(), "scope");
            Some(format!("{event}: {moved} moved, {closed} completed"))
        }
        ["S", turned] => {
            let turned = phrase::count(number(turned)?.into(), "track");
            Some(format!("a withdrawal: {turned} turned round"))
        }
        ["F", track, code, onward] => fired(draft, track, code, onward),
        ["R", refusal] => Some(refused(number(refusal)?)),
        ["H", held, fired] => {
            let held = phrase::count(number(held)?.into(), "retraction");
            let fired = phrase::count(number(fired)?.into(), "letter");
            Some(format!("the end: {held} held, {fired} went out"))
        }
        _ => None,
    }
}

fn fired(draft: &Draft, track: &str, code: &str, onward: &str) -> Option<String> {
    let track = draft.track(number(track)?);
    let code = number(code)?;
    let deviation = match onward {
        "-" => None,
        state => Some(number(state)?),
    };
    let entry = phrase::entry(draft, Entry { code, deviation });
    Some(format!("{track} takes back: {entry}"))
}

fn refused(number: u16) -> String {
    match Refusal::from_number(number) {
        Some(refusal) => format!("refused as {refusal}"),
        None => format!("refused as {number}, which is no refusal"),
    }
}

/// A number as `unwind` prints one: decimal, with no sign and no leading 0.
fn number(word: &str) -> Option<u16> {
    let number: u16 = word.parse().ok()?;
    Some(number).filter(|number| number.to_string() == word)
}

#[cfg(test)]
mod tests {
    use super::*;
    use crate::records::Records;

    #[test]
    fn lines_of_any_program() {
        let draft = Draft::of_records(Records::default());
        let read = |line: &str| meaning(&draft, line);
        assert_eq!(
            read("PLAN 1 2 0"),
            "the plan is taken: 1 track, 2 states, no step"
        );
        assert_eq!(
            read("E 7 1 0"),
            "event 7: 1 track moved, no scope completed"
        );
        assert_eq!(read("S 3"), "a withdrawal: 3 tracks turned round");
        assert_eq!(read("F 1 139 -"), "1 takes back: retraction 139");
        assert_eq!(
            read("F 1 139 2"),
            "1 takes back: retraction 139 (then on in 2)"
        );
        assert_eq!(read("R 20"), "refused as 20: the ledger is over");
        assert_eq!(read("R 0"), "refused as 0, which is no refusal");
        assert_eq!(
            read("H 0 4"),
            "the end: no retraction held, 4 letters went out"
        );
        for line in [
            "",
            "E",
            "E 1 1",
            "E 01 1 0",
            "E +1 1 0",
            "E 65536 1 0",
            "E 1 1 0 ",
            "e 1 1 0",
            "F 1 139",
            "F 1 139 x",
            "S",
            "S -",
            "R 1 2",
            "H 1",
            "PLAN",
            " S 3",
            "S  3",
            "S\t3",
        ] {
            assert_eq!(read(line), "no line of unwind's", "{line:?}");
        }
    }
}
