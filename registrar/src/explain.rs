//! The refusals explained: the rule, when it is told, and how to mend the text.

use crate::phrase;
use retraction::Refusal;

/// The most characters of a line.
const WIDTH: usize = 80;

/// What there is to say of a refusal beyond its own text.
struct Page {
    /// Of what it is told, and after which others.
    told: &'static str,
    /// What is looked at.
    looked_at: &'static str,
    /// How to mend the text of the plan or of the journal.
    mend: &'static str,
    /// Lines of a text as they should be; empty where none helps.
    example: &'static [&'static str],
}

/// A refusal in words; `None` where there is no such number.
#[must_use]
pub fn explain(number: u16) -> Option<String> {
    let refusal = Refusal::from_number(number)?;
    let page = page(refusal)?;
    let mut text = format!("{refusal}\n\n");
    for (head, words) in [
        ("When", page.told),
        ("Rule", page.looked_at),
        ("Mend", page.mend),
    ] {
        let words = phrase::wrapped(&format!("{head}: {words}"), WIDTH, 6);
        text += &format!("{words}\n");
    }
    if !page.example.is_empty() {
        text.push('\n');
    }
    for line in page.example {
        text += &format!("    {line}\n");
    }
    Some(text)
}

/// Of a plan's bytes, while they are read from the front.
const READING: &str =
    "of a plan's bytes, record by record from the front; before 8 to 16, 25 and 27.";
/// Of a plan that can be read.
const WHOLE: &str = "of a plan whose records can all be read; 8 to 16, then 25, then 27, each over the whole plan, and the first that applies.";
/// Registrar writes such bytes right.
const BYTES: &str =
    "a text cannot come to it. Look whether the file was cut or changed, or build it anew from its text.";
/// Of stored ledgers.
const LEDGER: &str = "of a ledger that a program lends the library, after all that is wrong with its plan: 17, then 24, then 18. unwind and registrar begin their own, and never get it.";
const KEEP: &str = "nothing in a text: the program that keeps the ledger must give the one that it stored, with the plan that it was begun under, and at the limit of its begin.";

fn page(refusal: Refusal) -> Option<Page> {
    let (told, looked_at, mend, example): (_, _, _, &'static [&'static str]) = match refusal {
        Refusal::TooLong => (
            "of a plan or a journal, before anything else.",
            "a file has at most 32,768 bytes. An event has 12 of them, a firing by track 8, a withdrawal and 'take back next' 6.",
            "give each link a journal of its own; a journal cannot go on in another file.",
            &[],
        ),
        Refusal::NoRecord => (
            READING,
            "each record starts with 4 bytes, its length and its kind, and the last one is an end record.",
            BYTES,
            &[],
        ),
        Refusal::Kind => (
            READING,
            "tracks come first, then states, steps, windows, rights, and the end.",
            BYTES,
            &[],
        ),
        Refusal::Length => (
            READING,
            "a track has 6 bytes, a state and a right 10, a step and a window 14, the end 4.",
            BYTES,
            &[],
        ),
        Refusal::CutShort => (READING, "each record is whole.", BYTES, &[]),
        Refusal::TooMany => (
            READING,
            "a plan has at most 32 tracks, 128 states and 256 steps.",
            "split the work over two plans.",
            &[],
        ),
        Refusal::AfterEnd => (READING, "nothing follows the end record.", BYTES, &[]),
        Refusal::NoTrack => (
            WHOLE,
            "there is work to do: at least one track.",
            "write a track, and a state under it.",
            &["track link", "  state asked"],
        ),
        Refusal::State => (
            WHOLE,
            "a state is of one of the plan's tracks, and is final or not.",
            BYTES,
            &[],
        ),
        Refusal::Host => (
            WHOLE,
            "a track runs inside a state of a track with a lower number.",
            "write the track that hosts above those that it hosts, or give it the lower number; a track is 'in' a state, not in a track.",
            &["track film in under-way    # under-way is a state of a track above"],
        ),
        Refusal::FirstState => (
            WHOLE,
            "a track has a state, and starts in the first of them, which is not final.",
            "write the state where the track starts above its final one, or give it the lower number.",
            &["state shelf", "state released final"],
        ),
        Refusal::Hosting => (
            WHOLE,
            "nothing runs inside a final state; 'when complete' stands only where something runs inside.",
            "let the tracks run inside the state before the final one, and leave 'when complete undo ..' out where no track is 'in' the state.",
            &["state under-way when complete undo part-families", "state linked final"],
        ),
        Refusal::Transition => (
            WHOLE,
            "a step leads from a state that is not final to a state of the same track, on an event that is not 0.",
            "name a state of the same track behind 'go', leave no final state, and number events from 1.",
            &["state shelf", "  on film-released go released"],
        ),
        Refusal::Deviation => (
            WHOLE,
            "a track goes on elsewhere only if it is a root, in one of its own states that is not final, and once something was taken back.",
            "write 'then' behind an 'undo', in a track without 'in', with a state of that track that is not final; or leave 'then' out.",
            &["on film-asked go waiting undo cancel-film then by-post"],
        ),
        Refusal::SameEvent => (
            WHOLE,
            "a state goes one way on one event, even where windows keep two steps apart.",
            "give one of the two steps an event of its own, or put it into a track of its own.",
            &[],
        ),
        Refusal::Height => (
            WHOLE,
            "tracks run inside one another at most eight deep.",
            "let two of them run side by side, in the same state.",
            &[],
        ),
        Refusal::Window => (
            WHOLE,
            "a window is one step's only one, does not end before it begins, and lies from 1600-01-01 to 2399-12-31.",
            "look at the order of the two days. For two terms write two steps, on two events.",
            &["on objection go contested from 1900-03-01 to 1900-03-31"],
        ),
        Refusal::Rights => (
            WHOLE,
            "a right is over a root, gives at least one of move, signal and fire, is the only one of its society there, and one of at most 64.",
            "write it under a track without 'in'; it reaches every track under that one. Put all rights of a society there on one line.",
            &["track link", "  right desk move signal fire"],
        ),
        Refusal::Unbounded => (
            "of the figures 'holds at most' alone, after all that is wrong with a plan; every other command takes such a plan.",
            "along steps that lead back to where they began, and after a deviation, a track may take steps again and again: no figure bounds what it holds.",
            "nothing, if the plan is to be so. A track then holds as many as the limit says, 32 or the reading rooms' 8, and one more is refused as 21. Or write what comes round again as further states.",
            &[],
        ),
        Refusal::FewWords => (
            LEDGER,
            "a ledger has 4 words, and for each track 3 and 2 for each entry that the limit allows: 67 at the limit of 32, 19 at the reading rooms' limit of 8.",
            KEEP,
            &[],
        ),
        Refusal::OtherPlan => (
            LEDGER,
            "a ledger starts with the length and the sum of its plan. 'registrar list' tells both of a plan.",
            KEEP,
            &[],
        ),
        Refusal::Unsound => (
            LEDGER,
            "the words are such as the calls leave under this plan, at the limit that is given, 32 or 8. No word names the limit: at the other one a ledger may be refused, or be taken for something else.",
            KEEP,
            &[],
        ),
        Refusal::EventZero => (
            "of an event, before 26, 20, 28 and 21.",
            "events are numbered from 1.",
            "name an event of the plan.",
            &["event banns-read"],
        ),
        Refusal::Day => (
            "of an event, after 19, before 20, 28 and 21; and of a date that there is not.",
            "days lie from 1600-01-01 to 2399-12-31, and no event is before the last one that was accepted, whoever told it and whatever it moved.",
            "put the events into the order of their days. One that comes late takes the day of the last one.",
            &["on 1900-03-01 event banns-read", "on 1900-03-01 event film-released"],
        ),
        Refusal::Over => (
            "of an event, after 19 and 26; of a withdrawal and of taking back, before all others.",
            "all has ended: each root is at its end or taken back as a whole, and at least one is at its end. Nothing can be taken back any more.",
            "nothing in this journal; another link has a journal of its own.",
            &[],
        ),
        Refusal::NoRight => (
            "of a call after 20; before 21 of an event, before 22 of taking back.",
            "an event asks for the right to move over some root, a withdrawal for that to signal over some root, taking back for that to fire over the track's own root.",
            "write the society that makes the call, with 'as'; or give it the right in the plan, and begin anew under that.",
            &["as desk withdraw", "  right desk signal    # under the root, in the plan"],
        ),
        Refusal::Full => (
            "of an event, after all others.",
            "a track holds at most as many retractions as the limit says: 32, or 8 in a journal of the reading rooms. The event would give one to a track that holds so many. Nothing moves then, in no track.",
            "let steps that repeat run in a track inside a state with 'when complete': one retraction stands for all of them. 'registrar list' tells what a track holds at most. Only a journal of the reading rooms is at limit 8.",
            &["journal at limit 8    # the reading rooms'", "journal               # the main program's, 32"],
        ),
        Refusal::NotReady => (
            "of taking back, after 20 and 28.",
            "a track may be fired once it is withdrawn, if it holds something and nothing that its state hosts is awake. 'take back next' wants one that the society may fire.",
            "withdraw first; take back what runs inside a track before the track; or write 'take back next', which finds one.",
            &["withdraw", "take back next"],
        ),
        Refusal::BrokenRecord => (
            "of a journal's bytes, where a record cannot be read. What stands before it is run, what follows is not.",
            "an event has kind 20 and 12 bytes, a withdrawal 17 and 6, taking back a track 18 and 8, taking back the next 19 and 6.",
            BYTES,
            &[],
        ),
        _ => return None,
    };
    Some(Page {
        told,
        looked_at,
        mend,
        example,
    })
}

#[cfg(test)]
mod tests {
    use super::*;

    #[test]
    fn every_refusal_is_explained() {
        for refusal in Refusal::ALL {
            let text = explain(refusal.number()).expect("an explanation");
            assert!(text.starts_with(&format!("{refusal}\n")), "{text}");
            for head in ["\nWhen: ", "\nRule: ", "\nMend: "] {
                let words = text.split(head).nth(1).expect(head);
                assert!(words.len() > 10, "{text}");
            }
            let lines = text.lines().skip(1);
            let widest = lines.map(|line| line.chars().count()).max();
            assert!(widest <= Some(WIDTH), "{text}");
        }
        assert_eq!(Refusal::ALL.len(), 29);
        assert_eq!(explain(0), None);
        assert_eq!(explain(30), None);
    }
}
