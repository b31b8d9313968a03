//! The limit, which the caller chooses on each call: how many entries a track holds, how many words a ledger has, and which options say so.

mod sample_plan;

use std::io::Write;
use std::process::{Command, Stdio};

use retraction::raw::{begin, entries, event, fire, ready, signal};
use retraction::Refusal::{FewWords, Full, NotReady, Over};
use retraction::{Entry, Limit, Moved, Plan, Refusal, LEADING_WORDS, NONE};
use sample_plan::{begun, plan, SOCIETY, TRACKS};

const LIMITS: [Limit; 2] = [Limit::Main, Limit::ReadingRoom];

/// A root that stays in state 0 on event 1 and leaves code 7; on event 2 it enters state 1, whose hosted track event 3 ends: that leaves code 90.
const RECORDS: &[&[u16]] = &[
    &[6, 1, NONE],
    &[6, 1, 1],
    &[10, 2, 0, 0, 0],
    &[10, 2, 0, 0, 90],
    &[10, 2, 1, 0, 0],
    &[10, 2, 1, 1, 0],
    &[14, 3, 0, 1, 7, NONE, 0],
    &[14, 3, 0, 2, 0, NONE, 1],
    &[14, 3, 2, 3, 0, NONE, 3],
    &[10, 6, SOCIETY, 0, 7],
    &[4, 4],
];

/// The plan of these records.
fn looping() -> Plan {
    let words = RECORDS.concat();
    let bytes: Vec<u8> = words.iter().flat_map(|word| word.to_le_bytes()).collect();
    Plan::read(bytes).expect("an accepted plan")
}

fn moved(moved: u16, closed: u16) -> Result<Moved, Refusal> {
    Ok(Moved { moved, closed })
}

fn fired(code: u16) -> Result<Entry, Refusal> {
    let deviation = None;
    Ok(Entry { code, deviation })
}

#[test]
fn a_limit_says_its_numbers() {
    assert_eq!(LIMITS.map(Limit::entries), [32, 8]);
    assert_eq!(LIMITS.map(Limit::track_words), [67, 19]);
    assert_eq!(LIMITS.map(|limit| limit.ledger_words(0)), [4, 4]);
    assert_eq!(LIMITS.map(|limit| limit.ledger_words(3)), [205, 61]);
    assert_eq!(LIMITS.map(|limit| limit.ledger_words(32)), [2148, 612]);
    assert_eq!(Limit::default(), Limit::Main);
}

#[test]
fn a_ledger_tells_its_limit() -> Result<(), Refusal> {
    let plan = looping();
    for limit in LIMITS {
        let ledger = plan.begin(limit);
        assert_eq!(ledger.limit(), limit);
        assert_eq!(ledger.words().len(), plan.ledger_words(limit));
        let mut stored = ledger.words().to_vec();
        stored.extend([7; 5]);
        let again = plan.ledger(stored, limit)?;
        assert_eq!((again.limit(), again.words()), (limit, ledger.words()));
    }
    assert_ne!(plan.begin(Limit::Main), plan.begin(Limit::ReadingRoom));
    Ok(())
}

/// The 8th or the 32nd entry is installed, the next one is 21 and changes no word; a step without a code is still taken.
#[test]
fn one_entry_more_than_the_limit_is_21() {
    let plan = looping();
    for limit in LIMITS {
        let mut ledger = plan.begin(limit);
        for held in 1..=limit.entries() {
            assert_eq!(ledger.event(1, 0, SOCIETY), moved(1, 0), "{limit:?}");
            assert_eq!(ledger.entries(0).count(), usize::from(held));
        }
        let before = ledger.clone();
        for _ in 0..2 {
            assert_eq!(ledger.event(1, 9, SOCIETY), Err(Full), "{limit:?}");
        }
        assert_eq!(ledger, before);
        assert_eq!(ledger.event(2, 9, SOCIETY), moved(1, 0));
    }
}

/// The replacement of a scope that closes is an entry as well.
#[test]
fn a_replacement_beyond_the_limit_is_21() {
    let plan = looping();
    for limit in LIMITS {
        for held in [limit.entries() - 1, limit.entries()] {
            let mut ledger = plan.begin(limit);
            for _ in 0..held {
                assert_eq!(ledger.event(1, 0, SOCIETY), moved(1, 0));
            }
            assert_eq!(ledger.event(2, 0, SOCIETY), moved(1, 0));
            let closes = ledger.event(3, 0, SOCIETY);
            match held == limit.entries() {
                true => assert_eq!(closes, Err(Full), "{limit:?}"),
                false => assert_eq!(closes, moved(1, 1), "{limit:?}"),
            }
            assert_eq!(ledger.entries(0).count(), limit.entries().into());
        }
    }
}

/// Everything that a full track holds is taken back, the newest first.
#[test]
fn a_full_track_is_taken_back() {
    let plan = looping();
    for limit in LIMITS {
        let mut ledger = plan.begin(limit);
        for _ in 1..limit.entries() {
            assert_eq!(ledger.event(1, 0, SOCIETY), moved(1, 0));
        }
        assert_eq!(ledger.event(2, 0, SOCIETY), moved(1, 0));
        assert_eq!(ledger.event(3, 0, SOCIETY), moved(1, 1));
        assert_eq!(ledger.signal(SOCIETY), Ok(1));
        assert_eq!(ledger.fire(0, SOCIETY), fired(90));
        for left in (0..limit.entries() - 1).rev() {
            assert_eq!(ledger.fire(0, SOCIETY), fired(7), "{limit:?}");
            assert_eq!(ledger.entries(0).count(), left.into());
        }
        assert_eq!(ledger.ready().count(), 0);
        assert_eq!(ledger.fire(0, SOCIETY), Err(NotReady));
        assert!(!ledger.is_over());
    }
}

/// Plan P is taken back at either limit, and the words beyond stay as they were.
#[test]
fn the_sample_is_taken_back() {
    for limit in LIMITS {
        let options = limit.options();
        let (plan, mut ledger) = begun(limit);
        for number in [10, 11, 12] {
            let done = event(&plan, &mut ledger, number, 0, SOCIETY, options);
            assert_eq!(done, moved(1, 0));
        }
        assert_eq!(entries(&plan, &ledger, 1, options), [51, NONE]);
        assert_eq!(entries(&plan, &ledger, 2, options), [52, NONE]);
        assert_eq!(signal(&plan, &mut ledger, SOCIETY, options), Ok(3));
        assert_eq!(ready(&plan, &mut ledger, options), Ok(0b110));
        for (track, code) in [(1, 51), (2, 52), (0, 50)] {
            let done = fire(&plan, &mut ledger, track, SOCIETY, options);
            assert_eq!(done, fired(code));
        }
        assert_eq!(ready(&plan, &mut ledger, options), Ok(0));
        assert_eq!(ledger[limit.ledger_words(TRACKS)..], [7; 5]);
    }
}

/// Plan P runs to its end at either limit, and the words beyond stay as they were.
#[test]
fn the_sample_ends() {
    for limit in LIMITS {
        let (options, words) = (limit.options(), limit.ledger_words(TRACKS));
        let (plan, mut ledger) = begun(limit);
        for number in [10, 11, 12, 14, 13] {
            assert!(event(&plan, &mut ledger, number, 0, SOCIETY, options).is_ok());
        }
        assert_eq!(signal(&plan, &mut ledger, SOCIETY, options), Err(Over));
        assert_eq!(ledger[LEADING_WORDS..words], vec![0; words - LEADING_WORDS]);
        assert_eq!(ledger[words..], [7; 5]);
    }
}

/// A track's words stand where its limit puts them: the header's layout.
#[test]
fn a_tracks_words_stand_where_the_limit_puts_them() {
    for limit in LIMITS {
        let options = limit.options();
        let (plan, mut ledger) = begun(limit);
        for number in [10, 11, 12] {
            assert!(event(&plan, &mut ledger, number, 0, SOCIETY, options).is_ok());
        }
        let tracks = [
            [1, 1, 1, 50, NONE],
            [1, 4, 1, 51, NONE],
            [1, 6, 1, 52, NONE],
        ];
        for (track, expected) in tracks.iter().enumerate() {
            let own = &ledger[limit.ledger_words(track)..][..limit.track_words()];
            assert_eq!(own[..5], expected[..], "{limit:?}");
            assert!(own[5..].iter().all(|&word| word == 0));
        }
    }
}

/// With the words needed every call is accepted, with one fewer every call is 17, and no word is changed.
#[test]
fn one_word_fewer_is_17() {
    for limit in LIMITS {
        let (plan, options) = (plan(), limit.options());
        let mut ledger = vec![7; limit.ledger_words(TRACKS)];
        assert_eq!(begin(&plan, &mut ledger, options), Ok(()));
        assert_eq!(ready(&plan, &mut ledger, options), Ok(0));
        let before = ledger.clone();
        let short = &mut ledger[..limit.ledger_words(TRACKS) - 1];
        assert_eq!(begin(&plan, short, options), Err(FewWords), "{limit:?}");
        let done = event(&plan, short, 10, 0, SOCIETY, options);
        assert_eq!(done, Err(FewWords));
        assert_eq!(signal(&plan, short, SOCIETY, options), Err(FewWords));
        assert_eq!(fire(&plan, short, 0, SOCIETY, options), Err(FewWords));
        assert_eq!(ready(&plan, short, options), Err(FewWords));
        assert_eq!(entries(&plan, short, 0, options), []);
        assert_eq!(ledger, before);
    }
}

/// What each call answers in a history, and the words that it leaves.
fn history(options: u32) -> (Vec<String>, Vec<u16>) {
    let (plan, mut words) = (looping(), vec![7; Limit::Main.ledger_words(2) + 3]);
    let (plan, ledger) = (plan.bytes(), &mut words[..]);
    let mut told = vec![format!("{:?}", begin(plan, ledger, options))];
    for number in (0..40).map(|_| 1).chain([2, 3]) {
        let done = event(plan, ledger, number, 0, SOCIETY, options);
        told.push(format!("{done:?} {:?}", entries(plan, ledger, 0, options)));
    }
    told.push(format!("{:?}", signal(plan, ledger, SOCIETY, options)));
    for _ in 0..5 {
        told.push(format!("{:?}", ready(plan, ledger, options)));
        told.push(format!("{:?}", fire(plan, ledger, 0, SOCIETY, options)));
    }
    (told, words)
}

/// Bit 0 of the options tells the limit; every other bit, alone or with the rest, says nothing.
#[test]
fn unknown_options_are_ignored() {
    let known = LIMITS.iter().fold(0, |bits, limit| bits | limit.options());
    let unknown: Vec<u32> = (0..u32::BITS).map(|bit| 1 << bit & !known).collect();
    for limit in LIMITS {
        let expected = history(limit.options());
        for others in unknown.iter().copied().chain([!known]) {
            assert_eq!(history(limit.options() | others), expected, "{others:#x}");
        }
    }
    assert_ne!(
        history(Limit::Main.options()),
        history(Limit::ReadingRoom.options())
    );
}

/// A C file that compiles exactly if each of the header's expressions is the number beside it.
fn assertions(numbers: &[(String, usize)]) -> String {
    let mut text = String::from("#include \"retraction.h\"\n");
    for (expression, number) in numbers {
        text += &format!("_Static_assert({expression} == {number}, \"\");\n");
    }
    text
}

/// Whether the C compiler takes a file that includes the header.
fn compiles(text: &str) -> bool {
    let include = concat!(env!("CARGO_MANIFEST_DIR"), "/../../include");
    let mut compiler = Command::new("cc")
        .args(["-std=c11", "-fsyntax-only", "-x", "c", "-I", include, "-"])
        .stdin(Stdio::piped())
        .stderr(Stdio::null())
        .spawn()
        .expect("a C compiler");
    let mut input = compiler.stdin.take().expect("its input");
    input.write_all(text.as_bytes()).expect("taken");
    drop(input);
    compiler.wait().expect("it ends").success()
}

/// The header's macros give what a [`Limit`] does, whatever the other option bits are.
#[test]
fn the_headers_macros_are_a_limits() {
    let mut numbers = vec![("RETRACTION_LEADING_WORDS".to_string(), LEADING_WORDS)];
    for (limit, name) in LIMITS
        .iter()
        .zip(["RETRACTION_LIMIT_32", "RETRACTION_LIMIT_8"])
    {
        numbers.push((name.to_string(), limit.options() as usize));
        for options in [name.to_string(), format!("({name} | 0xfffffffe)")] {
            let of = |call: String, number: usize| (format!("RETRACTION_{call}"), number);
            numbers.push(of(format!("LIMIT({options})"), limit.entries().into()));
            numbers.push(of(format!("TRACK_WORDS({options})"), limit.track_words()));
            for tracks in [0, 1, 3, 32] {
                let words = limit.ledger_words(tracks);
                numbers.push(of(format!("LEDGER_WORDS({tracks}, {options})"), words));
            }
        }
    }
    assert!(compiles(&assertions(&numbers)));
    for (_, number) in &mut numbers {
        *number += 1;
    }
    for wrong in numbers {
        assert!(!compiles(&assertions(&[wrong])));
    }
}
