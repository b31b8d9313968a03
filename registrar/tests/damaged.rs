//! Refused plans: the record that is named is the one that the refusal is about.
//!
//! Asserted of each: the number is the proved reader's; a record is named, unless
//! the number is 8; its first byte is where the lengths before it lead; and
//!
//! - *mending it changes the outcome*: one change of that record alone, or for 2
//!   and a track without a state the record that is missing, makes the proved
//!   reader accept the plan, refuse it under another number, or refuse it under
//!   the same number for a record further on;
//! - *the plan is good up to it*, for all numbers but 10, 11, 12 and 16, which ask
//!   how tracks and states stand to one another: cut before that record and ended,
//!   the plan is not refused under this number, and for 25 and 27 it is accepted;
//!   cut behind it, it is refused under the same number for the same record;
//! - *the fault is its own*, for 10, 11 and 12: it stays when every other record of
//!   its kind is made harmless;
//! - *no track before it is too high*, for 16: it stays when every track behind the
//!   named one is made a root, and goes when that one is, too.

use registrar::draft::Draft;
use registrar::place::{self, Place, NOT_FOUND};
use registrar::plan_text;
use registrar::record;
use registrar::records::{kind, Grant, Records, State, Step, Track};
use retraction::{Plan, Refusal};
use std::collections::BTreeMap;
use testing::generate::damage;
use testing::generate::rng::Rng;

const SEED: u64 = 1901;
const END: [u8; 4] = [4, 0, 4, 0];

fn refusal_of(bytes: &[u8]) -> Option<Refusal> {
    Plan::read(bytes).err()
}

/// The refusal and the record that it is about.
fn outcome(bytes: &[u8]) -> Option<(Refusal, Option<usize>)> {
    let refusal = refusal_of(bytes)?;
    Some((refusal, place::of(refusal, bytes, None).record))
}

/// Where the record of this number starts, by the lengths before it.
fn start(bytes: &[u8], record: usize) -> usize {
    let mut at = 0;
    for _ in 0..record {
        let (length, _) = record::header(&bytes[at..]).expect("a record before the named one");
        at += length;
    }
    at
}

/// Bytes up to here, with an end record.
fn ended(bytes: &[u8], at: usize) -> Vec<u8> {
    [&bytes[..at], &END].concat()
}

/// A plan with the named record mended, and the lowest record that counts as one
/// further on.
type Mended = (Vec<u8>, usize);

/// Ways to mend the record at this byte.
fn mendings(number: u16, bytes: &[u8], record: usize, byte: usize) -> Vec<Mended> {
    let stays = |bytes: Vec<u8>| (bytes, record + 1);
    match number {
        4 => {
            let kind = bytes[byte + 2];
            let lengths = [0, 6, 10, 14, 4, 14, 10];
            let mut mended = bytes.to_vec();
            mended[byte] = lengths[usize::from(kind)];
            mended[byte + 1] = 0;
            vec![stays(mended)]
        }
        5 => {
            let (length, _) = record::header(&bytes[byte..]).expect("a header");
            let mut mended = bytes.to_vec();
            mended.resize(byte + length, 0);
            vec![stays(mended)]
        }
        2 | 3 | 6 | 7 => vec![stays(match number {
            7 => bytes[..byte].to_vec(),
            _ => ended(bytes, byte),
        })],
        _ => {
            let records = Records::decode(bytes).expect("whole records");
            let mended = mended_records(number, &records, record);
            let mut mended: Vec<Mended> = mended.iter().map(|m| stays(m.encode())).collect();
            if number >= 25 {
                // What comes behind a record that is removed moves to its place.
                let (length, _) = record::header(&bytes[byte..]).expect("a header");
                let removed = [&bytes[..byte], &bytes[byte + length..]].concat();
                mended.push((removed, record));
            }
            mended
        }
    }
}

/// The number among its kind of the record of this number, which is of that kind.
fn among(records: &Records, record: usize, wanted: u16) -> Option<usize> {
    let counts = [
        (kind::TRACK, records.tracks.len()),
        (kind::STATE, records.states.len()),
        (kind::STEP, records.steps.len()),
        (kind::WINDOW, records.windows.len()),
        (kind::GRANT, records.grants.len()),
    ];
    let mut before = 0;
    for (kind, count) in counts {
        if kind == wanted {
            return record.checked_sub(before).filter(|&number| number < count);
        }
        before += count;
    }
    None
}

fn mended_records(number: u16, records: &Records, record: usize) -> Vec<Records> {
    let mut mended = records.clone();
    let track = among(records, record, kind::TRACK);
    let state = among(records, record, kind::STATE);
    let step = among(records, record, kind::STEP);
    match number {
        9 => mended.states[state.expect("a state")] = plain(0),
        10 | 16 => mended.tracks[track.expect("a track")].host = None,
        11 => match track {
            Some(track) => mended.states.push(plain(track as u16)),
            None => mended.states[state.expect("a state")].last = 0,
        },
        12 => {
            let state = &mut mended.states[state.expect("a state")];
            *state = plain(state.track);
        }
        13 => {
            let open = records.states.iter().position(|state| state.last == 0);
            let open = open.expect("a first state is not final") as u16;
            mended.steps[step.expect("a step")] = Step {
                source: open,
                event: free_event(records),
                code: 0,
                deviation: None,
                destination: open,
            };
        }
        14 => mended.steps[step.expect("a step")].deviation = None,
        15 => mended.steps[step.expect("a step")].event = free_event(records),
        25 => {
            let window = among(records, record, kind::WINDOW).expect("a window");
            let free = |x: &u16| records.windows.iter().all(|window| window.step != *x);
            let free = (0..records.steps.len() as u16).find(free);
            let window = &mut mended.windows[window];
            window.step = free.unwrap_or(window.step);
            (window.first, window.last) = (0, 0);
        }
        27 => {
            let grant = among(records, record, kind::GRANT).expect("a right");
            let taken = |society: &u16| records.grants.iter().any(|g| g.society == *society);
            mended.grants[grant] = Grant {
                society: (0..=u16::MAX).find(|s| !taken(s)).expect("a society"),
                root: 0,
                sum: 7,
            };
        }
        other => panic!("{other} is about no record"),
    }
    vec![mended]
}

/// A state without a fault of its own.
fn plain(track: u16) -> State {
    State {
        track,
        last: 0,
        replacement: 0,
    }
}

/// An event that no step has.
fn free_event(records: &Records) -> u16 {
    let taken = |event: &u16| records.steps.iter().any(|step| step.event == *event);
    (1..=u16::MAX)
        .find(|event| !taken(event))
        .expect("an event")
}

fn mending_changes_the_outcome(refusal: Refusal, bytes: &[u8], record: usize, byte: usize) {
    let mendings = mendings(refusal.number(), bytes, record, byte);
    let changed = mendings
        .iter()
        .any(|(mended, further)| match outcome(mended) {
            Some((other, at)) if other == refusal => at >= Some(*further),
            _ => true,
        });
    assert!(changed, "{refusal}: record {record} of {bytes:02x?}");
}

fn good_up_to(refusal: Refusal, bytes: &[u8], record: usize, byte: usize) {
    let number = refusal.number();
    let before = match number {
        7 => refusal_of(&bytes[..byte]),
        _ => refusal_of(&ended(bytes, byte)),
    };
    assert_ne!(before, Some(refusal), "record {record} of {bytes:02x?}");
    if number >= 25 {
        assert_eq!(before, None, "record {record} of {bytes:02x?}");
    }
    let with = match number {
        2 => bytes[..byte].to_vec(),
        3 | 4 => bytes[..byte + 4].to_vec(),
        5 => bytes.to_vec(),
        7 => bytes[..=byte].to_vec(),
        _ => {
            let (length, _) = record::header(&bytes[byte..]).expect("a header");
            ended(bytes, byte + length)
        }
    };
    assert_eq!(outcome(&with), Some((refusal, Some(record))));
}

/// With all others of its kind harmless the record is still refused.
fn fault_is_its_own(refusal: Refusal, bytes: &[u8], record: usize) {
    let mut alone = Records::decode(bytes).expect("whole records");
    let tracks = alone.tracks.len();
    match refusal {
        Refusal::Host => {
            let others = alone.tracks.iter_mut().enumerate();
            let others = others.filter(|(track, _)| *track != record);
            others.for_each(|(_, track)| *track = Track { host: None });
        }
        Refusal::FirstState if record < tracks => {
            for track in (0..tracks as u16).filter(|&t| usize::from(t) != record) {
                alone.states.push(plain(track));
            }
            alone.states.iter_mut().for_each(|state| state.last = 0);
        }
        _ => {
            let others = alone.states.iter_mut().enumerate();
            let others = others.filter(|(state, _)| tracks + *state != record);
            others.for_each(|(_, state)| *state = plain(state.track));
        }
    }
    let bytes = alone.encode();
    // A state for every track may be more states than a plan has.
    if refusal_of(&bytes) != Some(Refusal::TooMany) {
        assert_eq!(outcome(&bytes), Some((refusal, Some(record))));
    }
}

/// With every track behind it a root the named one is still too high, and with the
/// named one a root none is.
fn first_too_high(bytes: &[u8], record: usize) {
    let mut first = Records::decode(bytes).expect("whole records");
    first.states.iter_mut().for_each(|s| s.replacement = 0);
    let behind = first.tracks.iter_mut().skip(record + 1);
    behind.for_each(|track| track.host = None);
    assert_eq!(
        outcome(&first.encode()),
        Some((Refusal::Height, Some(record)))
    );
    first.tracks[record].host = None;
    assert_ne!(refusal_of(&first.encode()), Some(Refusal::Height));
}

/// All that is asserted of a refused plan.
fn check(refusal: Refusal, bytes: &[u8]) {
    let number = refusal.number();
    let place = place::of(refusal, bytes, None);
    assert_ne!(place.what, NOT_FOUND, "{refusal}: {bytes:02x?}");
    assert_eq!(place.line, None);
    if number == 8 {
        assert_eq!((place.record, place.byte), (None, None));
        return;
    }
    let (record, byte) = place.record.zip(place.byte).expect("a record");
    assert_eq!(byte, start(bytes, record), "{refusal}: {bytes:02x?}");
    mending_changes_the_outcome(refusal, bytes, record, byte);
    match number {
        10..=12 => fault_is_its_own(refusal, bytes, record),
        16 => first_too_high(bytes, record),
        _ => good_up_to(refusal, bytes, record, byte),
    }
}

/// A refused plan as text, if a text has it: its line is one of the record's sort.
fn check_text(refusal: Refusal, bytes: &[u8], place: &Place) -> bool {
    let records = match Records::decode(bytes) {
        Some(records) => records,
        None => return false,
    };
    let text = plan_text::write(&Draft::of_records(records));
    let draft = match plan_text::read(&text) {
        Ok(draft) if draft.records.encode() == bytes => draft,
        _ => return false,
    };
    let told = place::of(refusal, &draft.records.encode(), Some(&draft));
    assert_eq!((told.record, told.byte), (place.record, place.byte));
    let line = match told.line {
        Some(line) => line,
        None => return refusal == Refusal::NoTrack && told.record.is_none(),
    };
    let line = text.lines().nth(line - 1).expect("a line of the text");
    let (_, kind) = record::header(&bytes[told.byte.expect("a byte")..]).expect("a header");
    let firsts = ["", "track", "state", "on", "", "on", "right"];
    let first = line.split_whitespace().next();
    assert_eq!(first, Some(firsts[usize::from(kind)]), "{line}");
    assert!(kind != kind::WINDOW || line.contains(" from "));
    true
}

#[test]
fn the_record_named_is_the_one() {
    let mut met: BTreeMap<u16, (usize, usize)> = BTreeMap::new();
    for index in 0..26_000_u64 {
        let mut rng = Rng::for_case(SEED, 1, index);
        let numbers = damage::NUMBERS;
        let bytes = match index % 2 {
            0 => damage::refused_as(&mut rng, 32, numbers[index as usize / 2 % numbers.len()]),
            _ => damage::any_plan(&mut rng, 32),
        };
        let refusal = match refusal_of(&bytes) {
            Some(refusal) => refusal,
            None => continue,
        };
        check(refusal, &bytes);
        let place = place::of(refusal, &bytes, None);
        let (refused, as_text) = met.entry(refusal.number()).or_default();
        *refused += 1;
        *as_text += usize::from(check_text(refusal, &bytes, &place));
    }
    let total: usize = met.values().map(|(refused, _)| refused).sum();
    assert!(total >= 20_000, "{total}");
    for number in damage::NUMBERS {
        let (refused, as_text) = met[&u16::from(number)];
        assert!(refused > 500, "{number}: {refused}");
        // A text without a track has no record at all, and such plans are few.
        let in_texts = matches!(number, 6 | 10..=16 | 25 | 27);
        assert!(!in_texts || as_text > 20, "{number}: {as_text}");
    }
}

#[test]
fn any_bytes_have_a_place() {
    for index in 0..40_000 {
        let mut rng = Rng::for_case(SEED, 2, index);
        let bytes = noise(&mut rng);
        if let Some(refusal) = refusal_of(&bytes) {
            check(refusal, &bytes);
        }
        for &refusal in Refusal::ALL {
            // A number that is not the reader's must not make it panic either.
            let _ = place::of(refusal, &bytes, None);
        }
    }
}

/// Bytes of any value, or of records whose fields are small.
fn noise(rng: &mut Rng) -> Vec<u8> {
    if rng.chance(30) {
        let length = rng.below(64);
        return (0..length).map(|_| rng.word() as u8).collect();
    }
    let mut bytes = Vec::new();
    let kinds = [1, 2, 3, 5, 6];
    let mut least = 0;
    for _ in 0..rng.below(12) {
        least = rng.between(least, kinds.len() - 1);
        let kind = kinds[least];
        let fields = [0, 1, 3, 5, 0, 5, 3][kind as usize];
        let low = |rng: &mut Rng| match rng.below(12) {
            0 => u16::MAX,
            1 => rng.word(),
            _ => rng.below(4) as u16,
        };
        let fields: Vec<u16> = (0..fields).map(|_| low(rng)).collect();
        record::put(&mut bytes, kind, &fields);
    }
    bytes.extend(END);
    bytes
}
