//! Rights of societies: the records that give them and refusal 27, whose tracks a call strikes, and refusal 28.

mod sample_plan;

use retraction::raw::{begin, entries, event, fire, read, ready, signal};
use retraction::Refusal::{
    AfterEnd, CutShort, Day, EventZero, FewWords, Full, Kind, Length, NoRecord, NoRight, NotReady,
    OtherPlan, Over, Rights, Unsound, Window,
};
use retraction::{Entry, Limit, Moved, Plan, Refusal, LEADING_WORDS, NONE};
use sample_plan::{begun, plan, SOCIETY, TRACKS};

/// The options of a call at the main program's limit, and the words that a ledger of plan P has at it.
const MAIN: u32 = Limit::Main.options();
const WORDS: usize = Limit::Main.ledger_words(TRACKS);

/// Where plan P's rights record starts, and where its end record does.
const RIGHTS: usize = 3 * 6 + 8 * 10 + 5 * 14;
const END: usize = RIGHTS + 10;

/// A rights record: a society, a root and a sum.
type Record = (u16, u16, u16);

/// Words as a plan has them.
fn bytes(words: &[u16]) -> Vec<u8> {
    words.iter().flat_map(|word| word.to_le_bytes()).collect()
}

/// The bytes of rights records.
fn records(rights: &[Record]) -> Vec<u8> {
    let record = |&(society, root, sum): &Record| bytes(&[10, 6, society, root, sum]);
    rights.iter().flat_map(record).collect()
}

/// Plan P with other rights records.
fn held(rights: &[Record]) -> Vec<u8> {
    let mut plan = plan();
    plan.splice(RIGHTS..END, records(rights));
    plan
}

/// Two roots, on which events 1 and 2 do the same. Event 1 stays where it is and leaves code 50 or 60, event 2 ends it. With these rights.
fn roots(rights: &[Record]) -> Vec<u8> {
    let words = [
        [6, 1, NONE, 6, 1, NONE].as_slice(),
        &[10, 2, 0, 0, 0, 10, 2, 0, 1, 0],
        &[10, 2, 1, 0, 0, 10, 2, 1, 1, 0],
        &[14, 3, 0, 1, 50, NONE, 0, 14, 3, 0, 2, 0, NONE, 1],
        &[14, 3, 2, 1, 60, NONE, 2, 14, 3, 2, 2, 0, NONE, 3],
    ];
    [bytes(&words.concat()), records(rights), bytes(&[4, 4])].concat()
}

/// Society 1 holds root 0 and society 2 root 1.
fn divided() -> Vec<u8> {
    roots(&[(1, 0, 7), (2, 1, 7)])
}

/// A ledger begun under a plan of two roots.
fn begun_roots(plan: &[u8]) -> Vec<u16> {
    let mut ledger = vec![7; Limit::Main.ledger_words(2)];
    assert_eq!(begin(plan, &mut ledger, MAIN), Ok(()));
    ledger
}

/// The modes of both roots.
fn modes(ledger: &[u16]) -> [u16; 2] {
    [0, 1].map(|track| ledger[Limit::Main.ledger_words(track)])
}

fn moved(moved: u16) -> Result<Moved, Refusal> {
    Ok(Moved { moved, closed: 0 })
}

fn fired(code: u16) -> Result<Entry, Refusal> {
    let deviation = None;
    Ok(Entry { code, deviation })
}

#[test]
fn a_rights_record_that_does_not_fit_is_27() {
    for sum in 1..=7 {
        assert!(read(&held(&[(1, 0, sum)])).is_ok(), "{sum}");
    }
    for rights in [
        &[(1, 1, 7)][..],
        &[(1, 3, 7)],
        &[(1, NONE, 7)],
        &[(1, 0, 0)],
        &[(1, 0, 8)],
        &[(1, 0, 263)],
        &[(1, 0, NONE)],
        &[(1, 0, 7), (1, 0, 7)],
        &[(1, 0, 1), (2, 0, 1), (1, 0, 2)],
    ] {
        let plan = held(rights);
        assert_eq!(read(&plan), Err(Rights), "{rights:?}");
        assert_eq!(begin(&plan, &mut [], MAIN), Err(Rights), "{rights:?}");
    }
    assert_eq!(begin(&held(&[]), &mut [], MAIN), Err(FewWords));
}

/// 64 societies over one root, of all numbers; one more is the 65th record, whoever it is.
#[test]
fn the_65th_record_is_27() {
    let mut rights: Vec<Record> = (0..64).map(|n| (n * 1040, 0, 1)).collect();
    assert!(read(&held(&rights)).is_ok());
    rights.push((NONE, 0, 1));
    assert_eq!(read(&held(&rights)), Err(Rights));
    let many: Vec<Record> = (0..3_000).map(|n| (n, 0, 1)).collect();
    assert_eq!(read(&held(&many)), Err(Rights));
}

#[test]
fn rights_stand_between_the_windows_and_the_end() {
    let record = records(&[(2, 0, 1)]);
    let with_rights_at = |at: usize| {
        let mut plan = plan();
        plan.splice(at..at, record.iter().copied());
        read(&plan).map(|counts| counts.transitions)
    };
    assert_eq!(with_rights_at(RIGHTS - 14), Err(Kind));
    assert_eq!(with_rights_at(RIGHTS), Ok(5));
    assert_eq!(with_rights_at(END), Ok(5));
    assert_eq!(with_rights_at(END + 4), Err(AfterEnd));
    assert_eq!(read(&plan()[..END]), Err(NoRecord));
    assert_eq!(read(&plan()[..END - 1]), Err(CutShort));
    let mut longer = plan();
    longer[RIGHTS] = 12;
    assert_eq!(read(&longer), Err(Length));
}

/// A window that does not fit is named before, too few words after.
#[test]
fn after_25_and_before_17() {
    let window = bytes(&[14, 5, 5, 0, 0, 0, 0]);
    let mut plan = held(&[(1, 9, 7)]);
    assert_eq!(begin(&plan, &mut [], MAIN), Err(Rights));
    plan.splice(RIGHTS..RIGHTS, window);
    assert_eq!(begin(&plan, &mut [], MAIN), Err(Window));
}

/// The record is part of the plan's length and sum.
#[test]
fn a_ledger_of_other_rights_is_24() {
    let (own, ledger) = begun(Limit::Main);
    for other in [held(&[]), held(&[(2, 0, 7)]), held(&[(1, 0, 7), (2, 0, 1)])] {
        let mut lent = ledger.clone();
        assert_eq!(signal(&other, &mut lent, SOCIETY, MAIN), Err(OtherPlan));
        assert_eq!(ready(&other, &mut lent, MAIN), Err(OtherPlan));
        assert_eq!(lent, ledger);
    }
    assert_eq!(signal(&own, &mut ledger.clone(), SOCIETY, MAIN), Ok(1));
}

/// Society 0 holds the roots of plan P, which no other one does.
#[test]
fn the_right_reaches_every_track_under_its_root() {
    let plan = held(&[(0, 0, 7)]);
    let mut ledger = vec![7; WORDS];
    assert_eq!(begin(&plan, &mut ledger, MAIN), Ok(()));
    assert_eq!(
        event(&plan, &mut ledger, 10, 0, SOCIETY, MAIN),
        Err(NoRight)
    );
    assert_eq!(event(&plan, &mut ledger, 10, 0, 0, MAIN), moved(1));
    assert_eq!(event(&plan, &mut ledger, 11, 0, 0, MAIN), moved(1));
    assert_eq!(signal(&plan, &mut ledger, 0, MAIN), Ok(3));
    assert_eq!(fire(&plan, &mut ledger, 1, SOCIETY, MAIN), Err(NoRight));
    assert_eq!(fire(&plan, &mut ledger, 1, 0, MAIN), fired(51));
}

#[test]
fn a_call_strikes_the_roots_of_its_society() {
    let plan = divided();
    let mut ledger = begun_roots(&plan);
    assert_eq!(event(&plan, &mut ledger, 1, 0, 1, MAIN), moved(1));
    assert_eq!(entries(&plan, &ledger, 0, MAIN), [50, NONE]);
    assert_eq!(entries(&plan, &ledger, 1, MAIN), []);
    assert_eq!(event(&plan, &mut ledger, 1, 0, 2, MAIN), moved(1));
    assert_eq!(entries(&plan, &ledger, 1, MAIN), [60, NONE]);
    assert_eq!(signal(&plan, &mut ledger, 2, MAIN), Ok(1));
    assert_eq!(modes(&ledger), [1, 2]);
    assert_eq!(signal(&plan, &mut ledger, 2, MAIN), Ok(0));
    assert_eq!(event(&plan, &mut ledger, 1, 0, 2, MAIN), moved(0));
    assert_eq!(ready(&plan, &mut ledger, MAIN), Ok(0b10));
    assert_eq!(fire(&plan, &mut ledger, 1, 1, MAIN), Err(NoRight));
    assert_eq!(fire(&plan, &mut ledger, 1, 2, MAIN), fired(60));
    assert_eq!(event(&plan, &mut ledger, 1, 0, 1, MAIN), moved(1));
    assert_eq!(entries(&plan, &ledger, 0, MAIN), [50, NONE, 50, NONE]);
}

/// Root 0 has ended and is society 1's; society 2 takes back root 1, which holds nothing. The next call is 20, before 28.
#[test]
fn a_partial_signal_may_end_the_ledger() -> Result<(), Refusal> {
    let plan = Plan::read(divided())?;
    let mut ledger = plan.begin(Limit::Main);
    assert_eq!(ledger.event(1, 0, 1), moved(1));
    assert_eq!(ledger.event(2, 0, 1), moved(1));
    assert!(!ledger.is_over());
    assert_eq!(ledger.signal(2), Ok(1));
    assert!(ledger.is_over());
    assert_eq!(ledger.signal(9), Err(Over));
    assert_eq!(ledger.event(1, 0, 9), Err(Over));
    assert_eq!(ledger.fire(0, 9), Err(Over));
    Ok(())
}

/// Each right by itself, over both roots; a call for which the society has it nowhere changes no word.
#[test]
fn each_right_is_for_one_call() {
    for sum in 1..=7u16 {
        let plan = roots(&[(1, 0, sum), (1, 1, sum), (2, 0, 7), (2, 1, 7)]);
        let answers = |right: u16| {
            if sum & right == 0 {
                Err(NoRight)
            } else {
                Ok(())
            }
        };
        let mut ledger = begun_roots(&plan);
        assert_eq!(
            event(&plan, &mut ledger.clone(), 1, 0, 1, MAIN).map(|_| ()),
            answers(1)
        );
        assert_eq!(event(&plan, &mut ledger, 1, 0, 2, MAIN), moved(2));
        assert_eq!(
            signal(&plan, &mut ledger.clone(), 1, MAIN).map(|_| ()),
            answers(2)
        );
        assert_eq!(signal(&plan, &mut ledger, 2, MAIN), Ok(2));
        let before = ledger.clone();
        let fires = fire(&plan, &mut ledger, 0, 1, MAIN).map(|_| ());
        assert_eq!(fires, answers(4));
        assert_eq!(ledger == before, fires.is_err());
    }
}

/// With the right over one root a call is accepted, and may strike none; a firing is judged by its track.
#[test]
fn a_right_somewhere_is_enough_but_for_a_firing() {
    let plan = roots(&[(1, 0, 7), (2, 1, 7)]);
    let mut ledger = begun_roots(&plan);
    assert_eq!(event(&plan, &mut ledger, 99, 0, 1, MAIN), moved(0));
    assert_eq!(fire(&plan, &mut ledger, 1, 1, MAIN), Err(NoRight));
    assert_eq!(fire(&plan, &mut ledger, 0, 1, MAIN), Err(NotReady));
    for society in [1, 2, 9] {
        for track in [2, 32, NONE] {
            assert_eq!(
                fire(&plan, &mut ledger, track, society, MAIN),
                Err(NotReady)
            );
        }
    }
}

/// 28 comes after 20, which comes after 19 and 26, and before 21 and 22.
#[test]
fn after_20_and_before_21_and_22() {
    let plan = divided();
    let mut ledger = begun_roots(&plan);
    for _ in 0..32 {
        assert_eq!(event(&plan, &mut ledger, 1, 5, 1, MAIN), moved(1));
    }
    let before = ledger.clone();
    assert_eq!(event(&plan, &mut ledger, 0, 5, 9, MAIN), Err(EventZero));
    assert_eq!(event(&plan, &mut ledger, 1, 4, 9, MAIN), Err(Day));
    assert_eq!(event(&plan, &mut ledger, 1, 5, 9, MAIN), Err(NoRight));
    assert_eq!(event(&plan, &mut ledger, 1, 5, 1, MAIN), Err(Full));
    assert_eq!(fire(&plan, &mut ledger, 0, 9, MAIN), Err(NoRight));
    assert_eq!(fire(&plan, &mut ledger, 0, 1, MAIN), Err(NotReady));
    assert_eq!(signal(&plan, &mut ledger, 9, MAIN), Err(NoRight));
    assert_eq!(ledger, before);
    ledger[LEADING_WORDS] = 3;
    assert_eq!(signal(&plan, &mut ledger, 9, MAIN), Err(Unsound));
}

/// A full track of another society asks for no room.
#[test]
fn a_full_track_of_another_society_is_no_obstacle() {
    let plan = divided();
    let mut ledger = begun_roots(&plan);
    for _ in 0..32 {
        assert_eq!(event(&plan, &mut ledger, 1, 0, 1, MAIN), moved(1));
    }
    assert_eq!(event(&plan, &mut ledger, 1, 0, 2, MAIN), moved(1));
}

/// The ledger has one day for all societies; a refused event leaves it.
#[test]
fn the_day_is_everybodys() {
    let plan = divided();
    let mut ledger = begun_roots(&plan);
    assert_eq!(event(&plan, &mut ledger, 1, 40, 9, MAIN), Err(NoRight));
    assert_eq!(event(&plan, &mut ledger, 1, 30, 1, MAIN), moved(1));
    assert_eq!(event(&plan, &mut ledger, 1, 29, 2, MAIN), Err(Day));
    assert_eq!(event(&plan, &mut ledger, 1, 30, 2, MAIN), moved(1));
}

/// Without a record the plan is accepted and begun, and every other call but ready and entries is 28.
#[test]
fn without_a_record_nobody_has_a_right() {
    let plan = held(&[]);
    let mut ledger = vec![7; WORDS];
    assert_eq!(begin(&plan, &mut ledger, MAIN), Ok(()));
    for society in [0, 1, NONE] {
        assert_eq!(
            event(&plan, &mut ledger, 10, 0, society, MAIN),
            Err(NoRight)
        );
        assert_eq!(signal(&plan, &mut ledger, society, MAIN), Err(NoRight));
        assert_eq!(fire(&plan, &mut ledger, 0, society, MAIN), Err(NoRight));
    }
    assert_eq!(ready(&plan, &mut ledger, MAIN), Ok(0));
}
