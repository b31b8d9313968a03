//! The days of events: windows and refusal 25, the last accepted day and refusal 26; and days as dates.

mod sample_plan;

use retraction::raw::{begin, entries, event, fire, read, ready, signal};
use retraction::Refusal::{
    AfterEnd, Day, EventZero, FewWords, Full, Kind, OtherPlan, Over, Unsound, Window,
};
use retraction::{date_of_day, day_of_date};
use retraction::{Date, Limit, Moved, Plan, Refusal, FIRST_DAY, LAST_DAY, LEADING_WORDS, NONE};
use sample_plan::{begun, plan, SOCIETY, TRACKS};

/// The options of a call at the main program's limit, and the words that a ledger of plan P has at it.
const MAIN: u32 = Limit::Main.options();
const WORDS: usize = Limit::Main.ledger_words(TRACKS);

/// Where plan P's transitions start, where its rights record does, and where its end record does.
const TRANSITIONS: usize = 3 * 6 + 8 * 10;
const RIGHTS: usize = TRANSITIONS + 5 * 14;
const END: usize = RIGHTS + 10;

/// Days that are none of the range.
const OUTSIDE: [i32; 4] = [FIRST_DAY - 1, LAST_DAY + 1, i32::MIN, i32::MAX];

/// A window's bytes: a transition, its first day and its last one.
fn window((transition, first, last): (u16, i32, i32)) -> Vec<u8> {
    let mut record = vec![14, 0, 5, 0];
    record.extend(transition.to_le_bytes());
    record.extend([first, last].iter().flat_map(|day| day.to_le_bytes()));
    record
}

/// Plan P with windows, before its rights record.
fn windowed(windows: &[(u16, i32, i32)]) -> Vec<u8> {
    let mut plan = plan();
    plan.splice(RIGHTS..RIGHTS, windows.iter().copied().flat_map(window));
    plan
}

fn moved(moved: u16, closed: u16) -> Result<Moved, Refusal> {
    Ok(Moved { moved, closed })
}

/// The last accepted day, as a ledger's words 2 and 3 have it.
fn day(ledger: &[u16]) -> i32 {
    let [low, high] = [ledger[2], ledger[3]].map(u32::from);
    (high << 16 | low) as i32
}

/// A date's year, month and day.
fn date(year: u16, month: u16, day: u16) -> Date {
    Date { year, month, day }
}

#[test]
fn begin_writes_the_first_day() {
    let (_, ledger) = begun(Limit::Main);
    assert_eq!(ledger[..7], [182, 633, 21499, 65534, 1, 0, 0]);
    assert_eq!(day(&ledger), FIRST_DAY);
}

#[test]
fn an_event_writes_its_day_low_word_first() {
    for (number, words) in [
        (FIRST_DAY, [21499, 65534]),
        (-65_536, [0, 65535]),
        (-1, [65535, 65535]),
        (0, [0, 0]),
        (59, [59, 0]),
        (70_000, [4464, 1]),
        (LAST_DAY, [51548, 2]),
    ] {
        let (plan, mut ledger) = begun(Limit::Main);
        assert_eq!(
            event(&plan, &mut ledger, 10, number, SOCIETY, MAIN),
            moved(1, 0)
        );
        assert_eq!(ledger[..7], [182, 633, words[0], words[1], 1, 1, 1]);
        assert_eq!(ledger[WORDS..], [7; 5]);
    }
}

/// From the first day of its window to the last one event 10 moves track 0; on any other day the track ignores it.
#[test]
fn a_window_restricts_its_transition() {
    let plan = windowed(&[(3, -7, 8), (0, -5, 30)]);
    for (number, tracks) in [
        (FIRST_DAY, 0),
        (-6, 0),
        (-5, 1),
        (0, 1),
        (30, 1),
        (31, 0),
        (LAST_DAY, 0),
    ] {
        let mut ledger = vec![7; WORDS];
        assert_eq!(begin(&plan, &mut ledger, MAIN), Ok(()));
        assert_eq!(
            event(&plan, &mut ledger, 10, number, SOCIETY, MAIN),
            moved(tracks, 0)
        );
        assert_eq!(day(&ledger), number);
    }
}

/// Event 11 has no window. Event 12 comes a day too early, on its last day, and a day too late for the next step.
#[test]
fn each_transition_has_its_own_window() {
    let plan = windowed(&[(4, -5, 29), (0, 0, 0), (3, 30, 30)]);
    let mut ledger = vec![7; WORDS];
    assert_eq!(begin(&plan, &mut ledger, MAIN), Ok(()));
    assert_eq!(event(&plan, &mut ledger, 10, 0, SOCIETY, MAIN), moved(1, 0));
    assert_eq!(
        event(&plan, &mut ledger, 11, 29, SOCIETY, MAIN),
        moved(1, 0)
    );
    assert_eq!(
        event(&plan, &mut ledger, 12, 29, SOCIETY, MAIN),
        moved(0, 0)
    );
    assert_eq!(
        event(&plan, &mut ledger, 12, 30, SOCIETY, MAIN),
        moved(1, 0)
    );
    assert_eq!(
        event(&plan, &mut ledger, 14, 30, SOCIETY, MAIN),
        moved(0, 0)
    );
    assert_eq!(entries(&plan, &ledger, 2, MAIN), [52, NONE]);
}

/// A window of one day at either end of the range.
#[test]
fn a_window_may_end_where_the_range_does() {
    for number in [FIRST_DAY, LAST_DAY] {
        let plan = windowed(&[(0, number, number)]);
        let mut ledger = vec![7; WORDS];
        assert_eq!(begin(&plan, &mut ledger, MAIN), Ok(()));
        assert_eq!(event(&plan, &mut ledger, 10, 0, SOCIETY, MAIN), moved(0, 0));
        assert_eq!(begin(&plan, &mut ledger, MAIN), Ok(()));
        assert_eq!(
            event(&plan, &mut ledger, 10, number, SOCIETY, MAIN),
            moved(1, 0)
        );
    }
}

#[test]
fn a_window_that_does_not_fit_is_25() {
    for windows in [
        &[(5, 0, 0)][..],
        &[(NONE, 0, 0)],
        &[(0, 0, 9), (0, 20, 29)],
        &[(0, 0, 9), (1, 0, 9), (2, 0, 9), (1, 0, 9)],
        &[(0, 1, 0)],
        &[(0, FIRST_DAY - 1, 0)],
        &[(0, 0, LAST_DAY + 1)],
        &[(0, i32::MIN, i32::MAX)],
    ] {
        let plan = windowed(windows);
        assert_eq!(read(&plan), Err(Window), "{windows:?}");
        assert_eq!(begin(&plan, &mut [], MAIN), Err(Window), "{windows:?}");
    }
    assert_eq!(begin(&windowed(&[(0, 0, 9)]), &mut [], MAIN), Err(FewWords));
}

/// More windows than transitions, as many as a file may have: one of them repeats another's transition.
#[test]
fn windows_have_no_limit_of_their_own() {
    assert_eq!(read(&windowed(&vec![(0, 0, 9); 2_000])), Err(Window));
}

#[test]
fn windows_stand_between_the_transitions_and_the_rights() {
    let window = window((0, 0, 9));
    let with_window_at = |at: usize| {
        let mut plan = plan();
        plan.splice(at..at, window.iter().copied());
        read(&plan).map(|counts| counts.transitions)
    };
    assert_eq!(with_window_at(TRANSITIONS), Err(Kind));
    assert_eq!(with_window_at(RIGHTS - 14), Err(Kind));
    assert_eq!(with_window_at(RIGHTS), Ok(5));
    assert_eq!(with_window_at(END), Err(Kind));
    assert_eq!(with_window_at(END + 4), Err(AfterEnd));
}

#[test]
fn days_never_fall() {
    let (plan, mut ledger) = begun(Limit::Main);
    assert_eq!(
        event(&plan, &mut ledger, 10, -3, SOCIETY, MAIN),
        moved(1, 0)
    );
    assert_eq!(
        event(&plan, &mut ledger, 11, -3, SOCIETY, MAIN),
        moved(1, 0)
    );
    let before = ledger.clone();
    for number in [-4, FIRST_DAY].into_iter().chain(OUTSIDE) {
        assert_eq!(
            event(&plan, &mut ledger, 12, number, SOCIETY, MAIN),
            Err(Day),
            "{number}"
        );
        assert_eq!(ledger, before);
    }
    assert_eq!(
        event(&plan, &mut ledger, 12, -2, SOCIETY, MAIN),
        moved(1, 0)
    );
}

#[test]
fn an_event_that_moves_none_keeps_its_day() {
    let (plan, mut ledger) = begun(Limit::Main);
    assert_eq!(event(&plan, &mut ledger, 13, 5, SOCIETY, MAIN), moved(0, 0));
    assert_eq!(event(&plan, &mut ledger, 10, 4, SOCIETY, MAIN), Err(Day));
    assert_eq!(event(&plan, &mut ledger, 10, 5, SOCIETY, MAIN), moved(1, 0));
}

#[test]
fn signals_and_firings_leave_the_day() {
    let (plan, mut ledger) = begun(Limit::Main);
    assert_eq!(
        event(&plan, &mut ledger, 10, 40, SOCIETY, MAIN),
        moved(1, 0)
    );
    assert_eq!(signal(&plan, &mut ledger, SOCIETY, MAIN), Ok(3));
    assert!(fire(&plan, &mut ledger, 0, SOCIETY, MAIN).is_ok());
    assert_eq!(ready(&plan, &mut ledger, MAIN), Ok(0));
    assert_eq!(day(&ledger), 40);
}

/// 26 comes after 19 and before 20; a ledger that is over keeps its last day.
#[test]
fn after_19_and_before_20() {
    let (plan, mut ledger) = begun(Limit::Main);
    for (number, at) in [(10, 1), (11, 2), (12, 3), (14, 4), (13, 5)] {
        assert!(event(&plan, &mut ledger, number, at, SOCIETY, MAIN).is_ok());
    }
    assert_eq!(signal(&plan, &mut ledger, SOCIETY, MAIN), Err(Over));
    assert_eq!(day(&ledger), 5);
    let before = ledger.clone();
    for number in [4].into_iter().chain(OUTSIDE) {
        assert_eq!(
            event(&plan, &mut ledger, 0, number, SOCIETY, MAIN),
            Err(EventZero)
        );
        assert_eq!(
            event(&plan, &mut ledger, 10, number, SOCIETY, MAIN),
            Err(Day)
        );
    }
    assert_eq!(event(&plan, &mut ledger, 10, 5, SOCIETY, MAIN), Err(Over));
    assert_eq!(ledger, before);
}

/// One root that loops by event 1 and installs code 7: the 33rd time is refused, and its day is not kept.
#[test]
fn a_refused_event_leaves_the_day() {
    let records: [&[u16]; 5] = [
        &[6, 1, NONE],
        &[10, 2, 0, 0, 0],
        &[14, 3, 0, 1, 7, NONE, 0],
        &[10, 6, SOCIETY, 0, 1],
        &[4, 4],
    ];
    let words = records.concat();
    let plan: Vec<u8> = words.iter().flat_map(|word| word.to_le_bytes()).collect();
    let mut ledger = vec![7; Limit::Main.ledger_words(1)];
    assert_eq!(begin(&plan, &mut ledger, MAIN), Ok(()));
    for number in 1..=32 {
        assert_eq!(
            event(&plan, &mut ledger, 1, number, SOCIETY, MAIN),
            moved(1, 0)
        );
    }
    let before = ledger.clone();
    assert_eq!(event(&plan, &mut ledger, 1, 33, SOCIETY, MAIN), Err(Full));
    assert_eq!((day(&ledger), ledger), (32, before));
}

/// Every call on a ledger refuses it, and changes no word.
fn is_refused(plan: &[u8], ledger: &[u16], refusal: Refusal) {
    let mut lent = ledger.to_vec();
    for number in [0, FIRST_DAY, i32::MAX] {
        assert_eq!(
            event(plan, &mut lent, 10, number, SOCIETY, MAIN),
            Err(refusal)
        );
        assert_eq!(
            event(plan, &mut lent, 0, number, SOCIETY, MAIN),
            Err(refusal)
        );
    }
    assert_eq!(signal(plan, &mut lent, SOCIETY, MAIN), Err(refusal));
    assert_eq!(fire(plan, &mut lent, 0, SOCIETY, MAIN), Err(refusal));
    assert_eq!(ready(plan, &mut lent, MAIN), Err(refusal));
    assert_eq!(entries(plan, &lent, 0, MAIN), []);
    assert_eq!(lent, ledger);
}

/// A ledger awake or over, whose day is out of range; under a neighbour's plan it is 24 all the same.
#[test]
fn a_day_out_of_range_is_not_sound() {
    for number in OUTSIDE {
        let (plan, mut ledger) = begun(Limit::Main);
        let [low, high] = [number as u16, (number >> 16) as u16];
        ledger[2..LEADING_WORDS].copy_from_slice(&[low, high]);
        is_refused(&plan, &ledger, Unsound);
        is_refused(&windowed(&[(0, 0, 9)]), &ledger, OtherPlan);
        ledger[LEADING_WORDS..].fill(0);
        is_refused(&plan, &ledger, Unsound);
    }
}

#[test]
fn a_ledger_tells_its_day() -> Result<(), Refusal> {
    let plan = Plan::read(windowed(&[(0, 59, 89)]))?;
    let mut ledger = plan.begin(Limit::Main);
    assert_eq!(ledger.day(), FIRST_DAY);
    assert_eq!(ledger.event(10, -1, SOCIETY)?.moved, 0);
    assert_eq!(ledger.day(), -1);
    assert_eq!(
        ledger
            .event(10, day_of_date(date(1900, 3, 1))?, SOCIETY)?
            .moved,
        1
    );
    assert_eq!(ledger.event(11, 58, SOCIETY), Err(Day));
    assert_eq!(plan.ledger(ledger.words(), Limit::Main)?.day(), 59);
    Ok(())
}

#[test]
fn days_and_dates_of_the_paper() {
    for (number, date) in [
        (FIRST_DAY, date(1600, 1, 1)),
        (-1, date(1899, 12, 31)),
        (0, date(1900, 1, 1)),
        (59, date(1900, 3, 1)),
        (LAST_DAY, date(2399, 12, 31)),
    ] {
        assert_eq!(date_of_day(number), Ok(date));
        assert_eq!(day_of_date(date), Ok(number));
    }
}

/// The dates rise from day to day, and each leads back to its day.
#[test]
fn each_day_has_a_date_of_its_own() -> Result<(), Refusal> {
    let mut before = date(1599, 12, 31);
    for number in FIRST_DAY..=LAST_DAY {
        let date = date_of_day(number)?;
        assert!(before < date, "{before:?} {date:?}");
        assert_eq!(day_of_date(date), Ok(number));
        before = date;
    }
    Ok(())
}

#[test]
fn a_day_out_of_range_and_a_date_that_is_none_are_26() {
    for number in OUTSIDE {
        assert_eq!(date_of_day(number), Err(Day));
    }
    for (year, month, day) in [
        (1599, 12, 31),
        (2400, 1, 1),
        (0, 1, 1),
        (65535, 1, 1),
        (1900, 0, 1),
        (1900, 13, 1),
        (1900, 1, 0),
        (1900, 1, 32),
        (1900, 4, 31),
        (1900, 2, 29),
        (1999, 2, 29),
        (2000, 2, 30),
    ] {
        assert_eq!(day_of_date(date(year, month, day)), Err(Day));
    }
    assert!(day_of_date(date(2000, 2, 29)).is_ok());
}
