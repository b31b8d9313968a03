//! The stored runs: each a plan file or none, a journal, and by this program
//! its whole output.

use crate::generate::plans;
use crate::samples::{
    branching_links, brothers, event, event_on, every_right, fire, journal, looping, looping_link,
    lowest, rights, sample, sample_records, scoped_links, signal, state, step, three_links, track,
    two_links, window,
};
use second::days::Term;
use second::journal::Record;
use second::journal::MAX_BYTES;
use second::plan::{
    Records, Rights, State, Transition, Window, MAX_RIGHTS, MAX_STATES, MAX_TRACKS,
    MAX_TRANSITIONS, NONE,
};

/// One stored run.
pub struct Case {
    /// Its folder, from the repository's root.
    pub folder: String,
    /// The bytes of `plan.bin`, `None` where there is no such file.
    pub plan: Option<Vec<u8>>,
    pub journal: Vec<u8>,
}

/// Every stored run.
pub fn all() -> Vec<Case> {
    let parts = [
        samples(),
        runs(),
        mistakes(),
        full(),
        scopes(),
        endings(),
        missed_endings(),
        limits(),
        unread_plans(),
        unfit_plans(),
        unfit_transitions(),
        windows(),
        full_window(),
        unread_windows(),
        unfit_windows(),
        many_windows(),
        days(),
        societies(),
        divided_calls(),
        rights_of_each_sort(),
        firings(),
        lacking(),
        order_of_28(),
        unread_rights(),
        unfit_rights(),
        many_rights(),
        journals(),
        sizes(),
    ];
    parts.into_iter().flatten().collect()
}

fn bytes(name: &str, plan: &[u8], journal: &[u8]) -> Case {
    Case {
        folder: format!("conformance/cases/{name}"),
        plan: Some(plan.to_vec()),
        journal: journal.to_vec(),
    }
}

fn case(name: &str, plan: &Records, records: &[Record]) -> Case {
    bytes(name, &plan.encode(), &journal(records))
}

/// A run under the sample plan P.
fn under_sample(name: &str, records: &[Record]) -> Case {
    case(name, &sample_records(), records)
}

/// A run under the sample plan P with a change to its records.
fn changed(name: &str, change: impl FnOnce(&mut Records), records: &[Record]) -> Case {
    let mut plan = sample_records();
    change(&mut plan);
    case(name, &plan, records)
}

/// A plan that is turned back, with a journal that is never read.
fn refused(name: &str, change: impl FnOnce(&mut Records)) -> Case {
    changed(name, change, &[signal()])
}

/// The event as often as that, and then the others.
fn often(times: usize, repeated: u16, then: &[Record]) -> Vec<Record> {
    let mut records = vec![event(repeated); times];
    records.extend_from_slice(then);
    records
}

/// The two brothers and the two sisters.
fn samples() -> Vec<Case> {
    let mut halfway = [1, 31, 32, 30, 41, 2].map(event).to_vec();
    halfway.extend([signal(), fire(0)]);
    halfway.extend([lowest(); 5]);
    vec![Case {
        folder: "samples/brothers_and_sisters".to_string(),
        plan: Some(brothers().encode()),
        journal: journal(&halfway),
    }]
}

/// The sample, and "Runs and edges".
fn runs() -> Vec<Case> {
    let closing = [10, 11, 12, 14].map(event);
    let then = |records: &[Record]| [&closing, records].concat();
    let withdrawn = [signal(), lowest(), lowest(), lowest(), lowest()];
    let fired = [event(10), event(11), signal(), fire(0), fire(1), fire(0)];
    let over = [
        event(13),
        signal(),
        event(10),
        event(0),
        fire(0),
        fire(99),
        lowest(),
    ];
    let entries = often(33, 1, &[]);
    vec![
        under_sample("sample", &[&closing[..3], &withdrawn].concat()),
        under_sample("event_13_first", &[event(13)]),
        under_sample("event_13_scope_open", &[event(10), event(13)]),
        under_sample(
            "replaced_then_fired",
            &then(&[signal(), lowest(), lowest()]),
        ),
        under_sample("over", &then(&over)),
        under_sample("signal_first", &[signal(), lowest(), signal()]),
        under_sample(
            "signal_after_10",
            &[event(10), signal(), lowest(), lowest()],
        ),
        under_sample("host_waits_for_branch", &fired),
        case("entry_33", &looping(), &entries),
        case("height_8", &plans::chain(8), &[signal()]),
        case("height_9", &plans::chain(9), &[signal()]),
    ]
}

/// "Mistakes that tempt", where the runs above do not show them.
fn mistakes() -> Vec<Case> {
    let twice = [10, 11, 12, 14, 14].map(event);
    let mut fired = twice[..4].to_vec();
    fired.extend([signal(), lowest(), lowest()]);
    vec![
        changed(
            "host_stays_on_closing_event",
            |p| p.transitions[1].event = 14,
            &twice,
        ),
        changed(
            "branch_stays_on_opening_event",
            |p| p.transitions[2].event = 10,
            &[event(10), event(10)],
        ),
        changed("replacement_0", |p| p.states[1].replacement = 0, &fired),
    ]
}

/// A host whose one branch loops under event 1 with a code, and reaches its
/// final state by event 2 with a code and by event 3 without.
fn looping_branch() -> Records {
    Records {
        tracks: vec![track(NONE), track(0)],
        states: vec![
            state(0, 0, 90),
            state(0, 1, 0),
            state(1, 0, 0),
            state(1, 1, 0),
        ],
        transitions: vec![
            step(0, 5, 0, 1),
            step(2, 1, 7, 2),
            step(2, 2, 8, 3),
            step(2, 3, 0, 3),
        ],
        windows: Vec::new(),
        rights: every_right(&[0]),
    }
}

/// A root that loops under event 1 with a code, and by event 2 enters a state
/// whose scope closes by event 3 with this replacement.
fn looping_host(replacement: u16) -> Records {
    let root = [state(0, 0, 0), state(0, 0, replacement), state(0, 1, 0)];
    let branch = [state(1, 0, 0), state(1, 1, 0)];
    Records {
        tracks: vec![track(NONE), track(1)],
        states: [&root[..], &branch].concat(),
        transitions: vec![
            step(0, 1, 7, 0),
            step(0, 2, 0, 1),
            step(1, 5, 0, 2),
            step(3, 3, 9, 4),
        ],
        windows: Vec::new(),
        rights: every_right(&[0]),
    }
}

/// Entries beyond the 32nd that would be dropped at once or come from a
/// closing; and what a full track may still do.
fn full() -> Vec<Case> {
    let closing = often(32, 1, &[event(2), event(3)]);
    vec![
        case("full_root_would_finish", &looping(), &closing),
        case("full_branch_would_close", &looping_branch(), &closing),
        case("full_host_replacement_90", &looping_host(90), &closing),
        case("full_host_replacement_0", &looping_host(0), &closing),
    ]
}

/// Two roots, the first with a deviation to its first state.
fn two_roots() -> Records {
    let mut first = step(0, 1, 50, 1);
    first.deviation = 0;
    Records {
        tracks: vec![track(NONE), track(NONE)],
        states: vec![
            state(0, 0, 0),
            state(0, 0, 0),
            state(0, 1, 0),
            state(1, 0, 0),
            state(1, 1, 0),
        ],
        transitions: vec![first, step(1, 2, 0, 2), step(3, 1, 60, 4)],
        windows: Vec::new(),
        rights: every_right(&[0, 1]),
    }
}

/// A scope of tracks 1 and 3, with track 2 hosted inside track 1.
fn nested() -> Records {
    let pairs = (3..9).map(|n| state((n - 1) / 2, (n - 1) % 2, 0));
    let mut states = vec![state(0, 0, 0), state(0, 0, 0), state(0, 1, 0)];
    states.extend(pairs);
    Records {
        tracks: [NONE, 1, 3, 1].map(track).to_vec(),
        states,
        transitions: vec![step(0, 10, 50, 1)],
        windows: Vec::new(),
        rights: every_right(&[0]),
    }
}

/// Abandoning that climbs, mixed modes and deviations.
fn scopes() -> Vec<Case> {
    let climbs = [event(10), signal(), lowest(), lowest()];
    let mut mixed = vec![event(1), signal(), fire(0), event(1), event(2)];
    mixed.extend([fire(1), lowest(), signal(), lowest(), lowest()]);
    let reopened = [
        event(10),
        signal(),
        fire(0),
        lowest(),
        event(11),
        signal(),
        lowest(),
        lowest(),
    ];
    vec![
        case("abandoning_climbs", &nested(), &climbs),
        case("two_roots_mixed_modes", &two_roots(), &mixed),
        changed(
            "deviation_opens_scope",
            |p| p.transitions[0].deviation = 1,
            &reopened,
        ),
    ]
}

/// `two_links` with a change to its records.
fn links(change: impl FnOnce(&mut Records)) -> Records {
    let mut plan = two_links();
    change(&mut plan);
    plan
}

/// Event 1, the signal and the deviation of root 0, and then the others.
fn deviated(then: &[Record]) -> Vec<Record> {
    [&[event(1), signal(), fire(0)], then].concat()
}

/// The same under `scoped_links`, with an entry in its inner scope.
fn scope_left(then: &[Record]) -> Vec<Record> {
    let before = [event(1), event(5), event(6), signal(), fire(0)];
    [&before, then].concat()
}

/// Ledgers that become over with one root taken back, and what is refused then.
fn endings() -> Vec<Case> {
    let over = [signal(), event(1), fire(0), lowest()];
    let then = |records: &[Record]| deviated(&[records, &over].concat());
    let ended = [event(1), event(2)];
    let fired = [&ended[..], &[lowest()]].concat();
    let scope = [&fired[..], &over].concat();
    let host = [&ended[..], &[fire(3), fire(3), fire(1)], &over].concat();
    let closing = [fire(1), event(5), event(7), event(8), event(4)];
    let mut closes = scoped_links(60);
    closes.transitions[0].deviation = NONE;
    closes.transitions[3].deviation = 4;
    let mut full = vec![event(9), signal(), fire(0)];
    full.extend(often(32, 1, &[event(2), event(3)]));
    full.extend(over);
    vec![
        case(
            "half_withdrawn_by_event",
            &two_links(),
            &then(&[fire(1), event(1), event(2)]),
        ),
        case("half_withdrawn_by_firing", &two_links(), &then(&fired)),
        case(
            "half_withdrawn_by_last_scope",
            &scoped_links(0),
            &scope_left(&scope),
        ),
        case(
            "half_withdrawn_by_host_after_scope",
            &scoped_links(60),
            &scope_left(&host),
        ),
        case(
            "half_withdrawn_three_roots",
            &three_links(),
            &then(&[fire(1), event(3)]),
        ),
        case("half_withdrawn_after_closing", &closes, &then(&closing)),
        case("half_withdrawn_full_root", &looping_link(), &full),
    ]
}

/// Ledgers that are not over, each for one reason.
fn missed_endings() -> Vec<Case> {
    let idle = [lowest(), event(1), signal()];
    let withdrawn = [&[event(1), signal(), fire(1), fire(0), fire(0)], &idle[..]];
    // A firing that is 22, an event that moves none, a signal that turns the
    // root that has ended, and the other root's entry.
    let left = |ready: u16| {
        let after = [event(3), fire(0), event(1), signal(), fire(ready)];
        [&after[..], &idle].concat()
    };
    let deviation = [event(3), fire(1), event(1), event(4), signal()];
    vec![
        case(
            "all_withdrawn_not_over",
            &links(|p| p.transitions[0].deviation = NONE),
            &withdrawn.concat(),
        ),
        case("entry_left_not_over", &two_links(), &deviated(&left(1))),
        case(
            "scope_left_not_over",
            &scoped_links(0),
            &scope_left(&left(3)),
        ),
        case(
            "deviation_not_over",
            &links(|p| p.transitions[3].deviation = 3),
            &deviated(&deviation),
        ),
    ]
}

/// The most tracks, states and transitions that a plan may have; one more is
/// under `unread_plans`.
fn limits() -> Vec<Case> {
    let root = |states: Vec<State>, transitions: Vec<Transition>| Records {
        tracks: vec![track(NONE)],
        states,
        transitions,
        windows: Vec::new(),
        rights: every_right(&[0]),
    };
    let roots: Vec<u16> = (0..MAX_TRACKS as u16).collect();
    let roots = Records {
        tracks: vec![track(NONE); MAX_TRACKS],
        states: roots.iter().map(|&t| state(t, 0, 0)).collect(),
        transitions: Vec::new(),
        windows: Vec::new(),
        rights: every_right(&roots),
    };
    let last = MAX_STATES as u16 - 1;
    let far = root(vec![state(0, 0, 0); MAX_STATES], vec![step(0, 1, 7, last)]);
    let events = 1..=MAX_TRANSITIONS as u16;
    let steps = events.clone().map(|e| step(0, e, e, 0)).collect();
    let wide = root(vec![state(0, 0, 0)], steps);
    let widest = [events.end(), &(events.end() + 1)].map(|&e| event(e));
    vec![
        case("tracks_32", &roots, &[signal(), lowest()]),
        case("states_128", &far, &[event(1), signal(), lowest()]),
        case("transitions_256", &wide, &widest),
    ]
}

/// Plan files that are turned back record by record, 2 to 7, and 8.
fn unread_plans() -> Vec<Case> {
    let sample = sample();
    let tracks = |n: usize| [6, 0, 1, 0, 255, 255].repeat(n);
    let states = |n: usize| [10, 0, 2, 0, 0, 0, 0, 0, 0, 0].repeat(n);
    let transitions = |n: usize| [14, 0, 3, 0, 0, 0, 1, 0, 0, 0, 255, 255, 0, 0].repeat(n);
    let after_end = [&sample[..], &[0]].concat();
    let second_end = [&sample[..], &[4, 0, 4, 0]].concat();
    let plan = |name: &str, file: &[u8]| bytes(name, file, &journal(&[signal()]));
    vec![
        plan("r2_no_bytes", &[]),
        plan("r2_three_bytes", &[4, 0, 4]),
        plan("r2_no_end", &sample[..sample.len() - 14]),
        plan("r3_kind_9", &[4, 0, 9, 0]),
        plan("r3_falling_kind", &[&states(1), &tracks(1)[..]].concat()),
        plan("r4_track_of_8_bytes", &[8, 0, 1, 0]),
        plan("r5_cut_track", &tracks(1)[..5]),
        plan(
            "r5_33rd_track_cut",
            &tracks(MAX_TRACKS + 1)[..6 * MAX_TRACKS + 5],
        ),
        plan("r6_33rd_track", &tracks(MAX_TRACKS + 1)),
        plan("r6_129th_state", &states(MAX_STATES + 1)),
        plan("r6_257th_transition", &transitions(MAX_TRANSITIONS + 1)),
        plan("r7_byte_after_end", &after_end),
        plan("r7_second_end", &second_end),
        plan("r8_end_only", &[4, 0, 4, 0]),
    ]
}

/// Plans that are turned back over the whole plan, 9 to 12.
fn unfit_plans() -> Vec<Case> {
    let both = |p: &mut Records| {
        p.states[0].track = 7;
        p.transitions[0].source = 999;
    };
    vec![
        refused("r9_no_such_track", |p| p.states[7].track = 3),
        refused("r9_final_2", |p| p.states[7].last = 2),
        refused("r9_before_13", both),
        refused("r10_host_500", |p| p.tracks[1].host = 500),
        refused("r10_host_of_same_track", |p| p.tracks[1].host = 3),
        refused("r11_no_state", |p| p.tracks.push(track(NONE))),
        refused("r11_first_state_final", |p| p.states[3].last = 1),
        refused("r12_final_state_hosts", |p| p.states[1].last = 1),
        refused("r12_replacement_without_scope", |p| {
            p.states[5].replacement = 1
        }),
    ]
}

/// Transitions that are turned back, 13 to 15.
fn unfit_transitions() -> Vec<Case> {
    let deviate =
        |name: &str, at: usize, to: u16| refused(name, |p| p.transitions[at].deviation = to);
    vec![
        refused("r13_no_source", |p| p.transitions[0].source = 8),
        refused("r13_no_destination", |p| p.transitions[0].destination = 8),
        refused("r13_two_tracks", |p| p.transitions[0].destination = 3),
        refused("r13_final_source", |p| p.transitions[0].source = 2),
        refused("r13_event_0", |p| p.transitions[0].event = 0),
        deviate("r14_other_track", 0, 3),
        deviate("r14_final", 0, 2),
        deviate("r14_hosted_track", 2, 3),
        deviate("r14_code_0", 1, 0),
        refused("r15_same_source_and_event", |p| {
            p.transitions.push(step(0, 10, 0, 0))
        }),
    ]
}

/// P with windows.
fn windowed(windows: &[Window]) -> Records {
    Records {
        windows: windows.to_vec(),
        ..sample_records()
    }
}

/// Days on which a step is taken, and days on which it is not.
fn windows() -> Vec<Case> {
    let Term { first, last } = Term::RANGE;
    let plan = windowed(&[window(0, 5, 7)]);
    let opens = [event_on(10, 4), event_on(10, 5), event_on(11, 9)];
    let passed = [event_on(10, 8), event_on(10, 8), signal()];
    let one_day = windowed(&[window(0, -1, -1)]);
    let before_and_on = [event_on(10, -2), event_on(10, -1), event_on(10, 0)];
    let ends = windowed(&[window(0, first, first), window(2, last, last)]);
    let both_ends = [
        event_on(10, first),
        event_on(11, last - 1),
        event_on(11, last),
    ];
    let mut roots = two_links();
    roots.windows = vec![window(3, 100, 200)];
    let closing = windowed(&[window(4, 3, 3), window(1, 3, 3)]);
    let closed = [
        event_on(10, 1),
        event_on(11, 1),
        event_on(12, 2),
        event_on(14, 2),
        event_on(14, 3),
        event_on(13, 4),
        signal(),
        lowest(),
    ];
    vec![
        case("window_opens", &plan, &opens),
        case(
            "window_last_day",
            &plan,
            &[event_on(10, 7), event_on(11, 7)],
        ),
        case("window_passed", &plan, &passed),
        case("window_of_one_day", &one_day, &before_and_on),
        case("windows_at_the_range_ends", &ends, &both_ends),
        case(
            "window_of_one_track",
            &roots,
            &[event_on(1, 99), event_on(1, 100)],
        ),
        case("window_keeps_scope_open", &closing, &closed),
    ]
}

/// A full root asks for room only on the days of the step that needs it.
fn full_window() -> Vec<Case> {
    let mut plan = looping();
    plan.windows = vec![window(1, 10, 20)];
    let days = [9, 10, 20, 21].map(|day| event_on(2, day));
    let records = often(32, 1, &[&days[..], &[event_on(3, 21)]].concat());
    vec![case("window_of_a_full_root", &plan, &records)]
}

/// The order of window records, and broken ones: 3, 4, 5 and 7.
fn unread_windows() -> Vec<Case> {
    let sample = sample();
    let (body, end) = sample.split_at(sample.len() - 14);
    let record = [14, 0, 5, 0, 0, 0, 0, 0, 0, 0, 9, 0, 0, 0];
    let transition = &body[body.len() - 14..];
    let before = &body[..body.len() - 14];
    let plan = |name: &str, parts: &[&[u8]]| bytes(name, &parts.concat(), &journal(&[signal()]));
    vec![
        plan(
            "r3_window_before_transition",
            &[before, &record, transition, end],
        ),
        plan("r3_state_after_window", &[body, &record, &[10, 0, 2, 0]]),
        plan("r3_kind_7", &[body, &record, &[4, 0, 7, 0]]),
        plan("r4_window_of_12_bytes", &[body, &[12, 0], &record[2..]]),
        plan("r5_cut_window", &[body, &record[..13]]),
        plan("r7_window_after_end", &[body, &record, end, &record]),
        plan("r2_no_end_after_window", &[body, &record]),
    ]
}

/// Windows that are turned back, 25, and what is named before it.
fn unfit_windows() -> Vec<Case> {
    let Term { first, last } = Term::RANGE;
    let plan = |name: &str, windows: &[Window]| case(name, &windowed(windows), &[signal()]);
    let mut tall = plans::chain(9);
    tall.windows = vec![window(9, 1, 0)];
    let mut twins = windowed(&[window(9, 1, 0)]);
    twins.transitions.push(step(0, 10, 0, 0));
    let (plain, again) = (window(1, 0, 9), window(1, 10, 19));
    vec![
        plan("r25_no_transition", &[window(5, 0, 0)]),
        plan("r25_transition_65535", &[window(NONE, 0, 0)]),
        plan("r25_repeats", &[plain, window(2, 0, 9), again]),
        plan("r25_ends_before_it_begins", &[window(0, 1, 0)]),
        plan("r25_begins_before_the_range", &[window(0, first - 1, 0)]),
        plan("r25_ends_after_the_range", &[window(0, 0, last + 1)]),
        plan("r25_greatest_numbers", &[window(0, i32::MIN, i32::MAX)]),
        case("r16_before_25", &tall, &[signal()]),
        case("r15_before_25", &twins, &[signal()]),
    ]
}

/// As many windows as transitions, more of them, and more in a plan with
/// another fault.
fn many_windows() -> Vec<Case> {
    let events = 1..=MAX_TRANSITIONS as u16;
    let each = (0..MAX_TRANSITIONS as u16).rev();
    let full = Records {
        tracks: vec![track(NONE)],
        states: vec![state(0, 0, 0)],
        transitions: events.map(|e| step(0, e, e, 0)).collect(),
        windows: each.map(|n| window(n, i32::from(n), 300)).collect(),
        rights: every_right(&[0]),
    };
    let mut crowded = full.clone();
    crowded.windows.resize(300, window(0, 0, 0));
    let mut unfit = crowded.clone();
    unfit.states[0].last = 1;
    let steps = [
        event_on(256, 254),
        event_on(256, 255),
        event_on(1, 300),
        event_on(2, 301),
    ];
    vec![
        case("windows_256", &full, &steps),
        case("r25_windows_300", &crowded, &steps),
        case("r11_windows_300", &unfit, &steps),
    ]
}

/// The days of events: equal, falling, out of range, and which is kept.
fn days() -> Vec<Case> {
    let Term { first, last } = Term::RANGE;
    let equal = [event_on(10, -7), event_on(11, -7), event_on(12, -7)];
    let falling = [
        event_on(10, 5),
        event_on(11, 4),
        event_on(11, first),
        event_on(11, 5),
    ];
    let outside = [
        event_on(10, first - 1),
        event_on(10, last + 1),
        event_on(10, i32::MIN),
        event_on(10, i32::MAX),
        event_on(10, first),
        event_on(11, last),
    ];
    let kept = [
        event_on(99, 40),
        event_on(10, 39),
        signal(),
        event_on(10, 40),
        event_on(10, 39),
    ];
    let refused = [event_on(0, 9), event_on(10, 8)];
    let ended = [10, 11, 12, 14, 13].map(|e| event_on(e, 3));
    let over = [
        event_on(10, 2),
        event_on(10, last + 1),
        event_on(10, 3),
        event_on(0, 2),
    ];
    let negative = [
        event_on(10, -65_536),
        event_on(11, -1),
        event_on(12, 65_536),
    ];
    vec![
        under_sample("day_equal", &equal),
        under_sample("day_kept_by_an_event_that_moves_none", &kept),
        under_sample("day_of_a_refused_event_not_kept", &refused),
        under_sample("days_from_below_0", &negative),
        under_sample("r26_falling_goes_on", &falling),
        under_sample("r26_out_of_range_goes_on", &outside),
        under_sample("r26_before_20", &[&ended[..], &over].concat()),
    ]
}

/// The record as a call of another society.
fn by(society: u16, record: Record) -> Record {
    match record {
        Record::Event(event, day, _) => Record::Event(event, day, society),
        Record::Signal(_) => Record::Signal(society),
        Record::Fire(track, _) => Record::Fire(track, society),
        Record::FireLowest(_) => Record::FireLowest(society),
    }
}

/// The records as calls of another society.
fn all_by(society: u16, records: &[Record]) -> Vec<Record> {
    records.iter().map(|&record| by(society, record)).collect()
}

/// P with other rights.
fn held(rights: &[Rights]) -> Records {
    Records {
        rights: rights.to_vec(),
        ..sample_records()
    }
}

/// `two_links` with root 0 held by society 1 and root 1 by society 2.
fn divided() -> Records {
    links(|p| p.rights = vec![rights(1, 0, 7), rights(2, 1, 7)])
}

/// Societies by number, two of them over one root, and none.
fn societies() -> Vec<Case> {
    let calls = [event(10), signal(), lowest()];
    let alone = |name: &str, society: u16| {
        case(
            name,
            &held(&[rights(society, 0, 7)]),
            &all_by(society, &calls),
        )
    };
    let shared = held(&[rights(1, 0, 1), rights(2, 0, 6)]);
    let turns = [
        event(10),
        by(2, event(11)),
        signal(),
        by(2, signal()),
        fire(0),
        by(2, fire(0)),
    ];
    let nobody = [
        event(10),
        signal(),
        fire(0),
        lowest(),
        fire(9),
        event(0),
        by(7, event(10)),
    ];
    vec![
        alone("society_0", 0),
        alone("society_65535", 65_535),
        case("two_societies_one_root", &shared, &turns),
        case("no_rights_nobody_moves", &held(&[]), &nobody),
    ]
}

/// Events, signals and firings that strike the society's own tracks alone.
fn divided_calls() -> Vec<Case> {
    let plan = divided();
    let moved = [event(1), event(1), by(2, event(1)), by(2, event(4))];
    let both = [event(1), by(2, event(1))];
    let then = |records: &[Record]| [&both, records].concat();
    let partial = then(&[by(2, signal()), event(2), by(2, fire(1)), signal()]);
    let finishing = [event(3), by(2, signal()), event(1), by(2, lowest())];
    let none = [signal(), signal(), by(2, event(1)), signal(), fire(0)];
    let passes = then(&[
        signal(),
        by(2, signal()),
        by(2, lowest()),
        by(2, lowest()),
        lowest(),
    ]);
    let another = then(&[signal(), by(2, lowest()), by(3, lowest()), lowest()]);
    vec![
        case("partial_event", &plan, &moved),
        case("partial_signal", &plan, &partial),
        case("partial_signal_finishes", &plan, &finishing),
        case("signal_turns_none", &plan, &none),
        case("lowest_ready_passes_over", &plan, &passes),
        case("lowest_ready_22_of_another", &plan, &another),
    ]
}

/// Each right alone, rights over what a root hosts, and what no right changes:
/// the day, and the room of others' tracks.
fn rights_of_each_sort() -> Vec<Case> {
    let alone = held(&[rights(1, 0, 1), rights(2, 0, 2), rights(4, 0, 4)]);
    let calls = [event(10), signal(), fire(0)];
    let alone_calls = [1, 2, 4].map(|society| all_by(society, &calls)).concat();
    let mut under = scoped_links(60);
    under.rights = divided().rights;
    let inner = [
        by(2, event(1)),
        event(5),
        by(2, event(5)),
        by(2, event(6)),
        signal(),
        by(2, signal()),
        fire(3),
        by(2, fire(3)),
    ];
    let mut loops = looping_link();
    loops.transitions.push(step(2, 1, 9, 2));
    loops.rights = vec![rights(1, 0, 7), rights(2, 1, 7), rights(3, 0, 1)];
    loops.rights.push(rights(3, 1, 1));
    let full = often(32, 1, &[1, 2, 3].map(|society| by(society, event(1))));
    let kept = [event_on(1, 9), by(2, event_on(1, 8)), by(2, event_on(1, 9))];
    vec![
        case("each_right_alone", &alone, &alone_calls),
        case("rights_reach_under_a_root", &under, &inner),
        case("full_track_of_another", &loops, &full),
        case("day_kept_for_other_societies", &divided(), &kept),
    ]
}

/// Firings until none is ready: as many as there are entries held, and fewer
/// where a root is left forward or a deviation is held.
fn firings() -> Vec<Case> {
    let events = [1, 5, 6, 6, 9].map(event);
    let turned = [&events[..], &[event(2), signal()]].concat();
    let mut mixed = turned.clone();
    mixed.extend([fire(3), fire(0), fire(2), fire(4), fire(3)]);
    mixed.extend([lowest(), lowest(), fire(1), lowest()]);
    let mut shared = branching_links();
    shared.rights = divided().rights;
    let mut partial = vec![event(1)];
    partial.extend(all_by(2, &events));
    partial.push(by(2, signal()));
    partial.extend([by(2, lowest()); 6]);
    partial.extend([lowest(), fire(0)]);
    let mut deviating = branching_links();
    deviating.transitions[1].deviation = 0;
    let mut kept = turned;
    kept.extend([lowest(); 7]);
    kept.push(fire(0));
    vec![
        case("firings_as_many_as_held", &branching_links(), &mixed),
        case("firings_fewer_with_a_forward_root", &shared, &partial),
        case("firings_fewer_with_a_deviation", &deviating, &kept),
    ]
}

/// 28 of each call.
fn lacking() -> Vec<Case> {
    let no_signal = held(&[rights(1, 0, 5)]);
    let signals = [event(10), signal(), by(2, signal()), event(11)];
    let fires = [
        event(10),
        event(11),
        signal(),
        by(2, fire(1)),
        by(2, lowest()),
        fire(1),
    ];
    vec![
        under_sample("r28_event", &[by(2, event(10)), event(10)]),
        case("r28_signal", &no_signal, &signals),
        under_sample("r28_fire", &fires),
    ]
}

/// What is named before 28, and what after it.
fn order_of_28() -> Vec<Case> {
    let last = Term::RANGE.last;
    let ended = [10, 11, 12, 14, 13].map(event);
    let over = all_by(2, &[event(10), signal(), fire(0), fire(9), lowest()]);
    let full = often(32, 1, &[by(2, event(1)), event(1), by(2, event(3))]);
    let before = [event(0), event_on(10, last + 1), event(10)];
    let missing = [fire(3), by(2, fire(3)), by(2, fire(NONE))];
    vec![
        under_sample("r20_before_28", &[&ended[..], &over].concat()),
        under_sample("r19_and_r26_before_28", &all_by(2, &before)),
        case("r28_before_21", &looping(), &full),
        under_sample("r28_before_22", &[by(2, fire(0)), fire(0)]),
        under_sample("r22_missing_track", &missing),
    ]
}

/// The order of rights records, and broken ones: 2, 3, 4, 5 and 7.
fn unread_rights() -> Vec<Case> {
    let sample = sample();
    let (body, last) = sample.split_at(sample.len() - 14);
    let (record, end) = last.split_at(10);
    let window = [14, 0, 5, 0, 0, 0, 0, 0, 0, 0, 9, 0, 0, 0];
    let transition = &body[body.len() - 14..];
    let before = &body[..body.len() - 14];
    let plan = |name: &str, parts: &[&[u8]]| bytes(name, &parts.concat(), &journal(&[signal()]));
    vec![
        plan("r3_window_after_rights", &[body, record, &window, end]),
        plan(
            "r3_rights_before_transition",
            &[before, record, transition, end],
        ),
        plan("r3_rights_before_track", &[record, body, end]),
        plan("r3_kind_7_after_rights", &[body, record, &[4, 0, 7, 0]]),
        plan("r4_rights_of_12_bytes", &[body, &[12, 0], &record[2..]]),
        plan("r5_cut_rights", &[body, &record[..9]]),
        plan("r7_rights_after_end", &[body, record, end, record]),
        plan("r2_no_end_after_rights", &[body, record]),
    ]
}

/// Rights that are turned back, 27, and what is named before it.
fn unfit_rights() -> Vec<Case> {
    let plan = |name: &str, rights: &[Rights]| case(name, &held(rights), &[signal()]);
    let mut tall = plans::chain(9);
    tall.rights = vec![rights(1, 9, 0)];
    let mut shut = held(&[rights(1, 3, 8)]);
    shut.windows = vec![window(5, 0, 0)];
    let again = [rights(1, 0, 1), rights(2, 0, 7), rights(1, 0, 6)];
    vec![
        plan("r27_no_track", &[rights(1, 3, 7)]),
        plan("r27_track_65535", &[rights(1, NONE, 7)]),
        plan("r27_hosted_track", &[rights(1, 0, 7), rights(1, 2, 7)]),
        plan("r27_sum_0", &[rights(1, 0, 0)]),
        plan("r27_sum_8", &[rights(1, 0, 8)]),
        plan("r27_sum_65535", &[rights(1, 0, 65_535)]),
        plan("r27_repeats", &again),
        plan("r27_repeats_alike", &[rights(1, 0, 7); 2]),
        case("r16_before_27", &tall, &[signal()]),
        case("r25_before_27", &shut, &[signal()]),
    ]
}

/// As many rights records as a plan may have, more of them, and more in a plan
/// with another fault.
fn many_rights() -> Vec<Case> {
    let plan = |count: u16| {
        let each = (0..count).map(|society| rights(society, 0, 7));
        held(&each.collect::<Vec<_>>())
    };
    let most = MAX_RIGHTS as u16;
    let calls = [
        by(most - 1, event(10)),
        by(most, event(11)),
        by(0, event(11)),
    ];
    let mut unfit = plan(300);
    unfit.states[3].last = 1;
    vec![
        case("rights_64", &plan(most), &calls),
        case("r27_rights_65", &plan(most + 1), &calls),
        case("r27_rights_300", &plan(300), &calls),
        case("r11_rights_300", &unfit, &calls),
    ]
}

/// Journals: refusals that do not end the reading, and 23 in each form.
fn journals() -> Vec<Case> {
    let broken = |name: &str, record: &[u8]| {
        let file = [&journal(&[event(10)])[..], record].concat();
        bytes(name, &sample(), &file)
    };
    vec![
        under_sample("empty_journal", &[]),
        under_sample("kinds_may_fall", &[signal(), event(10), lowest(), signal()]),
        under_sample(
            "r19_and_r22_go_on",
            &[event(0), fire(3), fire(0), event(10)],
        ),
        broken("r23_one_byte", &[12]),
        broken("r23_two_bytes", &[12, 0]),
        broken("r23_three_bytes", &[12, 0, 20]),
        broken("r23_unknown_kind", &[4, 0, 21, 0, 6, 0, 17, 0, 1, 0]),
        broken("r23_kind_16", &[6, 0, 16, 0, 10, 0, 6, 0, 17, 0, 1, 0]),
        broken("r23_plan_kind", &[4, 0, 4, 0, 6, 0, 17, 0, 1, 0]),
        broken("r23_short_event", &[10, 0, 20, 0, 10, 0, 0, 0, 0, 0]),
        broken("r23_short_signal", &[4, 0, 17, 0]),
        broken("r23_short_fire", &[6, 0, 18, 0, 0, 0]),
        broken("r23_short_fire_lowest", &[4, 0, 19, 0]),
        broken("r23_long_signal", &[8, 0, 17, 0, 1, 0, 1, 0]),
        broken("r23_cut_event", &[12, 0, 20, 0, 10, 0, 0, 0, 0, 0, 1]),
        broken("r23_cut_fire", &[8, 0, 18, 0, 0, 0, 1]),
        bytes("refused_plan_broken_journal", &[4, 0, 4, 0], &[1]),
    ]
}

/// The limit of 32,768 bytes, and a missing plan.
fn sizes() -> Vec<Case> {
    // Signals of 6 bytes each, and a firing of 8.
    let mut records = vec![signal(); (MAX_BYTES - 8) / 6];
    records.push(fire(0));
    let longer = [&journal(&records)[..], &[0]].concat();
    let padded = |size: usize| {
        let mut plan = sample();
        plan.resize(size, 0);
        plan
    };
    let missing = |name: &str, journal: &[u8]| Case {
        plan: None,
        ..bytes(name, &[], journal)
    };
    vec![
        under_sample("journal_of_32768", &records),
        bytes("r1_journal_of_32769", &sample(), &longer),
        missing("r1_journal_of_32769_no_plan", &longer),
        bytes("plan_of_32768", &padded(MAX_BYTES), &[]),
        bytes("r1_plan_of_32769", &padded(MAX_BYTES + 1), &[]),
        missing("no_plan", &[]),
    ]
}
