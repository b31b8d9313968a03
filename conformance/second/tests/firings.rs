//! How many firings follow a signal: as many as there are entries held, where it
//! turned every forward track and no entry held carries a deviation.

mod common;

use common::*;
use second::journal::{self, Record};
use second::ledger::{Ledger, Mode};
use second::plan::{self, members, Plan, Records, Right};
use second::rules;

/// A plan and a ledger of it.
type Held = (Plan, Ledger);

/// The ledger that a history leaves under a plan.
fn after(plan: &Records, records: &[Record]) -> Held {
    let plan = plan::read(&plan.encode()).expect("accepted");
    let mut ledger = rules::begin(MAIN, &plan);
    for &record in records {
        journal::perform(&plan, &mut ledger, record);
    }
    (plan, ledger)
}

/// The events, and then the others.
fn then(events: &[u16], others: &[Record]) -> Vec<Record> {
    let events: Vec<Record> = events.iter().map(|&number| event(number)).collect();
    [&events, others].concat()
}

/// Fires a ready track by a society that may; the code.
fn fire_by_right(plan: &Plan, ledger: &mut Ledger, track: usize) -> u16 {
    let may = |&society: &u16| plan.allows(society, Right::Fire, track);
    let society = [1, 2].into_iter().find(may).expect("a society");
    let entry = rules::fire(plan, ledger, track as u16, society);
    entry.expect("a ready track").code
}

/// Every order of firing until none is ready: its number of firings, and the
/// entries held at its end.
fn every_order(plan: &Plan, ledger: &Ledger) -> Vec<(usize, usize)> {
    let ready = rules::ready(plan, ledger);
    if ready == 0 {
        return vec![(0, ledger.total_held())];
    }
    let mut orders = Vec::new();
    for track in members(ready) {
        let mut next = ledger.clone();
        fire_by_right(plan, &mut next, track);
        let rest = every_order(plan, &next).into_iter();
        orders.extend(rest.map(|(firings, left)| (firings + 1, left)));
    }
    orders
}

/// What every order of firing comes to.
#[derive(Debug, PartialEq, Eq)]
struct Orders {
    held: usize,
    orders: usize,
    firings: usize,
    left: usize,
}

fn orders((plan, ledger): &Held) -> Orders {
    let every = every_order(plan, ledger);
    let (firings, left) = every[0];
    assert!(every.iter().all(|&order| order == (firings, left)));
    Orders {
        held: ledger.total_held(),
        orders: every.len(),
        firings,
        left,
    }
}

/// So many orders, each with as many firings as entries held.
fn exactly(held: usize, orders: usize) -> Orders {
    Orders {
        held,
        orders,
        firings: held,
        left: 0,
    }
}

/// The ready bits and the entries held before each firing of an order and at
/// its end.
fn points((plan, ledger): &Held, order: &[usize]) -> Vec<(u32, usize)> {
    let mut ledger = ledger.clone();
    let mut points = vec![(rules::ready(plan, &ledger), ledger.total_held())];
    for &track in order {
        fire_by_right(plan, &mut ledger, track);
        points.push((rules::ready(plan, &ledger), ledger.total_held()));
    }
    points
}

/// The codes that an order of firing gives.
fn codes((plan, ledger): &Held, order: &[usize]) -> Vec<u16> {
    let mut ledger = ledger.clone();
    let tracks = order.iter();
    tracks
        .map(|&t| fire_by_right(plan, &mut ledger, t))
        .collect()
}

/// Events that leave six entries under `branching_links`: 50 in root 0, 60 in
/// root 1, 70 in track 2, twice 90 in track 3, 95 in track 4.
const SIX: [u16; 5] = [1, 5, 6, 6, 9];

/// The same, and 51 in root 0, which has ended.
const SEVEN: [u16; 6] = [1, 5, 6, 6, 9, 2];

/// `branching_links` with a change to its records.
fn changed(change: impl FnOnce(&mut Records)) -> Records {
    let mut plan = branching_links();
    change(&mut plan);
    plan
}

/// `branching_links` with root 0 held by society 1 and root 1 by society 2, and
/// so many of its entries.
fn divided(events: &[u16], others: &[Record]) -> Held {
    let plan = changed(|p| p.rights = vec![rights(1, 0, 7), rights(2, 1, 7)]);
    let by = |&event: &u16| [1, 2].map(|society| Record::Event(event, 0, society));
    let events: Vec<Record> = events.iter().flat_map(by).collect();
    after(&plan, &[&events, others].concat())
}

#[test]
fn the_sample_has_three_entries_and_three_firings() {
    let before = after(&sample_records(), &then(&[10, 11, 12], &[]));
    assert_eq!(before.1.total_held(), 3);
    let sample = after(&sample_records(), &then(&[10, 11, 12], &[signal()]));
    assert_eq!(orders(&sample), exactly(3, 2));
    assert_eq!(codes(&sample, &[1, 2, 0]), [51, 52, 50]);
    assert_eq!(codes(&sample, &[2, 1, 0]), [52, 51, 50]);
    let expected = [(0b110, 3), (0b100, 2), (0b001, 1), (0, 0)];
    assert_eq!(points(&sample, &[1, 2, 0]), expected);
    let expected = [(0b110, 3), (0b010, 2), (0b001, 1), (0, 0)];
    assert_eq!(points(&sample, &[2, 1, 0]), expected);
}

#[test]
fn the_sample_signalled_at_other_points() {
    let runs: [(&[u16], Orders); 6] = [
        (&[], exactly(0, 1)),
        (&[10], exactly(1, 1)),
        (&[10, 11], exactly(2, 1)),
        (&[10, 12, 14], exactly(3, 1)),
        (&[10, 11, 12], exactly(3, 2)),
        (&[10, 11, 12, 14], exactly(2, 1)),
    ];
    for (events, expected) in runs {
        let turned = after(&sample_records(), &then(events, &[signal()]));
        assert_eq!(orders(&turned), expected, "{events:?}");
    }
}

#[test]
fn two_roots_with_branches_have_seven_firings_in_each_of_84_orders() {
    let (_, before) = after(&branching_links(), &then(&SEVEN, &[]));
    let held = [0, 1, 2, 3, 4].map(|t: usize| before.tracks[t].held());
    assert_eq!(held, [2, 1, 1, 2, 1]);
    let turned = after(&branching_links(), &then(&SEVEN, &[signal()]));
    assert_eq!(orders(&turned), exactly(7, 84));
    let lowest = [0, 0, 3, 3, 2, 4, 1];
    assert_eq!(codes(&turned, &lowest), [51, 50, 90, 90, 70, 95, 60]);
    let highest = [4, 3, 3, 2, 1, 0, 0];
    assert_eq!(codes(&turned, &highest), [95, 90, 90, 70, 60, 51, 50]);
    let mixed = [3, 0, 4, 3, 0, 2, 1];
    assert_eq!(codes(&turned, &mixed), [90, 51, 95, 90, 50, 70, 60]);
    let expected = [
        (0b11001, 7),
        (0b11001, 6),
        (0b11001, 5),
        (0b01001, 4),
        (0b00101, 3),
        (0b00100, 2),
        (0b00010, 1),
        (0, 0),
    ];
    assert_eq!(points(&turned, &mixed), expected);
}

#[test]
fn from_a_later_point_there_are_as_many_firings_as_entries_then_held() {
    let (plan, mut ledger) = after(&branching_links(), &then(&SEVEN, &[signal()]));
    let expected = [84, 45, 15, 4, 3, 1, 1, 1];
    for (fired, orders_left) in expected.into_iter().enumerate() {
        let point = (plan.clone(), ledger.clone());
        assert_eq!(orders(&point), exactly(7 - fired, orders_left));
        if let Some(&track) = [3, 0, 4, 3, 0, 2, 1].get(fired) {
            fire_by_right(&plan, &mut ledger, track);
        }
    }
    assert!(!ledger.is_over());
}

#[test]
fn two_full_roots_have_64_firings() {
    let mut plan = looping_link();
    plan.transitions.push(step(2, 1, 9, 2));
    let (plan, mut ledger) = after(&plan, &then(&[1; 32], &[signal()]));
    assert_eq!(ledger.total_held(), 64);
    let mut firings = 0;
    // From one root and from the other by turns.
    while rules::ready(&plan, &ledger) != 0 {
        let ready: Vec<usize> = members(rules::ready(&plan, &ledger)).collect();
        fire_by_right(&plan, &mut ledger, ready[firings % ready.len()]);
        firings += 1;
        assert_eq!(ledger.total_held(), 64 - firings);
    }
    assert_eq!(firings, 64);
}

#[test]
fn there_are_fewer_firings_where_a_root_is_left_forward() {
    let partial = divided(&SIX, &[Record::Signal(2)]);
    assert_eq!(partial.1.tracks[0].mode, Mode::Forward);
    let fewer = Orders {
        held: 6,
        orders: 4,
        firings: 5,
        left: 1,
    };
    assert_eq!(orders(&partial), fewer);
    // The other society's signal makes up for it, before the firings or after.
    let turned = divided(&SIX, &[Record::Signal(2), signal()]);
    assert_eq!(orders(&turned), exactly(6, 24));
    let mut fired = vec![Record::Signal(2)];
    fired.extend([Record::FireLowest(2); 5]);
    let turned = divided(&SIX, &[&fired[..], &[signal()]].concat());
    assert_eq!(orders(&turned), exactly(1, 1));
}

#[test]
fn there_are_fewer_firings_where_a_root_that_has_ended_is_left() {
    let partial = divided(&SEVEN, &[Record::Signal(2)]);
    let fewer = Orders {
        held: 7,
        orders: 4,
        firings: 5,
        left: 0,
    };
    assert_eq!(orders(&partial), fewer);
    // The last firing finishes, and drops two entries.
    let mut fired = vec![Record::Signal(2)];
    fired.extend([Record::FireLowest(2); 5]);
    assert!(divided(&SEVEN, &fired).1.is_over());
    let turned = divided(&SEVEN, &[Record::Signal(2), signal()]);
    assert_eq!(orders(&turned), exactly(7, 84));
}

#[test]
fn there_are_fewer_firings_where_a_deviation_is_held() {
    let plan = changed(|p| p.transitions[1].deviation = 0);
    let turned = after(&plan, &then(&SEVEN, &[signal()]));
    assert!(turned.1.tracks.iter().all(|t| t.mode == Mode::Undoing));
    let fewer = Orders {
        held: 7,
        orders: 24,
        firings: 6,
        left: 1,
    };
    assert_eq!(orders(&turned), fewer);
    // Root 0 is forward again and keeps its older entry.
    let expected = [(0b11001, 7), (0b11000, 6)];
    assert_eq!(points(&turned, &[0]), expected);
    let mut fired = vec![signal()];
    fired.extend([lowest(); 7]);
    let (_, ledger) = after(&plan, &then(&SEVEN, &fired));
    assert_eq!(ledger.tracks[0].mode, Mode::Forward);
    assert_eq!(ledger.tracks[0].entries()[0].code, 50);
}

#[test]
fn a_deviation_of_a_root_s_oldest_entry_leaves_none() {
    let plan = changed(|p| p.transitions[0].deviation = 0);
    let turned = after(&plan, &then(&SEVEN, &[signal()]));
    assert_eq!(orders(&turned), exactly(7, 84));
}

#[test]
fn other_calls_between_the_firings_make_no_odds() {
    let other = [
        event_on(6, 9),
        fire(1),
        fire(5),
        Record::Fire(3, 2),
        signal(),
    ];
    let mut records = then(&SEVEN, &[signal()]);
    for track in [3, 0, 4, 3, 0, 2] {
        records.extend(other);
        records.push(fire(track));
    }
    records.push(fire(1));
    let lines = run(&branching_links().encode(), &records);
    let count = |line: &str| lines.iter().filter(|l| l.as_str() == line).count();
    assert_eq!(count("E 6 0 0"), 6);
    assert_eq!(count("S 0"), 6);
    assert_eq!(count("R 22"), 12);
    assert_eq!(count("R 28"), 6);
    let fired = lines.iter().filter(|l| l.starts_with('F')).count();
    assert_eq!(fired, 7);
    assert_eq!(lines.last().map(String::as_str), Some("H 0 7"));
}

#[test]
fn entries_that_nobody_may_fire_stay_and_stay_ready() {
    let plan = changed(|p| p.rights[1].sum = 3);
    let (plan, mut ledger) = after(&plan, &then(&SEVEN, &[signal()]));
    while let Some(track) = rules::lowest_ready(&plan, &ledger, SOCIETY) {
        fire_by_right(&plan, &mut ledger, track);
    }
    assert_eq!(ledger.total_held(), 5);
    assert_eq!(rules::ready(&plan, &ledger), 0b11000);
}
