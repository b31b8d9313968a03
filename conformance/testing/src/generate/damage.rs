//! Damaged plans: each refusal 2 to 16, 25 and 27 as the first that applies,
//! several faults at once, and random bytes.

use super::days;
use super::plans;
use super::rng::Rng;
use super::societies;
use second::plan::{
    self, Records, Rights, State, Track, Transition, Window, KINDS, MAX_HEIGHT, MAX_RIGHTS,
    MAX_STATES, MAX_TRACKS, MAX_TRANSITIONS, NONE,
};
use second::record;

/// The refusals of a plan.
pub const NUMBERS: [u8; 17] = [2, 3, 4, 5, 6, 7, 8, 9, 10, 11, 12, 13, 14, 15, 16, 25, 27];
/// The one for a track's height.
const HEIGHT: u8 = 16;

/// A good plan, a damaged one, or bytes gone astray.
pub fn any_plan(rng: &mut Rng, most_tracks: usize) -> Vec<u8> {
    match rng.below(100) {
        0..=14 => plans::bytes(rng, most_tracks),
        15..=64 => {
            let number = any_number(rng);
            refused_as(rng, most_tracks, number)
        }
        65..=79 => several_faults(rng, most_tracks),
        80..=81 => noise(rng),
        _ => astray(rng, most_tracks),
    }
}

/// Some refusal of a plan, 25 and 27 more often, since they have the most forms.
fn any_number(rng: &mut Rng) -> u8 {
    match rng.below(100) {
        0..=15 => 25,
        16..=23 => 27,
        _ => rng.pick(&NUMBERS).unwrap_or(25),
    }
}

/// A plan whose first refusal is `number`, now and then with a window's fault or
/// one of rights behind it. Fewer than 9 tracks leave no height to exceed;
/// such a plan is damaged in another way.
pub fn refused_as(rng: &mut Rng, most_tracks: usize, number: u8) -> Vec<u8> {
    let room = number != HEIGHT || most_tracks > MAX_HEIGHT as usize;
    for _ in 0..if room { 64 } else { 0 } {
        let mut plan = plans::records(rng, most_tracks);
        spoil_records(rng, &mut plan, most_tracks, number);
        if rng.chance(15) {
            spoil_windows(rng, &mut plan);
        }
        if rng.chance(15) {
            spoil_rights(rng, &mut plan);
        }
        let mut bytes = plan.encode();
        spoil_bytes(rng, &mut bytes, number);
        if matches!(plan::read(&bytes), Err(r) if r.number() == number) {
            return bytes;
        }
    }
    astray(rng, most_tracks)
}

/// Two to four faults in one plan.
pub fn several_faults(rng: &mut Rng, most_tracks: usize) -> Vec<u8> {
    let mut plan = plans::records(rng, most_tracks);
    let faults: Vec<u8> = (0..rng.between(2, 4)).map(|_| any_number(rng)).collect();
    for &number in &faults {
        spoil_records(rng, &mut plan, most_tracks, number);
    }
    let mut bytes = plan.encode();
    for &number in &faults {
        spoil_bytes(rng, &mut bytes, number);
    }
    bytes
}

/// A plan with bytes flipped, cut off or added.
pub fn astray(rng: &mut Rng, most_tracks: usize) -> Vec<u8> {
    let mut bytes = plans::bytes(rng, most_tracks);
    match rng.below(10) {
        0..=5 => flip(rng, &mut bytes),
        6..=7 => bytes.truncate(rng.below(bytes.len())),
        _ => extend(rng, &mut bytes),
    }
    bytes
}

/// Random bytes, few of them.
fn noise(rng: &mut Rng) -> Vec<u8> {
    let length = rng.below(24);
    (0..length).map(|_| rng.below(16) as u8).collect()
}

fn flip(rng: &mut Rng, bytes: &mut [u8]) {
    for _ in 0..rng.between(1, 3) {
        let at = rng.below(bytes.len());
        bytes[at] = match rng.below(3) {
            0 => bytes[at] ^ (1 << rng.below(8)),
            1 => bytes[at].wrapping_add(1),
            _ => rng.word() as u8,
        };
    }
}

fn extend(rng: &mut Rng, bytes: &mut Vec<u8>) {
    for _ in 0..rng.between(1, 12) {
        bytes.push(rng.word() as u8);
    }
}

/// Faults that show in the records: 6, 8 to 16, 25 and 27.
fn spoil_records(rng: &mut Rng, plan: &mut Records, most_tracks: usize, number: u8) {
    match number {
        6 => overfill(rng, plan, most_tracks),
        8 => plan.tracks.clear(),
        9 => spoil_state(rng, plan),
        10 => spoil_host(rng, plan),
        11 => spoil_first(rng, plan, most_tracks),
        12 => spoil_hosting(rng, plan),
        13 => spoil_transition(rng, plan),
        14 => spoil_deviation(rng, plan),
        15 => add_twin(rng, plan),
        16 => grow_high(rng, plan, most_tracks),
        25 => spoil_windows(rng, plan),
        27 => spoil_rights(rng, plan),
        _ => {}
    }
}

/// One track, state or transition too many.
fn overfill(rng: &mut Rng, plan: &mut Records, most_tracks: usize) {
    let state = match plan.states.first() {
        Some(&state) => state,
        None => return,
    };
    match rng.below(3) {
        0 if most_tracks >= MAX_TRACKS => plan.tracks.resize(MAX_TRACKS + 1, Track { host: NONE }),
        1 => plan.states.resize(MAX_STATES + 1, state),
        _ => {
            let x = plan.transitions.first().copied().unwrap_or(blank());
            plan.transitions.resize(MAX_TRANSITIONS + 1, x);
        }
    }
}

/// A self loop of state 0 that is most often no good.
fn blank() -> Transition {
    Transition {
        source: 0,
        event: 1,
        code: 0,
        deviation: NONE,
        destination: 0,
    }
}

/// 9: a state names no track, or its final field exceeds 1.
fn spoil_state(rng: &mut Rng, plan: &mut Records) {
    let tracks = plan.tracks.len();
    let state = match any_of(rng, &mut plan.states) {
        Some(state) => state,
        None => return,
    };
    if rng.chance(50) {
        state.track = beyond(rng, tracks);
    } else {
        state.last = rng.word().max(2);
    }
}

/// 10: a host is no state, or one of the track itself or of a higher track.
fn spoil_host(rng: &mut Rng, plan: &mut Records) {
    if plan.tracks.is_empty() {
        return;
    }
    let t = rng.below(plan.tracks.len());
    let wrong = |s: &State| usize::from(s.track) >= t;
    let wrong: Vec<u16> = (0..plan.states.len() as u16)
        .filter(|&s| wrong(&plan.states[usize::from(s)]))
        .collect();
    let higher = rng.pick(&wrong).filter(|_| rng.chance(60));
    let nowhere = beyond(rng, plan.states.len());
    plan.tracks[t].host = higher.unwrap_or(nowhere);
}

/// 11: a track has no state, or its first state is final.
fn spoil_first(rng: &mut Rng, plan: &mut Records, most_tracks: usize) {
    if rng.chance(40) && plan.tracks.len() < most_tracks.min(MAX_TRACKS) {
        plan.tracks.push(Track { host: NONE });
        return;
    }
    let tracks = plan.tracks.len() as u16;
    let track = rng.below(usize::from(tracks).max(1)) as u16;
    if let Some(first) = plan.states.iter_mut().find(|s| s.track == track) {
        first.last = 1;
    }
}

/// 12: a hosting state is final, or a state that hosts none has a replacement.
fn spoil_hosting(rng: &mut Rng, plan: &mut Records) {
    let hosts: Vec<u16> = plan.tracks.iter().map(|t| t.host).collect();
    let hosting = rng.chance(50);
    let fits = |s: &u16| hosts.contains(s) == hosting;
    let chosen: Vec<u16> = (0..plan.states.len() as u16).filter(fits).collect();
    if let Some(state) = rng.pick(&chosen) {
        let state = &mut plan.states[usize::from(state)];
        if hosting {
            state.last = 1;
        } else {
            state.replacement = rng.code();
        }
    }
}

/// 13: an end does not exist or lies in another track, the source is final,
/// or the event is 0.
fn spoil_transition(rng: &mut Rng, plan: &mut Records) {
    let states = plan.states.len();
    let any = rng.below(states.max(1)) as u16;
    let finals: Vec<u16> = (0..states as u16)
        .filter(|&s| plan.states[usize::from(s)].last == 1)
        .collect();
    let nowhere = beyond(rng, states);
    let last = rng.pick(&finals);
    let way = rng.below(5);
    let x = match any_of(rng, &mut plan.transitions) {
        Some(x) => x,
        None => return,
    };
    match way {
        0 => x.source = nowhere,
        1 => x.destination = nowhere,
        2 => x.destination = any,
        3 => x.source = last.unwrap_or(nowhere),
        _ => x.event = 0,
    }
}

/// 14: a deviation is no state of that track, is final, stands in a hosted
/// track, or comes with code 0.
fn spoil_deviation(rng: &mut Rng, plan: &mut Records) {
    if plan.transitions.is_empty() {
        return;
    }
    let at = rng.below(plan.transitions.len());
    let x = plan.transitions[at];
    let state = plan.states.get(usize::from(x.source));
    let own = state.map_or(Vec::new(), |s| plans::own_states(plan, s.track));
    let way = rng.below(3);
    plan.transitions[at].deviation = match way {
        0 => beyond(rng, plan.states.len()),
        1 => rng.below(plan.states.len().max(1)) as u16,
        _ => rng.pick(&own).unwrap_or(0),
    };
    if rng.chance(30) {
        plan.transitions[at].code = 0;
    }
}

/// 15: a second transition with the source and event of another.
fn add_twin(rng: &mut Rng, plan: &mut Records) {
    if plan.transitions.len() >= MAX_TRANSITIONS {
        plan.transitions.pop();
    }
    let mut twin = match rng.pick(&plan.transitions) {
        Some(twin) => twin,
        None => return,
    };
    twin.code = rng.code();
    let at = rng.below(plan.transitions.len() + 1);
    plan.transitions.insert(at, twin);
}

/// 16: tracks under tracks, 9 or more.
fn grow_high(rng: &mut Rng, plan: &mut Records, most_tracks: usize) {
    let most = most_tracks.min(MAX_TRACKS);
    if most <= MAX_HEIGHT as usize {
        return;
    }
    *plan = if rng.chance(20) {
        plans::chain(rng.between(9, most))
    } else {
        plans::tall_records(rng, most_tracks)
    };
}

/// 25: a window names no transition, repeats one, ends before it begins or
/// leaves the day range; or there are more windows than transitions.
fn spoil_windows(rng: &mut Rng, plan: &mut Records) {
    let transitions = plan.transitions.len();
    if rng.chance(20) {
        return crowd(rng, plan);
    }
    let named = rng.below(transitions.max(1)) as u16;
    if plan.windows.is_empty() {
        plan.windows.push(good_window(rng, named));
    }
    let at = rng.below(plan.windows.len());
    match rng.below(5) {
        0 => plan.windows[at].transition = beyond(rng, transitions),
        1 => {
            let again = plan.windows[at].transition;
            let window = good_window(rng, again);
            let place = rng.below(plan.windows.len() + 1);
            plan.windows.insert(place, window);
        }
        2 => reverse(rng, &mut plan.windows[at]),
        3 => plan.windows[at].term.first = days::before_range(rng),
        _ => plan.windows[at].term.last = days::after_range(rng),
    }
}

fn good_window(rng: &mut Rng, transition: u16) -> Window {
    let near = days::any_day(rng);
    let term = days::term(rng, near);
    Window { transition, term }
}

/// The window ends before it begins, often a day before.
fn reverse(rng: &mut Rng, window: &mut Window) {
    let term = &mut window.term;
    std::mem::swap(&mut term.first, &mut term.last);
    if term.first == term.last || rng.chance(50) {
        term.last = term.first - 1;
    }
}

/// More windows than there are transitions, now and then by hundreds.
fn crowd(rng: &mut Rng, plan: &mut Records) {
    let transitions = plan.transitions.len();
    let more = rng.pick(&[1, 2, 20, 300]).unwrap_or(1);
    while plan.windows.len() < transitions + more {
        let named = rng.below(transitions.max(1)) as u16;
        let window = good_window(rng, named);
        plan.windows.push(window);
    }
}

/// 27: a rights record names no track or a hosted one, its sum is 0 or above 7,
/// or it repeats a pair; or there are more than 64.
fn spoil_rights(rng: &mut Rng, plan: &mut Records) {
    let roots = societies::roots(&plan.tracks);
    if rng.chance(30) {
        return crowd_rights(rng, plan, &roots);
    }
    if plan.rights.is_empty() {
        plan.rights = societies::many(rng, &roots, 1);
    }
    let at = rng.below(plan.rights.len().max(1));
    let mut unfit = match plan.rights.get(at) {
        Some(&rights) => rights,
        None => return,
    };
    match rng.below(5) {
        0 => unfit.root = beyond(rng, plan.tracks.len()),
        1 => unfit.root = hosted_track(rng, plan).unwrap_or(NONE),
        2 => unfit.sum = 0,
        3 => unfit.sum = sum_above(rng),
        _ => return repeat_pair(rng, plan, unfit),
    }
    plan.rights[at] = unfit;
}

fn hosted_track(rng: &mut Rng, plan: &Records) -> Option<u16> {
    let numbers = 0..plan.tracks.len() as u16;
    let hosted = |&t: &u16| plan.tracks[usize::from(t)].host != NONE;
    let hosted: Vec<u16> = numbers.filter(hosted).collect();
    rng.pick(&hosted)
}

/// A sum above 7, often the next one.
fn sum_above(rng: &mut Rng) -> u16 {
    let any = rng.between(8, 65_535) as u16;
    rng.pick(&[8, 8, 9, 15, 16, 0x0100, 0x0700, 0x0107, 65_535, any])
        .unwrap_or(8)
}

/// The pair once more, anywhere, with the same sum or another.
fn repeat_pair(rng: &mut Rng, plan: &mut Records, mut again: Rights) {
    if plan.rights.len() >= MAX_RIGHTS {
        plan.rights.truncate(MAX_RIGHTS - 1);
        again = plan.rights[0];
    }
    if rng.chance(70) {
        again.sum = rng.between(1, 7) as u16;
    }
    let place = rng.below(plan.rights.len() + 1);
    plan.rights.insert(place, again);
}

/// A 65th record, or many more, each of another pair.
fn crowd_rights(rng: &mut Rng, plan: &mut Records, roots: &[u16]) {
    let more = rng.pick(&[1, 1, 1, 2, 40, 300]).unwrap_or(1);
    plan.rights = societies::many(rng, roots, MAX_RIGHTS + more);
}

/// Faults that show in the bytes: 2 to 5 and 7.
fn spoil_bytes(rng: &mut Rng, bytes: &mut Vec<u8>, number: u8) {
    match number {
        2 => cut_between(rng, bytes),
        3 => spoil_kind(rng, bytes),
        4 => spoil_length(rng, bytes),
        5 => cut_inside(rng, bytes),
        7 => follow(rng, bytes),
        _ => {}
    }
}

/// 7: any bytes behind the end, a window, or a rights record.
fn follow(rng: &mut Rng, bytes: &mut Vec<u8>) {
    match rng.below(10) {
        0..=2 => record::put(bytes, plan::WINDOW, &[0; 5]),
        3..=5 => record::put(bytes, plan::RIGHTS, &[1, 0, 7]),
        _ => extend(rng, bytes),
    }
}

/// Where each record starts.
fn starts(bytes: &[u8]) -> Vec<usize> {
    let mut starts = Vec::new();
    let mut at = 0;
    while let Some(header) = record::Header::read(&bytes[at..]) {
        let length = usize::from(header.length).max(record::HEADER);
        starts.push(at);
        at = (at + length).min(bytes.len());
    }
    starts
}

/// 2: nothing, or up to 3 bytes, where a record must start.
fn cut_between(rng: &mut Rng, bytes: &mut Vec<u8>) {
    let start = rng.pick(&starts(bytes)).unwrap_or(0);
    bytes.truncate(start + rng.below(4));
}

/// 3: a kind not 1 to 6, one that falls, a window before a transition, or a
/// rights record before others.
fn spoil_kind(rng: &mut Rng, bytes: &mut Vec<u8>) {
    let starts = starts(bytes);
    if rng.chance(15) {
        return insert_rights(rng, bytes, &starts);
    }
    let way = rng.below(5);
    let transition = |&start: &usize| u16::from(bytes[start + 2]) == plan::TRANSITION;
    let chosen: Vec<usize> = match way {
        0 => starts.iter().copied().filter(transition).collect(),
        _ => starts,
    };
    if let Some(start) = rng.pick(&chosen) {
        let kind = match way {
            0 => plan::WINDOW,
            1 => 0,
            2 => 7,
            3 => rng.pick(&KINDS).unwrap_or(0),
            _ => rng.word(),
        };
        bytes[start + 2..start + 4].copy_from_slice(&kind.to_le_bytes());
    }
}

/// A whole rights record where some record starts.
fn insert_rights(rng: &mut Rng, bytes: &mut Vec<u8>, starts: &[usize]) {
    let mut rights = Vec::new();
    record::put(&mut rights, plan::RIGHTS, &[1, 0, 7]);
    let at = rng.pick(starts).unwrap_or(0);
    bytes.splice(at..at, rights);
}

/// 4: a length that is not the kind's.
fn spoil_length(rng: &mut Rng, bytes: &mut [u8]) {
    if let Some(start) = rng.pick(&starts(bytes)) {
        let length = match rng.below(3) {
            0 => rng.below(20) as u16,
            1 => 2 * rng.below(10) as u16,
            _ => rng.word(),
        };
        bytes[start..start + 2].copy_from_slice(&length.to_le_bytes());
    }
}

/// 5: the last record is cut behind its kind.
fn cut_inside(rng: &mut Rng, bytes: &mut Vec<u8>) {
    let mut starts = starts(bytes);
    starts.pop();
    if let Some(start) = rng.pick(&starts) {
        let length = usize::from(bytes[start]);
        let kept = rng.between(record::HEADER, length.max(5) - 1);
        bytes.truncate(start + kept);
    }
}

fn any_of<'a, T>(rng: &mut Rng, items: &'a mut [T]) -> Option<&'a mut T> {
    if items.is_empty() {
        return None;
    }
    let at = rng.below(items.len());
    items.get_mut(at)
}

/// A number that none of `count` items has, often the next one.
fn beyond(rng: &mut Rng, count: usize) -> u16 {
    match rng.below(5) {
        0 | 1 => count as u16,
        2 => 65534,
        3 => 65535,
        _ => rng.between(count, 65534) as u16,
    }
}
