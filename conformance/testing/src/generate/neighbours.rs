//! Plans beside a plan, with as many tracks: neighbours, whose ledgers have
//! other leading words, and plans alike, whose ledgers have the same.

use super::days;
use super::plans;
use super::rng::Rng;
use super::societies;
use second::ledger;
use second::plan::{self, Plan, Records, State, Window};
use second::record;

/// Tries at an accepted plan that is made from another.
const TRIES: usize = 24;

/// An accepted plan with as many tracks and other leading words: mostly one
/// that differs in one record.
pub fn neighbour(rng: &mut Rng, plan: &Plan) -> Plan {
    let tries = if rng.chance(70) { TRIES } else { 0 };
    (0..tries)
        .find_map(|_| accepted_neighbour(plan, varied(rng, plan.records())))
        .unwrap_or_else(|| stranger(rng, plan))
}

/// Any plan with as many tracks and other leading words.
fn stranger(rng: &mut Rng, plan: &Plan) -> Plan {
    loop {
        let records = plans::records_of(rng, plan.track_count());
        if let Some(other) = accepted_neighbour(plan, records) {
            return other;
        }
    }
}

fn accepted_neighbour(plan: &Plan, records: Records) -> Option<Plan> {
    let other = plan::read(&records.encode()).ok()?;
    (ledger::plan_words(&other) != ledger::plan_words(plan)).then_some(other)
}

/// The records with one of them changed, added or left out.
fn varied(rng: &mut Rng, records: &Records) -> Records {
    let mut records = records.clone();
    match rng.below(6) {
        0 => vary_state(rng, &mut records),
        1 => leave_out(rng, &mut records),
        2 => vary_window(rng, &mut records),
        3 => vary_rights(rng, &mut records),
        _ => vary_transition(rng, &mut records),
    }
    records
}

/// Another replacement, or one state more.
fn vary_state(rng: &mut Rng, records: &mut Records) {
    let track = rng.below(records.tracks.len()) as u16;
    let at = rng.below(records.states.len());
    if records.states[at].replacement != 0 {
        records.states[at].replacement = rng.code();
    } else {
        records.states.push(State {
            track,
            last: rng.below(2) as u16,
            replacement: 0,
        });
    }
}

/// A window with other days, or one window fewer; where there is none, a
/// window for the first transition.
fn vary_window(rng: &mut Rng, records: &mut Records) {
    let near = days::any_day(rng);
    let term = days::term(rng, near);
    if records.windows.is_empty() {
        let transition = 0;
        records.windows.push(Window { transition, term });
        return;
    }
    let at = rng.below(records.windows.len());
    if rng.chance(70) {
        records.windows[at].term = term;
    } else {
        records.windows.remove(at);
    }
}

/// Another society or another sum in a rights record, one record fewer, or all
/// of them others.
fn vary_rights(rng: &mut Rng, records: &mut Records) {
    if records.rights.is_empty() || rng.chance(25) {
        records.rights = societies::rights(rng, &records.tracks, 50);
        return;
    }
    let at = rng.below(records.rights.len());
    match rng.below(3) {
        0 => records.rights[at].society = rng.below(5) as u16,
        1 => records.rights[at].sum = rng.between(1, 7) as u16,
        _ => {
            records.rights.remove(at);
        }
    }
}

fn leave_out(rng: &mut Rng, records: &mut Records) {
    if !records.transitions.is_empty() {
        let at = rng.below(records.transitions.len());
        records.transitions.remove(at);
    }
}

/// A transition with another code, event or destination, or one more.
fn vary_transition(rng: &mut Rng, records: &mut Records) {
    let mut x = match rng.pick(&records.transitions) {
        Some(x) => x,
        None => return,
    };
    let at = rng.below(records.transitions.len());
    let way = rng.below(4);
    match way {
        0 => records.transitions[at].code = rng.code(),
        1 => records.transitions[at].event = rng.code(),
        2 => records.transitions[at].destination = x.destination,
        _ => {
            x.event = rng.code();
            records.transitions.push(x);
        }
    }
}

/// An accepted plan of other bytes with as many tracks and the same leading
/// words, if one is found.
pub fn alike(rng: &mut Rng, plan: &Plan) -> Option<Plan> {
    let bytes = plan.records().encode();
    let kinds = kinds(plan);
    let kind = rng.pick(&[0, 0, 1, 1, 1, 2, 2, 3, 4])?;
    (0..TRIES).find_map(|_| {
        let fields = two_fields(rng, &kinds, kind)?;
        let other = rearranged(rng, &bytes, fields);
        plan::read(&other).ok().filter(|_| other != bytes)
    })
}

/// The plan's bytes with two fields exchanged, or with one raised and the
/// other lowered by as much.
fn rearranged(rng: &mut Rng, bytes: &[u8], (a, b): (usize, usize)) -> Vec<u8> {
    let pair = |p: &[u8]| u16::from_le_bytes([p[0], p[1]]);
    let mut words: Vec<u16> = bytes.chunks_exact(2).map(pair).collect();
    if rng.chance(75) {
        words.swap(a, b);
    } else {
        let by = rng.between(1, 9) as u16;
        words[a] = words[a].wrapping_add(by);
        words[b] = words[b].wrapping_sub(by);
    }
    let mut other = Vec::with_capacity(bytes.len());
    record::put_words(&mut other, &words);
    other
}

/// Words of a record before its fields.
const HEADER_WORDS: usize = record::HEADER / 2;

/// Records of one kind: where they start, in words, the words of each, and how
/// many there are.
type Kind = (usize, usize, usize);

/// Tracks, states, transitions, windows and rights.
fn kinds(plan: &Plan) -> [Kind; 5] {
    let words = [1, 3, 5, 5, 3].map(|fields| HEADER_WORDS + fields);
    let [track, state, transition, window, grant] = words;
    let states = track * plan.track_count();
    let transitions = states + state * plan.state_count();
    let windows = transitions + transition * plan.transition_count();
    let rights = windows + window * plan.records().windows.len();
    [
        (0, track, plan.track_count()),
        (states, state, plan.state_count()),
        (transitions, transition, plan.transition_count()),
        (windows, window, plan.records().windows.len()),
        (rights, grant, plan.records().rights.len()),
    ]
}

/// The places, in words, of two fields of a kind of record: mostly the same
/// field of two records.
fn two_fields(rng: &mut Rng, kinds: &[Kind; 5], kind: usize) -> Option<(usize, usize)> {
    let (start, words, count) = kinds[kind];
    if count == 0 {
        return None;
    }
    let field = rng.between(HEADER_WORDS, words - 1);
    let any = rng.between(HEADER_WORDS, words - 1);
    let other = if rng.chance(80) { field } else { any };
    let mut record = || start + words * rng.below(count);
    Some((record() + field, record() + other))
}
