//! What is wrong with a refused plan or a broken journal, more closely than
//! its number says.

use second::days::Term;
use second::journal::Records as JournalRecords;
use second::plan::{Plan, Records, Rights, Transition, Window, END, KINDS, MAX_RIGHTS, NONE};
use second::record::{Header, HEADER};

/// The forms of 25.
#[derive(Clone, Copy, Debug, PartialEq, Eq)]
pub enum WindowFault {
    NoTransition,
    Repeated,
    Reversed,
    BeforeRange,
    AfterRange,
}

/// The forms of 25 that a plan's records have, each once.
pub fn window_faults(records: &Records) -> Vec<WindowFault> {
    let windows = &records.windows[..];
    let some = |fault: fn(&Window) -> bool| windows.iter().any(fault);
    let transitions = records.transitions.len();
    let nowhere = |w: &Window| usize::from(w.transition) >= transitions;
    let faults = [
        (WindowFault::NoTransition, windows.iter().any(nowhere)),
        (WindowFault::Repeated, repeats(windows)),
        (WindowFault::Reversed, some(|w| w.term.last < w.term.first)),
        (
            WindowFault::BeforeRange,
            some(|w| w.term.first < Term::RANGE.first),
        ),
        (
            WindowFault::AfterRange,
            some(|w| w.term.last > Term::RANGE.last),
        ),
    ];
    let found = faults.into_iter().filter(|(_, found)| *found);
    found.map(|(fault, _)| fault).collect()
}

fn repeats(windows: &[Window]) -> bool {
    let mut named: Vec<u16> = windows.iter().map(|w| w.transition).collect();
    named.sort_unstable();
    named.windows(2).any(|two| two[0] == two[1])
}

/// The forms of 27.
#[derive(Clone, Copy, Debug, PartialEq, Eq)]
pub enum RightsFault {
    NoTrack,
    Hosted,
    SumZero,
    SumAbove,
    Repeated,
    TooMany,
}

/// The forms of 27 that a plan's records have, each once.
pub fn rights_faults(records: &Records) -> Vec<RightsFault> {
    let rights = &records.rights[..];
    let tracks = &records.tracks;
    let nowhere = |r: &Rights| usize::from(r.root) >= tracks.len();
    let hosted = |r: &Rights| matches!(tracks.get(usize::from(r.root)), Some(t) if t.host != NONE);
    let faults = [
        (RightsFault::NoTrack, rights.iter().any(nowhere)),
        (RightsFault::Hosted, rights.iter().any(hosted)),
        (RightsFault::SumZero, rights.iter().any(|r| r.sum == 0)),
        (RightsFault::SumAbove, rights.iter().any(|r| r.sum > 7)),
        (RightsFault::Repeated, repeats_pair(rights)),
        (RightsFault::TooMany, rights.len() > MAX_RIGHTS),
    ];
    let found = faults.into_iter().filter(|(_, found)| *found);
    found.map(|(fault, _)| fault).collect()
}

fn repeats_pair(rights: &[Rights]) -> bool {
    let mut pairs: Vec<(u16, u16)> = rights.iter().map(|r| (r.society, r.root)).collect();
    pairs.sort_unstable();
    pairs.windows(2).any(|two| two[0] == two[1])
}

/// The forms of 29. A cycle has two states or more.
#[derive(Clone, Copy, Debug, PartialEq, Eq)]
pub enum Unbound {
    Deviation,
    SelfLoop,
    /// A cycle that a first state leads to.
    Reached,
    /// One that no first state leads to.
    Unreached,
}

/// The forms of 29 that an accepted plan has, each once.
pub fn unbound(plan: &Plan) -> Vec<Unbound> {
    let some = |fault: fn(&Transition) -> bool| plan.transitions().iter().any(fault);
    let first: Vec<u16> = (0..plan.track_count())
        .map(|t| plan.first_state(t))
        .collect();
    let reached = led_to(plan, &first);
    let is_reached = |s: u16| first.contains(&s) || reached[usize::from(s)];
    let round = |&s: &u16| led_to(plan, &[s])[usize::from(s)];
    let (inside, outside): (Vec<u16>, Vec<u16>) = plan
        .state_numbers()
        .filter(round)
        .partition(|&s| is_reached(s));
    let forms = [
        (Unbound::Deviation, some(|x| x.deviation != NONE)),
        (Unbound::SelfLoop, some(|x| x.source == x.destination)),
        (Unbound::Reached, !inside.is_empty()),
        (Unbound::Unreached, !outside.is_empty()),
    ];
    let found = forms.into_iter().filter(|(_, found)| *found);
    found.map(|(form, _)| form).collect()
}

/// The states that one transition or more leads to from these, self-loops left
/// aside.
fn led_to(plan: &Plan, from: &[u16]) -> Vec<bool> {
    let mut led = vec![false; plan.state_count()];
    let mut ahead = from.to_vec();
    while let Some(state) = ahead.pop() {
        for (x, _) in plan.transitions_from(state) {
            let at = usize::from(x.destination);
            if x.destination != state && !led[at] {
                led[at] = true;
                ahead.push(x.destination);
            }
        }
    }
    led
}

/// The kinds of a plan's records in order, as far as their lengths lead.
fn kinds(plan: &[u8]) -> Vec<u16> {
    let mut kinds = Vec::new();
    let mut rest = plan;
    while let Some(header) = Header::read(rest) {
        kinds.push(header.kind);
        let length = usize::from(header.length).max(HEADER);
        rest = rest.get(length..).unwrap_or_default();
    }
    kinds
}

/// Of a plan refused as 3: the kind that falls and the one before it; `None`
/// where an unknown kind comes first.
pub fn fall(plan: &[u8]) -> Option<(u16, u16)> {
    let place = |kind: u16| KINDS.iter().position(|&known| known == kind);
    let mut before = KINDS[0];
    for kind in kinds(plan) {
        if place(kind)? < place(before)? {
            return Some((before, kind));
        }
        before = kind;
    }
    None
}

/// Whether a record of this kind follows the first end record.
pub fn follows_end(plan: &[u8], kind: u16) -> bool {
    let kinds = kinds(plan);
    let end = kinds.iter().position(|&kind| kind == END);
    end.map_or(false, |at| kinds.get(at + 1) == Some(&kind))
}

/// The kind of a plan's last record, whole or not.
pub fn last_kind(plan: &[u8]) -> Option<u16> {
    kinds(plan).last().copied()
}

/// The kind of a journal's broken record, if it has that much.
pub fn broken_kind(journal: &[u8]) -> Option<u16> {
    let whole = JournalRecords::new(journal).filter_map(Result::ok);
    let mut done = Vec::new();
    whole.for_each(|record| record.encode(&mut done));
    Header::read(&journal[done.len()..]).map(|header| header.kind)
}
