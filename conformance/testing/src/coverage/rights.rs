//! Counts of rights records and of calls that rights have a say in.

use super::{Change, Coverage, Happening};
use crate::faults::{self, RightsFault};
use second::journal::{Outcome, Record};
use second::ledger::{Ledger, Mode};
use second::plan::{self, members, Plan, Right, MAX_RIGHTS, RIGHTS};
use second::refusal::Refusal;
use second::rules;

/// Rights records of a refused plan with many.
const MANY: usize = 100;

impl Coverage {
    /// Counts the rights records of an accepted plan.
    pub(super) fn rights_accepted(&mut self, plan: &Plan) {
        let rights = &plan.records().rights;
        self.count_if(rights.is_empty(), Happening::NoRightsAccepted);
        let full = rights.len() == MAX_RIGHTS;
        self.count_if(full, Happening::Rights64Accepted);
        let mut roots: Vec<u16> = rights.iter().map(|r| r.root).collect();
        roots.sort_unstable();
        let shared = roots.windows(2).any(|two| two[0] == two[1]);
        self.count_if(shared, Happening::RootShared);
        let unheld = |t: usize| roots.binary_search(&(t as u16)).is_err();
        let some = !rights.is_empty() && plan.roots().any(unheld);
        self.count_if(some, Happening::RootUnheld);
    }

    /// Counts what the rights records of a refused plan have to do with its
    /// refusal.
    pub(super) fn rights_refused(&mut self, bytes: &[u8], refusal: Refusal) {
        match refusal {
            Refusal::Kind => {
                let falls = matches!(faults::fall(bytes), Some((RIGHTS, _)));
                self.count_if(falls, Happening::FallAfterRights);
            }
            Refusal::CutShort => {
                let cut = faults::last_kind(bytes) == Some(RIGHTS);
                self.count_if(cut, Happening::RightsCut);
            }
            Refusal::AfterEnd => {
                let follows = faults::follows_end(bytes, RIGHTS);
                self.count_if(follows, Happening::RightsAfterEnd);
            }
            _ => self.rights_unfit(bytes, refusal),
        }
    }

    fn rights_unfit(&mut self, bytes: &[u8], refusal: Refusal) {
        let records = match plan::read_records(bytes) {
            Ok(records) => records,
            Err(_) => return,
        };
        let unfit = refusal == Refusal::Rights;
        let faults = faults::rights_faults(&records);
        let others = !faults.is_empty() && !unfit;
        self.count_if(others, Happening::RightsOtherFirst);
        let window = others && refusal == Refusal::Window;
        self.count_if(window, Happening::RightsWindowFirst);
        let many = unfit && records.rights.len() >= MANY;
        self.count_if(many, Happening::RightsMany);
        if let ([fault], true) = (&faults[..], unfit) {
            self.count(match fault {
                RightsFault::NoTrack => Happening::RightsNoTrack,
                RightsFault::Hosted => Happening::RightsHosted,
                RightsFault::SumZero => Happening::RightsSumZero,
                RightsFault::SumAbove => Happening::RightsSumAbove,
                RightsFault::Repeated => Happening::RightsRepeated,
                RightsFault::TooMany => Happening::RightsTooMany,
            });
        }
    }

    /// Counts what rights have to do with the outcome of a call on a sound
    /// ledger.
    pub(super) fn rights_met(&mut self, change: &Change, record: Record, outcome: Outcome) {
        match outcome {
            Outcome::Event(_, m) => self.moved_by_right(change, record, m.moved),
            Outcome::Signal(turned) => self.turned_by_right(change, turned),
            Outcome::Fire(track, _) => self.fired_by_right(change, record, track),
            Outcome::Refused(Refusal::NoRight) => self.no_right(change, record),
            Outcome::Refused(Refusal::Over) => {
                let unentitled = lacks(change.plan, record);
                self.count_if(unentitled, Happening::OverBeforeNoRight);
            }
            Outcome::Refused(Refusal::NotReady) => self.none_to_fire(change, record),
            Outcome::Refused(_) => {}
        }
        if !matches!(outcome, Outcome::Refused(_)) {
            let society = society(record);
            self.count_if(society == 0, Happening::Society0);
            self.count_if(society == 65_535, Happening::Society65535);
        }
    }

    /// Counts the tracks that an accepted event leaves for want of the right.
    fn moved_by_right(&mut self, change: &Change, record: Record, moved: u16) {
        let possible = possible(change, record);
        let left = possible.len() > usize::from(moved);
        self.count_if(left && moved > 0, Happening::EventPartial);
        self.count_if(left && moved == 0, Happening::EventOfOthers);
        let full = possible.iter().any(|&(full, _)| full);
        self.count_if(full, Happening::FullOfAnother);
    }

    /// Counts the forward tracks that a signal leaves.
    fn turned_by_right(&mut self, change: &Change, turned: u16) {
        let forward = forward(change.before);
        let left = forward > usize::from(turned);
        self.count_if(left && turned > 0, Happening::SignalPartial);
        self.count_if(left && turned == 0, Happening::SignalOfOthers);
        self.count_if(change.finishes(), Happening::SignalFinishes);
    }

    fn fired_by_right(&mut self, change: &Change, record: Record, track: u16) {
        let mut ready = members(rules::ready(change.plan, change.before));
        let lower = ready.any(|t| t < usize::from(track));
        let passes = lower && matches!(record, Record::FireLowest(_));
        self.count_if(passes, Happening::LowestPassesOver);
    }

    /// Counts a firing of the lowest track that finds none of the society's.
    fn none_to_fire(&mut self, change: &Change, record: Record) {
        let ready = rules::ready(change.plan, change.before) != 0;
        let others = ready && matches!(record, Record::FireLowest(_));
        self.count_if(others, Happening::LowestOfAnother);
    }

    /// Counts a call that is refused as 28.
    fn no_right(&mut self, change: &Change, record: Record) {
        match record {
            Record::Event(..) => {
                self.count(Happening::NoMoveRight);
                let full = possible(change, record).iter().any(|&(full, _)| full);
                self.count_if(full, Happening::NoRightBeforeFull);
            }
            Record::Signal(_) => self.count(Happening::NoSignalRight),
            Record::Fire(track, _) => {
                self.count(Happening::NoFireRight);
                let ready = rules::may_fire(change.plan, change.before, usize::from(track));
                self.count_if(ready, Happening::NoRightReady);
                self.count_if(!ready, Happening::NoRightBeforeNotReady);
            }
            Record::FireLowest(_) => unreachable!("28 by a firing of the lowest track"),
        }
    }
}

/// The moves of an event with rights left aside: whether each would be given an
/// entry while full, and its track.
fn possible(change: &Change, record: Record) -> Vec<(bool, usize)> {
    let (event, day) = match record {
        Record::Event(event, day, _) => (event, day),
        _ => return Vec::new(),
    };
    let moves = rules::possible_moves(change.plan, change.before, event, day);
    let full = |t: usize| change.before.tracks[t].is_full(change.before.limit);
    let moves = moves.into_iter();
    moves.map(|(t, x)| (full(t) && x.code != 0, t)).collect()
}

fn forward(ledger: &Ledger) -> usize {
    let forward = ledger.tracks.iter().filter(|t| t.mode == Mode::Forward);
    forward.count()
}

/// Whether the call would be 28 if the ledger were not over.
fn lacks(plan: &Plan, record: Record) -> bool {
    match record {
        Record::Event(_, _, society) => !plan.allows_somewhere(society, Right::Move),
        Record::Signal(society) => !plan.allows_somewhere(society, Right::Signal),
        Record::Fire(track, society) => {
            let track = usize::from(track);
            track < plan.track_count() && !plan.allows(society, Right::Fire, track)
        }
        Record::FireLowest(_) => false,
    }
}

fn society(record: Record) -> u16 {
    match record {
        Record::Event(_, _, society) | Record::Fire(_, society) => society,
        Record::Signal(society) | Record::FireLowest(society) => society,
    }
}
