//! Counts of calls at the reading rooms' limit, and of calls on ledgers that were
//! made at the other of the two limits. Of these nothing is promised, so how many
//! are accepted is counted and held to no floor.

use super::{Change, Coverage, Happening};
use crate::generate::singles::{Call, Single};
use second::journal::Outcome;
use second::ledger::{self, Ledger, Mode};
use second::limit::Limit;
use second::manager::{self, Answer};
use second::plan::{self, Plan};
use second::refusal::Refusal;

impl Coverage {
    /// Counts a single call by its limit and by that of its ledger.
    pub(super) fn limits(&mut self, single: &Single) {
        let read = manager::ready(single.limit, &single.plan, &single.words);
        let numbered = !matches!(single.call, Call::Entries(_));
        if single.limit == Limit::READING_ROOM {
            self.count(Happening::At8);
            self.count_if(single.call == Call::Ready, Happening::ReadyAt8);
            self.count_if(!numbered, Happening::EntriesAt8);
            match read {
                Answer::Refused(Refusal::FewWords) if numbered => self.few_words_at_8(single),
                Answer::Refused(Refusal::Unsound) if numbered => self.unsound_at_8(single),
                Answer::Refused(_) => {}
                Answer::Done(_) => self.full_track_at_8(single),
            }
        }
        let accepted = matches!(read, Answer::Done(_));
        match single.made_at {
            Some(Limit::MAIN) => {
                self.count(Happening::Of32At8);
                self.count_if(accepted, Happening::Of32At8Accepted);
            }
            Some(_) => {
                self.count(Happening::Of8At32);
                self.count_if(accepted, Happening::Of8At32Accepted);
            }
            None => {}
        }
    }

    fn few_words_at_8(&mut self, single: &Single) {
        self.count(Happening::FewWordsAt8);
        let next = with_plan(single, |plan| {
            single.words.len() + 1 == ledger::words_needed(single.limit, plan)
        });
        self.count_if(next, Happening::OneWordTooFewAt8);
    }

    fn unsound_at_8(&mut self, single: &Single) {
        self.count(Happening::UnsoundAt8);
        let count = |t| ledger::track_words(single.limit, &single.words, t)[2];
        let above = with_plan(single, |plan| {
            (0..plan.track_count()).any(|t| (9..=32).contains(&count(t)))
        });
        self.count_if(above, Happening::CountAbove8);
    }

    fn full_track_at_8(&mut self, single: &Single) {
        let full = with_plan(single, |plan| {
            let ledger = Ledger::decode(single.limit, plan, &single.words);
            ledger.tracks.iter().any(|t| t.is_full(single.limit))
        });
        self.count_if(full, Happening::FullTrackAt8);
    }

    /// Counts what a call does at the reading rooms' limit.
    pub(super) fn outcome_at_8(&mut self, change: &Change, outcome: Outcome) {
        if change.before.limit != Limit::READING_ROOM {
            return;
        }
        let limit = change.before.limit;
        match outcome {
            Outcome::Event(..) => self.count_if(change.fills(), Happening::Entry8Installed),
            Outcome::Refused(Refusal::Full) => self.count(Happening::FullAt8),
            Outcome::Fire(track, _) => {
                self.count(Happening::FiringAt8);
                let full = change.before.tracks[usize::from(track)].is_full(limit);
                self.count_if(full, Happening::FiringOf8);
            }
            Outcome::Signal(_) => {
                let forward = |l: &Ledger| l.tracks.iter().any(|t| t.mode == Mode::Forward);
                let turns = forward(change.before) && !forward(change.after);
                let held = change.after.total_held() > 0;
                self.count_if(turns && held, Happening::WithdrawalAt8);
            }
            Outcome::Refused(_) => {}
        }
    }
}

/// What is asked of the call's plan; no where it is refused.
fn with_plan(single: &Single, ask: impl FnOnce(&Plan) -> bool) -> bool {
    plan::read(&single.plan).map_or(false, |plan| ask(&plan))
}
