//! Counts of withdrawals: their beginning by a signal, their last firing, and
//! firings that stop with entries held.

use super::{Change, Coverage, Happening, Roots};
use second::ledger::{Ledger, Mode, Track};
use second::plan::NONE;
use second::rules;

/// Entries of a long withdrawal.
const MANY: usize = 5;

impl Coverage {
    /// Counts a signal that turns the last forward tracks, with entries held.
    pub(super) fn withdrawal_begun(&mut self, change: &Change) {
        let turns = is_forward(change.before) && !is_forward(change.after);
        let held = change.after.total_held();
        if !turns || held == 0 {
            return;
        }
        if holds_deviation(change.after) {
            return self.count(Happening::WithdrawalDeviation);
        }
        self.count(Happening::WithdrawalBegun);
        self.count_if(held >= MANY, Happening::WithdrawalMany);
        let holds = |&t: &usize| change.after.tracks[t].held() > 0;
        let mut holding = (0..change.plan.track_count()).filter(holds);
        let hosted = holding.any(|t| !change.plan.is_root(t));
        self.count_if(hosted, Happening::WithdrawalHosted);
        let partial = Roots::of(change.plan, change.before).undoing() > 0;
        self.count_if(partial, Happening::WithdrawalPartial);
    }

    /// Counts a firing after which none is ready.
    pub(super) fn withdrawn(&mut self, change: &Change) {
        let none = rules::ready(change.plan, change.after) == 0;
        if change.finishes() || !none {
            return;
        }
        let left = change.after.total_held() > 0;
        self.count_if(left, Happening::NoneReadyHeld);
        let whole = !left && !is_forward(change.after);
        self.count_if(whole, Happening::WithdrawnWhole);
    }
}

fn is_forward(ledger: &Ledger) -> bool {
    ledger.tracks.iter().any(|t| t.mode == Mode::Forward)
}

fn holds_deviation(ledger: &Ledger) -> bool {
    let mut entries = ledger.tracks.iter().flat_map(Track::entries);
    entries.any(|entry| entry.deviation != NONE)
}
