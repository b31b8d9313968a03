//! Counts of windows and days.

use super::{Change, Coverage, Happening};
use crate::faults::{self, WindowFault};
use crate::generate::journals::windows_met;
use crate::generate::singles::{Call, Single};
use second::days::Term;
use second::ledger::{self, words_needed, Clause, Ledger, LEADING_WORDS};
use second::plan::{self, Plan, MAX_TRANSITIONS, WINDOW};
use second::refusal::Refusal;

/// Windows of a plan with many.
const MANY: usize = 100;

impl Coverage {
    /// Counts the windows of an accepted plan.
    pub(super) fn windows_accepted(&mut self, plan: &Plan) {
        let windows = plan.records().windows.len();
        self.count_if(windows > 0, Happening::WindowsAccepted);
        self.count_if(windows >= MANY, Happening::ManyWindowsAccepted);
    }

    /// Counts what the windows of a refused plan have to do with its refusal.
    pub(super) fn plan_refused(&mut self, bytes: &[u8], refusal: Refusal) {
        self.rights_refused(bytes, refusal);
        match refusal {
            Refusal::Kind => {
                let falls = matches!(faults::fall(bytes), Some((WINDOW, _)));
                self.count_if(falls, Happening::FallAfterWindow);
            }
            Refusal::AfterEnd => {
                let follows = faults::follows_end(bytes, WINDOW);
                self.count_if(follows, Happening::WindowAfterEnd);
            }
            _ => self.windows_refused(bytes, refusal),
        }
    }

    fn windows_refused(&mut self, bytes: &[u8], refusal: Refusal) {
        let records = match plan::read_records(bytes) {
            Ok(records) => records,
            Err(_) => return,
        };
        let unfit = refusal == Refusal::Window;
        let crowded = records.windows.len() > records.transitions.len();
        self.count_if(crowded && unfit, Happening::WindowsCrowded);
        self.count_if(crowded && !unfit, Happening::WindowsCrowdedOther);
        let hundreds = records.windows.len() > MAX_TRANSITIONS;
        self.count_if(hundreds, Happening::HundredsRefused);
        let faults = faults::window_faults(&records);
        self.count_if(!faults.is_empty() && !unfit, Happening::WindowOtherFirst);
        if let ([fault], true) = (&faults[..], unfit) {
            self.count(match fault {
                WindowFault::NoTransition => Happening::WindowNoTransition,
                WindowFault::Repeated => Happening::WindowRepeated,
                WindowFault::Reversed => Happening::WindowReversed,
                WindowFault::BeforeRange => Happening::WindowBeforeRange,
                WindowFault::AfterRange => Happening::WindowAfterRange,
            });
        }
    }

    /// Counts the day of an accepted event and the windows that it meets.
    pub(super) fn event_day(&mut self, change: &Change, event: u16, day: i32, moved: u16) {
        let before = change.before.day;
        let Term { first, last } = Term::RANGE;
        self.count_if(day == before && before != first, Happening::DayEqual);
        self.count_if(day > before, Happening::DayLater);
        self.count_if(day > before && moved == 0, Happening::DayKeptMovingNone);
        self.count_if(day == first, Happening::DayFirst);
        self.count_if(day == last, Happening::DayLast);
        let crosses = before < 0 && before != first && day >= 0;
        self.count_if(crosses, Happening::DayCrossesZero);
        let (open, shut): (Vec<Term>, Vec<Term>) = windows_met(change.plan, change.before, event)
            .into_iter()
            .partition(|term| term.contains(day));
        self.windows_open(&open, day);
        self.windows_shut(&shut, day);
        let kept = !shut.is_empty();
        self.count_if(kept && moved > 0, Happening::WindowShutOthersMove);
        self.count_if(kept && moved == 0, Happening::WindowShutNoneMoves);
    }

    /// Counts the windows within which transitions are taken.
    fn windows_open(&mut self, open: &[Term], day: i32) {
        let some = |holds: fn(&Term, i32) -> bool| open.iter().any(|term| holds(term, day));
        let Term { first, last } = Term::RANGE;
        self.count_if(!open.is_empty(), Happening::WindowOpen);
        self.count_if(some(|t, day| t.first == day), Happening::WindowFirstDay);
        self.count_if(some(|t, day| t.last == day), Happening::WindowLastDay);
        self.count_if(some(|t, _| t.first == t.last), Happening::WindowOfOneDay);
        let starts = day == first && !open.is_empty();
        self.count_if(starts, Happening::WindowOnRangeFirst);
        let ends = day == last && !open.is_empty();
        self.count_if(ends, Happening::WindowOnRangeLast);
    }

    /// Counts the windows outside which transitions are ignored.
    fn windows_shut(&mut self, shut: &[Term], day: i32) {
        let some = |holds: fn(&Term, i32) -> bool| shut.iter().any(|term| holds(term, day));
        self.count_if(some(|t, day| day < t.first), Happening::WindowNotYet);
        self.count_if(some(|t, day| day > t.last), Happening::WindowPassed);
        let before = some(|t, day| day + 1 == t.first);
        self.count_if(before, Happening::WindowDayBefore);
        let after = some(|t, day| day == t.last + 1);
        self.count_if(after, Happening::WindowDayAfter);
    }

    /// Counts the day of a refused event.
    pub(super) fn event_day_refused(&mut self, before: &Ledger, day: i32, refusal: Refusal) {
        let Term { first, last } = Term::RANGE;
        let unfit = !Term::RANGE.contains(day) || day < before.day;
        match refusal {
            Refusal::Day => {
                let falls = Term::RANGE.contains(day);
                self.count_if(falls, Happening::DayFalls);
                self.count_if(day == before.day - 1 && falls, Happening::DayFallsByOne);
                self.count_if(day < first, Happening::DayBeforeRange);
                self.count_if(day > last, Happening::DayAfterRange);
                let extreme = day == i32::MIN || day == i32::MAX;
                self.count_if(extreme, Happening::DayExtreme);
                self.count_if(before.is_over(), Happening::DayRefusedOver);
            }
            Refusal::EventZero => self.count_if(unfit, Happening::EventZeroBeforeDay),
            _ => {}
        }
    }

    /// Counts the day of a ledger that is the plan's own.
    pub(super) fn ledger_day(&mut self, plan: &Plan, single: &Single, violated: &[Clause]) {
        let day = ledger::day_of(&single.words);
        if violated.is_empty() {
            let Term { first, last } = Term::RANGE;
            self.count_if(day == first, Happening::LedgerOfFirstDay);
            self.count_if(day == last, Happening::LedgerOfLastDay);
        }
        let numbered = !matches!(single.call, Call::Entries(_));
        if violated == [Clause::DayInRange] && numbered {
            let tracks = &single.words[LEADING_WORDS..words_needed(single.limit, plan)];
            let over = tracks.iter().all(|&word| word == 0);
            self.count_if(over, Happening::DayUnsoundOver);
            self.count_if(!over, Happening::DayUnsoundAwake);
        }
    }
}
