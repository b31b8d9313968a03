//! Counts what happened over a generated batch, and holds it to floors.

mod days;
mod limits;
mod paths;
mod rights;
mod withdrawals;

pub use paths::most_entries;

use crate::faults;
use crate::generate::journals::{self, Case};
use crate::generate::paths as bounds;
use crate::generate::rng::Rng;
use crate::generate::singles::{self, Call, Single};
use second::journal::{self, Outcome, Record, Records};
use second::ledger::{self, track_words, words_needed, Clause, Ledger, Mode, LEADING_WORDS};
use second::limit::Limit;
use second::manager::{self, Answer};
use second::plan::{self, members, Plan, MAX_TRACKS, NONE};
use second::refusal::Refusal;
use second::rules;

/// Journals of the default batch.
pub const JOURNALS: u64 = 20_000;
/// Single calls for each journal of a batch.
pub const SINGLES_PER_JOURNAL: u64 = 10;

/// Records counted of one journal, so that the longest ones do not swell the
/// table.
const COUNTED: usize = 300;

/// What can happen besides refusals and violated clauses.
#[derive(Clone, Copy, Debug, PartialEq, Eq)]
pub enum Happening {
    EventMoves,
    EventMovesSeveral,
    Closing,
    ClosingTwoAtOnce,
    NestedClosings,
    ClosingWithoutReplacement,
    Finish,
    FinishAllForward,
    FinishBesideSpent,
    FinishByLastEntry,
    FinishByAbandoning,
    FinishByAbandoningTwoUp,
    FinishOfThreeRoots,
    FinishDropsByEvent,
    FinishDropsByFiring,
    HalfWithdrawnByEvent,
    HalfWithdrawnByFiring,
    AllSpentBySignal,
    AllSpentByFiring,
    EntryLeft,
    ScopeLeft,
    DeviationBesideEnded,
    SignalTurnsEnded,
    FinishLeftForward,
    FinishLeftBesideSpent,
    Signal,
    Abandoning,
    AbandoningClimbsTwo,
    AbandoningClimbsThree,
    AbandoningByFiring,
    AbandoningByFiringClimbsTwo,
    Firing,
    FiringDeviates,
    DeviationIntoHosting,
    ScopeReopens,
    FullByDroppedEntry,
    FullBesideSpent,
    FullByReplacement,
    Entry32Installed,
    Height8Accepted,
    LimitsAccepted,
    FewerThanLeading,
    OneWordTooFew,
    OtherLength,
    OtherSum,
    OtherLengthAndSum,
    OtherZeros,
    OtherUnsound,
    Neighbours,
    NeighboursByEvent,
    NeighboursBySignal,
    NeighboursByFire,
    NeighboursByReady,
    NeighboursByEntries,
    NeighboursOver,
    Alike,
    AlikeSound,
    AlikeUnsound,
    TailOf0,
    TailOf2,
    TailOf4,
    TailOf6,
    WindowsAccepted,
    ManyWindowsAccepted,
    FallAfterWindow,
    WindowAfterEnd,
    WindowNoTransition,
    WindowRepeated,
    WindowReversed,
    WindowBeforeRange,
    WindowAfterRange,
    WindowOtherFirst,
    WindowsCrowded,
    WindowsCrowdedOther,
    HundredsRefused,
    WindowOpen,
    WindowFirstDay,
    WindowLastDay,
    WindowOfOneDay,
    WindowOnRangeFirst,
    WindowOnRangeLast,
    WindowNotYet,
    WindowPassed,
    WindowDayBefore,
    WindowDayAfter,
    WindowShutOthersMove,
    WindowShutNoneMoves,
    DayEqual,
    DayLater,
    DayKeptMovingNone,
    DayFirst,
    DayLast,
    DayCrossesZero,
    DayFalls,
    DayFallsByOne,
    DayBeforeRange,
    DayAfterRange,
    DayExtreme,
    DayRefusedOver,
    EventZeroBeforeDay,
    GoesOnAfterDay,
    WithdrawnKind,
    LedgerOfFirstDay,
    LedgerOfLastDay,
    DayUnsoundAwake,
    DayUnsoundOver,
    NoRightsAccepted,
    Rights64Accepted,
    RootShared,
    RootUnheld,
    FallAfterRights,
    RightsCut,
    RightsAfterEnd,
    RightsNoTrack,
    RightsHosted,
    RightsSumZero,
    RightsSumAbove,
    RightsRepeated,
    RightsTooMany,
    RightsMany,
    RightsOtherFirst,
    RightsWindowFirst,
    NoMoveRight,
    NoSignalRight,
    NoFireRight,
    NoRightReady,
    NoRightBeforeNotReady,
    NoRightBeforeFull,
    OverBeforeNoRight,
    EventPartial,
    EventOfOthers,
    FullOfAnother,
    SignalPartial,
    SignalOfOthers,
    SignalFinishes,
    EndBySignal,
    LowestPassesOver,
    LowestOfAnother,
    Society0,
    Society65535,
    LargestZero,
    LargestAbove32,
    BestEmpty,
    BestEmptyWithEntry,
    BestSeveral,
    BestThousand,
    BestFirstReplacement,
    BestInnerReplacement,
    BestLastReplacement,
    BestCodeless,
    BestLong,
    BestFalling,
    UnboundDeviation,
    UnboundReached,
    UnboundUnreached,
    UnboundSelfLoop,
    UnboundSeveral,
    RightsBeforeUnbound,
    WithdrawalBegun,
    WithdrawalMany,
    WithdrawalHosted,
    WithdrawalPartial,
    WithdrawalDeviation,
    WithdrawnWhole,
    NoneReadyHeld,
    At8,
    ReadyAt8,
    EntriesAt8,
    FewWordsAt8,
    OneWordTooFewAt8,
    UnsoundAt8,
    CountAbove8,
    FullTrackAt8,
    Entry8Installed,
    FullAt8,
    FiringAt8,
    FiringOf8,
    WithdrawalAt8,
    Of32At8,
    Of32At8Accepted,
    Of8At32,
    Of8At32Accepted,
}

const HAPPENINGS: usize = 182;

/// Refusals 1 to 29.
const REFUSALS: usize = 29;

/// Floors of the refusals for the default batch. What entries refuses is not
/// among their counts, since it gives no number.
const REFUSAL_FLOORS: [u64; REFUSALS] = [
    15, 300, 400, 400, 300, 200, 400, 200, 250, 200, 200, 200, 200, 200, 200, 200, 5_000, 40_000,
    3_000, 15_000, 6_000, 12_000, 1_800, 10_000, 650, 9_500, 2_000, 2_000, 3_000,
];

/// Names and floors of the happenings, in the order of the enum.
const HAPPENING_FLOORS: [(Happening, &str, u64); HAPPENINGS] = [
    (Happening::EventMoves, "event that moves", 100_000),
    (
        Happening::EventMovesSeveral,
        "event that moves several",
        20_000,
    ),
    (Happening::Closing, "closing", 18_000),
    (
        Happening::ClosingTwoAtOnce,
        "two scopes closing in one call",
        500,
    ),
    (
        Happening::NestedClosings,
        "nested scopes closing in one history",
        1_500,
    ),
    (
        Happening::ClosingWithoutReplacement,
        "closing, replacement 0",
        5_000,
    ),
    (Happening::Finish, "finish", 9_500),
    (
        Happening::FinishAllForward,
        "finish by an event, all roots forward",
        6_500,
    ),
    (
        Happening::FinishBesideSpent,
        "finish by an event, another root spent",
        1_400,
    ),
    (
        Happening::FinishByLastEntry,
        "finish by a firing of a root's last entry",
        800,
    ),
    (
        Happening::FinishByAbandoning,
        "finish by a firing that abandons",
        750,
    ),
    (
        Happening::FinishByAbandoningTwoUp,
        "finish by abandoning two scopes or more",
        150,
    ),
    (
        Happening::FinishOfThreeRoots,
        "finish, ended and spent, of 3 roots or more",
        2_000,
    ),
    (
        Happening::FinishDropsByEvent,
        "entries dropped by a finishing event",
        5_500,
    ),
    (
        Happening::FinishDropsByFiring,
        "entries dropped by a finishing firing",
        1_200,
    ),
    (
        Happening::HalfWithdrawnByEvent,
        "history ending half withdrawn by event",
        400,
    ),
    (
        Happening::HalfWithdrawnByFiring,
        "history ending half withdrawn by firing",
        200,
    ),
    (
        Happening::AllSpentBySignal,
        "several roots spent by a signal, not over",
        1_000,
    ),
    (
        Happening::AllSpentByFiring,
        "several roots spent by a firing, not over",
        1_300,
    ),
    (
        Happening::EntryLeft,
        "not over for an entry of an undoing root",
        1_800,
    ),
    (
        Happening::ScopeLeft,
        "not over for a scope of an undoing root",
        1_300,
    ),
    (
        Happening::DeviationBesideEnded,
        "not over for a deviation, others ended",
        200,
    ),
    (
        Happening::SignalTurnsEnded,
        "signal that turns ended roots alone",
        300,
    ),
    (
        Happening::FinishLeftForward,
        "18: finish left to do, all forward",
        700,
    ),
    (
        Happening::FinishLeftBesideSpent,
        "18: finish left to do, some root spent",
        650,
    ),
    (Happening::Signal, "signal", 20_000),
    (Happening::Abandoning, "abandoning", 9_000),
    (
        Happening::AbandoningClimbsTwo,
        "abandoning, two scopes up",
        1_000,
    ),
    (
        Happening::AbandoningClimbsThree,
        "abandoning, three scopes up or more",
        350,
    ),
    (
        Happening::AbandoningByFiring,
        "abandoning by a firing",
        4_000,
    ),
    (
        Happening::AbandoningByFiringClimbsTwo,
        "abandoning by a firing, two up or more",
        800,
    ),
    (Happening::Firing, "firing", 35_000),
    (Happening::FiringDeviates, "firing with deviation", 4_000),
    (
        Happening::DeviationIntoHosting,
        "deviation into a hosting state",
        1_000,
    ),
    (
        Happening::ScopeReopens,
        "scope that reopens in one history",
        1_500,
    ),
    (
        Happening::FullByDroppedEntry,
        "21 by an entry dropped in the call",
        1_000,
    ),
    (
        Happening::FullBesideSpent,
        "21 by an entry dropped beside a spent root",
        150,
    ),
    (Happening::FullByReplacement, "21 by a replacement", 500),
    (Happening::Entry32Installed, "32nd entry installed", 600),
    (
        Happening::Height8Accepted,
        "plan of height 8 accepted",
        2_000,
    ),
    (
        Happening::LimitsAccepted,
        "plan of 32, 128 and 256 accepted",
        1_500,
    ),
    (
        Happening::FewerThanLeading,
        "17 with fewer than 4 words",
        700,
    ),
    (Happening::OneWordTooFew, "17 with one word too few", 2_200),
    (Happening::OtherLength, "24 by the length alone", 2_000),
    (Happening::OtherSum, "24 by the sum alone", 3_300),
    (Happening::OtherLengthAndSum, "24 by length and sum", 6_000),
    (Happening::OtherZeros, "zeros: 24", 600),
    (Happening::OtherUnsound, "24, and not sound either", 2_000),
    (Happening::Neighbours, "a neighbour's ledger: 24", 4_500),
    (
        Happening::NeighboursByEvent,
        "a neighbour's ledger: 24 by event",
        1_000,
    ),
    (
        Happening::NeighboursBySignal,
        "a neighbour's ledger: 24 by signal",
        1_000,
    ),
    (
        Happening::NeighboursByFire,
        "a neighbour's ledger: 24 by fire",
        1_000,
    ),
    (
        Happening::NeighboursByReady,
        "a neighbour's ledger: 24 by ready",
        1_000,
    ),
    (
        Happening::NeighboursByEntries,
        "a neighbour's entries: the empty part",
        400,
    ),
    (
        Happening::NeighboursOver,
        "a neighbour's over ledger: 24",
        800,
    ),
    (Happening::Alike, "plans alike in both words: not 24", 2_000),
    (
        Happening::AlikeSound,
        "plans alike in both words: sound",
        1_600,
    ),
    (
        Happening::AlikeUnsound,
        "plans alike in both words: 18",
        450,
    ),
    (
        Happening::TailOf0,
        "words tested, no byte after rounds of eight",
        20_000,
    ),
    (
        Happening::TailOf2,
        "words tested, 2 bytes after rounds of eight",
        20_000,
    ),
    (
        Happening::TailOf4,
        "words tested, 4 bytes after rounds of eight",
        40_000,
    ),
    (
        Happening::TailOf6,
        "words tested, 6 bytes after rounds of eight",
        20_000,
    ),
    (
        Happening::WindowsAccepted,
        "plan with windows accepted",
        65_000,
    ),
    (
        Happening::ManyWindowsAccepted,
        "plan of 100 windows or more accepted",
        750,
    ),
    (
        Happening::FallAfterWindow,
        "3: a kind that falls after a window",
        55,
    ),
    (Happening::WindowAfterEnd, "7: a window after the end", 60),
    (
        Happening::WindowNoTransition,
        "25: a window names no transition",
        95,
    ),
    (
        Happening::WindowRepeated,
        "25: a window repeats a transition",
        200,
    ),
    (
        Happening::WindowReversed,
        "25: a window ends before it begins",
        100,
    ),
    (
        Happening::WindowBeforeRange,
        "25: a window begins before the range",
        95,
    ),
    (
        Happening::WindowAfterRange,
        "25: a window ends after the range",
        95,
    ),
    (
        Happening::WindowOtherFirst,
        "8 to 16 before a window's fault",
        350,
    ),
    (
        Happening::WindowsCrowded,
        "25: more windows than transitions",
        150,
    ),
    (
        Happening::WindowsCrowdedOther,
        "8 to 16: more windows than transitions",
        75,
    ),
    (
        Happening::HundredsRefused,
        "refused plan of more than 256 windows",
        50,
    ),
    (
        Happening::WindowOpen,
        "event that takes a step with a window",
        10_000,
    ),
    (
        Happening::WindowFirstDay,
        "step taken on its window's first day",
        6_500,
    ),
    (
        Happening::WindowLastDay,
        "step taken on its window's last day",
        7_000,
    ),
    (
        Happening::WindowOfOneDay,
        "step taken in a window of one day",
        4_000,
    ),
    (
        Happening::WindowOnRangeFirst,
        "step with a window on the range's first day",
        500,
    ),
    (
        Happening::WindowOnRangeLast,
        "step with a window on the range's last day",
        4_000,
    ),
    (
        Happening::WindowNotYet,
        "step ignored before its window",
        1_500,
    ),
    (
        Happening::WindowPassed,
        "step ignored after its window",
        6_500,
    ),
    (
        Happening::WindowDayBefore,
        "step ignored the day before its window",
        500,
    ),
    (
        Happening::WindowDayAfter,
        "step ignored the day after its window",
        900,
    ),
    (
        Happening::WindowShutOthersMove,
        "step ignored, other tracks move",
        5_500,
    ),
    (
        Happening::WindowShutNoneMoves,
        "step ignored, none moves",
        1_500,
    ),
    (
        Happening::DayEqual,
        "event on the last accepted day",
        60_000,
    ),
    (Happening::DayLater, "event on a later day", 40_000),
    (
        Happening::DayKeptMovingNone,
        "later day kept, none moves",
        8_000,
    ),
    (Happening::DayFirst, "event on the range's first day", 4_000),
    (Happening::DayLast, "event on the range's last day", 15_000),
    (
        Happening::DayCrossesZero,
        "event from a day below 0 to 0 or above",
        1_000,
    ),
    (Happening::DayFalls, "26: a falling day", 5_000),
    (
        Happening::DayFallsByOne,
        "26: a day that falls by one",
        2_000,
    ),
    (
        Happening::DayBeforeRange,
        "26: a day before the range",
        2_000,
    ),
    (Happening::DayAfterRange, "26: a day after the range", 2_000),
    (
        Happening::DayExtreme,
        "26: the least or the greatest number",
        850,
    ),
    (Happening::DayRefusedOver, "26 on an over ledger", 1_000),
    (
        Happening::EventZeroBeforeDay,
        "19 on a day that would be 26",
        850,
    ),
    (
        Happening::GoesOnAfterDay,
        "journal that moves on after 26",
        2_000,
    ),
    (Happening::WithdrawnKind, "23 by kind 16", 100),
    (
        Happening::LedgerOfFirstDay,
        "ledger of the range's first day, sound",
        10_000,
    ),
    (
        Happening::LedgerOfLastDay,
        "ledger of the range's last day, sound",
        7_500,
    ),
    (
        Happening::DayUnsoundAwake,
        "18: the day out of range, not over",
        900,
    ),
    (
        Happening::DayUnsoundOver,
        "18: the day out of range, over",
        650,
    ),
    (
        Happening::NoRightsAccepted,
        "plan without rights accepted",
        3_000,
    ),
    (
        Happening::Rights64Accepted,
        "plan of 64 rights records accepted",
        2_500,
    ),
    (
        Happening::RootShared,
        "plan with a root of several societies",
        35_000,
    ),
    (
        Happening::RootUnheld,
        "plan with a root that no society holds",
        3_500,
    ),
    (
        Happening::FallAfterRights,
        "3: a kind that falls after a rights record",
        50,
    ),
    (
        Happening::RightsCut,
        "5: a rights record that is cut short",
        25,
    ),
    (
        Happening::RightsAfterEnd,
        "7: a rights record after the end",
        55,
    ),
    (
        Happening::RightsNoTrack,
        "27: a rights record names no track",
        450,
    ),
    (
        Happening::RightsHosted,
        "27: a rights record names a hosted track",
        300,
    ),
    (Happening::RightsSumZero, "27: a sum of 0", 350),
    (Happening::RightsSumAbove, "27: a sum above 7", 350),
    (Happening::RightsRepeated, "27: a pair is repeated", 400),
    (Happening::RightsTooMany, "27: a 65th rights record", 900),
    (Happening::RightsMany, "27: 100 rights records or more", 300),
    (
        Happening::RightsOtherFirst,
        "8 to 16 or 25 before a fault of rights",
        700,
    ),
    (
        Happening::RightsWindowFirst,
        "25 before a fault of rights",
        130,
    ),
    (Happening::NoMoveRight, "28 by an event", 4_500),
    (Happening::NoSignalRight, "28 by a signal", 3_000),
    (Happening::NoFireRight, "28 by a firing", 3_000),
    (
        Happening::NoRightReady,
        "28 by a firing of a ready track",
        800,
    ),
    (
        Happening::NoRightBeforeNotReady,
        "28 by a firing of a track not ready",
        2_500,
    ),
    (
        Happening::NoRightBeforeFull,
        "28 by an event that would be 21",
        150,
    ),
    (
        Happening::OverBeforeNoRight,
        "20 by a society without the right",
        1_200,
    ),
    (
        Happening::EventPartial,
        "event that moves some, others by no right",
        5_000,
    ),
    (
        Happening::EventOfOthers,
        "event that moves none, others by no right",
        1_200,
    ),
    (
        Happening::FullOfAnother,
        "event beside a full track of another's",
        130,
    ),
    (
        Happening::SignalPartial,
        "signal that turns some, leaves some forward",
        5_000,
    ),
    (
        Happening::SignalOfOthers,
        "signal that turns none, leaves some forward",
        1_000,
    ),
    (Happening::SignalFinishes, "finish by a signal", 350),
    (Happening::EndBySignal, "history ending by a signal", 200),
    (
        Happening::LowestPassesOver,
        "lowest firing that passes over another's",
        110,
    ),
    (
        Happening::LowestOfAnother,
        "22 by a lowest firing, another's ready",
        400,
    ),
    (Happening::Society0, "call of society 0 accepted", 12_000),
    (
        Happening::Society65535,
        "call of society 65535 accepted",
        13_000,
    ),
    (Happening::LargestZero, "largest of 0", 15_000),
    (Happening::LargestAbove32, "largest above 32", 600),
    (Happening::BestEmpty, "best path empty", 17_000),
    (
        Happening::BestEmptyWithEntry,
        "best path empty, with a replacement",
        2_000,
    ),
    (Happening::BestSeveral, "several equal best paths", 22_000),
    (
        Happening::BestThousand,
        "1,000 equal best paths or more",
        1_500,
    ),
    (
        Happening::BestFirstReplacement,
        "best path, first state's replacement",
        3_500,
    ),
    (
        Happening::BestInnerReplacement,
        "best path, replacement in its midst",
        2_700,
    ),
    (
        Happening::BestLastReplacement,
        "best path, last state's replacement decides",
        1_500,
    ),
    (
        Happening::BestCodeless,
        "best path, transition without a code",
        5_000,
    ),
    (
        Happening::BestLong,
        "best path of 100 transitions or more",
        120,
    ),
    (
        Happening::BestFalling,
        "best path of 3 or more, state numbers falling",
        3_000,
    ),
    (Happening::UnboundDeviation, "29: a deviation alone", 800),
    (Happening::UnboundReached, "29: a reached cycle alone", 350),
    (
        Happening::UnboundUnreached,
        "29: an unreached cycle alone",
        650,
    ),
    (Happening::UnboundSelfLoop, "29: a self-loop alone", 700),
    (Happening::UnboundSeveral, "29 for several reasons", 600),
    (
        Happening::RightsBeforeUnbound,
        "27 of a plan that would be 29",
        330,
    ),
    (
        Happening::WithdrawalBegun,
        "withdrawal begun, entries held",
        4_000,
    ),
    (
        Happening::WithdrawalMany,
        "withdrawal begun, 5 entries or more",
        1_200,
    ),
    (
        Happening::WithdrawalHosted,
        "withdrawal begun, entries in hosted tracks",
        2_500,
    ),
    (
        Happening::WithdrawalPartial,
        "withdrawal begun, some roots turned before",
        350,
    ),
    (
        Happening::WithdrawalDeviation,
        "all turned, a deviation held",
        4_300,
    ),
    (
        Happening::WithdrawnWhole,
        "withdrawn to the last entry",
        3_200,
    ),
    (
        Happening::NoneReadyHeld,
        "firing that leaves none ready, entries held",
        1_700,
    ),
    (Happening::At8, "call at limit 8", 65_000),
    (Happening::ReadyAt8, "ready at limit 8", 7_500),
    (Happening::EntriesAt8, "entries at limit 8", 4_000),
    (Happening::FewWordsAt8, "17 at limit 8", 2_200),
    (
        Happening::OneWordTooFewAt8,
        "17 at limit 8, one word too few",
        900,
    ),
    (Happening::UnsoundAt8, "18 at limit 8", 12_500),
    (
        Happening::CountAbove8,
        "18 at limit 8, a count of 9 to 32",
        500,
    ),
    (
        Happening::FullTrackAt8,
        "sound ledger with a full track at limit 8",
        7_500,
    ),
    (
        Happening::Entry8Installed,
        "8th entry installed at limit 8",
        230,
    ),
    (Happening::FullAt8, "21 at limit 8", 1_250),
    (Happening::FiringAt8, "firing at limit 8", 1_800),
    (
        Happening::FiringOf8,
        "firing of a full track at limit 8",
        330,
    ),
    (
        Happening::WithdrawalAt8,
        "last forward tracks turned at limit 8",
        1_150,
    ),
    (Happening::Of32At8, "ledger of limit 32 read at 8", 1_500),
    (
        Happening::Of32At8Accepted,
        "ledger of limit 32 read at 8, accepted",
        0,
    ),
    (Happening::Of8At32, "ledger of limit 8 read at 32", 2_900),
    (
        Happening::Of8At32Accepted,
        "ledger of limit 8 read at 32, accepted",
        0,
    ),
];

/// Floor of each clause violated alone for the default batch.
const CLAUSE_FLOOR: u64 = 1_200;

/// A row of the table.
pub struct Row {
    pub name: String,
    pub count: u64,
    /// The floor for the default batch.
    pub floor: u64,
}

/// The counts of a batch.
#[derive(Clone, Debug)]
pub struct Coverage {
    refusals: [u64; REFUSALS],
    happenings: [u64; HAPPENINGS],
    clauses: [u64; Clause::COUNT],
}

impl Default for Coverage {
    fn default() -> Coverage {
        Coverage {
            refusals: [0; REFUSALS],
            happenings: [0; HAPPENINGS],
            clauses: [0; Clause::COUNT],
        }
    }
}

/// Generates a batch and counts what happens in it: journals, single calls, and
/// as many plans as journals for the largest number of entries.
pub fn batch(seed: u64, journals: u64) -> Coverage {
    let mut coverage = Coverage::default();
    for index in 0..journals {
        let mut rng = Rng::for_case(seed, 1, index);
        coverage.journal(&journals::case(&mut rng, MAX_TRACKS));
    }
    for index in 0..journals * SINGLES_PER_JOURNAL {
        let mut rng = Rng::for_case(seed, 2, index);
        coverage.single(&singles::single(&mut rng, MAX_TRACKS));
    }
    for index in 0..journals {
        let mut rng = Rng::for_case(seed, 5, index);
        coverage.plan(&bounds::any_plan(&mut rng));
    }
    coverage
}

/// A call's ledger before and after, under its plan.
struct Change<'a> {
    plan: &'a Plan,
    before: &'a Ledger,
    after: &'a Ledger,
}

/// How the roots of a ledger stand: forward in a final state, undoing with
/// nothing held and no open scope, undoing with an entry and no open scope,
/// undoing with an open scope, forward in another state.
#[derive(Clone, Copy, Default)]
struct Roots {
    ended: usize,
    spent: usize,
    holding: usize,
    scoped: usize,
    moving: usize,
}

impl Roots {
    fn of(plan: &Plan, ledger: &Ledger) -> Roots {
        let mut roots = Roots::default();
        for t in plan.roots() {
            let count = if rules::has_ended(plan, ledger, t) {
                &mut roots.ended
            } else if ledger.tracks[t].mode != Mode::Undoing {
                &mut roots.moving
            } else if ledger.has_open_scope(plan, t) {
                &mut roots.scoped
            } else if ledger.tracks[t].held() > 0 {
                &mut roots.holding
            } else {
                &mut roots.spent
            };
            *count += 1;
        }
        roots
    }

    fn all_spent(self) -> bool {
        self.ended + self.holding + self.scoped + self.moving == 0
    }

    fn undoing(self) -> usize {
        self.spent + self.holding + self.scoped
    }
}

/// What a history has seen so far, by hosting state.
struct Past {
    closed: Vec<bool>,
    opened: Vec<bool>,
}

impl Past {
    fn new(plan: &Plan, ledger: &Ledger) -> Past {
        let open = |s| ledger.is_open(plan, s);
        Past {
            closed: vec![false; plan.state_count()],
            opened: plan.state_numbers().map(open).collect(),
        }
    }
}

impl Coverage {
    /// The rows of the table.
    pub fn rows(&self) -> Vec<Row> {
        let mut rows = self.refusal_rows();
        rows.extend(HAPPENING_FLOORS.map(|(happening, name, floor)| Row {
            name: name.to_string(),
            count: self.happenings[happening as usize],
            floor,
        }));
        rows.extend(Clause::all().map(|clause| Row {
            name: format!("violated alone: {clause:?}"),
            count: self.clauses[clause as usize],
            floor: CLAUSE_FLOOR,
        }));
        rows
    }

    fn refusal_rows(&self) -> Vec<Row> {
        let row = |(at, &floor): (usize, &u64)| Row {
            name: format!("refusal {}", at + 1),
            count: self.refusals[at],
            floor,
        };
        REFUSAL_FLOORS.iter().enumerate().map(row).collect()
    }

    fn count(&mut self, happening: Happening) {
        self.happenings[happening as usize] += 1;
    }

    fn count_if(&mut self, happened: bool, happening: Happening) {
        self.happenings[happening as usize] += u64::from(happened);
    }

    fn refused(&mut self, refusal: Refusal) {
        self.refusals[usize::from(refusal.number()) - 1] += 1;
    }

    /// Counts a whole run of `unwind`.
    pub fn journal(&mut self, case: &Case) {
        match journal::open(&case.plan, &case.journal) {
            Ok(plan) => self.history(&plan, &case.journal),
            Err(refusal) => {
                self.plan_refused(&case.plan, refusal);
                self.refused(refusal);
            }
        }
    }

    fn history(&mut self, plan: &Plan, journal: &[u8]) {
        self.accepted(plan);
        let mut ledger = rules::begin(Limit::MAIN, plan);
        let mut past = Past::new(plan, &ledger);
        let mut nested = false;
        let mut reopened = false;
        let (mut day_refused, mut goes_on) = (false, false);
        for record in Records::new(journal).take(COUNTED) {
            match record {
                Ok(record) => {
                    let before = ledger.clone();
                    let outcome = journal::perform(plan, &mut ledger, record);
                    let change = Change {
                        plan,
                        before: &before,
                        after: &ledger,
                    };
                    self.outcome(&change, record, outcome);
                    let closing = matches!(outcome, Outcome::Event(..));
                    nested |= closing && change.closes_around(&mut past);
                    reopened |= change.reopens(&mut past);
                    day_refused |= outcome == Outcome::Refused(Refusal::Day);
                    let moves = matches!(outcome, Outcome::Event(_, m) if m.moved > 0);
                    goes_on |= day_refused && moves;
                    self.half_withdrawn(&change, outcome);
                }
                Err(refusal) => {
                    let withdrawn = faults::broken_kind(journal) == Some(16);
                    self.count_if(withdrawn, Happening::WithdrawnKind);
                    self.refused(refusal)
                }
            }
        }
        self.count_if(goes_on, Happening::GoesOnAfterDay);
        self.count_if(nested, Happening::NestedClosings);
        self.count_if(reopened, Happening::ScopeReopens);
    }

    /// Counts the end of a history that some root was taken back in.
    fn half_withdrawn(&mut self, change: &Change, outcome: Outcome) {
        match outcome {
            Outcome::Event(..) if change.ends_half_withdrawn() => {
                self.count(Happening::HalfWithdrawnByEvent)
            }
            Outcome::Fire(..) if change.ends_half_withdrawn() => {
                self.count(Happening::HalfWithdrawnByFiring)
            }
            Outcome::Signal(_) if change.finishes() => self.count(Happening::EndBySignal),
            _ => {}
        }
    }

    fn accepted(&mut self, plan: &Plan) {
        self.windows_accepted(plan);
        self.rights_accepted(plan);
        let height = plan.heights().into_iter().max();
        self.count_if(height == Some(8), Happening::Height8Accepted);
        let sizes = (
            plan.track_count(),
            plan.state_count(),
            plan.transition_count(),
        );
        self.count_if(sizes == (32, 128, 256), Happening::LimitsAccepted);
    }

    fn outcome(&mut self, change: &Change, record: Record, outcome: Outcome) {
        self.rights_met(change, record, outcome);
        self.outcome_at_8(change, outcome);
        match (outcome, record) {
            (Outcome::Event(_, m), Record::Event(event, day, _)) => {
                self.event_day(change, event, day, m.moved);
                self.event(change, m.moved)
            }
            (Outcome::Event(..), _) => unreachable!("an event by another record"),
            (Outcome::Signal(_), _) => self.signal(change),
            (Outcome::Fire(_, entry), _) => self.firing(change, entry.deviation),
            (Outcome::Refused(refusal), Record::Event(event, day, society)) => {
                self.event_day_refused(change.before, day, refusal);
                if refusal == Refusal::Full {
                    self.full(change.plan, change.before, (event, day, society));
                }
                self.refused(refusal)
            }
            (Outcome::Refused(refusal), _) => self.refused(refusal),
        }
    }

    fn event(&mut self, change: &Change, moved: u16) {
        self.count_if(moved > 0, Happening::EventMoves);
        self.count_if(moved > 1, Happening::EventMovesSeveral);
        self.finish_by_event(change);
        let closed = change.fallen_asleep();
        for &hosting in &closed {
            self.count(Happening::Closing);
            let none = change.plan.replacement(hosting) == 0;
            self.count_if(none, Happening::ClosingWithoutReplacement);
        }
        self.count_if(closed.len() > 1, Happening::ClosingTwoAtOnce);
        let main = change.before.limit == Limit::MAIN;
        self.count_if(main && change.fills(), Happening::Entry32Installed);
    }

    fn finish_by_event(&mut self, change: &Change) {
        if change.finishes() {
            self.finish(change);
            let beside = change.ends_half_withdrawn();
            self.count_if(!beside, Happening::FinishAllForward);
            self.count_if(beside, Happening::FinishBesideSpent);
            let holds = change.before.total_held() > 0;
            self.count_if(holds, Happening::FinishDropsByEvent);
        } else {
            self.finish_missed(change);
        }
    }

    fn finish_by_firing(&mut self, change: &Change, deviation: u16) {
        let after = Roots::of(change.plan, change.after);
        if change.finishes() {
            self.finish(change);
            let climb = change.climb(&change.fallen_asleep());
            self.count_if(climb == 0, Happening::FinishByLastEntry);
            self.count_if(climb > 0, Happening::FinishByAbandoning);
            self.count_if(climb > 1, Happening::FinishByAbandoningTwoUp);
            let drops = change.before.total_held() > 1;
            self.count_if(drops, Happening::FinishDropsByFiring);
        } else if after.all_spent() {
            self.count_if(after.spent > 1, Happening::AllSpentByFiring);
        } else {
            self.finish_missed(change);
            let alone = after.ended > 0 && after.moving == 1 && after.holding + after.scoped == 0;
            let deviates = alone && deviation != NONE;
            self.count_if(deviates, Happening::DeviationBesideEnded);
        }
    }

    fn finish(&mut self, change: &Change) {
        self.count(Happening::Finish);
        let three = change.plan.roots().count() >= 3;
        let half = change.ends_half_withdrawn();
        self.count_if(three && half, Happening::FinishOfThreeRoots);
    }

    /// Counts what keeps a ledger from being over whose forward roots have all
    /// ended.
    fn finish_missed(&mut self, change: &Change) {
        let after = Roots::of(change.plan, change.after);
        if after.ended > 0 && after.moving == 0 {
            self.count_if(after.scoped == 0, Happening::EntryLeft);
            self.count_if(after.holding == 0, Happening::ScopeLeft);
        }
    }

    fn signal(&mut self, change: &Change) {
        self.count(Happening::Signal);
        self.withdrawal_begun(change);
        self.abandoning(change);
        let before = Roots::of(change.plan, change.before);
        let after = Roots::of(change.plan, change.after);
        let spent = after.all_spent() && !before.all_spent();
        self.count_if(spent && after.spent > 1, Happening::AllSpentBySignal);
        let turns = change.turns_ended() && before.moving == 0;
        self.count_if(turns, Happening::SignalTurnsEnded);
        if change.finishes() {
            self.finish(change);
        }
    }

    fn abandoning(&mut self, change: &Change) {
        let abandoned = change.fallen_asleep();
        for _ in &abandoned {
            self.count(Happening::Abandoning);
        }
        let climb = change.climb(&abandoned);
        self.count_if(climb == 2, Happening::AbandoningClimbsTwo);
        self.count_if(climb > 2, Happening::AbandoningClimbsThree);
    }

    fn firing(&mut self, change: &Change, deviation: u16) {
        self.count(Happening::Firing);
        self.count_if(deviation != NONE, Happening::FiringDeviates);
        let hosting = change.plan.scope(deviation) != 0;
        self.count_if(hosting, Happening::DeviationIntoHosting);
        self.finish_by_firing(change, deviation);
        self.withdrawn(change);
        self.abandoning(change);
        let climb = change.climb(&change.fallen_asleep());
        self.count_if(climb > 0, Happening::AbandoningByFiring);
        self.count_if(climb > 1, Happening::AbandoningByFiringClimbsTwo);
    }

    /// Finds why 21 applied, from what the event does once full tracks have
    /// given up their newest entry.
    fn full(&mut self, plan: &Plan, before: &Ledger, call: (u16, i32, u16)) {
        let (event, day, society) = call;
        let mut eased = before.clone();
        let limit = before.limit;
        for track in eased.tracks.iter_mut().filter(|t| t.is_full(limit)) {
            track.remove();
        }
        let moves = rules::chosen_moves(plan, &eased, event, day, society);
        let mut after = eased.clone();
        if rules::event(plan, &mut after, event, day, society).is_err() {
            return;
        }
        let full = |t: usize| before.tracks[t].is_full(limit);
        let dropped = moves
            .iter()
            .any(|&(t, x)| full(t) && x.code != 0 && !after.tracks[t].is_awake());
        let change = Change {
            plan,
            before,
            after: &after,
        };
        let replaced = change
            .fallen_asleep()
            .iter()
            .any(|&s| full(plan.track_of(s)) && plan.replacement(s) != 0);
        self.count_if(dropped, Happening::FullByDroppedEntry);
        let beside = dropped && change.ends_half_withdrawn();
        self.count_if(beside, Happening::FullBesideSpent);
        self.count_if(replaced, Happening::FullByReplacement);
    }

    /// Counts a single call.
    pub fn single(&mut self, single: &Single) {
        self.limits(single);
        let plan = match plan::read(&single.plan) {
            Ok(plan) => plan,
            Err(refusal) => {
                self.plan_refused(&single.plan, refusal);
                return self.answer(single, None);
            }
        };
        self.accepted(&plan);
        let needed = words_needed(single.limit, &plan);
        if single.words.len() < needed {
            self.few_words(needed, single.words.len());
            return self.answer(single, None);
        }
        self.tail(&plan);
        if !ledger::is_of(&plan, &single.words) {
            self.other_plan(&plan, single);
            return self.answer(single, None);
        }
        let violated = ledger::violated(single.limit, &plan, &single.words);
        self.alike(single, violated.is_empty());
        self.ledger_day(&plan, single, &violated);
        if let [clause] = violated[..] {
            self.clauses[clause as usize] += 1;
            self.finish_left(&plan, single, clause);
        }
        self.answer(single, Some(&plan).filter(|_| violated.is_empty()));
    }

    /// Counts a call that is refused as 18 for a finish left to do.
    fn finish_left(&mut self, plan: &Plan, single: &Single, clause: Clause) {
        let numbered = !matches!(single.call, Call::Entries(_));
        if clause == Clause::NoFinishLeft && numbered {
            let mode = |t| track_words(single.limit, &single.words, t)[0];
            let spent = plan.roots().any(|t| mode(t) == 2);
            self.count_if(!spent, Happening::FinishLeftForward);
            self.count_if(spent, Happening::FinishLeftBesideSpent);
        }
    }

    fn few_words(&mut self, needed: usize, words: usize) {
        self.count_if(words < LEADING_WORDS, Happening::FewerThanLeading);
        let next = words + 1 == needed;
        self.count_if(next, Happening::OneWordTooFew);
    }

    /// Counts a call that tests the leading words, by the bytes of the plan that
    /// rounds of eight leave.
    fn tail(&mut self, plan: &Plan) {
        self.count(match plan.length() % 8 {
            0 => Happening::TailOf0,
            2 => Happening::TailOf2,
            4 => Happening::TailOf4,
            6 => Happening::TailOf6,
            _ => unreachable!("an accepted plan of odd length"),
        });
    }

    /// Counts a call that is refused as 24.
    fn other_plan(&mut self, plan: &Plan, single: &Single) {
        let words = &single.words[..words_needed(single.limit, plan)];
        let (length, sum) = (words[0] != plan.length(), words[1] != plan.sum());
        self.count_if(length && !sum, Happening::OtherLength);
        self.count_if(sum && !length, Happening::OtherSum);
        self.count_if(length && sum, Happening::OtherLengthAndSum);
        self.count_if(words.iter().all(|&w| w == 0), Happening::OtherZeros);
        let sound = ledger::is_sound(single.limit, plan, words);
        self.count_if(!sound, Happening::OtherUnsound);
        if single.begun_under.is_some() {
            self.neighbours(single.limit, words, single.call);
        }
    }

    /// Counts a call on a ledger that was begun under a neighbour's plan.
    fn neighbours(&mut self, limit: Limit, words: &[u16], call: Call) {
        let by = match call {
            Call::Event(..) => Happening::NeighboursByEvent,
            Call::Signal(_) => Happening::NeighboursBySignal,
            Call::Fire(..) => Happening::NeighboursByFire,
            Call::Ready => Happening::NeighboursByReady,
            Call::Entries(track) if track_words(limit, words, usize::from(track))[2] > 0 => {
                Happening::NeighboursByEntries
            }
            Call::Entries(_) | Call::DateOfDay(_) | Call::DayOfDate(_) => return,
        };
        self.count(by);
        self.count(Happening::Neighbours);
        let over = words[LEADING_WORDS..].iter().all(|&w| w == 0);
        self.count_if(over, Happening::NeighboursOver);
    }

    /// Counts a call on a ledger that was begun under a plan alike in both
    /// words.
    fn alike(&mut self, single: &Single, sound: bool) {
        if single.begun_under.is_some() {
            self.count(Happening::Alike);
            self.count_if(sound, Happening::AlikeSound);
            self.count_if(!sound, Happening::AlikeUnsound);
        }
    }

    /// Makes the call; `plan` is given where the ledger is its own and sound.
    fn answer(&mut self, single: &Single, plan: Option<&Plan>) {
        match (plan, single.call.record()) {
            (Some(plan), Some(record)) => {
                let before = Ledger::decode(single.limit, plan, &single.words);
                let mut after = before.clone();
                let outcome = journal::perform(plan, &mut after, record);
                let change = Change {
                    plan,
                    before: &before,
                    after: &after,
                };
                self.outcome(&change, record, outcome);
            }
            (Some(_), None) => {}
            (None, _) => self.refused_before(single),
        }
    }

    /// Counts the refusal of a plan or a ledger, which every call but entries
    /// gives.
    fn refused_before(&mut self, single: &Single) {
        let numbered = single.call == Call::Ready || single.call.record().is_some();
        match manager::ready(single.limit, &single.plan, &single.words) {
            Answer::Refused(refusal) if numbered => self.refused(refusal),
            Answer::Refused(_) => {}
            Answer::Done(_) => unreachable!("a call answered that is to be refused"),
        }
    }
}

impl Change<'_> {
    /// Whether the call put every track to sleep.
    fn finishes(&self) -> bool {
        self.after.is_over() && !self.before.is_over()
    }

    /// Whether it did so with some root undoing.
    fn ends_half_withdrawn(&self) -> bool {
        self.finishes() && Roots::of(self.plan, self.before).undoing() > 0
    }

    /// Whether it turned a root that had ended.
    fn turns_ended(&self) -> bool {
        let turned = |t: usize| self.after.tracks[t].mode == Mode::Undoing;
        let ended = |t: usize| rules::has_ended(self.plan, self.before, t);
        self.plan.roots().any(|t| ended(t) && turned(t))
    }

    /// The scopes open before and asleep after, by hosting state.
    fn fallen_asleep(&self) -> Vec<u16> {
        self.plan
            .hosting_states()
            .filter(|&s| self.before.is_open(self.plan, s) && !self.after.is_open(self.plan, s))
            .collect()
    }

    /// Whether a track was given the last entry that the limit allows.
    fn fills(&self) -> bool {
        let limit = self.before.limit;
        let mut pairs = self.before.tracks.iter().zip(&self.after.tracks);
        pairs.any(|(b, a)| b.held() < a.held() && a.is_full(limit))
    }

    /// The longest run of scopes abandoned one around the other.
    fn climb(&self, abandoned: &[u16]) -> usize {
        let around = |s: u16| {
            let host = self.plan.host(self.plan.track_of(s));
            Some(host).filter(|h| abandoned.contains(h))
        };
        let run = |&s: &u16| std::iter::successors(Some(s), |&s| around(s)).count();
        abandoned.iter().map(run).max().unwrap_or(0)
    }

    /// Notes the scopes closed; whether one lay around one closed before.
    fn closes_around(&self, past: &mut Past) -> bool {
        let mut nested = false;
        for hosting in self.fallen_asleep() {
            let mut inner = members(self.plan.scope(hosting)).flat_map(|t| self.plan.states_of(t));
            nested |= inner.any(|s| past.closed[usize::from(s)]);
            past.closed[usize::from(hosting)] = true;
        }
        nested
    }

    /// Notes the scopes opened; whether one was open earlier.
    fn reopens(&self, past: &mut Past) -> bool {
        let mut again = false;
        for hosting in self.plan.hosting_states() {
            let opens =
                !self.before.is_open(self.plan, hosting) && self.after.is_open(self.plan, hosting);
            let seen = &mut past.opened[usize::from(hosting)];
            again |= opens && *seen;
            *seen |= opens;
        }
        again
    }
}
