//! The proved retraction manager for register plans.
//!
//! A [`Plan`] owns the bytes of a plan that was accepted; a [`Ledger`] belongs
//! to a plan, has the words that it needs, led by the plan's length and sum and
//! by the last accepted day, and is sound at all times. It keeps the [`Limit`]
//! that it was begun at, the most entries that a track holds. Each call either
//! answers its figures or is refused with the paper's number, and a refused
//! call changes nothing. The calls are those of `include/retraction.h`, each
//! proved to meet the paper's rules; this crate only unpacks their answers.
//!
//! An event has a day. Day 0 is 1 January 1900; [`day_of_date`] and
//! [`date_of_day`] go from dates to days and back.
//!
//! An event, a signal and a firing each have a society, which is a number. The
//! plan's rights records say over which roots, and every track under them, a
//! society may move, signal and fire; without a record nobody may.
//!
//! [`Plan::largest`] tells how many entries a track can ever hold, of the plan
//! alone.
//!
//! ```
//! use retraction::{day_of_date, Date, Limit, Moved, Plan, Refusal};
//!
//! # fn main() -> Result<(), Refusal> {
//! // One track, whose first step on event 10 is taken back by retraction 50. It
//! // is taken in January 1900 alone. Society 1 has every right, society 2 none.
//! let plan = Plan::read([
//!     6, 0, 1, 0, 255, 255, // track 0: a root
//!     10, 0, 2, 0, 0, 0, 0, 0, 0, 0, // state 0 of track 0
//!     10, 0, 2, 0, 0, 0, 0, 0, 0, 0, // state 1 of track 0
//!     14, 0, 3, 0, 0, 0, 10, 0, 50, 0, 255, 255, 1, 0, // from 0 on event 10, code 50, to 1
//!     14, 0, 5, 0, 0, 0, 0, 0, 0, 0, 30, 0, 0, 0, // transition 0 on days 0 to 30
//!     10, 0, 6, 0, 1, 0, 0, 0, 7, 0, // society 1 over track 0: 1 move, 2 signal, 4 fire
//!     4, 0, 4, 0, // end
//! ])?;
//! let mut ledger = plan.begin(Limit::Main);
//! let christmas = day_of_date(Date { year: 1899, month: 12, day: 25 })?;
//! assert_eq!(ledger.event(10, christmas, 1)?, Moved { moved: 0, closed: 0 });
//! assert_eq!(ledger.event(10, 0, 1)?, Moved { moved: 1, closed: 0 });
//! assert_eq!(ledger.event(10, christmas, 1), Err(Refusal::Day));
//! assert_eq!(ledger.signal(2), Err(Refusal::NoRight));
//! assert_eq!(ledger.signal(1)?, 1);
//! assert_eq!(ledger.ready().collect::<Vec<_>>(), [0]);
//! assert_eq!(ledger.fire(0, 1)?.code, 50);
//! assert_eq!(ledger.fire(0, 1), Err(Refusal::NotReady));
//! # Ok(())
//! # }
//! ```

mod limit;
pub mod raw;
mod refusal;

pub use limit::Limit;
pub use refusal::Refusal;

/// Words of a ledger before those of its tracks: the plan's length in bytes,
/// the sum modulo 65,536 of its bytes as little-endian 16-bit numbers, and two
/// for the last accepted day, a signed 32-bit number, its low word first.
pub const LEADING_WORDS: usize = 4;

/// The first day of the range, 1 January 1600: begin leaves it as the last
/// accepted one.
pub const FIRST_DAY: i32 = -109_573;

/// The last day of the range, 31 December 2399.
pub const LAST_DAY: i32 = 182_620;

/// In a plan and in a ledger: a deviation or a host that is none.
pub const NONE: u16 = 65535;

/// How many tracks, states and transitions a plan has.
#[derive(Clone, Copy, Debug, PartialEq, Eq)]
pub struct Counts {
    pub tracks: u16,
    pub states: u16,
    pub transitions: u16,
}

/// What an event did.
#[derive(Clone, Copy, Debug, PartialEq, Eq)]
#[must_use]
pub struct Moved {
    /// Tracks moved.
    pub moved: u16,
    /// Scopes closed.
    pub closed: u16,
}

/// A retraction held by a track, or fired.
#[derive(Clone, Copy, Debug, PartialEq, Eq)]
#[must_use]
pub struct Entry {
    /// The retraction code.
    pub code: u16,
    /// The state in which the track goes forward again once it is fired.
    pub deviation: Option<u16>,
}

/// How many entries a track can ask for, and how it comes to that.
#[derive(Clone, Debug, PartialEq, Eq)]
#[must_use]
pub struct Largest {
    /// The largest number of entries along any path of the track. A track holds
    /// no more than its ledger's limit; a figure above that is told as it is.
    pub figure: u16,
    /// A path with so many: transition numbers in order. The first leaves the
    /// track's first state, each other one the state that the one before it
    /// leads to. No path has more entries; which of several with as many it is,
    /// is free.
    pub path: Vec<u16>,
}

/// A date of the Gregorian calendar; months and days are counted from 1.
#[derive(Clone, Copy, Debug, PartialEq, Eq, PartialOrd, Ord, Hash)]
pub struct Date {
    pub year: u16,
    pub month: u16,
    pub day: u16,
}

/// The date of a day; refused as 26 where the day is out of range.
///
/// ```
/// use retraction::{date_of_day, Date, Refusal, LAST_DAY};
/// assert_eq!(date_of_day(0), Ok(Date { year: 1900, month: 1, day: 1 }));
/// assert_eq!(date_of_day(-1), Ok(Date { year: 1899, month: 12, day: 31 }));
/// assert_eq!(date_of_day(LAST_DAY + 1), Err(Refusal::Day));
/// ```
pub fn date_of_day(day: i32) -> Result<Date, Refusal> {
    raw::date_of_day(day)
}

/// The day of a date; refused as 26 where there is no such date, or its year is
/// not 1600 to 2399.
///
/// ```
/// use retraction::{day_of_date, Date, Refusal};
/// assert_eq!(day_of_date(Date { year: 1900, month: 3, day: 1 }), Ok(59));
/// assert_eq!(day_of_date(Date { year: 1900, month: 2, day: 29 }), Err(Refusal::Day));
/// ```
pub fn day_of_date(date: Date) -> Result<i32, Refusal> {
    raw::day_of_date(date)
}

/// An accepted plan: it owns its bytes.
#[derive(Clone, Debug, PartialEq, Eq)]
#[must_use]
pub struct Plan {
    bytes: Vec<u8>,
    counts: Counts,
}

impl Plan {
    /// Reads a plan's bytes; refused as 2 to 16, 25 or 27 where they do not
    /// fit.
    ///
    /// ```
    /// use retraction::{Plan, Refusal};
    /// assert_eq!(Plan::read([4, 0, 4, 0]), Err(Refusal::NoTrack));
    /// ```
    pub fn read(bytes: impl Into<Vec<u8>>) -> Result<Plan, Refusal> {
        let bytes = bytes.into();
        let counts = raw::read(&bytes)?;
        Ok(Plan { bytes, counts })
    }

    /// The bytes, as they were read.
    #[must_use]
    pub fn bytes(&self) -> &[u8] {
        &self.bytes
    }

    /// How many tracks, states and transitions it has.
    #[must_use]
    pub fn counts(&self) -> Counts {
        self.counts
    }

    /// The words that a ledger under this plan has at a limit: the leading
    /// ones, and those of each track.
    #[must_use]
    pub fn ledger_words(&self, limit: Limit) -> usize {
        limit.ledger_words(usize::from(self.counts.tracks))
    }

    /// How many entries a track can ask for: the largest number along any path
    /// from its first state, one for each transition with a code and one for
    /// each hosting state with a replacement, the first and the last state
    /// included; with such a path. No history, whatever its days and rights,
    /// makes the track hold more. A track that does not exist has figure 0 and
    /// no path.
    ///
    /// Refused as 29 where the plan has a deviation or a cycle of transitions,
    /// a step from a state to itself included, in whichever track. Every other
    /// call takes such a plan.
    ///
    /// ```
    /// # use retraction::{Plan, Refusal};
    /// # fn main() -> Result<(), Refusal> {
    /// // Two ways from state 0 to state 2: at once by code 50, or over state 1 by
    /// // codes 51 and 52.
    /// let plan = Plan::read([
    ///     6, 0, 1, 0, 255, 255, // track 0: a root
    ///     10, 0, 2, 0, 0, 0, 0, 0, 0, 0, // state 0
    ///     10, 0, 2, 0, 0, 0, 0, 0, 0, 0, // state 1
    ///     10, 0, 2, 0, 0, 0, 1, 0, 0, 0, // state 2, final
    ///     14, 0, 3, 0, 0, 0, 10, 0, 50, 0, 255, 255, 2, 0, // transition 0, from 0 to 2
    ///     14, 0, 3, 0, 0, 0, 11, 0, 51, 0, 255, 255, 1, 0, // transition 1, from 0 to 1
    ///     14, 0, 3, 0, 1, 0, 11, 0, 52, 0, 255, 255, 2, 0, // transition 2, from 1 to 2
    ///     4, 0, 4, 0, // end
    /// ])?;
    /// let largest = plan.largest(0)?;
    /// assert_eq!((largest.figure, largest.path), (2, vec![1, 2]));
    /// # Ok(())
    /// # }
    /// ```
    pub fn largest(&self, track: u16) -> Result<Largest, Refusal> {
        let (figure, length) = raw::largest(&self.bytes, track)?;
        let step = |index| {
            let step = raw::largest_step(&self.bytes, track, index);
            step.map(|step| step.expect("an index of the path"))
        };
        let path = (0..length).map(step).collect::<Result<_, _>>()?;
        Ok(Largest { figure, path })
    }

    /// The same of each track, in track order.
    pub fn largest_of_all(&self) -> Result<Vec<Largest>, Refusal> {
        let tracks = 0..self.counts.tracks;
        tracks.map(|track| self.largest(track)).collect()
    }

    /// A ledger at its begin: led by the plan's length and sum and by the first
    /// day of the range, roots forward in their first states, others asleep.
    /// Every later call on it is at the limit given here.
    ///
    /// ```
    /// # use retraction::{Limit, Plan, Refusal};
    /// # fn main() -> Result<(), Refusal> {
    /// // One root. Event 10 stays in state 0 and leaves code 50.
    /// let plan = Plan::read([
    ///     6, 0, 1, 0, 255, 255, 10, 0, 2, 0, 0, 0, 0, 0, 0, 0, // track 0, state 0
    ///     14, 0, 3, 0, 0, 0, 10, 0, 50, 0, 255, 255, 0, 0, // from 0 on event 10, code 50, to 0
    ///     10, 0, 6, 0, 1, 0, 0, 0, 7, 0, 4, 0, 4, 0, // society 1 over track 0; end
    /// ])?;
    /// let mut ledger = plan.begin(Limit::ReadingRoom);
    /// for _ in 0..8 {
    ///     assert_eq!(ledger.event(10, 0, 1)?.moved, 1);
    /// }
    /// assert_eq!(ledger.event(10, 0, 1), Err(Refusal::Full));
    /// # Ok(())
    /// # }
    /// ```
    pub fn begin(&self, limit: Limit) -> Ledger<'_> {
        let mut words = vec![0; self.ledger_words(limit)];
        let begun = raw::begin(&self.bytes, &mut words, limit.options());
        begun.expect("an accepted plan and enough words");
        self.with(words, limit)
    }

    /// A ledger that was stored as words, at the limit that it was begun at;
    /// refused as 17 where they are too few, as 24 where the first two are not
    /// those of this plan, as 18 where they are not sound under it. Words beyond
    /// those that the plan needs at this limit are dropped.
    ///
    /// No word names the limit: store it beside the words. Words begun at
    /// another limit are promised neither to be taken nor to be refused. Plans
    /// alike in length and sum are not told apart either: among those, store
    /// beside a ledger which plan it was begun under.
    ///
    /// ```
    /// # use retraction::{Limit, Plan, Refusal};
    /// # fn main() -> Result<(), Refusal> {
    /// # let plan = Plan::read([
    /// #     6, 0, 1, 0, 255, 255, 10, 0, 2, 0, 0, 0, 0, 0, 0, 0, 4, 0, 4, 0,
    /// # ])?;
    /// let limit = Limit::ReadingRoom;
    /// let begun = plan.begin(limit);
    /// let stored = begun.words().to_vec();
    /// assert_eq!(plan.ledger(stored.clone(), limit)?, begun);
    /// assert_eq!(plan.ledger(&stored[1..], limit), Err(Refusal::FewWords));
    /// let zeros = vec![0; stored.len()];
    /// assert_eq!(plan.ledger(zeros, limit), Err(Refusal::OtherPlan));
    /// # Ok(())
    /// # }
    /// ```
    pub fn ledger(&self, words: impl Into<Vec<u16>>, limit: Limit) -> Result<Ledger<'_>, Refusal> {
        let mut words = words.into();
        raw::ready(&self.bytes, &mut words, limit.options())?;
        words.truncate(self.ledger_words(limit));
        Ok(self.with(words, limit))
    }

    fn with(&self, words: Vec<u16>, limit: Limit) -> Ledger<'_> {
        Ledger {
            plan: self,
            limit,
            words,
        }
    }
}

/// A sound ledger, with the plan that it is read under and the limit that it
/// was begun at, which every call on it reads.
#[derive(Clone, Debug, PartialEq, Eq)]
#[must_use]
pub struct Ledger<'plan> {
    plan: &'plan Plan,
    limit: Limit,
    words: Vec<u16>,
}

impl<'plan> Ledger<'plan> {
    /// Its plan.
    pub fn plan(&self) -> &'plan Plan {
        self.plan
    }

    /// The limit that it was begun at: the most entries that a track holds.
    #[must_use]
    pub fn limit(&self) -> Limit {
        self.limit
    }

    /// Its words, the plan's length and sum, the last accepted day, then
    /// [`Limit::track_words`] for each track, in the machine's own byte order:
    /// to be stored with its limit, and read again by [`Plan::ledger`].
    #[must_use]
    pub fn words(&self) -> &[u16] {
        &self.words
    }

    /// The last accepted day: that of the last event that was not refused, or
    /// [`FIRST_DAY`] where there was none. No event may have an earlier one.
    #[must_use]
    pub fn day(&self) -> i32 {
        let [low, high] = [self.words[2], self.words[3]].map(u32::from);
        (high << 16 | low) as i32
    }

    /// Whether the ledger is over: every track is asleep.
    ///
    /// An event, a signal or a firing leaves it over once each root is either
    /// forward in a final state, or undoing with nothing held and no open scope,
    /// at least one being forward in a final state. What is still held is then
    /// dropped unfired, and the next event, signal or firing is refused as 20.
    /// Where every root is taken back the ledger is not over. A signal comes to
    /// it only where a root has ended that the society may not turn.
    ///
    /// ```
    /// # use retraction::{Limit, Plan, Refusal};
    /// # fn main() -> Result<(), Refusal> {
    /// // Two roots. Code 60, when fired, sends root 1 back to its first state.
    /// let plan = Plan::read([
    ///     6, 0, 1, 0, 255, 255, 6, 0, 1, 0, 255, 255, // tracks 0 and 1
    ///     10, 0, 2, 0, 0, 0, 0, 0, 0, 0, // state 0 of track 0
    ///     10, 0, 2, 0, 1, 0, 0, 0, 0, 0, // state 1 of track 1
    ///     10, 0, 2, 0, 1, 0, 1, 0, 0, 0, // state 2 of track 1, final
    ///     14, 0, 3, 0, 0, 0, 10, 0, 50, 0, 255, 255, 0, 0, // from 0 on event 10, code 50, to 0
    ///     14, 0, 3, 0, 1, 0, 10, 0, 60, 0, 1, 0, 1, 0, // from 1 on event 10, code 60, to 1
    ///     14, 0, 3, 0, 1, 0, 11, 0, 0, 0, 255, 255, 2, 0, // from 1 on event 11, no code, to 2
    ///     10, 0, 6, 0, 1, 0, 0, 0, 7, 0, // society 1 over track 0: every right
    ///     10, 0, 6, 0, 1, 0, 1, 0, 7, 0, // and over track 1
    ///     4, 0, 4, 0, // end
    /// ])?;
    /// let mut ledger = plan.begin(Limit::Main);
    /// assert_eq!(ledger.event(10, 0, 1)?.moved, 2);
    /// assert_eq!(ledger.signal(1)?, 2);
    /// assert_eq!(ledger.fire(1, 1)?.deviation, Some(1));
    /// assert_eq!(ledger.event(11, 0, 1)?.moved, 1);
    /// assert!(!ledger.is_over());
    /// assert_eq!(ledger.fire(0, 1)?.code, 50);
    /// assert!(ledger.is_over());
    /// assert_eq!(ledger.signal(1), Err(Refusal::Over));
    /// # Ok(())
    /// # }
    /// ```
    #[must_use]
    pub fn is_over(&self) -> bool {
        self.words[LEADING_WORDS..].iter().all(|&word| word == 0)
    }

    /// A society's event on a day: each forward track without an open scope
    /// takes its state's transition for it, if it has one, the day is within
    /// its window, and the society has the move right over its root. Accepted,
    /// it leaves its day in the ledger ([`Ledger::day`]), even where no track
    /// moves; it may leave the ledger over ([`Ledger::is_over`]). Refused as
    /// 19 or 20, as 21 where it gives an entry to a track that holds as many as
    /// the limit, as 26 where the day is out of range or before the last
    /// accepted one, and as 28 where the society has the move right nowhere.
    pub fn event(&mut self, event: u16, day: i32, society: u16) -> Result<Moved, Refusal> {
        let options = self.limit.options();
        let plan = self.plan.bytes();
        raw::event(plan, &mut self.words, event, day, society, options)
    }

    /// A society's withdrawal: every forward track turns to undoing over whose
    /// root the society has the signal right. Answers how many turned. It may
    /// leave the ledger over ([`Ledger::is_over`]). Refused as 20, and as 28
    /// where the society has the signal right nowhere.
    ///
    /// ```
    /// # use retraction::{Limit, Plan, Refusal};
    /// # fn main() -> Result<(), Refusal> {
    /// // Two roots, one of each society. Event 10 takes root 1 to its end.
    /// let plan = Plan::read([
    ///     6, 0, 1, 0, 255, 255, 6, 0, 1, 0, 255, 255, // tracks 0 and 1
    ///     10, 0, 2, 0, 0, 0, 0, 0, 0, 0, // state 0 of track 0
    ///     10, 0, 2, 0, 1, 0, 0, 0, 0, 0, // state 1 of track 1
    ///     10, 0, 2, 0, 1, 0, 1, 0, 0, 0, // state 2 of track 1, final
    ///     14, 0, 3, 0, 1, 0, 10, 0, 60, 0, 255, 255, 2, 0, // from 1 on event 10, code 60, to 2
    ///     10, 0, 6, 0, 1, 0, 0, 0, 7, 0, // society 1 over track 0: every right
    ///     10, 0, 6, 0, 2, 0, 1, 0, 7, 0, // society 2 over track 1
    ///     4, 0, 4, 0, // end
    /// ])?;
    /// let mut ledger = plan.begin(Limit::Main);
    /// assert_eq!(ledger.event(10, 0, 1)?.moved, 0);
    /// assert_eq!(ledger.event(10, 0, 2)?.moved, 1);
    /// // Root 0 has nothing to take back: with root 1 at its end all is done.
    /// assert_eq!(ledger.signal(1)?, 1);
    /// assert!(ledger.is_over());
    /// # Ok(())
    /// # }
    /// ```
    pub fn signal(&mut self, society: u16) -> Result<u16, Refusal> {
        let options = self.limit.options();
        raw::signal(&self.plan.bytes, &mut self.words, society, options)
    }

    /// A society fires a track: its newest entry is removed, and answered. It
    /// may leave the ledger over ([`Ledger::is_over`]): the entry is answered
    /// all the same, and what other tracks still hold is dropped unfired.
    /// Refused as 20 or 22, and as 28 where the track exists and the society
    /// has no fire right over its root.
    pub fn fire(&mut self, track: u16, society: u16) -> Result<Entry, Refusal> {
        let options = self.limit.options();
        raw::fire(&self.plan.bytes, &mut self.words, track, society, options)
    }

    /// The tracks that may be fired, the lowest first, whoever has the right to.
    /// The words are copied for the call, which borrows them for writing and
    /// changes none.
    pub fn ready(&self) -> impl Iterator<Item = u16> {
        let mut words = self.words.clone();
        let ready = raw::ready(&self.plan.bytes, &mut words, self.limit.options());
        let ready = ready.expect("an accepted plan and a sound ledger");
        (0..32).filter(move |track| ready >> track & 1 == 1)
    }

    /// The entries that a track holds, the oldest first; none where there is no
    /// such track. Where no track is forward, as after a signal that turned every
    /// forward track, and no entry held has a deviation, exactly as many firings
    /// are due as all tracks together hold entries, in whatever order.
    pub fn entries(&self, track: u16) -> impl DoubleEndedIterator<Item = Entry> + '_ {
        let options = self.limit.options();
        let held = raw::entries(&self.plan.bytes, &self.words, track, options);
        let pairs = held.chunks_exact(2);
        pairs.map(|pair| raw::entry(pair[0], pair[1]))
    }
}
