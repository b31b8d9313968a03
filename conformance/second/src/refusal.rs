//! The numbers under "Turned back, in checking order". 24 is checked between
//! 17 and 18, 25 and then 27 after 16, 26 after 19, 28 after 20. 29 is after 27,
//! for one call alone.

/// A refusal; its discriminant is the paper's number.
#[derive(Clone, Copy, Debug, PartialEq, Eq, PartialOrd, Ord, Hash)]
#[repr(u8)]
pub enum Refusal {
    /// A file or journal is longer than 32,768 bytes.
    TooLong = 1,
    /// Fewer than 4 bytes remain where a record must start.
    NoRecord = 2,
    /// The kind is not 1 to 6, or falls in the order of records.
    Kind = 3,
    /// The length is not its kind's.
    Length = 4,
    /// The record runs past the last byte.
    CutShort = 5,
    /// The 33rd track, 129th state or 257th transition.
    TooMany = 6,
    /// Bytes follow the end record.
    AfterEnd = 7,
    /// There is no track.
    NoTrack = 8,
    /// A state names no track, or its final field exceeds 1.
    State = 9,
    /// A host is neither 65535 nor a state of a lower-numbered track.
    Host = 10,
    /// A track has no state, or its first state is final.
    FirstState = 11,
    /// A final state hosts a track, or a state that hosts none has a replacement.
    Hosting = 12,
    /// A transition's ends or event do not fit.
    Transition = 13,
    /// A deviation does not fit.
    Deviation = 14,
    /// Two transitions share source and event.
    Twins = 15,
    /// A track's height exceeds 8.
    Height = 16,
    /// The ledger has too few words.
    FewWords = 17,
    /// The ledger is not sound.
    Unsound = 18,
    /// The event given is 0.
    EventZero = 19,
    /// The ledger is over.
    Over = 20,
    /// A track that the event gives an entry holds as many as the limit.
    Full = 21,
    /// The track may not be fired, or does not exist.
    NotReady = 22,
    /// A journal record is broken.
    BrokenRecord = 23,
    /// Either of the ledger's leading words is not the plan's.
    OtherPlan = 24,
    /// A window names no transition, repeats one, ends before it begins or
    /// leaves the day range.
    Window = 25,
    /// A day is out of range, an event's is before the last, or a date is none
    /// of the range.
    Day = 26,
    /// A rights record names no root, has a sum outside 1 to 7, repeats a pair,
    /// or is the 65th.
    Rights = 27,
    /// The society lacks the fire right for the track, or the move or signal
    /// right everywhere.
    NoRight = 28,
    /// The plan has a deviation or a cycle of transitions.
    Unbounded = 29,
}

impl Refusal {
    /// The paper's number.
    pub fn number(self) -> u8 {
        self as u8
    }
}

/// `Ok` where the condition holds, else the refusal.
pub(crate) fn demand(holds: bool, refusal: Refusal) -> Result<(), Refusal> {
    if holds {
        Ok(())
    } else {
        Err(refusal)
    }
}
