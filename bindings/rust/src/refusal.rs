//! The paper's numbers for what is turned back.

use std::error::Error;
use std::fmt;

macro_rules! refusals {
    ($($name:ident = $number:literal, $text:literal;)*) => {
        /// Why a plan, a ledger or a call was refused. Its number is the
        /// paper's; `docs/REFUSALS.md` has an example of each, and what to
        /// mend. The order of the numbers is that of the checks but for 25
        /// and 27, which come after 16, 24, between 17 and 18, 26, between 19
        /// and 20, and 28, between 20 and 21; and for 29, after 27, which is
        /// for the largest number of entries alone.
        #[derive(Clone, Copy, Debug, PartialEq, Eq, PartialOrd, Ord, Hash)]
        #[non_exhaustive]
        #[repr(u16)]
        pub enum Refusal {
            $(#[doc = $text] $name = $number,)*
        }

        impl Refusal {
            /// Every refusal, in the order of the checks.
            pub const ALL: &'static [Refusal] = &[$(Refusal::$name,)*];

            /// What it means, in a few words.
            #[must_use]
            pub fn text(self) -> &'static str {
                match self {
                    $(Refusal::$name => $text,)*
                }
            }
        }
    };
}

refusals! {
    TooLong = 1, "the plan file or the journal is longer than 32768 bytes";
    NoRecord = 2, "fewer than 4 bytes remain where a record must start";
    Kind = 3, "a record's kind is not 1 to 6, or falls in the order 1, 2, 3, 5, 6, 4";
    Length = 4, "a record's length is not that of its kind";
    CutShort = 5, "a record runs past the last byte";
    TooMany = 6, "there is a 33rd track, a 129th state or a 257th transition";
    AfterEnd = 7, "bytes follow the end record";
    NoTrack = 8, "the plan has no track";
    State = 9, "a state names no track, or its final field is above 1";
    Host = 10, "a host is neither 65535 nor a state of a lower-numbered track";
    FirstState = 11, "a track has no state, or its first state is final";
    Hosting = 12, "a final state hosts a track, or a state that hosts none has a replacement";
    Transition = 13, "a transition's source, destination or event does not fit";
    Deviation = 14, "a deviation does not fit its transition";
    SameEvent = 15, "two transitions share source and event";
    Height = 16, "a track's height is above 8";
    Window = 25, "a window names no transition, repeats one, ends before it begins or leaves the day range";
    Rights = 27, "a rights record names no root, has a sum outside 1 to 7, repeats a pair or is the 65th";
    Unbounded = 29, "the plan has a deviation or a cycle of transitions";
    FewWords = 17, "the ledger has too few words for the plan";
    OtherPlan = 24, "the ledger's first two words are not those of this plan";
    Unsound = 18, "the ledger is not sound under this plan";
    EventZero = 19, "the event is 0";
    Day = 26, "the day or the date is out of range, or the event's day is before the last accepted one";
    Over = 20, "the ledger is over";
    NoRight = 28, "the society has no fire right for the track, or no move or signal right anywhere";
    Full = 21, "a track that the event gives an entry already holds as many as the limit";
    NotReady = 22, "the track may not be fired now, or does not exist";
    BrokenRecord = 23, "a journal record is broken";
}

impl Refusal {
    /// The paper's number, 1 to 29.
    #[must_use]
    pub fn number(self) -> u16 {
        self as u16
    }

    /// The refusal of a number; `None` where there is no such refusal.
    ///
    /// ```
    /// use retraction::Refusal;
    /// assert_eq!(Refusal::from_number(22), Some(Refusal::NotReady));
    /// assert_eq!(Refusal::from_number(0), None);
    /// ```
    #[must_use]
    pub fn from_number(number: u16) -> Option<Refusal> {
        let mut all = Refusal::ALL.iter().copied();
        all.find(|refusal| refusal.number() == number)
    }
}

/// The number and what it means: `22: the track may not be fired now, ..`.
impl fmt::Display for Refusal {
    fn fmt(&self, f: &mut fmt::Formatter<'_>) -> fmt::Result {
        write!(f, "{}: {}", self.number(), self.text())
    }
}

impl Error for Refusal {}
