//! What a command comes to.

/// What is printed, what is said beside it, and the exit status.
#[derive(Clone, Debug, Default, PartialEq, Eq)]
pub struct Answer {
    /// For standard output.
    pub printed: String,
    /// For standard error.
    pub said: String,
    pub status: u8,
}

/// The exit status where something was refused, or differs.
const REFUSED: u8 = 1;
/// The exit status where the command was not given what it takes, or a file
/// could not be read or written.
const UNFIT: u8 = 2;

impl Answer {
    /// Done, with this to print.
    #[must_use]
    pub fn done(printed: impl Into<String>) -> Answer {
        Answer {
            printed: printed.into(),
            ..Answer::default()
        }
    }

    /// Refused, and why.
    #[must_use]
    pub fn refused(said: impl Into<String>) -> Answer {
        Answer::done("").but_refused(said)
    }

    /// The same as it is printed, but refused.
    #[must_use]
    pub fn but_refused(self, said: impl Into<String>) -> Answer {
        Answer {
            said: said.into(),
            status: REFUSED,
            ..self
        }
    }

    /// How the command is written, where it was not given what it takes.
    #[must_use]
    pub fn usage(said: impl Into<String>) -> Answer {
        Answer {
            said: said.into(),
            status: UNFIT,
            ..Answer::default()
        }
    }

    /// A word that is wrong, or a file that is.
    #[must_use]
    pub fn unfit(said: impl AsRef<str>) -> Answer {
        Answer::usage(format!("registrar: {}\n", said.as_ref()))
    }
}

/// A part of a command's work, or the answer that ends it.
pub type Or<Part> = Result<Part, Answer>;
