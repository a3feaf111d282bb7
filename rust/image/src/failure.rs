//! What is wrong, in one line.

use std::error::Error;
use std::ffi::OsString;
use std::fmt;
use std::io;

use ffn::{NumberError, Refusal, MOST_NUMBERS, MOST_SUBSCRIBERS};

/// Why the command failed.
#[derive(Debug)]
pub enum Failure {
    /// The words are not a subcommand and an image.
    Usage,
    /// This is no subcommand.
    Subcommand(OsString),
    /// This cannot be read or written.
    Lost { what: String, error: io::Error },
    /// The image in this file is refused.
    Refused { what: String, refusal: Refusal },
    /// This line of the input is bad.
    Line { number: usize, fault: Fault },
}

/// What is wrong with a line.
#[derive(Clone, Copy, Debug, PartialEq, Eq)]
pub enum Fault {
    /// It is neither an `N` nor an `S` with its fields, one space apart.
    Form,
    /// Its number is none.
    Number(NumberError),
    /// Its flags are not 0 to 3.
    Flags,
    /// Its number does not stand above the one before.
    Order,
    /// It is one number or one subscriber too many.
    TooManyNumbers,
    TooManySubscribers,
}

impl Failure {
    pub(crate) fn lost(what: impl fmt::Display, error: io::Error) -> Self {
        let what = what.to_string();
        Self::Lost { what, error }
    }

    pub(crate) fn refused(what: impl fmt::Display, refusal: Refusal) -> Self {
        let what = what.to_string();
        Self::Refused { what, refusal }
    }
}

impl fmt::Display for Failure {
    fn fmt(&self, f: &mut fmt::Formatter<'_>) -> fmt::Result {
        match self {
            Self::Usage => f.write_str("usage: ffn-image show|check|make IMAGE"),
            Self::Subcommand(word) => write!(f, "{word:?} is none of show, check and make"),
            Self::Lost { what, error } => write!(f, "{what}: {error}"),
            Self::Refused { what, refusal } => write!(f, "{what}: {refusal}"),
            Self::Line { number, fault } => write!(f, "line {number}: {fault}"),
        }
    }
}

impl Error for Failure {}

impl fmt::Display for Fault {
    fn fmt(&self, f: &mut fmt::Formatter<'_>) -> fmt::Result {
        match self {
            Self::Form => f.write_str("neither N NUMBER nor S MSISDN FLAGS"),
            Self::Number(error) => error.fmt(f),
            Self::Flags => f.write_str("flags are 0 to 3"),
            Self::Order => f.write_str("not above the one before, as stored"),
            Self::TooManyNumbers => write!(f, "over {MOST_NUMBERS} numbers"),
            Self::TooManySubscribers => write!(f, "over {MOST_SUBSCRIBERS} subscribers"),
        }
    }
}

impl Error for Fault {}
