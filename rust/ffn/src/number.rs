//! Functional numbers and MSISDNs: separate numberings, so separate types.

use std::error::Error;
use std::fmt;
use std::num::NonZeroU64;
use std::ops::RangeInclusive;
use std::str::FromStr;

/// How many digits a number has.
const DIGITS: RangeInclusive<usize> = 5..=15;

/// Why a text is no number.
#[derive(Clone, Copy, Debug, PartialEq, Eq)]
pub enum NumberError {
    /// This character is no decimal digit.
    NoDigit(char),
    /// It has this many digits.
    Length(usize),
}

impl fmt::Display for NumberError {
    fn fmt(&self, f: &mut fmt::Formatter<'_>) -> fmt::Result {
        match self {
            Self::NoDigit(character) => write!(f, "{character:?} is no decimal digit"),
            Self::Length(count) => {
                let (fewest, most) = (DIGITS.start(), DIGITS.end());
                write!(f, "a number has {fewest} to {most} digits, not {count}")
            }
        }
    }
}

impl Error for NumberError {}

/// Digits with a 1 put in front, read as a decimal.
fn stored(digits: &str) -> Result<NonZeroU64, NumberError> {
    if let Some(character) = digits.chars().find(|c| !c.is_ascii_digit()) {
        return Err(NumberError::NoDigit(character));
    }
    let word = format!("1{digits}").parse().ok();
    word.filter(|_| DIGITS.contains(&digits.len()))
        .ok_or(NumberError::Length(digits.len()))
}

/// The digits of a stored word, leading zeros kept; a word that is not stored
/// digits is shown as malformed.
fn write_digits(word: NonZeroU64, f: &mut fmt::Formatter<'_>) -> fmt::Result {
    let decimal = word.to_string();
    match decimal.strip_prefix('1') {
        Some(digits) if DIGITS.contains(&digits.len()) => f.pad(digits),
        _ => write!(f, "malformed {word}"),
    }
}

macro_rules! numbering {
    ($(#[$about:meta])* $name:ident) => {
        $(#[$about])*
        ///
        /// It is a word in stored form: its digits with a 1 put in front, read
        /// as a decimal. 0 is nobody and no such value, so an absent one is
        /// `None`. Any other word may be passed; the library judges it.
        /// Read from a text and written to one, it is its 5 to 15 decimal
        /// digits; leading zeros count.
        #[derive(Clone, Copy, Debug, PartialEq, Eq, PartialOrd, Ord, Hash)]
        pub struct $name(NonZeroU64);

        impl $name {
            /// The number of a stored word; `None` for 0.
            pub fn from_word(word: u64) -> Option<Self> {
                NonZeroU64::new(word).map(Self)
            }

            /// The stored word.
            pub fn word(self) -> u64 {
                self.0.get()
            }
        }

        impl FromStr for $name {
            type Err = NumberError;

            fn from_str(digits: &str) -> Result<Self, NumberError> {
                stored(digits).map(Self)
            }
        }

        impl fmt::Display for $name {
            fn fmt(&self, f: &mut fmt::Formatter<'_>) -> fmt::Result {
                write_digits(self.0, f)
            }
        }
    };
}

numbering! {
    /// The "dummy" number of a function on a train.
    FunctionalNumber
}

numbering! {
    /// The "true" number of a subscriber.
    Msisdn
}
