//! What a call is asked and what it answers, in document 01's numbers and
//! words.

use std::error::Error;
use std::fmt;

use crate::{Crew, Msisdn};

/// An enum whose variants have the papers' numbers.
macro_rules! numbered {
    ($(#[$about:meta])* $name:ident { $($(#[$case:meta])* $variant:ident = $number:literal,)* }) => {
        $(#[$about])*
        #[derive(Clone, Copy, Debug, PartialEq, Eq)]
        pub enum $name {
            $($(#[$case])* $variant = $number,)*
        }

        impl $name {
            /// The papers' number.
            pub fn number(self) -> u32 {
                self as u32
            }

            /// The one with this number, if there is one.
            pub fn from_number(number: u32) -> Option<Self> {
                match number {
                    $($number => Some(Self::$variant),)*
                    _ => None,
                }
            }
        }
    };
}

/// A numbered enum that says in words why a call has no other answer.
macro_rules! reason {
    ($(#[$about:meta])* $name:ident: $class:literal { $($variant:ident = $number:literal: $words:literal,)* }) => {
        numbered! {
            $(#[$about])*
            $name { $(#[doc = $words] $variant = $number,)* }
        }

        impl fmt::Display for $name {
            fn fmt(&self, f: &mut fmt::Formatter<'_>) -> fmt::Result {
                let words = match self {
                    $(Self::$variant => $words,)*
                };
                write!(f, "{} {}: {words}", $class, self.number())
            }
        }

        impl Error for $name {}
    };
}

reason! {
    /// Why a call is refused.
    Refusal: "refusal" {
        NoRoom = 1: "a buffer is too short",
        TableUnsound = 2: "the table is unsound",
        Kind = 3: "the kind is above 5",
        Phase = 4: "the notice is not in the phase that the call needs",
        NotDue = 5: "the notice is not due",
        Delay = 6: "the delay is neither 0 nor 60 to 600 seconds",
        Number = 7: "the functional number is malformed or not in the table, or the holder named is malformed",
        ListUnsound = 8: "the list is unsound",
        Unfit = 9: "the fields break the string's rules, a value is not one that the packer takes, unused bits are not 0, or the transaction identifier is above 15",
        Figures = 10: "the figures differ from a recount of the table",
        Message = 11: "the message is wrong anywhere up to its invoke number, or is no Release Complete of the node",
        NoTrailer = 30: "the image has under 24 octets",
        Distance = 31: "the distance is not the image's length less 24",
        Limit = 32: "a count of rows is over its limit",
        ImageRoom = 33: "a buffer is too small for the image, or for what it holds",
        Unfilled = 34: "the rows do not fill the distance",
        Full = 50: "the table has 1,024 rows, or the buffer has no room for one more",
        Present = 51: "the functional number is already in the table",
        Absent = 52: "the functional number is not in the table",
    }
}

reason! {
    /// Why a request or a routing is in error, by the codes of TS 29.002.
    RequestError: "error" {
        DataMissing = 35: "the requester's MSISDN is not 5 to 15 digits, or the string has 0 octets",
        UnexpectedDataValue = 36: "the string has over 160 octets or unreadable bits, or breaks its rules; or a routing's code or digits are malformed",
        UnknownAlphabet = 71: "the data coding scheme is not 0x0F",
    }
}

reason! {
    /// Why a framed request is rejected.
    Problem: "problem" {
        UnrecognizedOperation = 1: "the operation is missing, unreadable or unknown",
        MistypedParameter = 2: "something behind the operation is wrong",
    }
}

/// A request that has no outcome, or a routing without an answer.
#[derive(Clone, Copy, Debug, PartialEq, Eq)]
pub enum Failure {
    Refused(Refusal),
    Error(RequestError),
}

impl fmt::Display for Failure {
    fn fmt(&self, f: &mut fmt::Formatter<'_>) -> fmt::Result {
        match self {
            Self::Refused(refusal) => refusal.fmt(f),
            Self::Error(error) => error.fmt(f),
        }
    }
}

impl Error for Failure {}

numbered! {
    /// What a request asks for.
    Operation {
        /// `**`
        Register = 0,
        /// `##`
        Erase = 1,
        /// `*#`
        Interrogate = 2,
    }
}

numbered! {
    /// How a sending went.
    Kind {
        Delivered = 0,
        UnknownSubscriber = 1,
        IllegalSubscriber = 2,
        IllegalEquipment = 3,
        ServiceNotSupported = 4,
        /// Any other error, a lost dialogue too.
        OtherError = 5,
    }
}

numbered! {
    /// What became of a notice.
    Resulted {
        /// It is cleared, and was delivered.
        Delivered = 0,
        /// It is cleared, and was not delivered.
        Dropped = 1,
        /// It waits to be sent again.
        Again = 2,
    }
}

/// The outcome of a request, or of an erasure at the terminal.
#[derive(Clone, Copy, Debug, PartialEq, Eq)]
pub enum Outcome {
    /// 01: the requester holds the number.
    Registered,
    /// 02: nobody holds the number.
    Erased,
    /// 03: this one holds the number.
    Held(Msisdn),
    /// 11: a crew's request to register, with what became of its numbers.
    CrewRegistered(Crew),
    /// 12: a crew's request to erase, with what became of its numbers.
    CrewErased(Crew),
    /// 22: a forced erasure by one who is no supervisor.
    NoSupervisor,
    /// 41: the functional number is not in the table.
    UnknownNumber,
    /// 42: the requester is absent from the list or has no Follow Me.
    NoFollowMe,
    /// 61: another one holds the number.
    HeldByAnother,
    /// 62: nobody holds the number.
    NoHolder,
    /// 63: a plain erasure by one who is neither the holder nor the number's own
    /// subscriber, or a forced one that does not name the holder.
    WrongHolder,
    /// 64: the number is closed.
    Closed,
    /// 67: number and requester have the same digits.
    SameDigits,
    /// 68: a notice of the number has not ended.
    NoticePending,
}

impl Outcome {
    /// The papers' number.
    pub fn number(self) -> u32 {
        match self {
            Self::Registered => 1,
            Self::Erased => 2,
            Self::Held(_) => 3,
            Self::CrewRegistered(_) => 11,
            Self::CrewErased(_) => 12,
            Self::NoSupervisor => 22,
            Self::UnknownNumber => 41,
            Self::NoFollowMe => 42,
            Self::HeldByAnother => 61,
            Self::NoHolder => 62,
            Self::WrongHolder => 63,
            Self::Closed => 64,
            Self::SameDigits => 67,
            Self::NoticePending => 68,
        }
    }
}

/// A request, or an erasure at the terminal, that has an outcome: its text is
/// packed in the first `octets` octets of the reply.
#[derive(Clone, Copy, Debug, PartialEq, Eq)]
pub struct Reply {
    pub outcome: Outcome,
    pub octets: usize,
}

/// Where a text message goes.
#[derive(Clone, Copy, Debug, PartialEq, Eq)]
pub enum Route {
    /// To the holder of the number.
    Msisdn {
        msisdn: Msisdn,
        /// Of a number of type 2, 3 or 4: 80 48, and the branch, its right-hand
        /// digit in the high half.
        subaddress: Option<[u8; 3]>,
    },
    /// Another network knows: this is its international code, as characters.
    AskNetwork([u8; 3]),
    /// 41: the functional number is not in the table.
    UnknownNumber,
    /// 62: nobody holds the number.
    NoHolder,
}

/// What a framed request was answered, by the cases of a Release Complete.
#[derive(Clone, Copy, Debug, PartialEq, Eq)]
pub enum Answered {
    /// Return Result, with the outcome's text as its string.
    Result(Outcome),
    /// Return Error.
    Error(RequestError),
    /// Reject.
    Reject(Problem),
}

/// A framed request that is not refused: its Release Complete is in the first
/// `octets` octets of the frame.
#[derive(Clone, Copy, Debug, PartialEq, Eq)]
pub struct FramedReply {
    pub answered: Answered,
    pub octets: usize,
}

/// A message that was read.
#[derive(Clone, Copy, Debug, PartialEq, Eq)]
pub struct Message<T> {
    /// The transaction identifier: 0 to 15, 8 being the flag.
    pub transaction: u8,
    pub invoke: u8,
    pub content: T,
}

/// What a Register holds.
#[derive(Clone, Copy, Debug, PartialEq, Eq)]
pub enum Register<'a> {
    /// A request: data coding scheme, and the string in the message.
    Request { scheme: u8, string: &'a [u8] },
    /// What a framed request would be rejected with.
    Rejected(Problem),
}

/// The three cases of a Release Complete.
#[derive(Clone, Copy, Debug, PartialEq, Eq)]
pub enum Release<'a> {
    /// Return Result, with its string in the message.
    Result(&'a [u8]),
    /// Return Error. The node's codes are those of [`RequestError`].
    Error(u8),
    /// Reject. The node's problems are those of [`Problem`].
    Reject(u8),
}

/// A notice to send: the first `octets` octets of the buffer, to `addressee`.
#[derive(Clone, Copy, Debug, PartialEq, Eq)]
pub struct Sent {
    pub addressee: Msisdn,
    pub octets: usize,
}
