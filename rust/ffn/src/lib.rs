//! The Follow Me node for Rust, and the cab radio ([`radio`]).
//!
//! The work is done by `libffn_c.a` and `libradio_c.a`, written in Rattle and
//! proved, for every input, to answer and to leave in all lent memory exactly
//! what documents 01 and 02 say. This crate turns their numbers into enums and
//! adds nothing of its own.
//!
//! A table has seven words a number, a list two words a subscriber, as document
//! 01 lays them out; the seventh is 0 for an open number and 1 for a closed one.
//! The [`Figures`] of a table are recounted once, at the start, and lent with it
//! from then on; each call that is not refused keeps them right. Whatever a call
//! refuses or finds in error, it touches no memory, but that a framed request in
//! error or rejected writes the frame that says so; what a call writes stands at
//! the start of the buffer, and everything beyond its count stays, but that
//! compacting makes the words that it frees 0.
//!
//! Staff at the node's terminal clear a number without a subscription
//! (`terminal_erasure`): they name its holder, who is told by a notice whose
//! supervisor is nobody: that word of its row is 0.
//!
//! A message centre asks which MSISDN stands behind a functional number
//! (`routing`); that changes nothing.
//!
//! Table and list move to new hardware as one image, whose figures are recounted
//! where it is read.
//!
//! A number that is withdrawn is closed (`close`): it keeps its holder and its
//! notice until they run out, and nobody registers it. Then its row goes
//! (`compact`) and is used again (`add`); both work on the rows in use at the
//! front of a buffer, and return their count.
//!
//! The archives are x86-64 code. Without the feature `archive` the numbers and
//! answers are there alone, on any processor.

#[macro_use]
mod answers;
#[cfg(feature = "archive")]
pub mod c;
#[cfg(feature = "archive")]
mod calls;
mod crews;
mod figures;
#[cfg(feature = "archive")]
mod frames;
mod image;
mod number;
pub mod radio;
#[cfg(feature = "archive")]
mod routing;
#[cfg(feature = "archive")]
mod withdrawal;

pub use answers::{
    Answered, Failure, FramedReply, Kind, Message, Operation, Outcome, Problem, Refusal, Register,
    Release, Reply, RequestError, Resulted, Route, Sent,
};
#[cfg(feature = "archive")]
pub use calls::{
    finding, pack, read_request, request, result, sending, terminal_erasure, unpack, write_request,
    ReadRequest, Request, BUFFER_ROOM, CODING_SCHEME, MOST_CHARACTERS, WRITER_ROOM,
};
pub use crews::{Codes, Crew, CrewField};
pub use figures::Figures;
#[cfg(feature = "archive")]
pub use frames::{framed_request, read_register, read_release, write_register, FRAME_ROOM};
pub use image::{
    image_size, ReadImage, MOST_NUMBERS, MOST_SUBSCRIBERS, NUMBER_WORDS, SUBSCRIBER_WORDS,
};
#[cfg(feature = "archive")]
pub use image::{read_image, write_image};
pub use number::{FunctionalNumber, Msisdn, NumberError};
#[cfg(feature = "archive")]
pub use routing::routing;
#[cfg(feature = "archive")]
pub use withdrawal::{add, close, compact, Compacted};
