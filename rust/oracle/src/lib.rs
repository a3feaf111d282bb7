//! Document 01, and what document 02 added to it, in plain Rust.
//!
//! This package is written from the papers alone and shares nothing with the
//! proved code. It serves as an outside check (the same inputs, compared
//! answer by answer and octet by octet) and as a baseline for speed.
//!
//! Every call of the node works on lent slices and allocates nothing; only the
//! calls of the [`radio`], [`run`], the program of document 01, and the
//! generator of test inputs allocate.
//! Numbers are taken and given in stored form throughout: the digits with a 1
//! put in front, read as a decimal. A caller lends the figures of the table
//! beside it, by [`recount`] at first.

#![forbid(unsafe_code)]

pub mod account;
mod calls;
mod crew;
mod frame;
pub mod generate;
mod image;
mod node;
mod number;
mod packing;
mod program;
pub mod radio;
mod routing;
mod rows;
mod string;
mod text;
mod withdrawal;

pub use calls::{run_calls, CALLS_INPUT_LIMIT};
pub use crew::{crew_codes, Code};
pub use frame::{read_register, read_release, write_register, Invoked, Message, Place, Released};
pub use image::{read_image, write_image};
pub use node::{finding, framed_request, request, result, sending, terminal_erasure, Answer};
pub use number::{is_number, number_from_digits};
pub use packing::{pack, unpack};
pub use program::{run, INPUT_LIMIT};
pub use routing::{routing, NetworkCode, Subaddress};
pub use rows::{list_is_sound, recount, table_is_sound};
pub use string::{read_notice, read_request, write_request, Additional, Fields, Notice, Operation};
pub use withdrawal::{add, close, compact};
