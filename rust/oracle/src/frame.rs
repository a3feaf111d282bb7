//! Messages between base station side and node (document 000, 4.2.1 and 4.2.2;
//! document 02, M-101): Register and Release Complete, each read and written.
//!
//! A message is its header, one facility element and, of Register, the SS
//! version. The element holds one component: parts of a tag, a length and a
//! content, one in the other. A part's length is in its shortest form; the
//! element's own is one plain octet.

use crate::string::{write_request, Fields, WRITER_ROOM};

/// The least room that a frame is written into.
pub(crate) const FRAME_ROOM: usize = 120;

/// The low half of a first octet: supplementary services. The high half is the
/// transaction identifier, whose flag is the highest bit.
const SERVICES: u8 = 0x0B;
const MAX_TRANSACTION: u8 = 15;
const FLAG: u8 = 0x80;

/// The message types, the facility element, and the SS version that ends a
/// Register.
const REGISTER: u8 = 0x7B;
const RELEASE_COMPLETE: u8 = 0x2A;
const FACILITY: u8 = 0x1C;
const SS_VERSION: [u8; 3] = [0x7F, 0x01, 0x00];

/// The tags of parts.
const INVOKE: u8 = 0xA1;
const RETURN_RESULT: u8 = 0xA2;
const RETURN_ERROR: u8 = 0xA3;
const REJECT: u8 = 0xA4;
const INTEGER: u8 = 0x02;
const OCTETS: u8 = 0x04;
const SEQUENCE: u8 = 0x30;
const INVOKE_PROBLEM: u8 = 0x81;

/// The operation ProcessUnstructuredSS-Request, and the scheme of its strings.
const OPERATION: [u8; 3] = [INTEGER, 1, 0x3B];
pub(crate) const SCHEME: u8 = 0x0F;

/// The most octets of the string in a result.
const MAX_RESULT: usize = 80;

/// The problems of a Reject.
const UNRECOGNIZED_OPERATION: u8 = 1;
const MISTYPED_PARAMETER: u8 = 2;

/// What a Register has behind its invoke number.
#[derive(Clone, Copy, Debug, PartialEq, Eq)]
pub enum Invoked {
    /// A request; its string is in the message at this place.
    Request { scheme: u8, string: Place },
    /// What a Reject says of it.
    Problem(u8),
}

/// The three cases of a Release Complete.
#[derive(Clone, Copy, Debug, PartialEq, Eq)]
pub enum Released<S> {
    /// Its string, or where that is in the message.
    Result(S),
    Error(u8),
    Reject(u8),
}

/// A message by its first octet, its invoke number and what is behind it.
#[derive(Clone, Copy, Debug, PartialEq, Eq)]
pub struct Message<T> {
    pub first: u8,
    pub invoke: u8,
    pub content: T,
}

/// Where a string is in a message.
#[derive(Clone, Copy, Debug, PartialEq, Eq)]
pub struct Place {
    pub start: usize,
    pub length: usize,
}

impl Place {
    pub fn of(self, message: &[u8]) -> &[u8] {
        &message[self.start..][..self.length]
    }
}

/// Reads a Register.
///
/// # Errors
/// 11 where the message is wrong anywhere up to and with its invoke number.
pub fn read_register(message: &[u8]) -> Result<Message<Invoked>, u8> {
    let (first, element, behind) = element(message, REGISTER).ok_or(11)?;
    let (INVOKE, parts, []) = part(element).ok_or(11)? else {
        return Err(11);
    };
    let (invoke, parts) = number(parts, INTEGER).ok_or(11)?;
    let content = match parts.strip_prefix(&OPERATION) {
        None => Invoked::Problem(UNRECOGNIZED_OPERATION),
        Some(parts) => match sequence(parts).and_then(scheme_and_string) {
            Some((scheme, string)) if behind == SS_VERSION => Invoked::Request {
                scheme,
                string: before(message, behind, string),
            },
            _ => Invoked::Problem(MISTYPED_PARAMETER),
        },
    };
    Ok(Message {
        first,
        invoke,
        content,
    })
}

/// Reads a Release Complete.
///
/// # Errors
/// 11 where it is none that the node's writer could have written, a result
/// with any string of up to 80 octets, any error's code and any problem apart.
pub fn read_release(message: &[u8]) -> Result<Message<Released<Place>>, u8> {
    released(message).ok_or(11)
}

fn released(message: &[u8]) -> Option<Message<Released<Place>>> {
    let (first, element, []) = element(message, RELEASE_COMPLETE)? else {
        return None;
    };
    let (tag, parts, []) = part(element)? else {
        return None;
    };
    let (invoke, parts) = number(parts, INTEGER)?;
    let content = match tag {
        RETURN_RESULT => {
            let parts = sequence(parts)?.strip_prefix(&OPERATION)?;
            let (SCHEME, string) = scheme_and_string(sequence(parts)?)? else {
                return None;
            };
            if string.len() > MAX_RESULT {
                return None;
            }
            Released::Result(before(message, &[], string))
        }
        RETURN_ERROR => Released::Error(last_number(parts, INTEGER)?),
        REJECT => Released::Reject(last_number(parts, INVOKE_PROBLEM)?),
        _ => return None,
    };
    Some(Message {
        first,
        invoke,
        content,
    })
}

/// The first octet of a message of this type, the content of its facility
/// element, and what follows that.
fn element(message: &[u8], message_type: u8) -> Option<(u8, &[u8], &[u8])> {
    let ([first, kind, FACILITY, length], rest) = message.split_first_chunk()? else {
        return None;
    };
    let (element, behind) = rest.split_at_checked(usize::from(*length))?;
    (first & 0x0F == SERVICES && *kind == message_type).then_some((*first, element, behind))
}

/// The tag and the content of the part at the start of `octets`, and what
/// follows it. Contents here have at most 252 octets, so a length above 255
/// is in no shortest form that could be right.
fn part(octets: &[u8]) -> Option<(u8, &[u8], &[u8])> {
    let (tag, length, rest) = match *octets {
        [tag, length @ 0..=0x7F, ref rest @ ..] => (tag, length, rest),
        [tag, 0x81, length @ 0x80..=0xFF, ref rest @ ..] => (tag, length, rest),
        _ => return None,
    };
    let (content, behind) = rest.split_at_checked(usize::from(length))?;
    Some((tag, content, behind))
}

/// A part of one octet with this tag, and what follows it.
fn number(octets: &[u8], tag: u8) -> Option<(u8, &[u8])> {
    match part(octets)? {
        (found, &[number], behind) if found == tag => Some((number, behind)),
        _ => None,
    }
}

/// The same where nothing follows.
fn last_number(octets: &[u8], tag: u8) -> Option<u8> {
    match number(octets, tag)? {
        (number, []) => Some(number),
        _ => None,
    }
}

/// What is in a sequence that nothing follows.
fn sequence(octets: &[u8]) -> Option<&[u8]> {
    match part(octets)? {
        (SEQUENCE, content, []) => Some(content),
        _ => None,
    }
}

/// The scheme and the string that a sequence consists of.
fn scheme_and_string(octets: &[u8]) -> Option<(u8, &[u8])> {
    let (scheme, rest) = number(octets, OCTETS)?;
    match part(rest)? {
        (OCTETS, string, []) => Some((scheme, string)),
        _ => None,
    }
}

/// The place of a string that stands in front of `behind`, the end of a
/// message.
fn before(message: &[u8], behind: &[u8], string: &[u8]) -> Place {
    Place {
        start: message.len() - behind.len() - string.len(),
        length: string.len(),
    }
}

/// Writes a Register with a request of `fields` into the start of `frame` and
/// returns the count of octets.
///
/// # Errors
/// 1 if `frame` has under 120 octets; then 9 if the fields break the string's
/// rules or `transaction` is above 15. Either way `frame` stays as it was.
pub fn write_register<A: AsRef<[u8]>>(
    transaction: u8,
    invoke: u8,
    fields: &Fields<A>,
    frame: &mut [u8],
) -> Result<usize, u8> {
    if frame.len() < FRAME_ROOM {
        return Err(1);
    }
    let mut string = [0; WRITER_ROOM];
    let count = write_request(fields, &mut string)?;
    if transaction > MAX_TRANSACTION {
        return Err(9);
    }
    let mut backward = Backward::new();
    backward
        .put(&string[..count])
        .wrap(OCTETS)
        .put(&[OCTETS, 1, SCHEME])
        .wrap(SEQUENCE)
        .put(&OPERATION)
        .put(&[INTEGER, 1, invoke])
        .wrap(INVOKE)
        .head(transaction << 4 | SERVICES, REGISTER);
    let count = backward.copy_to(frame);
    frame[count..][..SS_VERSION.len()].copy_from_slice(&SS_VERSION);
    Ok(count + SS_VERSION.len())
}

/// Writes the Release Complete that answers a message with this first octet,
/// and returns the count of octets. `frame` has the room.
pub(crate) fn write_release(
    first: u8,
    invoke: u8,
    content: Released<&[u8]>,
    frame: &mut [u8],
) -> usize {
    let mut backward = Backward::new();
    let tag = match content {
        Released::Result(string) => {
            backward
                .put(string)
                .wrap(OCTETS)
                .put(&[OCTETS, 1, SCHEME])
                .wrap(SEQUENCE)
                .put(&OPERATION)
                .wrap(SEQUENCE);
            RETURN_RESULT
        }
        Released::Error(code) => {
            backward.put(&[INTEGER, 1, code]);
            RETURN_ERROR
        }
        Released::Reject(problem) => {
            backward.put(&[INVOKE_PROBLEM, 1, problem]);
            REJECT
        }
    };
    backward
        .put(&[INTEGER, 1, invoke])
        .wrap(tag)
        .head(first ^ FLAG, RELEASE_COMPLETE);
    backward.copy_to(frame)
}

/// Octets written from the end, so that the length of a part is known when it
/// is put in front of its content.
struct Backward {
    octets: [u8; FRAME_ROOM],
    start: usize,
}

impl Backward {
    fn new() -> Self {
        Self {
            octets: [0; FRAME_ROOM],
            start: FRAME_ROOM,
        }
    }

    /// Puts octets in front.
    fn put(&mut self, octets: &[u8]) -> &mut Self {
        self.start -= octets.len();
        self.octets[self.start..][..octets.len()].copy_from_slice(octets);
        self
    }

    /// How many octets there are. What is written here stays below 128, where
    /// a part's length is one octet.
    fn length(&self) -> u8 {
        (FRAME_ROOM - self.start) as u8
    }

    /// Makes all that there is the content of a part.
    fn wrap(&mut self, tag: u8) -> &mut Self {
        self.put(&[tag, self.length()])
    }

    /// Makes all that there is the content of the facility element.
    fn head(&mut self, first: u8, message_type: u8) {
        self.put(&[first, message_type, FACILITY, self.length()]);
    }

    fn copy_to(&self, frame: &mut [u8]) -> usize {
        let octets = &self.octets[self.start..];
        frame[..octets.len()].copy_from_slice(octets);
        octets.len()
    }
}
