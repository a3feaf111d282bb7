//! The calls, which `libffn_c.a` carries out.

use crate::answers::{
    Failure, Kind, Operation, Outcome, Refusal, Reply, RequestError, Resulted, Sent,
};
use crate::{c, Crew, Figures, FunctionalNumber, Msisdn};

/// The least room of a reply or a notice.
pub const BUFFER_ROOM: usize = 80;

/// The least room that the request writer takes.
pub const WRITER_ROOM: usize = 160;

/// The most characters of a request string.
pub const MOST_CHARACTERS: usize = 72;

/// The most characters of the reply to a crew's request, and where what became
/// of its numbers starts: behind the outcome and a space.
const MOST_CREW_REPLY: usize = 28;
const BEHIND_OUTCOME: usize = 3;

/// The data coding scheme of a request's string.
pub const CODING_SCHEME: u8 = 0x0F;

/// The fields of a request string.
#[derive(Clone, Copy, Debug, PartialEq, Eq)]
pub struct Request<'a> {
    pub operation: Operation,
    pub number: FunctionalNumber,
    /// With [`Operation::Erase`] only: a forced erasure, and the MSISDN to
    /// erase.
    pub forced: Option<Msisdn>,
    /// 0 to 30 characters from 0–9, A–Z and space. One that starts with `BULK`
    /// is of a crew ([`CrewField`](crate::CrewField) makes it): one digit n,
    /// and, if n is above 0, a space and n two-digit codes, none 01, none twice;
    /// the number ends in 01, and the request registers or erases plainly.
    pub additional: &'a [u8],
}

/// A request string that was read, with its characters.
#[derive(Clone, Copy, Debug, PartialEq, Eq)]
pub struct ReadRequest {
    pub operation: Operation,
    pub number: FunctionalNumber,
    pub forced: Option<Msisdn>,
    /// Of a crew: how many codes the additional field ends in.
    pub crew: Option<usize>,
    text: [u8; MOST_CHARACTERS],
    start: usize,
    length: usize,
}

impl ReadRequest {
    /// The additional field.
    pub fn additional(&self) -> &[u8] {
        &self.text[self.start..][..self.length]
    }

    /// The fields, as the writer takes them.
    pub fn fields(&self) -> Request<'_> {
        Request {
            operation: self.operation,
            number: self.number,
            forced: self.forced,
            additional: self.additional(),
        }
    }
}

/// What the library answered is always there: its contracts name every answer.
pub(crate) fn answered<T>(answer: Option<T>) -> T {
    answer.unwrap_or_else(|| unreachable!("no answer of the library"))
}

pub(crate) fn refusal(number: u32) -> Refusal {
    answered(Refusal::from_number(number))
}

pub(crate) fn error(number: u32) -> RequestError {
    answered(RequestError::from_number(number))
}

/// What the packed reply to a crew's request says.
fn crew(octets: &[u8]) -> Crew {
    let mut text = [0; MOST_CREW_REPLY];
    let count = answered(unpack(octets, &mut text).ok());
    answered(Crew::from_text(&text[BEHIND_OUTCOME..count]))
}

/// The outcome with this number and value, whose text is packed in `octets`.
pub(crate) fn outcome(number: u32, value: u64, octets: &[u8]) -> Outcome {
    match number {
        1 => Outcome::Registered,
        2 => Outcome::Erased,
        3 => Outcome::Held(answered(Msisdn::from_word(value))),
        11 => Outcome::CrewRegistered(crew(octets)),
        12 => Outcome::CrewErased(crew(octets)),
        22 => Outcome::NoSupervisor,
        41 => Outcome::UnknownNumber,
        42 => Outcome::NoFollowMe,
        61 => Outcome::HeldByAnother,
        62 => Outcome::NoHolder,
        63 => Outcome::WrongHolder,
        64 => Outcome::Closed,
        67 => Outcome::SameDigits,
        68 => Outcome::NoticePending,
        _ => unreachable!("outcome {number}"),
    }
}

/// The outcome of an answer, whose text is in front of `reply`.
fn replied(answer: c::Answer, reply: &[u8]) -> Reply {
    let octets = answer.count;
    Reply {
        outcome: outcome(answer.number, answer.value, &reply[..octets]),
        octets,
    }
}

pub(crate) fn written(answer: c::Answer) -> Result<usize, Refusal> {
    match answer.class {
        c::WRITTEN => Ok(answer.count),
        c::REFUSAL => Err(refusal(answer.number)),
        _ => unreachable!("{answer:?}"),
    }
}

/// Packs characters (TS 23.038, USSD) and returns the count of octets.
///
/// # Errors
/// [`Refusal::NoRoom`] where `out` is shorter than the octets, then
/// [`Refusal::Unfit`] where a value is above 127 or a carriage return.
pub fn pack(chars: &[u8], out: &mut [u8]) -> Result<usize, Refusal> {
    written(c::pack(chars, out))
}

/// Unpacks octets and returns the count of characters.
///
/// # Errors
/// [`Refusal::NoRoom`] where `out` is shorter than the characters before any
/// drop, then [`Refusal::Unfit`] where unused bits are not 0.
pub fn unpack(octets: &[u8], out: &mut [u8]) -> Result<usize, Refusal> {
    written(c::unpack(octets, out))
}

/// Writes a request string, packed, and returns the count of octets.
///
/// # Errors
/// [`Refusal::NoRoom`] where `out` has under 160 octets, then
/// [`Refusal::Unfit`] where the fields break the string's rules.
pub fn write_request(fields: &Request<'_>, out: &mut [u8]) -> Result<usize, Refusal> {
    written(c::write_request(
        fields.operation.number(),
        fields.number.word(),
        fields.forced.map_or(0, Msisdn::word),
        fields.additional,
        out,
    ))
}

/// Reads a packed request string.
///
/// # Errors
/// [`RequestError::UnexpectedDataValue`] where it does not read.
pub fn read_request(octets: &[u8]) -> Result<ReadRequest, RequestError> {
    let mut text = [0; MOST_CHARACTERS];
    let read = c::read_request(octets, &mut text);
    match read.class {
        c::READ => Ok(ReadRequest {
            operation: answered(Operation::from_number(read.operation)),
            number: answered(FunctionalNumber::from_word(read.functional_number)),
            forced: Msisdn::from_word(read.msisdn),
            crew: (read.crew == 1).then_some(read.codes),
            text,
            start: read.start,
            length: read.length,
        }),
        c::ERROR => Err(error(read.number)),
        _ => unreachable!("{read:?}"),
    }
}

/// Carries out a request.
///
/// # Errors
/// A refusal or an error, in the papers' order of checks:
/// [`Refusal::Figures`] stands directly behind [`Refusal::TableUnsound`].
pub fn request(
    table: &mut [u64],
    figures: &mut Figures,
    list: &[u64],
    reply: &mut [u8],
    requester: Msisdn,
    scheme: u8,
    string: &[u8],
) -> Result<Reply, Failure> {
    let requester = requester.word();
    let answer =
        figures.lend(|figures| c::request(table, figures, list, reply, requester, scheme, string));
    match answer.class {
        c::OUTCOME => Ok(replied(answer, reply)),
        c::ERROR => Err(Failure::Error(error(answer.number))),
        c::REFUSAL => Err(Failure::Refused(refusal(answer.number))),
        _ => unreachable!("{answer:?}"),
    }
}

/// Erases a number at the node's terminal, whose staff name its holder: a forced
/// erasure by nobody listed. The outcome is [`Outcome::Erased`], and a notice to the
/// holder waits that names no supervisor; or it is [`Outcome::UnknownNumber`],
/// [`Outcome::NoHolder`], [`Outcome::WrongHolder`] or [`Outcome::NoticePending`], in
/// this order, and nothing changes.
///
/// # Errors
/// [`Refusal::NoRoom`], [`Refusal::TableUnsound`], [`Refusal::Figures`],
/// [`Refusal::Number`] where the number or the holder is malformed, in this order.
///
/// # Examples
/// ```
/// use ffn::{sending, terminal_erasure, unpack, Figures, Outcome, BUFFER_ROOM};
///
/// // A driver has gone home and left her number behind.
/// let (number, driver) = ("0492123401".parse()?, "4915100001".parse()?);
/// let table = &mut [10_492_123_401, 14_915_100_001, 0, 0, 0, 0, 0];
/// let figures = &mut Figures::recount(table)?;
/// let buffer = &mut [0; BUFFER_ROOM];
/// let done = terminal_erasure(table, figures, buffer, number, driver)?;
/// assert_eq!(done.outcome, Outcome::Erased);
///
/// // She is told, and by nobody's name.
/// let sent = sending(table, figures, buffer, number, 60, 100)?;
/// assert_eq!(sent.addressee, driver);
/// let text = &mut [0; BUFFER_ROOM];
/// let count = unpack(&buffer[..sent.octets], text)?;
/// assert_eq!(text[..count], *b"##214*0492123401*88**#");
/// # Ok::<(), Box<dyn std::error::Error>>(())
/// ```
pub fn terminal_erasure(
    table: &mut [u64],
    figures: &mut Figures,
    reply: &mut [u8],
    number: FunctionalNumber,
    holder: Msisdn,
) -> Result<Reply, Refusal> {
    let (number, holder) = (number.word(), holder.word());
    let answer = figures.lend(|figures| c::terminal_erasure(table, figures, reply, number, holder));
    match answer.class {
        c::OUTCOME => Ok(replied(answer, reply)),
        c::REFUSAL => Err(refusal(answer.number)),
        _ => unreachable!("{answer:?}"),
    }
}

/// Sends the notice of a number, if it is due. The delay is 60 to 600 seconds,
/// or 0 for 300; `now` is the second counter, which wraps. A notice from the
/// terminal leaves the supervisor's MSISDN blank.
///
/// # Errors
/// [`Refusal::NoRoom`], [`Refusal::TableUnsound`], [`Refusal::Figures`],
/// [`Refusal::Number`], [`Refusal::Delay`], [`Refusal::Phase`],
/// [`Refusal::NotDue`], in this order.
pub fn sending(
    table: &mut [u64],
    figures: &mut Figures,
    buffer: &mut [u8],
    number: FunctionalNumber,
    delay: u32,
    now: u32,
) -> Result<Sent, Refusal> {
    let answer =
        figures.lend(|figures| c::sending(table, figures, buffer, number.word(), delay, now));
    match answer.class {
        c::SENT => Ok(Sent {
            addressee: answered(Msisdn::from_word(answer.value)),
            octets: answer.count,
        }),
        c::REFUSAL => Err(refusal(answer.number)),
        _ => unreachable!("{answer:?}"),
    }
}

/// Takes in how a sending went.
///
/// # Errors
/// [`Refusal::TableUnsound`], [`Refusal::Figures`], [`Refusal::Number`],
/// [`Refusal::Phase`], in this order.
pub fn result(
    table: &mut [u64],
    figures: &mut Figures,
    number: FunctionalNumber,
    kind: Kind,
    now: u32,
) -> Result<Resulted, Refusal> {
    let answer =
        figures.lend(|figures| c::result(table, figures, number.word(), kind.number(), now));
    match answer.class {
        c::RESULT => Ok(answered(Resulted::from_number(answer.number))),
        c::REFUSAL => Err(refusal(answer.number)),
        _ => unreachable!("{answer:?}"),
    }
}

/// Finds the lowest number whose notice is due, if one is due, by a delay as
/// [`sending`] takes it.
///
/// # Errors
/// [`Refusal::TableUnsound`], then [`Refusal::Delay`].
pub fn finding(table: &[u64], delay: u32, now: u32) -> Result<Option<FunctionalNumber>, Refusal> {
    let answer = c::finding(table, delay, now);
    match answer.class {
        c::FOUND => Ok(Some(answered(FunctionalNumber::from_word(answer.value)))),
        c::NONE_DUE => Ok(None),
        c::REFUSAL => Err(refusal(answer.number)),
        _ => unreachable!("{answer:?}"),
    }
}
