//! The calls on messages: Register and Release Complete (document 000, 4.2.1
//! and 4.2.2).

use crate::answers::{Answered, FramedReply, Message, Problem, Refusal, Register, Release};
use crate::calls::{answered, error, outcome, refusal, written, Request};
use crate::{c, Figures, Msisdn};

/// The least room of a frame.
pub const FRAME_ROOM: usize = 120;

/// Carries out the request in a Register and writes the Release Complete that
/// answers it: its invoke number is the message's, its transaction identifier
/// too but for the flag, which is inverted. An error or a Reject leaves table
/// and figures.
///
/// # Errors
/// [`Refusal::NoRoom`] where `frame` has under 120 octets, then
/// [`Refusal::Message`], [`Refusal::ListUnsound`], [`Refusal::TableUnsound`],
/// [`Refusal::Figures`], in this order. Nothing is written then.
///
/// # Examples
/// ```
/// use ffn::{framed_request, read_release, write_register, Answered, Figures, FunctionalNumber};
/// use ffn::{Msisdn, Operation, Outcome, Release, Request, FRAME_ROOM};
///
/// let number: FunctionalNumber = "0492123401".parse()?;
/// let driver: Msisdn = "4915100001".parse()?;
/// let mut table = [number.word(), 0, 0, 0, 0, 0, 0];
/// let mut figures = Figures::recount(&table)?;
/// let list = [driver.word(), 1];
/// let (mut register, mut release) = ([0; FRAME_ROOM], [0; FRAME_ROOM]);
/// let fields = Request {
///     operation: Operation::Register,
///     number,
///     forced: None,
///     additional: b"",
/// };
/// let count = write_register(0, 1, &fields, &mut register)?;
/// let (frame, message) = (&mut release, &register[..count]);
/// let reply = framed_request(&mut table, &mut figures, &list, frame, driver, message)?;
/// assert_eq!(reply.answered, Answered::Result(Outcome::Registered));
/// assert_eq!(figures.held, 1);
///
/// let read = read_release(&release[..reply.octets])?;
/// assert_eq!((read.transaction, read.invoke), (8, 1));
/// match read.content {
///     Release::Result(string) => assert_eq!(string, [0xB0, 0x18]), // 01, packed
///     Release::Error(code) => panic!("error {code}"),
///     Release::Reject(problem) => panic!("problem {problem}"),
/// }
/// # Ok::<(), Box<dyn std::error::Error>>(())
/// ```
pub fn framed_request(
    table: &mut [u64],
    figures: &mut Figures,
    list: &[u64],
    frame: &mut [u8],
    requester: Msisdn,
    message: &[u8],
) -> Result<FramedReply, Refusal> {
    let requester = requester.word();
    let answer =
        figures.lend(|figures| c::framed_request(table, figures, list, frame, requester, message));
    let content = match answer.class {
        c::OUTCOME => {
            let read = c::read_release(&frame[..answer.count]);
            let string = &frame[read.start..][..read.length];
            Answered::Result(outcome(answer.number, answer.value, string))
        }
        c::RETURN_ERROR => Answered::Error(error(answer.number)),
        c::REJECT => Answered::Reject(problem(answer.number)),
        c::REFUSAL => return Err(refusal(answer.number)),
        _ => unreachable!("{answer:?}"),
    };
    Ok(FramedReply {
        answered: content,
        octets: answer.count,
    })
}

/// Writes a Register with a transaction identifier, 0 to 15, and returns the
/// count of octets.
///
/// # Errors
/// [`Refusal::NoRoom`] where `frame` has under 120 octets, then
/// [`Refusal::Unfit`] where the fields break the string's rules or the
/// identifier is above 15.
pub fn write_register(
    transaction: u8,
    invoke: u8,
    fields: &Request<'_>,
    frame: &mut [u8],
) -> Result<usize, Refusal> {
    written(c::write_register(
        transaction,
        invoke,
        fields.operation.number(),
        fields.number.word(),
        fields.forced.map_or(0, Msisdn::word),
        fields.additional,
        frame,
    ))
}

/// Reads a Register.
///
/// # Errors
/// [`Refusal::Message`] where it is wrong anywhere up to its invoke number.
pub fn read_register(message: &[u8]) -> Result<Message<Register<'_>>, Refusal> {
    let read = c::read_register(message);
    let content = match read.class {
        c::READ => Register::Request {
            scheme: octet(read.scheme),
            string: &message[read.start..][..read.length],
        },
        c::REJECT => Register::Rejected(problem(read.number)),
        c::REFUSAL => return Err(refusal(read.number)),
        _ => unreachable!("{read:?}"),
    };
    Ok(framed(read, content))
}

/// Reads a Release Complete, as the node writes it: with a string of up to 80
/// octets, any code and any problem.
///
/// # Errors
/// [`Refusal::Message`] for anything else.
pub fn read_release(message: &[u8]) -> Result<Message<Release<'_>>, Refusal> {
    let read = c::read_release(message);
    let content = match read.class {
        c::READ => Release::Result(&message[read.start..][..read.length]),
        c::RETURN_ERROR => Release::Error(octet(read.number)),
        c::REJECT => Release::Reject(octet(read.number)),
        c::REFUSAL => return Err(refusal(read.number)),
        _ => unreachable!("{read:?}"),
    };
    Ok(framed(read, content))
}

fn framed<T>(read: c::FrameRead, content: T) -> Message<T> {
    Message {
        transaction: octet(read.first) >> 4,
        invoke: octet(read.invoke),
        content,
    }
}

fn problem(number: u32) -> Problem {
    answered(Problem::from_number(number))
}

fn octet(number: u32) -> u8 {
    answered(u8::try_from(number).ok())
}
