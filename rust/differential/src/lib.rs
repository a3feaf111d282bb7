//! The proved library beside the independent implementation of the papers:
//! both are given the same random calls, each on its own copy of all lent
//! memory, and must agree on every answer, every word and every octet.

#![forbid(unsafe_code)]

use std::collections::BTreeMap;

use ffn::c;
use oracle::generate::{Call, Generator, Random, Reply};
use oracle::{Answer, Fields, Invoked, Message, Operation, Place, Released};

pub mod account;
pub mod radio;

/// How often each kind of answer came up.
pub type Counts = BTreeMap<String, u64>;

/// The fields that a string reads as and, of a crew, how many codes it has.
type Read = (Fields<Vec<u8>>, Option<usize>);

/// What a call was answered, in the independent implementation's types.
#[derive(Clone, Debug, PartialEq, Eq)]
enum Said {
    Answer(Answer),
    Figures(Option<[u64; 3]>),
    Count(Result<usize, u8>),
    Fields(Option<Read>),
    IsNumber(bool),
    Register(Result<Message<Invoked>, u8>),
    Release(Result<Message<Released<Place>>, u8>),
    Rows(Result<(usize, usize), u8>),
}

/// A call with its memory, and the text that the request reader is lent.
#[derive(Clone, Debug, PartialEq, Eq)]
struct Lent {
    call: Call,
    text: Vec<u8>,
}

/// Makes `calls` calls from `seed` and compares them one by one.
///
/// # Errors
/// At the first difference: the call, and what both made of it.
pub fn compare(seed: u64, calls: u64) -> Result<Counts, String> {
    let mut generator = Generator::new(seed);
    let mut random = Random::new(!seed);
    let mut counts = Counts::new();
    for n in 0..calls {
        let before = lend(generator.call(), &mut random);
        let (mut left, mut right) = (before.clone(), before.clone());
        let (by_oracle, by_library) = (ask_oracle(&mut left), ask_library(&mut right));
        if by_oracle != by_library || left != right {
            return Err(format!(
                "call {n} of seed {seed}: {before:?}\n\
                 the independent implementation: {by_oracle:?}\nleaves {left:?}\n\
                 the library: {by_library:?}\nleaves {right:?}"
            ));
        }
        unknown_operation(&before, &mut random)
            .map_err(|e| format!("call {n} of seed {seed}: {e}"))?;
        *counts.entry(kind(&before.call, &by_library)).or_default() += 1;
    }
    Ok(counts)
}

/// The call as the C interface can say it, with a text of some length.
fn lend(mut call: Call, random: &mut Random) -> Lent {
    let mut text = Vec::new();
    match &mut call {
        // There the word 0 stands for an absent MSISDN, so none is named.
        Call::WriteRequest { fields, .. } | Call::WriteRegister { fields, .. }
            if fields.forced == Some(0) =>
        {
            fields.forced = None;
        }
        Call::ReadRequest { octets } => {
            let room = characters(octets);
            let length = random.pick(&[0, room.saturating_sub(1), room, room + 1, 72, 200]);
            text.extend((0..length).map(|_| random.octet()));
        }
        _ => {}
    }
    Lent { call, text }
}

/// How many characters octets hold, before any drop.
fn characters(octets: &[u8]) -> usize {
    8 * octets.len() / 7
}

fn ask_oracle(lent: &mut Lent) -> Said {
    let said = match lent.call.run() {
        Reply::Answer(answer) => Said::Answer(answer),
        Reply::Figures(figures) => Said::Figures(figures),
        Reply::Count(count) => Said::Count(count),
        Reply::IsNumber(is_number) => Said::IsNumber(is_number),
        Reply::Register(read) => Said::Register(read),
        Reply::Release(read) => Said::Release(read),
        Reply::Rows(rows) => Said::Rows(rows),
        Reply::Fields(fields) => Said::Fields(fields.map(|f| {
            let additional = f.additional.as_ref().to_vec();
            let codes = oracle::crew_codes(&additional).map(<[_]>::len);
            let fields = Fields {
                operation: f.operation,
                number: f.number,
                forced: f.forced,
                additional,
            };
            (fields, codes)
        })),
    };
    // The text of a string that reads is unpacked where there is room for it.
    if let (Call::ReadRequest { octets }, Said::Fields(Some(_))) = (&lent.call, &said) {
        if characters(octets) <= lent.text.len() {
            oracle::unpack(octets, &mut lent.text).expect("a string that reads unpacks");
        }
    }
    said
}

fn ask_library(lent: &mut Lent) -> Said {
    match &mut lent.call {
        Call::Request {
            table,
            figures,
            list,
            reply,
            requester,
            scheme,
            string,
        } => answer(c::request(
            table, figures, list, reply, *requester, *scheme, string,
        )),
        Call::Sending {
            table,
            figures,
            buffer,
            number,
            delay,
            now,
        } => answer(c::sending(table, figures, buffer, *number, *delay, *now)),
        Call::Result {
            table,
            figures,
            number,
            kind,
            now,
        } => answer(c::result(table, figures, *number, *kind, *now)),
        Call::Finding { table, delay, now } => answer(c::finding(table, *delay, *now)),
        Call::Recount { table } => Said::Figures(figures(c::recount(table))),
        Call::Pack { chars, out } => Said::Count(count(c::pack(chars, out))),
        Call::Unpack { octets, out } => Said::Count(count(c::unpack(octets, out))),
        Call::WriteRequest { fields, out } => {
            let operation = number_of(fields.operation);
            Said::Count(count(write(operation, fields, out)))
        }
        Call::ReadRequest { octets } => Said::Fields(read(octets, &mut lent.text)),
        Call::IsNumber { word } => {
            // The writer takes a functional number exactly if it is one.
            let operation = number_of(Operation::Register);
            let written = count(c::write_request(operation, *word, 0, &[], &mut [0; 160]));
            Said::IsNumber(written != Err(9))
        }
        Call::FramedRequest {
            table,
            figures,
            list,
            frame,
            requester,
            message,
        } => answer(c::framed_request(
            table, figures, list, frame, *requester, message,
        )),
        Call::WriteRegister {
            transaction,
            invoke,
            fields,
            frame,
        } => {
            let operation = number_of(fields.operation);
            let written = write_register(*transaction, *invoke, operation, fields, frame);
            Said::Count(count(written))
        }
        Call::ReadRegister { message } => Said::Register(register(c::read_register(message))),
        Call::ReadRelease { message } => Said::Release(release(c::read_release(message))),
        Call::WriteImage {
            table,
            figures,
            list,
            image,
        } => Said::Count(count(c::write_image(table, figures, list, image))),
        Call::ReadImage {
            image,
            table,
            list,
            figures,
        } => Said::Rows(rows(c::read_image(image, table, list, figures))),
        Call::Close {
            table,
            figures,
            number,
        } => answer(c::close(table, figures, *number)),
        Call::Compact {
            words,
            rows,
            figures,
        } => answer(c::compact(words, *rows, figures)),
        Call::Add {
            words,
            rows,
            figures,
            number,
        } => answer(c::add(words, *rows, figures, *number)),
        Call::TerminalErasure {
            table,
            figures,
            reply,
            number,
            holder,
        } => answer(c::terminal_erasure(table, figures, reply, *number, *holder)),
        Call::Routing {
            table,
            code,
            digits,
            coded,
        } => route(c::routing(table, code, digits, (*coded).into())),
    }
}

fn write(operation: u32, fields: &Fields<Vec<u8>>, out: &mut [u8]) -> c::Answer {
    let msisdn = fields.forced.unwrap_or(0);
    c::write_request(operation, fields.number, msisdn, &fields.additional, out)
}

fn write_register(
    transaction: u8,
    invoke: u8,
    operation: u32,
    fields: &Fields<Vec<u8>>,
    frame: &mut [u8],
) -> c::Answer {
    let (number, msisdn) = (fields.number, fields.forced.unwrap_or(0));
    let additional = &fields.additional;
    c::write_register(
        transaction,
        invoke,
        operation,
        number,
        msisdn,
        additional,
        frame,
    )
}

/// What a Register reads as; a field that its class does not name is 0.
fn register(read: c::FrameRead) -> Result<Message<Invoked>, u8> {
    let content = match read.class {
        c::READ if read.number == 0 => Invoked::Request {
            scheme: octet(read.scheme),
            string: place(read),
        },
        c::REJECT if no_string(read) => Invoked::Problem(octet(read.number)),
        _ => return Err(unread(read)),
    };
    Ok(message(read, content))
}

/// What a Release Complete reads as.
fn release(read: c::FrameRead) -> Result<Message<Released<Place>>, u8> {
    let content = match read.class {
        c::READ if (read.number, read.scheme) == (0, 0x0F) => Released::Result(place(read)),
        c::RETURN_ERROR if no_string(read) => Released::Error(octet(read.number)),
        c::REJECT if no_string(read) => Released::Reject(octet(read.number)),
        _ => return Err(unread(read)),
    };
    Ok(message(read, content))
}

fn message<T>(read: c::FrameRead, content: T) -> Message<T> {
    Message {
        first: octet(read.first),
        invoke: octet(read.invoke),
        content,
    }
}

fn place(read: c::FrameRead) -> Place {
    Place {
        start: read.start,
        length: read.length,
    }
}

fn no_string(read: c::FrameRead) -> bool {
    (read.scheme, read.start, read.length) == (0, 0, 0)
}

/// The refusal of a message; all else is 0.
fn unread(read: c::FrameRead) -> u8 {
    let head = (read.class, read.first, read.invoke);
    assert!(head == (c::REFUSAL, 0, 0) && no_string(read), "{read:?}");
    octet(read.number)
}

/// The fields, the additional field taken from the text or, where the caller's
/// has no room for it, from another.
fn read(octets: &[u8], text: &mut [u8]) -> Option<Read> {
    let read = c::read_request(octets, text);
    let mut whole = [0; 72];
    assert_eq!(c::read_request(octets, &mut whole), read);
    if read.class == c::ERROR {
        assert_eq!((read.number, whole), (36, [0; 72]));
        assert_eq!((read.crew, read.codes), (0, 0));
        return None;
    }
    assert_eq!((read.class, read.number), (c::READ, 0));
    let codes = match (read.crew, read.codes) {
        (0, 0) => None,
        (1, codes) => Some(codes),
        _ => panic!("{read:?}"),
    };
    let fields = Fields {
        operation: operation(read.operation),
        number: read.functional_number,
        forced: Some(read.msisdn).filter(|&msisdn| msisdn != 0),
        additional: whole[read.start..][..read.length].to_vec(),
    };
    Some((fields, codes))
}

/// A number that is no operation is refused as fields that break the rules
/// are: 9, and after 1.
fn unknown_operation(before: &Lent, random: &mut Random) -> Result<(), String> {
    let operation = random.pick(&[3, 4, 256, 1 << 31, u32::MAX]);
    let (said, left, out, room) = match &before.call {
        Call::WriteRequest { fields, out } => {
            let mut left = out.clone();
            (write(operation, fields, &mut left), left, out, 160)
        }
        Call::WriteRegister { fields, frame, .. } => {
            let mut left = frame.clone();
            let said = write_register(0, 0, operation, fields, &mut left);
            (said, left, frame, 120)
        }
        _ => return Ok(()),
    };
    let expected = if out.len() < room { 1 } else { 9 };
    if count(said) == Err(expected) && left == *out {
        Ok(())
    } else {
        Err(format!("operation {operation}: {said:?}, {before:?}"))
    }
}

fn number_of(operation: Operation) -> u32 {
    match operation {
        Operation::Register => 0,
        Operation::Erase => 1,
        Operation::Interrogate => 2,
    }
}

fn operation(number: u32) -> Operation {
    match number {
        0 => Operation::Register,
        1 => Operation::Erase,
        2 => Operation::Interrogate,
        _ => panic!("operation {number}"),
    }
}

/// A writer's answer; a field that its class does not name is 0.
fn count(answer: c::Answer) -> Result<usize, u8> {
    match (answer.class, answer.number, answer.count, answer.value) {
        (c::WRITTEN, 0, count, 0) => Ok(count),
        (c::REFUSAL, number, 0, 0) => Err(octet(number)),
        _ => panic!("{answer:?}"),
    }
}

/// A call's answer; a field that its class does not name is 0.
fn answer(answer: c::Answer) -> Said {
    let (number, octets) = (octet(answer.number), answer.count);
    Said::Answer(match (answer.class, number, octets, answer.value) {
        (c::REFUSAL, _, 0, 0) => Answer::Refusal(number),
        (c::ERROR, _, 0, 0) => Answer::Error(number),
        (c::OUTCOME, _, _, msisdn) => Answer::Outcome {
            number,
            octets,
            msisdn,
        },
        (c::RETURN_ERROR, code, _, 0) => Answer::ReturnError { code, octets },
        (c::REJECT, problem, _, 0) => Answer::Reject { problem, octets },
        (c::SENT, 0, _, addressee) => Answer::Sent { addressee, octets },
        (c::RESULT, 0, 0, 0) => Answer::Delivered,
        (c::RESULT, 1, 0, 0) => Answer::Dropped,
        (c::RESULT, 2, 0, 0) => Answer::Again,
        (c::FOUND, 0, 0, number) => Answer::Found(number),
        (c::NONE_DUE, 0, 0, 0) => Answer::NoneDue,
        (c::CLOSED, 0, 0, 0) => Answer::Closed,
        (c::ROWS, 0, in_use, gone) => Answer::Rows {
            in_use,
            gone: usize::try_from(gone).expect("no more rows than there were"),
        },
        _ => panic!("{answer:?}"),
    })
}

/// Where a text message goes; a field that the answer's class does not name is 0.
fn route(route: c::Route) -> Said {
    const NONE: [u8; 3] = [0; 3];
    let (number, octets) = (octet(route.number), route.subaddress_octets);
    let named = (route.msisdn, route.code, route.subaddress, octets);
    Said::Answer(match (route.class, number, named) {
        (c::REFUSAL, _, (0, NONE, NONE, 0)) => Answer::Refusal(number),
        (c::ERROR, _, (0, NONE, NONE, 0)) => Answer::Error(number),
        (c::OUTCOME, _, (0, NONE, NONE, 0)) => Answer::Outcome {
            number,
            octets: 0,
            msisdn: 0,
        },
        (c::ASK_NETWORK, 0, (0, code, NONE, 0)) => Answer::AskNetwork(code),
        (c::ROUTED, 0, (msisdn, NONE, NONE, 0)) => Answer::Routed {
            msisdn,
            subaddress: None,
        },
        (c::ROUTED, 0, (msisdn, NONE, subaddress, 3)) => Answer::Routed {
            msisdn,
            subaddress: Some(subaddress),
        },
        _ => panic!("{route:?}"),
    })
}

/// What a recount says; all but the number of a refusal is 0.
fn figures(counted: c::Figures) -> Option<[u64; 3]> {
    let words = [counted.held, counted.waiting, counted.in_flight];
    match (counted.class, counted.number, words) {
        (c::COUNTED, 0, words) => Some(words),
        (c::REFUSAL, 2, [0, 0, 0]) => None,
        _ => panic!("{counted:?}"),
    }
}

/// What an image reads as; with a refusal all but its number is 0.
fn rows(read: c::ImageRead) -> Result<(usize, usize), u8> {
    match (read.class, read.number, read.numbers, read.subscribers) {
        (c::READ, 0, numbers, subscribers) => Ok((numbers, subscribers)),
        (c::REFUSAL, number, 0, 0) => Err(octet(number)),
        _ => panic!("{read:?}"),
    }
}

fn octet(number: u32) -> u8 {
    u8::try_from(number).expect("the papers' numbers are below 256")
}

/// The kind of an answer, for the counts.
fn kind(call: &Call, said: &Said) -> String {
    let call = match call {
        Call::Request { .. } => "request",
        Call::Sending { .. } => "sending",
        Call::Result { .. } => "result",
        Call::Finding { .. } => "finding",
        Call::Recount { .. } => "recount",
        Call::Pack { .. } => "pack",
        Call::Unpack { .. } => "unpack",
        Call::WriteRequest { .. } => "write request",
        Call::ReadRequest { .. } => "read request",
        Call::IsNumber { .. } => "number",
        Call::FramedRequest { .. } => "framed request",
        Call::WriteRegister { .. } => "write register",
        Call::ReadRegister { .. } => "read register",
        Call::ReadRelease { .. } => "read release",
        Call::WriteImage { .. } => "write image",
        Call::ReadImage { .. } => "read image",
        Call::Close { .. } => "close",
        Call::Compact { .. } => "compact",
        Call::Add { .. } => "add",
        Call::TerminalErasure { .. } => "terminal erasure",
        Call::Routing { coded: true, .. } => "routing with code",
        Call::Routing { coded: false, .. } => "routing without code",
    };
    let said = match said {
        Said::Answer(Answer::Refusal(n)) | Said::Count(Err(n)) => format!("refused {n}"),
        Said::Answer(Answer::Error(n)) => format!("error {n}"),
        Said::Answer(Answer::Outcome { number, .. }) => format!("{number:02}"),
        Said::Answer(Answer::ReturnError { code, .. }) => format!("error {code}"),
        Said::Answer(Answer::Reject { problem, .. }) => format!("reject {problem}"),
        Said::Answer(Answer::Sent { .. }) => "sent".into(),
        Said::Answer(Answer::Found(_)) => "found".into(),
        Said::Answer(Answer::Rows { gone: 0, .. }) => "rows".into(),
        Said::Answer(Answer::Rows { .. }) => "fewer rows".into(),
        Said::Answer(Answer::AskNetwork(_)) => "ask network".into(),
        Said::Answer(Answer::Routed { subaddress, .. }) => match subaddress {
            Some(_) => "MSISDN and subaddress".into(),
            None => "MSISDN".into(),
        },
        Said::Answer(answer) => format!("{answer:?}").to_lowercase(),
        Said::Figures(Some(_)) => "counted".into(),
        Said::Figures(None) => "refused 2".into(),
        Said::Count(Ok(_)) => "written".into(),
        Said::Fields(Some((_, Some(_)))) => "crew".into(),
        Said::Fields(Some((fields, None))) => format!("{:?}", fields.operation).to_lowercase(),
        Said::Fields(None) => "error 36".into(),
        Said::IsNumber(is_number) => is_number.to_string(),
        Said::Register(Err(n)) | Said::Release(Err(n)) | Said::Rows(Err(n)) => {
            format!("refused {n}")
        }
        Said::Register(Ok(read)) => match read.content {
            Invoked::Request { .. } => "request".into(),
            Invoked::Problem(problem) => format!("problem {problem}"),
        },
        Said::Release(Ok(read)) => match read.content {
            Released::Result(_) => "result".into(),
            Released::Error(_) => "error".into(),
            Released::Reject(_) => "reject".into(),
        },
        Said::Rows(Ok(_)) => "read".into(),
    };
    format!("{call}: {said}")
}

#[cfg(test)]
mod tests {
    use super::*;

    #[test]
    fn twenty_thousand_calls_agree_and_every_kind_of_answer_comes_up() {
        let counts = compare(20_000, 20_000).unwrap_or_else(|difference| panic!("{difference}"));
        assert_eq!(counts.values().sum::<u64>(), 20_000);
        let expected = |call: &str, answers: &str| {
            for answer in answers.split(", ") {
                let kind = format!("{call}: {answer}");
                assert!(counts.contains_key(&kind), "no {kind} in {counts:#?}");
            }
        };
        expected("request", "refused 1, refused 2, refused 8, refused 10");
        expected("request", "error 35, error 36, error 71");
        expected(
            "request",
            "01, 02, 03, 11, 12, 22, 41, 42, 61, 62, 63, 64, 67, 68",
        );
        expected("sending", "refused 1, refused 2, refused 4, refused 5");
        expected("sending", "refused 6, refused 7, refused 10, sent");
        expected("result", "refused 2, refused 3, refused 4, refused 7");
        expected("result", "refused 10, delivered, dropped, again");
        expected("finding", "refused 2, refused 6, found, nonedue");
        expected("recount", "refused 2, counted");
        for call in ["pack", "unpack", "write request", "write register"] {
            expected(call, "refused 1, refused 9, written");
        }
        expected(
            "read request",
            "register, erase, interrogate, crew, error 36",
        );
        expected("number", "true, false");
        expected(
            "framed request",
            "refused 1, refused 11, refused 8, refused 2, refused 10, reject 1, reject 2, \
             error 35, error 36, error 71, 01, 02, 03, 11, 12, 22, 41, 42, 61, 62, 63, 64",
        );
        expected("read register", "request, problem 1, problem 2, refused 11");
        expected("read release", "result, error, reject, refused 11");
        expected(
            "write image",
            "refused 8, refused 2, refused 10, refused 33",
        );
        expected("write image", "written");
        expected(
            "read image",
            "refused 30, refused 31, refused 32, refused 34",
        );
        expected("read image", "refused 33, refused 2, refused 8, read");
        expected("close", "refused 2, refused 10, refused 7, refused 52");
        expected("close", "closed");
        expected("compact", "refused 2, refused 10, rows, fewer rows");
        expected("add", "refused 2, refused 10, refused 7, refused 51");
        expected("add", "refused 50, rows");
        expected("terminal erasure", "refused 1, refused 2, refused 10");
        expected("terminal erasure", "refused 7, 02, 41, 62, 63, 68");
        for call in ["routing with code", "routing without code"] {
            expected(call, "refused 2, error 36, 41, 62, MSISDN");
            expected(call, "MSISDN and subaddress");
        }
        expected("routing with code", "ask network");
    }
}
