//! Register and Release Complete: octets worked out by hand, each case, the
//! refusals in their order, and what stays untouched.

use ffn::{
    read_register, read_release, write_register, Answered, Crew, Figures, FramedReply,
    FunctionalNumber, Message, Msisdn, Operation, Outcome, Problem, Refusal, Register, Release,
    Request, RequestError, CODING_SCHEME, NUMBER_WORDS,
};

const UNTOUCHED: u8 = 0xEE;

/// A registers F: transaction 0, invoke number 1; 18 octets in 23, 31 and 33.
const REGISTER: [u8; 40] = [
    0x0B, 0x7B, 0x1C, 0x21, 0xA1, 0x1F, 0x02, 0x01, 0x01, 0x02, 0x01, 0x3B, 0x30, 0x17, 0x04, 0x01,
    0x0F, 0x04, 0x12, 0x2A, 0x95, 0x2C, 0x46, 0x53, 0xC1, 0x68, 0x39, 0x59, 0x4C, 0x36, 0xA3, 0xC1,
    0x62, 0x2A, 0x95, 0x6A, 0x04, 0x7F, 0x01, 0x00,
];

/// What answers it: 2 octets in 7, 12, 17 and 19.
const RESULT: [u8; 23] = [
    0x8B, 0x2A, 0x1C, 0x13, 0xA2, 0x11, 0x02, 0x01, 0x01, 0x30, 0x0C, 0x02, 0x01, 0x3B, 0x30, 0x07,
    0x04, 0x01, 0x0F, 0x04, 0x02, 0xB0, 0x18,
];
const ERROR: [u8; 12] = [
    0x8B, 0x2A, 0x1C, 0x08, 0xA3, 0x06, 0x02, 0x01, 0x01, 0x02, 0x01, 0x47,
];
const REJECT: [u8; 12] = [
    0x8B, 0x2A, 0x1C, 0x08, 0xA4, 0x06, 0x02, 0x01, 0x01, 0x81, 0x01, 0x01,
];

fn f() -> FunctionalNumber {
    "0492123401".parse().unwrap()
}

fn a() -> Msisdn {
    "4915100001".parse().unwrap()
}

fn b() -> Msisdn {
    "4915100002".parse().unwrap()
}

fn list() -> [u64; 4] {
    [a().word(), 1, b().word(), 3]
}

fn held_by(holder: Option<Msisdn>) -> [u64; NUMBER_WORDS] {
    [f().word(), holder.map_or(0, Msisdn::word), 0, 0, 0, 0, 0]
}

fn fields(operation: Operation, additional: &[u8]) -> Request<'_> {
    Request {
        operation,
        number: f(),
        forced: None,
        additional,
    }
}

/// The message with one octet changed.
fn changed(place: usize, octet: u8) -> [u8; 40] {
    let mut message = REGISTER;
    message[place] = octet;
    message
}

/// A framed request with the figures of the table, zeros of an unsound one.
/// Checks that they are those of the table afterwards.
fn framed_request(
    table: &mut [u64],
    list: &[u64],
    frame: &mut [u8],
    requester: Msisdn,
    message: &[u8],
) -> Result<FramedReply, Refusal> {
    let mut figures = Figures::recount(table).unwrap_or_default();
    let reply = ffn::framed_request(table, &mut figures, list, frame, requester, message);
    assert_eq!(figures, Figures::recount(table).unwrap_or_default());
    reply
}

/// A framed request: the answer and its frame. What lies beyond stays.
fn ask(table: &mut [u64], requester: Msisdn, message: &[u8]) -> (Answered, Vec<u8>) {
    let mut frame = [UNTOUCHED; 125];
    let FramedReply { answered, octets } =
        framed_request(table, &list(), &mut frame, requester, message).unwrap();
    assert!(frame[octets..].iter().all(|&octet| octet == UNTOUCHED));
    (answered, frame[..octets].to_vec())
}

#[test]
fn the_three_cases() {
    let mut table = held_by(None);
    let (answered, frame) = ask(&mut table, a(), &changed(16, 0));
    assert_eq!(answered, Answered::Error(RequestError::UnknownAlphabet));
    assert_eq!(frame, ERROR);
    let (answered, frame) = ask(&mut table, a(), &changed(11, 0x3C));
    assert_eq!(answered, Answered::Reject(Problem::UnrecognizedOperation));
    assert_eq!(frame, REJECT);
    let (answered, _) = ask(&mut table, a(), &changed(39, 1));
    assert_eq!(answered, Answered::Reject(Problem::MistypedParameter));
    assert_eq!(table, held_by(None));
    let (answered, frame) = ask(&mut table, a(), &REGISTER);
    assert_eq!(answered, Answered::Result(Outcome::Registered));
    assert_eq!(frame, RESULT);
    assert_eq!(table, held_by(Some(a())));
}

#[test]
fn outcomes_hold_what_they_say() {
    let mut register = [UNTOUCHED; 120];
    let count = write_register(15, 0, &fields(Operation::Interrogate, b""), &mut register);
    let message = &register[..count.unwrap()];
    let (answered, frame) = ask(&mut held_by(Some(a())), b(), message);
    assert_eq!(answered, Answered::Result(Outcome::Held(a())));
    assert_eq!((frame.len(), frame[0], frame[8]), (33, 0x7B, 0));

    let crew = fields(Operation::Register, b"BULK1 02");
    let count = write_register(0, 255, &crew, &mut register).unwrap();
    let (answered, frame) = ask(&mut held_by(None), a(), &register[..count]);
    let said = Crew::from_text(b"1 01 1 02").unwrap();
    assert_eq!(answered, Answered::Result(Outcome::CrewRegistered(said)));
    assert_eq!((frame[0], frame[8]), (0x8B, 255));
}

#[test]
fn refusals_of_a_framed_request_in_their_order() {
    let mut unsound = [1, 0, 0, 0, 0, 0, 0];
    let mut frame = [UNTOUCHED; 120];
    let wrong = changed(1, 0x3B);
    let rejected = changed(11, 0);
    let mut ask = |room: usize, list: &[u64], message: &[u8]| {
        framed_request(&mut unsound, list, &mut frame[..room], a(), message)
    };
    assert_eq!(ask(119, &[1], &wrong), Err(Refusal::NoRoom));
    assert_eq!(ask(120, &[1], &wrong), Err(Refusal::Message));
    assert_eq!(ask(120, &[1], &rejected), Err(Refusal::ListUnsound));
    assert_eq!(ask(120, &list(), &rejected), Err(Refusal::TableUnsound));
    assert_eq!(unsound, [1, 0, 0, 0, 0, 0, 0]);
    assert_eq!(frame, [UNTOUCHED; 120]);
}

#[test]
fn registers_are_written_and_read() {
    let mut frame = [UNTOUCHED; 130];
    let plain = fields(Operation::Register, b"");
    assert_eq!(write_register(0, 1, &plain, &mut frame), Ok(40));
    assert_eq!(frame[..40], REGISTER);
    assert_eq!(frame[40..], [UNTOUCHED; 90]);
    let request = Register::Request {
        scheme: CODING_SCHEME,
        string: &REGISTER[19..37],
    };
    let read = |transaction, invoke, content| Message {
        transaction,
        invoke,
        content,
    };
    assert_eq!(read_register(&REGISTER), Ok(read(0, 1, request)));
    let mut other = changed(0, 0xFB);
    other[8] = 255;
    assert_eq!(read_register(&other), Ok(read(15, 255, request)));
    for (place, problem) in [
        (9, Problem::UnrecognizedOperation),
        (12, Problem::MistypedParameter),
    ] {
        let rejected = read(0, 1, Register::Rejected(problem));
        assert_eq!(read_register(&changed(place, 0)), Ok(rejected));
    }
    for place in 0..8 {
        assert_eq!(read_register(&changed(place, 0)), Err(Refusal::Message));
    }
    assert_eq!(read_register(&[]), Err(Refusal::Message));

    let mut frame = [UNTOUCHED; 120];
    let wrong = fields(Operation::Register, b"train");
    assert_eq!(
        write_register(16, 1, &wrong, &mut frame[..119]),
        Err(Refusal::NoRoom)
    );
    for (transaction, fields) in [(16, &plain), (255, &plain), (0, &wrong)] {
        let refused = write_register(transaction, 1, fields, &mut frame);
        assert_eq!(refused, Err(Refusal::Unfit));
    }
    assert_eq!(frame, [UNTOUCHED; 120]);
}

#[test]
fn releases_are_read() {
    let read = |content| {
        Ok(Message {
            transaction: 8,
            invoke: 1,
            content,
        })
    };
    let result = Release::Result(&[0xB0, 0x18]);
    assert_eq!(read_release(&RESULT), read(result));
    assert_eq!(read_release(&ERROR), read(Release::Error(71)));
    assert_eq!(read_release(&REJECT), read(Release::Reject(1)));
    for number in 0..=255 {
        let (mut error, mut reject) = (ERROR, REJECT);
        (error[11], reject[11]) = (number, number);
        assert_eq!(read_release(&error), read(Release::Error(number)));
        assert_eq!(read_release(&reject), read(Release::Reject(number)));
    }
    for message in [&REGISTER[..], &[], &RESULT[..22], &ERROR[..11]] {
        assert_eq!(read_release(message), Err(Refusal::Message));
    }
    let longer = [&REJECT[..], &[0]].concat();
    assert_eq!(read_release(&longer), Err(Refusal::Message));
}
