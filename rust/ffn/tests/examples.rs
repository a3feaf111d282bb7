//! Document 01's examples P5 to P15, the refusals, and what stays untouched.

use ffn::{
    finding, pack, read_request, unpack, write_request, Crew, CrewField, Failure, Figures,
    FunctionalNumber, Kind, Msisdn, Operation, Outcome, Refusal, Reply, Request, RequestError,
    Resulted, Sent, CODING_SCHEME, NUMBER_WORDS,
};

const UNTOUCHED: u8 = 0xEE;

fn msisdn(digits: &str) -> Msisdn {
    digits.parse().unwrap()
}

fn f() -> FunctionalNumber {
    "0492123401".parse().unwrap()
}

fn a() -> Msisdn {
    msisdn("4915100001")
}

fn b() -> Msisdn {
    msisdn("4915100002")
}

fn c() -> Msisdn {
    msisdn("4915100003")
}

fn list() -> [u64; 6] {
    [a().word(), 1, b().word(), 3, c().word(), 0]
}

/// F, held by `holder` or free, with no notice.
fn held_by(holder: Option<Msisdn>) -> [u64; NUMBER_WORDS] {
    [f().word(), holder.map_or(0, Msisdn::word), 0, 0, 0, 0, 0]
}

/// F, free, with a notice to A from B.
fn notice(phase: u64, failure: u64) -> [u64; NUMBER_WORDS] {
    [f().word(), 0, phase, a().word(), b().word(), failure, 0]
}

fn packed(text: &str) -> Vec<u8> {
    let mut out = [0; 300];
    let count = pack(text.as_bytes(), &mut out).unwrap();
    out[..count].to_vec()
}

/// The packed text in front, and the rest untouched.
fn holds(buffer: &[u8], text: &str) -> bool {
    let octets = packed(text);
    buffer.starts_with(&octets) && buffer[octets.len()..].iter().all(|&o| o == UNTOUCHED)
}

/// Makes a call with the figures of the table, zeros of an unsound one. Checks
/// that they are those of the table afterwards.
fn with_figures<T>(table: &mut [u64], call: impl FnOnce(&mut [u64], &mut Figures) -> T) -> T {
    let mut figures = Figures::recount(table).unwrap_or_default();
    let said = call(table, &mut figures);
    assert_eq!(figures, Figures::recount(table).unwrap_or_default());
    said
}

/// The calls, with the right figures.
fn request(
    table: &mut [u64],
    list: &[u64],
    reply: &mut [u8],
    requester: Msisdn,
    scheme: u8,
    string: &[u8],
) -> Result<Reply, Failure> {
    with_figures(table, |table, figures| {
        ffn::request(table, figures, list, reply, requester, scheme, string)
    })
}

fn sending(
    table: &mut [u64],
    buffer: &mut [u8],
    number: FunctionalNumber,
    delay: u32,
    now: u32,
) -> Result<Sent, Refusal> {
    with_figures(table, |table, figures| {
        ffn::sending(table, figures, buffer, number, delay, now)
    })
}

fn result(
    table: &mut [u64],
    number: FunctionalNumber,
    kind: Kind,
    now: u32,
) -> Result<Resulted, Refusal> {
    with_figures(table, |table, figures| {
        ffn::result(table, figures, number, kind, now)
    })
}

/// A request, with the reply's text checked.
fn ask(table: &mut [u64], requester: Msisdn, text: &str) -> Result<Outcome, Failure> {
    let mut reply = [UNTOUCHED; 100];
    let answer = request(
        table,
        &list(),
        &mut reply,
        requester,
        CODING_SCHEME,
        &packed(text),
    );
    match answer {
        Ok(Reply { outcome, octets }) => {
            let expected = match outcome {
                Outcome::Held(holder) => format!("03 {holder}"),
                Outcome::CrewRegistered(crew) => format!("11 {crew}"),
                Outcome::CrewErased(crew) => format!("12 {crew}"),
                _ => format!("{:02}", outcome.number()),
            };
            assert!(holds(&reply, &expected));
            assert_eq!(octets, packed(&expected).len());
            Ok(outcome)
        }
        Err(failure) => {
            assert_eq!(reply, [UNTOUCHED; 100]);
            Err(failure)
        }
    }
}

const REGISTER: &str = "**214*0492123401***#";
const ERASE: &str = "##214*0492123401***#";
const INTERROGATE: &str = "*#214*0492123401***#";
const FORCE_A: &str = "##214*0492123401*88*4915100001*#";
const FORCE_B: &str = "##214*0492123401*88*4915100002*#";

#[test]
fn p5_and_p6_registering() {
    let mut table = held_by(None);
    assert_eq!(ask(&mut table, a(), REGISTER), Ok(Outcome::Registered));
    assert_eq!(table, held_by(Some(a())));
    assert_eq!(ask(&mut table, b(), REGISTER), Ok(Outcome::HeldByAnother));
    assert_eq!(ask(&mut table, a(), REGISTER), Ok(Outcome::Registered));
    assert_eq!(table, held_by(Some(a())));
}

#[test]
fn p7_to_p9_erasing() {
    let mut table = held_by(Some(a()));
    assert_eq!(ask(&mut table, b(), ERASE), Ok(Outcome::WrongHolder));
    assert_eq!(ask(&mut table, b(), FORCE_B), Ok(Outcome::WrongHolder));
    assert_eq!(ask(&mut table, a(), FORCE_A), Ok(Outcome::NoSupervisor));
    assert_eq!(table, held_by(Some(a())));
    assert_eq!(ask(&mut table, b(), FORCE_A), Ok(Outcome::Erased));
    assert_eq!(table, notice(1, 0));
    assert_eq!(ask(&mut table, a(), ERASE), Ok(Outcome::NoHolder));
}

#[test]
fn p10_to_p12_and_other_negative_answers() {
    let mut table = held_by(Some(a()));
    assert_eq!(ask(&mut table, c(), INTERROGATE), Ok(Outcome::NoFollowMe));
    assert_eq!(
        ask(&mut table, a(), "**214*492123401***#"),
        Ok(Outcome::UnknownNumber)
    );
    assert_eq!(
        ask(&mut table, a(), "**214*0492123401*88**#"),
        Err(Failure::Error(RequestError::UnexpectedDataValue))
    );
    assert_eq!(ask(&mut table, b(), INTERROGATE), Ok(Outcome::Held(a())));
    assert_eq!(table, held_by(Some(a())));
    let mut same = [a().word(), 0, 0, 0, 0, 0, 0];
    assert_eq!(
        ask(&mut same, a(), "**214*4915100001***#"),
        Ok(Outcome::SameDigits)
    );
}

#[test]
fn p13_a_clock_that_wraps() {
    let mut buffer = [UNTOUCHED; 100];
    let mut table = notice(3, 4_294_967_290);
    assert_eq!(finding(&table, 60, 53), Ok(None));
    assert_eq!(
        sending(&mut table, &mut buffer, f(), 60, 53),
        Err(Refusal::NotDue)
    );
    assert_eq!(table, notice(3, 4_294_967_290));
    assert_eq!(buffer, [UNTOUCHED; 100]);
    assert_eq!(finding(&table, 60, 54), Ok(Some(f())));
    let sent = Sent {
        addressee: a(),
        octets: 28,
    };
    assert_eq!(sending(&mut table, &mut buffer, f(), 60, 54), Ok(sent));
    assert_eq!(table, notice(4, 0));
    assert!(holds(&buffer, "##214*0492123401*88*4915100002*#"));
}

#[test]
fn the_usual_delay_is_300_seconds() {
    let mut buffer = [UNTOUCHED; 80];
    let mut table = notice(3, 100);
    assert_eq!(finding(&table, 0, 399), Ok(None));
    assert_eq!(
        sending(&mut table, &mut buffer, f(), 0, 399),
        Err(Refusal::NotDue)
    );
    assert_eq!(finding(&table, 0, 400), Ok(Some(f())));
    assert!(sending(&mut table, &mut buffer, f(), 0, 400).is_ok());
    assert_eq!(table, notice(4, 0));
}

#[test]
fn p14_six_sendings_at_most() {
    let mut table = notice(10, 0);
    assert_eq!(
        result(&mut table, f(), Kind::OtherError, 77),
        Ok(Resulted::Again)
    );
    assert_eq!(table, notice(11, 77));
    let mut buffer = [UNTOUCHED; 80];
    let sent = Sent {
        addressee: a(),
        octets: 28,
    };
    assert_eq!(sending(&mut table, &mut buffer, f(), 60, 137), Ok(sent));
    assert_eq!(table, notice(12, 0));
    assert!(holds(&buffer, "##214*0492123401*88*4915100002*#"));
    assert_eq!(
        result(&mut table, f(), Kind::OtherError, 140),
        Ok(Resulted::Dropped)
    );
    assert_eq!(table, held_by(None));
    let mut table = notice(2, 0);
    assert_eq!(
        result(&mut table, f(), Kind::Delivered, 77),
        Ok(Resulted::Delivered)
    );
    assert_eq!(table, held_by(None));
}

#[test]
fn p15_a_second_forced_erasure_before_the_notice_ends() {
    let mut table = notice(1, 0);
    assert_eq!(ask(&mut table, a(), REGISTER), Ok(Outcome::Registered));
    assert_eq!(ask(&mut table, b(), FORCE_A), Ok(Outcome::NoticePending));
    let [number, _, rest @ ..] = notice(1, 0);
    assert_eq!(table[..2], [number, a().word()]);
    assert_eq!(table[2..], rest);
}

#[test]
fn refusals_of_a_request_in_their_order() {
    let mut unsound = [1, 0, 0, 0, 0, 0, 0];
    let mut reply = [UNTOUCHED; 80];
    let string = packed(REGISTER);
    let mut table = held_by(None);
    let malformed = Msisdn::from_word(1).unwrap();
    let refused = |refusal| Err(Failure::Refused(refusal));
    let error = |error| Err(Failure::Error(error));
    assert_eq!(
        request(&mut unsound, &[1], &mut reply[..79], malformed, 0, &[]),
        refused(Refusal::NoRoom)
    );
    assert_eq!(
        request(&mut unsound, &[1], &mut reply, malformed, 0, &[]),
        refused(Refusal::ListUnsound)
    );
    assert_eq!(
        request(&mut unsound, &list(), &mut reply, malformed, 0, &[]),
        refused(Refusal::TableUnsound)
    );
    assert_eq!(
        request(&mut table, &list(), &mut reply, malformed, 0, &[]),
        error(RequestError::DataMissing)
    );
    assert_eq!(
        request(&mut table, &list(), &mut reply, a(), 0, &[]),
        error(RequestError::UnknownAlphabet)
    );
    assert_eq!(
        request(&mut table, &list(), &mut reply, a(), CODING_SCHEME, &[]),
        error(RequestError::DataMissing)
    );
    assert_eq!(
        request(
            &mut table,
            &list(),
            &mut reply,
            a(),
            CODING_SCHEME,
            &string[1..]
        ),
        error(RequestError::UnexpectedDataValue)
    );
    assert_eq!(unsound, [1, 0, 0, 0, 0, 0, 0]);
    assert_eq!(table, held_by(None));
    assert_eq!(reply, [UNTOUCHED; 80]);
}

#[test]
fn refusals_for_notices_in_their_order() {
    let mut unsound = [1, 0, 0, 0, 0, 0, 0];
    let mut buffer = [UNTOUCHED; 80];
    let mut table = notice(4, 0);
    let absent = "0492123402".parse().unwrap();
    assert_eq!(
        sending(&mut unsound, &mut buffer[..79], absent, 1, 0),
        Err(Refusal::NoRoom)
    );
    assert_eq!(
        sending(&mut unsound, &mut buffer, absent, 1, 0),
        Err(Refusal::TableUnsound)
    );
    assert_eq!(
        sending(&mut table, &mut buffer, absent, 1, 0),
        Err(Refusal::Number)
    );
    assert_eq!(
        sending(&mut table, &mut buffer, f(), 1, 0),
        Err(Refusal::Delay)
    );
    assert_eq!(
        sending(&mut table, &mut buffer, f(), 0, 0),
        Err(Refusal::Phase)
    );
    assert_eq!(
        result(&mut unsound, absent, Kind::Delivered, 0),
        Err(Refusal::TableUnsound)
    );
    assert_eq!(
        result(&mut table, absent, Kind::Delivered, 0),
        Err(Refusal::Number)
    );
    assert_eq!(
        result(&mut notice(3, 0), f(), Kind::Delivered, 0),
        Err(Refusal::Phase)
    );
    let mut figures = Figures::recount(&table).unwrap().words();
    let above = ffn::c::result(&mut table, &mut figures, f().word(), 6, 0);
    assert_eq!(above.number, 3);
    assert_eq!(finding(&unsound, 1, 0), Err(Refusal::TableUnsound));
    assert_eq!(finding(&table, 1, 0), Err(Refusal::Delay));
    assert_eq!(table, notice(4, 0));
    assert_eq!(buffer, [UNTOUCHED; 80]);
}

#[test]
fn crews_read_back_as_they_were_written() {
    for (additional, crew) in [
        (&b"BULK2 0203"[..], Some(2)),
        (b"BULK0", Some(0)),
        (b" BULK1 02", None),
    ] {
        let fields = Request {
            operation: Operation::Register,
            number: f(),
            forced: None,
            additional,
        };
        let mut out = [UNTOUCHED; 160];
        let count = write_request(&fields, &mut out).unwrap();
        let read = read_request(&out[..count]).unwrap();
        assert_eq!((read.fields(), read.crew), (fields, crew));
    }
}

/// F and the number behind it, by their holders.
fn crew_of(lead: Option<Msisdn>, second: Option<Msisdn>) -> [u64; 2 * NUMBER_WORDS] {
    let mut table = [0; 2 * NUMBER_WORDS];
    table[..NUMBER_WORDS].copy_from_slice(&held_by(lead));
    table[NUMBER_WORDS..].copy_from_slice(&held_by(second));
    table[NUMBER_WORDS] += 1;
    table
}

fn crew(text: &str) -> Crew {
    Crew::from_text(text.as_bytes()).unwrap()
}

#[test]
fn crews_are_registered_and_erased() {
    let (register, erase) = (
        "**214*0492123401***BULK1 02#",
        "##214*0492123401***BULK1 02#",
    );
    let mut table = crew_of(None, None);
    let both = crew("2 0102 0");
    let registered = Ok(Outcome::CrewRegistered(both));
    assert_eq!(ask(&mut table, a(), register), registered);
    assert_eq!(table, crew_of(Some(a()), Some(a())));
    assert_eq!(
        ask(&mut table, b(), erase),
        Ok(Outcome::CrewErased(crew("0 2 0102")))
    );
    assert_eq!(ask(&mut table, c(), erase), Ok(Outcome::NoFollowMe));
    assert_eq!(table, crew_of(Some(a()), Some(a())));
    assert_eq!(ask(&mut table, a(), erase), Ok(Outcome::CrewErased(both)));
    assert_eq!(table, crew_of(None, None));

    let mut table = crew_of(None, Some(b()));
    assert_eq!(
        ask(&mut table, a(), "**214*0492123401***BULK2 0203#"),
        Ok(Outcome::CrewRegistered(crew("1 01 2 0203")))
    );
    assert_eq!(table, crew_of(Some(a()), Some(b())));
    assert_eq!(
        ask(
            &mut table,
            a(),
            "##214*0492123401***BULK9 020304050607080910#"
        ),
        Ok(Outcome::CrewErased(crew("1 01 9 020304050607080910")))
    );
    assert_eq!(
        ask(&mut table, a(), "**214*0492123401***BULK1 01#"),
        Err(Failure::Error(RequestError::UnexpectedDataValue))
    );
    assert_eq!(table, crew_of(None, Some(b())));
}

#[test]
fn a_request_is_written_from_codes() {
    let written = |codes: &[u8]| {
        let field = CrewField::new(codes).unwrap();
        let fields = Request {
            operation: Operation::Register,
            number: f(),
            forced: None,
            additional: field.as_slice(),
        };
        let mut out = [UNTOUCHED; 160];
        write_request(&fields, &mut out).map(|count| read_request(&out[..count]).unwrap().crew)
    };
    assert_eq!(written(&[]), Ok(Some(0)));
    assert_eq!(written(&[2, 0, 99]), Ok(Some(3)));
    assert_eq!(written(&[2, 1]), Err(Refusal::Unfit));
    assert_eq!(written(&[2, 2]), Err(Refusal::Unfit));
}

#[test]
fn strings_read_back_as_they_were_written() {
    let fields = Request {
        operation: Operation::Erase,
        number: f(),
        forced: Some(a()),
        additional: b"TRAIN 4711",
    };
    let mut out = [UNTOUCHED; 200];
    let count = write_request(&fields, &mut out).unwrap();
    assert!(holds(&out, "##214*0492123401*88*4915100001*TRAIN 4711#"));
    let read = read_request(&out[..count]).unwrap();
    assert_eq!((read.fields(), read.crew), (fields, None));
    assert_eq!(
        read_request(&out[..count - 1]),
        Err(RequestError::UnexpectedDataValue)
    );

    let longest = Request {
        additional: &[b'A'; 30],
        ..fields
    };
    let mut out = [UNTOUCHED; 160];
    let count = write_request(&longest, &mut out).unwrap();
    assert_eq!(read_request(&out[..count]).unwrap().fields(), longest);
    for broken in [
        Request {
            operation: Operation::Register,
            ..fields
        },
        Request {
            forced: Msisdn::from_word(1),
            ..fields
        },
        Request {
            additional: &[b'A'; 31],
            ..fields
        },
        Request {
            additional: b"train",
            ..fields
        },
        Request {
            additional: b"BULK2 0203",
            ..fields
        },
    ] {
        let mut out = [UNTOUCHED; 160];
        assert_eq!(
            write_request(&broken, &mut out[..159]),
            Err(Refusal::NoRoom)
        );
        assert_eq!(write_request(&broken, &mut out), Err(Refusal::Unfit));
        assert_eq!(out, [UNTOUCHED; 160]);
    }
}

#[test]
fn the_text_of_a_read_request_is_written_where_it_has_room() {
    let octets = packed("**214*0492123401***#");
    let mut text = [UNTOUCHED; 25];
    let read = ffn::c::read_request(&octets, &mut text[..20]);
    assert_eq!((read.class, read.start, read.length), (ffn::c::READ, 19, 0));
    assert_eq!(&text, b"**214*0492123401***#\xEE\xEE\xEE\xEE\xEE");
    let mut text = [UNTOUCHED; 25];
    assert_eq!(ffn::c::read_request(&octets, &mut text[..19]), read);
    assert_eq!(ffn::c::read_request(&octets[1..], &mut text).number, 36);
    assert_eq!(text, [UNTOUCHED; 25]);
}

#[test]
fn packing_there_and_back() {
    let mut out = [UNTOUCHED; 10];
    assert_eq!(pack(b"1234567", &mut out), Ok(7));
    assert_eq!(
        out,
        [0x31, 0xD9, 0x8C, 0x56, 0xB3, 0xDD, 0x1A, 0xEE, 0xEE, 0xEE]
    );
    let mut chars = [UNTOUCHED; 10];
    assert_eq!(unpack(&out[..7], &mut chars), Ok(7));
    assert_eq!(&chars, b"1234567\xEE\xEE\xEE");
    assert_eq!(unpack(&out[..7], &mut chars[..7]), Err(Refusal::NoRoom));
    assert_eq!(unpack(&[0xFF], &mut chars), Err(Refusal::Unfit));
    assert_eq!(pack(b"\r", &mut out), Err(Refusal::Unfit));
    assert_eq!(pack(b"\r", &mut []), Err(Refusal::NoRoom));
    assert_eq!(pack(&[], &mut []), Ok(0));
}
