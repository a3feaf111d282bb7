//! Messages in frames: document 02, M-101. Octets are worked out by hand from
//! document 000's tables (4.2.1, 4.2.2).

mod common;

use common::*;
use oracle::{
    read_register, read_release, write_register, Answer, Fields, Invoked, Message, Operation,
    Place, Released,
};

/// A registers F: transaction 0, invoke number 1. The string has 18 octets, the
/// sequence 3 + 2 + 18 = 23, the component 3 + 3 + 2 + 23 = 31, the element 33.
const GOOD: &str = "0B 7B 1C 21 A1 1F 02 01 01 02 01 3B 30 17 04 01 0F \
    04 12 2A 95 2C 46 53 C1 68 39 59 4C 36 A3 C1 62 2A 95 6A 04 7F 01 00";

/// What answers it. The string has 2 octets, the sequence 3 + 2 + 2 = 7, the
/// one around it 3 + 2 + 7 = 12, the component 3 + 2 + 12 = 17, the element 19.
const ANSWER_01: &str = "8B 2A 1C 13 A2 11 02 01 01 30 0C 02 01 3B 30 07 04 01 0F 04 02 B0 18";

/// An error and a Reject.
const ERROR_36: &str = "8B 2A 1C 08 A3 06 02 01 01 02 01 24";
const REJECT_1: &str = "8B 2A 1C 08 A4 06 02 01 01 81 01 01";

fn hex(text: &str) -> Vec<u8> {
    text.split_whitespace()
        .map(|octet| u8::from_str_radix(octet, 16).unwrap())
        .collect()
}

fn invoked(message: &[u8]) -> Result<Invoked, u8> {
    read_register(message).map(|read| read.content)
}

fn released(message: &[u8]) -> Result<Released<Place>, u8> {
    read_release(message).map(|read| read.content)
}

/// A framed request with a good buffer: the answer, and the octets that it
/// wrote. Checks that all else stays, but the table of an outcome.
fn ask_framed(table: &mut [u64], requester: u64, message: &[u8]) -> (Answer, Vec<u8>) {
    let before = table.to_vec();
    let mut frame = [FILL; 130];
    let answer = framed_request(table, &LIST, &mut frame, requester, message);
    let octets = match answer {
        Answer::Outcome { octets, .. } => octets,
        Answer::ReturnError { octets, .. } | Answer::Reject { octets, .. } => {
            assert_eq!(table, before);
            octets
        }
        _ => {
            assert_eq!(table, before);
            0
        }
    };
    assert!(frame[octets..].iter().all(|&octet| octet == FILL));
    (answer, frame[..octets].to_vec())
}

/// The same of free F.
fn ask_of_free(message: &[u8]) -> (Answer, Vec<u8>) {
    ask_framed(&mut [F, 0, 0, 0, 0, 0, 0], A, message)
}

fn outcome(number: u8, octets: usize, msisdn: u64) -> Answer {
    Answer::Outcome {
        number,
        octets,
        msisdn,
    }
}

/// An answer by its number alone.
fn short(answer: Answer) -> String {
    match answer {
        Answer::Refusal(number) => format!("refused {number}"),
        Answer::ReturnError { code, octets: 12 } => format!("error {code}"),
        Answer::Reject {
            problem,
            octets: 12,
        } => format!("reject {problem}"),
        Answer::Outcome { number, .. } => format!("{number:02}"),
        other => panic!("{other:?}"),
    }
}

fn ask_short(message: &[u8]) -> String {
    short(ask_of_free(message).0)
}

#[test]
fn a_registration_answered_01() {
    let mut table = [F, 0, 0, 0, 0, 0, 0];
    let (answer, frame) = ask_framed(&mut table, A, &hex(GOOD));
    assert_eq!(answer, outcome(1, 23, 0));
    assert_eq!(frame, hex(ANSWER_01));
    assert_eq!(table, [F, A, 0, 0, 0, 0, 0]);
    // And it reads as what was written.
    let place = Place {
        start: 21,
        length: 2,
    };
    let read = Message {
        first: 0x8B,
        invoke: 1,
        content: Released::Result(place),
    };
    assert_eq!(read_release(&frame), Ok(read));
    assert_eq!(unpacked(place.of(&frame)), "01");
}

#[test]
fn an_interrogation_answered_03() {
    let mut table = [F, A, 0, 0, 0, 0, 0];
    let message = register(0x0B, 1, 0x0F, &packed(INTERROGATE));
    let (answer, frame) = ask_framed(&mut table, B, &message);
    assert_eq!(answer, outcome(3, 33, A));
    // 12 octets in 17 in 22 in 27 in 29.
    assert_eq!(
        frame,
        hex(
            "8B 2A 1C 1D A2 1B 02 01 01 30 16 02 01 3B 30 11 04 01 0F 04 0C \
             B0 19 88 96 8B D5 62 30 18 0C 16 03"
        )
    );
    assert_eq!(unpacked(&frame[21..]), "03 4915100001");
    assert_eq!(table, [F, A, 0, 0, 0, 0, 0]);
}

#[test]
fn errors_and_rejects() {
    let said = |scheme, string: &[u8]| ask_of_free(&register(0x0B, 1, scheme, string));
    let string = packed(REGISTER);
    for (scheme, string, code, octet) in [
        (0x00, &string[..], 71, 0x47),
        (0x0E, &[], 71, 0x47),
        (0x0F, &[], 35, 0x23),
        (0x0F, &string[..17], 36, 0x24),
        (0x0F, &[0xAA; 160], 36, 0x24),
        (0x0F, &[0xAA; 161], 36, 0x24),
        (0x0F, &[0xAA; 237], 36, 0x24),
    ] {
        let (answer, frame) = said(scheme, string);
        assert_eq!(answer, Answer::ReturnError { code, octets: 12 });
        let expected = format!("8B 2A 1C 08 A3 06 02 01 01 02 01 {octet:02X}");
        assert_eq!(frame, hex(&expected));
        assert_eq!(released(&frame), Ok(Released::Error(code)));
    }
    // A requester that is no number, before the scheme.
    let (answer, _) = ask_framed(&mut [], 0, &register(0x0B, 1, 0, &string));
    assert_eq!(short(answer), "error 35");
    for (changed, problem) in [((11, 0x3C), 1), ((12, 0x31), 2)] {
        let mut message = hex(GOOD);
        message[changed.0] = changed.1;
        let (answer, frame) = ask_of_free(&message);
        assert_eq!(
            answer,
            Answer::Reject {
                problem,
                octets: 12
            }
        );
        let expected = format!("8B 2A 1C 08 A4 06 02 01 01 81 01 {problem:02X}");
        assert_eq!(frame, hex(&expected));
        assert_eq!(released(&frame), Ok(Released::Reject(problem)));
    }
}

#[test]
fn the_flag_is_inverted_and_the_invoke_number_kept() {
    for high in 0..=15 {
        for invoke in [0x00, 0x01, 0x7F, 0x80, 0xFF] {
            let first = high << 4 | 0x0B;
            let (_, frame) = ask_of_free(&register(first, invoke, 0x0F, &packed(REGISTER)));
            let mut expected = hex(ANSWER_01);
            (expected[0], expected[8]) = (first ^ 0x80, invoke);
            assert_eq!(frame, expected);
            for (scheme, string) in [(0, &[0][..]), (0x0F, &[])] {
                let (_, frame) = ask_of_free(&register(first, invoke, scheme, string));
                let read = read_release(&frame).unwrap();
                assert_eq!((read.first, read.invoke), (first ^ 0x80, invoke));
            }
        }
    }
}

#[test]
fn the_order_of_the_checks() {
    const UNSOUND: [u64; ROW] = [F, 7, 0, 0, 0, 0, 0];
    let (sound, bad_list) = ([F, 0, 0, 0, 0, 0, 0], [A, 4]);
    let good = hex(GOOD);
    let broken = |place: usize, octet: u8| {
        let mut message = good.clone();
        message[place] = octet;
        message
    };
    let (refused, rejected) = (broken(6, 0), [broken(9, 0), broken(12, 0)]);
    let said = |room: usize, message: &[u8], list: &[u64], table: &[u64; ROW], requester| {
        let mut lent = *table;
        let mut frame = vec![FILL; room];
        let answer = framed_request(&mut lent, list, &mut frame, requester, message);
        let said = short(answer);
        if said.starts_with("refused") {
            assert_eq!(frame, vec![FILL; room]);
            assert_eq!(lent, *table);
        }
        said
    };
    for room in [0, 80, 119] {
        assert_eq!(said(room, &good, &LIST, &sound, A), "refused 1");
        assert_eq!(said(room, &refused, &bad_list, &UNSOUND, 0), "refused 1");
    }
    assert_eq!(said(120, &good, &LIST, &sound, A), "01");
    assert_eq!(said(120, &refused, &bad_list, &UNSOUND, 0), "refused 11");
    for message in rejected.iter().chain([&good]) {
        assert_eq!(said(120, message, &bad_list, &UNSOUND, 0), "refused 8");
        assert_eq!(said(120, message, &LIST, &UNSOUND, 0), "refused 2");
    }
    assert_eq!(said(120, &rejected[0], &LIST, &sound, 0), "reject 1");
    assert_eq!(said(120, &rejected[1], &LIST, &sound, 0), "reject 2");
    assert_eq!(said(120, &good, &LIST, &sound, 0), "error 35");
}

/// Strings and elements of lengths where a form changes, by their heads.
const HEADS: [(usize, &str); 11] = [
    (
        0,
        "0B 7B 1C 0F A1 0D 02 01 01 02 01 3B 30 05 04 01 0F 04 00",
    ),
    // Elements of 127, 128 and 129; none of 130; 131.
    (
        112,
        "0B 7B 1C 7F A1 7D 02 01 01 02 01 3B 30 75 04 01 0F 04 70",
    ),
    (
        113,
        "0B 7B 1C 80 A1 7E 02 01 01 02 01 3B 30 76 04 01 0F 04 71",
    ),
    (
        114,
        "0B 7B 1C 81 A1 7F 02 01 01 02 01 3B 30 77 04 01 0F 04 72",
    ),
    (
        115,
        "0B 7B 1C 83 A1 81 80 02 01 01 02 01 3B 30 78 04 01 0F 04 73",
    ),
    (
        122,
        "0B 7B 1C 8A A1 81 87 02 01 01 02 01 3B 30 7F 04 01 0F 04 7A",
    ),
    (
        123,
        "0B 7B 1C 8C A1 81 89 02 01 01 02 01 3B 30 81 80 04 01 0F 04 7B",
    ),
    (
        127,
        "0B 7B 1C 90 A1 81 8D 02 01 01 02 01 3B 30 81 84 04 01 0F 04 7F",
    ),
    (
        128,
        "0B 7B 1C 92 A1 81 8F 02 01 01 02 01 3B 30 81 86 04 01 0F 04 81 80",
    ),
    (
        160,
        "0B 7B 1C B2 A1 81 AF 02 01 01 02 01 3B 30 81 A6 04 01 0F 04 81 A0",
    ),
    (
        237,
        "0B 7B 1C FF A1 81 FC 02 01 01 02 01 3B 30 81 F3 04 01 0F 04 81 ED",
    ),
];

#[test]
fn lengths_where_forms_change() {
    for (length, head) in HEADS {
        let string = vec![0x55; length];
        let head = hex(head);
        let message = [&head[..], &string, &[0x7F, 1, 0]].concat();
        assert_eq!(message, register(0x0B, 1, 0x0F, &string));
        let place = Place {
            start: head.len(),
            length,
        };
        let read = Invoked::Request {
            scheme: 0x0F,
            string: place,
        };
        assert_eq!(invoked(&message), Ok(read), "{length}");
        assert_eq!(place.of(&message), string);
        let code = if length == 0 { "error 35" } else { "error 36" };
        assert_eq!(ask_short(&message), code);
    }
}

#[test]
fn longer_forms_than_needed() {
    let tail = [&[0xAA; 18][..], &[0x7F, 1, 0]].concat();
    for (head, answer) in [
        // The component's length; 11 also where its inner parts are right.
        (
            "0B 7B 1C 22 A1 81 1F 02 01 01 02 01 3B 30 17 04 01 0F 04 12",
            "refused 11",
        ),
        (
            "0B 7B 1C 23 A1 82 00 1F 02 01 01 02 01 3B 30 17 04 01 0F 04 12",
            "refused 11",
        ),
        // Indefinite.
        (
            "0B 7B 1C 21 A1 80 02 01 01 02 01 3B 30 17 04 01 0F 04 12",
            "refused 11",
        ),
        // The invoke number's, the operation's.
        (
            "0B 7B 1C 22 A1 20 02 81 01 01 02 01 3B 30 17 04 01 0F 04 12",
            "refused 11",
        ),
        (
            "0B 7B 1C 22 A1 20 02 01 01 02 81 01 3B 30 17 04 01 0F 04 12",
            "reject 1",
        ),
        // The sequence's, the scheme's and the string's.
        (
            "0B 7B 1C 22 A1 20 02 01 01 02 01 3B 30 81 17 04 01 0F 04 12",
            "reject 2",
        ),
        (
            "0B 7B 1C 22 A1 20 02 01 01 02 01 3B 30 18 04 81 01 0F 04 12",
            "reject 2",
        ),
        (
            "0B 7B 1C 22 A1 20 02 01 01 02 01 3B 30 18 04 01 0F 04 81 12",
            "reject 2",
        ),
        (
            "0B 7B 1C 23 A1 21 02 01 01 02 01 3B 30 19 04 01 0F 04 82 00 12",
            "reject 2",
        ),
        (
            "0B 7B 1C 21 A1 1F 02 01 01 02 01 3B 30 80 04 01 0F 04 12",
            "reject 2",
        ),
        // All in their shortest form: the string does not read.
        (
            "0B 7B 1C 21 A1 1F 02 01 01 02 01 3B 30 17 04 01 0F 04 12",
            "error 36",
        ),
    ] {
        let message = [hex(head), tail.clone()].concat();
        assert_eq!(ask_short(&message), answer, "{head}");
    }
    // 127 octets in 81 7F, and 128 in a plain 80.
    for (head, length) in [
        (
            "0B 7B 1C 82 A1 81 7F 02 01 01 02 01 3B 30 77 04 01 0F 04 72",
            114,
        ),
        (
            "0B 7B 1C 82 A1 80 02 01 01 02 01 3B 30 78 04 01 0F 04 73",
            115,
        ),
    ] {
        let message = [hex(head), vec![0x55; length], vec![0x7F, 1, 0]].concat();
        assert_eq!(ask_short(&message), "refused 11", "{head}");
    }
    // A string of 238 octets fits no element: 256 and 253 have no octet.
    let head = "0B 7B 1C 00 A1 81 FD 02 01 01 02 01 3B 30 81 F4 04 01 0F 04 81 EE";
    let mut message = [hex(head), vec![0x55; 238], vec![0x7F, 1, 0]].concat();
    assert_eq!(invoked(&message), Err(11));
    message[3] = 0xFF;
    assert_eq!(invoked(&message), Err(11));
}

#[test]
fn operations_and_parts_that_are_not_there() {
    let end = "7F 01 00";
    for (head, answer) in [
        ("", "refused 11"),
        ("0B", "refused 11"),
        ("0B 7B 1C", "refused 11"),
        ("0B 7B 1C 00", "refused 11"),
        ("0B 7B 1C 01 A1", "refused 11"),
        ("0B 7B 1C 02 A1 00", "refused 11"),
        ("0B 7B 1C 04 A1 02 02 01", "refused 11"),
        // Two octets of an invoke number, none, and a null.
        ("0B 7B 1C 06 A1 04 02 02 00 01", "refused 11"),
        ("0B 7B 1C 04 A1 02 02 00", "refused 11"),
        ("0B 7B 1C 04 A1 02 05 00", "refused 11"),
        // The number is there and nothing else; a part of an operation.
        ("0B 7B 1C 05 A1 03 02 01 01", "reject 1"),
        ("0B 7B 1C 06 A1 04 02 01 01 02", "reject 1"),
        ("0B 7B 1C 07 A1 05 02 01 01 02 01", "reject 1"),
        // The operation stands behind the component, or the element.
        ("0B 7B 1C 05 A1 03 02 01 01 02 01 3B", "reject 1"),
        ("0B 7B 1C 08 A1 03 02 01 01 02 01 3B", "refused 11"),
        // A linked number before it; another operation; one of two octets.
        ("0B 7B 1C 0B A1 09 02 01 01 80 01 00 02 01 3B", "reject 1"),
        ("0B 7B 1C 08 A1 06 02 01 01 02 01 3C", "reject 1"),
        ("0B 7B 1C 09 A1 07 02 01 01 02 02 00 3B", "reject 1"),
        ("0B 7B 1C 08 A1 06 02 01 01 06 01 3B", "reject 1"),
        // The operation and no parameter; one that is too short or too long.
        ("0B 7B 1C 08 A1 06 02 01 01 02 01 3B", "reject 2"),
        ("0B 7B 1C 0A A1 08 02 01 01 02 01 3B 30 00", "reject 2"),
        (
            "0B 7B 1C 0D A1 0B 02 01 01 02 01 3B 30 03 04 01 0F",
            "reject 2",
        ),
        (
            "0B 7B 1C 0F A1 0D 02 01 01 02 01 3B 30 05 04 01 0F 04 01",
            "reject 2",
        ),
        (
            "0B 7B 1C 0F A1 0D 02 01 01 02 01 3B 30 03 04 01 0F 04 00",
            "reject 2",
        ),
        (
            "0B 7B 1C 11 A1 0F 02 01 01 02 01 3B 30 05 04 01 0F 04 00 05 00",
            "reject 2",
        ),
        (
            "0B 7B 1C 11 A1 0F 02 01 01 02 01 3B 30 07 04 01 0F 04 00 05 00",
            "reject 2",
        ),
        (
            "0B 7B 1C 0F A1 0D 02 01 01 02 01 3B 30 05 04 00 04 01 0F",
            "reject 2",
        ),
        (
            "0B 7B 1C 0F A1 0D 02 01 01 02 01 3B 30 05 04 01 0F 04 00",
            "error 35",
        ),
    ] {
        let message = hex(&format!("{head} {end}"));
        assert_eq!(ask_short(&message), answer, "{head}");
    }
}

#[test]
fn every_octet_of_a_register_changed() {
    let good = hex(GOOD);
    for place in 0..good.len() {
        for octet in (0..=255).filter(|&octet| octet != good[place]) {
            let mut message = good.clone();
            message[place] = octet;
            let problem = |problem| Ok(Invoked::Problem(problem));
            let expected = match place {
                0 if octet & 0x0F != 0x0B => Err(11),
                1..=7 => Err(11),
                9..=11 => problem(1),
                12..=15 | 17 | 18 | 37..=39 => problem(2),
                _ => Ok(Invoked::Request {
                    scheme: message[16],
                    string: Place {
                        start: 19,
                        length: 18,
                    },
                }),
            };
            assert_eq!(invoked(&message), expected, "{place}: {octet:02X}");
            if let Ok(read) = read_register(&message) {
                assert_eq!((read.first, read.invoke), (message[0], message[8]));
            }
            // The framed request says the same, and the bare one what is inside.
            let said = ask_short(&message);
            match expected {
                Err(_) => assert_eq!(said, "refused 11"),
                Ok(Invoked::Problem(problem)) => assert_eq!(said, format!("reject {problem}")),
                Ok(Invoked::Request { scheme, string }) => {
                    let mut table = [F, 0, 0, 0, 0, 0, 0];
                    let string = string.of(&message);
                    let bare = request(&mut table, &LIST, &mut [0; 80], A, scheme, string);
                    match bare {
                        Answer::Error(code) => assert_eq!(said, format!("error {code}")),
                        bare => assert_eq!(said, short(bare)),
                    }
                }
            }
        }
    }
}

#[test]
fn every_cut_of_a_register_and_an_octet_more() {
    for message in [hex(GOOD), register(0x7B, 0xFF, 0x0F, &[0x55; 128])] {
        let element = message.len() - 3;
        for cut in 0..message.len() {
            let expected = if cut < element {
                Err(11)
            } else {
                Ok(Invoked::Problem(2))
            };
            assert_eq!(invoked(&message[..cut]), expected, "{cut}");
        }
        for octet in 0..=255 {
            let longer = [&message[..], &[octet]].concat();
            assert_eq!(invoked(&longer), Ok(Invoked::Problem(2)));
        }
    }
}

#[test]
fn every_octet_of_a_release_changed() {
    // The places where another octet reads: transaction, invoke number, and
    // the string, the code or the problem.
    for (good, free) in [
        (ANSWER_01, &[8, 21, 22][..]),
        (ERROR_36, &[8, 11]),
        (REJECT_1, &[8, 11]),
    ] {
        let good = hex(good);
        for place in 0..good.len() {
            for octet in (0..=255).filter(|&octet| octet != good[place]) {
                let mut message = good.clone();
                message[place] = octet;
                let reads = free.contains(&place) || place == 0 && octet & 0x0F == 0x0B;
                assert_eq!(released(&message).is_ok(), reads, "{place}: {octet:02X}");
            }
        }
        for cut in 0..good.len() {
            assert_eq!(released(&good[..cut]), Err(11));
        }
        for octet in 0..=255 {
            assert_eq!(released(&[&good[..], &[octet]].concat()), Err(11));
        }
        // Neither message reads as the other.
        assert_eq!(invoked(&good), Err(11));
    }
    assert_eq!(released(&hex(GOOD)), Err(11));
}

#[test]
fn releases_that_read() {
    // A result of 80 octets, the longest; 81 is too long.
    let head = hex("0B 2A 1C 61 A2 5F 02 01 FF 30 5A 02 01 3B 30 55 04 01 0F 04 50");
    let longest = [&head[..], &[0x55; 80]].concat();
    assert_eq!(longest.len(), 101);
    let place = Place {
        start: 21,
        length: 80,
    };
    let read = Message {
        first: 0x0B,
        invoke: 0xFF,
        content: Released::Result(place),
    };
    assert_eq!(read_release(&longest), Ok(read));
    let head = hex("0B 2A 1C 62 A2 60 02 01 FF 30 5B 02 01 3B 30 56 04 01 0F 04 51");
    assert_eq!(released(&[&head[..], &[0x55; 81]].concat()), Err(11));
    // One of no octets; one without the inner sequence; one without a result.
    let empty = "8B 2A 1C 11 A2 0F 02 01 00 30 0A 02 01 3B 30 05 04 01 0F 04 00";
    let place = Place {
        start: 21,
        length: 0,
    };
    assert_eq!(released(&hex(empty)), Ok(Released::Result(place)));
    for other in [
        "8B 2A 1C 11 A2 0F 02 01 00 30 0A 02 01 3B 04 01 0F 04 02 B0 18",
        "8B 2A 1C 05 A2 03 02 01 00",
        // A long form where the short one does; two octets of a code.
        "8B 2A 1C 12 A2 81 0F 02 01 00 30 0A 02 01 3B 30 05 04 01 0F 04 00",
        "8B 2A 1C 12 A2 10 02 01 00 30 81 0A 02 01 3B 30 05 04 01 0F 04 00",
        "8B 2A 1C 12 A2 10 02 01 00 30 0B 02 01 3B 30 81 05 04 01 0F 04 00",
        "8B 2A 1C 12 A2 10 02 01 00 30 0B 02 01 3B 30 06 04 01 0F 04 81 00",
        "8B 2A 1C 09 A3 07 02 01 01 02 02 00 24",
        // An error with a string behind its code; a general problem.
        "8B 2A 1C 0A A3 08 02 01 01 02 01 24 04 00",
        "8B 2A 1C 08 A4 06 02 01 01 80 01 01",
        "8B 2A 1C 08 A4 06 05 00 81 02 00 01",
    ] {
        assert_eq!(released(&hex(other)), Err(11), "{other}");
    }
    for number in 0..=255 {
        let (mut error, mut reject) = (hex(ERROR_36), hex(REJECT_1));
        (error[11], reject[11]) = (number, number);
        assert_eq!(released(&error), Ok(Released::Error(number)));
        assert_eq!(released(&reject), Ok(Released::Reject(number)));
    }
}

#[test]
fn registers_written() {
    let fields = Fields {
        operation: Operation::Register,
        number: F,
        forced: None,
        additional: &b""[..],
    };
    let mut frame = [FILL; 120];
    assert_eq!(write_register(0, 1, &fields, &mut frame), Ok(40));
    assert_eq!(frame[..40], hex(GOOD));
    assert_eq!(frame[40..], [FILL; 80]);
    for transaction in 0..=15 {
        let mut frame = [FILL; 130];
        assert_eq!(
            write_register(transaction, 0xFF, &fields, &mut frame),
            Ok(40)
        );
        let expected = register(transaction << 4 | 0x0B, 0xFF, 0x0F, &packed(REGISTER));
        assert_eq!(frame[..40], expected);
    }
    // Refused 1 before 9, and 9 for the identifier as for the fields.
    let wrong = Fields {
        number: 7,
        ..fields
    };
    let mut frame = [FILL; 120];
    for (transaction, fields) in [(0, &fields), (16, &fields), (16, &wrong)] {
        let refused = write_register(transaction, 1, fields, &mut frame[..119]);
        assert_eq!(refused, Err(1));
    }
    for (transaction, fields) in [(16, &fields), (255, &fields), (0, &wrong), (16, &wrong)] {
        let refused = write_register(transaction, 1, fields, &mut frame);
        assert_eq!(refused, Err(9));
    }
    assert_eq!(frame, [FILL; 120]);
}

#[test]
fn the_longest_frames() {
    // 72 characters, 63 octets: 85 in a Register.
    let fields = Fields {
        operation: Operation::Erase,
        number: stored("999999999999999"),
        forced: Some(stored("000000000000000")),
        additional: &b"ABCDEFGHIJKLMNOPQRSTUVWXYZ0123"[..],
    };
    let mut frame = [FILL; 120];
    assert_eq!(write_register(8, 0, &fields, &mut frame), Ok(85));
    let head = "8B 7B 1C 4E A1 4C 02 01 00 02 01 3B 30 44 04 01 0F 04 3F";
    assert_eq!(frame[..19], hex(head));
    assert_eq!(frame[82..85], hex("7F 01 00"));
    let string = "##214*999999999999999*88*000000000000000*ABCDEFGHIJKLMNOPQRSTUVWXYZ0123#";
    assert_eq!(unpacked(&frame[19..82]), string);
    // A crew of ten, one of them held by another: 25 octets, 46 in a result.
    let mut table: Vec<u64> = (0..10).flat_map(|n| [F + n, 0, 0, 0, 0, 0, 0]).collect();
    table[1] = B;
    let crew = packed("**214*0492123401***BULK9 020304050607080910#");
    let (answer, frame) = ask_framed(&mut table, A, &register(0xFB, 0, 0x0F, &crew));
    assert_eq!(answer, outcome(11, 46, 0));
    let head = "7B 2A 1C 2A A2 28 02 01 00 30 23 02 01 3B 30 1E 04 01 0F 04 19";
    assert_eq!(frame[..21], hex(head));
    assert_eq!(unpacked(&frame[21..]), "11 9 020304050607080910 1 01");
}
