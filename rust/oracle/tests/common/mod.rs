//! What the tests share: document 01's people and numbers, and short ways to
//! make a call and look at all it did.

// Each test file is built by itself and uses a part of this.
#![allow(dead_code)]

use oracle::{number_from_digits, pack, recount, unpack, Answer, Released};

/// The words of a number's row.
pub const ROW: usize = 7;

/// F, the functional number of the examples.
pub const F: u64 = 10_492_123_401;
/// A has Follow Me, B is a supervisor too, C has neither.
pub const A: u64 = 14_915_100_001;
pub const B: u64 = 14_915_100_002;
pub const C: u64 = 14_915_100_003;
pub const LIST: [u64; 6] = [A, 1, B, 3, C, 0];

/// The strings of the examples.
pub const REGISTER: &str = "**214*0492123401***#";
pub const ERASE: &str = "##214*0492123401***#";
pub const INTERROGATE: &str = "*#214*0492123401***#";
pub const FORCE_A: &str = "##214*0492123401*88*4915100001*#";
pub const FORCE_B: &str = "##214*0492123401*88*4915100002*#";

/// What a buffer holds before a call.
pub const FILL: u8 = 0xA5;

pub fn stored(digits: &str) -> u64 {
    number_from_digits(digits.as_bytes()).unwrap()
}

pub fn packed(text: &str) -> Vec<u8> {
    let mut out = vec![0; text.len()];
    let count = pack(text.as_bytes(), &mut out).unwrap();
    out.truncate(count);
    out
}

pub fn unpacked(octets: &[u8]) -> String {
    let mut out = vec![0; 2 * octets.len()];
    let count = unpack(octets, &mut out).unwrap();
    out.truncate(count);
    String::from_utf8(out).unwrap()
}

/// Makes a call with the figures of the table, zeros of an unsound one. Checks
/// that they are those of the table afterwards.
fn with_figures(table: &mut [u64], call: impl FnOnce(&mut [u64], &mut [u64]) -> Answer) -> Answer {
    let mut figures = recount(table).unwrap_or_default();
    let answer = call(table, &mut figures);
    assert_eq!(figures, recount(table).unwrap_or_default());
    answer
}

/// The calls, with the right figures.
pub fn request(
    table: &mut [u64],
    list: &[u64],
    reply: &mut [u8],
    requester: u64,
    scheme: u8,
    string: &[u8],
) -> Answer {
    with_figures(table, |table, figures| {
        oracle::request(table, figures, list, reply, requester, scheme, string)
    })
}

pub fn framed_request(
    table: &mut [u64],
    list: &[u64],
    frame: &mut [u8],
    requester: u64,
    message: &[u8],
) -> Answer {
    with_figures(table, |table, figures| {
        oracle::framed_request(table, figures, list, frame, requester, message)
    })
}

pub fn terminal_erasure(table: &mut [u64], reply: &mut [u8], number: u64, holder: u64) -> Answer {
    with_figures(table, |table, figures| {
        oracle::terminal_erasure(table, figures, reply, number, holder)
    })
}

pub fn sending(table: &mut [u64], buffer: &mut [u8], number: u64, delay: u32, now: u32) -> Answer {
    with_figures(table, |table, figures| {
        oracle::sending(table, figures, buffer, number, delay, now)
    })
}

pub fn result(table: &mut [u64], number: u64, kind: u32, now: u32) -> Answer {
    with_figures(table, |table, figures| {
        oracle::result(table, figures, number, kind, now)
    })
}

/// Makes a request with a good buffer and scheme and returns the reply text,
/// or how the call ended without one. Checks that errors and refusals leave
/// table and buffer, and that octets beyond the reply stay.
pub fn ask(table: &mut [u64], list: &[u64], requester: u64, string: &str) -> String {
    said(table, |table, reply| {
        request(table, list, reply, requester, 0x0F, &packed(string))
    })
}

/// The same of an erasure at the terminal.
pub fn ask_terminal(table: &mut [u64], number: u64, holder: u64) -> String {
    said(table, |table, reply| {
        terminal_erasure(table, reply, number, holder)
    })
}

fn said(table: &mut [u64], call: impl FnOnce(&mut [u64], &mut [u8]) -> Answer) -> String {
    let before = table.to_vec();
    let mut reply = [FILL; 100];
    match call(table, &mut reply) {
        Answer::Outcome {
            number,
            octets,
            msisdn,
        } => {
            let text = unpacked(&reply[..octets]);
            assert!(reply[octets..].iter().all(|&octet| octet == FILL));
            assert_eq!(text[..2], format!("{number:02}"));
            match number {
                3 => assert_eq!(stored(&text[3..]), msisdn),
                11 | 12 => assert_eq!((octets, msisdn), (packed(&text).len(), 0)),
                _ => assert_eq!((text.len(), octets, msisdn), (2, 2, 0)),
            }
            if ![1, 2, 11, 12].contains(&number) {
                assert_eq!(table, before);
            }
            text
        }
        other => {
            assert_eq!(table, before);
            assert_eq!(reply, [FILL; 100]);
            format!("{other:?}")
        }
    }
}

/// What a routing comes to, by the wording of document 02 and what an interrogation
/// of the same number says.
pub fn routed(table: &[u64], code: &[u8], digits: &[u8], coded: bool) -> Answer {
    if recount(table).is_none() {
        return Answer::Refusal(2);
    }
    let front = if coded { b"" } else { code };
    let asked = [front, digits].concat();
    let characters = [code, &asked].concat();
    let whole = code.len() == 3 && (5..=15).contains(&asked.len());
    if !whole || !characters.iter().all(|c| b"0123456789".contains(c)) {
        return Answer::Error(36);
    }
    if !asked.starts_with(code) {
        return Answer::AskNetwork([asked[0], asked[1], asked[2]]);
    }
    match interrogated(table, &asked) {
        Answer::Outcome {
            number: 3, msisdn, ..
        } => Answer::Routed {
            msisdn,
            subaddress: subaddress(std::str::from_utf8(&asked).unwrap()),
        },
        Answer::Outcome { number, .. } => unrouted(number),
        other => panic!("{other:?}"),
    }
}

/// An outcome of a routing.
pub fn unrouted(number: u8) -> Answer {
    Answer::Outcome {
        number,
        octets: 0,
        msisdn: 0,
    }
}

/// What a listed subscriber who asks about a number is answered.
fn interrogated(table: &[u64], digits: &[u8]) -> Answer {
    let string = [b"*#214*", digits, b"***#"].concat();
    let string = packed(std::str::from_utf8(&string).unwrap());
    let mut table = table.to_vec();
    request(&mut table, &[A, 1], &mut [0; 80], A, 0x0F, &string)
}

/// 80 48, and the last two digits exchanged, of types 2, 3 and 4.
fn subaddress(digits: &str) -> Option<[u8; 3]> {
    let exchanged: String = digits.chars().rev().take(2).collect();
    let branch = u8::from_str_radix(&exchanged, 16).unwrap();
    let number_type = digits.chars().nth(3)?;
    "234".contains(number_type).then_some([0x80, 0x48, branch])
}

/// A part of a message: a tag, its length in the shortest form, its content.
fn part(tag: u8, content: &[u8]) -> Vec<u8> {
    let length = u8::try_from(content.len()).unwrap();
    let long: &[u8] = if length < 128 { &[] } else { &[0x81] };
    [&[tag], long, &[length], content].concat()
}

fn element(first: u8, message_type: u8, component: &[u8]) -> Vec<u8> {
    let length = u8::try_from(component.len()).unwrap();
    [&[first, message_type, 0x1C, length], component].concat()
}

/// The Register of these values; the lengths count what is there.
pub fn register(first: u8, invoke: u8, scheme: u8, string: &[u8]) -> Vec<u8> {
    let sequence = [vec![4, 1, scheme], part(4, string)].concat();
    let component = [vec![2, 1, invoke, 2, 1, 0x3B], part(0x30, &sequence)].concat();
    let mut message = element(first, 0x7B, &part(0xA1, &component));
    message.extend([0x7F, 1, 0]);
    message
}

/// The Release Complete of these values.
pub fn release(first: u8, invoke: u8, content: Released<&[u8]>) -> Vec<u8> {
    let (tag, content) = match content {
        Released::Result(string) => {
            let inner = [vec![4, 1, 0x0F], part(4, string)].concat();
            let outer = [vec![2, 1, 0x3B], part(0x30, &inner)].concat();
            (0xA2, part(0x30, &outer))
        }
        Released::Error(code) => (0xA3, vec![2, 1, code]),
        Released::Reject(problem) => (0xA4, vec![0x81, 1, problem]),
    };
    let component = [vec![2, 1, invoke], content].concat();
    element(first, 0x2A, &part(tag, &component))
}
