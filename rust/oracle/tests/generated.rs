//! Generated calls and program inputs: that they reach everything the papers
//! name, and that what holds of every call holds of them.

mod common;

use std::collections::BTreeMap;

use common::{packed, register, release, routed, ROW};
use oracle::generate::{changed_frames, Call, Generator, Reply};
use oracle::{
    crew_codes, is_number, read_image, read_register, read_release, read_request, recount, request,
    run, run_calls, table_is_sound, unpack, write_image, write_request, Answer, Fields, Invoked,
    Message, Operation, Released,
};

const CALLS: usize = 280_000;

/// How a call ended, in words fine enough to tell the rules apart.
fn label(before: &Call, after: &Call, reply: &Reply) -> String {
    let changed = before != after;
    match (before, reply) {
        (
            Call::Request {
                requester, string, ..
            },
            Reply::Answer(answer),
        ) => match answer {
            Answer::Error(35) if is_number(*requester) => "request: error 35, no octets".into(),
            Answer::Error(35) => "request: error 35, requester".into(),
            Answer::Error(36) if string.len() > 160 => "request: error 36, over 160".into(),
            Answer::Outcome { number, .. } => {
                let fields = read_request(string).unwrap();
                let who = match fields.forced {
                    None if *number == 2 && fields.number == *requester => ", her own number",
                    None => "",
                    Some(msisdn) if msisdn == *requester => ", forced, naming herself",
                    Some(_) => ", forced",
                };
                let stores = match number {
                    1 | 11 | 12 if rows(before) == rows(after) => ", nothing changes",
                    _ => "",
                };
                format!("request: {number:02}{who}{stores}")
            }
            other => format!("request: {other:?}"),
        },
        (Call::Sending { number, .. }, Reply::Answer(answer)) => match answer {
            Answer::Refusal(7) if is_number(*number) => "sending: Refusal(7), unknown".into(),
            Answer::Sent { .. } => {
                assert!(changed);
                let of = |row: &&[u64]| row[0] == *number;
                let row = rows(before).chunks(ROW).find(of).unwrap();
                let from = if row[4] == 0 {
                    ", from the terminal"
                } else {
                    ""
                };
                format!("sending: sent{from}")
            }
            other => format!("sending: {other:?}"),
        },
        (Call::Result { kind, number, .. }, Reply::Answer(answer)) => match answer {
            Answer::Refusal(7) if is_number(*number) => "result: Refusal(7), unknown".into(),
            Answer::Dropped if *kind == 5 => "result: dropped, last sending".into(),
            other => format!("result: {other:?}"),
        },
        (Call::Finding { .. }, Reply::Answer(answer)) => match answer {
            Answer::Found(_) => "finding: found".into(),
            other => format!("finding: {other:?}"),
        },
        (Call::Recount { .. }, Reply::Figures(Some(_))) => "recount: figures".into(),
        (Call::Recount { .. }, Reply::Figures(None)) => "recount: Refusal(2)".into(),
        (Call::Pack { .. }, Reply::Count(Ok(_))) => "pack: count".into(),
        (Call::Pack { .. }, Reply::Count(Err(number))) => format!("pack: refusal {number}"),
        (Call::Unpack { octets, .. }, Reply::Count(Ok(count))) => {
            let dropped = *count < 8 * octets.len() / 7;
            format!("unpack: count{}", if dropped { ", dropped" } else { "" })
        }
        (Call::Unpack { .. }, Reply::Count(Err(number))) => format!("unpack: refusal {number}"),
        (Call::WriteRequest { fields, .. }, Reply::Count(count)) => {
            let tagged = fields.additional.starts_with(b"BULK");
            let whose = if tagged { ", of a crew" } else { "" };
            match count {
                Ok(_) => format!("write: count{whose}"),
                Err(number) => format!("write: refusal {number}{whose}"),
            }
        }
        (Call::ReadRequest { .. }, Reply::Fields(fields)) => match fields {
            Some(fields) if crew_codes(fields.additional.as_ref()).is_some() => "read: crew".into(),
            Some(_) => "read: fields".into(),
            None => "read: error 36".into(),
        },
        (Call::IsNumber { .. }, Reply::IsNumber(truth)) => format!("number: {truth}"),
        (Call::FramedRequest { .. }, Reply::Answer(answer)) => match answer {
            Answer::Outcome { number, .. } => format!("framed: {number:02}"),
            Answer::ReturnError { code, octets: 12 } => format!("framed: error {code}"),
            Answer::Reject {
                problem,
                octets: 12,
            } => format!("framed: reject {problem}"),
            other => format!("framed: {other:?}"),
        },
        (Call::WriteRegister { transaction, .. }, Reply::Count(count)) => match count {
            Err(9) if *transaction > 15 => "write register: refusal 9, transaction".into(),
            Err(number) => format!("write register: refusal {number}"),
            Ok(_) => "write register: count".into(),
        },
        (Call::ReadRegister { .. }, Reply::Register(read)) => match read.map(|read| read.content) {
            Err(number) => format!("read register: refusal {number}"),
            Ok(Invoked::Problem(problem)) => format!("read register: problem {problem}"),
            Ok(Invoked::Request { string, .. }) if string.length < 115 => {
                "read register: request".into()
            }
            Ok(_) => "read register: request, long forms".into(),
        },
        (Call::ReadRelease { .. }, Reply::Release(read)) => match read.map(|read| read.content) {
            Err(number) => format!("read release: refusal {number}"),
            Ok(Released::Result(_)) => "read release: result".into(),
            Ok(Released::Error(_)) => "read release: error".into(),
            Ok(Released::Reject(_)) => "read release: reject".into(),
        },
        (Call::WriteImage { .. }, Reply::Count(count)) => match count {
            Err(number) => format!("write image: refusal {number}"),
            Ok(24) => "write image: count, of nothing".into(),
            Ok(_) => "write image: count".into(),
        },
        (Call::ReadImage { .. }, Reply::Rows(rows)) => match rows {
            Err(number) => format!("read image: refusal {number}"),
            Ok((0, 0)) => "read image: rows, none".into(),
            Ok((1024, 4096)) => "read image: rows, full".into(),
            Ok(_) => "read image: rows".into(),
        },
        (Call::Close { .. }, Reply::Answer(answer)) => match answer {
            Answer::Closed if !changed => "close: closed, nothing changes".into(),
            Answer::Closed => "close: closed".into(),
            other => format!("close: {other:?}"),
        },
        (Call::Compact { words, rows, .. }, Reply::Answer(answer)) => match answer {
            Answer::Refusal(2) if used(words, *rows).is_none() => {
                "compact: Refusal(2), beyond the words".into()
            }
            Answer::Rows { gone: 0, .. } => "compact: rows, none gone".into(),
            Answer::Rows { .. } => "compact: rows".into(),
            other => format!("compact: {other:?}"),
        },
        (Call::Add { words, rows, .. }, Reply::Answer(answer)) => match answer {
            Answer::Refusal(2) if used(words, *rows).is_none() => {
                "add: Refusal(2), beyond the words".into()
            }
            Answer::Refusal(50) if *rows == 1024 => "add: Refusal(50), full".into(),
            Answer::Rows { .. } => "add: rows".into(),
            other => format!("add: {other:?}"),
        },
        (Call::TerminalErasure { number, .. }, Reply::Answer(answer)) => match answer {
            Answer::Refusal(7) if is_number(*number) => "terminal: Refusal(7), holder".into(),
            Answer::Outcome { number, .. } => format!("terminal: {number:02}"),
            other => format!("terminal: {other:?}"),
        },
        (Call::Routing { code, coded, .. }, Reply::Answer(answer)) => {
            let asked = if *coded { "with" } else { "without" };
            match answer {
                Answer::Error(36) if code.len() != 3 => {
                    "routing: Error(36), the node's code".into()
                }
                Answer::Error(36) => format!("routing: Error(36), asked {asked}"),
                Answer::Outcome { number, .. } => format!("routing: {number:02}, asked {asked}"),
                Answer::AskNetwork(_) => "routing: ask".into(),
                Answer::Routed { subaddress, .. } => {
                    let branch = if subaddress.is_some() {
                        ", subaddress"
                    } else {
                        ""
                    };
                    format!("routing: MSISDN, asked {asked}{branch}")
                }
                other => format!("routing: {other:?}"),
            }
        }
        _ => panic!("{reply:?} does not belong to {before:?}"),
    }
}

/// The table of a call that is lent one with its figures.
fn rows(call: &Call) -> &[u64] {
    counted(call, None).expect("a call with a table").0
}

/// The rows in use at the front of words, if there are so many.
fn used(words: &[u64], rows: usize) -> Option<&[u64]> {
    words.get(..rows.checked_mul(ROW)?)
}

/// What each call must come to at least a hundred times.
const REACHED: [&str; 178] = [
    "request: Refusal(1)",
    "request: Refusal(8)",
    "request: Refusal(2)",
    "request: Refusal(10)",
    "request: error 35, requester",
    "request: error 35, no octets",
    "request: Error(71)",
    "request: Error(36)",
    "request: error 36, over 160",
    "request: 01",
    "request: 01, nothing changes",
    "request: 02",
    "request: 02, her own number",
    "request: 02, forced",
    "request: 02, forced, naming herself",
    "request: 03",
    "request: 11",
    "request: 11, nothing changes",
    "request: 12",
    "request: 12, nothing changes",
    "step of a crew: 01",
    "step of a crew: 02",
    "step of a crew: 02, her own number",
    "step of a crew: 41",
    "step of a crew: 61",
    "step of a crew: 62",
    "step of a crew: 63",
    "step of a crew: 64",
    "step of a crew: 67",
    "request: 22, forced",
    "request: 22, forced, naming herself",
    "request: 41",
    "request: 41, forced",
    "request: 41, forced, naming herself",
    "request: 42",
    "request: 42, forced",
    "request: 42, forced, naming herself",
    "request: 61",
    "request: 62",
    "request: 62, forced",
    "request: 62, forced, naming herself",
    "request: 63",
    "request: 63, forced",
    "request: 63, forced, naming herself",
    "request: 64",
    "request: 67",
    "request: 68, forced",
    "sending: Refusal(1)",
    "sending: Refusal(2)",
    "sending: Refusal(10)",
    "sending: Refusal(7)",
    "sending: Refusal(7), unknown",
    "sending: Refusal(6)",
    "sending: Refusal(4)",
    "sending: Refusal(5)",
    "sending: sent",
    "sending: sent, from the terminal",
    "result: Refusal(2)",
    "result: Refusal(10)",
    "result: Refusal(7)",
    "result: Refusal(7), unknown",
    "result: Refusal(3)",
    "result: Refusal(4)",
    "result: Delivered",
    "result: Dropped",
    "result: dropped, last sending",
    "result: Again",
    "finding: Refusal(2)",
    "finding: Refusal(6)",
    "finding: found",
    "finding: NoneDue",
    "recount: figures",
    "recount: Refusal(2)",
    "pack: count",
    "pack: refusal 1",
    "pack: refusal 9",
    "unpack: count",
    "unpack: count, dropped",
    "unpack: refusal 1",
    "unpack: refusal 9",
    "write: count",
    "write: count, of a crew",
    "write: refusal 1",
    "write: refusal 1, of a crew",
    "write: refusal 9",
    "write: refusal 9, of a crew",
    "framed: Refusal(1)",
    "framed: Refusal(11)",
    "framed: Refusal(8)",
    "framed: Refusal(2)",
    "framed: Refusal(10)",
    "framed: reject 1",
    "framed: reject 2",
    "framed: error 35",
    "framed: error 71",
    "framed: error 36",
    "framed: 01",
    "framed: 02",
    "framed: 03",
    "framed: 11",
    "framed: 12",
    "framed: 22",
    "framed: 41",
    "framed: 42",
    "framed: 61",
    "framed: 62",
    "framed: 63",
    "framed: 64",
    "framed: 67",
    "framed: 68",
    "write register: count",
    "write register: refusal 1",
    "write register: refusal 9",
    "write register: refusal 9, transaction",
    "read register: request",
    "read register: request, long forms",
    "read register: problem 1",
    "read register: problem 2",
    "read register: refusal 11",
    "read release: result",
    "read release: error",
    "read release: reject",
    "read release: refusal 11",
    "write image: count",
    "write image: refusal 8",
    "write image: refusal 2",
    "write image: refusal 10",
    "write image: refusal 33",
    "read image: rows",
    "read image: refusal 30",
    "read image: refusal 31",
    "read image: refusal 32",
    "read image: refusal 34",
    "read image: refusal 33",
    "read image: refusal 2",
    "read image: refusal 8",
    "close: Refusal(2)",
    "close: Refusal(10)",
    "close: Refusal(7)",
    "close: Refusal(52)",
    "close: closed",
    "close: closed, nothing changes",
    "compact: Refusal(2)",
    "compact: Refusal(2), beyond the words",
    "compact: Refusal(10)",
    "compact: rows",
    "compact: rows, none gone",
    "add: Refusal(2)",
    "add: Refusal(2), beyond the words",
    "add: Refusal(10)",
    "add: Refusal(7)",
    "add: Refusal(51)",
    "add: Refusal(50)",
    "add: Refusal(50), full",
    "add: rows",
    "terminal: Refusal(1)",
    "terminal: Refusal(2)",
    "terminal: Refusal(10)",
    "terminal: Refusal(7)",
    "terminal: Refusal(7), holder",
    "terminal: 02",
    "terminal: 41",
    "terminal: 62",
    "terminal: 63",
    "terminal: 68",
    "routing: Refusal(2)",
    "routing: Error(36), the node's code",
    "routing: Error(36), asked with",
    "routing: Error(36), asked without",
    "routing: 41, asked with",
    "routing: 41, asked without",
    "routing: 62, asked with",
    "routing: 62, asked without",
    "routing: ask",
    "routing: MSISDN, asked with",
    "routing: MSISDN, asked with, subaddress",
    "routing: MSISDN, asked without",
    "routing: MSISDN, asked without, subaddress",
];

#[test]
fn calls_reach_every_answer() {
    let mut generator = Generator::new(0x0004_9212_3401);
    let mut counts = BTreeMap::new();
    for _ in 0..CALLS {
        let before = generator.call();
        let mut after = before.clone();
        let reply = after.run();
        *counts.entry(label(&before, &after, &reply)).or_insert(0) += 1;
        check(&before, &after, &reply);
        check_figures(&before, &after, &reply);
        for (code, outcome) in steps(&before, &after, &reply) {
            let own = outcome == 2 && is_own(&before, &code);
            let whose = if own { ", her own number" } else { "" };
            let label = format!("step of a crew: {outcome:02}{whose}");
            *counts.entry(label).or_insert(0) += 1;
        }
    }
    for (label, count) in &counts {
        println!("{count:6} {label}");
    }
    for label in REACHED {
        let count = counts.get(label).copied().unwrap_or(0);
        assert!(count >= 100, "{label}: {count}");
    }
    // And nothing else but images of nothing and full ones, and what reading and
    // the test for a number return.
    let others: Vec<&String> = counts
        .keys()
        .filter(|label| !REACHED.contains(&label.as_str()))
        .collect();
    assert_eq!(
        others,
        [
            "number: false",
            "number: true",
            "read image: rows, full",
            "read image: rows, none",
            "read: crew",
            "read: error 36",
            "read: fields",
            "write image: count, of nothing"
        ]
    );
}

/// Whether the requester has the digits of the crew's number with this code.
fn is_own(call: &Call, code: &str) -> bool {
    let Call::Request {
        requester, string, ..
    } = call
    else {
        return false;
    };
    let stored = read_request(string).unwrap().number.to_string();
    requester.to_string() == format!("{}{code}", &stored[..stored.len() - 2])
}

/// The codes of a request that is answered 11 or 12, each with the outcome of
/// its single request. Checks that the single requests, one after the other,
/// leave the same table and figures, and that the reply says what they came to.
fn steps(before: &Call, after: &Call, answer: &Reply) -> Vec<(String, u8)> {
    let (
        Call::Request {
            table,
            figures,
            list,
            requester,
            string,
            ..
        },
        Call::Request {
            table: new,
            figures: new_figures,
            reply,
            ..
        },
        Reply::Answer(Answer::Outcome {
            number: outcome @ (11 | 12),
            octets,
            ..
        }),
    ) = (before, after, answer)
    else {
        return Vec::new();
    };
    let fields = read_request(string).unwrap();
    let (mut table, mut figures) = (table.clone(), figures.clone());
    let codes = crew_codes(fields.additional.as_ref()).unwrap();
    let steps: Vec<(String, u8)> = std::iter::once(b"01")
        .chain(codes)
        .map(|code| {
            let code = String::from_utf8(code.to_vec()).unwrap();
            let stored = fields.number.to_string();
            let root = &stored[..stored.len() - 2];
            let single = Fields {
                operation: fields.operation,
                number: format!("{root}{code}").parse().unwrap(),
                forced: None,
                additional: b"",
            };
            let mut string = [0; 160];
            let count = write_request(&single, &mut string).unwrap();
            let (string, reply) = (&string[..count], &mut [0; 80]);
            let (table, figures) = (&mut table, &mut figures);
            match request(table, figures, list, reply, *requester, 0x0F, string) {
                Answer::Outcome { number, .. } => (code, number),
                other => panic!("{other:?}"),
            }
        })
        .collect();
    assert_eq!((&table, &figures), (new, new_figures));
    let mut text = [0; 100];
    let length = unpack(&reply[..*octets], &mut text).unwrap();
    assert_eq!(text[..length], *crew_reply(*outcome, &steps).as_bytes());
    steps
}

/// Document 02's words: outcome, space, count of successes, space, their codes
/// and a space if there are any, count of failures, and a space and their codes
/// if there are any.
fn crew_reply(outcome: u8, steps: &[(String, u8)]) -> String {
    let of = |success: bool| -> (usize, String) {
        let codes = steps
            .iter()
            .filter(|step| [1, 2].contains(&step.1) == success);
        (
            codes.clone().count(),
            codes.map(|step| step.0.as_str()).collect(),
        )
    };
    let mut text = format!("{outcome} ");
    let (count, codes) = of(true);
    text += &format!("{count} ");
    if count > 0 {
        text += &format!("{codes} ");
    }
    let (count, codes) = of(false);
    text += &format!("{count}");
    if count > 0 {
        text += &format!(" {codes}");
    }
    text
}

/// Checks what document 01 says of every call: refusals and errors touch
/// nothing, what lies beyond a count stays, a sound table stays sound, and a
/// call changes one record at most, or those of a crew.
fn check(before: &Call, after: &Call, reply: &Reply) {
    match (before, after) {
        (
            Call::Request {
                table: old,
                reply: old_reply,
                string,
                ..
            },
            Call::Request {
                table: new,
                reply: new_reply,
                ..
            },
        ) => match reply {
            Reply::Answer(Answer::Outcome { octets, .. }) => {
                let fields = read_request(string).unwrap();
                match crew_codes(fields.additional.as_ref()) {
                    Some(_) => check_table(old, new, |n| n / 100 == fields.number / 100),
                    None => check_table(old, new, |n| n == fields.number),
                }
                check_beyond(old_reply, new_reply, *octets);
            }
            _ => assert_eq!(before, after),
        },
        (
            Call::Sending {
                table: old,
                buffer: old_buffer,
                number,
                ..
            },
            Call::Sending {
                table: new,
                buffer: new_buffer,
                ..
            },
        ) => match reply {
            Reply::Answer(Answer::Sent { octets, .. }) => {
                check_table(old, new, |n| n == *number);
                check_beyond(old_buffer, new_buffer, *octets);
            }
            _ => assert_eq!(before, after),
        },
        (
            Call::Result {
                table: old, number, ..
            },
            Call::Result { table: new, .. },
        ) => match reply {
            Reply::Answer(Answer::Refusal(_)) => assert_eq!(before, after),
            _ => check_table(old, new, |n| n == *number),
        },
        (Call::Pack { chars, out: old }, Call::Pack { out: new, .. }) => match reply {
            Reply::Count(Ok(count)) => {
                check_beyond(old, new, *count);
                let mut back = vec![0; 2 * count];
                let length = unpack(&new[..*count], &mut back).unwrap();
                assert_eq!(back[..length], chars[..]);
            }
            _ => assert_eq!(before, after),
        },
        (Call::Unpack { out: old, .. }, Call::Unpack { out: new, .. }) => match reply {
            Reply::Count(Ok(count)) => check_beyond(old, new, *count),
            _ => assert_eq!(before, after),
        },
        (Call::WriteRequest { fields, out: old }, Call::WriteRequest { out: new, .. }) => {
            match reply {
                Reply::Count(Ok(count)) => {
                    check_beyond(old, new, *count);
                    let read = read_request(&new[..*count]).unwrap();
                    assert_eq!(read.operation, fields.operation);
                    assert_eq!(read.number, fields.number);
                    assert_eq!(read.forced, fields.forced);
                    assert_eq!(read.additional.as_ref(), fields.additional);
                }
                _ => assert_eq!(before, after),
            }
        }
        (Call::FramedRequest { .. }, _) => match reply {
            Reply::Answer(answer) => check_framed(before, after, answer),
            other => panic!("{other:?}"),
        },
        (
            Call::WriteRegister {
                transaction,
                invoke,
                fields,
                frame: old,
            },
            Call::WriteRegister { frame: new, .. },
        ) => match reply {
            Reply::Count(Ok(count)) => {
                check_beyond(old, new, *count);
                let mut string = [0; 160];
                let length = write_request(fields, &mut string).unwrap();
                let first = 16 * transaction + 0x0B;
                let whole = register(first, *invoke, 0x0F, &string[..length]);
                assert_eq!(new[..*count], whole);
            }
            _ => assert_eq!(before, after),
        },
        (Call::ReadRegister { message }, _) => {
            if let Reply::Register(Ok(read)) = reply {
                check_register(read, message);
            }
        }
        (Call::ReadRelease { message }, _) => {
            if let Reply::Release(Ok(read)) = reply {
                let content = match read.content {
                    Released::Result(string) => Released::Result(string.of(message)),
                    Released::Error(code) => Released::Error(code),
                    Released::Reject(problem) => Released::Reject(problem),
                };
                assert_eq!(release(read.first, read.invoke, content), *message);
            }
        }
        (Call::WriteImage { .. }, _) => match reply {
            Reply::Count(Ok(count)) => check_written(before, after, *count),
            _ => assert_eq!(before, after),
        },
        (Call::ReadImage { .. }, _) => match reply {
            Reply::Rows(Ok(rows)) => check_restored(before, after, *rows),
            _ => assert_eq!(before, after),
        },
        (
            Call::Close {
                table: old, number, ..
            },
            Call::Close { table: new, .. },
        ) => match reply {
            Reply::Answer(Answer::Closed) => {
                check_table(old, new, |n| n == *number);
                let closed = |row: &[u64]| [&row[..6], &[1]].concat();
                for (old, new) in old.chunks(ROW).zip(new.chunks(ROW)) {
                    assert!(old[0] != *number || new == closed(old));
                }
            }
            _ => assert_eq!(before, after),
        },
        (Call::Compact { words, rows, .. }, Call::Compact { words: new, .. }) => match reply {
            Reply::Answer(Answer::Rows { in_use, gone }) => {
                assert_eq!(in_use + gone, *rows);
                let (table, behind) = words.split_at(ROW * rows);
                let left = |row: &&[u64]| row[1] != 0 || row[2] != 0 || row[6] == 0;
                let mut expected = table.chunks(ROW).filter(left).collect::<Vec<_>>().concat();
                assert_eq!(expected.len(), ROW * in_use);
                assert!(table_is_sound(&expected));
                expected.resize(table.len(), 0);
                assert_eq!(*new, [&expected, behind].concat());
            }
            _ => assert_eq!(before, after),
        },
        (
            Call::Add {
                words,
                rows,
                number,
                ..
            },
            Call::Add { words: new, .. },
        ) => match reply {
            Reply::Answer(Answer::Rows { in_use, gone: 0 }) => {
                assert_eq!(*in_use, rows + 1);
                let (table, behind) = words.split_at(ROW * rows);
                let row = [*number, 0, 0, 0, 0, 0, 0];
                let mut expected: Vec<&[u64]> = table.chunks(ROW).chain([&row[..]]).collect();
                expected.sort();
                let expected = expected.concat();
                assert!(table_is_sound(&expected));
                assert_eq!(*new, [&expected, &behind[ROW..]].concat());
            }
            _ => assert_eq!(before, after),
        },
        (Call::TerminalErasure { .. }, _) => match reply {
            Reply::Answer(Answer::Outcome { number, .. }) => check_terminal(before, after, *number),
            _ => assert_eq!(before, after),
        },
        (
            Call::Routing {
                table,
                code,
                digits,
                coded,
            },
            _,
        ) => {
            let expected = routed(table, code, digits, *coded);
            assert_eq!((reply, before), (&Reply::Answer(expected), after));
        }
        (Call::ReadRequest { octets }, _) => {
            if let Reply::Fields(Some(fields)) = reply {
                let mut out = [0; 160];
                let count = write_request(fields, &mut out).unwrap();
                assert_eq!(out[..count], octets[..]);
            }
        }
        _ => assert_eq!(before, after),
    }
}

/// An erasure at the terminal is a forced erasure by nobody: a supervisor who is
/// not the holder is answered the same, and her place in the record is blank.
fn check_terminal(before: &Call, after: &Call, outcome: u8) {
    let (
        Call::TerminalErasure {
            table,
            figures,
            reply: old,
            number,
            holder,
        },
        Call::TerminalErasure {
            table: new_table,
            figures: new_figures,
            reply: new,
            ..
        },
    ) = (before, after)
    else {
        unreachable!("an erasure at the terminal");
    };
    assert_eq!(new[..2], packed(&format!("{outcome:02}")));
    check_beyond(old, new, 2);
    check_table(table, new_table, |n| n == *number && outcome == 2);
    let supervisor = if *holder == 100_000 { 100_001 } else { 100_000 };
    let force = Fields {
        operation: Operation::Erase,
        number: *number,
        forced: Some(*holder),
        additional: b"",
    };
    let (mut string, mut reply) = ([0; 160], [0; 80]);
    let count = write_request(&force, &mut string).unwrap();
    let (mut table, mut figures) = (table.clone(), figures.clone());
    let (list, string) = ([supervisor, 3], &string[..count]);
    let (rows, lent) = (&mut table, &mut figures);
    let answer = request(rows, lent, &list, &mut reply, supervisor, 0x0F, string);
    let same = Answer::Outcome {
        number: outcome,
        octets: 2,
        msisdn: 0,
    };
    assert_eq!((answer, &figures), (same, new_figures));
    for row in table.chunks_mut(ROW).filter(|row| row[0] == *number) {
        if outcome == 2 {
            assert_eq!(row[4], supervisor);
            row[4] = 0;
        }
    }
    assert_eq!(table, *new_table);
}

/// A written image reads as what it was written from, and the rest stays.
fn check_written(before: &Call, after: &Call, count: usize) {
    let (
        Call::WriteImage {
            table,
            figures,
            list,
            image: old,
        },
        Call::WriteImage { image: new, .. },
    ) = (before, after)
    else {
        unreachable!("a writing");
    };
    check_beyond(old, new, count);
    let (mut rows, mut people) = (vec![0; table.len()], vec![0; list.len()]);
    let mut counts = vec![0; 3];
    let read = read_image(&new[..count], &mut rows, &mut people, &mut counts);
    assert!(read.is_ok(), "{read:?}");
    assert_eq!((&rows, &people, &counts), (table, list, figures));
}

/// An image that reads is the one image of what it reads as, and the rest of each
/// room stays.
fn check_restored(before: &Call, after: &Call, (rows, people): (usize, usize)) {
    let (
        Call::ReadImage {
            image,
            table: old_table,
            list: old_list,
            figures: old_figures,
        },
        Call::ReadImage {
            image: same,
            table,
            list,
            figures,
        },
    ) = (before, after)
    else {
        unreachable!("a reading");
    };
    assert_eq!(image, same);
    let words = image.len() / 8 - 3 - 2 * people;
    assert_eq!(words % rows.max(1), 0);
    assert_eq!(table[words..], old_table[words..]);
    assert_eq!(list[2 * people..], old_list[2 * people..]);
    assert_eq!(figures[3..], old_figures[3..]);
    let mut out = vec![0; image.len()];
    let written = write_image(
        &table[..words],
        &figures[..3],
        &list[..2 * people],
        &mut out,
    );
    assert_eq!((written, &out), (Ok(image.len()), image));
}

/// The table of a call, and the figures that it is lent beside it. Of rows in a
/// buffer their count may be another than the call's.
fn counted(call: &Call, in_use: Option<usize>) -> Option<(&[u64], &[u64])> {
    match call {
        Call::Request { table, figures, .. }
        | Call::FramedRequest { table, figures, .. }
        | Call::Sending { table, figures, .. }
        | Call::Result { table, figures, .. }
        | Call::Close { table, figures, .. }
        | Call::TerminalErasure { table, figures, .. } => Some((table, figures)),
        Call::Compact {
            words,
            rows,
            figures,
        }
        | Call::Add {
            words,
            rows,
            figures,
            ..
        } => {
            // A count beyond the words is of no table.
            let table = used(words, in_use.unwrap_or(*rows));
            Some((table.unwrap_or(&[0]), figures))
        }
        _ => None,
    }
}

/// Refused 2 is an unsound table, 10 a sound one with other figures than its
/// own; a call that gets past both keeps the figures those of the table.
fn check_figures(before: &Call, after: &Call, reply: &Reply) {
    let Reply::Answer(answer) = reply else {
        return;
    };
    let in_use = match answer {
        Answer::Rows { in_use, .. } => Some(*in_use),
        _ => None,
    };
    let (Some((old, old_figures)), Some((new, figures))) =
        (counted(before, None), counted(after, in_use))
    else {
        return;
    };
    let is_right = recount(old).map(|counts| counts == old_figures);
    match answer {
        Answer::Refusal(1 | 11 | 8) => {}
        Answer::Refusal(2) => assert_eq!(is_right, None),
        Answer::Refusal(10) => assert_eq!(is_right, Some(false)),
        _ => {
            assert_eq!(is_right, Some(true));
            assert_eq!(recount(new).unwrap(), figures);
        }
    }
}

/// A message that reads is the one frame of what it reads as.
fn check_register(read: &Message<Invoked>, message: &[u8]) {
    if let Invoked::Request { scheme, string } = read.content {
        let string = string.of(message);
        assert_eq!(register(read.first, read.invoke, scheme, string), message);
    }
}

/// A framed request does what the bare one does with the string inside, and
/// its frame says so with the flag inverted; refusals touch nothing.
fn check_framed(before: &Call, after: &Call, answer: &Answer) {
    let (
        Call::FramedRequest {
            table,
            figures,
            list,
            frame: old,
            requester,
            message,
        },
        Call::FramedRequest {
            table: new_table,
            figures: new_figures,
            frame: new,
            ..
        },
    ) = (before, after)
    else {
        unreachable!("a framed request");
    };
    let (Answer::Outcome { octets, .. }
    | Answer::ReturnError { octets, .. }
    | Answer::Reject { octets, .. }) = answer
    else {
        return assert_eq!(before, after);
    };
    let read = read_register(message).unwrap();
    let (mut table, mut figures) = (table.clone(), figures.clone());
    let mut reply = [0; 80];
    let bare = match read.content {
        Invoked::Problem(_) => None,
        Invoked::Request { scheme, string } => {
            let (string, reply) = (string.of(message), &mut reply);
            let (table, figures) = (&mut table, &mut figures);
            Some(request(
                table, figures, list, reply, *requester, scheme, string,
            ))
        }
    };
    assert_eq!((&table, &figures), (new_table, new_figures));
    let content = expected(read.content, bare, answer, &reply);
    let whole = release(read.first ^ 0x80, read.invoke, content);
    assert_eq!(new[..*octets], whole);
    check_beyond(old, new, *octets);
    assert!(read_release(&whole).is_ok());
}

/// What the Release Complete holds, by the Register and the bare request.
fn expected<'a>(
    invoked: Invoked,
    bare: Option<Answer>,
    answer: &Answer,
    reply: &'a [u8],
) -> Released<&'a [u8]> {
    match (invoked, bare, answer) {
        (Invoked::Problem(found), _, Answer::Reject { problem, .. }) if found == *problem => {
            Released::Reject(found)
        }
        (_, Some(Answer::Error(error)), Answer::ReturnError { code, .. }) if error == *code => {
            Released::Error(error)
        }
        (
            _,
            Some(Answer::Outcome {
                number,
                octets,
                msisdn,
            }),
            Answer::Outcome {
                number: framed,
                msisdn: holder,
                ..
            },
        ) if (number, msisdn) == (*framed, *holder) => Released::Result(&reply[..octets]),
        _ => panic!("{answer:?} for {bare:?} and {invoked:?}"),
    }
}

/// The records of no other numbers than these may change.
fn check_table(old: &[u64], new: &[u64], may_change: impl Fn(u64) -> bool) {
    assert!(table_is_sound(old) && table_is_sound(new));
    assert_eq!(old.len(), new.len());
    for (old, new) in old.chunks(ROW).zip(new.chunks(ROW)) {
        assert_eq!(old[0], new[0]);
        if !may_change(old[0]) {
            assert_eq!(old, new);
        }
    }
}

fn check_beyond(old: &[u8], new: &[u8], count: usize) {
    assert_eq!(old.len(), new.len());
    assert_eq!(old[count..], new[count..]);
}

#[test]
fn program_inputs_print_every_kind_of_line() {
    let mut generator = Generator::new(0x0049_1510_0001);
    let mut counts: BTreeMap<String, usize> = BTreeMap::new();
    for _ in 0..3000 {
        let input = generator.program();
        let output = String::from_utf8(run(&input)).unwrap();
        assert!(output.is_empty() || output.ends_with('\n'));
        for line in output.lines() {
            let kind = match line.split_once(' ') {
                Some(("T", rest)) if rest.starts_with(|c: char| c.is_ascii_digit()) => "T sent",
                Some(("R", rest)) if rest.starts_with("03 ") => "R 03",
                Some(("R", rest)) if rest.starts_with("11 0 ") => "R 11, none",
                Some(("R", rest)) if rest.starts_with("12 0 ") => "R 12, none",
                Some(("R", rest)) if rest.starts_with("11 ") => "R 11",
                Some(("R", rest)) if rest.starts_with("12 ") => "R 12",
                _ => line,
            };
            *counts.entry(kind.into()).or_insert(0) += 1;
        }
    }
    for (line, count) in &counts {
        println!("{count:6} {line}");
    }
    let printed: Vec<&str> = counts.keys().map(String::as_str).collect();
    assert_eq!(
        printed,
        [
            "?",
            "D again",
            "D delivered",
            "D dropped",
            "D refused 3",
            "D refused 4",
            "D refused 7",
            "R 01",
            "R 02",
            "R 03",
            "R 11",
            "R 11, none",
            "R 12",
            "R 12, none",
            "R 22",
            "R 41",
            "R 42",
            "R 61",
            "R 62",
            "R 63",
            "R 67",
            "R 68",
            "R error 35",
            "R error 36",
            "R refused 9",
            "T refused 4",
            "T refused 5",
            "T refused 7",
            "T sent",
        ]
    );
    assert!(counts.values().all(|&count| count >= 30));
}

/// The changed frames are whole lines, and each kind of line comes up.
#[test]
fn changed_frames_print_every_kind_of_line() {
    let mut counts: BTreeMap<String, usize> = BTreeMap::new();
    let mut made = 0;
    for (lines, calls) in changed_frames() {
        let output = String::from_utf8(run_calls(&lines)).unwrap();
        assert_eq!(output.lines().count() as u64, calls);
        made += calls;
        for line in output.lines() {
            let what = match line.strip_prefix("first ") {
                Some(read) => read.split(", ").nth(2).unwrap(),
                None => line.split([',', '[']).next().unwrap().trim_end(),
            };
            let what = match what.split_once(' ') {
                Some((what @ ("scheme" | "result" | "error" | "problem"), _)) => what,
                _ => what,
            };
            *counts.entry(what.into()).or_insert(0) += 1;
        }
    }
    println!("{made} calls");
    let printed: Vec<&str> = counts.keys().map(String::as_str).collect();
    assert_eq!(
        printed,
        [
            "error",
            "outcome 01",
            "outcome 41",
            "problem",
            "refused 11",
            "reject 1",
            "reject 2",
            "result",
            "return error 36",
            "return error 71",
            "scheme",
        ]
    );
}
