//! The terminal at the node: document 02, M-111. Staff clear a number without a
//! subscription, and the notice leaves the supervisor's place blank.

mod common;

use common::*;
use oracle::{finding, read_image, read_request, recount, write_image, write_request};
use oracle::{Answer, Fields, Operation};

/// Words that are no numbers, nobody among them.
const MALFORMED: [u64; 7] = [
    0,
    7,
    19_999,
    200_000,
    A - 10_000_000_000,
    10_000_000_000_000_000,
    u64::MAX,
];

/// A notice without its MSISDN, and what it takes packed.
const BLANK: &str = "##214*0492123401*88**#";
const BLANK_OCTETS: usize = 20;

type Row = [u64; ROW];

fn held_by(holder: u64) -> Row {
    [F, holder, 0, 0, 0, 0, 0]
}

/// F without holder, and a notice to A from the terminal.
fn notice(phase: u64, failure: u64) -> Row {
    [F, 0, phase, A, 0, failure, 0]
}

/// Sends F's notice and returns its text.
fn sent(table: &mut [u64], delay: u32, now: u32) -> String {
    let mut buffer = [FILL; 80];
    let answer = sending(table, &mut buffer, F, delay, now);
    let Answer::Sent {
        addressee: A,
        octets,
    } = answer
    else {
        panic!("{answer:?}");
    };
    assert!(buffer[octets..].iter().all(|&octet| octet == FILL));
    unpacked(&buffer[..octets])
}

/// The request's own example, word for word.
#[test]
fn a_number_is_cleared_and_its_holder_told() {
    let mut table = held_by(A);
    assert_eq!(ask_terminal(&mut table, F, B), "63");
    assert_eq!(ask_terminal(&mut table, F + 1, A), "41");
    assert_eq!(table, held_by(A));
    assert_eq!(ask_terminal(&mut table, F, A), "02");
    assert_eq!(table, [10_492_123_401, 0, 1, 14_915_100_001, 0, 0, 0]);
    assert_eq!(ask_terminal(&mut table, F, A), "62");
    assert_eq!(recount(&table), Some([0, 1, 0]));

    assert_eq!(finding(&table, 60, 100), Answer::Found(F));
    assert_eq!(sent(&mut table, 60, 100), BLANK);
    assert_eq!((BLANK.len(), packed(BLANK).len()), (22, BLANK_OCTETS));
    assert_eq!(table, notice(2, 0));
    // She registers again while it is pending.
    let mut again = table;
    assert_eq!(ask(&mut again, &LIST, A, REGISTER), "01");
    assert_eq!(ask_terminal(&mut again, F, A), "68");
    assert_eq!(again, [F, A, 2, A, 0, 0, 0]);

    assert_eq!(result(&mut table, F, 0, 101), Answer::Delivered);
    assert_eq!(table, held_by(0));
}

/// Nobody needs to be listed, and whoever holds the number is told.
#[test]
fn whoever_holds_it() {
    for holder in [A, B, C, F, stored("00000"), stored("999999999999999")] {
        for closed in [0, 1] {
            let before = [F - 1, A, 3, B, 0, 9, 1];
            let behind = [F + 1, A, 0, 0, 0, 0, 0];
            let mut table = [before, [F, holder, 0, 0, 0, 0, closed], behind];
            let lent = table.as_flattened_mut();
            assert_eq!(recount(lent), Some([3, 1, 0]));
            assert_eq!(ask_terminal(lent, F, holder), "02");
            assert_eq!(recount(lent), Some([2, 2, 0]));
            assert_eq!(table, [before, [F, 0, 1, holder, 0, 0, closed], behind]);
        }
    }
}

/// Each of the checks in front of the outcomes, alone and with those behind it.
#[test]
fn refusals_in_order() {
    let (unsound, right) = ([F, 7, 0, 0, 0, 0, 0], [1, 0, 0]);
    for broken in 0..32 {
        let is_broken = |check: u32| broken >> check & 1 == 1;
        let room = if is_broken(0) { 79 } else { 80 };
        let table = if is_broken(1) { unsound } else { held_by(A) };
        let figures = if is_broken(2) { [0, 0, 0] } else { right };
        let number = if is_broken(3) { 0 } else { F };
        let holder = if is_broken(4) { 0 } else { A };
        let (mut lent, mut counts, mut reply) = (table, figures, vec![FILL; room]);
        let said = oracle::terminal_erasure(&mut lent, &mut counts, &mut reply, number, holder);
        let mut checks = [1, 2, 10, 7, 7].into_iter().zip(0..);
        match checks.find(|check| is_broken(check.1)) {
            None => assert_eq!((said, counts), (outcome(2), [0, 1, 0])),
            Some((number, _)) => {
                assert_eq!(said, Answer::Refusal(number), "{broken:05b}");
                assert_eq!((lent, counts, reply), (table, figures, vec![FILL; room]));
            }
        }
    }
}

fn outcome(number: u8) -> Answer {
    Answer::Outcome {
        number,
        octets: 2,
        msisdn: 0,
    }
}

#[test]
fn replies_of_every_length() {
    for room in 0..=100 {
        let (mut table, mut reply) = (held_by(A), vec![FILL; room]);
        let said = terminal_erasure(&mut table, &mut reply, F, A);
        if room < 80 {
            assert_eq!((said, table), (Answer::Refusal(1), held_by(A)));
            assert_eq!(reply, vec![FILL; room]);
        } else {
            assert_eq!((said, table), (outcome(2), notice(1, 0)));
            assert_eq!(reply[..2], packed("02"));
            assert!(reply[2..].iter().all(|&octet| octet == FILL));
        }
    }
}

/// A call that is refused, on a table and figures that it must leave.
fn refused(table: &[u64], figures: &[u64], number: u64, holder: u64) -> u8 {
    let (mut lent, mut counts) = (table.to_vec(), figures.to_vec());
    let mut reply = [FILL; 80];
    let answer = oracle::terminal_erasure(&mut lent, &mut counts, &mut reply, number, holder);
    assert_eq!((&lent[..], &counts[..]), (table, figures));
    assert_eq!(reply, [FILL; 80]);
    match answer {
        Answer::Refusal(number) => number,
        _ => panic!("{answer:?}"),
    }
}

#[test]
fn unsound_tables_and_other_figures() {
    let held = held_by(A);
    for (number, holder) in [(F, A), (F, B), (F + 1, A), (0, A), (F, 0)] {
        for table in [&held[..6], &held[..1], &[F, 0, 1, 0, 0, 0, 0]] {
            assert_eq!(refused(table, &[0, 0, 0], number, holder), 2);
            assert_eq!(refused(table, &[], number, holder), 2);
        }
        for figures in [&[0, 0, 0][..], &[1, 1, 0], &[1, 0], &[1, 0, 0, 0], &[]] {
            assert_eq!(refused(&held, figures, number, holder), 10);
        }
        assert_eq!(refused(&[], &[1, 0, 0], number, holder), 10);
    }
}

/// 7 for either, whatever the other is, and whether or not it is in the table.
#[test]
fn malformed_numbers_and_holders() {
    let held = held_by(A);
    for word in MALFORMED {
        for other in [A, F, F + 1, 0, 7] {
            assert_eq!(refused(&held, &[1, 0, 0], word, other), 7);
            assert_eq!(refused(&held, &[1, 0, 0], other, word), 7);
            assert_eq!(refused(&[], &[0, 0, 0], word, other), 7);
        }
        // Not even where nobody holds it, or where a notice is pending.
        assert_eq!(refused(&held_by(0), &[0, 0, 0], F, word), 7);
        assert_eq!(refused(&notice(1, 0), &[0, 1, 0], F, word), 7);
    }
}

#[test]
fn outcomes_in_order() {
    // 41, whoever is named.
    for number in [F - 1, F + 1, stored("492123401"), stored("00492123401"), A] {
        assert_eq!(ask_terminal(&mut held_by(A), number, A), "41");
        assert_eq!(ask_terminal(&mut [], number, A), "41");
    }
    // 62, whoever is named, with or without a notice.
    for mut table in [
        held_by(0),
        notice(1, 0),
        notice(12, 0),
        [F, 0, 3, A, B, 9, 1],
    ] {
        for holder in [A, B, F] {
            assert_eq!(ask_terminal(&mut table, F, holder), "62");
        }
    }
    // 63 before 68; the leading zeros of a holder count.
    for mut table in [held_by(A), [F, A, 1, B, 0, 0, 0], [F, A, 4, B, C, 0, 1]] {
        for holder in [B, C, F, stored("04915100001"), stored("915100001")] {
            assert_eq!(ask_terminal(&mut table, F, holder), "63");
        }
    }
}

/// Any notice keeps the holder, whoever made it and whomever it tells, in every
/// phase; and nothing of the record changes.
#[test]
fn a_pending_notice() {
    for phase in 1..=12 {
        let failure = if phase > 1 { phase % 2 * 9 } else { 0 };
        for (addressee, supervisor) in [(A, 0), (A, B), (B, A), (B, 0), (C, B)] {
            for closed in [0, 1] {
                let row = [F, A, phase, addressee, supervisor, failure, closed];
                let mut table = row;
                assert_eq!(ask_terminal(&mut table, F, A), "68");
                assert_eq!(table, row);
            }
        }
    }
    // And one from the terminal stays in a supervisor's way, unless she holds it.
    let mut table = [F, A, 5, A, 0, 9, 0];
    assert_eq!(ask(&mut table, &LIST, B, FORCE_A), "68");
    let mut table = [F, B, 5, A, 0, 9, 0];
    assert_eq!(ask(&mut table, &LIST, B, FORCE_B), "02");
    assert_eq!(table, notice(5, 9));
}

/// A closed number is cleared as an open one, and stays closed.
#[test]
fn a_closed_number() {
    let mut table = [F, A, 0, 0, 0, 0, 1];
    assert_eq!(ask_terminal(&mut table, F, A), "02");
    assert_eq!(table, [F, 0, 1, A, 0, 0, 1]);
    assert_eq!(ask(&mut table, &LIST, A, REGISTER), "64");
    assert_eq!(sent(&mut table, 0, 0), BLANK);
    assert_eq!(result(&mut table, F, 4, 0), Answer::Dropped);
    assert_eq!(table, [F, 0, 0, 0, 0, 0, 1]);
}

/// It is sent up to six times, and stays one from the terminal.
#[test]
fn six_sendings() {
    let mut table = notice(1, 0);
    for sending in 1..=6 {
        let now = 1000 * sending as u32;
        assert_eq!(sent(&mut table, 600, now), BLANK);
        assert_eq!(table, notice(2 * sending, 0));
        let told = result(&mut table, F, 5, now);
        if sending == 6 {
            assert_eq!((told, table), (Answer::Dropped, held_by(0)));
        } else {
            assert_eq!(told, Answer::Again);
            assert_eq!(table, notice(2 * sending + 1, now.into()));
        }
    }
}

/// Twelve characters beside the number's; 23 of them end in a carriage return.
#[test]
fn the_blank_notice_of_every_length() {
    for count in 5..=15 {
        let digits = &"012345678901234"[..count];
        let mut table = [stored(digits), 0, 1, A, 0, 0, 0];
        let mut buffer = [FILL; 80];
        let octets = (7 * (12 + count)).div_ceil(8);
        let answer = sending(&mut table, &mut buffer, stored(digits), 0, 0);
        let expected = Answer::Sent {
            addressee: A,
            octets,
        };
        assert_eq!(answer, expected);
        let text = format!("##214*{digits}*88**#");
        assert_eq!(unpacked(&buffer[..octets]), text);
        assert_eq!(buffer[octets - 1] >> 1 == 13, count == 11);
        assert_eq!(buffer[octets..], [FILL; 80][octets..]);
    }
}

/// The node's own reader and writer of requests take no blank MSISDN.
#[test]
fn a_blank_notice_is_no_request() {
    let string = packed(BLANK);
    assert_eq!(read_request(&string), None);
    let mut table = held_by(A);
    for requester in [A, B, C] {
        assert_eq!(ask(&mut table, &LIST, requester, BLANK), "Error(36)");
        let message = register(0x0B, 1, 0x0F, &string);
        let mut frame = [FILL; 120];
        let answer = framed_request(&mut table, &LIST, &mut frame, requester, &message);
        let error = Answer::ReturnError {
            code: 36,
            octets: 12,
        };
        assert_eq!(answer, error);
    }
    assert_eq!(table, held_by(A));
    let fields = |forced| Fields {
        operation: Operation::Erase,
        number: F,
        forced,
        additional: b"",
    };
    let mut out = [FILL; 160];
    assert_eq!(write_request(&fields(Some(0)), &mut out), Err(9));
    assert_eq!(out, [FILL; 160]);
    assert_eq!(write_request(&fields(Some(A)), &mut out), Ok(28));
}

/// Notices from the terminal move with their numbers, and keep their rules there.
#[test]
fn images() {
    let rows: Vec<Row> = (1..=12).map(|n| [F + n, 0, n, A, 0, 0, n % 2]).collect();
    let table = rows.as_flattened();
    let size = 8 * table.len() + 24;
    let mut image = vec![FILL; size];
    let figures = recount(table).unwrap();
    assert_eq!(figures, [0, 6, 6]);
    assert_eq!(write_image(table, &figures, &[], &mut image), Ok(size));
    let read = |image: &[u8]| {
        let (mut rows, mut counts) = (vec![0; table.len()], [0; 3]);
        read_image(image, &mut rows, &mut [], &mut counts).map(|_| (rows, counts))
    };
    assert_eq!(read(&image), Ok((table.to_vec(), figures)));
    // The addressee becomes nobody, or the supervisor becomes the addressee.
    for row in 0..rows.len() {
        let [addressee, supervisor] = [3, 4].map(|word| 8 * (ROW * row + word));
        let mut to_nobody = image.clone();
        to_nobody[addressee..][..8].fill(0);
        assert_eq!(read(&to_nobody), Err(2));
        let mut from_her = image.clone();
        from_her.copy_within(addressee..supervisor, supervisor);
        assert_eq!(read(&from_her), Err(2));
    }
}
