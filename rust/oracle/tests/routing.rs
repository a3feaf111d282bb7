//! Where a text message goes: document 02, M-112. A message centre asks for the
//! MSISDN behind a functional number.

mod common;

use std::collections::BTreeMap;

use common::*;
use oracle::generate::{Call, Generator, Reply};
use oracle::{routing, Answer};

/// The node's own code.
const OWN: &[u8] = b"049";

/// Branch 01.
const BRANCH_01: Option<[u8; 3]> = Some([0x80, 0x48, 0x10]);

type Row = [u64; ROW];

fn held_by(number: u64, holder: u64) -> Row {
    [number, holder, 0, 0, 0, 0, 0]
}

fn msisdn(msisdn: u64, subaddress: Option<[u8; 3]>) -> Answer {
    Answer::Routed { msisdn, subaddress }
}

/// Asks the node with code 049, and checks that the general wording says the same.
fn route(table: &[u64], digits: &str, coded: bool) -> Answer {
    let answer = routing(table, OWN, digits.as_bytes(), coded);
    assert_eq!(answer, routed(table, OWN, digits.as_bytes(), coded));
    answer
}

/// The request's own example, with the code and without.
#[test]
fn the_holder_s_msisdn_and_the_branch() {
    let table = held_by(F, A);
    for (digits, coded) in [("0492123401", true), ("2123401", false)] {
        let answer = route(&table, digits, coded);
        assert_eq!(answer, msisdn(14_915_100_001, BRANCH_01));
    }
    assert_eq!(route(&held_by(F, 0), "0492123401", true), unrouted(62));
    assert_eq!(route(&held_by(F, 0), "2123401", false), unrouted(62));
    for table in [&[][..], &held_by(F + 1, A), &held_by(F - 1, A)] {
        assert_eq!(route(table, "0492123401", true), unrouted(41));
        assert_eq!(route(table, "2123401", false), unrouted(41));
    }
}

/// Digits that begin with the node's own code and are marked as having none get it
/// put in front again.
#[test]
fn the_code_is_put_in_front_whatever_the_digits_begin_with() {
    let twice = held_by(stored("0490492123401"), B);
    let table = [held_by(F, A), twice];
    let table = table.as_flattened();
    assert_eq!(route(table, "0492123401", true), msisdn(A, BRANCH_01));
    // Its fourth digit is 0.
    assert_eq!(route(table, "0492123401", false), msisdn(B, None));
    assert_eq!(route(table, "0490492123401", true), msisdn(B, None));
    assert_eq!(route(&held_by(F, A), "0492123401", false), unrouted(41));
    // A foreign code behind the node's own is none.
    assert_eq!(route(table, "0332123401", false), unrouted(41));
}

/// A foreign code is answered by itself, whatever the table has.
#[test]
fn another_network_s_number() {
    let foreign = stored("0332123401");
    for table in [&[][..], &held_by(foreign, A), &held_by(foreign, 0)] {
        assert_eq!(
            route(table, "0332123401", true),
            Answer::AskNetwork(*b"033")
        );
    }
    for digits in ["04812", "05012", "14912", "00912", "99999", "00000"] {
        let code = *digits.as_bytes().first_chunk().unwrap();
        assert_eq!(route(&[], digits, true), Answer::AskNetwork(code));
    }
    // It is that network's own.
    let table = held_by(foreign, A);
    let there = routing(&table, b"033", b"0332123401", true);
    assert_eq!(there, msisdn(A, BRANCH_01));
}

/// 5 to 15 digits with the code; any other count is 36.
#[test]
fn digits_of_every_count() {
    let all = "049212345678901234567890";
    for count in 0..=all.len() {
        let digits = &all[..count];
        let is_number = (5..=15).contains(&count);
        let table = if is_number {
            held_by(stored(digits), A)
        } else {
            held_by(F, A)
        };
        let asked = |digits, coded| match route(&table, digits, coded) {
            Answer::Error(36) => None,
            Answer::Routed { msisdn, .. } => Some(msisdn),
            other => panic!("{count}: {other:?}"),
        };
        assert_eq!(asked(digits, true), is_number.then_some(A));
        if count >= 3 {
            assert_eq!(asked(&digits[3..], false), is_number.then_some(A));
        }
    }
    let table = held_by(stored("04921"), A);
    // Of five digits the fourth is also the branch's first.
    let branch = Some([0x80, 0x48, 0x12]);
    assert_eq!(route(&table, "04921", true), msisdn(A, branch));
    assert_eq!(route(&table, "21", false), msisdn(A, branch));
    for (digits, coded) in [("0492", true), ("2", false), ("", true), ("", false)] {
        assert_eq!(route(&table, digits, coded), Answer::Error(36));
    }
    for (digits, coded) in [("0492123456789012", true), ("2123456789012", false)] {
        assert_eq!(route(&table, digits, coded), Answer::Error(36));
        let shorter = &digits[..digits.len() - 1];
        assert_eq!(route(&table, shorter, coded), unrouted(41));
    }
    // So are a foreign number's.
    for (digits, answer) in [
        ("0332", Answer::Error(36)),
        ("03321", Answer::AskNetwork(*b"033")),
        ("033212345678901", Answer::AskNetwork(*b"033")),
        ("0332123456789012", Answer::Error(36)),
    ] {
        assert_eq!(route(&table, digits, true), answer);
    }
}

/// The fourth digit is the number's type: 2, 3 and 4 have a subaddress.
#[test]
fn types_and_branches() {
    for number_type in 0..=9 {
        for branch in 0..=99 {
            let rest = format!("{number_type}1234{branch:02}");
            let digits = format!("049{rest}");
            let table = held_by(stored(&digits), B);
            let octet = (branch % 10) << 4 | (branch / 10);
            let subaddress = Some([0x80, 0x48, octet]);
            let answer = msisdn(B, subaddress.filter(|_| (2..=4).contains(&number_type)));
            assert_eq!(route(&table, &digits, true), answer);
            assert_eq!(route(&table, &rest, false), answer);
            // And none with any other answer.
            let table = held_by(stored(&digits), 0);
            assert_eq!(route(&table, &digits, true), unrouted(62));
            assert_eq!(route(&[], &digits, true), unrouted(41));
        }
    }
}

/// Each character that is no digit, in each place, is 36.
#[test]
fn characters_that_are_no_digits() {
    let table = held_by(F, A);
    for character in (0..=255u8).filter(|c| !c.is_ascii_digit()) {
        for (digits, coded) in [(&b"0492123401"[..], true), (b"2123401", false)] {
            for place in 0..digits.len() {
                let mut broken = digits.to_vec();
                broken[place] = character;
                let answer = routing(&table, OWN, &broken, coded);
                assert_eq!(answer, Answer::Error(36));
            }
            for place in 0..OWN.len() {
                let mut code = OWN.to_vec();
                code[place] = character;
                let answer = routing(&table, &code, digits, coded);
                assert_eq!(answer, Answer::Error(36));
            }
        }
    }
    // A foreign number's too, behind its code.
    for digits in ["033212340a", "033a123401", "03a2123401"] {
        assert_eq!(route(&table, digits, true), Answer::Error(36));
    }
}

/// The node's code has three digits, whether it is put in front or not.
#[test]
fn the_node_s_own_code() {
    let table = held_by(F, A);
    for code in [
        "",
        "0",
        "04",
        "0492",
        "04921",
        "04a",
        " 49",
        "+49",
        "0492123401",
    ] {
        for (digits, coded) in [
            ("0492123401", true),
            ("2123401", false),
            ("0332123401", true),
        ] {
            let answer = routing(&table, code.as_bytes(), digits.as_bytes(), coded);
            assert_eq!(answer, Answer::Error(36), "{code}");
        }
    }
    // "04" and "92123401", "0492" and "123401" would make the digits of F.
    for (code, digits) in [("04", "92123401"), ("0492", "123401")] {
        let answer = routing(&table, code.as_bytes(), digits.as_bytes(), false);
        assert_eq!(answer, Answer::Error(36));
    }
    for code in ["049", "000", "999"] {
        let answer = routing(&table, code.as_bytes(), b"0492123401", true);
        let expected = match code {
            "049" => msisdn(A, BRANCH_01),
            _ => Answer::AskNetwork(*b"049"),
        };
        assert_eq!(answer, expected);
    }
}

/// 2 before 36, and before a foreign code.
#[test]
fn unsound_tables() {
    let held = held_by(F, A);
    let cases = [
        (&b"049"[..], "0492123401"),
        (b"049", "0332123401"),
        (b"04", "0492123401"),
        (b"049", "04921a"),
        (b"049", ""),
    ];
    for table in [&held[..6], &[F, 7, 0, 0, 0, 0, 0], &[F, A, 0, 0, 0, 0, 2]] {
        for (code, digits) in cases {
            for coded in [false, true] {
                let answer = routing(table, code, digits.as_bytes(), coded);
                assert_eq!(answer, Answer::Refusal(2));
            }
        }
    }
    let sound = cases.map(|(code, digits)| routing(&held, code, digits.as_bytes(), true));
    let bad = Answer::Error(36);
    let ask = Answer::AskNetwork(*b"033");
    assert_eq!(sound, [msisdn(A, BRANCH_01), ask, bad, bad, bad]);
}

/// Leading zeros count, and the others' rows play no part.
#[test]
fn the_number_s_own_row() {
    let numbers = ["000200", "0002000", "00020000", "0020000", "020000"];
    let mut rows: Vec<Row> = numbers.map(|digits| held_by(stored(digits), 0)).into();
    rows.sort();
    for held in 0..rows.len() {
        let mut table = rows.clone();
        table[held][1] = C;
        let number = table[held][0];
        for digits in numbers {
            let code = &digits.as_bytes()[..3];
            let answer = routing(table.as_flattened(), code, digits.as_bytes(), true);
            let own = stored(digits) == number;
            let is_held = matches!(answer, Answer::Routed { msisdn: C, .. });
            assert!(if own { is_held } else { answer == unrouted(62) });
        }
    }
}

/// Notices, and whether the number is closed, play no part.
#[test]
fn whatever_else_the_row_says() {
    for phase in 1..=12 {
        for (supervisor, closed) in [(0, 0), (B, 0), (0, 1), (B, 1)] {
            let row = |holder| [F, holder, phase, A, supervisor, 0, closed];
            assert_eq!(route(&row(C), "0492123401", true), msisdn(C, BRANCH_01));
            assert_eq!(route(&row(0), "0492123401", true), unrouted(62));
        }
    }
}

/// The answer follows who holds the number.
#[test]
fn between_other_calls() {
    let mut table = held_by(F, 0);
    let holder = |table: &[u64]| match route(table, "2123401", false) {
        Answer::Routed { msisdn, .. } => Some(msisdn),
        answer => {
            assert_eq!(answer, unrouted(62));
            None
        }
    };
    assert_eq!(holder(&table), None);
    assert_eq!(ask(&mut table, &LIST, A, REGISTER), "01");
    assert_eq!(holder(&table), Some(A));
    assert_eq!(ask(&mut table, &LIST, B, REGISTER), "61");
    assert_eq!(holder(&table), Some(A));
    assert_eq!(ask(&mut table, &LIST, B, FORCE_A), "02");
    assert_eq!(holder(&table), None);
    assert_eq!(ask(&mut table, &LIST, B, REGISTER), "01");
    assert_eq!(holder(&table), Some(B));
    assert_eq!(ask(&mut table, &LIST, B, ERASE), "02");
    assert_eq!(holder(&table), None);
    assert_eq!(result(&mut table, F, 0, 0), Answer::Refusal(4));
    assert_eq!(table, [F, 0, 1, A, B, 0, 0]);
}

/// Along any calls a routing is answered as an interrogation at that moment would
/// be, and changes nothing.
#[test]
fn along_calls() {
    let mut generator = Generator::new(112);
    let mut counts: BTreeMap<&str, u64> = BTreeMap::new();
    for _ in 0..400 {
        let mut along = generator.along();
        for _ in 0..100 {
            let mut call = generator.call_along(&along);
            let before = call.clone();
            let Reply::Answer(answer) = call.run() else {
                unreachable!("{call:?}");
            };
            if let Call::Routing {
                table,
                code,
                digits,
                coded,
            } = &call
            {
                assert_eq!(answer, routed(&along.table, code, digits, *coded));
                assert_eq!((&before, table), (&call, &along.table));
                *counts.entry(name(answer)).or_default() += 1;
            }
            let (table, figures) = call.left(&along).unwrap();
            (along.table, along.figures) = (table.to_vec(), figures.to_vec());
        }
    }
    for answer in ["MSISDN", "ask", "41", "62", "36"] {
        let count = counts.remove(answer).unwrap_or(0);
        assert!(count > 100, "{answer}: {count}");
    }
    assert_eq!(counts, BTreeMap::new());
}

fn name(answer: Answer) -> &'static str {
    match answer {
        Answer::Routed { .. } => "MSISDN",
        Answer::AskNetwork(_) => "ask",
        Answer::Outcome { number: 41, .. } => "41",
        Answer::Outcome { number: 62, .. } => "62",
        Answer::Error(36) => "36",
        other => panic!("{other:?}"),
    }
}
