//! Where a text message goes: every answer, the limits of what is asked, and that
//! nothing but the answer's own fields is named.

use ffn::{c, routing, Failure, Msisdn, Refusal, RequestError, Route, NUMBER_WORDS};

/// F is 0492123401, of type 2 and branch 01.
const F: u64 = 10_492_123_401;
const A: u64 = 14_915_100_001;
const B: u64 = 14_915_100_002;
const OWN: &str = "049";
const BRANCH_01: [u8; 3] = [0x80, 0x48, 0x10];

const ERROR_36: Result<Route, Failure> = Err(Failure::Error(RequestError::UnexpectedDataValue));

type Row = [u64; NUMBER_WORDS];

fn held_by(number: u64, holder: u64) -> Row {
    [number, holder, 0, 0, 0, 0, 0]
}

fn stored(digits: &str) -> u64 {
    format!("1{digits}").parse().unwrap()
}

fn to(holder: u64, subaddress: Option<[u8; 3]>) -> Result<Route, Failure> {
    let msisdn = Msisdn::from_word(holder).unwrap();
    Ok(Route::Msisdn { msisdn, subaddress })
}

fn ask(code: &[u8; 3]) -> Result<Route, Failure> {
    Ok(Route::AskNetwork(*code))
}

/// Asks the node with code 049.
fn route(table: &[u64], digits: &str, coded: bool) -> Result<Route, Failure> {
    routing(table, OWN.as_bytes(), digits.as_bytes(), coded)
}

#[test]
fn a_number_with_its_code_and_without() {
    for (digits, coded) in [("0492123401", true), ("2123401", false)] {
        let found = to(A, Some(BRANCH_01));
        assert_eq!(route(&held_by(F, A), digits, coded), found);
        let free = route(&held_by(F, 0), digits, coded);
        assert_eq!(free, Ok(Route::NoHolder));
        for table in [&[][..], &held_by(F + 1, A)] {
            assert_eq!(route(table, digits, coded), Ok(Route::UnknownNumber));
        }
    }
}

#[test]
fn the_code_is_put_in_front_again() {
    let table = [held_by(F, A), held_by(stored("0490492123401"), B)];
    let table = table.as_flattened();
    assert_eq!(route(table, "0492123401", false), to(B, None));
    assert_eq!(route(table, "0492123401", true), to(A, Some(BRANCH_01)));
}

#[test]
fn another_network_s_number() {
    let foreign = held_by(stored("0332123401"), A);
    for table in [&[][..], &foreign] {
        assert_eq!(route(table, "0332123401", true), ask(b"033"));
    }
    let there = routing(&foreign, b"033", b"0332123401", true);
    assert_eq!(there, to(A, Some(BRANCH_01)));
}

#[test]
fn digits_of_every_count() {
    let all = "049112345678901234";
    for count in 3..=all.len() {
        let digits = &all[..count];
        let (table, found) = if (5..=15).contains(&count) {
            (held_by(stored(digits), B), to(B, None))
        } else {
            (held_by(F, A), ERROR_36)
        };
        assert_eq!(route(&table, digits, true), found);
        assert_eq!(route(&table, &digits[3..], false), found);
    }
    for digits in ["", "0", "04"] {
        assert_eq!(route(&held_by(F, A), digits, true), ERROR_36);
    }
}

#[test]
fn types_and_branches() {
    for number_type in 0..=9 {
        for branch in [0, 1, 9, 10, 47, 90, 99] {
            let digits = format!("049{number_type}1234{branch:02}");
            let octet = (branch % 10) << 4 | (branch / 10);
            let has_one = (2..=4).contains(&number_type);
            let subaddress = has_one.then_some([0x80, 0x48, octet]);
            let table = held_by(stored(&digits), A);
            assert_eq!(route(&table, &digits, true), to(A, subaddress));
        }
    }
}

#[test]
fn refused_before_in_error() {
    let table = held_by(F, A);
    for code in ["", "04", "0492", "04a", "+49"] {
        for (digits, coded) in [("0492123401", true), ("2123401", false)] {
            let (code, digits) = (code.as_bytes(), digits.as_bytes());
            assert_eq!(routing(&table, code, digits, coded), ERROR_36);
            let refused = Err(Failure::Refused(Refusal::TableUnsound));
            assert_eq!(routing(&table[..6], code, digits, coded), refused);
        }
    }
    for digits in ["049212340a", "/492123401", "0492:23401", "033212340 "] {
        assert_eq!(route(&table, digits, true), ERROR_36);
        assert_eq!(route(&table, digits, false), ERROR_36);
    }
}

/// A field that the answer's class does not name is 0; any `coded` but 0 is a code.
#[test]
fn fields_of_the_answers() {
    let none = c::Route::default();
    let (free, held) = (held_by(F, 0), held_by(F, A));
    let said = |table: &[u64], digits: &str, coded| {
        c::routing(table, OWN.as_bytes(), digits.as_bytes(), coded)
    };
    let numbered = |class, number| c::Route {
        class,
        number,
        ..none
    };
    assert_eq!(said(&held[..1], "", 1), numbered(c::REFUSAL, 2));
    assert_eq!(said(&held, "0492", 1), numbered(c::ERROR, 36));
    assert_eq!(said(&[], "0492123401", 1), numbered(c::OUTCOME, 41));
    assert_eq!(said(&free, "0492123401", 1), numbered(c::OUTCOME, 62));
    let network = c::Route {
        class: c::ASK_NETWORK,
        code: *b"033",
        ..none
    };
    let found = c::Route {
        class: c::ROUTED,
        msisdn: A,
        subaddress: BRANCH_01,
        subaddress_octets: 3,
        ..none
    };
    for coded in [1, 2, 128, 255] {
        assert_eq!(said(&held, "0332123401", coded), network);
        assert_eq!(said(&held, "0492123401", coded), found);
    }
    assert_eq!(said(&held, "2123401", 0), found);
    let plain = c::Route {
        class: c::ROUTED,
        msisdn: B,
        ..none
    };
    let table = held_by(stored("0491123401"), B);
    assert_eq!(said(&table, "0491123401", 1), plain);
}
