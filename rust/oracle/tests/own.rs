//! A number's own subscriber: document 02, M-105.

mod common;

use common::*;

/// A row with no notice.
fn held(number: u64, holder: u64) -> Vec<u64> {
    vec![number, holder, 0, 0, 0, 0, 0]
}

/// What the requester is told, and who holds the only number afterwards.
fn told(mut table: Vec<u64>, list: &[u64], requester: u64, string: &str) -> (String, u64) {
    let text = ask(&mut table, list, requester, string);
    (text, table[1])
}

#[test]
fn she_erases_whoever_holds_it() {
    let erase = "##214*4915100001***#";
    assert_eq!(told(held(A, B), &LIST, A, erase), ("02".into(), 0));
    assert_eq!(told(held(A, 0), &LIST, A, erase), ("62".into(), 0));
    // Nobody else may, and a pending notice stays.
    assert_eq!(told(held(A, C), &LIST, B, erase), ("63".into(), C));
    let mut pending = vec![A, B, 3, C, B, 9, 0];
    assert_eq!(ask(&mut pending, &LIST, A, erase), "02");
    assert_eq!(pending, [A, 0, 3, C, B, 9, 0]);
}

#[test]
fn she_has_to_be_listed_with_flag_1() {
    let (c, d) = ("##214*4915100003***#", "##214*4915100004***#");
    let not_listed = stored("4915100004");
    assert_eq!(told(held(C, A), &LIST, C, c), ("42".into(), A));
    assert_eq!(
        told(held(not_listed, A), &LIST, not_listed, d),
        ("42".into(), A)
    );
}

#[test]
fn every_digit_counts() {
    for digits in ["04915100001", "49151000010", "491510000"] {
        let string = format!("##214*{digits}***#");
        assert_eq!(
            told(held(stored(digits), B), &LIST, A, &string),
            ("63".into(), B)
        );
    }
    // A subscriber whose MSISDN begins with a zero.
    let list = [F, 1, A, 1, B, 3, C, 0];
    let shorter = stored("492123401");
    let string = "##214*492123401***#";
    assert_eq!(told(held(shorter, A), &list, F, string), ("63".into(), A));
    assert_eq!(told(held(F, A), &list, F, ERASE), ("02".into(), 0));
}

#[test]
fn nothing_else_is_hers() {
    let register = "**214*4915100001***#";
    assert_eq!(told(held(A, 0), &LIST, A, register), ("67".into(), 0));
    let force = |named: &str| format!("##214*4915100002*88*{named}*#");
    assert_eq!(
        told(held(B, C), &LIST, B, &force("4915100001")),
        ("63".into(), C)
    );
    let mut forced = held(B, C);
    assert_eq!(ask(&mut forced, &LIST, B, &force("4915100003")), "02");
    assert_eq!(forced, [B, 0, 1, C, B, 0, 0]);
    let without_flag_2 = "##214*4915100001*88*4915100002*#";
    assert_eq!(told(held(A, B), &LIST, A, without_flag_2), ("22".into(), B));
}
