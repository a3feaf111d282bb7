//! Whole crews in one request: document 02, M-100.

mod common;

use common::*;
use oracle::Answer;

/// The other numbers of F's crew.
const F2: u64 = F + 1;
const F3: u64 = F + 2;

/// A table of numbers with their holders, without notices.
fn table(rows: &[(u64, u64)]) -> Vec<u64> {
    rows.iter()
        .flat_map(|&(number, holder)| [number, holder, 0, 0, 0, 0, 0])
        .collect()
}

/// The holders, by the rows of a table.
fn holders(table: &[u64]) -> Vec<u64> {
    table.chunks(ROW).map(|record| record[1]).collect()
}

fn register(additional: &str) -> String {
    format!("**214*0492123401***{additional}#")
}

fn erase(additional: &str) -> String {
    format!("##214*0492123401***{additional}#")
}

#[test]
fn a_crew_of_two() {
    let mut table = table(&[(F, 0), (F2, 0)]);
    let string = packed(&register("BULK1 02"));
    let mut reply = [FILL; 80];
    let answer = request(&mut table, &LIST, &mut reply, A, 0x0F, &string);
    let eleven = Answer::Outcome {
        number: 11,
        octets: 10,
        msisdn: 0,
    };
    assert_eq!(answer, eleven);
    assert_eq!(unpacked(&reply[..10]), "11 2 0102 0");
    assert!(reply[10..].iter().all(|&octet| octet == FILL));
    assert_eq!(holders(&table), [A, A]);
    // Registered again, erased, and erased again.
    assert_eq!(
        ask(&mut table, &LIST, A, &register("BULK1 02")),
        "11 2 0102 0"
    );
    assert_eq!(holders(&table), [A, A]);
    assert_eq!(ask(&mut table, &LIST, A, &erase("BULK1 02")), "12 2 0102 0");
    assert_eq!(holders(&table), [0, 0]);
    assert_eq!(ask(&mut table, &LIST, A, &erase("BULK1 02")), "12 0 2 0102");
}

#[test]
fn one_unknown_and_one_held_by_another() {
    let mut table = table(&[(F, 0), (F3, B)]);
    assert_eq!(
        ask(&mut table, &LIST, A, &register("BULK2 0203")),
        "11 1 01 2 0203"
    );
    assert_eq!(holders(&table), [A, B]);
}

#[test]
fn none() {
    let mut table = table(&[(F, B), (F2, B)]);
    assert_eq!(
        ask(&mut table, &LIST, A, &register("BULK1 02")),
        "11 0 2 0102"
    );
    assert_eq!(ask(&mut table, &LIST, A, &erase("BULK1 02")), "12 0 2 0102");
    assert_eq!(holders(&table), [B, B]);
    assert_eq!(ask(&mut [], &LIST, A, &register("BULK1 02")), "11 0 2 0102");
}

#[test]
fn ten() {
    let rows: Vec<(u64, u64)> = (0..10).map(|n| (F + n, 0)).collect();
    let mut table = table(&rows);
    let field = "BULK9 020304050607080910";
    let all = "01020304050607080910";
    assert_eq!(
        ask(&mut table, &LIST, A, &register(field)),
        format!("11 10 {all} 0")
    );
    assert_eq!(holders(&table), [A; 10]);
    assert_eq!(
        ask(&mut table, &LIST, B, &erase(field)),
        format!("12 0 10 {all}")
    );
    // Of the longest reply, 28 characters, 25 octets.
    let mut reply = [FILL; 80];
    table[1] = B;
    let answer = request(
        &mut table,
        &LIST,
        &mut reply,
        A,
        0x0F,
        &packed(&erase(field)),
    );
    let Answer::Outcome { octets, .. } = answer else {
        panic!("{answer:?}");
    };
    assert_eq!(
        (octets, packed("12 9 020304050607080910 1 01").len()),
        (25, 25)
    );
    assert_eq!(unpacked(&reply[..octets]), "12 9 020304050607080910 1 01");
    assert_eq!(holders(&table), [B, 0, 0, 0, 0, 0, 0, 0, 0, 0]);
}

#[test]
fn the_lead_alone() {
    let mut table = table(&[(F, 0), (F2, 0)]);
    assert_eq!(ask(&mut table, &LIST, A, &register("BULK0")), "11 1 01 0");
    assert_eq!(holders(&table), [A, 0]);
    assert_eq!(ask(&mut table, &LIST, B, &register("BULK0")), "11 0 1 01");
    assert_eq!(ask(&mut table, &LIST, A, &erase("BULK0")), "12 1 01 0");
    assert_eq!(holders(&table), [0, 0]);
}

#[test]
fn codes_in_the_order_of_the_steps() {
    let mut table = table(&[(F - 1, 0), (F, B), (F2, 0), (F3, B)]);
    assert_eq!(
        ask(&mut table, &LIST, A, &register("BULK4 99020300")),
        "11 2 0200 3 019903"
    );
    assert_eq!(holders(&table), [A, B, A, B]);
}

#[test]
fn a_crew_of_which_she_holds_half() {
    let mut table = table(&[(F, A), (F2, B), (F3, A), (F + 3, 0)]);
    assert_eq!(
        ask(&mut table, &LIST, A, &erase("BULK3 020304")),
        "12 2 0103 2 0204"
    );
    assert_eq!(holders(&table), [0, B, 0, 0]);
}

#[test]
fn outcome_42_before_any_step() {
    let mut table = table(&[(F, C), (F2, 0)]);
    for requester in [C, stored("4915100004")] {
        for string in [register("BULK1 02"), erase("BULK0")] {
            assert_eq!(ask(&mut table, &LIST, requester, &string), "42");
        }
    }
    // One who is no supervisor leads a crew too: 22 cannot come.
    assert_eq!(
        ask(&mut table, &[A, 1], A, &register("BULK1 02")),
        "11 1 02 1 01"
    );
}

#[test]
fn error_36_before_42() {
    let mut table = table(&[(F, A), (F2, 0)]);
    for requester in [A, B, C] {
        for string in [
            register("BULKY GOODS"),
            register("BULK1 01"),
            erase("BULK2 0202"),
            "*#214*0492123401***BULK1 02#".into(),
            "##214*0492123401*88*4915100001*BULK1 02#".into(),
            "**214*0492123402***BULK0#".into(),
        ] {
            assert_eq!(ask(&mut table, &LIST, requester, &string), "Error(36)");
        }
    }
}

#[test]
fn a_tag_that_does_not_stand_at_the_start() {
    let mut table = table(&[(F, 0), (F2, 0)]);
    assert_eq!(ask(&mut table, &LIST, A, &register(" BULK1 02")), "01");
    assert_eq!(holders(&table), [A, 0]);
    let held = "*#214*0492123401***1 BULK1 02#";
    assert_eq!(ask(&mut table, &LIST, B, held), "03 4915100001");
}

#[test]
fn a_step_with_the_requesters_digits() {
    let (lead, requester) = (A, B);
    let mut table = table(&[(lead, 0), (requester, 0)]);
    let string = "**214*4915100001***BULK1 02#";
    assert_eq!(ask(&mut table, &LIST, requester, string), "11 1 01 1 02");
    assert_eq!(holders(&table), [requester, 0]);
    // The digits of the lead's number.
    assert_eq!(ask(&mut table, &LIST, lead, string), "11 1 02 1 01");
    assert_eq!(holders(&table), [requester, lead]);
}

#[test]
fn a_pending_notice_stays() {
    let mut table = [F, 0, 0, 0, 0, 0, 0, F2, 0, 3, A, B, 9, 0];
    assert_eq!(
        ask(&mut table, &LIST, A, &register("BULK1 02")),
        "11 2 0102 0"
    );
    assert_eq!(table, [F, A, 0, 0, 0, 0, 0, F2, A, 3, A, B, 9, 0]);
    assert_eq!(ask(&mut table, &LIST, A, &erase("BULK1 02")), "12 2 0102 0");
    assert_eq!(table, [F, 0, 0, 0, 0, 0, 0, F2, 0, 3, A, B, 9, 0]);
}

#[test]
fn refusals_come_before_the_steps() {
    let mut table = table(&[(F, 0)]);
    let mut reply = [FILL; 80];
    let string = packed(&register("BULK0"));
    let mut at = |table: &mut [u64], list: &[u64], room| {
        request(table, list, &mut reply[..room], A, 0x0F, &string)
    };
    assert_eq!(at(&mut table, &LIST, 79), Answer::Refusal(1));
    assert_eq!(at(&mut table, &[A, 4], 80), Answer::Refusal(8));
    assert_eq!(
        at(&mut [F, 7, 0, 0, 0, 0, 0], &LIST, 80),
        Answer::Refusal(2)
    );
    assert_eq!(holders(&table), [0]);
    assert_eq!(reply, [FILL; 80]);
}
