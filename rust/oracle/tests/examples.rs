//! Document 01's examples P1 to P15 and the lines after them.

mod common;

use common::*;
use oracle::{read_request, unpack, Answer};

#[test]
fn p1_to_p4_packing() {
    assert_eq!(packed("*#"), [0xAA, 0x11]);
    assert_eq!(
        packed("1234567"),
        [0x31, 0xD9, 0x8C, 0x56, 0xB3, 0xDD, 0x1A]
    );
    assert_eq!(
        packed("12345678"),
        [0x31, 0xD9, 0x8C, 0x56, 0xB3, 0xDD, 0x70]
    );
    let mut out = [FILL; 9];
    let octets = [0x31, 0xD9, 0x8C, 0x56, 0xB3, 0xDD, 0x00];
    assert_eq!(unpack(&octets, &mut out), Ok(8));
    assert_eq!(&out, b"1234567\0\xA5");
}

#[test]
fn p5_to_p8_registering_and_erasing() {
    let mut table = [F, 0, 0, 0, 0, 0, 0];
    // P5
    assert_eq!(ask(&mut table, &LIST, A, REGISTER), "01");
    assert_eq!(table, [F, A, 0, 0, 0, 0, 0]);
    // P6
    assert_eq!(ask(&mut table, &LIST, B, REGISTER), "61");
    assert_eq!(ask(&mut table, &LIST, A, REGISTER), "01");
    assert_eq!(table, [F, A, 0, 0, 0, 0, 0]);
    // P7
    assert_eq!(ask(&mut table, &LIST, B, ERASE), "63");
    // P8
    assert_eq!(ask(&mut table, &LIST, B, FORCE_B), "63");
    assert_eq!(table, [F, A, 0, 0, 0, 0, 0]);
    assert_eq!(ask(&mut table, &LIST, B, FORCE_A), "02");
    assert_eq!(table, [F, 0, 1, A, B, 0, 0]);
}

#[test]
fn p9_to_p12_refused_requests() {
    let mut table = [F, A, 0, 0, 0, 0, 0];
    assert_eq!(ask(&mut table, &LIST, A, FORCE_A), "22");
    assert_eq!(ask(&mut table, &LIST, C, INTERROGATE), "42");
    assert_eq!(ask(&mut table, &LIST, A, "**214*492123401***#"), "41");
    assert_eq!(
        ask(&mut table, &LIST, A, "**214*0492123401*88**#"),
        "Error(36)"
    );
}

#[test]
fn p13_a_notice_due_across_the_wrap() {
    let waiting = [F, 0, 3, A, B, 4_294_967_290, 0];
    let mut table = waiting;
    let mut buffer = [FILL; 80];
    assert_eq!(
        sending(&mut table, &mut buffer, F, 60, 53),
        Answer::Refusal(5)
    );
    assert_eq!((table, buffer), (waiting, [FILL; 80]));
    let answer = sending(&mut table, &mut buffer, F, 60, 54);
    assert_eq!(
        answer,
        Answer::Sent {
            addressee: A,
            octets: 28
        }
    );
    assert_eq!(table, [F, 0, 4, A, B, 0, 0]);
    assert_eq!(unpacked(&buffer[..28]), "##214*0492123401*88*4915100002*#");
    assert!(buffer[28..].iter().all(|&octet| octet == FILL));
}

#[test]
fn p14_the_last_two_failures() {
    let mut table = [F, 0, 10, A, B, 0, 0];
    assert_eq!(result(&mut table, F, 5, 777), Answer::Again);
    assert_eq!(table, [F, 0, 11, A, B, 777, 0]);
    let mut table = [F, 0, 12, A, B, 0, 0];
    assert_eq!(result(&mut table, F, 5, 777), Answer::Dropped);
    assert_eq!(table, [F, 0, 0, 0, 0, 0, 0]);
}

#[test]
fn p15_forced_again_before_the_notice_ends() {
    for phase in 1..=12 {
        let mut table = [F, 0, phase, A, B, 0, 0];
        assert_eq!(ask(&mut table, &LIST, A, REGISTER), "01");
        assert_eq!(table, [F, A, phase, A, B, 0, 0]);
        assert_eq!(ask(&mut table, &LIST, B, FORCE_A), "68");
    }
}

#[test]
fn thirteen_and_fourteen_digits() {
    let thirteen = "**214*1234567890123***#";
    let octets = packed(thirteen);
    assert_eq!((thirteen.len(), octets.len()), (23, 21));
    assert_eq!(octets[20] >> 1, 13);
    assert_eq!(
        read_request(&octets).unwrap().number,
        stored("1234567890123")
    );
    let fourteen = "**214*12345678901234***#";
    let octets = packed(fourteen);
    assert_eq!((fourteen.len(), octets.len()), (24, 21));
    assert_eq!(octets[20] >> 1, b'#');
    assert_eq!(
        read_request(&octets).unwrap().number,
        stored("12345678901234")
    );
    for (string, number) in [
        (thirteen, stored("1234567890123")),
        (fourteen, stored("12345678901234")),
    ] {
        let mut table = [number, 0, 0, 0, 0, 0, 0];
        assert_eq!(ask(&mut table, &LIST, A, string), "01");
        assert_eq!(table, [number, A, 0, 0, 0, 0, 0]);
    }
}

#[test]
fn thirty_and_thirty_one_additional_characters() {
    let mut table = [F, 0, 0, 0, 0, 0, 0];
    let with = |additional: &str| format!("**214*0492123401***{additional}#");
    let thirty = with(&"A 7".repeat(10));
    let thirty_one = with(&("A 7".repeat(10) + "Z"));
    assert_eq!(ask(&mut table, &LIST, A, &thirty_one), "Error(36)");
    assert_eq!(ask(&mut table, &LIST, A, &thirty), "01");
}

#[test]
fn a_supervisor_forces_a_number_she_holds() {
    let mut table = [F, B, 0, 0, 0, 0, 0];
    assert_eq!(ask(&mut table, &LIST, B, FORCE_B), "02");
    assert_eq!(table, [F, 0, 0, 0, 0, 0, 0]);
    // A pending notice stays as it is, and there is no 68.
    let mut table = [F, B, 3, A, C, 9, 0];
    assert_eq!(ask(&mut table, &LIST, B, FORCE_B), "02");
    assert_eq!(table, [F, 0, 3, A, C, 9, 0]);
}
