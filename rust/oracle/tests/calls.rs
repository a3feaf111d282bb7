//! Every refusal, error and outcome of the calls, and which comes first where
//! two hold.

mod common;

use common::*;
use oracle::{finding, Answer};

/// A table that is unsound: a holder that is no number.
const UNSOUND: [u64; ROW] = [F, 7, 0, 0, 0, 0, 0];

/// A request with everything open; it must leave table and buffer.
fn untouched(
    table: &[u64],
    list: &[u64],
    room: usize,
    requester: u64,
    scheme: u8,
    string: &[u8],
) -> Answer {
    let mut lent = table.to_vec();
    let mut reply = vec![FILL; room];
    let answer = request(&mut lent, list, &mut reply, requester, scheme, string);
    assert_eq!(lent, table);
    assert_eq!(reply, vec![FILL; room]);
    answer
}

#[test]
fn refusals_of_a_request_in_order() {
    let table = [F, 0, 0, 0, 0, 0, 0];
    let string = packed(REGISTER);
    let bad_list = [A, 4];
    for room in [0, 1, 79] {
        // 1 before 8, 2 and every error.
        for (table, list, requester, scheme) in
            [(&table, &LIST[..], A, 0x0F), (&UNSOUND, &bad_list, 0, 0)]
        {
            assert_eq!(
                untouched(table, list, room, requester, scheme, &string),
                Answer::Refusal(1)
            );
        }
    }
    // 8 before 2, both before 35.
    assert_eq!(
        untouched(&table, &bad_list, 80, A, 0x0F, &string),
        Answer::Refusal(8)
    );
    assert_eq!(
        untouched(&UNSOUND, &bad_list, 80, 0, 0, &string),
        Answer::Refusal(8)
    );
    assert_eq!(
        untouched(&UNSOUND, &LIST, 80, A, 0x0F, &string),
        Answer::Refusal(2)
    );
    assert_eq!(
        untouched(&UNSOUND, &LIST, 80, 0, 0, &string),
        Answer::Refusal(2)
    );
}

#[test]
fn errors_of_a_request_in_order() {
    let table = [F, 0, 0, 0, 0, 0, 0];
    let string = packed(REGISTER);
    let error = |requester, scheme, string: &[u8]| {
        let answer = untouched(&table, &LIST, 80, requester, scheme, string);
        match answer {
            Answer::Error(number) => number,
            _ => panic!("{answer:?}"),
        }
    };
    // A requester that is no number, before the scheme and the string.
    for requester in [
        0,
        A - 10_000_000_000,
        19_999,
        200_000,
        10u64.pow(16),
        u64::MAX,
    ] {
        assert_eq!(error(requester, 0x0F, &string), 35);
        assert_eq!(error(requester, 0x00, &string), 35);
        assert_eq!(error(requester, 0x00, &[]), 35);
        assert_eq!(error(requester, 0x0F, &[0xFF; 161]), 35);
    }
    // The scheme, before the string.
    for scheme in (0..=255).filter(|&scheme| scheme != 0x0F) {
        assert_eq!(error(A, scheme, &string), 71);
        assert_eq!(error(A, scheme, &[]), 71);
        assert_eq!(error(A, scheme, &[0xFF; 161]), 71);
    }
    // No octets.
    assert_eq!(error(A, 0x0F, &[]), 35);
    // Too many octets, unreadable bits, and a string against the rules.
    assert_eq!(error(A, 0x0F, &[0xAA; 161]), 36);
    assert_eq!(error(A, 0x0F, &[0xAA; 160]), 36);
    let mut unreadable = string.clone();
    *unreadable.last_mut().unwrap() |= 0x80;
    assert_eq!(error(A, 0x0F, &unreadable), 36);
    assert_eq!(error(A, 0x0F, &packed("**214*04921***")), 36);
    // All of them before 42.
    assert_eq!(error(C, 0x0F, &packed("**214*04921***")), 36);
    assert_eq!(error(stored("99999"), 0x0F, &unreadable), 36);
}

#[test]
fn outcome_42_comes_first() {
    let supervisor_only = [A, 1, B, 2];
    let mut table = [F, A, 0, 0, 0, 0, 0];
    // Absent, or without Follow Me: even if the number is unknown, or if the
    // erasure is forced by a supervisor without Follow Me.
    for string in [REGISTER, ERASE, INTERROGATE, FORCE_A, "**214*00000***#"] {
        assert_eq!(ask(&mut table, &LIST, C, string), "42");
        assert_eq!(ask(&mut table, &LIST, stored("4915100004"), string), "42");
        assert_eq!(ask(&mut table, &[], A, string), "42");
        assert_eq!(ask(&mut table, &supervisor_only, B, string), "42");
    }
    // Leading zeros count.
    assert_eq!(
        ask(&mut table, &LIST, stored("04915100001"), INTERROGATE),
        "42"
    );
}

#[test]
fn outcome_22_before_41() {
    let mut table = [F, A, 0, 0, 0, 0, 0];
    assert_eq!(ask(&mut table, &LIST, A, FORCE_A), "22");
    assert_eq!(
        ask(&mut table, &LIST, A, "##214*492123401*88*4915100001*#"),
        "22"
    );
    assert_eq!(
        ask(&mut table, &LIST, B, "##214*492123401*88*4915100001*#"),
        "41"
    );
}

#[test]
fn outcome_41() {
    let mut table = [F, A, 0, 0, 0, 0, 0];
    for operation in ["**", "##", "*#"] {
        for digits in ["492123401", "00492123401", "0492123402", "00000"] {
            let string = format!("{operation}214*{digits}***#");
            assert_eq!(ask(&mut table, &LIST, A, &string), "41");
            assert_eq!(ask(&mut [], &LIST, A, &string), "41");
        }
    }
}

#[test]
fn outcome_67_before_61() {
    let string = "**214*4915100001***#";
    for holder in [0, A, B, C] {
        let mut table = [A, holder, 0, 0, 0, 0, 0];
        assert_eq!(ask(&mut table, &LIST, A, string), "67");
    }
    // Only a registration.
    let mut table = [A, A, 0, 0, 0, 0, 0];
    assert_eq!(
        ask(&mut table, &LIST, A, "*#214*4915100001***#"),
        "03 4915100001"
    );
    assert_eq!(ask(&mut table, &LIST, A, "##214*4915100001***#"), "02");
    // Other digits, though the value of the digits is the same.
    let mut table = [stored("04915100001"), 0, 0, 0, 0, 0, 0];
    assert_eq!(ask(&mut table, &LIST, A, "**214*04915100001***#"), "01");
    // The digits of somebody else.
    let mut table = [A, 0, 0, 0, 0, 0, 0];
    assert_eq!(ask(&mut table, &LIST, B, string), "01");
}

#[test]
fn outcomes_61_62_63() {
    // The holder need not be in the list.
    for holder in [B, C, stored("00000")] {
        let mut table = [F, holder, 0, 0, 0, 0, 0];
        assert_eq!(ask(&mut table, &LIST, A, REGISTER), "61");
        assert_eq!(ask(&mut table, &LIST, A, ERASE), "63");
    }
    // With no holder the MSISDN named does not matter.
    for notice in [[0, 0, 0, 0], [1, A, B, 0], [3, A, B, 5]] {
        let mut table = [F, 0, notice[0], notice[1], notice[2], notice[3], 0];
        assert_eq!(ask(&mut table, &LIST, A, ERASE), "62");
        assert_eq!(ask(&mut table, &LIST, A, INTERROGATE), "62");
        assert_eq!(ask(&mut table, &LIST, B, FORCE_A), "62");
        assert_eq!(ask(&mut table, &LIST, B, FORCE_B), "62");
    }
    // A supervisor has no plain erasure, and names the holder she forces off;
    // 63 comes before 68.
    let mut table = [F, A, 1, C, B, 0, 0];
    assert_eq!(ask(&mut table, &LIST, B, ERASE), "63");
    assert_eq!(ask(&mut table, &LIST, B, FORCE_B), "63");
    assert_eq!(
        ask(&mut table, &LIST, B, "##214*0492123401*88*04915100001*#"),
        "63"
    );
    // Also the one that she holds herself.
    let mut table = [F, B, 0, 0, 0, 0, 0];
    assert_eq!(ask(&mut table, &LIST, B, FORCE_A), "63");
}

#[test]
fn outcome_68() {
    for phase in 1..=12 {
        let mut table = [F, A, phase, C, B, 0, 0];
        assert_eq!(ask(&mut table, &LIST, B, FORCE_A), "68");
        let mut table = [F, B, phase, C, A, 0, 0];
        assert_eq!(ask(&mut table, &LIST, B, FORCE_B), "02");
        assert_eq!(table, [F, 0, phase, C, A, 0, 0]);
    }
}

#[test]
fn outcomes_01_and_02_with_a_pending_notice() {
    let mut table = [F, 0, 5, C, B, 99, 0];
    assert_eq!(ask(&mut table, &LIST, A, REGISTER), "01");
    assert_eq!(table, [F, A, 5, C, B, 99, 0]);
    assert_eq!(ask(&mut table, &LIST, A, REGISTER), "01");
    assert_eq!(table, [F, A, 5, C, B, 99, 0]);
    assert_eq!(ask(&mut table, &LIST, A, ERASE), "02");
    assert_eq!(table, [F, 0, 5, C, B, 99, 0]);
}

#[test]
fn a_request_changes_its_own_record_alone() {
    let before = [F - 1, A, 0, 0, 0, 0, 0];
    let after = [F + 1, A, 1, A, B, 0, 0];
    let mut table = [before, [F, 0, 0, 0, 0, 0, 0], after];
    for (requester, string, outcome, record) in [
        (A, REGISTER, "01", [F, A, 0, 0, 0, 0, 0]),
        (B, FORCE_A, "02", [F, 0, 1, A, B, 0, 0]),
        (B, REGISTER, "01", [F, B, 1, A, B, 0, 0]),
        (B, ERASE, "02", [F, 0, 1, A, B, 0, 0]),
    ] {
        assert_eq!(
            ask(table.as_flattened_mut(), &LIST, requester, string),
            outcome
        );
        assert_eq!(table, [before, record, after]);
    }
}

#[test]
fn outcome_03_with_every_count_of_digits() {
    for count in 5..=15 {
        let digits = &"001234567890123"[..count];
        let mut table = [F, stored(digits), 0, 0, 0, 0, 0];
        assert_eq!(
            ask(&mut table, &LIST, A, INTERROGATE),
            format!("03 {digits}")
        );
    }
    // Twelve digits make fifteen characters, with a carriage return after.
    let mut table = [F, stored("123456789012"), 0, 0, 0, 0, 0];
    let mut reply = [FILL; 80];
    let answer = request(&mut table, &LIST, &mut reply, A, 0x0F, &packed(INTERROGATE));
    assert_eq!(
        answer,
        Answer::Outcome {
            number: 3,
            octets: 14,
            msisdn: stored("123456789012")
        }
    );
    assert_eq!(reply[13] >> 1, 13);
}

#[test]
fn refusals_of_a_sending_in_order() {
    let refused = |table: &[u64], room: usize, number, delay, now| {
        let mut lent = table.to_vec();
        let mut buffer = vec![FILL; room];
        let answer = sending(&mut lent, &mut buffer, number, delay, now);
        assert_eq!(lent, table);
        assert_eq!(buffer, vec![FILL; room]);
        match answer {
            Answer::Refusal(number) => number,
            _ => panic!("{answer:?}"),
        }
    };
    let idle = [F, A, 0, 0, 0, 0, 0];
    let waiting = [F, A, 3, A, B, 1000, 0];
    for room in [0, 79] {
        assert_eq!(refused(&UNSOUND, room, 0, 1, 0), 1);
        assert_eq!(refused(&waiting, room, F, 60, 1060), 1);
    }
    assert_eq!(refused(&UNSOUND, 80, 0, 1, 0), 2);
    // Malformed or unknown, before the delay.
    for number in [
        0,
        7,
        F - 10_000_000_000,
        u64::MAX,
        F + 1,
        stored("492123401"),
    ] {
        assert_eq!(refused(&waiting, 80, number, 1, 1060), 7);
        assert_eq!(refused(&[], 80, number, 60, 1060), 7);
    }
    // The delay, before the phase and the time.
    for delay in [1, 59, 601, 65_596, u32::MAX] {
        assert_eq!(refused(&idle, 80, F, delay, 0), 6);
        assert_eq!(refused(&waiting, 80, F, delay, 1000), 6);
        assert_eq!(refused(&waiting, 80, F, delay, 2000), 6);
    }
    for phase in [0, 2, 4, 6, 8, 10, 12] {
        let notice = if phase == 0 { [0, 0] } else { [A, B] };
        let table = [F, A, phase, notice[0], notice[1], 0, 0];
        for delay in [0, 60, 600] {
            assert_eq!(refused(&table, 80, F, delay, 5000), 4);
        }
    }
    for phase in [3, 5, 7, 9, 11] {
        let table = [F, A, phase, A, B, 1000, 0];
        assert_eq!(refused(&table, 80, F, 0, 1000), 5);
        assert_eq!(refused(&table, 80, F, 0, 1299), 5);
        assert_eq!(refused(&table, 80, F, 60, 1059), 5);
        assert_eq!(refused(&table, 80, F, 600, 1599), 5);
    }
}

#[test]
fn sendings() {
    // Phase 1 is due at once, whatever the time; the others after the delay.
    for (phase, failure, delay, now) in [
        (1, 0, 600, 0),
        (1, 0, 0, u32::MAX),
        (3, 1000, 0, 1300),
        (3, 1000, 60, 1060),
        (5, 1000, 60, 1060),
        (7, 1000, 600, 1600),
        (9, 1000, 61, 1061),
        (11, 1000, 60, 1060),
        // A clock set back counts as long elapsed.
        (3, 1000, 600, 999),
        (3, u64::from(u32::MAX), 60, 59),
        (3, 0, 600, u32::MAX),
    ] {
        let other = [F + 1, 0, 1, A, B, 0, 0];
        let mut table = [[F, C, phase, A, B, failure, 0], other];
        let mut buffer = [FILL; 81];
        let answer = sending(table.as_flattened_mut(), &mut buffer, F, delay, now);
        assert_eq!(
            answer,
            Answer::Sent {
                addressee: A,
                octets: 28
            }
        );
        assert_eq!(table, [[F, C, phase + 1, A, B, 0, 0], other]);
        assert_eq!(unpacked(&buffer[..28]), "##214*0492123401*88*4915100002*#");
        assert!(buffer[28..].iter().all(|&octet| octet == FILL));
    }
    // The shortest and the longest notice, and one ended by a carriage return.
    for (number, supervisor, octets) in [
        ("00000", "99999", 20),
        ("999999999999999", "000000000000000", 37),
        ("012345", "123456789012345", 29),
        ("123456789012", "12345678901234", 34),
        ("1234567890123", "12345678901234", 35),
    ] {
        let mut table = [stored(number), 0, 1, A, stored(supervisor), 0, 0];
        let mut buffer = [FILL; 80];
        let answer = sending(&mut table, &mut buffer, stored(number), 0, 0);
        assert_eq!(
            answer,
            Answer::Sent {
                addressee: A,
                octets
            }
        );
        assert_eq!(
            unpacked(&buffer[..octets]),
            format!("##214*{number}*88*{supervisor}*#")
        );
        assert!(buffer[octets..].iter().all(|&octet| octet == FILL));
    }
}

#[test]
fn refusals_of_a_result_in_order() {
    let refused = |table: &[u64], number, kind| {
        let mut lent = table.to_vec();
        let answer = result(&mut lent, number, kind, 5000);
        assert_eq!(lent, table);
        match answer {
            Answer::Refusal(number) => number,
            _ => panic!("{answer:?}"),
        }
    };
    let idle = [F, A, 0, 0, 0, 0, 0];
    let flying = [F, A, 2, A, B, 0, 0];
    assert_eq!(refused(&UNSOUND, 0, 6), 2);
    for number in [0, 7, F + 1, stored("492123401"), u64::MAX] {
        assert_eq!(refused(&flying, number, 6), 7);
        assert_eq!(refused(&flying, number, 0), 7);
        assert_eq!(refused(&[], number, 0), 7);
    }
    for kind in [6, 7, 255, 256, 1 << 31, u32::MAX] {
        assert_eq!(refused(&idle, F, kind), 3);
        assert_eq!(refused(&flying, F, kind), 3);
    }
    for kind in 0..=5 {
        assert_eq!(refused(&idle, F, kind), 4);
        for phase in [1, 3, 5, 7, 9, 11] {
            assert_eq!(refused(&[F, A, phase, A, B, 0, 0], F, kind), 4);
        }
    }
}

#[test]
fn results() {
    let other = [F + 1, 0, 2, A, B, 0, 0];
    for phase in [2, 4, 6, 8, 10, 12] {
        for kind in 0..=5 {
            for now in [0, 5000, u32::MAX] {
                let mut table = [[F, C, phase, A, B, 0, 0], other];
                let (answer, record) = match (kind, phase) {
                    (0, _) => (Answer::Delivered, [F, C, 0, 0, 0, 0, 0]),
                    (5, 2..=10) => (Answer::Again, [F, C, phase + 1, A, B, u64::from(now), 0]),
                    _ => (Answer::Dropped, [F, C, 0, 0, 0, 0, 0]),
                };
                assert_eq!(result(table.as_flattened_mut(), F, kind, now), answer);
                assert_eq!(table, [record, other]);
            }
        }
    }
}

#[test]
fn a_notice_ends_after_six_sendings() {
    let mut table = [F, 0, 1, A, B, 0, 0];
    let mut buffer = [FILL; 80];
    let mut now = u32::MAX - 100;
    for count in 1..=6 {
        let sent = sending(&mut table, &mut buffer, F, 60, now);
        assert!(matches!(sent, Answer::Sent { .. }));
        assert_eq!(table[2], 2 * count);
        let answer = result(&mut table, F, 5, now);
        let last = count == 6;
        assert_eq!(answer, if last { Answer::Dropped } else { Answer::Again });
        now = now.wrapping_add(60);
    }
    assert_eq!(table, [F, 0, 0, 0, 0, 0, 0]);
}

#[test]
fn findings() {
    // 2 before 6, and 6 even if there is nothing to find.
    assert_eq!(finding(&UNSOUND, 1, 0), Answer::Refusal(2));
    for delay in [1, 59, 601, u32::MAX] {
        assert_eq!(finding(&[], delay, 0), Answer::Refusal(6));
        assert_eq!(
            finding(&[F, 0, 1, A, B, 0, 0], delay, 0),
            Answer::Refusal(6)
        );
    }
    assert_eq!(finding(&[], 0, 0), Answer::NoneDue);
    let table = [
        [stored("99999"), 0, 0, 0, 0, 0, 0],
        [stored("000000"), 0, 2, A, B, 0, 0],
        [F - 1, 0, 9, A, B, 4_294_967_290, 0],
        [F, A, 3, A, B, 1000, 0],
        [F + 1, A, 1, A, B, 0, 0],
    ];
    let find = |rows: usize, delay, now| finding(table[..rows].as_flattened(), delay, now);
    assert_eq!(find(5, 60, 54), Answer::Found(F - 1));
    assert_eq!(find(5, 60, 53), Answer::Found(F));
    assert_eq!(find(3, 60, 53), Answer::NoneDue);
    // 0 means 300 seconds.
    assert_eq!(find(3, 0, 293), Answer::NoneDue);
    assert_eq!(find(3, 0, 294), Answer::Found(F - 1));
    assert_eq!(find(3, 61, 54), Answer::NoneDue);
    assert_eq!(find(3, 600, 594), Answer::Found(F - 1));
    assert_eq!(find(4, 60, 4_294_967_290), Answer::Found(F));
    assert_eq!(find(2, 60, 4_294_967_290), Answer::NoneDue);
    // By stored word, 99999 is lower than 000000.
    let both = [
        [stored("99999"), 0, 1, A, B, 0, 0],
        [stored("000000"), 0, 1, A, B, 0, 0],
    ];
    assert_eq!(
        finding(both.as_flattened(), 0, 0),
        Answer::Found(stored("99999"))
    );
}

#[test]
fn unsound_tables_and_lists_of_each_kind() {
    let plain = [F, 0, 0, 0, 0, 0, 0];
    let too_many: Vec<u64> = (F..F + 1025).flat_map(|n| [n, 0, 0, 0, 0, 0, 0]).collect();
    let tables: [&[u64]; 29] = [
        &plain[..5],
        // Rows of six words, as they once were, one and two.
        &plain[..6],
        &[F, 0, 0, 0, 0, 0, F + 1, 0, 0, 0, 0, 0],
        &[F, 0, 0, 0, 0, 0, F + 1],
        &[F, 0, 0, 0, 0, 0, 0, F + 1],
        &too_many,
        &[F, 0, 0, 0, 0, 0, 0, F, 0, 0, 0, 0, 0, 0],
        &[F, 0, 0, 0, 0, 0, 0, F - 1, 0, 0, 0, 0, 0, 0],
        &[0, 0, 0, 0, 0, 0, 0],
        &[492_123_401, 0, 0, 0, 0, 0, 0],
        &[19_999, 0, 0, 0, 0, 0, 0],
        &[10_000_000_000_000_000, 0, 0, 0, 0, 0, 0],
        &[F, 7, 0, 0, 0, 0, 0],
        &[F, 4_915_100_001, 0, 0, 0, 0, 0],
        &[F, 0, 13, A, B, 0, 0],
        &[F, 0, 0, A, 0, 0, 0],
        &[F, 0, 0, 0, B, 0, 0],
        &[F, 0, 0, 0, 0, 1, 0],
        &[F, 0, 1, 0, B, 0, 0],
        &[F, 0, 1, 0, 0, 0, 0],
        &[F, 0, 1, 7, B, 0, 0],
        &[F, 0, 1, A, 7, 0, 0],
        &[F, 0, 1, A, A, 0, 0],
        &[F, 0, 3, A, B, 1 << 32, 0],
        &[F, 0, 1, A, B, 1, 0],
        &[F, 0, 2, A, B, 1, 0],
        &[F, 0, 12, A, B, 1, 0],
        &[F, 0, 0, 0, 0, 0, 2],
        &[F, A, 1, A, B, 0, u64::MAX],
    ];
    let string = packed(INTERROGATE);
    for table in tables {
        let mut lent = table.to_vec();
        let mut buffer = [FILL; 80];
        let refusal = Answer::Refusal(2);
        assert_eq!(untouched(table, &LIST, 80, A, 0x0F, &string), refusal);
        assert_eq!(sending(&mut lent, &mut buffer, F, 0, 0), refusal);
        assert_eq!(result(&mut lent, F, 0, 0), refusal);
        assert_eq!(finding(&lent, 0, 0), refusal);
        assert_eq!(lent, table);
        assert_eq!(buffer, [FILL; 80]);
    }
    let too_many: Vec<u64> = (A..A + 4097).flat_map(|n| [n, 3]).collect();
    let lists: [&[u64]; 9] = [
        &[A],
        &[A, 1, B],
        &too_many,
        &[A, 1, A, 1],
        &[B, 1, A, 1],
        &[0, 1],
        &[4_915_100_001, 1],
        &[A, 4],
        &[A, 1, B, u64::MAX],
    ];
    for list in lists {
        assert_eq!(
            untouched(&plain, list, 80, A, 0x0F, &string),
            Answer::Refusal(8)
        );
    }
    // The most there may be.
    let most: Vec<u64> = too_many[..2 * 4096].to_vec();
    assert_eq!(ask(&mut plain.clone(), &most, A, INTERROGATE), "62");
}
