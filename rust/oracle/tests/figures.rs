//! The three figures beside the table: document 02, M-103. Numbers held, notices
//! waiting, notices in flight.

mod common;

use common::{
    packed, register, A, B, C, ERASE, F, FILL, FORCE_A, FORCE_B, INTERROGATE, LIST, REGISTER, ROW,
};
use oracle::{finding, framed_request, recount, request, result, sending, Answer};

/// A table that is unsound: a holder that is no number.
const UNSOUND: [u64; ROW] = [F, 7, 0, 0, 0, 0, 0];

/// Figures that differ from those of F held by A, which are 1, 0 and 0.
const WRONG: [&[u64]; 9] = [
    &[2, 0, 0],
    &[0, 0, 0],
    &[1, 1, 0],
    &[1, 0, 1],
    &[0, 1, 0],
    &[1 << 32 | 1, 0, 0],
    &[],
    &[1, 0],
    &[1, 0, 0, 0],
];

/// A request with a good buffer and scheme, by its outcome.
fn ask(table: &mut [u64], figures: &mut [u64], requester: u64, string: &str) -> u8 {
    let (reply, string) = (&mut [FILL; 80], packed(string));
    match request(table, figures, &LIST, reply, requester, 0x0F, &string) {
        Answer::Outcome { number, .. } => number,
        other => panic!("{other:?}"),
    }
}

#[test]
fn an_empty_table_and_one_of_each_phase() {
    assert_eq!(recount(&[]), Some([0, 0, 0]));
    assert_eq!(recount(&[F, 0, 0, 0, 0, 0, 0]), Some([0, 0, 0]));
    assert_eq!(recount(&[F, A, 0, 0, 0, 0, 0]), Some([1, 0, 0]));
    assert_eq!(recount(&UNSOUND), None);
    for phase in 1..=12 {
        let (waiting, in_flight) = (phase % 2, 1 - phase % 2);
        let free = [F, 0, phase, A, B, 0, 0];
        let held = [F, C, phase, A, B, 0, 0];
        assert_eq!(recount(&free), Some([0, waiting, in_flight]));
        assert_eq!(recount(&held), Some([1, waiting, in_flight]));
    }
    let phases: Vec<u64> = (1..=12)
        .flat_map(|phase| [F + phase, 0, phase, A, B, 0, 0])
        .collect();
    assert_eq!(recount(&phases), Some([0, 6, 6]));
    assert_eq!(recount(&phases[..11 * ROW]), Some([0, 6, 5]));
}

#[test]
fn registering_and_erasing() {
    let (mut table, mut figures) = ([F, 0, 0, 0, 0, 0, 0], [0, 0, 0]);
    for (requester, string, outcome, held) in [
        (A, INTERROGATE, 62, 0),
        (A, ERASE, 62, 0),
        (C, REGISTER, 42, 0),
        (A, REGISTER, 1, 1),
        // Again by her who holds it, and by another.
        (A, REGISTER, 1, 1),
        (B, REGISTER, 61, 1),
        (B, INTERROGATE, 3, 1),
        (B, ERASE, 63, 1),
        (A, FORCE_A, 22, 1),
        (A, ERASE, 2, 0),
    ] {
        assert_eq!(ask(&mut table, &mut figures, requester, string), outcome);
        assert_eq!(figures, [held, 0, 0], "{string}");
    }
}

#[test]
fn forced_erasures() {
    let (mut table, mut figures) = ([F, A, 0, 0, 0, 0, 0], [1, 0, 0]);
    assert_eq!(ask(&mut table, &mut figures, B, FORCE_B), 63);
    assert_eq!(figures, [1, 0, 0]);
    assert_eq!(ask(&mut table, &mut figures, B, FORCE_A), 2);
    assert_eq!((table, figures), ([F, 0, 1, A, B, 0, 0], [0, 1, 0]));
    // Held again while the notice waits, and not forced off again.
    assert_eq!(ask(&mut table, &mut figures, A, REGISTER), 1);
    assert_eq!(figures, [1, 1, 0]);
    assert_eq!(ask(&mut table, &mut figures, B, FORCE_A), 68);
    assert_eq!(figures, [1, 1, 0]);
    // By the holder herself: no notice is made, and one that is pending stays.
    let (mut table, mut figures) = ([F, B, 0, 0, 0, 0, 0], [1, 0, 0]);
    assert_eq!(ask(&mut table, &mut figures, B, FORCE_B), 2);
    assert_eq!((table, figures), ([F, 0, 0, 0, 0, 0, 0], [0, 0, 0]));
    let (mut table, mut figures) = ([F, B, 2, A, C, 0, 0], [1, 0, 1]);
    assert_eq!(ask(&mut table, &mut figures, B, FORCE_B), 2);
    assert_eq!((table, figures), ([F, 0, 2, A, C, 0, 0], [0, 0, 1]));
}

#[test]
fn a_sending_and_each_kind_of_result() {
    for phase in [1, 3, 5, 7, 9, 11] {
        let (mut table, mut figures) = ([F, C, phase, A, B, 0, 0], [1, 1, 0]);
        let mut buffer = [FILL; 80];
        let sent = sending(&mut table, &mut figures, &mut buffer, F, 60, 100);
        assert!(matches!(sent, Answer::Sent { addressee: A, .. }));
        assert_eq!((table[2], figures), (phase + 1, [1, 0, 1]));
        let again = sending(&mut table, &mut figures, &mut buffer, F, 60, 100);
        assert_eq!((again, figures), (Answer::Refusal(4), [1, 0, 1]));
        for kind in 0..=5 {
            let (mut table, mut figures) = (table, figures);
            let (answer, after) = match (kind, phase) {
                (0, _) => (Answer::Delivered, [1, 0, 0]),
                (5, 1..=9) => (Answer::Again, [1, 1, 0]),
                _ => (Answer::Dropped, [1, 0, 0]),
            };
            assert_eq!(result(&mut table, &mut figures, F, kind, 7), answer);
            assert_eq!(figures, after);
            let refused = result(&mut table, &mut figures, F, kind, 7);
            assert_eq!((refused, figures), (Answer::Refusal(4), after));
        }
    }
}

#[test]
fn a_crew_of_ten() {
    let field = "BULK9 020304050607080910";
    let (registers, erases) = (
        format!("**214*0492123401***{field}#"),
        format!("##214*0492123401***{field}#"),
    );
    let mut table: Vec<u64> = (0..10).flat_map(|n| [F + n, 0, 0, 0, 0, 0, 0]).collect();
    let mut figures = [0, 0, 0];
    for (requester, string, outcome, held) in [
        (A, &registers, 11, 10),
        (A, &registers, 11, 10),
        (B, &registers, 11, 10),
        (B, &erases, 12, 10),
        (C, &erases, 42, 10),
        (A, &erases, 12, 0),
    ] {
        assert_eq!(ask(&mut table, &mut figures, requester, string), outcome);
        assert_eq!(figures, [held, 0, 0]);
    }
    // One held by another, one with a notice, one that is not in the table.
    table.truncate(9 * ROW);
    table[1] = B;
    table[2 * ROW + 2..2 * ROW + 5].copy_from_slice(&[5, A, B]);
    let mut figures = [1, 1, 0];
    assert_eq!(ask(&mut table, &mut figures, A, &registers), 11);
    assert_eq!(figures, [9, 1, 0]);
    assert_eq!(ask(&mut table, &mut figures, A, &erases), 12);
    assert_eq!(figures, [1, 1, 0]);
}

#[test]
fn a_framed_request_counts_as_the_bare_one() {
    let (mut table, mut figures) = ([F, 0, 0, 0, 0, 0, 0], [0, 0, 0]);
    let mut frame = [FILL; 120];
    let mut ask = |figures: &mut [u64], scheme, string: &str| {
        let message = register(0x0B, 1, scheme, &packed(string));
        framed_request(&mut table, figures, &LIST, &mut frame, A, &message)
    };
    let error = Answer::ReturnError {
        code: 71,
        octets: 12,
    };
    assert_eq!(ask(&mut figures, 0, REGISTER), error);
    assert_eq!(figures, [0, 0, 0]);
    for (string, held) in [(REGISTER, 1), (REGISTER, 1), (ERASE, 0)] {
        let answer = ask(&mut figures, 0x0F, string);
        assert!(matches!(answer, Answer::Outcome { .. }));
        assert_eq!(figures, [held, 0, 0]);
    }
}

/// A call that is refused, on a table, figures and a buffer of `room` octets: it
/// must leave all three.
fn refused(
    table: &[u64],
    figures: &[u64],
    room: usize,
    call: impl FnOnce(&mut [u64], &mut [u64], &mut [u8]) -> Answer,
) -> u8 {
    let (mut lent, mut lent_figures) = (table.to_vec(), figures.to_vec());
    let mut buffer = vec![FILL; room];
    let answer = call(&mut lent, &mut lent_figures, &mut buffer);
    assert_eq!((&lent[..], &lent_figures[..]), (table, figures));
    assert_eq!(buffer, vec![FILL; room]);
    match answer {
        Answer::Refusal(number) => number,
        _ => panic!("{answer:?}"),
    }
}

/// 10 stands behind 1, 8 and 2, and before 35.
#[test]
fn requests_with_other_figures() {
    let string = packed(REGISTER);
    let bad_list = [A, 4];
    let said = |table: &[u64], figures: &[u64], list: &[u64], room, requester, scheme| {
        refused(table, figures, room, |table, figures, reply| {
            request(table, figures, list, reply, requester, scheme, &string)
        })
    };
    let held = [F, A, 0, 0, 0, 0, 0];
    for figures in WRONG {
        assert_eq!(said(&held, figures, &LIST, 80, A, 0x0F), 10);
        assert_eq!(said(&held, figures, &LIST, 80, 0, 0), 10);
        assert_eq!(said(&UNSOUND, figures, &LIST, 80, A, 0x0F), 2);
        assert_eq!(said(&held, figures, &bad_list, 80, A, 0x0F), 8);
        assert_eq!(said(&held, figures, &LIST, 79, A, 0x0F), 1);
    }
    // What would answer 41 or 42.
    assert_eq!(said(&[], &[1, 0, 0], &LIST, 80, A, 0x0F), 10);
    assert_eq!(said(&held, &[0, 0, 0], &[], 80, A, 0x0F), 10);
}

/// 10 stands behind 1, 11, 8 and 2, and before a Reject.
#[test]
fn framed_requests_with_other_figures() {
    let good = register(0x0B, 1, 0x0F, &packed(REGISTER));
    let changed = |place: usize, octet| {
        let mut message = good.clone();
        message[place] = octet;
        message
    };
    let said = |table: &[u64], figures: &[u64], list: &[u64], room, message: &[u8]| {
        refused(table, figures, room, |table, figures, frame| {
            framed_request(table, figures, list, frame, A, message)
        })
    };
    let held = [F, A, 0, 0, 0, 0, 0];
    let wrong = changed(1, 0x3B);
    for figures in WRONG {
        for message in [&good, &changed(11, 0x3C), &changed(12, 0x31)] {
            assert_eq!(said(&held, figures, &LIST, 120, message), 10);
            assert_eq!(said(&UNSOUND, figures, &LIST, 120, message), 2);
            assert_eq!(said(&held, figures, &[A, 4], 120, message), 8);
        }
        assert_eq!(said(&held, figures, &LIST, 120, &wrong), 11);
        assert_eq!(said(&held, figures, &LIST, 119, &wrong), 1);
    }
}

/// 10 stands behind 1 and 2, and before 7.
#[test]
fn sendings_and_results_with_other_figures() {
    let send = |table: &[u64], figures: &[u64], room, number| {
        refused(table, figures, room, |table, figures, buffer| {
            sending(table, figures, buffer, number, 0, 100)
        })
    };
    let take = |table: &[u64], figures: &[u64], number, kind| {
        refused(table, figures, 0, |table, figures, _| {
            result(table, figures, number, kind, 100)
        })
    };
    let (waiting, flying) = ([F, 0, 1, A, B, 0, 0], [F, 0, 2, A, B, 0, 0]);
    for figures in [&[0, 0, 0][..], &[1, 1, 1], &[0, 1], &[0, 0, 1, 0], &[]] {
        for number in [F, F + 1, 0] {
            assert_eq!(send(&waiting, figures, 80, number), 10);
            assert_eq!(send(&UNSOUND, figures, 80, number), 2);
            assert_eq!(send(&UNSOUND, figures, 79, number), 1);
            assert_eq!(take(&flying, figures, number, 5), 10);
            assert_eq!(take(&UNSOUND, figures, number, 6), 2);
        }
    }
    // Waiting and in flight exchanged.
    assert_eq!(send(&waiting, &[0, 0, 1], 80, F), 10);
    assert_eq!(take(&flying, &[0, 1, 0], F, 0), 10);
    assert_eq!(send(&[], &[1, 0, 0], 80, F), 10);
    assert_eq!(send(&[], &[0, 0, 0], 80, F), 7);
    assert_eq!(take(&[], &[0, 0, 1], F, 0), 10);
    assert_eq!(take(&[], &[0, 0, 0], F, 0), 7);
    // A finding takes no figures.
    assert_eq!(finding(&waiting, 0, 100), Answer::Found(F));
}
