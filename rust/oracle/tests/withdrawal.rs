//! Withdrawing numbers and reusing their rows: document 02, M-110.

mod common;

use common::*;
use oracle::generate::{Call, Generator, Reply};
use oracle::{add, close, compact, recount, table_is_sound, Answer};

/// What a word holds before a call.
const WORD: u64 = u64::from_ne_bytes([FILL; 8]);

/// Words that are no numbers.
const MALFORMED: [u64; 7] = [
    0,
    7,
    19_999,
    200_000,
    F - 10_000_000_000,
    10_000_000_000_000_000,
    u64::MAX,
];

/// A table that is unsound: a holder that is no number.
const UNSOUND: [u64; ROW] = [F, 7, 0, 0, 0, 0, 0];

type Row = [u64; ROW];

fn free(number: u64) -> Row {
    [number, 0, 0, 0, 0, 0, 0]
}

/// A closed number without holder and notice.
fn spent(number: u64) -> Row {
    [number, 0, 0, 0, 0, 0, 1]
}

fn gone(in_use: usize, gone: usize) -> Answer {
    Answer::Rows { in_use, gone }
}

fn in_use(in_use: usize) -> Answer {
    gone(in_use, 0)
}

/// The figures of rows, zeros of unsound ones.
fn figures(rows: &[Row]) -> [u64; 3] {
    recount(rows.as_flattened()).unwrap_or_default()
}

/// Rows at the front of a buffer, with `behind` words behind them.
fn buffer(rows: &[Row], behind: usize) -> Vec<u64> {
    [rows.as_flattened(), &vec![WORD; behind]].concat()
}

/// Closes a number; a refusal leaves the table.
fn closed(table: &mut [u64], number: u64) -> Answer {
    let (before, figures) = (table.to_vec(), recount(table).unwrap_or_default());
    let answer = close(table, &figures, number);
    if answer != Answer::Closed {
        assert_eq!(table, before);
    }
    answer
}

/// Compacts rows in a larger buffer, and returns what its words are then.
fn compacted(rows: &[Row]) -> (Answer, Vec<u64>) {
    let mut words = buffer(rows, ROW + 3);
    let answer = compact(&mut words, rows.len(), &figures(rows));
    let behind = words.split_off(rows.as_flattened().len());
    assert_eq!(behind, [WORD; ROW + 3]);
    (answer, words)
}

/// Adds to rows in a larger buffer, and returns what its first words are then.
fn added(rows: &[Row], number: u64) -> (Answer, Vec<u64>) {
    let mut words = buffer(rows, ROW + 3);
    let answer = add(&mut words, rows.len(), &figures(rows), number);
    let behind = words.split_off(rows.as_flattened().len() + ROW);
    assert_eq!(behind, [WORD; 3]);
    (answer, words)
}

/// Registration of a closed number is 64, whoever holds it and whoever asks,
/// directly after 67.
#[test]
fn a_closed_number_is_not_registered() {
    for holder in [0, A, B, C, stored("00000")] {
        for notice in [[0, 0, 0, 0], [1, A, B, 0], [2, C, B, 0], [3, A, B, 5]] {
            let row = |closed| {
                let [phase, addressee, supervisor, failure] = notice;
                [F, holder, phase, addressee, supervisor, failure, closed]
            };
            let mut table = row(1);
            for requester in [A, B] {
                assert_eq!(ask(&mut table, &LIST, requester, REGISTER), "64");
                assert_eq!(table, row(1));
            }
            // 42 and 41 come before it.
            assert_eq!(ask(&mut table, &LIST, C, REGISTER), "42");
            assert_eq!(ask(&mut table, &LIST, A, "**214*492123401***#"), "41");
            // The neighbour: an open number.
            let mut table = row(0);
            let said = if [0, A].contains(&holder) { "01" } else { "61" };
            assert_eq!(ask(&mut table, &LIST, A, REGISTER), said);
        }
        let mut own = [A, holder, 0, 0, 0, 0, 1];
        assert_eq!(ask(&mut own, &LIST, A, "**214*4915100001***#"), "67");
        assert_eq!(ask(&mut own, &LIST, B, "**214*4915100001***#"), "64");
    }
}

#[test]
fn closed_numbers_of_a_crew() {
    let register = "**214*0492123401***BULK3 020304#";
    let erase = "##214*0492123401***BULK3 020304#";
    let mut table = [
        spent(F),
        free(F + 1),
        [F + 2, A, 0, 0, 0, 0, 1],
        [F + 3, B, 0, 0, 0, 0, 1],
    ];
    let lent = table.as_flattened_mut();
    assert_eq!(ask(lent, &LIST, A, register), "11 1 02 3 010304");
    assert_eq!(ask(lent, &LIST, A, erase), "12 2 0203 2 0104");
    let after = [
        spent(F),
        free(F + 1),
        spent(F + 2),
        [F + 3, B, 0, 0, 0, 0, 1],
    ];
    assert_eq!(table, after);
}

/// All other calls go on as they are, and leave the word.
#[test]
fn a_withdrawn_number_runs_out() {
    let mut table = [F, A, 0, 0, 0, 0, 0];
    assert_eq!(closed(&mut table, F), Answer::Closed);
    assert_eq!(table, [F, A, 0, 0, 0, 0, 1]);
    assert_eq!(ask(&mut table, &LIST, B, INTERROGATE), "03 4915100001");
    assert_eq!(ask(&mut table, &LIST, B, ERASE), "63");
    assert_eq!(ask(&mut table, &LIST, A, FORCE_A), "22");
    assert_eq!(ask(&mut table, &LIST, B, FORCE_B), "63");
    assert_eq!(ask(&mut table, &LIST, B, FORCE_A), "02");
    assert_eq!(table, [F, 0, 1, A, B, 0, 1]);
    assert_eq!(ask(&mut table, &LIST, A, REGISTER), "64");
    let mut octets = [FILL; 80];
    for now in [100, 160] {
        assert_eq!(oracle::finding(&table, 60, now), Answer::Found(F));
        let sent = sending(&mut table, &mut octets, F, 60, now);
        assert!(matches!(sent, Answer::Sent { addressee: A, .. }));
        assert_eq!(result(&mut table, F, 5, now), Answer::Again);
        assert_eq!(table[6], 1);
    }
    assert!(matches!(
        sending(&mut table, &mut octets, F, 60, 220),
        Answer::Sent { .. }
    ));
    assert_eq!(result(&mut table, F, 0, 220), Answer::Delivered);
    assert_eq!(table, spent(F));
    for string in [ERASE, INTERROGATE] {
        assert_eq!(ask(&mut table, &LIST, A, string), "62");
    }
    assert_eq!(ask(&mut table, &LIST, A, REGISTER), "64");
    // Erased by its holder, and by its own subscriber.
    let mut table = [F, A, 0, 0, 0, 0, 1];
    assert_eq!(ask(&mut table, &LIST, A, ERASE), "02");
    assert_eq!(table, spent(F));
    let mut table = [A, B, 0, 0, 0, 0, 1];
    assert_eq!(ask(&mut table, &LIST, A, "##214*4915100001***#"), "02");
    assert_eq!(table, spent(A));
}

#[test]
fn closing() {
    let rows = [
        [F - 1, A, 0, 0, 0, 0, 0],
        [F, B, 3, A, C, 9, 0],
        [F + 1, 0, 2, A, B, 0, 1],
    ];
    for place in 0..rows.len() {
        let (mut table, mut after) = (rows, rows);
        after[place][6] = 1;
        for _ in 0..2 {
            // Again it changes nothing.
            let number = rows[place][0];
            assert_eq!(closed(table.as_flattened_mut(), number), Answer::Closed);
            assert_eq!(table, after);
        }
    }
}

#[test]
fn closing_is_refused_in_order() {
    let held = [F, A, 0, 0, 0, 0, 0];
    let refused = |table: &[u64], figures: &[u64], number| {
        let mut lent = table.to_vec();
        let answer = close(&mut lent, figures, number);
        assert_eq!(lent, table);
        match answer {
            Answer::Refusal(number) => number,
            _ => panic!("{answer:?}"),
        }
    };
    for number in [F, F + 1, 0] {
        for table in [&UNSOUND[..], &held[..6], &[F, 0, 0, 0, 0, 0, 2]] {
            assert_eq!(refused(table, &[0, 0, 0], number), 2);
            assert_eq!(refused(table, &[], number), 2);
        }
        for wrong in [&[0, 0, 0][..], &[1, 0], &[1, 0, 0, 0], &[1, 1, 0], &[]] {
            assert_eq!(refused(&held, wrong, number), 10);
        }
        assert_eq!(refused(&[], &[1, 0, 0], number), 10);
    }
    for number in MALFORMED {
        assert_eq!(refused(&held, &[1, 0, 0], number), 7);
        assert_eq!(refused(&[], &[0, 0, 0], number), 7);
    }
    for number in [F - 1, F + 1, stored("492123401"), stored("00492123401")] {
        assert_eq!(refused(&held, &[1, 0, 0], number), 52);
        assert_eq!(refused(&[], &[0, 0, 0], number), 52);
    }
}

/// Exactly the closed rows with neither holder nor notice go.
#[test]
fn compacting() {
    let kept = [
        free(F),
        [F + 2, A, 0, 0, 0, 0, 1],
        [F + 4, 0, 1, A, B, 0, 1],
        [F + 6, 0, 12, A, B, 0, 1],
        [F + 8, B, 3, A, B, 7, 1],
        [F + 10, B, 0, 0, 0, 0, 0],
        [F + 12, 0, 5, A, B, 7, 0],
    ];
    // None of them, and one before, behind or between.
    assert_eq!(compacted(&kept), (in_use(7), kept.as_flattened().to_vec()));
    for place in 0..=kept.len() {
        let mut rows = kept.to_vec();
        rows.insert(place, spent(F - 1 + 2 * place as u64));
        let after = [kept.as_flattened(), &[0; ROW]].concat();
        assert_eq!(compacted(&rows), (gone(7, 1), after));
    }
    // One before, behind and between all of them.
    let mut rows: Vec<Row> = kept.to_vec();
    rows.extend((0..8).map(|n| spent(F - 1 + 2 * n)));
    rows.sort();
    let after = [kept.as_flattened(), &[0; 8 * ROW]].concat();
    assert_eq!(compacted(&rows), (gone(7, 8), after));
    // No rows, and none left.
    assert_eq!(compacted(&[]), (in_use(0), vec![]));
    assert_eq!(compacted(&[spent(F)]), (gone(0, 1), vec![0; ROW]));
    let all: Vec<Row> = (0..1024).map(|n| spent(F + n)).collect();
    assert_eq!(compacted(&all), (gone(0, 1024), vec![0; 1024 * ROW]));
}

#[test]
fn compacting_exactly_the_words() {
    let mut words = [spent(F), free(F + 1)].concat();
    assert_eq!(compact(&mut words, 2, &[0; 3]), gone(1, 1));
    assert_eq!(words, [free(F + 1), [0; ROW]].concat());
    assert_eq!(compact(&mut [], 0, &[0; 3]), in_use(0));
    // Fewer rows in use than there are: the others lie behind.
    let mut words = [spent(F), spent(F + 1), UNSOUND].concat();
    assert_eq!(compact(&mut words, 1, &[0; 3]), gone(0, 1));
    assert_eq!(words, [[0; ROW], spent(F + 1), UNSOUND].concat());
}

/// Counts of rows beyond the words, among them those whose words or octets wrap.
fn beyond(words: usize) -> Vec<usize> {
    // Seven times this wraps to 1.
    let inverse: usize = 0x6DB6_DB6D_B6DB_6DB7;
    assert_eq!(inverse.wrapping_mul(ROW), 1);
    let mut counts = vec![
        words / ROW + 1,
        words / ROW + 2,
        words,
        usize::MAX,
        usize::MAX / ROW,
        usize::MAX / ROW + 1,
        1 << 32,
        1 << 61,
        (1 << 61) + words / ROW,
        1 << 63,
    ];
    let wrapping = (0..=words).map(|words| words.wrapping_mul(inverse));
    counts.extend(wrapping.filter(|&count| count > words));
    counts.retain(|&count| count > words / ROW);
    counts
}

/// What compacting and adding refuse alike; neither changes a word.
#[test]
fn rows_in_use_are_refused_in_order() {
    let refused = |words: &[u64], rows, figures: &[u64], expected| {
        let mut lent = words.to_vec();
        let said = Answer::Refusal(expected);
        assert_eq!(compact(&mut lent, rows, figures), said, "{rows}");
        for number in [F, F + 5, 0] {
            assert_eq!(add(&mut lent, rows, figures, number), said, "{rows}");
        }
        assert_eq!(lent, words);
    };
    let rows = [[F, A, 0, 0, 0, 0, 0], spent(F + 1)];
    let right = [1, 0, 0];
    for behind in 0..2 * ROW {
        let words = buffer(&rows, behind);
        for rows in beyond(words.len()) {
            refused(&words, rows, &right, 2);
            refused(&words, rows, &[], 2);
        }
        for wrong in [&[0, 0, 0][..], &[1, 0], &[1, 0, 0, 0], &[1, 1, 0], &[]] {
            refused(&words, 2, wrong, 10);
        }
        // The figures are those of the rows in use.
        refused(&words, 0, &right, 10);
    }
    for wrong in [&right[..], &[0; 3], &[]] {
        refused(&buffer(&[UNSOUND], 9), 1, wrong, 2);
        refused(&buffer(&[spent(F + 1), spent(F)], 9), 2, wrong, 2);
        refused(&buffer(&[[F, 0, 0, 0, 0, 0, 2]], 9), 1, wrong, 2);
        // What lies behind the rows in use is no row.
        refused(&buffer(&rows, ROW), 3, wrong, 2);
    }
    // Rows of six words, two of them where the count is above 1.
    let old = [&free(F)[..6], &free(F + 1)[..6], &[0; 9]].concat();
    refused(&old, 2, &[0; 3], 2);
    // Over 1,024 rows.
    let many: Vec<Row> = (0..1025).map(|n| free(F + 10 + n)).collect();
    refused(&buffer(&many, ROW), 1025, &[0; 3], 2);
}

#[test]
fn adding() {
    let rows = [
        [F, A, 0, 0, 0, 0, 0],
        [F + 2, 0, 3, A, B, 7, 1],
        [F + 4, B, 0, 0, 0, 0, 1],
    ];
    for (number, place) in [
        (stored("00000"), 0),
        (F - 1, 0),
        (F + 1, 1),
        (F + 3, 2),
        (F + 5, 3),
        (stored("999999999999999"), 3),
    ] {
        let mut after = rows.to_vec();
        after.insert(place, free(number));
        let after = after.as_flattened().to_vec();
        assert!(table_is_sound(&after));
        assert_eq!(added(&rows, number), (in_use(4), after));
    }
    assert_eq!(added(&[], F), (in_use(1), free(F).to_vec()));
    // Room for one row exactly.
    let mut words = vec![WORD; ROW];
    assert_eq!(add(&mut words, 0, &[0; 3], F), in_use(1));
    assert_eq!(words, free(F));
}

#[test]
fn adding_is_refused_in_order() {
    let refused = |rows: &[Row], behind, number| {
        let words = buffer(rows, behind);
        let mut lent = words.clone();
        let answer = add(&mut lent, rows.len(), &figures(rows), number);
        assert_eq!(lent, words);
        match answer {
            Answer::Refusal(number) => number,
            _ => panic!("{answer:?}"),
        }
    };
    let most: Vec<Row> = (0..1024).map(|n| free(F + 2 * n)).collect();
    let rows = [free(F), spent(F + 2), [F + 4, A, 0, 0, 0, 0, 1]];
    for behind in [0, 1, ROW - 1, ROW, 3 * ROW] {
        for rows in [&most[..], &most[..1023], &rows, &[]] {
            for number in MALFORMED {
                assert_eq!(refused(rows, behind, number), 7);
            }
        }
        // Already there, open or closed, also where there is no room.
        for number in [F, F + 2, F + 4] {
            assert_eq!(refused(&rows, behind, number), 51);
            assert_eq!(refused(&most, behind, number), 51);
        }
        // 1,024 rows, whatever the room.
        for number in [F - 1, F + 1, F + 2048] {
            assert_eq!(refused(&most, behind, number), 50);
        }
    }
    for behind in 0..ROW {
        for rows in [&most[..1023], &rows, &rows[..1], &[]] {
            assert_eq!(refused(rows, behind, F + 1), 50);
        }
    }
    assert_eq!(added(&most[..1023], F + 1).0, in_use(1024));
}

/// A row is freed, and used again for the same number and for others.
#[test]
fn freed_rows_are_used_again() {
    let mut words = buffer(&[free(F), [F + 1, 0, 2, A, B, 0, 0], free(F + 2)], 2);
    let none = [0, 0, 1];
    assert_eq!(close(&mut words[..3 * ROW], &none, F), Answer::Closed);
    assert_eq!(add(&mut words, 3, &none, F), Answer::Refusal(51));
    assert_eq!(add(&mut words, 3, &none, F + 3), Answer::Refusal(50));
    assert_eq!(compact(&mut words, 3, &none), gone(2, 1));
    assert_eq!(words[2 * ROW..], [&[0; ROW][..], &[WORD; 2]].concat());
    assert_eq!(compact(&mut words, 2, &none), in_use(2));
    assert_eq!(add(&mut words, 2, &none, F), in_use(3));
    let rows = [free(F), [F + 1, 0, 2, A, B, 0, 0], free(F + 2)];
    assert_eq!(words, buffer(&rows, 2));
    // The same number is open again.
    let (table, _) = words.split_at_mut(3 * ROW);
    assert_eq!(ask(table, &LIST, A, REGISTER), "01");
    assert_eq!(ask(table, &LIST, A, ERASE), "02");
    assert_eq!(close(table, &none, F + 2), Answer::Closed);
    assert_eq!(compact(&mut words, 3, &none), gone(2, 1));
    assert_eq!(add(&mut words, 2, &none, F - 1), in_use(3));
    let rows = [free(F - 1), free(F), [F + 1, 0, 2, A, B, 0, 0]];
    assert_eq!(words, buffer(&rows, 2));
}

/// Along any calls a closed number gets no new holder, and one that is spent
/// stays as it is.
#[test]
fn closed_numbers_along_calls() {
    let mut generator = Generator::new(110);
    let (mut closings, mut erased, mut ended) = (0, 0, 0);
    for _ in 0..400 {
        let mut along = generator.along();
        for _ in 0..100 {
            let mut call = generator.call_along(&along);
            let Reply::Answer(answer) = call.run() else {
                unreachable!("{call:?}");
            };
            if let (Call::Close { .. }, Answer::Closed) = (&call, answer) {
                closings += 1;
            }
            let (table, figures) = call.left(&along).unwrap();
            for (old, new) in along.table.chunks(ROW).zip(table.chunks(ROW)) {
                if old[6] == 0 {
                    continue;
                }
                assert_eq!(new[6], 1);
                assert!(new[1] == 0 || new[1] == old[1], "{call:?}");
                erased += u64::from(new[1] != old[1]);
                ended += u64::from(old[2] != 0 && new[2] == 0);
                if old[1] == 0 && old[2] == 0 {
                    assert_eq!(new, old);
                }
            }
            (along.table, along.figures) = (table.to_vec(), figures.to_vec());
        }
    }
    assert!(closings > 100 && erased > 100 && ended > 100);
}
