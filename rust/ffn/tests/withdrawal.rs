//! Withdrawing numbers and reusing their rows: the three calls, outcome 64, every
//! refusal, and what stays.

use ffn::{
    add, c, close, compact, pack, request, Compacted, Figures, FunctionalNumber, Msisdn, Outcome,
    Refusal, BUFFER_ROOM, CODING_SCHEME, MOST_NUMBERS, NUMBER_WORDS,
};

const WORD: u64 = u64::from_ne_bytes([0xEE; 8]);

const F: u64 = 10_492_123_401;
const A: u64 = 14_915_100_001;
const B: u64 = 14_915_100_002;
const LIST: [u64; 4] = [A, 1, B, 3];

const REGISTER: &str = "**214*0492123401***#";
const ERASE: &str = "##214*0492123401***#";

type Row = [u64; NUMBER_WORDS];

fn free(number: u64) -> Row {
    [number, 0, 0, 0, 0, 0, 0]
}

/// A closed number without holder and notice.
fn spent(number: u64) -> Row {
    [number, 0, 0, 0, 0, 0, 1]
}

fn number(word: u64) -> FunctionalNumber {
    FunctionalNumber::from_word(word).unwrap()
}

fn figures(words: [u64; 3]) -> Figures {
    Figures::from_words(words)
}

/// Rows at the front of a buffer, with `behind` words behind them.
fn buffer(rows: &[Row], behind: usize) -> Vec<u64> {
    [rows.as_flattened(), &vec![WORD; behind]].concat()
}

/// A request about the only number of a table.
fn ask(table: &mut [u64], requester: u64, text: &str) -> Outcome {
    let mut string = [0; 80];
    let octets = pack(text.as_bytes(), &mut string).unwrap();
    let mut lent = Figures::recount(table).unwrap();
    let requester = Msisdn::from_word(requester).unwrap();
    let reply = &mut [0; BUFFER_ROOM];
    let string = &string[..octets];
    let done = request(
        table,
        &mut lent,
        &LIST,
        reply,
        requester,
        CODING_SCHEME,
        string,
    );
    done.unwrap().outcome
}

#[test]
fn a_closed_number_is_not_registered() {
    for holder in [0, A, B] {
        let mut table = [F, holder, 0, 0, 0, 0, 1];
        for requester in [A, B] {
            assert_eq!(ask(&mut table, requester, REGISTER), Outcome::Closed);
        }
        assert_eq!(table, [F, holder, 0, 0, 0, 0, 1]);
    }
    assert_eq!(Outcome::Closed.number(), 64);
    // 67 before it, and erasure as before.
    let own = ask(&mut spent(A), A, "**214*4915100001***#");
    assert_eq!(own, Outcome::SameDigits);
    let mut table = [F, A, 0, 0, 0, 0, 1];
    assert_eq!(ask(&mut table, A, ERASE), Outcome::Erased);
    assert_eq!(table, spent(F));
}

#[test]
fn closing() {
    let rows = [[F, A, 0, 0, 0, 0, 0], [F + 1, 0, 3, A, B, 9, 0]];
    let right = figures([1, 1, 0]);
    for place in 0..2 {
        let (mut table, mut after) = (rows, rows);
        after[place][6] = 1;
        for _ in 0..2 {
            let lent = table.as_flattened_mut();
            assert_eq!(close(lent, &right, number(rows[place][0])), Ok(()));
            assert_eq!(table, after);
        }
    }
    let refused = |table: &[u64], figures, word| {
        let mut lent = table.to_vec();
        let said = close(&mut lent, &figures, number(word)).unwrap_err();
        assert_eq!(lent, table);
        said
    };
    let table = rows.as_flattened();
    let wrong = figures([0, 1, 0]);
    assert_eq!(refused(&table[..6], wrong, 7), Refusal::TableUnsound);
    assert_eq!(refused(table, wrong, 7), Refusal::Figures);
    assert_eq!(refused(table, right, 7), Refusal::Number);
    assert_eq!(refused(table, right, F + 2), Refusal::Absent);
    // The word 0 is no number either, and nothing else is named.
    let zero = c::close(&mut table.to_vec(), &[1, 1, 0], 0);
    let refusal = c::Answer {
        class: c::REFUSAL,
        number: 7,
        count: 0,
        value: 0,
    };
    assert_eq!(zero, refusal);
    let closed = c::Answer {
        class: c::CLOSED,
        number: 0,
        count: 0,
        value: 0,
    };
    assert_eq!(c::close(&mut table.to_vec(), &[1, 1, 0], F), closed);
}

#[test]
fn compacting() {
    let kept = [
        free(F),
        [F + 2, A, 0, 0, 0, 0, 1],
        [F + 4, 0, 2, A, B, 0, 1],
        [F + 6, B, 0, 0, 0, 0, 0],
    ];
    let mut rows = kept.to_vec();
    rows.extend([0, 2, 4, 6, 8].map(|n| spent(F - 1 + n)));
    rows.sort();
    let mut words = buffer(&rows, 9);
    let right = Figures::recount(rows.as_flattened()).unwrap();
    let compacted = compact(&mut words, 9, &right);
    assert_eq!(compacted, Ok(Compacted { rows: 4, gone: 5 }));
    let mut after = kept.as_flattened().to_vec();
    after.resize(9 * NUMBER_WORDS, 0);
    after.resize(words.len(), WORD);
    assert_eq!(words, after);
    // Again nothing goes.
    let compacted = compact(&mut words, 4, &right);
    assert_eq!(compacted, Ok(Compacted { rows: 4, gone: 0 }));
    assert_eq!(words, after);
    let answer = c::Answer {
        class: c::ROWS,
        number: 0,
        count: 0,
        value: 1,
    };
    assert_eq!(c::compact(&mut spent(F), 1, &[0; 3]), answer);
}

#[test]
fn adding() {
    let rows = [[F, A, 0, 0, 0, 0, 0], [F + 2, 0, 3, A, B, 7, 1]];
    let right = figures([1, 1, 0]);
    for (word, place) in [(F - 1, 0), (F + 1, 1), (F + 3, 2)] {
        let mut words = buffer(&rows, NUMBER_WORDS + 2);
        assert_eq!(add(&mut words, 2, &right, number(word)), Ok(3));
        let mut after = rows.to_vec();
        after.insert(place, free(word));
        assert_eq!(words, buffer(&after, 2));
    }
    let answer = c::Answer {
        class: c::ROWS,
        number: 0,
        count: 1,
        value: 0,
    };
    assert_eq!(c::add(&mut [WORD; NUMBER_WORDS], 0, &[0; 3], F), answer);
}

/// What both refuse alike, in their order, and what adding refuses behind it.
#[test]
fn refusals_of_rows_in_use() {
    let rows = [[F, A, 0, 0, 0, 0, 0], spent(F + 2)];
    let (right, wrong) = (figures([1, 0, 0]), figures([0, 0, 0]));
    let words = buffer(&rows, 3);
    let mut lent = words.clone();
    // So many rows that seven times as many wrap to as many words as there are.
    let wrapping = words.len().wrapping_mul(0x6DB6_DB6D_B6DB_6DB7);
    for beyond in [3, 17, wrapping, 1 << 61, (1 << 61) + 2, usize::MAX] {
        for figures in [right, wrong] {
            let said = compact(&mut lent, beyond, &figures);
            assert_eq!(said, Err(Refusal::TableUnsound));
            let said = add(&mut lent, beyond, &figures, number(7));
            assert_eq!(said, Err(Refusal::TableUnsound));
        }
    }
    assert_eq!(compact(&mut lent, 2, &wrong), Err(Refusal::Figures));
    assert_eq!(compact(&mut lent, 0, &right), Err(Refusal::Figures));
    assert_eq!(add(&mut lent, 2, &wrong, number(7)), Err(Refusal::Figures));
    assert_eq!(add(&mut lent, 2, &right, number(7)), Err(Refusal::Number));
    for present in [F, F + 2] {
        let said = add(&mut lent, 2, &right, number(present));
        assert_eq!(said, Err(Refusal::Present));
    }
    assert_eq!(add(&mut lent, 2, &right, number(F + 1)), Err(Refusal::Full));
    assert_eq!(lent, words);
    // 1,024 rows, though there is room.
    let most: Vec<Row> = (0..MOST_NUMBERS as u64).map(|n| free(F + 2 * n)).collect();
    let mut words = buffer(&most, NUMBER_WORDS);
    let said = add(&mut words, MOST_NUMBERS, &wrong, number(F + 1));
    assert_eq!(said, Err(Refusal::Full));
    let said = add(&mut words, MOST_NUMBERS, &wrong, number(F));
    assert_eq!(said, Err(Refusal::Present));
    assert_eq!(words, buffer(&most, NUMBER_WORDS));
    // Rows of six words, as they once were.
    let mut old = [&free(F)[..6], &free(F + 1)[..6], &[0; 9]].concat();
    let said = compact(&mut old, 2, &wrong);
    assert_eq!(said, Err(Refusal::TableUnsound));
}

#[test]
fn freed_rows_are_used_again() {
    let mut words = buffer(&[free(F), free(F + 1)], 2);
    let none = Figures::default();
    let table = &mut words[..2 * NUMBER_WORDS];
    assert_eq!(close(table, &none, number(F)), Ok(()));
    let compacted = compact(&mut words, 2, &none);
    assert_eq!(compacted, Ok(Compacted { rows: 1, gone: 1 }));
    assert_eq!(words, buffer(&[free(F + 1), [0; NUMBER_WORDS]], 2));
    assert_eq!(add(&mut words, 1, &none, number(F)), Ok(2));
    assert_eq!(words, buffer(&[free(F), free(F + 1)], 2));
    let table = &mut words[..2 * NUMBER_WORDS];
    assert_eq!(ask(table, A, REGISTER), Outcome::Registered);
}
