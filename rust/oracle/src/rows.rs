//! The lent table and list: their rows, whether they are sound, and lookup.

use std::borrow::Borrow;
use std::ops::Range;

use crate::number::{is_number, Ascent};

/// One number's record.
pub(crate) type Record = [u64; RECORD_WORDS];
pub(crate) const RECORD_WORDS: usize = 7;

/// One subscriber: MSISDN and flags.
pub(crate) type Subscriber = [u64; SUBSCRIBER_WORDS];
pub(crate) const SUBSCRIBER_WORDS: usize = 2;

/// The words of a record.
pub(crate) const NUMBER: usize = 0;
pub(crate) const HOLDER: usize = 1;
pub(crate) const PHASE: usize = 2;
pub(crate) const ADDRESSEE: usize = 3;
pub(crate) const SUPERVISOR: usize = 4;
pub(crate) const FAILURE: usize = 5;
pub(crate) const CLOSED: usize = 6;

/// The supervisor of a notice that the terminal at the node made.
pub(crate) const NOBODY: u64 = 0;

/// The words of a record's notice: 0 where it has none.
pub(crate) const NOTICE: Range<usize> = PHASE..FAILURE + 1;

/// The most rows of a table and of a list.
pub(crate) const MAX_RECORDS: usize = 1024;
pub(crate) const MAX_SUBSCRIBERS: usize = 4096;

/// The flags of a subscriber.
pub(crate) const HAS_FOLLOW_ME: u64 = 1;
pub(crate) const IS_SUPERVISOR: u64 = 2;

/// A notice's sendings: one, and five repeats.
const MAX_SENDINGS: usize = 6;

/// The figures beside a table: numbers held, notices waiting, notices in flight.
pub(crate) const FIGURES: usize = 3;

/// The phase after the last sending.
pub(crate) const LAST_PHASE: u64 = 2 * MAX_SENDINGS as u64;

/// The largest second of a last failure by phase: any where one is kept,
/// otherwise 0.
const LARGEST_FAILURE: [u64; 2 * MAX_SENDINGS + 1] = {
    let mut largest = [0; 2 * MAX_SENDINGS + 1];
    let mut phase = 3;
    while phase < 2 * MAX_SENDINGS {
        largest[phase] = u32::MAX as u64;
        phase += 2;
    }
    largest
};

/// Whether `table` is sound: whole records, not too many, strictly ascending,
/// each sound by itself.
pub fn table_is_sound(table: &[u64]) -> bool {
    let (records, rest) = table.as_chunks();
    rest.is_empty() && records.len() <= MAX_RECORDS && records_are_sound(records)
}

/// Whether records ascend strictly, and each is sound by itself.
pub(crate) fn records_are_sound(records: impl IntoIterator<Item = impl Borrow<Record>>) -> bool {
    let mut ascent = Ascent::new();
    for record in records {
        let record = record.borrow();
        if !ascent.rises_to(record[NUMBER]) || !record_is_sound(record) {
            return false;
        }
    }
    true
}

/// Whether a record's words after the first are sound.
#[inline]
fn record_is_sound(record: &Record) -> bool {
    let &[_, holder, phase, addressee, supervisor, failure, closed] = record;
    if closed > 1 || holder != 0 && !is_number(holder) {
        return false;
    }
    if phase == 0 {
        return addressee | supervisor | failure == 0;
    }
    phase <= LAST_PHASE
        && failure <= LARGEST_FAILURE[phase as usize]
        && is_number(addressee)
        && (supervisor == NOBODY || is_number(supervisor) && supervisor != addressee)
}

/// The figures of `table`, if it is sound.
pub fn recount(table: &[u64]) -> Option<[u64; FIGURES]> {
    sound_records(table).map(figures_of)
}

/// The figures of sound records. A notice waits in an odd phase and is in flight
/// in an even one above 0.
pub(crate) fn figures_of(records: &[Record]) -> [u64; FIGURES] {
    let (mut held, mut waiting, mut in_flight) = (0, 0, 0);
    for record in records {
        if record[HOLDER] != 0 {
            held += 1;
        }
        match record[PHASE] {
            0 => {}
            phase if phase % 2 == 1 => waiting += 1,
            _ => in_flight += 1,
        }
    }
    [held, waiting, in_flight]
}

/// Whether `list` is sound: whole rows, not too many, strictly ascending,
/// flags 0 to 3.
pub fn list_is_sound(list: &[u64]) -> bool {
    let (rows, rest) = list.as_chunks();
    rest.is_empty() && rows.len() <= MAX_SUBSCRIBERS && subscribers_are_sound(rows)
}

/// Whether subscribers ascend strictly, with flags 0 to 3.
pub(crate) fn subscribers_are_sound(
    rows: impl IntoIterator<Item = impl Borrow<Subscriber>>,
) -> bool {
    let mut ascent = Ascent::new();
    for row in rows {
        let &[msisdn, flags] = row.borrow();
        if !ascent.rises_to(msisdn) || flags > 3 {
            return false;
        }
    }
    true
}

/// The records of `table`, if it is sound.
pub(crate) fn sound_records(table: &[u64]) -> Option<&[Record]> {
    table_is_sound(table).then_some(table.as_chunks().0)
}

/// The records of `table`, if it is sound, for a change.
pub(crate) fn sound_records_mut(table: &mut [u64]) -> Option<&mut [Record]> {
    table_is_sound(table).then_some(table.as_chunks_mut().0)
}

/// The record of an open number without holder and notice.
pub(crate) fn free_record(number: u64) -> Record {
    let mut record = [0; RECORD_WORDS];
    record[NUMBER] = number;
    record
}

/// Where `number` stands in a sound table, or where it would.
pub(crate) fn find_place(records: &[Record], number: u64) -> Result<usize, usize> {
    records.binary_search_by_key(&number, |record| record[NUMBER])
}

/// The record of `number` in a sound table.
pub(crate) fn find_record(records: &mut [Record], number: u64) -> Option<&mut Record> {
    let place = find_place(records, number).ok()?;
    Some(&mut records[place])
}

/// The flags of `msisdn` in a sound list, none if it is absent.
pub(crate) fn find_flags(list: &[u64], msisdn: u64) -> u64 {
    let rows: &[Subscriber] = list.as_chunks().0;
    match rows.binary_search_by_key(&msisdn, |row| row[0]) {
        Ok(place) => rows[place][1],
        Err(_) => 0,
    }
}

#[cfg(test)]
mod tests {
    use super::*;

    const F: u64 = 10_492_123_401;
    const A: u64 = 14_915_100_001;
    const B: u64 = 14_915_100_002;

    fn sound(record: Record) -> bool {
        // Between two plain neighbours, at the start, at the end, and alone.
        let before = [F - 1, 0, 0, 0, 0, 0, 0];
        let after = [F + 1, A, 0, 0, 0, 0, 0];
        let alone = table_is_sound(&record);
        for table in [
            &[before, record, after][..],
            &[record, after],
            &[before, record],
        ] {
            assert_eq!(table_is_sound(table.as_flattened()), alone);
        }
        alone
    }

    #[test]
    fn sound_tables() {
        assert!(table_is_sound(&[]));
        assert!(sound([F, 0, 0, 0, 0, 0, 0]));
        assert!(sound([F, A, 0, 0, 0, 0, 0]));
        // A holder may have the number's own digits or be in the notice.
        assert!(sound([F, F, 1, F, A, 0, 0]));
        for phase in 1..=12 {
            assert!(sound([F, 0, phase, A, B, 0, 0]));
            assert!(sound([F, A, phase, A, B, 0, 0]));
            assert!(sound([F, B, phase, A, B, 0, 0]));
        }
        for phase in [3, 5, 7, 9, 11] {
            assert!(sound([F, 0, phase, A, B, 1, 0]));
            assert!(sound([F, 0, phase, A, B, u64::from(u32::MAX), 0]));
        }
    }

    #[test]
    fn unsound_records() {
        const MALFORMED: [u64; 6] = [1, 19_999, 99_999, 200_000, 10u64.pow(16), u64::MAX];
        for word in MALFORMED {
            assert!(!table_is_sound(&[word, 0, 0, 0, 0, 0, 0]));
            assert!(!sound([F, word, 0, 0, 0, 0, 0]));
            assert!(!sound([F, 0, 1, word, B, 0, 0]));
            assert!(!sound([F, 0, 1, A, word, 0, 0]));
        }
        assert!(!table_is_sound(&[0; RECORD_WORDS]));
        for phase in 1..=12 {
            assert!(!sound([F, 0, phase, 0, B, 0, 0]));
            assert!(!sound([F, 0, phase, 0, 0, 0, 0]));
            assert!(!sound([F, 0, phase, A, A, 0, 0]));
            assert!(!sound([F, 0, phase, A, B, 1 << 32, 0]));
            assert!(!sound([F, 0, phase, A, B, u64::MAX, 0]));
        }
        for phase in [13, 14, 15, 255, 256, 1 << 32, (1 << 32) + 3, u64::MAX] {
            assert!(!sound([F, 0, phase, A, B, 0, 0]));
            assert!(!sound([F, 0, phase, 0, 0, 0, 0]));
        }
        for phase in [1, 2, 4, 6, 8, 10, 12] {
            assert!(!sound([F, 0, phase, A, B, 1, 0]));
        }
        assert!(!sound([F, 0, 0, A, 0, 0, 0]));
        assert!(!sound([F, 0, 0, 0, B, 0, 0]));
        assert!(!sound([F, 0, 0, A, B, 0, 0]));
        assert!(!sound([F, 0, 0, 0, 0, 1, 0]));
    }

    /// A notice may be from nobody, the terminal, but never to nobody.
    #[test]
    fn notices_from_the_terminal() {
        for phase in 1..=12 {
            for (holder, closed) in [(0, 0), (A, 0), (B, 1)] {
                let row = |to, failure| [F, holder, phase, to, 0, failure, closed];
                assert!(sound(row(A, 0)) && sound(row(B, 0)));
                assert!(!sound(row(0, 0)) && !sound(row(7, 0)));
                let keeps_failure = phase > 1 && phase % 2 == 1;
                assert_eq!(sound(row(A, 1)), keeps_failure);
                assert!(!sound(row(A, 1 << 32)));
            }
        }
        assert!(!sound([F, 0, 13, A, 0, 0, 0]));
    }

    #[test]
    fn the_seventh_word() {
        for holder in [0, A] {
            for phase in 0..=12 {
                let notice = if phase == 0 { [0, 0] } else { [A, B] };
                let row = |closed| [F, holder, phase, notice[0], notice[1], 0, closed];
                assert!(sound(row(0)) && sound(row(1)));
                for word in [
                    2,
                    3,
                    255,
                    256,
                    257,
                    1 << 32,
                    (1 << 32) + 1,
                    1 << 63,
                    u64::MAX,
                ] {
                    assert!(!sound(row(word)));
                }
            }
        }
        // A closed row without a notice keeps the rules of one.
        assert!(!sound([F, 0, 0, A, 0, 0, 1]));
        assert!(!sound([F, 0, 0, 0, B, 0, 1]));
        assert!(!sound([F, 0, 0, 0, 0, 1, 1]));
        assert!(!sound([F, 7, 0, 0, 0, 0, 1]));
    }

    #[test]
    fn unsound_orders_and_lengths() {
        let plain = |number| [number, 0, 0, 0, 0, 0, 0];
        let two = |first, second| table_is_sound([plain(first), plain(second)].as_flattened());
        assert!(two(F, F + 1));
        assert!(!two(F, F));
        assert!(!two(F + 1, F));
        // 99999 stands before 000000.
        assert!(two(199_999, 1_000_000));
        assert!(!two(1_000_000, 199_999));
        let words = [plain(F), plain(F + 1)];
        for length in 0..2 * RECORD_WORDS {
            let table = &words.as_flattened()[..length];
            assert_eq!(table_is_sound(table), length % RECORD_WORDS == 0);
        }
        let rows: Vec<Record> = (F..F + 1025).map(plain).collect();
        assert!(table_is_sound(rows[..1024].as_flattened()));
        assert!(!table_is_sound(rows.as_flattened()));
    }

    #[test]
    fn figures() {
        assert_eq!(recount(&[]), Some([0, 0, 0]));
        assert_eq!(recount(&[F, 0, 0, 0, 0, 0, 0]), Some([0, 0, 0]));
        assert_eq!(recount(&[F, A, 0, 0, 0, 0, 0]), Some([1, 0, 0]));
        for phase in 1..=12 {
            let notice = if phase % 2 == 1 { [1, 0] } else { [0, 1] };
            for (holder, held) in [(0, 0), (A, 1), (B, 1)] {
                let figures = recount(&[F, holder, phase, A, B, 0, 0]);
                assert_eq!(figures, Some([held, notice[0], notice[1]]));
            }
        }
        // One of each phase, every third number held.
        let record = |phase: u64| {
            let holder = [A, 0, 0][phase as usize % 3];
            match phase {
                0 => [F, holder, 0, 0, 0, 0, 0],
                _ => [F + phase, holder, phase, A, B, 0, 0],
            }
        };
        let mut records: Vec<Record> = (0..=12).map(record).collect();
        assert_eq!(recount(records.as_flattened()), Some([5, 6, 6]));
        records[12][PHASE] = 13;
        assert_eq!(recount(records.as_flattened()), None);
        assert_eq!(recount(&[F]), None);
        let rows: Vec<Record> = (F..F + 1025).map(|n| [n, A, 2, A, B, 0, 0]).collect();
        assert_eq!(recount(rows[1..].as_flattened()), Some([1024, 0, 1024]));
        assert_eq!(recount(rows.as_flattened()), None);
    }

    #[test]
    fn lists() {
        assert!(list_is_sound(&[]));
        for flags in 0..=3 {
            assert!(list_is_sound(&[A, flags]));
        }
        for flags in [4, 5, 7, 256, 1 << 32, u64::MAX] {
            assert!(!list_is_sound(&[A, flags]));
        }
        assert!(list_is_sound(&[A, 1, B, 3]));
        assert!(!list_is_sound(&[A, 1, A, 3]));
        assert!(!list_is_sound(&[B, 3, A, 1]));
        assert!(!list_is_sound(&[A]));
        assert!(!list_is_sound(&[A, 1, B]));
        for word in [0, 1, 19_999, 200_000, u64::MAX] {
            assert!(!list_is_sound(&[word, 1]));
        }
        let rows: Vec<[u64; 2]> = (A..A + 4097).map(|msisdn| [msisdn, 1]).collect();
        assert!(list_is_sound(rows[..4096].as_flattened()));
        assert!(!list_is_sound(rows.as_flattened()));
    }

    #[test]
    fn lookup() {
        let mut records: Vec<Record> = (0..50).map(|n| [F + 2 * n, n, 0, 0, 0, 0, 0]).collect();
        let list: Vec<u64> = (0..50).flat_map(|n| [A + 2 * n, n % 4]).collect();
        for n in 0..50 {
            let found = find_record(&mut records, F + 2 * n).unwrap();
            assert_eq!(found[HOLDER], n);
            assert!(find_record(&mut records, F + 2 * n + 1).is_none());
            assert_eq!(find_flags(&list, A + 2 * n), n % 4);
            assert_eq!(find_flags(&list, A + 2 * n + 1), 0);
        }
        assert!(find_record(&mut [], F).is_none());
        assert_eq!(find_flags(&[], A), 0);
    }
}
