//! Numbers to close and to add, and rows to compact: tables sound and unsound at
//! the front of a buffer, with counts of rows that fit it or do not.

use super::{Call, Generator};
use crate::rows::{Record, CLOSED, HOLDER, MAX_RECORDS, NOTICE, NUMBER, RECORD_WORDS};

impl Generator {
    /// A number to close: mostly one of the table, which may be closed.
    pub fn closing(&mut self) -> Call {
        let (table, _, number) = self.table_and_number();
        Call::Close {
            figures: self.figures(&table, 12),
            table,
            number,
        }
    }

    /// Rows to compact, many of them closed and without holder and notice.
    pub fn compacting(&mut self) -> Call {
        let mut table = self.used_table();
        let (records, _): (&mut [Record], _) = table.as_chunks_mut();
        for record in records {
            if self.random.once_in(3) {
                record[HOLDER] = 0;
                record[NOTICE].fill(0);
                record[CLOSED] = 1;
            }
        }
        self.maybe_damage_table(&mut table, 12);
        let (words, rows) = self.rows_in_use(table);
        Call::Compact {
            figures: self.figures_in_use(&words, rows),
            words,
            rows,
        }
    }

    /// A number to add, now and then one of the table or next to one.
    pub fn adding(&mut self) -> Call {
        let mut table = self.used_table();
        let record = self.some_record(&table);
        let number = match (self.random.below(16), record) {
            (0 | 1, _) => self.malformed_or_nobody(),
            (2 | 3, Some(record)) => record[NUMBER],
            (4 | 5, Some(record)) => record[NUMBER].wrapping_add(self.random.pick(&[1, u64::MAX])),
            (6, _) => self.random.pick(&[100_000, 1_999_999_999_999_999]),
            _ => self.number(),
        };
        self.maybe_damage_table(&mut table, 12);
        let (words, rows) = self.rows_in_use(table);
        Call::Add {
            figures: self.figures_in_use(&words, rows),
            words,
            rows,
            number,
        }
    }

    /// A sound table of some size, now and then of the most rows or one less.
    fn used_table(&mut self) -> Vec<u64> {
        let rows = match self.random.below(10) {
            0 => MAX_RECORDS - self.random.index(2),
            _ => self.rows(MAX_RECORDS),
        };
        self.table(rows, &[])
    }

    /// A buffer with a table at its front, and a count of rows: mostly the
    /// table's, now and then fewer, a little more than there are words for, or so
    /// many that the words or octets they take wrap.
    fn rows_in_use(&mut self, mut words: Vec<u64>) -> (Vec<u64>, usize) {
        let rows = words.len() / RECORD_WORDS;
        let behind = match self.random.below(8) {
            0 => 0,
            1 => 1 + self.random.index(RECORD_WORDS - 1),
            2 => RECORD_WORDS,
            3 => RECORD_WORDS + 1,
            _ => self.random.index(5 * RECORD_WORDS),
        };
        words.extend((0..behind).map(|_| self.random.word()));
        let rows = match self.random.below(16) {
            0 => words.len() / RECORD_WORDS + 1,
            1 => self.many_rows(rows, words.len()),
            2 => self.random.index(rows + 1),
            _ => rows,
        };
        (words, rows)
    }

    /// A huge count of rows.
    fn many_rows(&mut self, rows: usize, words: usize) -> usize {
        /// Times the words of a row it wraps to 1.
        const INVERSE: usize = {
            let mut inverse: usize = 1;
            while inverse.wrapping_mul(RECORD_WORDS) != 1 {
                // Newton's step doubles the low bits that are right.
                let product = inverse.wrapping_mul(RECORD_WORDS);
                inverse = inverse.wrapping_mul(2usize.wrapping_sub(product));
            }
            inverse
        };
        match self.random.below(4) {
            // So many that the words wrap to as many as there are, or one less.
            0 => (words - words.min(self.random.index(2))).wrapping_mul(INVERSE),
            // So many more that the octets wrap to the same.
            1 => rows + ((1 + self.random.index(7)) << (usize::BITS - 3)),
            2 => usize::MAX / RECORD_WORDS + self.random.index(2),
            _ => usize::MAX - self.random.index(2),
        }
    }

    /// The figures of the rows in use, others once in twelve.
    fn figures_in_use(&mut self, words: &[u64], rows: usize) -> Vec<u64> {
        let used = rows.checked_mul(RECORD_WORDS);
        let table = used.and_then(|used| words.get(..used));
        self.figures(table.unwrap_or_default(), 12)
    }
}

#[cfg(test)]
mod tests {
    use super::*;
    use crate::rows::figures_of;

    /// Every kind of count comes up, the right one mostly.
    #[test]
    fn counts_of_rows() {
        let mut generator = Generator::new(110);
        let (mut right, mut fewer, mut beyond, mut wrapping) = (0, 0, 0, 0);
        for _ in 0..2000 {
            let table = generator.used_table();
            let (words, rows) = generator.rows_in_use(table.clone());
            assert_eq!(words[..table.len()], table);
            match rows.checked_mul(RECORD_WORDS) {
                None => wrapping += 1,
                Some(used) if used == table.len() => right += 1,
                Some(used) if used < table.len() => fewer += 1,
                Some(_) => beyond += 1,
            }
        }
        assert!(right > 1000 && fewer > 20 && beyond > 20 && wrapping > 20);
    }

    #[test]
    fn figures_of_rows_in_use() {
        let mut generator = Generator::new(111);
        let right = (0..200).filter(|_| {
            let table = generator.used_table();
            let rows = table.len() / RECORD_WORDS;
            let figures = generator.figures_in_use(&table, rows);
            figures == figures_of(table.as_chunks().0)
        });
        assert!(right.count() > 150);
    }
}
