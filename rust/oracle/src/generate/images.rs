//! Images to write and to read: of contents sound and unsound, whole or broken in
//! one place, with rooms that fit or are a little off.

use super::{Call, Generator, ListDamage};
use crate::rows::{FIGURES, MAX_RECORDS, MAX_SUBSCRIBERS, RECORD_WORDS, SUBSCRIBER_WORDS};

/// The octets of a word, and of the trailer's three.
const WORD: usize = 8;
const TRAILER: usize = 24;

/// An image of any words, with any trailer.
fn image_of(table: &[u64], list: &[u64], trailer: [u64; 3]) -> Vec<u8> {
    let words = table.iter().chain(list).chain(&trailer);
    words.flat_map(|word| word.to_le_bytes()).collect()
}

/// The trailer of whole rows.
fn trailer(table: &[u64], list: &[u64]) -> [u64; 3] {
    let distance = WORD * (table.len() + list.len());
    [
        table.len() / RECORD_WORDS,
        list.len() / SUBSCRIBER_WORDS,
        distance,
    ]
    .map(|count| count as u64)
}

impl Generator {
    /// Contents to be written, with their figures.
    pub fn writing_image(&mut self) -> Call {
        let (table, list) = self.contents();
        let size = image_of(&table, &list, [0; 3]).len();
        Call::WriteImage {
            figures: self.figures(&table, 8),
            table,
            list,
            image: self.buffer_about(size),
        }
    }

    /// An image to be read, and rooms for what it holds.
    pub fn reading_image(&mut self) -> Call {
        let (table, list) = self.contents();
        Call::ReadImage {
            image: self.image(&table, &list),
            table: self.room_about(table.len()),
            list: self.room_about(list.len()),
            figures: self.room_about(FIGURES),
        }
    }

    /// Table and list of some size, each now and then empty, full or unsound.
    fn contents(&mut self) -> (Vec<u64>, Vec<u64>) {
        let (rows, subscribers) = match self.random.below(64) {
            0 => (MAX_RECORDS, MAX_SUBSCRIBERS),
            _ => (self.rows(MAX_RECORDS), self.rows(MAX_SUBSCRIBERS)),
        };
        let mut list = self.list(subscribers);
        let mut table = self.table(rows, &list);
        self.maybe_damage_table(&mut table, 8);
        if self.random.once_in(8) {
            let damage = self.random.pick(&ListDamage::ALL);
            self.damage_list(&mut list, damage);
        }
        (table, list)
    }

    /// The image of contents; broken once in two.
    fn image(&mut self, table: &[u64], list: &[u64]) -> Vec<u8> {
        let mut trailer = trailer(table, list);
        let broken = self.random.below(16);
        if broken < 4 {
            self.break_trailer(&mut trailer);
        }
        let mut image = image_of(table, list, trailer);
        if (4..8).contains(&broken) {
            self.break_image(&mut image);
        }
        image
    }

    /// Changes a word of the trailer, or both counts so that other rows fill the
    /// distance.
    fn break_trailer(&mut self, trailer: &mut [u64; 3]) {
        let place = self.random.index(trailer.len());
        let word = &mut trailer[place];
        match self.random.below(6) {
            0 => *word = word.wrapping_add(self.random.pick(&[1, u64::MAX])),
            // Rows so many more that the octets they take wrap to the same.
            1 => *word = word.wrapping_add((1 + self.random.below(7)) << 61),
            2 => *word ^= 1 << self.random.below(64),
            3 => *word = self.random.pick(&[0, 1 << 32, 1 << 63, u64::MAX]),
            4 => {
                let (rows, subscribers) = (SUBSCRIBER_WORDS as u64, RECORD_WORDS as u64);
                let [of_table, of_list, _] = trailer;
                if *of_table >= rows {
                    *of_table -= rows;
                    *of_list += subscribers;
                } else {
                    trailer.swap(0, 1);
                }
            }
            _ => {
                // The distance of the whole image, or of the list alone.
                let length = trailer[2] + TRAILER as u64;
                let of_list = (WORD * SUBSCRIBER_WORDS) as u64 * trailer[1];
                trailer[2] = self.random.pick(&[length, of_list]);
            }
        }
    }

    /// Changes a bit, cuts the image at its end or its front, or puts octets at
    /// either.
    fn break_image(&mut self, image: &mut Vec<u8>) {
        let place = self.random.index(image.len());
        let (count, octet) = (self.random.pick(&[1, 1, 7, 8, 24]), self.random.octet());
        match self.random.below(8) {
            0 | 1 => image[place] ^= 1 << self.random.below(8),
            2 => image.truncate(place),
            3 => image.truncate(self.random.index(TRAILER)),
            4 => image.truncate(image.len() - count),
            5 => drop(image.drain(..count)),
            6 => image.extend(vec![octet; count]),
            _ => drop(image.splice(..0, vec![octet; count])),
        }
    }

    /// A room for `needed` words: as many, or a little off.
    fn room_about(&mut self, needed: usize) -> Vec<u64> {
        let length = match self.random.below(16) {
            0 => needed.saturating_sub(1),
            1 => self.random.index(needed + 1),
            2..=4 => needed + 1,
            5 => needed + 20,
            _ => needed,
        };
        (0..length).map(|_| self.random.word()).collect()
    }
}
