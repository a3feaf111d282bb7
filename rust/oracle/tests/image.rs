//! Table and list as one image: document 02, M-109.

mod common;

use common::{A, B, F, FILL};
use oracle::generate::Generator;
use oracle::{read_image, recount, write_image};

/// F, open and free, and A, who has Follow Me.
const TABLE: [u64; 7] = [F, 0, 0, 0, 0, 0, 0];
const LIST: [u64; 2] = [A, 1];

/// Their image, worked out by hand: 10492123401 is 2_7161_1909 in base 16,
/// 14915100001 is 3_7902_5D61, and the distance is 72.
#[rustfmt::skip]
const IMAGE: [u8; 96] = [
    0x09, 0x19, 0x61, 0x71, 0x02, 0, 0, 0,
    0, 0, 0, 0, 0, 0, 0, 0,
    0, 0, 0, 0, 0, 0, 0, 0,
    0, 0, 0, 0, 0, 0, 0, 0,
    0, 0, 0, 0, 0, 0, 0, 0,
    0, 0, 0, 0, 0, 0, 0, 0,
    0, 0, 0, 0, 0, 0, 0, 0,
    0x61, 0x5D, 0x02, 0x79, 0x03, 0, 0, 0,
    1, 0, 0, 0, 0, 0, 0, 0,
    1, 0, 0, 0, 0, 0, 0, 0,
    1, 0, 0, 0, 0, 0, 0, 0,
    72, 0, 0, 0, 0, 0, 0, 0,
];

/// The words of a row, and the octets of the trailer.
const ROW: usize = TABLE.len();
const SUBSCRIBER: usize = LIST.len();
const TRAILER: usize = 24;

/// What a word holds before a call, and how many more a room has than it needs.
const WORD: u64 = u64::from_ne_bytes([FILL; 8]);
const BEYOND: usize = 5;

/// A free number whose notice waits, last failed at second 7.
fn notice(number: u64) -> [u64; ROW] {
    let mut row = TABLE;
    row[0] = number;
    row[2..6].copy_from_slice(&[3, A, B, 7]);
    row
}

/// So many numbers, and so many subscribers.
fn rows(count: u64) -> Vec<u64> {
    (0..count).flat_map(|n| notice(F + n)).collect()
}

fn people(count: u64) -> Vec<u64> {
    (0..count).flat_map(|n| [A + n, n % 4]).collect()
}

/// Words as octets, the low one first.
fn octets(words: &[u64]) -> Vec<u8> {
    let shifted = |word: u64| (0..8).map(move |place| (word >> (8 * place)) as u8);
    words.iter().flat_map(|&word| shifted(word)).collect()
}

/// An image of any words with any counts; its distance is right.
fn image(table: &[u64], list: &[u64], rows: u64, people: u64) -> Vec<u8> {
    let distance = 8 * (table.len() + list.len()) as u64;
    octets(&[table, list, &[rows, people, distance]].concat())
}

/// Writes an image into a larger buffer. What lies behind it stays.
fn written(table: &[u64], list: &[u64]) -> Vec<u8> {
    let size = 8 * (table.len() + list.len()) + TRAILER;
    let mut out = vec![FILL; size + BEYOND];
    let figures = recount(table).unwrap();
    assert_eq!(write_image(table, &figures, list, &mut out), Ok(size));
    assert_eq!(out[size..], [FILL; BEYOND]);
    out.truncate(size);
    out
}

/// What is lent to a reading.
#[derive(Clone, Debug, PartialEq, Eq)]
struct Rooms {
    table: Vec<u64>,
    list: Vec<u64>,
    figures: Vec<u64>,
}

impl Rooms {
    fn new(table: usize, list: usize, figures: usize) -> Self {
        let [table, list, figures] = [table, list, figures].map(|words| vec![WORD; words]);
        Self {
            table,
            list,
            figures,
        }
    }

    /// Reads into these rooms. A refusal leaves them.
    fn read(&mut self, image: &[u8]) -> Result<(usize, usize), u8> {
        let before = self.clone();
        let read = read_image(image, &mut self.table, &mut self.list, &mut self.figures);
        if read.is_err() {
            assert_eq!(*self, before);
        }
        read
    }
}

/// Table and list that an image holds, read into larger rooms. The figures are
/// recounted, and what lies behind stays.
fn read(image: &[u8]) -> Result<(Vec<u64>, Vec<u64>), u8> {
    let room = image.len() / 8 + BEYOND;
    let mut rooms = Rooms::new(room, room, 3 + BEYOND);
    let (rows, people) = rooms.read(image)?;
    let table = rooms.table.drain(..ROW * rows).collect::<Vec<_>>();
    let list = rooms.list.drain(..SUBSCRIBER * people).collect();
    let figures: Vec<u64> = rooms.figures.drain(..3).collect();
    assert_eq!(figures, recount(&table).unwrap());
    for rest in [&rooms.table, &rooms.list, &rooms.figures] {
        assert!(rest.iter().all(|&word| word == WORD));
    }
    assert_eq!(rooms.figures.len(), BEYOND);
    Ok((table, list))
}

fn refused(image: &[u8]) -> Option<u8> {
    read(image).err()
}

#[test]
fn empty_contents_are_24_zeros() {
    assert_eq!(written(&[], &[]), [0; 24]);
    assert_eq!(read(&[0; 24]), Ok((vec![], vec![])));
    let mut rooms = Rooms::new(0, 0, 3);
    assert_eq!(rooms.read(&[0; 24]), Ok((0, 0)));
    assert_eq!(rooms.figures, [0, 0, 0]);
}

#[test]
fn one_number_and_one_subscriber() {
    assert_eq!(written(&TABLE, &LIST), IMAGE);
    assert_eq!(read(&IMAGE), Ok((TABLE.to_vec(), LIST.to_vec())));
    // Either alone.
    assert_eq!(written(&TABLE, &[])[..56], IMAGE[..56]);
    assert_eq!(written(&[], &LIST)[..16], IMAGE[56..72]);
}

#[test]
fn rows_stand_in_order_and_words_low_byte_first() {
    let (table, list) = (rows(3), people(2));
    let mut expected = octets(&table);
    expected.extend(octets(&list));
    expected.extend(octets(&[3, 2, 8 * (3 * ROW + 4) as u64]));
    assert_eq!(written(&table, &list), expected);
    assert_eq!(image(&table, &list, 3, 2), expected);
    assert_eq!(read(&expected), Ok((table, list)));
}

#[test]
fn full_contents() {
    let (table, list) = (rows(1024), people(4096));
    let image = written(&table, &list);
    assert_eq!(image.len(), 8 * (1024 * ROW + 8192) + 24);
    assert_eq!(read(&image), Ok((table.clone(), list.clone())));
    let mut rooms = Rooms::new(table.len(), list.len(), 3);
    assert_eq!(rooms.read(&image), Ok((1024, 4096)));
    assert_eq!((&rooms.table, &rooms.list), (&table, &list));
    assert_eq!(rooms.figures, [0, 1024, 0]);
}

/// Each of the four checks of writing, alone and with those behind it.
#[test]
fn writing_is_refused_in_order() {
    let (unsound, unlisted) = ([F, 7, 0, 0, 0, 0, 0], [A, 4]);
    let right = recount(&TABLE).unwrap();
    for broken in 0..16 {
        let is_broken = |check: u32| broken >> check & 1 == 1;
        let list = if is_broken(0) { unlisted } else { LIST };
        let table = if is_broken(1) { unsound } else { TABLE };
        let figures = if is_broken(2) { [1, 0, 0] } else { right };
        let size = IMAGE.len() - usize::from(is_broken(3));
        let mut out = vec![FILL; size];
        let said = write_image(&table, &figures, &list, &mut out);
        match [8, 2, 10, 33].into_iter().zip(0..).find(|c| is_broken(c.1)) {
            None => assert_eq!((said, out), (Ok(96), IMAGE.to_vec())),
            Some((number, _)) => {
                assert_eq!(said, Err(number), "{broken:04b}");
                assert_eq!(out, vec![FILL; size]);
            }
        }
    }
}

#[test]
fn figures_that_are_not_those_of_the_table() {
    let table = [TABLE, notice(F + 1)].concat();
    let mut out = vec![FILL; 200];
    for wrong in [
        &[0, 0, 0][..],
        &[1, 1, 0],
        &[0, 0, 1],
        &[0, 1, 1],
        &[0, 1 | 1 << 32, 0],
        &[],
        &[0, 1],
        &[0, 1, 0, 0],
    ] {
        assert_eq!(write_image(&table, wrong, &LIST, &mut out), Err(10));
        assert_eq!(out, [FILL; 200]);
    }
    let size = 2 * 8 * ROW + 16 + TRAILER;
    assert_eq!(write_image(&table, &[0, 1, 0], &LIST, &mut out), Ok(size));
}

#[test]
fn writing_needs_room_for_the_image() {
    let figures = recount(&TABLE).unwrap();
    for size in 0..=IMAGE.len() + BEYOND {
        let mut out = vec![FILL; size];
        let said = write_image(&TABLE, &figures, &LIST, &mut out);
        if size < IMAGE.len() {
            assert_eq!((said, out), (Err(33), vec![FILL; size]));
        } else {
            assert_eq!(said, Ok(96));
            assert_eq!(out[..96], IMAGE);
            assert!(out[96..].iter().all(|&octet| octet == FILL));
        }
    }
    assert_eq!(write_image(&[], &[0; 3], &[], &mut [0; 23]), Err(33));
}

#[test]
fn an_image_under_24_octets() {
    for length in 0..24 {
        assert_eq!(refused(&vec![0; length]), Some(30));
        assert_eq!(refused(&vec![0xFF; length]), Some(30));
        assert_eq!(refused(&IMAGE[96 - length..]), Some(30));
        assert_eq!(Rooms::new(0, 0, 0).read(&IMAGE[..length]), Err(30));
    }
    // With 24 the trailer is there, and tells of rows that are not.
    assert_eq!(refused(&IMAGE[72..]), Some(31));
    assert_eq!(refused(&[0; 24]), None);
}

#[test]
fn a_distance_that_is_not_the_length_less_24() {
    for distance in [
        0,
        16,
        56,
        71,
        73,
        96,
        72 | 1 << 8,
        72 | 1 << 32,
        72 | 1 << 63,
        u64::MAX,
    ] {
        let other = [&IMAGE[..88], &distance.to_le_bytes()].concat();
        assert_eq!(refused(&other), Some(31), "{distance}");
        // Before counts, rooms and contents.
        let mut huge = other.clone();
        huge[..88].fill(0xFF);
        assert_eq!(Rooms::new(0, 0, 0).read(&huge), Err(31));
    }
    // Cut in front and behind, an octet more in front and behind.
    for length in 24..96 {
        assert_eq!(refused(&IMAGE[96 - length..]), Some(31));
        assert!(refused(&IMAGE[..length]).is_some());
    }
    for octet in [0, 1, 0xFF] {
        assert_eq!(refused(&[&[octet], &IMAGE[..]].concat()), Some(31));
        assert_eq!(refused(&[&IMAGE[..], &[octet]].concat()), Some(31));
    }
    assert_eq!(refused(&[[0; 24], [0; 24]].concat()), Some(31));
}

#[test]
fn a_count_over_its_limit() {
    let (table, list) = (rows(1025), people(4097));
    let (most_rows, most_people) = (&table[..1024 * ROW], &list[..8192]);
    assert_eq!(refused(&image(most_rows, most_people, 1024, 4096)), None);
    assert_eq!(refused(&image(&table, most_people, 1025, 4096)), Some(32));
    assert_eq!(refused(&image(most_rows, &list, 1024, 4097)), Some(32));
    // Counts are not cut to fewer bits, nor their products.
    for more in [1 << 16, 1 << 32, 1 << 60, 1 << 61, 1 << 62, 1 << 63] {
        assert_eq!(refused(&image(&TABLE, &LIST, 1 + more, 1)), Some(32));
        assert_eq!(refused(&image(&TABLE, &LIST, 1, 1 + more)), Some(32));
        assert_eq!(refused(&image(&[], &[], more, 0)), Some(32));
        assert_eq!(refused(&image(&[], &[], 0, more)), Some(32));
    }
    for count in [1025, u64::MAX] {
        // Before the distance is filled, rooms and contents.
        let huge = image(&[7; ROW], &[7; 2], count, 4097);
        assert_eq!(Rooms::new(0, 0, 0).read(&huge), Err(32));
    }
    // Rows that together wrap to none.
    let (many, more): (u64, u64) = (1 << 60, 1 << 59);
    let octets = |rows: u64, words: usize| rows.wrapping_mul(8 * words as u64);
    assert_eq!(octets(many, ROW).wrapping_add(octets(more, SUBSCRIBER)), 0);
    assert_eq!(refused(&image(&[], &[], many, more)), Some(32));
}

#[test]
fn rows_that_do_not_fill_the_distance() {
    assert_eq!(refused(&image(&TABLE, &LIST, 1, 1)), None);
    for (of_table, of_list) in [(0, 0), (0, 1), (1, 0), (2, 1), (1, 2), (1024, 4096)] {
        let other = image(&TABLE, &LIST, of_table, of_list);
        assert_eq!(refused(&other), Some(34), "{of_table} {of_list}");
        // Before rooms and contents.
        let unsound = image(&[7; ROW], &[7; 2], of_table, of_list);
        assert_eq!(Rooms::new(0, 0, 0).read(&unsound), Err(34));
    }
    // A word too few, a word too many, and parts of a word.
    assert_eq!(refused(&image(&TABLE[1..], &LIST, 1, 1)), Some(34));
    assert_eq!(refused(&image(&TABLE, &[A, 1, B], 1, 1)), Some(34));
    for more in 1..8 {
        let distance = 72 + more as u64;
        let trailer = octets(&[1, 1, distance]);
        let odd = [&IMAGE[..72], &vec![0; more], &trailer].concat();
        assert_eq!(refused(&odd), Some(34));
    }
    // Other rows fill the same distance, but are not sound.
    let table = rows(SUBSCRIBER as u64);
    assert_eq!(refused(&image(&table, &[], 2, 0)), None);
    assert_eq!(refused(&image(&table, &[], 0, ROW as u64)), Some(8));
    let list = people(ROW as u64);
    assert_eq!(refused(&image(&[], &list, 0, ROW as u64)), None);
    assert_eq!(refused(&image(&[], &list, 2, 0)), Some(2));
}

#[test]
fn rooms_that_are_too_small() {
    let fits = (ROW, SUBSCRIBER, 3);
    for table in 0..=ROW + 2 {
        for list in 0..=SUBSCRIBER + 2 {
            for figures in 0..=5 {
                let mut rooms = Rooms::new(table, list, figures);
                let small = table < fits.0 || list < fits.1 || figures < fits.2;
                let said = if small { Err(33) } else { Ok((1, 1)) };
                assert_eq!(rooms.read(&IMAGE), said);
                // Before the contents are looked at.
                let unsound = image(&[7; ROW], &[7; 2], 1, 1);
                let said = if small { 33 } else { 2 };
                assert_eq!(Rooms::new(table, list, figures).read(&unsound), Err(said));
            }
        }
    }
}

#[test]
fn unsound_contents() {
    let (unsound, unlisted) = ([F, 7, 0, 0, 0, 0, 0], [A, 4]);
    assert_eq!(refused(&image(&unsound, &LIST, 1, 1)), Some(2));
    assert_eq!(refused(&image(&TABLE, &unlisted, 1, 1)), Some(8));
    assert_eq!(refused(&image(&unsound, &unlisted, 1, 1)), Some(2));
    // Only the last row, and the order of two.
    let mut table = rows(5);
    table[4 * ROW + 2] = 13;
    assert_eq!(refused(&image(&table, &LIST, 5, 1)), Some(2));
    let mut list = people(5);
    list[8] = list[6];
    assert_eq!(refused(&image(&TABLE, &list, 1, 5)), Some(8));
    assert_eq!(
        refused(&image(&[TABLE, TABLE].concat(), &LIST, 2, 1)),
        Some(2)
    );
}

#[test]
fn the_seventh_word_of_a_row() {
    let mut closed = notice(F);
    closed[6] = 1;
    let table = [closed, notice(F + 1)].concat();
    let image_of = written(&table, &LIST);
    assert_eq!(image_of[48..56], [1, 0, 0, 0, 0, 0, 0, 0]);
    assert_eq!(read(&image_of), Ok((table, LIST.to_vec())));
    for word in [2, 256, 1 << 32, 1 << 63, u64::MAX] {
        let mut row = TABLE;
        row[6] = word;
        assert_eq!(refused(&image(&row, &LIST, 1, 1)), Some(2));
        let mut out = [FILL; 96];
        let said = write_image(&row, &[0; 3], &LIST, &mut out);
        assert_eq!((said, out), (Err(2), [FILL; 96]));
    }
}

/// An image from before rows had seven words: its rows do not fill the distance.
#[test]
fn an_old_image() {
    for (of_table, of_list) in [
        (1, 0),
        (1, 1),
        (2, 7),
        (6, 0),
        (7, 0),
        (1024, 0),
        (1024, 4096),
    ] {
        let old: Vec<u64> = rows(of_table)
            .chunks(ROW)
            .flat_map(|row| row[..6].to_vec())
            .collect();
        let list = people(of_list);
        assert_eq!(refused(&image(&old, &list, of_table, of_list)), Some(34));
    }
    // One without numbers is as it was.
    for of_list in [0, 1, 7, 4096] {
        let list = people(of_list);
        let old = image(&[], &list, 0, of_list);
        assert_eq!(written(&[], &list), old);
        assert_eq!(read(&old), Ok((vec![], list)));
    }
}

#[test]
fn random_contents_and_back() {
    let mut generator = Generator::new(109);
    for size in (0..60).chain([1000, 1024]) {
        let list = generator.list(4 * size);
        let table = generator.table(size, &list);
        let image = written(&table, &list);
        let (rows, people) = read(&image).unwrap();
        assert_eq!((&rows, &people), (&table, &list));
        assert_eq!(written(&rows, &people), image);
    }
}

/// One bit changed: refused, or the image of other contents.
#[test]
fn every_bit_counts() {
    let (table, list) = (rows(2), people(3));
    let whole = written(&table, &list);
    let mut reads = 0;
    for bit in 0..8 * whole.len() {
        let mut changed = whole.clone();
        changed[bit / 8] ^= 1 << (bit % 8);
        let Ok((rows, people)) = read(&changed) else {
            continue;
        };
        assert!(bit / 8 < whole.len() - TRAILER);
        assert_ne!((&rows, &people), (&table, &list));
        assert_eq!(written(&rows, &people), changed);
        reads += 1;
    }
    assert!(reads > 100, "{reads}");
}
