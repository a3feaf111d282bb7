//! Images: the one worked out by hand, full ones, every refusal, and what stays.

use ffn::{
    c, image_size, read_image, write_image, Figures, ReadImage, Refusal, MOST_NUMBERS,
    MOST_SUBSCRIBERS, NUMBER_WORDS, SUBSCRIBER_WORDS,
};

const UNTOUCHED: u8 = 0xEE;
const WORD: u64 = u64::from_ne_bytes([UNTOUCHED; 8]);

/// F is 0492123401, open and free; A has Follow Me.
const F: u64 = 10_492_123_401;
const A: u64 = 14_915_100_001;
const TABLE: [u64; NUMBER_WORDS] = [F, 0, 0, 0, 0, 0, 0];
const LIST: [u64; SUBSCRIBER_WORDS] = [A, 1];
const FIGURES: Figures = Figures {
    held: 0,
    waiting: 0,
    in_flight: 0,
};

#[rustfmt::skip]
const IMAGE: [u8; 96] = [
    0x09, 0x19, 0x61, 0x71, 0x02, 0, 0, 0,
    0, 0, 0, 0, 0, 0, 0, 0,
    0, 0, 0, 0, 0, 0, 0, 0,
    0, 0, 0, 0, 0, 0, 0, 0,
    0, 0, 0, 0, 0, 0, 0, 0,
    0, 0, 0, 0, 0, 0, 0, 0,
    0, 0, 0, 0, 0, 0, 0, 0,
    0x61, 0x5D, 0x02, 0x79, 0x03, 0, 0, 0,
    1, 0, 0, 0, 0, 0, 0, 0,
    1, 0, 0, 0, 0, 0, 0, 0,
    1, 0, 0, 0, 0, 0, 0, 0,
    72, 0, 0, 0, 0, 0, 0, 0,
];

/// Reads into rooms of so many words. A refusal leaves them.
fn read_into(image: &[u8], table: usize, list: usize) -> Result<ReadImage, Refusal> {
    let (mut rows, mut people) = (vec![WORD; table], vec![WORD; list]);
    let read = read_image(image, &mut rows, &mut people);
    if read.is_err() {
        assert_eq!((rows, people), (vec![WORD; table], vec![WORD; list]));
    }
    read
}

fn refused(image: &[u8]) -> Option<Refusal> {
    read_into(image, NUMBER_WORDS, SUBSCRIBER_WORDS).err()
}

/// The image with the octet at a place changed.
fn changed(place: usize, octet: u8) -> [u8; 96] {
    let mut image = IMAGE;
    image[place] = octet;
    image
}

#[test]
fn nothing() {
    let mut image = [UNTOUCHED; 24];
    assert_eq!(write_image(&[], &FIGURES, &[], &mut image), Ok(24));
    assert_eq!(image, [0; 24]);
    let read = ReadImage {
        numbers: 0,
        subscribers: 0,
        figures: FIGURES,
    };
    assert_eq!(read_image(&image, &mut [], &mut []), Ok(read));
}

#[test]
fn one_number_and_one_subscriber() {
    let mut image = [UNTOUCHED; 98];
    let size = image_size(1, 1);
    assert_eq!(write_image(&TABLE, &FIGURES, &LIST, &mut image), Ok(size));
    assert_eq!(image[..size], IMAGE);
    assert_eq!(image[size..], [UNTOUCHED; 2]);

    let (mut table, mut list) = ([WORD; NUMBER_WORDS + 1], [WORD; SUBSCRIBER_WORDS + 1]);
    let read = read_image(&IMAGE, &mut table, &mut list).unwrap();
    assert_eq!((read.numbers, read.subscribers), (1, 1));
    assert_eq!(read.figures, FIGURES);
    assert_eq!(table[..NUMBER_WORDS], TABLE);
    assert_eq!(list[..SUBSCRIBER_WORDS], LIST);
    assert_eq!((table[NUMBER_WORDS], list[SUBSCRIBER_WORDS]), (WORD, WORD));
}

#[test]
fn full_contents() {
    let table: Vec<u64> = (0..MOST_NUMBERS as u64)
        .flat_map(|n| [F + n, A, 2, A, A + 1, 0, 0])
        .collect();
    let list: Vec<u64> = (0..MOST_SUBSCRIBERS as u64)
        .flat_map(|n| [A + n, n % 4])
        .collect();
    let figures = Figures::recount(&table).unwrap();
    let mut image = vec![UNTOUCHED; image_size(MOST_NUMBERS, MOST_SUBSCRIBERS)];
    let size = write_image(&table, &figures, &list, &mut image);
    assert_eq!(size, Ok(image.len()));
    let (mut rows, mut people) = (vec![WORD; table.len()], vec![WORD; list.len()]);
    let read = read_image(&image, &mut rows, &mut people).unwrap();
    assert_eq!((rows, people), (table, list));
    assert_eq!(read.figures.words(), [1024, 0, 1024]);
    assert_eq!((read.numbers, read.subscribers), (1024, 4096));
}

#[test]
fn writing_is_refused_in_order() {
    let (unsound, unlisted, wrong) = (
        [F, 7, 0, 0, 0, 0, 0],
        [A, 4],
        Figures::from_words([1, 0, 0]),
    );
    for (table, figures, list, size, refusal) in [
        (unsound, wrong, unlisted, 95, Refusal::ListUnsound),
        (unsound, wrong, LIST, 95, Refusal::TableUnsound),
        (TABLE, wrong, LIST, 95, Refusal::Figures),
        (TABLE, FIGURES, LIST, 95, Refusal::ImageRoom),
        (TABLE, FIGURES, LIST, 0, Refusal::ImageRoom),
    ] {
        let mut image = vec![UNTOUCHED; size];
        let said = write_image(&table, &figures, &list, &mut image);
        assert_eq!((said, image), (Err(refusal), vec![UNTOUCHED; size]));
    }
    // Figures that are not three words.
    for figures in [&[][..], &[0, 0], &[0, 0, 0, 0]] {
        let said = c::write_image(&TABLE, figures, &LIST, &mut [0; 96]);
        assert_eq!((said.class, said.number), (c::REFUSAL, 10));
    }
}

#[test]
fn reading_is_refused_in_order() {
    assert_eq!(refused(&IMAGE), None);
    assert_eq!(refused(&IMAGE[73..]), Some(Refusal::NoTrailer));
    assert_eq!(refused(&IMAGE[72..]), Some(Refusal::Distance));
    assert_eq!(refused(&IMAGE[1..]), Some(Refusal::Distance));
    assert_eq!(refused(&changed(95, 1)), Some(Refusal::Distance));
    // 1,025 rows, and as many as wrap.
    assert_eq!(refused(&changed(73, 4)), Some(Refusal::Limit));
    assert_eq!(refused(&changed(79, 0x20)), Some(Refusal::Limit));
    assert_eq!(refused(&changed(81, 16)), Some(Refusal::Limit));
    assert_eq!(refused(&changed(87, 0x20)), Some(Refusal::Limit));
    assert_eq!(refused(&changed(72, 2)), Some(Refusal::Unfilled));
    assert_eq!(refused(&changed(80, 0)), Some(Refusal::Unfilled));
    for (table, list) in [(NUMBER_WORDS - 1, 2), (NUMBER_WORDS, 1), (0, 0)] {
        let unsound = changed(8, 7);
        assert_eq!(read_into(&unsound, table, list), Err(Refusal::ImageRoom));
        // Before the rooms.
        assert_eq!(read_into(&changed(72, 2), 0, 0), Err(Refusal::Unfilled));
    }
    let mut both = changed(8, 7);
    both[64] = 4;
    assert_eq!(refused(&both), Some(Refusal::TableUnsound));
    assert_eq!(refused(&changed(8, 7)), Some(Refusal::TableUnsound));
    assert_eq!(refused(&changed(64, 4)), Some(Refusal::ListUnsound));
}

/// The seventh word of a row is 0 or 1, and an image without it is refused.
#[test]
fn the_seventh_word_of_a_row() {
    let closed = changed(48, 1);
    let (mut table, mut list) = ([WORD; NUMBER_WORDS], [WORD; SUBSCRIBER_WORDS]);
    let read = read_image(&closed, &mut table, &mut list).unwrap();
    assert_eq!((table[6], list), (1, LIST));
    let mut image = [UNTOUCHED; 96];
    assert!(write_image(&table, &read.figures, &list, &mut image).is_ok());
    assert_eq!(image, closed);
    assert_eq!(refused(&changed(48, 2)), Some(Refusal::TableUnsound));
    assert_eq!(refused(&changed(55, 1)), Some(Refusal::TableUnsound));
    let mut old = [&IMAGE[..48], &IMAGE[56..]].concat();
    old[80] = 64;
    assert_eq!(refused(&old), Some(Refusal::Unfilled));
}

#[test]
fn figures_need_three_words() {
    for words in 0..=4 {
        let (mut table, mut list, mut figures) = (TABLE, LIST, vec![WORD; words]);
        let read = c::read_image(&IMAGE, &mut table, &mut list, &mut figures);
        let refused = c::ImageRead {
            class: c::REFUSAL,
            number: 33,
            numbers: 0,
            subscribers: 0,
        };
        let whole = c::ImageRead {
            class: c::READ,
            number: 0,
            numbers: 1,
            subscribers: 1,
        };
        assert_eq!(read, if words < 3 { refused } else { whole });
        let written = if words < 3 { 0 } else { 3 };
        assert!(figures[..written].iter().all(|&word| word == 0));
        assert!(figures[written..].iter().all(|&word| word == WORD));
    }
}
