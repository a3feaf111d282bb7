//! M-109: table and list as one image, to move a node to new hardware.
//!
//! The rows stand first, table then list, each word as eight octets, the low one
//! first. A trailer of three such words ends the image: the count of table rows,
//! of list rows, and the distance in octets from its own start back to the first
//! row.

use crate::rows::{
    figures_of, list_is_sound, records_are_sound, sound_records, subscribers_are_sound, FIGURES,
    MAX_RECORDS, MAX_SUBSCRIBERS, RECORD_WORDS, SUBSCRIBER_WORDS,
};

/// The octets of a word, and the trailer's words.
const WORD: usize = size_of::<u64>();
const TRAILER_WORDS: usize = 3;

/// Writes the image of `table` and `list` to the front of `out` and returns its
/// size.
///
/// Refused 8 for an unsound list, 2 for an unsound table, 10 for figures that
/// differ from a recount, 33 where `out` is too small, in this order.
pub fn write_image(
    table: &[u64],
    figures: &[u64],
    list: &[u64],
    out: &mut [u8],
) -> Result<usize, u8> {
    if !list_is_sound(list) {
        return Err(8);
    }
    let records = sound_records(table).ok_or(2)?;
    if *figures != figures_of(records) {
        return Err(10);
    }
    let distance = WORD * (table.len() + list.len());
    let size = distance + WORD * TRAILER_WORDS;
    let out = out.get_mut(..size).ok_or(33)?;
    let subscribers = list.len() / SUBSCRIBER_WORDS;
    let trailer = [records.len(), subscribers, distance].map(|count| count as u64);
    let words = table.iter().chain(list).chain(&trailer);
    for (octets, word) in out.as_chunks_mut().0.iter_mut().zip(words) {
        *octets = word.to_le_bytes();
    }
    Ok(size)
}

/// Reads an image: writes its table, its list and the recounted figures to the
/// front of each room, and returns the counts of table and list rows.
///
/// Refused 30 for an image shorter than its trailer, 31 for a distance that is
/// not the image's length without it, 32 for a count over its limit, 34 where the
/// rows do not fill the distance, 33 where a room is too small, then 2 and 8, in
/// this order.
pub fn read_image(
    image: &[u8],
    table: &mut [u64],
    list: &mut [u64],
    figures: &mut [u64],
) -> Result<(usize, usize), u8> {
    let (before, distance) = last_word(image).ok_or(30)?;
    let (before, subscribers) = last_word(before).ok_or(30)?;
    let (rows, records) = last_word(before).ok_or(30)?;
    if distance != rows.len() as u64 {
        return Err(31);
    }
    if records > MAX_RECORDS as u64 || subscribers > MAX_SUBSCRIBERS as u64 {
        return Err(32);
    }
    // Below their limits no product wraps.
    let (records, subscribers) = (records as usize, subscribers as usize);
    let (table_words, list_words) = (RECORD_WORDS * records, SUBSCRIBER_WORDS * subscribers);
    if WORD * (table_words + list_words) != rows.len() {
        return Err(34);
    }
    let (Some(table), Some(list), Some(figures)) = (
        table.get_mut(..table_words),
        list.get_mut(..list_words),
        figures.get_mut(..FIGURES),
    ) else {
        return Err(33);
    };
    let (of_table, of_list) = rows.as_chunks().0.split_at(table_words);
    if !records_are_sound(rows_of(of_table)) {
        return Err(2);
    }
    if !subscribers_are_sound(rows_of(of_list)) {
        return Err(8);
    }
    copy(of_table, table);
    copy(of_list, list);
    figures.copy_from_slice(&figures_of(table.as_chunks().0));
    Ok((records, subscribers))
}

/// The last word of octets, and what stands before it.
fn last_word(octets: &[u8]) -> Option<(&[u8], u64)> {
    let (before, word) = octets.split_last_chunk()?;
    Some((before, u64::from_le_bytes(*word)))
}

/// The rows whose words have these octets.
fn rows_of<const WORDS: usize>(words: &[[u8; WORD]]) -> impl Iterator<Item = [u64; WORDS]> + '_ {
    let rows: &[[_; WORDS]] = words.as_chunks().0;
    rows.iter().map(|row| row.map(u64::from_le_bytes))
}

/// Copies words that have these octets.
fn copy(words: &[[u8; WORD]], out: &mut [u64]) {
    for (octets, word) in words.iter().zip(out) {
        *word = u64::from_le_bytes(*octets);
    }
}
