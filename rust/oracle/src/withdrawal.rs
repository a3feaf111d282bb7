//! M-110: withdrawing numbers and reusing their rows.
//!
//! A closed number keeps its holder and its notice until they run out. Compacting
//! then removes its row, and adding uses the row again. Both work on the rows in
//! use at the front of a buffer, whose words need not be whole rows.

use crate::node::Answer;
use crate::number::is_number;
use crate::rows::{
    figures_of, find_place, free_record, sound_records_mut, Record, CLOSED, HOLDER, MAX_RECORDS,
    PHASE, RECORD_WORDS,
};

/// The records of a table that is sound and has these figures: refused 2, then 10.
fn right_records<'a>(table: &'a mut [u64], figures: &[u64]) -> Result<&'a mut [Record], Answer> {
    let records = sound_records_mut(table).ok_or(Answer::Refusal(2))?;
    if *figures != figures_of(records) {
        return Err(Answer::Refusal(10));
    }
    Ok(records)
}

/// The same of so many rows at the front of `words`: refused 2 also where the
/// words are fewer.
fn rows_in_use<'a>(
    words: &'a mut [u64],
    rows: usize,
    figures: &[u64],
) -> Result<&'a mut [Record], Answer> {
    let used = rows.checked_mul(RECORD_WORDS);
    let table = used.and_then(|used| words.get_mut(..used));
    right_records(table.ok_or(Answer::Refusal(2))?, figures)
}

/// Closes `number`, which keeps its holder and its notice.
///
/// Refused 2 for an unsound table, 10 for figures that differ from a recount, 7
/// for a malformed number, 52 for one that is not there, in this order.
pub fn close(table: &mut [u64], figures: &[u64], number: u64) -> Answer {
    let records = match right_records(table, figures) {
        Ok(records) => records,
        Err(refused) => return refused,
    };
    if !is_number(number) {
        return Answer::Refusal(7);
    }
    let Ok(place) = find_place(records, number) else {
        return Answer::Refusal(52);
    };
    records[place][CLOSED] = 1;
    Answer::Closed
}

/// Removes the closed rows without holder and notice from the `rows` rows in use,
/// and answers how many are left and how many went. The others keep their order,
/// and the words that they leave free become 0.
///
/// Refused 2 where the rows are more than the words or unsound, then 10.
pub fn compact(words: &mut [u64], rows: usize, figures: &[u64]) -> Answer {
    let records = match rows_in_use(words, rows, figures) {
        Ok(records) => records,
        Err(refused) => return refused,
    };
    let mut in_use = 0;
    for place in 0..records.len() {
        let record = records[place];
        if record[CLOSED] == 0 || record[HOLDER] != 0 || record[PHASE] != 0 {
            records[in_use] = record;
            in_use += 1;
        }
    }
    records[in_use..].as_flattened_mut().fill(0);
    Answer::Rows {
        in_use,
        gone: rows - in_use,
    }
}

/// Puts `number` among the `rows` rows in use, open and without holder, and
/// answers how many they are then. Rows behind its place move by one.
///
/// Refused 2 and 10 as compacting is, 7 for a malformed number, 51 for one that
/// is already there, 50 for 1,024 rows or no room for one more, in this order.
pub fn add(words: &mut [u64], rows: usize, figures: &[u64], number: u64) -> Answer {
    let records = match rows_in_use(words, rows, figures) {
        Ok(records) => records,
        Err(refused) => return refused,
    };
    if !is_number(number) {
        return Answer::Refusal(7);
    }
    let Err(place) = find_place(records, number) else {
        return Answer::Refusal(51);
    };
    let room = words.as_chunks_mut().0.get_mut(place..=rows);
    let Some(moved) = room.filter(|_| rows < MAX_RECORDS) else {
        return Answer::Refusal(50);
    };
    moved.copy_within(..rows - place, 1);
    moved[0] = free_record(number);
    Answer::Rows {
        in_use: rows + 1,
        gone: 0,
    }
}
