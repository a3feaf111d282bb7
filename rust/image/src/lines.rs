//! The lines that make an image: the program's `N` number and `S` MSISDN flags,
//! ascending as stored.

use std::str::FromStr;

use ffn::{FunctionalNumber, Msisdn, NumberError};
use ffn::{MOST_NUMBERS, MOST_SUBSCRIBERS, NUMBER_WORDS, SUBSCRIBER_WORDS};

use crate::contents::Contents;
use crate::failure::{Failure, Fault};

/// What the lines say. Every number is open, free and without a notice, so the
/// figures are zeros.
pub fn contents(input: &[u8]) -> Result<Contents, Failure> {
    let mut contents = Contents::default();
    // A line feed ends a line: after a last one no further line begins.
    let lines = input.strip_suffix(b"\n").unwrap_or(input);
    if input.is_empty() {
        return Ok(contents);
    }
    for (place, line) in lines.split(|&octet| octet == b'\n').enumerate() {
        let number = place + 1;
        add(&mut contents, line).map_err(|fault| Failure::Line { number, fault })?;
    }
    Ok(contents)
}

fn add(contents: &mut Contents, line: &[u8]) -> Result<(), Fault> {
    let line = str::from_utf8(line).map_err(|_| Fault::Form)?;
    match line.split_once(' ') {
        Some(("N", digits)) => add_number(&mut contents.table, digits),
        Some(("S", fields)) => add_subscriber(&mut contents.list, fields),
        _ => Err(Fault::Form),
    }
}

fn add_number(table: &mut Vec<u64>, digits: &str) -> Result<(), Fault> {
    let mut row = [0; NUMBER_WORDS];
    row[0] = parsed(digits).map(FunctionalNumber::word)?;
    if table.len() == NUMBER_WORDS * MOST_NUMBERS {
        return Err(Fault::TooManyNumbers);
    }
    push_above(table, row)
}

fn add_subscriber(list: &mut Vec<u64>, fields: &str) -> Result<(), Fault> {
    let (msisdn, flags) = fields.split_once(' ').ok_or(Fault::Form)?;
    let msisdn = parsed(msisdn).map(Msisdn::word)?;
    let flags = value(flags)
        .filter(|&flags| flags <= 3)
        .ok_or(Fault::Flags)?;
    if list.len() == SUBSCRIBER_WORDS * MOST_SUBSCRIBERS {
        return Err(Fault::TooManySubscribers);
    }
    push_above(list, [msisdn, flags])
}

fn parsed<T: FromStr<Err = NumberError>>(digits: &str) -> Result<T, Fault> {
    digits.parse().map_err(Fault::Number)
}

/// The value of one or more digits.
fn value(digits: &str) -> Option<u64> {
    let is_digits = digits.bytes().all(|octet| octet.is_ascii_digit());
    digits.parse().ok().filter(|_| is_digits)
}

/// Puts a row behind the others, if its number stands above theirs.
fn push_above<const WORDS: usize>(words: &mut Vec<u64>, row: [u64; WORDS]) -> Result<(), Fault> {
    let (rows, _): (&[[u64; WORDS]], _) = words.as_chunks();
    if rows.last().is_some_and(|last| last[0] >= row[0]) {
        return Err(Fault::Order);
    }
    words.extend(row);
    Ok(())
}
