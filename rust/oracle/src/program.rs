//! The program of document 01: a node driven by lines of text.

use crate::node::{request, result, sending, Answer};
use crate::number::number_from_digits;
use crate::packing::{pack, packed_length, unpack};
use crate::rows::{free_record, Record, Subscriber, FIGURES, MAX_RECORDS, MAX_SUBSCRIBERS, NUMBER};
use crate::text::Text;

/// The octets of input that are read.
pub const INPUT_LIMIT: usize = 64 * 1024;

/// The room for a reply or a notice, and for its characters.
const ROOM: usize = 80;
const ROOM_CHARACTERS: usize = ROOM * 8 / 7;

/// The seconds that pass before a notice is sent again, unless the first line
/// sets others.
const DELAY: u32 = 60;

/// A word that is no number, for digits that make none.
const MALFORMED: u64 = 0;

/// Runs the program on the first 64 KiB of `input` and returns its output.
pub fn run(input: &[u8]) -> Vec<u8> {
    let input = &input[..input.len().min(INPUT_LIMIT)];
    let mut program = Program {
        table: Vec::new(),
        figures: [0; FIGURES],
        list: Vec::new(),
        started: false,
        delay: DELAY,
        output: Vec::new(),
    };
    // A line feed ends a line: after a last one no further line begins.
    let lines = input.strip_suffix(b"\n").unwrap_or(input);
    if !input.is_empty() {
        for (place, line) in lines.split(|&octet| octet == b'\n').enumerate() {
            if program.line(place, line).is_none() {
                program.output.extend_from_slice(b"?\n");
            }
        }
    }
    program.output
}

struct Program {
    table: Vec<u64>,
    /// Its figures. A number is added open, free and without a notice.
    figures: [u64; FIGURES],
    list: Vec<u64>,
    /// Whether an `R`, `T` or `D` was answered, which ends the filling.
    started: bool,
    delay: u32,
    output: Vec<u8>,
}

impl Program {
    /// Carries out one line. `None` is a line that prints `?`; it has changed
    /// nothing.
    fn line(&mut self, place: usize, line: &[u8]) -> Option<()> {
        let (letter, rest) = split_field(line)?;
        match letter {
            b"N" if !self.started => self.add_number(rest),
            b"S" if !self.started => self.add_subscriber(rest),
            b"R" => self.request(rest),
            b"T" => self.sending(rest),
            b"D" => self.result(rest),
            b"W" if place == 0 => self.set_delay(rest),
            _ => None,
        }
    }

    fn set_delay(&mut self, rest: &[u8]) -> Option<()> {
        self.delay = value(rest).filter(|seconds| matches!(seconds, 0 | 60..=600))?;
        Some(())
    }

    fn add_number(&mut self, rest: &[u8]) -> Option<()> {
        let number = number_from_digits(rest)?;
        let records: &[Record] = self.table.as_chunks().0;
        let fits = records.len() < MAX_RECORDS && records.last().is_none_or(|r| r[NUMBER] < number);
        fits.then(|| self.table.extend(free_record(number)))
    }

    fn add_subscriber(&mut self, rest: &[u8]) -> Option<()> {
        let (msisdn, flags) = split_field(rest)?;
        let msisdn = number_from_digits(msisdn)?;
        let flags = value(flags).filter(|&flags| flags <= 3)?;
        let rows: &[Subscriber] = self.list.as_chunks().0;
        let fits = rows.len() < MAX_SUBSCRIBERS && rows.last().is_none_or(|r| r[0] < msisdn);
        fits.then(|| self.list.extend([msisdn, u64::from(flags)]))
    }

    fn request(&mut self, rest: &[u8]) -> Option<()> {
        let (requester, string) = split_field(rest)?;
        let requester = named(requester)?;
        self.started = true;
        let mut octets = vec![0; packed_length(string.len())];
        let mut reply = [0; ROOM];
        let answer = match pack(string, &mut octets) {
            Ok(_) => request(
                &mut self.table,
                &mut self.figures,
                &self.list,
                &mut reply,
                requester,
                0x0F,
                &octets,
            ),
            Err(refusal) => Answer::Refusal(refusal),
        };
        self.print(b"R", answer, &reply);
        Some(())
    }

    fn sending(&mut self, rest: &[u8]) -> Option<()> {
        let (now, number) = split_field(rest)?;
        let (now, number) = (value(now)?, named(number)?);
        self.started = true;
        let mut buffer = [0; ROOM];
        let (table, figures) = (&mut self.table, &mut self.figures);
        let answer = sending(table, figures, &mut buffer, number, self.delay, now);
        self.print(b"T", answer, &buffer);
        Some(())
    }

    fn result(&mut self, rest: &[u8]) -> Option<()> {
        let (now, rest) = split_field(rest)?;
        let (number, kind) = split_field(rest)?;
        let (now, number, kind) = (value(now)?, named(number)?, value(kind)?);
        self.started = true;
        let answer = result(&mut self.table, &mut self.figures, number, kind, now);
        self.print(b"D", answer, &[]);
        Some(())
    }

    /// Prints the line for an answer whose text, if it has one, is in `buffer`.
    fn print(&mut self, letter: &[u8], answer: Answer, buffer: &[u8]) {
        let out = &mut self.output;
        out.extend_from_slice(letter);
        out.push(b' ');
        match answer {
            Answer::Refusal(n) => out.extend_from_slice(format!("refused {n}").as_bytes()),
            Answer::Error(n) => out.extend_from_slice(format!("error {n}").as_bytes()),
            Answer::Outcome { octets, .. } => put_unpacked(&buffer[..octets], out),
            Answer::Sent { addressee, octets } => {
                out.extend_from_slice(Text::new().put_number(addressee).as_slice());
                out.push(b' ');
                put_unpacked(&buffer[..octets], out);
            }
            Answer::Delivered => out.extend_from_slice(b"delivered"),
            Answer::Dropped => out.extend_from_slice(b"dropped"),
            Answer::Again => out.extend_from_slice(b"again"),
            Answer::Found(_) | Answer::NoneDue => unreachable!("the program finds nothing"),
            Answer::Closed | Answer::Rows { .. } => {
                unreachable!("the program withdraws no numbers")
            }
            Answer::AskNetwork(_) | Answer::Routed { .. } => {
                unreachable!("the program routes no messages")
            }
            Answer::ReturnError { .. } | Answer::Reject { .. } => {
                unreachable!("the program's requests are not framed")
            }
        }
        out.push(b'\n');
    }
}

/// Appends the characters of a packed reply or notice.
fn put_unpacked(octets: &[u8], out: &mut Vec<u8>) {
    let mut chars = [0; ROOM_CHARACTERS];
    let count = unpack(octets, &mut chars).expect("what the node packs unpacks");
    out.extend_from_slice(&chars[..count]);
}

/// The field before the first space, and what follows that space.
fn split_field(line: &[u8]) -> Option<(&[u8], &[u8])> {
    let space = line.iter().position(|&octet| octet == b' ')?;
    Some((&line[..space], &line[space + 1..]))
}

/// The number that an `R`, `T` or `D` names: one or more digits, malformed if
/// there are not 5 to 15 of them. `None` if the field is anything else.
fn named(field: &[u8]) -> Option<u64> {
    let is_digits = !field.is_empty() && field.iter().all(u8::is_ascii_digit);
    is_digits.then(|| number_from_digits(field).unwrap_or(MALFORMED))
}

/// The value of one or more digits, if it is below 2^32.
fn value(field: &[u8]) -> Option<u32> {
    if field.is_empty() {
        return None;
    }
    field.iter().try_fold(0u32, |value, octet| {
        let digit = char::from(*octet).to_digit(10)?;
        value.checked_mul(10)?.checked_add(digit)
    })
}
