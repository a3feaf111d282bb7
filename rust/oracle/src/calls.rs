//! The lines of the program `calls`: memory that is set, calls that are made
//! on it, and what is printed of each call. Its head says what a line may be.

use std::fmt::Write;

use crate::crew::crew_codes;
use crate::frame::{read_register, read_release, write_register, Invoked, Released};
use crate::node::{finding, framed_request, request, result, sending, Answer};
use crate::number::is_number;
use crate::packing::{pack, packed_length, unpack};
use crate::rows::{recount, FIGURES, RECORD_WORDS, SUBSCRIBER_WORDS};
use crate::string::{read_request, write_request, Fields, Operation};

/// The octets of input that the program has room for.
pub const CALLS_INPUT_LIMIT: usize = 64 * 1024;

/// The words of a table and a list stay below these.
const TABLE_WORDS: usize = RECORD_WORDS * 1100;
const LIST_WORDS: usize = SUBSCRIBER_WORDS * 4200;

/// The most octets of a buffer, and the room for a tail.
const MAX_BUFFER: usize = 512;
const TAIL_ROOM: usize = 1024;

/// The most words of a line, and of one that sets figures.
const MAX_WORDS: usize = 24;
const MAX_FIGURES: usize = 8;

/// Carries out the lines of `input` and returns what they print.
pub fn run_calls(input: &[u8]) -> Vec<u8> {
    let mut calls = Calls {
        figures: vec![0; FIGURES],
        ..Calls::default()
    };
    let lines = input.strip_suffix(b"\n").unwrap_or(input);
    if !input.is_empty() {
        for line in lines.split(|&octet| octet == b'\n') {
            calls.line(line);
        }
    }
    calls.output
}

#[derive(Default)]
struct Calls {
    table: Vec<u64>,
    figures: Vec<u64>,
    /// Whether a line set the figures since one set the table.
    shows_figures: bool,
    list: Vec<u64>,
    room: usize,
    filling: u8,
    output: Vec<u8>,
}

/// What stands behind the words of a line.
#[derive(Clone, Copy)]
enum Tail<'a> {
    None,
    Text(&'a [u8]),
    Hexadecimal(&'a [u8]),
}

impl Tail<'_> {
    /// The octets as they stand; no tail is none.
    fn octets(self) -> Option<Vec<u8>> {
        match self {
            Self::None => Some(Vec::new()),
            Self::Text(text) => (text.len() < TAIL_ROOM).then(|| text.to_vec()),
            Self::Hexadecimal(digits) => {
                let (pairs, []) = digits.as_chunks::<2>() else {
                    return None;
                };
                let octets: Option<Vec<u8>> = pairs.iter().map(octet).collect();
                octets.filter(|octets| octets.len() <= TAIL_ROOM)
            }
        }
    }

    /// The octets of a string: a text is packed.
    fn string(self) -> Option<Vec<u8>> {
        let octets = self.octets()?;
        let Self::Text(_) = self else {
            return Some(octets);
        };
        let mut packed = vec![0; packed_length(octets.len())];
        pack(&octets, &mut packed).ok()?;
        Some(packed)
    }
}

/// The octet of two hexadecimal digits in lower case.
fn octet(digits: &[u8; 2]) -> Option<u8> {
    let value = |digit: u8| match digit {
        b'0'..=b'9' => Some(digit - b'0'),
        b'a'..=b'f' => Some(digit - b'a' + 10),
        _ => None,
    };
    Some(16 * value(digits[0])? + value(digits[1])?)
}

/// The words and the tail of what follows a name.
fn fields(mut rest: Option<&[u8]>) -> Option<(Vec<u64>, Tail<'_>)> {
    let mut words = Vec::new();
    while let Some(fields) = rest {
        match fields {
            [b'\'', text @ ..] => return Some((words, Tail::Text(text))),
            [b'x', digits @ ..] => return Some((words, Tail::Hexadecimal(digits))),
            _ => {}
        }
        let (field, behind) = split(fields);
        if field.is_empty() || !field.iter().all(u8::is_ascii_digit) || words.len() == MAX_WORDS {
            return None;
        }
        words.push(std::str::from_utf8(field).ok()?.parse().ok()?);
        rest = behind;
    }
    Some((words, Tail::None))
}

/// What stands before the first space, and behind it if there is one.
fn split(line: &[u8]) -> (&[u8], Option<&[u8]>) {
    match line.iter().position(|&octet| octet == b' ') {
        Some(space) => (&line[..space], Some(&line[space + 1..])),
        None => (line, None),
    }
}

fn small(word: u64) -> Option<u32> {
    word.try_into().ok()
}

fn low(word: u64) -> Option<u8> {
    word.try_into().ok()
}

/// The fields of a request: operation, number and perhaps MSISDN as words, the
/// additional field as a tail.
fn request_fields(words: &[u64], tail: Tail) -> Option<Fields<Vec<u8>>> {
    let (operation, number, forced) = match *words {
        [operation, number] => (operation, number, None),
        [operation, number, msisdn] => (operation, number, Some(msisdn)),
        _ => return None,
    };
    let operation = match operation {
        0 => Operation::Register,
        1 => Operation::Erase,
        2 => Operation::Interrogate,
        _ => return None,
    };
    Some(Fields {
        operation,
        number,
        forced,
        additional: tail.octets()?,
    })
}

/// Puts words behind others if they stay below `limit`.
fn extend(memory: &mut Vec<u64>, limit: usize, words: impl Iterator<Item = u64>) -> Option<()> {
    let used = memory.len();
    memory.extend(words.take(limit - used));
    let fits = memory.len() < limit;
    if !fits {
        memory.truncate(used);
    }
    fits.then_some(())
}

/// The words of rows, the first of each counted up.
fn rows(words: &[u64]) -> Option<impl Iterator<Item = u64> + '_> {
    let [count, row @ ..] = words else {
        return None;
    };
    let first = *row.first()?;
    let rows = (0..*count)
        .flat_map(move |n| std::iter::once(first.wrapping_add(n)).chain(row[1..].iter().copied()));
    Some(rows)
}

impl Calls {
    fn line(&mut self, line: &[u8]) {
        match line {
            [] | [b'#', ..] => {
                self.output.extend(line);
                self.output.push(b'\n');
            }
            [b':', title @ ..] => {
                self.output.extend(title.get(1..).unwrap_or_default());
                self.output.extend(b": ");
            }
            _ => {
                let said = self.named(line).unwrap_or_else(|| "?\n".into());
                self.output.extend(said.into_bytes());
            }
        }
    }

    /// What a line with a name prints; `None` is a line that prints `?`.
    fn named(&mut self, line: &[u8]) -> Option<String> {
        let (name, rest) = split(line);
        let (words, tail) = fields(rest)?;
        let takes_tail = matches!(
            name,
            b"request"
                | b"pack"
                | b"unpack"
                | b"write"
                | b"read"
                | b"framed"
                | b"register"
                | b"registered"
                | b"released"
        );
        if !takes_tail && !matches!(tail, Tail::None) {
            return None;
        }
        let silent = |()| String::new();
        match (name, words.as_slice()) {
            (b"table", words) => {
                self.table.clear();
                self.extend_table(words.iter().copied()).map(silent)
            }
            (b"table+", words) => self.extend_table(words.iter().copied()).map(silent),
            (b"table*", words) => self.extend_table(rows(words)?).map(silent),
            (b"figures", words) if words.len() <= MAX_FIGURES => {
                (self.figures, self.shows_figures) = (words.to_vec(), true);
                Some(String::new())
            }
            (b"recount", []) => Some(match recount(&self.table) {
                Some(figures) => format!("recounted{}\n", spaced(&figures)),
                None => "refused 2\n".into(),
            }),
            (b"list", words) => {
                self.list.clear();
                extend(&mut self.list, LIST_WORDS, words.iter().copied()).map(silent)
            }
            (b"list+", words) => {
                extend(&mut self.list, LIST_WORDS, words.iter().copied()).map(silent)
            }
            (b"list*", words) => extend(&mut self.list, LIST_WORDS, rows(words)?).map(silent),
            (b"buffer", &[room, filling]) => self.buffer(room, filling).map(silent),
            (b"request", &[requester, scheme]) => self.request(requester, scheme, tail),
            (b"sending", &[number, delay, now]) => self.sending(number, delay, now),
            (b"result", &[number, kind, now]) => self.result(number, kind, now),
            (b"finding", &[delay, now]) => {
                let answer = finding(&self.table, small(delay)?, small(now)?);
                Some(format!("{}\n", said(answer)))
            }
            (b"pack", []) => self.writing(|out| tail.octets().map(|chars| pack(&chars, out))),
            (b"unpack", []) => self.writing(|out| tail.octets().map(|octets| unpack(&octets, out))),
            (b"write", words) => {
                let fields = request_fields(words, tail)?;
                self.writing(|out| Some(write_request(&fields, out)))
            }
            (b"read", []) => Some(reading(&tail.string()?)),
            (b"framed", &[requester]) => self.framed(requester, &tail.octets()?),
            (b"register", [transaction, invoke, words @ ..]) => {
                let (transaction, invoke) = (low(*transaction)?, low(*invoke)?);
                let fields = request_fields(words, tail)?;
                self.writing(|out| Some(write_register(transaction, invoke, &fields, out)))
            }
            (b"registered", []) => Some(registered(&tail.octets()?)),
            (b"released", []) => Some(released(&tail.octets()?)),
            (b"number", &[word]) => Some(
                if is_number(word) {
                    "a number\n"
                } else {
                    "no number\n"
                }
                .into(),
            ),
            _ => None,
        }
    }

    /// Puts words behind the table. It gets the figures of a recount, zeros where
    /// it is unsound.
    fn extend_table(&mut self, words: impl Iterator<Item = u64>) -> Option<()> {
        extend(&mut self.table, TABLE_WORDS, words)?;
        self.figures = recount(&self.table).unwrap_or_default().to_vec();
        self.shows_figures = false;
        Some(())
    }

    fn buffer(&mut self, room: u64, filling: u64) -> Option<()> {
        let room = usize::try_from(room).ok().filter(|&n| n <= MAX_BUFFER)?;
        (self.room, self.filling) = (room, u8::try_from(filling).ok()?);
        Some(())
    }

    fn request(&mut self, requester: u64, scheme: u64, tail: Tail) -> Option<String> {
        let (scheme, string) = (scheme.try_into().ok()?, tail.string()?);
        let mut reply = vec![self.filling; self.room];
        let before = self.table.clone();
        let (table, figures) = (&mut self.table, &mut self.figures);
        let list = &self.list;
        let answer = request(table, figures, list, &mut reply, requester, scheme, &string);
        Some(said(answer) + &self.octets(&reply, count(answer)) + &self.after(&before))
    }

    fn framed(&mut self, requester: u64, message: &[u8]) -> Option<String> {
        let mut frame = vec![self.filling; self.room];
        let before = self.table.clone();
        let (table, figures) = (&mut self.table, &mut self.figures);
        let answer = framed_request(table, figures, &self.list, &mut frame, requester, message);
        Some(said(answer) + &self.octets(&frame, count(answer)) + &self.after(&before))
    }

    fn sending(&mut self, number: u64, delay: u64, now: u64) -> Option<String> {
        let (delay, now) = (small(delay)?, small(now)?);
        let mut buffer = vec![self.filling; self.room];
        let before = self.table.clone();
        let (table, figures) = (&mut self.table, &mut self.figures);
        let answer = sending(table, figures, &mut buffer, number, delay, now);
        Some(said(answer) + &self.octets(&buffer, count(answer)) + &self.after(&before))
    }

    fn result(&mut self, number: u64, kind: u64, now: u64) -> Option<String> {
        let (kind, now) = (small(kind)?, small(now)?);
        let before = self.table.clone();
        let answer = result(&mut self.table, &mut self.figures, number, kind, now);
        Some(said(answer) + &self.after(&before))
    }

    /// What a writer answers and writes into a buffer.
    fn writing(
        &self,
        write: impl FnOnce(&mut [u8]) -> Option<Result<usize, u8>>,
    ) -> Option<String> {
        let mut out = vec![self.filling; self.room];
        let written = write(&mut out)?;
        let said = match written {
            Ok(count) => count.to_string(),
            Err(refusal) => format!("refused {refusal}"),
        };
        Some(said + &self.octets(&out, written.unwrap_or(0)) + "\n")
    }

    /// The octets that were written, and what lies beyond.
    fn octets(&self, buffer: &[u8], count: usize) -> String {
        let (written, beyond) = buffer.split_at(count);
        let mut text = String::from(" [");
        for octet in written {
            write!(text, " {octet:02x}").expect("a string takes all");
        }
        let left = beyond
            .iter()
            .filter(|&&octet| octet == self.filling)
            .count();
        write!(text, " ] {left} of {:02x}", self.filling).expect("a string takes all");
        if left < beyond.len() {
            text += ", others changed";
        }
        text
    }

    /// The rows that are not as before, if there are any, and the figures where
    /// they are shown.
    fn after(&self, before: &[u64]) -> String {
        let mut text = String::new();
        let rows = |table| <[u64]>::chunks(table, RECORD_WORDS);
        let rows = rows(&self.table).zip(rows(before)).enumerate();
        for (place, (row, _)) in rows.filter(|(_, (row, before))| row != before) {
            write!(text, ", row {place}:{}", spaced(row)).expect("a string takes all");
        }
        if text.is_empty() {
            text += ", table stays";
        }
        if self.shows_figures {
            text += ", figures";
            text += &spaced(&self.figures);
        }
        text + "\n"
    }
}

/// Each word behind a space.
fn spaced(words: &[u64]) -> String {
    words.iter().map(|word| format!(" {word}")).collect()
}

fn said(answer: Answer) -> String {
    match answer {
        Answer::Refusal(n) => format!("refused {n}"),
        Answer::Error(n) => format!("error {n}"),
        Answer::Outcome {
            number: 3,
            octets,
            msisdn,
        } => format!("outcome 03, holder {msisdn}, {octets} octets"),
        Answer::Outcome { number, octets, .. } => format!("outcome {number:02}, {octets} octets"),
        Answer::ReturnError { code, octets } => format!("return error {code}, {octets} octets"),
        Answer::Reject { problem, octets } => format!("reject {problem}, {octets} octets"),
        Answer::Sent { addressee, octets } => format!("sent to {addressee}, {octets} octets"),
        Answer::Delivered => "delivered".into(),
        Answer::Dropped => "dropped".into(),
        Answer::Again => "again".into(),
        Answer::Found(number) => format!("due {number}"),
        Answer::NoneDue => "none due".into(),
        Answer::Closed | Answer::Rows { .. } => {
            unreachable!("the program withdraws no numbers")
        }
        Answer::AskNetwork(_) | Answer::Routed { .. } => {
            unreachable!("the program routes no messages")
        }
    }
}

/// How many octets an answer says to have written.
fn count(answer: Answer) -> usize {
    match answer {
        Answer::Outcome { octets, .. }
        | Answer::ReturnError { octets, .. }
        | Answer::Reject { octets, .. }
        | Answer::Sent { octets, .. } => octets,
        _ => 0,
    }
}

/// What a Register reads as.
fn registered(message: &[u8]) -> String {
    match read_register(message) {
        Err(refusal) => format!("refused {refusal}\n"),
        Ok(read) => {
            let content = match read.content {
                Invoked::Problem(problem) => format!("problem {problem}"),
                Invoked::Request { scheme, string } => format!(
                    "scheme {scheme}, string from {}, {} octets",
                    string.start, string.length
                ),
            };
            format!("first {}, invoke {}, {content}\n", read.first, read.invoke)
        }
    }
}

/// What a Release Complete reads as.
fn released(message: &[u8]) -> String {
    match read_release(message) {
        Err(refusal) => format!("refused {refusal}\n"),
        Ok(read) => {
            let content = match read.content {
                Released::Result(string) => {
                    format!("result from {}, {} octets", string.start, string.length)
                }
                Released::Error(code) => format!("error {code}"),
                Released::Reject(problem) => format!("problem {problem}"),
            };
            format!("first {}, invoke {}, {content}\n", read.first, read.invoke)
        }
    }
}

/// What a request's string reads as.
fn reading(octets: &[u8]) -> String {
    let Some(fields) = read_request(octets) else {
        return "error 36\n".into();
    };
    let operation = match fields.operation {
        Operation::Register => "register",
        Operation::Erase => "erase",
        Operation::Interrogate => "interrogate",
    };
    let msisdn = fields.forced.map_or("none".into(), |word| word.to_string());
    let additional = fields.additional.as_ref();
    // It stands before the last character.
    let mut chars = vec![0; 2 * octets.len()];
    let length = unpack(octets, &mut chars).expect("a string that reads unpacks");
    let crew = crew_codes(additional).map_or(String::new(), |codes| {
        format!(", of a crew, codes {}", codes.len())
    });
    format!(
        "{operation}, number {}, MSISDN {msisdn}, additional from {}, {} characters '{}'{crew}\n",
        fields.number,
        length - 1 - additional.len(),
        additional.len(),
        String::from_utf8_lossy(additional),
    )
}
