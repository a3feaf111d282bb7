//! Inputs for random tests: calls with the memory they are lent, and inputs of
//! the programs.
//!
//! A [`Generator`] with the same seed makes the same inputs. It aims at what
//! the papers tell apart: most calls get past the first checks, and every
//! refusal, error and outcome comes up often.
//!
//! To compare another implementation, take a [`Call`], run a copy of it here
//! with [`Call::run`] and the other one there, and compare the replies and the
//! memory: equal calls have equal memory.
//! Calls to a radio, with its state, come from [`radio::case`].

use std::collections::{BTreeMap, BTreeSet};

use crate::crew::{crew_codes, member, LEAD};
use crate::frame::{
    read_register, read_release, write_register, Invoked, Message, Place, Released,
};
use crate::image::{read_image, write_image};
use crate::node::{finding, framed_request, request, result, sending, terminal_erasure, Answer};
use crate::number::{digit_count, is_number};
use crate::packing::{pack, unpack};
use crate::routing::routing;
use crate::rows::{
    figures_of, free_record, recount, Record, ADDRESSEE, CLOSED, FAILURE, FIGURES, HOLDER,
    LAST_PHASE, MAX_RECORDS, MAX_SUBSCRIBERS, NOBODY, NOTICE, NUMBER, PHASE, RECORD_WORDS,
    SUBSCRIBER_WORDS, SUPERVISOR,
};
use crate::string::{read_request, write_request, Additional, Fields, Operation};
use crate::text::Text;
use crate::withdrawal::{add, close, compact};

mod along;
mod frames;
mod images;
pub mod radio;
mod routings;
mod terminal;
mod withdrawals;

pub use along::Along;
pub use frames::changed_frames;

/// Lengths of buffers around the limits.
pub const BUFFER_LENGTHS: [usize; 10] = [0, 79, 80, 81, 119, 120, 121, 159, 160, 200];

/// The place of the MSISDN among the pieces of a string.
const MSISDN: usize = 7;

/// Codes of crews are often below this, so that crews of one root meet.
const CLOSE_CODES: u64 = 14;

/// Delays around the limits.
pub const DELAYS: [u32; 7] = [0, 59, 60, 61, 599, 600, 601];

/// A small generator of random words (splitmix64).
#[derive(Clone, Debug)]
pub struct Random {
    state: u64,
}

impl Random {
    pub fn new(seed: u64) -> Self {
        Self { state: seed }
    }

    /// Any word.
    pub fn word(&mut self) -> u64 {
        self.state = self.state.wrapping_add(0x9E37_79B9_7F4A_7C15);
        let z = self.state;
        let z = (z ^ z >> 30).wrapping_mul(0xBF58_476D_1CE4_E5B9);
        let z = (z ^ z >> 27).wrapping_mul(0x94D0_49BB_1331_11EB);
        z ^ z >> 31
    }

    /// A word below `limit`, which is not 0. (The slight lean of the remainder
    /// does not matter here.)
    pub fn below(&mut self, limit: u64) -> u64 {
        self.word() % limit
    }

    /// An index below `limit`, which is not 0.
    pub fn index(&mut self, limit: usize) -> usize {
        self.below(limit as u64) as usize
    }

    /// True once in `times`.
    pub fn once_in(&mut self, times: u64) -> bool {
        self.below(times) == 0
    }

    /// One of `items`, which are not none.
    pub fn pick<T: Copy>(&mut self, items: &[T]) -> T {
        items[self.index(items.len())]
    }

    /// Any octet.
    pub fn octet(&mut self) -> u8 {
        self.word() as u8
    }
}

/// The ways in which a table can be unsound. Each breaks one rule and keeps
/// the others.
#[derive(Clone, Copy, Debug, PartialEq, Eq)]
pub enum TableDamage {
    /// A length that is not whole records.
    Length,
    /// Over 1,024 records.
    TooMany,
    /// Two records of one number.
    Equal,
    /// Two records in the wrong order.
    Descending,
    /// A malformed functional number.
    Number,
    /// A malformed holder.
    Holder,
    /// A phase above the last.
    Phase,
    /// Phase 0 with an addressee, a supervisor or a last failure.
    IdleAddressee,
    IdleSupervisor,
    IdleFailure,
    /// A notice with a malformed addressee or supervisor, or to nobody.
    Addressee,
    Supervisor,
    /// A notice whose addressee is the supervisor.
    SameNumbers,
    /// A last failure of 2^32 or more, where one is allowed.
    FailureTooLarge,
    /// A last failure other than 0, where none is allowed.
    FailureTooEarly,
    /// A seventh word other than 0 and 1.
    Closed,
    /// Rows without their seventh word.
    SixWords,
}

impl TableDamage {
    pub const ALL: [Self; 17] = [
        Self::Length,
        Self::TooMany,
        Self::Equal,
        Self::Descending,
        Self::Number,
        Self::Holder,
        Self::Phase,
        Self::IdleAddressee,
        Self::IdleSupervisor,
        Self::IdleFailure,
        Self::Addressee,
        Self::Supervisor,
        Self::SameNumbers,
        Self::FailureTooLarge,
        Self::FailureTooEarly,
        Self::Closed,
        Self::SixWords,
    ];
}

/// The ways in which a list can be unsound. Each breaks one rule and keeps the
/// others.
#[derive(Clone, Copy, Debug, PartialEq, Eq)]
pub enum ListDamage {
    /// A length that is not whole rows.
    Length,
    /// Over 4,096 rows.
    TooMany,
    /// Two rows of one MSISDN.
    Equal,
    /// Two rows in the wrong order.
    Descending,
    /// A malformed MSISDN.
    Msisdn,
    /// Flags above 3.
    Flags,
}

impl ListDamage {
    pub const ALL: [Self; 6] = [
        Self::Length,
        Self::TooMany,
        Self::Equal,
        Self::Descending,
        Self::Msisdn,
        Self::Flags,
    ];
}

/// The ways in which figures can differ from a recount.
#[derive(Clone, Copy, Debug, PartialEq, Eq)]
pub enum FiguresDamage {
    /// One of them is one more or one less.
    ByOne,
    /// One of them differs in a high bit alone.
    ByHighBit,
    /// Two of them are exchanged.
    Exchanged,
    /// The last is missing, there is a fourth, or there are none.
    Two,
    Four,
    None,
}

impl FiguresDamage {
    pub const ALL: [Self; 6] = [
        Self::ByOne,
        Self::ByHighBit,
        Self::Exchanged,
        Self::Two,
        Self::Four,
        Self::None,
    ];
}

/// A call and all the memory that it is lent.
#[derive(Clone, Debug, PartialEq, Eq)]
pub enum Call {
    Request {
        table: Vec<u64>,
        figures: Vec<u64>,
        list: Vec<u64>,
        reply: Vec<u8>,
        requester: u64,
        scheme: u8,
        string: Vec<u8>,
    },
    Sending {
        table: Vec<u64>,
        figures: Vec<u64>,
        buffer: Vec<u8>,
        number: u64,
        delay: u32,
        now: u32,
    },
    Result {
        table: Vec<u64>,
        figures: Vec<u64>,
        number: u64,
        kind: u32,
        now: u32,
    },
    Finding {
        table: Vec<u64>,
        delay: u32,
        now: u32,
    },
    Recount {
        table: Vec<u64>,
    },
    Pack {
        chars: Vec<u8>,
        out: Vec<u8>,
    },
    Unpack {
        octets: Vec<u8>,
        out: Vec<u8>,
    },
    WriteRequest {
        fields: Fields<Vec<u8>>,
        out: Vec<u8>,
    },
    ReadRequest {
        octets: Vec<u8>,
    },
    IsNumber {
        word: u64,
    },
    FramedRequest {
        table: Vec<u64>,
        figures: Vec<u64>,
        list: Vec<u64>,
        frame: Vec<u8>,
        requester: u64,
        message: Vec<u8>,
    },
    WriteRegister {
        transaction: u8,
        invoke: u8,
        fields: Fields<Vec<u8>>,
        frame: Vec<u8>,
    },
    ReadRegister {
        message: Vec<u8>,
    },
    ReadRelease {
        message: Vec<u8>,
    },
    WriteImage {
        table: Vec<u64>,
        figures: Vec<u64>,
        list: Vec<u64>,
        image: Vec<u8>,
    },
    ReadImage {
        image: Vec<u8>,
        table: Vec<u64>,
        list: Vec<u64>,
        figures: Vec<u64>,
    },
    Close {
        table: Vec<u64>,
        figures: Vec<u64>,
        number: u64,
    },
    Compact {
        words: Vec<u64>,
        rows: usize,
        figures: Vec<u64>,
    },
    Add {
        words: Vec<u64>,
        rows: usize,
        figures: Vec<u64>,
        number: u64,
    },
    TerminalErasure {
        table: Vec<u64>,
        figures: Vec<u64>,
        reply: Vec<u8>,
        number: u64,
        holder: u64,
    },
    Routing {
        table: Vec<u64>,
        code: Vec<u8>,
        digits: Vec<u8>,
        coded: bool,
    },
}

/// What a call returns.
#[derive(Clone, Copy, Debug, PartialEq, Eq)]
pub enum Reply {
    /// Of a request, framed or not, a sending, result or finding, of closing,
    /// compacting or adding, of an erasure at the terminal, of a routing.
    Answer(Answer),
    /// Of a recount.
    Figures(Option<[u64; FIGURES]>),
    /// Of the packer, the unpacker, or the writer of a request, a Register or an
    /// image.
    Count(Result<usize, u8>),
    /// Of the request reader.
    Fields(Option<Fields<Additional>>),
    /// Of the test for a number.
    IsNumber(bool),
    /// Of the readers of frames.
    Register(Result<Message<Invoked>, u8>),
    Release(Result<Message<Released<Place>>, u8>),
    /// Of the reader of images: the counts of table and list rows.
    Rows(Result<(usize, usize), u8>),
}

impl Call {
    /// Carries out the call on its memory.
    pub fn run(&mut self) -> Reply {
        match self {
            Self::Request {
                table,
                figures,
                list,
                reply,
                requester,
                scheme,
                string,
            } => Reply::Answer(request(
                table, figures, list, reply, *requester, *scheme, string,
            )),
            Self::Sending {
                table,
                figures,
                buffer,
                number,
                delay,
                now,
            } => Reply::Answer(sending(table, figures, buffer, *number, *delay, *now)),
            Self::Result {
                table,
                figures,
                number,
                kind,
                now,
            } => Reply::Answer(result(table, figures, *number, *kind, *now)),
            Self::Finding { table, delay, now } => Reply::Answer(finding(table, *delay, *now)),
            Self::Recount { table } => Reply::Figures(recount(table)),
            Self::Pack { chars, out } => Reply::Count(pack(chars, out)),
            Self::Unpack { octets, out } => Reply::Count(unpack(octets, out)),
            Self::WriteRequest { fields, out } => Reply::Count(write_request(fields, out)),
            Self::ReadRequest { octets } => Reply::Fields(read_request(octets)),
            Self::IsNumber { word } => Reply::IsNumber(is_number(*word)),
            Self::FramedRequest {
                table,
                figures,
                list,
                frame,
                requester,
                message,
            } => Reply::Answer(framed_request(
                table, figures, list, frame, *requester, message,
            )),
            Self::WriteRegister {
                transaction,
                invoke,
                fields,
                frame,
            } => Reply::Count(write_register(*transaction, *invoke, fields, frame)),
            Self::ReadRegister { message } => Reply::Register(read_register(message)),
            Self::ReadRelease { message } => Reply::Release(read_release(message)),
            Self::WriteImage {
                table,
                figures,
                list,
                image,
            } => Reply::Count(write_image(table, figures, list, image)),
            Self::ReadImage {
                image,
                table,
                list,
                figures,
            } => Reply::Rows(read_image(image, table, list, figures)),
            Self::Close {
                table,
                figures,
                number,
            } => Reply::Answer(close(table, figures, *number)),
            Self::Compact {
                words,
                rows,
                figures,
            } => Reply::Answer(compact(words, *rows, figures)),
            Self::Add {
                words,
                rows,
                figures,
                number,
            } => Reply::Answer(add(words, *rows, figures, *number)),
            Self::TerminalErasure {
                table,
                figures,
                reply,
                number,
                holder,
            } => Reply::Answer(terminal_erasure(table, figures, reply, *number, *holder)),
            Self::Routing {
                table,
                code,
                digits,
                coded,
            } => Reply::Answer(routing(table, code, digits, *coded)),
        }
    }
}

/// Packs values 0 to 127 bit by bit, as document 01 words it, a carriage
/// return among them if asked for.
pub fn pack_by_bits(chars: &[u8]) -> Vec<u8> {
    let mut bits: Vec<u8> = Vec::with_capacity(7 * chars.len() + 7);
    let mut put = |char: u8| bits.extend((0..7).map(|bit| char >> bit & 1));
    chars.iter().for_each(|&char| put(char));
    if chars.len() % 8 == 7 {
        put(13);
    }
    bits.chunks(8)
        .map(|octet| octet.iter().rev().fold(0, |sum, bit| 2 * sum + bit))
        .collect()
}

/// Makes inputs from a seed.
#[derive(Clone, Debug)]
pub struct Generator {
    random: Random,
}

/// Numbers, tables and lists.
impl Generator {
    pub fn new(seed: u64) -> Self {
        Self {
            random: Random::new(seed),
        }
    }

    /// A number in stored form: of any length, at the ends of a length, or
    /// close to others made here.
    pub fn number(&mut self) -> u64 {
        let r = &mut self.random;
        let low = match r.below(4) {
            0 => r.pick(&[100_000, 1_000_000_000_000_000]),
            _ => 10u64.pow(5 + r.below(11) as u32),
        };
        match r.below(10) {
            0 => low,
            1 => 2 * low - 1,
            // The digits of one are those of the other without its zero.
            2 => r.pick(&[10_492_123_400, 1_492_123_400]) + r.below(10),
            3 => 14_915_100_000 + r.below(20),
            // One or more zeros in front.
            4 => low + r.below(low / 10),
            _ => low + r.below(low),
        }
    }

    /// A word other than 0 that is not a number.
    pub fn malformed(&mut self) -> u64 {
        const FIXED: [u64; 10] = [
            1,
            9,
            12_345,
            19_999,
            99_999,
            200_000,
            2_000_000_000_000_000,
            10_000_000_000_000_000,
            19_999_999_999_999_999,
            u64::MAX,
        ];
        let r = &mut self.random;
        let low = 10u64.pow(5 + r.below(11) as u32);
        match r.below(6) {
            0 | 1 => r.pick(&FIXED),
            2 => low - 1,
            3 => 2 * low,
            // The digits alone, without the 1 in front.
            4 => 4_915_100_000 + r.below(20),
            // From 2 * low on, eight parts of ten in front of the next span.
            _ => 2 * low + r.below(8 * low),
        }
    }

    /// A reading of the second counter, often close to the wrap.
    pub fn second(&mut self) -> u32 {
        let near = self.random.below(700) as u32;
        match self.random.below(4) {
            0 => near,
            1 => u32::MAX - near,
            2 => self.random.pick(&[0, 1, 1 << 31, (1 << 31) - 1, u32::MAX]),
            _ => self.random.word() as u32,
        }
    }

    /// A delay, often one of those around the limits.
    pub fn delay(&mut self) -> u32 {
        match self.random.below(10) {
            0..=4 => self.random.pick(&DELAYS),
            5 => self.random.pick(&[1, 256, 65_596, 1 << 31, u32::MAX]),
            6 => self.random.word() as u32,
            _ => 60 + self.random.below(541) as u32,
        }
    }

    /// `count` strictly ascending numbers, some of them from `others`.
    fn ascending(&mut self, count: usize, others: &[u64]) -> BTreeSet<u64> {
        let mut numbers = BTreeSet::new();
        while numbers.len() < count {
            let number = match others {
                [] => self.number(),
                _ if self.random.below(5) > 0 => self.number(),
                _ => self.random.pick(others),
            };
            numbers.insert(number);
        }
        numbers
    }

    /// A sound list of `rows` rows.
    pub fn list(&mut self, rows: usize) -> Vec<u64> {
        let mut list = Vec::with_capacity(SUBSCRIBER_WORDS * rows + 1);
        for msisdn in self.ascending(rows, &[]) {
            list.extend([msisdn, self.random.pick(&[0, 1, 1, 1, 2, 3, 3, 3, 3, 3])]);
        }
        list
    }

    /// A sound table of `rows` records, some of them closed, whose numbers,
    /// holders, addressees and supervisors are often in `list`. Some notices are
    /// from the terminal.
    pub fn table(&mut self, rows: usize, list: &[u64]) -> Vec<u64> {
        let known: Vec<u64> = list.iter().step_by(2).copied().collect();
        let mut table = Vec::with_capacity(RECORD_WORDS * (rows + 1));
        for number in self.ascending(rows, &known) {
            let holder = match self.random.below(4) {
                0 => 0,
                _ => self.person(&known),
            };
            let mut record = free_record(number);
            record[HOLDER] = holder;
            record[CLOSED] = self.random.pick(&[0, 0, 0, 1]);
            if self.random.below(3) > 0 {
                let phase = 1 + self.random.below(LAST_PHASE);
                self.set_notice(&mut record, phase, &known);
            }
            table.extend(record);
        }
        table
    }

    /// One of the `known` numbers, or now and then any number.
    fn person(&mut self, known: &[u64]) -> u64 {
        match known {
            [] => self.number(),
            _ if self.random.once_in(6) => self.number(),
            _ => self.random.pick(known),
        }
    }

    /// Gives a record a sound notice at `phase`, 1 to the last.
    fn set_notice(&mut self, record: &mut Record, phase: u64, known: &[u64]) {
        record[PHASE] = phase;
        record[ADDRESSEE] = match record[HOLDER] {
            0 => self.person(known),
            holder if self.random.once_in(3) => holder,
            _ => self.person(known),
        };
        record[SUPERVISOR] = match self.random.below(4) {
            0 => NOBODY,
            _ => self.person(known),
        };
        while record[SUPERVISOR] == record[ADDRESSEE] {
            record[SUPERVISOR] = self.number();
        }
        record[FAILURE] = match phase {
            3.. if phase % 2 == 1 => u64::from(self.second()),
            _ => 0,
        };
    }

    /// Makes a sound table unsound. One of under two records is first replaced
    /// by one of two.
    pub fn damage_table(&mut self, table: &mut Vec<u64>, damage: TableDamage) {
        if damage == TableDamage::TooMany {
            let rows = MAX_RECORDS + self.random.pick(&[1, 2, 50]);
            *table = self.table(rows, &[]);
            return;
        }
        if damage == TableDamage::Length {
            self.cut_or_extend(table, RECORD_WORDS);
            return;
        }
        if table.len() < 2 * RECORD_WORDS {
            *table = self.table(2, &[]);
        }
        match damage {
            TableDamage::Equal => return self.make_equal(table, RECORD_WORDS),
            TableDamage::Descending => return self.make_descending(table, RECORD_WORDS),
            TableDamage::Number => return self.make_malformed(table, RECORD_WORDS),
            TableDamage::SixWords => return leave_out(table, CLOSED),
            _ => {}
        }
        let records: &mut [Record] = table.as_chunks_mut().0;
        let place = self.random.index(records.len());
        let record = &mut records[place];
        let idle = |record: &mut Record| record[NOTICE].fill(0);
        let phase = 1 + self.random.below(LAST_PHASE);
        match damage {
            TableDamage::Holder => record[HOLDER] = self.malformed(),
            TableDamage::Phase => {
                self.set_notice(record, 1, &[]);
                record[PHASE] = self.random.pick(&[
                    LAST_PHASE + 1,
                    LAST_PHASE + 2,
                    LAST_PHASE + 3,
                    255,
                    257,
                    (1 << 32) + 1,
                    1 << 63,
                    u64::MAX,
                ]);
                if self.random.once_in(4) {
                    record[ADDRESSEE..=FAILURE].fill(0);
                }
            }
            TableDamage::IdleAddressee => {
                idle(record);
                record[ADDRESSEE] = self.number();
            }
            TableDamage::IdleSupervisor => {
                idle(record);
                record[SUPERVISOR] = self.number();
            }
            TableDamage::IdleFailure => {
                idle(record);
                record[FAILURE] = 1 + u64::from(self.second());
            }
            TableDamage::Addressee => {
                self.set_notice(record, phase, &[]);
                record[ADDRESSEE] = self.malformed_or_nobody();
            }
            TableDamage::Supervisor => {
                self.set_notice(record, phase, &[]);
                record[SUPERVISOR] = self.malformed();
            }
            TableDamage::SameNumbers => {
                self.set_notice(record, phase, &[]);
                record[SUPERVISOR] = record[ADDRESSEE];
            }
            TableDamage::FailureTooLarge => {
                let phase = 3 + 2 * self.random.below(LAST_PHASE / 2 - 1);
                self.set_notice(record, phase, &[]);
                record[FAILURE] = self.random.pick(&[1 << 32, (1 << 32) + 60, u64::MAX]);
            }
            TableDamage::FailureTooEarly => {
                let phase = match self.random.below(1 + LAST_PHASE / 2) {
                    0 => 1,
                    sendings => 2 * sendings,
                };
                self.set_notice(record, phase, &[]);
                record[FAILURE] = match self.random.below(4) {
                    0 => 1 << 32,
                    _ => u64::from(self.second().max(1)),
                };
            }
            TableDamage::Closed => {
                record[CLOSED] =
                    self.random
                        .pick(&[2, 3, 256, 257, 1 << 32, (1 << 32) + 1, u64::MAX]);
            }
            TableDamage::Length
            | TableDamage::TooMany
            | TableDamage::SixWords
            | TableDamage::Equal
            | TableDamage::Descending
            | TableDamage::Number => unreachable!("done above"),
        }
    }

    /// Makes a sound list unsound. One of under two rows is first replaced by
    /// one of two.
    pub fn damage_list(&mut self, list: &mut Vec<u64>, damage: ListDamage) {
        if damage == ListDamage::TooMany {
            let rows = MAX_SUBSCRIBERS + self.random.pick(&[1, 2, 50]);
            *list = self.list(rows);
            return;
        }
        if damage == ListDamage::Length {
            self.cut_or_extend(list, SUBSCRIBER_WORDS);
            return;
        }
        if list.len() < 4 {
            *list = self.list(2);
        }
        match damage {
            ListDamage::Equal => self.make_equal(list, 2),
            ListDamage::Descending => self.make_descending(list, 2),
            ListDamage::Msisdn => self.make_malformed(list, 2),
            ListDamage::Flags => {
                let place = 2 * self.random.index(list.len() / 2);
                list[place + 1] = self
                    .random
                    .pick(&[4, 5, 7, 8, 257, (1 << 32) + 1, u64::MAX]);
            }
            ListDamage::Length | ListDamage::TooMany => unreachable!("done above"),
        }
    }

    /// Makes figures, three words, others.
    pub fn damage_figures(&mut self, figures: &mut Vec<u64>, damage: FiguresDamage) {
        let place = self.random.index(FIGURES);
        let word = &mut figures[place];
        match damage {
            FiguresDamage::ByOne => *word = word.wrapping_add(self.random.pick(&[1, u64::MAX])),
            FiguresDamage::ByHighBit => *word ^= self.random.pick(&[1 << 16, 1 << 32, 1 << 63]),
            FiguresDamage::Exchanged => {
                let other = (place + 1 + self.random.index(FIGURES - 1)) % FIGURES;
                // Equal ones cannot be exchanged.
                if figures[place] == figures[other] {
                    figures[place] += 1;
                }
                figures.swap(place, other);
            }
            FiguresDamage::Two => drop(figures.pop()),
            FiguresDamage::Four => figures.push(self.random.pick(&[0, 1])),
            FiguresDamage::None => figures.clear(),
        }
    }

    fn malformed_or_nobody(&mut self) -> u64 {
        if self.random.once_in(3) {
            0
        } else {
            self.malformed()
        }
    }

    /// Takes one to `width - 1` words off the end, or puts as many there.
    fn cut_or_extend(&mut self, words: &mut Vec<u64>, width: usize) {
        let count = 1 + self.random.index(width - 1);
        if !words.is_empty() && self.random.once_in(2) {
            words.truncate(words.len() - count);
        } else {
            words.push(1_999_999_999_999_999);
            words.extend(std::iter::repeat_n(0, count - 1));
        }
    }

    /// Gives a row the number of the row before.
    fn make_equal(&mut self, words: &mut [u64], width: usize) {
        let place = width * self.random.index(words.len() / width - 1);
        words[place + width] = words[place];
    }

    /// Swaps the numbers of two neighbours, or of any two rows.
    fn make_descending(&mut self, words: &mut [u64], width: usize) {
        let rows = words.len() / width;
        let first = self.random.index(rows - 1);
        let second = match self.random.below(2) {
            0 => first + 1,
            _ => first + 1 + self.random.index(rows - first - 1),
        };
        words.swap(width * first, width * second);
    }

    /// Makes a row's number malformed but leaves the rows ascending.
    fn make_malformed(&mut self, words: &mut [u64], width: usize) {
        let last = words.len() - width;
        // Where the next number has more digits, there is a gap to fall into.
        let gaps: Vec<usize> = (0..last)
            .step_by(width)
            .filter(|&place| digit_count(words[place]) < digit_count(words[place + width]))
            .collect();
        let r = &mut self.random;
        match r.below(4) {
            0 => words[last] = r.pick(&[2_000_000_000_000_000, 10u64.pow(16), u64::MAX]),
            1 => words[0] = r.pick(&[0, 1, 12_345, 19_999, 99_999]),
            _ if gaps.is_empty() => words[0] = 99_999,
            _ => {
                let place = r.pick(&gaps);
                let low = 10u64.pow(digit_count(words[place]) as u32);
                words[place] = match r.below(3) {
                    0 => 2 * low,
                    1 => 10 * low - 1,
                    _ => 2 * low + r.below(8 * low),
                };
            }
        }
    }

    /// A count of rows: small mostly, now and then large or the most there is.
    fn rows(&mut self, limit: usize) -> usize {
        match self.random.below(256) {
            0 => limit,
            1 | 2 => self.random.index(limit + 1),
            3..=10 => self.random.index(65),
            _ => self.random.pick(&[0, 1, 1, 2, 2, 3, 3, 4, 5, 6, 8, 13]),
        }
    }

    /// A sound list of some size.
    fn some_list(&mut self) -> Vec<u64> {
        let rows = self.rows(MAX_SUBSCRIBERS);
        // Most requests need somebody in the list.
        let least = if self.random.once_in(12) { 0 } else { 2 };
        self.list(rows.max(least))
    }

    /// A sound table of some size.
    fn some_table(&mut self, list: &[u64]) -> Vec<u64> {
        let rows = self.rows(MAX_RECORDS);
        self.table(rows, list)
    }

    /// Damages the table once in `times`.
    fn maybe_damage_table(&mut self, table: &mut Vec<u64>, times: u64) {
        if self.random.once_in(times) {
            let damage = self.random.pick(&TableDamage::ALL);
            self.damage_table(table, damage);
        }
    }

    /// The figures of a table, also of one that is unsound; others once in
    /// `times`.
    fn figures(&mut self, table: &[u64], times: u64) -> Vec<u64> {
        let (records, _) = table.as_chunks();
        let mut figures = figures_of(records).to_vec();
        if self.random.once_in(times) {
            let damage = self.random.pick(&FiguresDamage::ALL);
            self.damage_figures(&mut figures, damage);
        }
        figures
    }

    /// One of a table's records, if it has any.
    fn some_record(&mut self, table: &[u64]) -> Option<Record> {
        let (records, _) = table.as_chunks();
        match records {
            [] => None,
            _ => Some(self.random.pick(records)),
        }
    }
}

/// Strings and buffers.
impl Generator {
    /// `length` octets with a pattern, so that a write shows.
    pub fn buffer(&mut self, length: usize) -> Vec<u8> {
        let (start, step) = (self.random.octet(), self.random.octet() | 1);
        (0..length)
            .map(|place| start.wrapping_add(step.wrapping_mul(place as u8)))
            .collect()
    }

    /// A buffer of one of the lengths around the limits, seldom one below
    /// `limit`.
    fn buffer_around(&mut self, limit: usize) -> Vec<u8> {
        let seldom = self.random.once_in(12);
        let lengths: Vec<usize> = BUFFER_LENGTHS
            .into_iter()
            .filter(|&length| (length < limit) == seldom)
            .collect();
        let length = self.random.pick(&lengths);
        self.buffer(length)
    }

    /// A buffer for `needed` octets: that long, or a little off.
    fn buffer_about(&mut self, needed: usize) -> Vec<u8> {
        let length = match self.random.below(8) {
            0 => needed.saturating_sub(1),
            1 => self.random.index(needed + 1),
            2 => needed + 1,
            3 => needed + 20,
            _ => needed,
        };
        self.buffer(length)
    }

    /// An additional field that keeps its rules.
    pub fn additional(&mut self) -> Vec<u8> {
        let length = match self.random.below(4) {
            0 | 1 => 0,
            2 => 30,
            _ => self.random.index(31),
        };
        self.additional_of(length)
    }

    fn additional_of(&mut self, length: usize) -> Vec<u8> {
        const ALLOWED: &[u8; 37] = b"0123456789ABCDEFGHIJKLMNOPQRSTUVWXYZ ";
        (0..length).map(|_| self.random.pick(ALLOWED)).collect()
    }

    /// The characters of a request, piece by piece.
    fn pieces(fields: &Fields<Vec<u8>>) -> [Vec<u8>; 11] {
        let digits = |number| Text::new().put_number(number).as_slice().to_vec();
        let star = || b"*".to_vec();
        let operation = match fields.operation {
            Operation::Register => "**",
            Operation::Erase => "##",
            Operation::Interrogate => "*#",
        };
        [
            operation.into(),
            b"214".to_vec(),
            star(),
            digits(fields.number),
            star(),
            if fields.forced.is_some() { "88" } else { "" }.into(),
            star(),
            fields.forced.map_or(Vec::new(), digits),
            star(),
            fields.additional.clone(),
            b"#".to_vec(),
        ]
    }

    /// Drops, doubles or replaces one piece.
    fn break_piece(&mut self, pieces: &mut [Vec<u8>; 11]) {
        let place = self.random.index(pieces.len());
        let other: &[&str] = match place {
            0 => &["**", "##", "*#", "#*", "*", "#", "* ", "12"],
            1 => &["213", "21", "2140", "0214", "2 4", "88"],
            3 | MSISDN => &["1234", "1234567890123456", "12345", "1234A", " 12345", "*"],
            5 => &["88", "8", "888", "89", "088", "8 ", "#"],
            9 => &[
                "a", "-", "@", "[", "/", ":", "`", "A*", "*", "#", "A#B", "\r",
            ],
            _ => &["*", "#", "0", " ", "**"],
        };
        match self.random.below(4) {
            0 => pieces[place].clear(),
            1 => pieces[place].extend_from_within(..),
            2 if place == 9 => pieces[place] = self.additional_of(31),
            _ => pieces[place] = self.random.pick(other).into(),
        }
    }

    /// Changes, drops, doubles, inserts or swaps one character, or cuts there.
    fn break_characters(&mut self, chars: &mut Vec<u8>) {
        const SIGNS: &[u8; 16] = b"*#0189AZ az@\r\0-:";
        let place = self.random.index(chars.len());
        let sign = match self.random.below(3) {
            0 => self.random.below(128) as u8,
            _ => self.random.pick(SIGNS),
        };
        match self.random.below(6) {
            0 => chars[place] = sign,
            1 => drop(chars.remove(place)),
            2 => chars.insert(place, chars[place]),
            3 => chars.insert(place, sign),
            4 => chars.swap(place, self.random.index(place + 1)),
            _ => chars.truncate(place),
        }
    }

    /// Damages packed octets: bits, the unused ones in particular, and length.
    fn break_octets(&mut self, octets: &mut Vec<u8>) {
        let bit = self.random.below(8);
        let place = self.random.index(octets.len().max(1));
        match (self.random.below(7), octets.last_mut()) {
            (0, Some(_)) => octets[place] ^= 1 << bit,
            (1, Some(last)) => *last ^= 1 << bit,
            (2, Some(last)) => *last |= 0x80,
            // A carriage return in the last seven bits becomes 0, or appears.
            (3, Some(last)) => *last &= 1,
            (4, Some(last)) => *last = *last & 1 | 13 << 1,
            (5, Some(_)) => drop(octets.pop()),
            _ => {
                let length = octets.len() + self.random.pick(&[1, 1, 2, 7, 100, 160]);
                octets.resize(length, self.random.pick(&[0, 0, 0x1A, 0xFF]));
            }
        }
    }

    /// The packed string of `fields`, whole or damaged, or another string.
    pub fn string(&mut self, fields: &Fields<Vec<u8>>) -> Vec<u8> {
        self.string_of(Self::pieces(fields))
    }

    /// The same of the pieces of a string.
    fn string_of(&mut self, mut pieces: [Vec<u8>; 11]) -> Vec<u8> {
        match self.random.below(32) {
            0 => Vec::new(),
            1 => self.octets(),
            2..=5 => {
                self.break_piece(&mut pieces);
                pack_by_bits(&pieces.concat())
            }
            6 | 7 => {
                let mut chars = pieces.concat();
                self.break_characters(&mut chars);
                pack_by_bits(&chars)
            }
            8 | 9 => {
                let mut octets = pack_by_bits(&pieces.concat());
                self.break_octets(&mut octets);
                octets
            }
            10 => {
                // A forced erasure becomes the terminal's notice, which is no request.
                pieces[MSISDN].clear();
                pack_by_bits(&pieces.concat())
            }
            _ => pack_by_bits(&pieces.concat()),
        }
    }

    /// Random octets of some length.
    fn octets(&mut self) -> Vec<u8> {
        let length = match self.random.below(3) {
            0 => self.random.pick(&[1, 6, 7, 8, 63, 64, 159, 160, 161, 200]),
            _ => self.random.index(180),
        };
        (0..length).map(|_| self.random.octet()).collect()
    }

    /// Characters that the packer takes.
    fn characters(&mut self) -> Vec<u8> {
        let length = match self.random.below(2) {
            0 => 8 * self.random.index(12) + self.random.pick(&[0, 1, 6, 7]),
            _ => self.random.index(200),
        };
        (0..length)
            .map(|_| match self.random.below(128) as u8 {
                13 => b'#',
                char => char,
            })
            .collect()
    }
}

/// The fields of crews.
impl Generator {
    /// A registration or a plain erasure of the crew with `number`'s root,
    /// which is often one of the crew.
    fn crew_fields(&mut self, number: u64) -> Fields<Vec<u8>> {
        let count = match self.random.below(3) {
            0 => self.random.index(10),
            1 => 9,
            _ => self.random.pick(&[0, 1, 1, 2, 2, 3]),
        };
        let mut codes = Vec::new();
        if count > 0 && number % 100 != 1 && self.random.once_in(2) {
            codes.push(number % 100);
        }
        while codes.len() < count {
            let limit = self.random.pick(&[CLOSE_CODES, CLOSE_CODES, 100]);
            let code = self.random.below(limit);
            if code != 1 && !codes.contains(&code) {
                codes.insert(self.random.index(codes.len() + 1), code);
            }
        }
        let digits: String = codes.iter().map(|code| format!("{code:02}")).collect();
        let space = if count > 0 { " " } else { "" };
        Fields {
            operation: self.random.pick(&[Operation::Register, Operation::Erase]),
            number: member(number, LEAD),
            forced: None,
            additional: format!("BULK{count}{space}{digits}").into(),
        }
    }

    /// The same of any number.
    fn some_crew_fields(&mut self) -> Fields<Vec<u8>> {
        let number = self.number();
        self.crew_fields(number)
    }

    /// Breaks a crew's fields in one place, mostly; now and then they become
    /// those of another crew, or of none.
    fn break_crew(&mut self, fields: &mut Fields<Vec<u8>>) {
        let field = &mut fields.additional;
        let last = field.len() - 2;
        match self.random.below(11) {
            0 => fields.number += self.random.pick(&[1, 9, 10, 98]),
            1 => fields.number -= 1,
            2 => fields.operation = Operation::Interrogate,
            3 => {
                fields.operation = Operation::Erase;
                fields.forced = Some(self.number());
            }
            4 => field[4] = self.random.pick(b"0123456789A "),
            5 => field[last..].copy_from_slice(b"01"),
            6 if last > 6 => field.copy_within(6..8, last),
            7 if last > 5 => drop(field.remove(5)),
            8 => field.insert(0, self.random.pick(b" B0")),
            9 => {
                *field = self
                    .random
                    .pick(&["BULK", "BULKY GOODS", "BULK ", "BUL"])
                    .into()
            }
            _ => field.push(self.random.pick(b"0123456789 ")),
        }
    }
}

/// Takes one word out of every row.
fn leave_out(table: &mut Vec<u64>, word: usize) {
    let mut place = 0;
    table.retain(|_| {
        place += 1;
        (place - 1) % RECORD_WORDS != word
    });
}

/// The numbers of a crew's fields.
fn crew_numbers(fields: &Fields<Vec<u8>>) -> Vec<u64> {
    let codes = crew_codes(&fields.additional).unwrap_or_default();
    let numbers = codes.iter().map(|code| member(fields.number, *code));
    std::iter::once(fields.number).chain(numbers).collect()
}

/// Calls.
impl Generator {
    /// Any call.
    pub fn call(&mut self) -> Call {
        match self.random.below(38) {
            0 => self.writing_image(),
            1 => self.reading_image(),
            2 => self.closing(),
            3 => self.compacting(),
            4 => self.adding(),
            5 | 6 => self.erasing_at_the_terminal(),
            7 | 8 => self.routing(),
            _ => self.line_call(),
        }
    }

    /// Any call that the program `calls` makes: it makes none of images,
    /// withdraws no numbers, has no terminal, and routes no messages.
    fn line_call(&mut self) -> Call {
        match self.random.below(29) {
            0..=8 => self.request(),
            9..=11 => self.sending(),
            12 | 13 => self.result(),
            14 => self.finding(),
            15 => self.packing(),
            16 => self.unpacking(),
            17 => self.writing(),
            18 => self.reading(),
            19 => self.number_test(),
            20..=24 => self.framed(),
            25 => self.writing_register(),
            26 => self.reading_register(),
            27 => self.reading_release(),
            _ => self.recount(),
        }
    }

    pub fn request(&mut self) -> Call {
        let mut list = self.some_list();
        let mut table = self.some_table(&list);
        let known: Vec<u64> = list.iter().step_by(2).copied().collect();
        let (requester, fields) = match self.random.below(4) {
            0 => self.crew_demand(&mut table, &known),
            _ => self.single_demand(&table, &known),
        };
        let string = self.string(&fields);
        let scheme = match self.random.below(16) {
            0 => self
                .random
                .pick(&[0x00, 0x0E, 0x10, 0x1F, 0x4F, 0x8F, 0xFF]),
            _ => 0x0F,
        };
        self.maybe_damage_table(&mut table, 16);
        if self.random.once_in(16) {
            let damage = self.random.pick(&ListDamage::ALL);
            self.damage_list(&mut list, damage);
        }
        Call::Request {
            figures: self.figures(&table, 16),
            table,
            list,
            reply: self.buffer_around(80),
            requester,
            scheme,
            string,
        }
    }

    /// A requester and what she asks of one number.
    fn single_demand(&mut self, table: &[u64], known: &[u64]) -> (u64, Fields<Vec<u8>>) {
        let is_known = |number| known.binary_search(&number).is_ok();
        let record = self.some_record(table);
        let (number, holder) = match record {
            Some(record) if self.random.below(12) > 0 => (record[NUMBER], record[HOLDER]),
            _ => (self.number(), 0),
        };
        let requester = match self.random.below(20) {
            0 => self.malformed_or_nobody(),
            1 => self.number(),
            2..=4 if is_known(number) => number,
            5..=9 if is_known(holder) => holder,
            _ => self.person(known),
        };
        let (operation, forced) = match self.random.below(20) {
            0..=4 => (Operation::Register, None),
            5..=7 => (Operation::Erase, None),
            8..=11 => (Operation::Interrogate, None),
            12 => (Operation::Erase, Some(self.person(known))),
            13 if is_number(requester) => (Operation::Erase, Some(requester)),
            _ if holder != 0 => (Operation::Erase, Some(holder)),
            _ => (Operation::Erase, Some(self.number())),
        };
        let fields = Fields {
            operation,
            number,
            forced,
            additional: self.additional(),
        };
        (requester, fields)
    }

    /// A requester and what she asks of a crew, most of whose numbers are put
    /// into the table; her own digits are now and then one of them.
    fn crew_demand(&mut self, table: &mut Vec<u64>, known: &[u64]) -> (u64, Fields<Vec<u8>>) {
        let requester = match self.random.below(20) {
            0 => self.malformed_or_nobody(),
            1 => self.number(),
            _ => self.person(known),
        };
        let number = match self.random.below(3) {
            0 if is_number(requester) => requester,
            _ => self.number(),
        };
        let mut fields = self.crew_fields(number);
        let (rows, _) = table.as_chunks();
        let mut records: BTreeMap<u64, Record> =
            rows.iter().map(|row| (row[NUMBER], *row)).collect();
        for number in crew_numbers(&fields) {
            if records.len() < MAX_RECORDS && self.random.below(6) > 0 {
                records.insert(number, self.crew_record(number, requester, known));
            }
        }
        *table = records.into_values().flatten().collect();
        if self.random.once_in(6) {
            self.break_crew(&mut fields);
        }
        (requester, fields)
    }

    /// A record of a crew: often free or held by the requester.
    fn crew_record(&mut self, number: u64, requester: u64, known: &[u64]) -> Record {
        let holder = match self.random.below(5) {
            0 | 1 => 0,
            2 | 3 if is_number(requester) => requester,
            _ => self.person(known),
        };
        let mut record = free_record(number);
        record[HOLDER] = holder;
        record[CLOSED] = self.random.pick(&[0, 0, 0, 1]);
        if self.random.once_in(4) {
            let phase = 1 + self.random.below(LAST_PHASE);
            self.set_notice(&mut record, phase, known);
        }
        record
    }

    /// A table, damaged now and then, with a record of it before the damage
    /// and the number that a sending, a result, a closing, the terminal or a routing
    /// names: mostly that record's.
    fn table_and_number(&mut self) -> (Vec<u64>, Record, u64) {
        let list = self.list(4);
        let mut table = self.some_table(&list);
        let record = self.some_record(&table).unwrap_or_default();
        let number = match self.random.below(16) {
            0 => self.malformed_or_nobody(),
            1 => self.number(),
            2 => record[NUMBER].wrapping_add(self.random.pick(&[1, u64::MAX])),
            _ => record[NUMBER],
        };
        self.maybe_damage_table(&mut table, 12);
        (table, record, number)
    }

    /// A time around the moment when a record is due.
    fn now(&mut self, record: Record, delay: u32) -> u32 {
        let failure = record[FAILURE] as u32;
        let delay = if delay == 0 { 300 } else { delay };
        match self.random.below(8) {
            0 => self.second(),
            1 => failure,
            2 => failure.wrapping_sub(self.random.pick(&[1, 2, 60, 100_000])),
            3 => failure.wrapping_add(self.random.below(700) as u32),
            _ => failure.wrapping_add(delay).wrapping_add(self.random.pick(&[
                u32::MAX,
                u32::MAX,
                0,
                0,
                1,
            ])),
        }
    }

    pub fn sending(&mut self) -> Call {
        let (table, record, number) = self.table_and_number();
        let delay = self.delay();
        Call::Sending {
            figures: self.figures(&table, 12),
            table,
            buffer: self.buffer_around(80),
            number,
            delay,
            now: self.now(record, delay),
        }
    }

    pub fn result(&mut self) -> Call {
        let (table, _, number) = self.table_and_number();
        let kind = match self.random.below(16) {
            0 => self.random.pick(&[8, 255, 256, 257, 1 << 31, u32::MAX]),
            1..=3 => 5,
            _ => self.random.below(8) as u32,
        };
        Call::Result {
            figures: self.figures(&table, 12),
            table,
            number,
            kind,
            now: self.second(),
        }
    }

    pub fn finding(&mut self) -> Call {
        let (table, record, _) = self.table_and_number();
        let delay = self.delay();
        Call::Finding {
            table,
            delay,
            now: self.now(record, delay),
        }
    }

    pub fn recount(&mut self) -> Call {
        let (table, _, _) = self.table_and_number();
        Call::Recount { table }
    }

    pub fn packing(&mut self) -> Call {
        let mut chars = self.characters();
        let needed = (7 * chars.len()).div_ceil(8);
        if !chars.is_empty() && self.random.once_in(3) {
            let place = self.random.index(chars.len());
            chars[place] = self.random.pick(&[13, 128, 129, 141, 176, 255]);
        }
        Call::Pack {
            chars,
            out: self.buffer_about(needed),
        }
    }

    pub fn unpacking(&mut self) -> Call {
        let octets = match self.random.below(6) {
            0 => self.octets(),
            1 => {
                let mut octets = pack_by_bits(&self.characters());
                self.break_octets(&mut octets);
                octets
            }
            _ => pack_by_bits(&self.characters()),
        };
        let needed = 8 * octets.len() / 7;
        Call::Unpack {
            octets,
            out: self.buffer_about(needed),
        }
    }

    /// Fields for the writer, a third of them against the rules.
    pub fn writing(&mut self) -> Call {
        let mut fields = self.fields();
        match self.random.below(12) {
            0 => fields.number = self.malformed_or_nobody(),
            1 => fields.forced = Some(self.malformed_or_nobody()),
            2 => {
                fields.forced = Some(self.number());
                fields.operation = self
                    .random
                    .pick(&[Operation::Register, Operation::Interrogate]);
            }
            3 => {
                let length = self.random.pick(&[30, 31, 32, 60, 300]);
                fields.additional = self.additional_of(length);
                if length == 30 {
                    let place = self.random.index(length);
                    fields.additional[place] = self.random.pick(b"az*#\r\0@[/:-\x80\xB0\xFF");
                }
            }
            4 => {
                fields = self.some_crew_fields();
                self.break_crew(&mut fields);
            }
            _ => {}
        }
        Call::WriteRequest {
            fields,
            out: self.buffer_around(160),
        }
    }

    pub fn reading(&mut self) -> Call {
        let mut fields = self.fields();
        if self.random.once_in(8) {
            fields = self.some_crew_fields();
            self.break_crew(&mut fields);
        }
        Call::ReadRequest {
            octets: self.string(&fields),
        }
    }

    pub fn number_test(&mut self) -> Call {
        let word = match self.random.below(3) {
            0 => self.malformed_or_nobody(),
            1 => self.random.word() >> self.random.below(64),
            _ => self.number(),
        };
        Call::IsNumber { word }
    }

    /// Fields that keep the rules.
    pub fn fields(&mut self) -> Fields<Vec<u8>> {
        let (operation, forced) = match self.random.below(6) {
            0 => (Operation::Register, None),
            1 => (Operation::Erase, None),
            2 => (Operation::Interrogate, None),
            3 => return self.some_crew_fields(),
            _ => (Operation::Erase, Some(self.number())),
        };
        Fields {
            operation,
            number: self.number(),
            forced,
            additional: self.additional(),
        }
    }
}

/// Where a program input has got to: lines keep to one number for a while, so
/// that its notice gets through its phases.
struct Story {
    numbers: Vec<u64>,
    people: Vec<u64>,
    number: u64,
    /// Who was last to ask for a registration: the likely holder.
    registrant: u64,
    now: u32,
}

/// Inputs of the program.
impl Generator {
    /// Lines that fill a node and drive it through its notices, some of them
    /// damaged; now and then more than the program reads or holds.
    pub fn program(&mut self) -> Vec<u8> {
        let (numbers, people, lines) = match self.random.below(64) {
            0 => (MAX_RECORDS + 6, 3, 20),
            1 => (2, MAX_SUBSCRIBERS + 4, 20),
            2 => (3, 4, 3000),
            _ => (self.random.index(5), self.random.index(6), 80),
        };
        // About one line in a filling of any size is damaged.
        let times = 32 + (numbers + people) as u64;
        let people: Vec<u64> = self.ascending(people, &[]).into_iter().collect();
        let mut numbers = self.ascending(numbers, &people);
        if self.random.once_in(2) {
            // Of one root, which a subscriber's digits may have too.
            let lead = member(self.person(&people), LEAD);
            numbers.extend((0..6).map(|_| lead - 1 + self.random.below(CLOSE_CODES)));
        }
        let numbers: Vec<u64> = numbers.into_iter().collect();
        let mut input = Vec::new();
        if self.random.once_in(3) {
            // Another delay, or one that is none.
            let seconds = self.random.pick(&[0, 59, 60, 61, 100, 300, 600, 601]);
            let zeros = self.random.pick(&["", "", "", "0"]);
            let line = format!("W {zeros}{seconds}");
            self.put_line(&mut input, line.into_bytes(), 8);
        }
        for &number in &numbers {
            let line = format!("N {}", digits(number));
            self.put_line(&mut input, line.into_bytes(), times);
        }
        for &msisdn in &people {
            let flags = self.random.pick(&[0, 1, 1, 3, 3, 3, 3, 3]);
            let zeros = self.random.pick(&["", "", "", "00"]);
            let line = format!("S {} {zeros}{flags}", digits(msisdn));
            self.put_line(&mut input, line.into_bytes(), times);
        }
        let mut story = Story {
            number: self.person(&numbers),
            registrant: self.person(&people),
            now: self.second(),
            numbers,
            people,
        };
        for _ in 0..self.random.index(lines) + 1 {
            let line = self.program_line(&mut story);
            self.put_line(&mut input, line, 48);
        }
        if self.random.once_in(4) {
            input.pop();
        }
        input
    }

    /// The next line of the story.
    fn program_line(&mut self, story: &mut Story) -> Vec<u8> {
        let step = self
            .random
            .pick(&[0, 1, 1, 2, 30, 59, 60, 61, 299, 300, 1000]);
        story.now = story.now.wrapping_add(step);
        if self.random.once_in(16) {
            story.number = self.person(&story.numbers);
        }
        let number = self.digits_or_malformed(story.number);
        let now = story.now;
        match self.random.below(32) {
            0 => format!("N {number}").into_bytes(),
            1 => format!("S {number} 3").into_bytes(),
            2 => b"W 600".to_vec(),
            3..=10 => format!("T {now} {number}").into_bytes(),
            11..=18 => {
                let kind = self
                    .random
                    .pick(&[0, 1, 2, 3, 4, 5, 5, 5, 5, 5, 5, 5, 5, 6]);
                format!("D {now} {number} {kind}").into_bytes()
            }
            _ => self.program_request(story),
        }
    }

    fn program_request(&mut self, story: &mut Story) -> Vec<u8> {
        let requester = match self.random.below(8) {
            0 => story.number,
            1 | 2 => story.registrant,
            _ => self.person(&story.people),
        };
        let (operation, forced) = match self.random.below(10) {
            0..=3 => (Operation::Register, None),
            4 => (Operation::Erase, None),
            5 => (Operation::Interrogate, None),
            6 => (Operation::Erase, Some(self.person(&story.people))),
            _ => (Operation::Erase, Some(story.registrant)),
        };
        let mut fields = Fields {
            operation,
            number: story.number,
            forced,
            additional: self.additional(),
        };
        if self.random.once_in(6) {
            fields = self.crew_fields(story.number);
            if self.random.once_in(6) {
                self.break_crew(&mut fields);
            }
        }
        if fields.operation == Operation::Register {
            story.registrant = requester;
        }
        let mut pieces = Self::pieces(&fields);
        if self.random.once_in(16) {
            self.break_piece(&mut pieces);
        }
        let requester = self.digits_or_malformed(requester);
        [b"R ", requester.as_bytes(), b" ", &pieces.concat()].concat()
    }

    /// The digits of a number, seldom too few or too many digits.
    fn digits_or_malformed(&mut self, number: u64) -> String {
        if self.random.once_in(24) {
            self.random.pick(&["1", "1234", "1234567890123456"]).into()
        } else {
            digits(number)
        }
    }

    /// Appends a line, damaged once in `times`.
    fn put_line(&mut self, input: &mut Vec<u8>, mut line: Vec<u8>, times: u64) {
        const SIGNS: &[u8; 12] = b" \n\r0?NSRTD\0\xFF";
        if self.random.once_in(times) {
            let place = self.random.index(line.len());
            let sign = self.random.pick(SIGNS);
            match self.random.below(7) {
                0 => drop(line.remove(place)),
                1 => line.insert(place, line[place]),
                2 => line.insert(place, sign),
                3 => line[place] = sign,
                4 => line.push(sign),
                5 => line.truncate(place),
                _ => line.extend(std::iter::repeat_n(b'0', self.random.index(400))),
            }
        }
        input.extend(line);
        input.push(b'\n');
    }
}

/// Lines of the program `calls`.
impl Generator {
    /// Appends the lines of a call and of the memory that it is lent, now and
    /// then damaged, and perhaps calls that follow it on the same memory.
    /// Returns how many calls they make.
    pub fn call_lines(&mut self, input: &mut Vec<u8>) -> u64 {
        if self.random.once_in(32) {
            self.put_numbered_request(input);
            return 1;
        }
        let call = self.line_call();
        let number = match &call {
            Call::Sending { number, .. } | Call::Result { number, .. } => Some(*number),
            _ => None,
        };
        self.put_call(input, call);
        let Some(number) = number.filter(|_| self.random.once_in(2)) else {
            return 1;
        };
        let (kind, delay, now) = (self.random.below(7), self.delay(), self.second());
        let result = format!("result {number} {kind} {now}");
        self.put_line(input, result.into_bytes(), 48);
        let finding = format!("finding {delay} {}", now.wrapping_add(delay));
        self.put_line(input, finding.into_bytes(), 48);
        self.put_line(input, b"recount".to_vec(), 48);
        4
    }

    /// A request of a number or a crew, on a table and a list of rows that are
    /// counted up, around the limits.
    fn put_numbered_request(&mut self, input: &mut Vec<u8>) {
        let records = self.random.pick(&[1, 7, 1023, 1024, 1025, 1099, 1100]);
        let people = self.random.pick(&[1, 9, 4095, 4096, 4097, 4199, 4200]);
        let (closed, flags) = (self.random.pick(&[0, 0, 0, 1, 2]), self.random.below(4));
        for line in [
            "table".into(),
            format!("table* {records} 100000 0 0 0 0 0 {closed}"),
            "list".into(),
            format!("list* {people} 100000 {flags}"),
        ] {
            self.put_line(input, line.into_bytes(), 64);
        }
        // Every row is free, so the figures are those of no rows.
        let figures = self.figures(&[], 16);
        self.put_figures(input, &[], &figures);
        let number = 100_000 + self.random.below(records + 1);
        let fields = match self.random.below(2) {
            0 => self.crew_fields(number),
            _ => Fields {
                operation: Operation::Register,
                number,
                forced: None,
                additional: Vec::new(),
            },
        };
        let reply = self.buffer_around(80);
        let requester = 100_000 + self.random.below(people + 1);
        let string = self.string(&fields);
        self.put_request(input, &reply, requester, 0x0F, &string);
    }

    fn put_request(
        &mut self,
        input: &mut Vec<u8>,
        reply: &[u8],
        requester: u64,
        scheme: u8,
        string: &[u8],
    ) {
        self.put_buffer(input, reply);
        let words = format!("request {requester} {scheme}");
        let line = [words.into_bytes(), self.string_tail(string)].concat();
        self.put_line(input, line, 48);
    }

    /// Appends the lines of a call.
    fn put_call(&mut self, input: &mut Vec<u8>, call: Call) {
        let line = match call {
            Call::Request {
                table,
                figures,
                list,
                reply,
                requester,
                scheme,
                string,
            } => {
                self.put_words(input, "table", &table);
                self.put_figures(input, &table, &figures);
                self.put_words(input, "list", &list);
                return self.put_request(input, &reply, requester, scheme, &string);
            }
            Call::Sending {
                table,
                figures,
                buffer,
                number,
                delay,
                now,
            } => {
                self.put_words(input, "table", &table);
                self.put_figures(input, &table, &figures);
                self.put_buffer(input, &buffer);
                format!("sending {number} {delay} {now}").into_bytes()
            }
            Call::Result {
                table,
                figures,
                number,
                kind,
                now,
            } => {
                self.put_words(input, "table", &table);
                self.put_figures(input, &table, &figures);
                format!("result {number} {kind} {now}").into_bytes()
            }
            Call::Finding { table, delay, now } => {
                self.put_words(input, "table", &table);
                format!("finding {delay} {now}").into_bytes()
            }
            Call::Recount { table } => {
                self.put_words(input, "table", &table);
                b"recount".to_vec()
            }
            Call::Pack { chars, out } => {
                self.put_buffer(input, &out);
                [b"pack".to_vec(), self.tail(&chars)].concat()
            }
            Call::Unpack { octets, out } => {
                self.put_buffer(input, &out);
                [b"unpack".to_vec(), self.tail(&octets)].concat()
            }
            Call::WriteRequest { fields, out } => {
                self.put_buffer(input, &out);
                [b"write".to_vec(), self.field_words(&fields)].concat()
            }
            Call::ReadRequest { octets } => [b"read".to_vec(), self.string_tail(&octets)].concat(),
            Call::IsNumber { word } => format!("number {word}").into_bytes(),
            Call::FramedRequest {
                table,
                figures,
                list,
                frame,
                requester,
                message,
            } => {
                self.put_words(input, "table", &table);
                self.put_figures(input, &table, &figures);
                self.put_words(input, "list", &list);
                self.put_buffer(input, &frame);
                let words = format!("framed {requester}");
                [words.into_bytes(), self.tail(&message)].concat()
            }
            Call::WriteRegister {
                transaction,
                invoke,
                fields,
                frame,
            } => {
                self.put_buffer(input, &frame);
                let words = format!("register {transaction} {invoke}");
                [words.into_bytes(), self.field_words(&fields)].concat()
            }
            Call::ReadRegister { message } => [b"registered", &*self.tail(&message)].concat(),
            Call::ReadRelease { message } => [b"released", &*self.tail(&message)].concat(),
            Call::WriteImage { .. } | Call::ReadImage { .. } => {
                unreachable!("the program makes no calls of images")
            }
            Call::Close { .. } | Call::Compact { .. } | Call::Add { .. } => {
                unreachable!("the program withdraws no numbers")
            }
            Call::TerminalErasure { .. } => unreachable!("the program has no terminal"),
            Call::Routing { .. } => unreachable!("the program routes no messages"),
        };
        self.put_line(input, line, 48);
    }

    /// The fields of a request, as words and a tail.
    fn field_words(&mut self, fields: &Fields<Vec<u8>>) -> Vec<u8> {
        let operation = match fields.operation {
            Operation::Register => 0,
            Operation::Erase => 1,
            Operation::Interrogate => 2,
        };
        let forced = fields
            .forced
            .map_or(String::new(), |word| format!(" {word}"));
        let words = format!(" {operation} {}{forced}", fields.number);
        [words.into_bytes(), self.tail(&fields.additional)].concat()
    }

    /// Appends the lines that set a table or a list.
    fn put_words(&mut self, input: &mut Vec<u8>, name: &str, words: &[u64]) {
        self.put_line(input, name.into(), 512);
        for words in words.chunks(self.random.pick(&[RECORD_WORDS, 2 * RECORD_WORDS, 24])) {
            let words: String = words.iter().map(|word| format!(" {word}")).collect();
            let line = format!("{name}+{words}");
            self.put_line(input, line.into_bytes(), 512);
        }
    }

    /// Appends the line that sets these figures, where they are not those that
    /// the table has got, and now and then else.
    fn put_figures(&mut self, input: &mut Vec<u8>, table: &[u64], figures: &[u64]) {
        if *figures == recount(table).unwrap_or_default() && !self.random.once_in(4) {
            return;
        }
        let mut words = figures.to_vec();
        if self.random.once_in(32) {
            // Up to one more than a line may have.
            words.resize(self.random.index(10), 0);
        }
        let words: String = words.iter().map(|word| format!(" {word}")).collect();
        let line = format!("figures{words}");
        self.put_line(input, line.into_bytes(), 64);
    }

    /// Appends the line that sets a buffer of this length.
    fn put_buffer(&mut self, input: &mut Vec<u8>, buffer: &[u8]) {
        let line = format!("buffer {} {}", buffer.len(), self.random.octet());
        self.put_line(input, line.into_bytes(), 512);
    }

    /// Octets as a tail, if there are any: characters where a line can hold them.
    fn tail(&mut self, octets: &[u8]) -> Vec<u8> {
        if octets.is_empty() && self.random.once_in(2) {
            return Vec::new();
        }
        if !octets.contains(&b'\n') && self.random.once_in(2) {
            return [b" '", octets].concat();
        }
        let digits: String = octets.iter().map(|octet| format!("{octet:02x}")).collect();
        [b" x", digits.as_bytes()].concat()
    }

    /// A packed string as a tail: its characters, where they pack to it.
    fn string_tail(&mut self, octets: &[u8]) -> Vec<u8> {
        let mut chars = vec![0; 2 * octets.len()];
        let count = unpack(octets, &mut chars).unwrap_or(0);
        chars.truncate(count);
        let packs = pack_by_bits(&chars) == octets && !chars.iter().any(|c| b"\n\r".contains(c));
        if packs && self.random.below(3) > 0 {
            return [b" '", chars.as_slice()].concat();
        }
        let digits: String = octets.iter().map(|octet| format!("{octet:02x}")).collect();
        [b" x", digits.as_bytes()].concat()
    }
}

/// The digits of a number in stored form.
fn digits(number: u64) -> String {
    let stored = number.to_string();
    stored[1..].into()
}

#[cfg(test)]
mod tests {
    use super::*;
    use crate::rows::{list_is_sound, table_is_sound};

    #[test]
    fn the_random_words_are_those_of_splitmix64() {
        let mut random = Random::new(1_234_567);
        let words: Vec<u64> = (0..3).map(|_| random.word()).collect();
        assert_eq!(
            words,
            [
                6_457_827_717_110_365_317,
                3_203_168_211_198_807_973,
                9_817_491_932_198_370_423
            ]
        );
    }

    #[test]
    fn numbers_are_numbers_and_malformed_words_are_not() {
        let mut generator = Generator::new(3);
        for _ in 0..20_000 {
            assert!(is_number(generator.number()));
            let word = generator.malformed();
            assert!(!is_number(word) && word != 0, "{word}");
        }
    }

    #[test]
    fn tables_figures_and_lists_are_right_until_damaged() {
        let mut generator = Generator::new(4);
        for rows in (0..40).chain([1000, 1024]) {
            let list = generator.list(4 * rows);
            assert_eq!(list.len(), 8 * rows);
            assert!(list_is_sound(&list));
            let table = generator.table(rows, &list);
            assert_eq!(table.len(), RECORD_WORDS * rows);
            assert!(table_is_sound(&table));
            for damage in TableDamage::ALL {
                for _ in 0..10 {
                    let mut table = table.clone();
                    generator.damage_table(&mut table, damage);
                    assert!(!table_is_sound(&table), "{damage:?} {table:?}");
                }
            }
            let figures = recount(&table).unwrap();
            for damage in FiguresDamage::ALL {
                for _ in 0..10 {
                    let mut others = figures.to_vec();
                    generator.damage_figures(&mut others, damage);
                    assert_ne!(figures[..], others, "{damage:?}");
                }
            }
            for damage in ListDamage::ALL {
                for _ in 0..3 {
                    let mut list = list.clone();
                    generator.damage_list(&mut list, damage);
                    assert!(!list_is_sound(&list), "{damage:?} {list:?}");
                }
            }
        }
    }

    #[test]
    fn one_seed_makes_one_sequence() {
        let (mut first, mut second) = (Generator::new(5), Generator::new(5));
        for _ in 0..200 {
            assert_eq!(first.call(), second.call());
            assert_eq!(first.program(), second.program());
        }
    }
}
