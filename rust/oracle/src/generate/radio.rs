//! Radios, whole or against one rule, and calls to them.
//!
//! The numbers of a radio have a few roots, some of which differ in length
//! alone, so that a notice is about some of them and not about others.

use super::{pack_by_bits, Generator, MSISDN};
use crate::number::{digit_count, is_number};
use crate::radio::{notice, reply, store, Doing, Entry, Radio, MAX_STORED};
use crate::string::{Fields, Operation};
use crate::text::Text;

/// A call to a radio, and all the memory that it is lent beside the state.
#[derive(Clone, Debug, PartialEq, Eq)]
pub enum RadioCall {
    Store {
        number: u64,
    },
    Notice {
        string: Vec<u8>,
        question: Vec<u8>,
    },
    Reply {
        invoke: u8,
        string: Vec<u8>,
        question: Vec<u8>,
    },
}

impl RadioCall {
    /// Carries out the call on a state and on its memory.
    pub fn run(&mut self, radio: &mut Radio) -> Doing {
        match self {
            Self::Store { number } => store(radio, *number),
            Self::Notice { string, question } => notice(radio, string, question),
            Self::Reply {
                invoke,
                string,
                question,
            } => reply(radio, *invoke, string, question),
        }
    }
}

/// The ways in which a radio's state can be unsound. Each breaks one rule and
/// keeps the others.
#[derive(Clone, Copy, Debug, PartialEq, Eq)]
pub enum RadioDamage {
    /// An own MSISDN that is no number.
    Own,
    /// Over 16 numbers.
    TooMany,
    /// A stored word that is no number.
    Number,
    /// A number that comes twice.
    Twice,
    /// A mark, a still-to-be-asked or a kind above 1.
    Unsure,
    ToAsk,
    HandHeld,
    /// A number, a mark or a still-to-be-asked behind the stored ones.
    NumberBehind,
    UnsureBehind,
    ToAskBehind,
    /// A cab radio that is still to ask about two roots.
    Roots,
}

impl RadioDamage {
    pub const ALL: [Self; 11] = [
        Self::Own,
        Self::TooMany,
        Self::Number,
        Self::Twice,
        Self::Unsure,
        Self::ToAsk,
        Self::HandHeld,
        Self::NumberBehind,
        Self::UnsureBehind,
        Self::ToAskBehind,
        Self::Roots,
    ];
}

/// A radio, unsound once in eight, and a call to it.
pub fn case(generator: &mut Generator) -> (Radio, RadioCall) {
    let mut radio = generator.radio();
    let call = generator.radio_call(&radio);
    if generator.random.once_in(8) {
        let damage = generator.random.pick(&RadioDamage::ALL);
        generator.damage_radio(&mut radio, damage);
    }
    (radio, call)
}

/// What a sound radio stores.
fn stored(radio: &Radio) -> &[Entry] {
    &radio.entries[..radio.count]
}

/// All digits but the last two.
fn root(number: u64) -> u64 {
    number / 100
}

/// A number whose root differs in its last digit alone.
fn beside(number: u64) -> u64 {
    if root(number) % 10 == 9 {
        number - 100
    } else {
        number + 100
    }
}

/// States.
impl Generator {
    /// A sound radio.
    pub fn radio(&mut self) -> Radio {
        let own = self.number();
        let count = match self.random.below(4) {
            0 => MAX_STORED,
            1 => self.random.pick(&[0, 1, 2, MAX_STORED - 1]),
            _ => self.random.index(MAX_STORED + 1),
        };
        let mut radio = Radio {
            own,
            count,
            hand_held: self.random.below(2) as u8,
            invoke: match self.random.below(4) {
                0 => self.random.pick(&[0, 1, 254, 255]),
                _ => self.random.octet(),
            },
            ..Radio::default()
        };
        let numbers = self.stored_numbers(count, own);
        for (entry, number) in radio.entries.iter_mut().zip(numbers) {
            entry.number = number;
            entry.unsure = self.random.below(2) as u8;
        }
        self.begin_round(&mut radio);
        radio
    }

    /// Numbers of a few roots, in any order, none of them twice.
    fn stored_numbers(&mut self, count: usize, own: u64) -> Vec<u64> {
        let first = self.number();
        let roots = [
            first,
            first,
            self.of_another_length(first),
            beside(first),
            own,
        ];
        let mut numbers = Vec::new();
        while numbers.len() < count {
            let number = match self.random.below(8) {
                0 => self.number(),
                _ => {
                    let root = self.random.pick(&roots);
                    self.of_root(root)
                }
            };
            if !numbers.contains(&number) {
                numbers.push(number);
            }
        }
        numbers
    }

    /// The number whose digits are those of `number` with a zero in front or
    /// without the one in front, or itself where there is neither.
    fn of_another_length(&mut self, number: u64) -> u64 {
        let digits = digit_count(number);
        let low = 10u64.pow(digits as u32);
        let others: Vec<u64> = [number + 9 * low, number - low + low / 10]
            .into_iter()
            .filter(|&other| is_number(other) && digit_count(other) != digits)
            .collect();
        match others.as_slice() {
            [] => number,
            others => self.random.pick(others),
        }
    }

    /// A number with the root of `number`.
    fn of_root(&mut self, number: u64) -> u64 {
        let limit = self.random.pick(&[20, 100]);
        number - number % 100 + self.random.below(limit)
    }

    /// Has one, some or all of those numbers asked that may be asked together,
    /// or none.
    fn begin_round(&mut self, radio: &mut Radio) {
        let Some(first) = self.some_entry(radio) else {
            return;
        };
        if self.random.once_in(5) {
            return;
        }
        // Of four numbers, so many are asked beside the first.
        let share = self.random.pick(&[0, 2, 4]);
        for entry in &mut radio.entries[..radio.count] {
            let may_be = radio.hand_held == 1 || root(entry.number) == root(first.number);
            let is_asked = entry.number == first.number || self.random.below(4) < share;
            entry.to_ask = u8::from(may_be && is_asked);
        }
    }

    fn some_entry(&mut self, radio: &Radio) -> Option<Entry> {
        match stored(radio) {
            [] => None,
            entries => Some(self.random.pick(entries)),
        }
    }

    /// Makes a sound radio unsound.
    pub fn damage_radio(&mut self, radio: &mut Radio, damage: RadioDamage) {
        // Two numbers of different roots, where there are too few to damage.
        if radio.count < 2 {
            radio.count = 2;
            radio.entries[0].number = 10_492_123_401;
            radio.entries[1].number = 1_492_123_401;
        }
        let place = self.random.index(radio.count);
        let flag = self.random.pick(&[2, 3, 128, 255]);
        let behind = self.random.pick(&[1, 1, flag]);
        match damage {
            RadioDamage::Own => radio.own = self.malformed_or_nobody(),
            RadioDamage::TooMany => self.store_too_many(radio),
            RadioDamage::Number => {
                let entry = &mut radio.entries[place];
                entry.number = self.malformed_or_nobody();
                // In a cab radio it might else be one of two roots.
                entry.to_ask &= radio.hand_held;
            }
            RadioDamage::Twice => {
                let other = (place + 1 + self.random.index(radio.count - 1)) % radio.count;
                radio.entries[place] = radio.entries[other];
            }
            RadioDamage::Unsure => radio.entries[place].unsure = flag,
            RadioDamage::ToAsk => radio.entries[place].to_ask = flag,
            RadioDamage::HandHeld => radio.hand_held = flag,
            RadioDamage::NumberBehind => {
                let words = [self.number(), self.malformed()];
                self.entry_behind(radio).number = self.random.pick(&words);
            }
            RadioDamage::UnsureBehind => self.entry_behind(radio).unsure = behind,
            RadioDamage::ToAskBehind => self.entry_behind(radio).to_ask = behind,
            RadioDamage::Roots => self.ask_two_roots(radio),
        }
    }

    /// A count above 16, some of them sound but for their high bits.
    fn store_too_many(&mut self, radio: &mut Radio) {
        let few = radio.count;
        radio.count = self.random.pick(&[
            MAX_STORED + 1,
            MAX_STORED + 2,
            few + (1 << 8),
            few + (1 << 16),
            few + (1 << 32),
            few + (1 << 63),
            usize::MAX,
        ]);
    }

    /// An entry behind the stored ones; a full store first loses its last.
    fn entry_behind<'a>(&mut self, radio: &'a mut Radio) -> &'a mut Entry {
        if radio.count == MAX_STORED {
            radio.count -= 1;
            radio.entries[radio.count] = Entry::default();
        }
        let place = match self.random.below(2) {
            0 => radio.count,
            _ => radio.count + self.random.index(MAX_STORED - radio.count),
        };
        &mut radio.entries[place]
    }

    /// Has a cab radio ask about numbers of two roots, next to each other or not.
    fn ask_two_roots(&mut self, radio: &mut Radio) {
        radio.hand_held = 0;
        let place = self.random.index(radio.count);
        let first = root(radio.entries[place].number);
        let others: Vec<usize> = (0..radio.count)
            .filter(|&other| root(radio.entries[other].number) != first)
            .collect();
        let other = match others.as_slice() {
            // All of one root: another number gets another root.
            [] => {
                let other = (place + 1) % radio.count;
                radio.entries[other].number = beside(radio.entries[other].number);
                other
            }
            others => self.random.pick(others),
        };
        radio.entries[place].to_ask = 1;
        radio.entries[other].to_ask = 1;
    }
}

/// Calls to a sound radio.
impl Generator {
    pub fn radio_call(&mut self, radio: &Radio) -> RadioCall {
        match self.random.below(8) {
            0 | 1 => RadioCall::Store {
                number: self.number_to_store(radio),
            },
            2..=4 => RadioCall::Notice {
                string: self.notice_string(radio),
                question: self.buffer_around(160),
            },
            _ => RadioCall::Reply {
                invoke: self.invoke_number(radio),
                string: self.reply_string(radio),
                question: self.buffer_around(160),
            },
        }
    }

    /// A stored number, a new one, often with the root of a stored one, or none.
    fn number_to_store(&mut self, radio: &Radio) -> u64 {
        let known = self.some_entry(radio).map(|entry| entry.number);
        match (self.random.below(8), known) {
            (0, _) => self.malformed_or_nobody(),
            (1, _) => radio.own,
            (2, Some(number)) => self.of_another_length(number),
            (3..=5, Some(number)) => number,
            (6, Some(number)) => self.of_root(number),
            _ => self.number(),
        }
    }

    /// The string of a forced erasure mostly, by a supervisor or at the terminal,
    /// often about a root that is stored.
    fn notice_string(&mut self, radio: &Radio) -> Vec<u8> {
        let known = self.some_entry(radio).map(|entry| entry.number);
        let number = match (self.random.below(8), known) {
            (0, Some(number)) => self.of_another_length(number),
            (1, Some(number)) => number,
            (2..=6, Some(number)) => self.of_root(number),
            _ => self.number(),
        };
        let mut fields = Fields {
            operation: Operation::Erase,
            number,
            forced: Some(match self.random.below(4) {
                0 => radio.own,
                _ => self.number(),
            }),
            additional: self.additional(),
        };
        match self.random.below(16) {
            0 => fields.forced = None,
            1 => {
                fields.forced = None;
                fields.operation = self
                    .random
                    .pick(&[Operation::Register, Operation::Interrogate]);
            }
            // A crew's field, which may not stand in a forced erasure.
            2 => {
                let fields_of_crews = ["BULK0", "BULK1 02", "BULK", " BULK0"];
                fields.additional = self.random.pick(&fields_of_crews).into();
            }
            _ => {}
        }
        let mut pieces = Self::pieces(&fields);
        if self.random.once_in(3) {
            pieces[MSISDN].clear();
        }
        self.string_of(pieces)
    }

    /// The last question's invoke number mostly, or one close to it.
    fn invoke_number(&mut self, radio: &Radio) -> u8 {
        match self.random.below(12) {
            0 => self.random.octet(),
            1 => radio.invoke.wrapping_add(1),
            2 => radio.invoke.wrapping_sub(1),
            _ => radio.invoke,
        }
    }
}

/// Outcomes that tell nothing about a number's holder, and texts close to those
/// that do.
const TELLING_NOTHING: [&str; 20] = [
    "",
    "0",
    "3",
    "03",
    "03 ",
    "3 ",
    " 03",
    "6",
    "62 ",
    "620",
    "062",
    "01",
    "02",
    "11 2 0102 0",
    "22",
    "41",
    "42",
    "63",
    "68",
    "03 CAB",
];

/// Replies to the questions of a sound radio.
impl Generator {
    /// A packed reply: one that tells the holder or that there is none, one that
    /// differs from it in one place, or another.
    fn reply_string(&mut self, radio: &Radio) -> Vec<u8> {
        let mut text = self.telling_text(radio);
        match self.random.below(16) {
            0..=2 => text = self.random.pick(&TELLING_NOTHING).into(),
            3 => text.push(self.random.pick(b" 09#\r\0")),
            4 => self.break_characters(&mut text),
            5 => text.resize(self.random.pick(&[18, 19, 91, 182]), b'0'),
            6 => {
                let mut octets = pack_by_bits(&text);
                self.break_octets(&mut octets);
                return octets;
            }
            7 => {
                let length = self.random.pick(&[1, 2, 7, 12, 16, 17, 79, 80, 160, 161]);
                return self.buffer(length);
            }
            _ => {}
        }
        pack_by_bits(&text)
    }

    /// `62`, or `03` and a number: own's mostly, or one close to it.
    fn telling_text(&mut self, radio: &Radio) -> Vec<u8> {
        let known = self.some_entry(radio).map(|entry| entry.number);
        let holder = match self.random.below(16) {
            0..=3 => return b"62".to_vec(),
            4 => self.number(),
            5 => self.of_another_length(radio.own),
            6 => radio.own ^ 1,
            7 => known.unwrap_or(radio.own),
            8 => return self.with_wrong_count_of_digits(),
            _ => radio.own,
        };
        let mut text = Text::new();
        text.put(b"03 ").put_number(holder).as_slice().to_vec()
    }

    /// `03` and too few or too many digits for a number.
    fn with_wrong_count_of_digits(&mut self) -> Vec<u8> {
        let count = self.random.pick(&[1, 4, 16, 17]);
        let digits = (0..count).map(|_| self.random.pick(b"0123456789"));
        b"03 ".iter().copied().chain(digits).collect()
    }
}

#[cfg(test)]
mod tests {
    use super::*;
    use crate::radio::is_sound;

    #[test]
    fn radios_are_sound_until_damaged() {
        let mut generator = Generator::new(6);
        for _ in 0..2000 {
            let radio = generator.radio();
            assert!(is_sound(&radio), "{radio:?}");
            for damage in RadioDamage::ALL {
                let mut radio = radio;
                generator.damage_radio(&mut radio, damage);
                assert!(!is_sound(&radio), "{damage:?} {radio:?}");
            }
        }
    }

    #[test]
    fn numbers_of_another_length_have_the_same_digits() {
        let mut generator = Generator::new(8);
        let trimmed = |number: u64| number.to_string()[1..].trim_start_matches('0').to_owned();
        for _ in 0..2000 {
            let number = generator.number();
            let other = generator.of_another_length(number);
            assert!(is_number(other) && is_number(beside(number)));
            assert_eq!(trimmed(number), trimmed(other));
            assert!(other != number || digit_count(number) == 15);
            assert_ne!(root(beside(number)), root(number));
        }
    }

    #[test]
    fn one_seed_makes_one_sequence() {
        let (mut first, mut second) = (Generator::new(7), Generator::new(7));
        for _ in 0..200 {
            assert_eq!(case(&mut first), case(&mut second));
        }
    }
}
