//! The cab radio (document 02, M-106): which functional numbers it stores, and
//! what it asks the node about them after a notice.
//!
//! The cab's main software lends the state. Each call reads it, works on a list
//! of what is stored, and writes the state back if the call is accepted.

use crate::number::{is_number, number_from_digits};
use crate::packing::unpack;
use crate::string::{read_notice, write_request, Fields, Operation, WRITER_ROOM};

/// The most functional numbers that a radio stores.
pub const MAX_STORED: usize = 16;

/// A stored number, as it is lent.
#[repr(C)]
#[derive(Clone, Copy, Debug, Default, PartialEq, Eq)]
pub struct Entry {
    /// The functional number, in stored form.
    pub number: u64,
    /// 1 if it is marked unsure, else 0.
    pub unsure: u8,
    /// 1 if it is still to be asked in this round, else 0.
    pub to_ask: u8,
}

/// The state of a radio, as it is lent.
#[repr(C)]
#[derive(Clone, Copy, Debug, Default, PartialEq, Eq)]
pub struct Radio {
    /// Its own MSISDN, in stored form.
    pub own: u64,
    /// How many numbers are stored; the entries behind them are 0.
    pub count: usize,
    pub entries: [Entry; MAX_STORED],
    /// 0 in a cab radio, 1 in a hand-held.
    pub hand_held: u8,
    /// The invoke number of the last question.
    pub invoke: u8,
}

/// What the caller is to do.
#[repr(C)]
#[derive(Clone, Copy, Debug, Default, PartialEq, Eq)]
pub struct Doing {
    /// Why the call is refused, or 0. A refused call changes nothing.
    pub refusal: u8,
    /// 1 if the empty response is to be returned, else 0.
    pub respond: u8,
    /// The question's invoke number, which may be 0 too.
    pub invoke: u8,
    /// The question's octets, at the front of its buffer. 0: ask nothing.
    pub octets: usize,
}

/// Whether the state of a radio keeps the rules.
pub fn is_sound(radio: &Radio) -> bool {
    Store::read(radio).is_some()
}

/// Stores a functional number.
pub fn store(radio: &mut Radio, number: u64) -> Doing {
    change(radio, |store| {
        if !is_number(number) {
            return Err(23);
        }
        if store.has(number) {
            return Ok(Doing::default());
        }
        if store.numbers.len() == MAX_STORED {
            return Err(20);
        }
        store.numbers.push(Stored {
            number,
            unsure: false,
            to_ask: false,
        });
        Ok(Doing::default())
    })
}

/// Takes in a notice and begins a round.
pub fn notice(radio: &mut Radio, string: &[u8], question: &mut [u8]) -> Doing {
    change(radio, |store| {
        has_room(question)?;
        let notice = read_notice(string).ok_or(21)?;
        for stored in &mut store.numbers {
            stored.to_ask = store.hand_held || root(stored.number) == root(notice.number);
        }
        Ok(Doing {
            respond: 1,
            ..store.ask(question)
        })
    })
}

/// Takes in the reply to the question with this invoke number.
pub fn reply(radio: &mut Radio, invoke: u8, string: &[u8], question: &mut [u8]) -> Doing {
    change(radio, |store| {
        has_room(question)?;
        let place = store.open_question().ok_or(22)?;
        if invoke != store.invoke {
            return Err(22);
        }
        match told(string, store.own) {
            Told::HeldByOwn => store.keep(place, false),
            Told::NotHeldByOwn => drop(store.numbers.remove(place)),
            Told::Nothing => store.keep(place, true),
        }
        Ok(store.ask(question))
    })
}

/// Carries out a call on a sound state, and writes it back if it is accepted.
fn change(radio: &mut Radio, call: impl FnOnce(&mut Store) -> Result<Doing, u8>) -> Doing {
    let accepted = Store::read(radio).ok_or(24).and_then(|mut store| {
        let doing = call(&mut store)?;
        store.write(radio);
        Ok(doing)
    });
    accepted.unwrap_or_else(|refusal| Doing {
        refusal,
        ..Doing::default()
    })
}

fn has_room(question: &[u8]) -> Result<(), u8> {
    if question.len() < WRITER_ROOM {
        Err(1)
    } else {
        Ok(())
    }
}

/// All digits but the last two, the branch. The 1 in front of the digits keeps
/// roots of different lengths apart.
fn root(number: u64) -> u64 {
    number / 100
}

/// What the reply to a question tells about its number.
enum Told {
    HeldByOwn,
    NotHeldByOwn,
    Nothing,
}

/// Reads the reply to a question: `03` and an MSISDN, or `62`.
fn told(string: &[u8], own: u64) -> Told {
    let mut text = vec![0; 2 * string.len()];
    let Ok(length) = unpack(string, &mut text) else {
        return Told::Nothing;
    };
    match &text[..length] {
        b"62" => Told::NotHeldByOwn,
        [b'0', b'3', b' ', digits @ ..] => match number_from_digits(digits) {
            Some(holder) if holder == own => Told::HeldByOwn,
            Some(_) => Told::NotHeldByOwn,
            None => Told::Nothing,
        },
        _ => Told::Nothing,
    }
}

/// A sound state.
struct Store {
    own: u64,
    hand_held: bool,
    /// In the order in which they were stored.
    numbers: Vec<Stored>,
    /// The invoke number of the last question.
    invoke: u8,
}

struct Stored {
    number: u64,
    unsure: bool,
    to_ask: bool,
}

impl Stored {
    fn read(entry: &Entry) -> Option<Self> {
        Some(Self {
            number: entry.number,
            unsure: truth(entry.unsure)?,
            to_ask: truth(entry.to_ask)?,
        })
    }

    fn write(&self) -> Entry {
        Entry {
            number: self.number,
            unsure: self.unsure.into(),
            to_ask: self.to_ask.into(),
        }
    }
}

/// What an octet says that may be 0 or 1.
fn truth(octet: u8) -> Option<bool> {
    match octet {
        0 => Some(false),
        1 => Some(true),
        _ => None,
    }
}

impl Store {
    /// The state that is lent, if it is sound.
    fn read(radio: &Radio) -> Option<Self> {
        let (stored, behind) = radio.entries.split_at_checked(radio.count)?;
        let store = Self {
            own: radio.own,
            hand_held: truth(radio.hand_held)?,
            numbers: stored.iter().map(Stored::read).collect::<Option<_>>()?,
            invoke: radio.invoke,
        };
        let nothing_behind = behind.iter().all(|entry| *entry == Entry::default());
        (nothing_behind && store.keeps_the_rules()).then_some(store)
    }

    /// The rules that the types leave open.
    fn keeps_the_rules(&self) -> bool {
        let numbers: Vec<u64> = self.numbers.iter().map(|stored| stored.number).collect();
        let comes_twice = |place: usize| numbers[..place].contains(&numbers[place]);
        is_number(self.own)
            && numbers.iter().all(|&number| is_number(number))
            && !(0..numbers.len()).any(comes_twice)
            && (self.hand_held || self.asks_one_root())
    }

    /// Whether the numbers still to be asked have one root.
    fn asks_one_root(&self) -> bool {
        let to_ask = self.numbers.iter().filter(|stored| stored.to_ask);
        let mut roots: Vec<u64> = to_ask.map(|stored| root(stored.number)).collect();
        roots.dedup();
        roots.len() <= 1
    }

    fn write(&self, radio: &mut Radio) {
        let mut entries = [Entry::default(); MAX_STORED];
        for (entry, stored) in entries.iter_mut().zip(&self.numbers) {
            *entry = stored.write();
        }
        *radio = Radio {
            own: self.own,
            count: self.numbers.len(),
            entries,
            hand_held: self.hand_held.into(),
            invoke: self.invoke,
        };
    }

    fn has(&self, number: u64) -> bool {
        self.numbers.iter().any(|stored| stored.number == number)
    }

    /// The place of the number that the open question is about.
    fn open_question(&self) -> Option<usize> {
        self.numbers.iter().position(|stored| stored.to_ask)
    }

    /// Keeps a number that was asked, marked unsure or not.
    fn keep(&mut self, place: usize, unsure: bool) {
        let stored = &mut self.numbers[place];
        (stored.unsure, stored.to_ask) = (unsure, false);
    }

    /// Puts the next question into its buffer, if there is one.
    fn ask(&mut self, buffer: &mut [u8]) -> Doing {
        let Some(place) = self.open_question() else {
            return Doing::default();
        };
        let interrogation = Fields {
            operation: Operation::Interrogate,
            number: self.numbers[place].number,
            forced: None,
            additional: b"",
        };
        let octets = write_request(&interrogation, buffer)
            .expect("the buffer has the room and what is stored is a number");
        self.invoke = self.invoke.wrapping_add(1);
        Doing {
            invoke: self.invoke,
            octets,
            ..Doing::default()
        }
    }
}
