//! What an image holds, and its text.

use std::fmt;

use ffn::{Figures, FunctionalNumber, Msisdn, NUMBER_WORDS, SUBSCRIBER_WORDS};

/// Flags of a subscriber.
const FOLLOW_ME: u64 = 1;
const SUPERVISOR: u64 = 2;

/// The contents of an image.
#[derive(Clone, Debug, Default, PartialEq, Eq)]
pub struct Contents {
    pub table: Vec<u64>,
    pub list: Vec<u64>,
    pub figures: Figures,
}

impl Contents {
    pub fn numbers(&self) -> usize {
        self.table.len() / NUMBER_WORDS
    }

    pub fn subscribers(&self) -> usize {
        self.list.len() / SUBSCRIBER_WORDS
    }

    /// The line that says how much it is.
    pub fn counts(&self) -> String {
        let (numbers, subscribers) = (self.numbers(), self.subscribers());
        format!("ok: numbers {numbers}, subscribers {subscribers}\n")
    }
}

/// A line for each number, for each subscriber, and for the figures.
impl fmt::Display for Contents {
    fn fmt(&self, f: &mut fmt::Formatter<'_>) -> fmt::Result {
        for row in self.table.as_chunks().0 {
            write_number(row, f)?;
        }
        for row in self.list.as_chunks().0 {
            write_subscriber(row, f)?;
        }
        let Figures {
            held,
            waiting,
            in_flight,
        } = self.figures;
        writeln!(
            f,
            "figures: held {held}, waiting {waiting}, in flight {in_flight}"
        )
    }
}

fn write_number(
    &[number, holder, phase, addressee, supervisor, second, closed]: &[u64; NUMBER_WORDS],
    f: &mut fmt::Formatter<'_>,
) -> fmt::Result {
    write!(
        f,
        "number {}: ",
        digits(FunctionalNumber::from_word(number))
    )?;
    if closed == 1 {
        f.write_str("closed, ")?;
    }
    match Msisdn::from_word(holder) {
        Some(holder) => write!(f, "holder {holder}, ")?,
        None => f.write_str("no holder, ")?,
    }
    if phase == 0 {
        return f.write_str("no notice\n");
    }
    // Odd 2k + 1 waits after k sendings, even 2k is in flight, its k-th.
    let state = if phase % 2 == 1 {
        "waiting"
    } else {
        "in flight"
    };
    write!(f, "notice {state}, sendings done {}", phase / 2)?;
    write!(f, ", addressee {}", digits(Msisdn::from_word(addressee)))?;
    match Msisdn::from_word(supervisor) {
        Some(supervisor) => write!(f, ", supervisor {supervisor}")?,
        None => f.write_str(", from the terminal")?,
    }
    if phase % 2 == 1 && phase > 1 {
        write!(f, ", last failure at second {second}")?;
    }
    f.write_str("\n")
}

fn write_subscriber(
    &[msisdn, flags]: &[u64; SUBSCRIBER_WORDS],
    f: &mut fmt::Formatter<'_>,
) -> fmt::Result {
    let words = match (flags & FOLLOW_ME != 0, flags & SUPERVISOR != 0) {
        (false, false) => "none",
        (true, false) => "Follow Me",
        (false, true) => "supervisor",
        (true, true) => "Follow Me, supervisor",
    };
    let msisdn = digits(Msisdn::from_word(msisdn));
    writeln!(f, "subscriber {msisdn}: flags {flags}, {words}")
}

/// The digits of a number, which a sound row has.
fn digits(number: Option<impl fmt::Display>) -> String {
    number.map_or("nobody".into(), |number| number.to_string())
}
