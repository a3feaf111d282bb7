//! The cab radio, the other end of the node's notice.
//!
//! A radio stores up to 16 functional numbers. A notice begins a round: the
//! radio asks the node about stored numbers, one at a time, in the order in
//! which they were stored, and keeps those that the node confirms. The cab's
//! main software carries the strings: it sends each [`Question`] to the node and
//! gives the reply to the radio, until none follows.
//!
//! The work is done by `libradio_c.a`. Whatever it refuses, it changes nothing.

use std::error::Error;
use std::fmt;

use crate::FunctionalNumber;
#[cfg(feature = "archive")]
use crate::{c, calls::answered, Msisdn};

/// The most numbers that a radio stores.
pub const MOST_STORED: usize = 16;

/// The least room of a question buffer.
pub const QUESTION_ROOM: usize = 160;

reason! {
    /// Why a call of a radio is refused.
    Refusal: "refusal" {
        NoRoom = 1: "the question buffer has under 160 octets",
        Full = 20: "the number is new and the store is full",
        NoNotice = 21: "the string is no notice",
        NoQuestion = 22: "no question is open, or the reply answers another one",
        Number = 23: "the functional number is malformed",
        Unsound = 24: "the radio is unsound",
    }
}

/// A stored number.
#[derive(Clone, Copy, Debug, PartialEq, Eq)]
pub struct Entry {
    pub number: FunctionalNumber,
    /// Its mark: when it was last asked, the reply did not tell whose it is.
    pub unsure: bool,
    /// It is still to be asked in this round. The open question is about the
    /// first such number.
    pub to_ask: bool,
}

/// A question to the node: the first `octets` octets of the question buffer. Its
/// reply is given with its invoke number.
#[derive(Clone, Copy, Debug, PartialEq, Eq)]
pub struct Question {
    pub invoke: u8,
    pub octets: usize,
}

/// What the cab's main software is to do next.
#[derive(Clone, Copy, Debug, PartialEq, Eq)]
#[must_use]
pub enum Doing {
    /// Of a notice: return the empty response, and ask the first question if
    /// there is one.
    Respond(Option<Question>),
    /// Of a reply: ask the next question.
    Ask(Question),
    /// Of a reply: nothing, the round is over.
    Done,
}

impl Doing {
    /// The question to ask, if there is one.
    pub fn question(self) -> Option<Question> {
        match self {
            Self::Respond(question) => question,
            Self::Ask(question) => Some(question),
            Self::Done => None,
        }
    }
}

/// A radio.
///
/// # Examples
/// ```
/// use ffn::radio::{Doing, Radio, QUESTION_ROOM};
/// use ffn::{pack, FunctionalNumber};
///
/// let packed = |text: &str| {
///     let mut octets = [0; 80];
///     pack(text.as_bytes(), &mut octets).map(|count| octets[..count].to_vec())
/// };
/// let number: FunctionalNumber = "0492123401".parse()?;
/// let mut radio = Radio::cab("4915100001".parse()?);
/// radio.store(number)?;
///
/// let mut buffer = [0; QUESTION_ROOM];
/// let notice = packed("##214*0492123401*88*4915100002*#")?;
/// let mut doing = radio.notice(&notice, &mut buffer)?;
/// assert!(matches!(doing, Doing::Respond(_))); // the empty response goes back
/// while let Some(question) = doing.question() {
///     // The node is asked, and replies.
///     assert_eq!(buffer[..question.octets], packed("*#214*0492123401***#")?);
///     doing = radio.reply(question.invoke, &packed("62")?, &mut buffer)?;
/// }
/// assert_eq!(radio.stored().count(), 0); // nobody holds it
/// # Ok::<(), Box<dyn std::error::Error>>(())
/// ```
#[cfg(feature = "archive")]
#[derive(Clone, Debug, PartialEq, Eq)]
pub struct Radio(c::Radio);

#[cfg(feature = "archive")]
impl Radio {
    /// A fresh cab radio: it asks about numbers with the root of the notice's
    /// number, all digits but the last two.
    pub fn cab(own: Msisdn) -> Self {
        Self(c::Radio {
            own: own.word(),
            ..c::Radio::default()
        })
    }

    /// A fresh hand-held: it asks about all numbers.
    pub fn hand_held(own: Msisdn) -> Self {
        Self(c::Radio {
            own: own.word(),
            hand_held: 1,
            ..c::Radio::default()
        })
    }

    /// The radio with this state. Any may be passed; the library judges it, and
    /// refuses every call on an unsound one.
    pub fn from_state(state: c::Radio) -> Self {
        Self(state)
    }

    /// Its state, to be kept for [`Radio::from_state`].
    pub fn state(&self) -> &c::Radio {
        &self.0
    }

    /// The numbers that are stored, in the order in which they were stored.
    pub fn stored(&self) -> impl Iterator<Item = Entry> + '_ {
        // Of an unsound state what can be shown.
        let entries = self.0.entries.iter().take(self.0.count);
        entries.filter_map(|entry| {
            Some(Entry {
                number: FunctionalNumber::from_word(entry.number)?,
                unsure: entry.unsure != 0,
                to_ask: entry.to_ask != 0,
            })
        })
    }

    /// Stores a number: it goes last, not marked, and waits for the next notice.
    /// One that is stored already changes nothing.
    ///
    /// # Errors
    /// [`Refusal::Unsound`], [`Refusal::Number`], [`Refusal::Full`], in this
    /// order.
    pub fn store(&mut self, number: FunctionalNumber) -> Result<(), Refusal> {
        doing(c::radio_store(&mut self.0, number.word())).map(drop)
    }

    /// Takes a packed notice, and begins a round; an earlier one and its open
    /// question are forgotten. The first question is written to `question`. A
    /// notice names the supervisor, or nobody where the holder was forced off at
    /// the node's terminal.
    ///
    /// # Errors
    /// [`Refusal::Unsound`], [`Refusal::NoRoom`], [`Refusal::NoNotice`], in this
    /// order.
    pub fn notice(&mut self, string: &[u8], question: &mut [u8]) -> Result<Doing, Refusal> {
        doing(c::radio_notice(&mut self.0, string, question))
    }

    /// Takes the packed reply to the question with this invoke number. `03` with
    /// its own MSISDN keeps the number and takes its mark off, `03` with another
    /// or `62` drops it, and anything else keeps it and marks it, an empty string
    /// too: that is given where no reply came. The next question is written to
    /// `question`.
    ///
    /// # Errors
    /// [`Refusal::Unsound`], [`Refusal::NoRoom`], [`Refusal::NoQuestion`], in
    /// this order.
    pub fn reply(
        &mut self,
        invoke: u8,
        string: &[u8],
        question: &mut [u8],
    ) -> Result<Doing, Refusal> {
        doing(c::radio_reply(&mut self.0, invoke, string, question))
    }
}

/// What the library said.
#[cfg(feature = "archive")]
fn doing(said: c::RadioDoing) -> Result<Doing, Refusal> {
    if said.refusal != 0 {
        return Err(answered(Refusal::from_number(said.refusal.into())));
    }
    let question = (said.octets != 0).then_some(Question {
        invoke: said.invoke,
        octets: said.octets,
    });
    Ok(match (said.respond, question) {
        (0, None) => Doing::Done,
        (0, Some(question)) => Doing::Ask(question),
        (_, question) => Doing::Respond(question),
    })
}
