//! M-108: the notices that calls make and end, counted from the calls and the
//! answers they got, beside those that a table keeps.

use crate::frame::{read_register, Invoked, Message};
use crate::generate::Call;
use crate::node::Answer;
use crate::rows::{Record, NOBODY, PHASE};
use crate::string::read_request;

/// The counts of a list of calls.
#[derive(Clone, Copy, Debug, Default, PartialEq, Eq)]
pub struct Account {
    /// Forced erasures answered 02 whose requester is not the holder they name,
    /// those at the terminal among them.
    pub erasures: u64,
    /// Notices delivered.
    pub deliveries: u64,
    /// Notices dropped by kinds 1 to 4.
    pub dropped_by_kind: u64,
    /// Notices dropped after the last sending, by kind 5.
    pub dropped_last: u64,
}

impl Account {
    /// Counts a call by its answer.
    pub fn count(&mut self, call: &Call, answer: Answer) {
        match (call, answer) {
            (Call::Result { kind: 0, .. }, Answer::Delivered) => self.deliveries += 1,
            (Call::Result { kind: 1..=4, .. }, Answer::Dropped) => self.dropped_by_kind += 1,
            (Call::Result { kind: 5, .. }, Answer::Dropped) => self.dropped_last += 1,
            (_, Answer::Outcome { number: 2, .. }) => {
                let erasure = forced_erasure(call);
                self.erasures += u64::from(erasure.is_some_and(|e| e.holder != e.supervisor));
            }
            _ => {}
        }
    }

    /// Whether every notice is accounted for, from so many pending to so many.
    pub fn is_balanced(&self, before: u64, after: u64) -> bool {
        let ended = self.deliveries + self.dropped_by_kind + self.dropped_last;
        self.erasures + before == ended + after
    }
}

/// What a forced erasure says. At the terminal its supervisor is nobody, 0.
#[derive(Clone, Copy, Debug, PartialEq, Eq)]
pub struct ForcedErasure {
    pub number: u64,
    pub holder: u64,
    pub supervisor: u64,
}

/// The forced erasure that a request asks for, bare or in its frame, or that the
/// terminal makes.
pub fn forced_erasure(call: &Call) -> Option<ForcedErasure> {
    let (supervisor, string) = match call {
        Call::TerminalErasure { number, holder, .. } => {
            return Some(ForcedErasure {
                number: *number,
                holder: *holder,
                supervisor: NOBODY,
            });
        }
        Call::Request {
            requester, string, ..
        } => (*requester, string.as_slice()),
        Call::FramedRequest {
            requester, message, ..
        } => match read_register(message) {
            Ok(Message {
                content: Invoked::Request { string, .. },
                ..
            }) => (*requester, &message[string.start..][..string.length]),
            _ => return None,
        },
        _ => return None,
    };
    let fields = read_request(string)?;
    Some(ForcedErasure {
        number: fields.number,
        holder: fields.forced?,
        supervisor,
    })
}

/// The notices pending in a table.
pub fn pending(table: &[u64]) -> u64 {
    let (records, _): (&[Record], _) = table.as_chunks();
    records.iter().filter(|record| record[PHASE] != 0).count() as u64
}
