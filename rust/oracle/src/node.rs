//! The calls on a lent table: requests, erasures at the node's terminal, and the
//! three calls for notices.

use crate::crew::{crew_codes, member, Code, Steps, LEAD};
use crate::frame::{read_register, write_release, Invoked, Message, Released, FRAME_ROOM, SCHEME};
use crate::number::is_number;
use crate::routing::{NetworkCode, Subaddress};
use crate::rows::{
    figures_of, find_flags, find_record, list_is_sound, sound_records, sound_records_mut, Record,
    ADDRESSEE, CLOSED, FAILURE, HAS_FOLLOW_ME, HOLDER, IS_SUPERVISOR, LAST_PHASE, NOBODY, NOTICE,
    NUMBER, PHASE, SUPERVISOR,
};
use crate::string::{read_fields, Fields, Operation, MAX_CHARACTERS};
use crate::text::Text;

/// The least room for a reply or a notice.
const ROOM: usize = 80;

/// What a call answers. Refusals, errors and outcomes are numbered apart.
#[derive(Clone, Copy, Debug, PartialEq, Eq)]
pub enum Answer {
    /// The call is refused; no memory was touched.
    Refusal(u8),
    /// The request or the routing is in error; no memory was touched.
    Error(u8),
    /// The request, the erasure at the terminal or the routing has an outcome. Its
    /// text, packed, is in the first `octets` octets of the reply buffer; a routing
    /// has none. `msisdn` is that of outcome 03, else 0.
    Outcome {
        number: u8,
        octets: usize,
        msisdn: u64,
    },
    /// A framed request is in error, or rejected. The Release Complete that says
    /// so is in the first `octets` octets of the frame buffer.
    ReturnError {
        code: u8,
        octets: usize,
    },
    Reject {
        problem: u8,
        octets: usize,
    },
    /// A notice goes to `addressee`: the first `octets` octets of the buffer.
    Sent {
        addressee: u64,
        octets: usize,
    },
    /// The notice was delivered and is cleared.
    Delivered,
    /// The notice is cleared without having been delivered.
    Dropped,
    /// The notice waits to be sent again.
    Again,
    /// The lowest number whose notice is due.
    Found(u64),
    /// No notice is due.
    NoneDue,
    /// The number is closed.
    Closed,
    /// So many rows are in use now, and so many went.
    Rows {
        in_use: usize,
        gone: usize,
    },
    /// The number is another network's: this is its code.
    AskNetwork(NetworkCode),
    /// The message goes to `msisdn`, with a subaddress where the number's type has
    /// one.
    Routed {
        msisdn: u64,
        subaddress: Option<Subaddress>,
    },
}

/// Carries out a call on the records of a table that is sound and has these
/// figures, and recounts them afterwards.
fn counted(
    table: &mut [u64],
    figures: &mut [u64],
    call: impl FnOnce(&mut [Record]) -> Answer,
) -> Answer {
    let Some(records) = sound_records_mut(table) else {
        return Answer::Refusal(2);
    };
    if *figures != figures_of(records) {
        return Answer::Refusal(10);
    }
    let answer = call(records);
    figures.copy_from_slice(&figures_of(records));
    answer
}

/// Carries out a request.
pub fn request(
    table: &mut [u64],
    figures: &mut [u64],
    list: &[u64],
    reply: &mut [u8],
    requester: u64,
    scheme: u8,
    string: &[u8],
) -> Answer {
    if reply.len() < ROOM {
        return Answer::Refusal(1);
    }
    if !list_is_sound(list) {
        return Answer::Refusal(8);
    }
    counted(table, figures, |records| {
        behind_refusals(records, list, reply, requester, scheme, string)
    })
}

/// Carries out a request that a Register holds, and answers it by a Release
/// Complete: an outcome's `octets` are those of the frame.
pub fn framed_request(
    table: &mut [u64],
    figures: &mut [u64],
    list: &[u64],
    frame: &mut [u8],
    requester: u64,
    message: &[u8],
) -> Answer {
    if frame.len() < FRAME_ROOM {
        return Answer::Refusal(1);
    }
    let register = match read_register(message) {
        Ok(register) => register,
        Err(refusal) => return Answer::Refusal(refusal),
    };
    if !list_is_sound(list) {
        return Answer::Refusal(8);
    }
    counted(table, figures, |records| {
        answered(records, list, frame, requester, message, register)
    })
}

/// A framed request behind the refusals.
fn answered(
    records: &mut [Record],
    list: &[u64],
    frame: &mut [u8],
    requester: u64,
    message: &[u8],
    register: Message<Invoked>,
) -> Answer {
    let mut release = |content| write_release(register.first, register.invoke, content, frame);
    let (scheme, string) = match register.content {
        Invoked::Request { scheme, string } => (scheme, string.of(message)),
        Invoked::Problem(problem) => {
            let octets = release(Released::Reject(problem));
            return Answer::Reject { problem, octets };
        }
    };
    let mut reply = [0; ROOM];
    match behind_refusals(records, list, &mut reply, requester, scheme, string) {
        Answer::Error(code) => {
            let octets = release(Released::Error(code));
            Answer::ReturnError { code, octets }
        }
        Answer::Outcome {
            number,
            octets,
            msisdn,
        } => Answer::Outcome {
            number,
            octets: release(Released::Result(&reply[..octets])),
            msisdn,
        },
        other => other,
    }
}

/// A request on sound table and list, from error 35 on.
fn behind_refusals(
    records: &mut [Record],
    list: &[u64],
    reply: &mut [u8],
    requester: u64,
    scheme: u8,
    string: &[u8],
) -> Answer {
    if !is_number(requester) {
        return Answer::Error(35);
    }
    if scheme != SCHEME {
        return Answer::Error(71);
    }
    if string.is_empty() {
        return Answer::Error(35);
    }
    let mut chars = [0; MAX_CHARACTERS];
    let Some(fields) = read_fields(string, &mut chars) else {
        return Answer::Error(36);
    };

    let flags = find_flags(list, requester);
    if flags & HAS_FOLLOW_ME == 0 {
        return outcome(42, reply);
    }
    if fields.forced.is_some() && flags & IS_SUPERVISOR == 0 {
        return outcome(22, reply);
    }
    match crew_codes(fields.additional) {
        Some(codes) => whole_crew(records, requester, &fields, codes, reply),
        None => single(records, requester, &fields, reply),
    }
}

/// An outcome that is its two digits alone.
fn outcome(number: u8, reply: &mut [u8]) -> Answer {
    Answer::Outcome {
        number,
        octets: Text::new().put_outcome(number).pack_into(reply),
        msisdn: 0,
    }
}

/// A request of one number, behind the checks of the requester.
fn single(
    records: &mut [Record],
    requester: u64,
    fields: &Fields<&[u8]>,
    reply: &mut [u8],
) -> Answer {
    let Some(record) = find_record(records, fields.number) else {
        return outcome(41, reply);
    };
    let number = match (fields.operation, fields.forced) {
        (Operation::Register, _) => register(record, requester),
        (Operation::Interrogate, _) => match record[HOLDER] {
            0 => 62,
            holder => return interrogated(holder, reply),
        },
        (Operation::Erase, None) => erase(record, requester),
        (Operation::Erase, Some(msisdn)) => force(record, requester, msisdn),
    };
    outcome(number, reply)
}

/// A crew's request: the lead's number, then the number of each code, treated
/// as single requests one after the other.
fn whole_crew(
    records: &mut [Record],
    requester: u64,
    fields: &Fields<&[u8]>,
    codes: &[Code],
    reply: &mut [u8],
) -> Answer {
    let (number, treat): (u8, fn(&mut Record, u64) -> u8) = match fields.operation {
        Operation::Register => (11, register),
        _ => (12, erase),
    };
    let mut steps = Steps::new();
    for code in [LEAD].iter().chain(codes) {
        let record = find_record(records, member(fields.number, *code));
        steps.note(code, record.map_or(41, |record| treat(record, requester)));
    }
    Answer::Outcome {
        number,
        octets: steps.reply(number).pack_into(reply),
        msisdn: 0,
    }
}

/// Outcome 03, with the holder's digits in the reply.
fn interrogated(holder: u64, reply: &mut [u8]) -> Answer {
    Answer::Outcome {
        number: 3,
        octets: Text::new().put(b"03 ").put_number(holder).pack_into(reply),
        msisdn: holder,
    }
}

fn register(record: &mut Record, requester: u64) -> u8 {
    if record[NUMBER] == requester {
        return 67;
    }
    if record[CLOSED] != 0 {
        return 64;
    }
    if record[HOLDER] != 0 && record[HOLDER] != requester {
        return 61;
    }
    record[HOLDER] = requester;
    1
}

/// A plain erasure, by the holder or by the number's own subscriber.
fn erase(record: &mut Record, requester: u64) -> u8 {
    match record[HOLDER] {
        0 => 62,
        holder if holder != requester && record[NUMBER] != requester => 63,
        _ => {
            record[HOLDER] = 0;
            2
        }
    }
}

/// A forced erasure. The notice goes to the holder that was forced off, unless
/// that is the supervisor herself.
fn force(record: &mut Record, supervisor: u64, msisdn: u64) -> u8 {
    let holder = record[HOLDER];
    if holder == 0 {
        return 62;
    }
    if holder != msisdn {
        return 63;
    }
    if holder != supervisor {
        if record[PHASE] != 0 {
            return 68;
        }
        record[PHASE] = 1;
        record[ADDRESSEE] = holder;
        record[SUPERVISOR] = supervisor;
    }
    record[HOLDER] = 0;
    2
}

/// Erases `number` for staff at the node's terminal, who name its holder: a forced
/// erasure by nobody listed, of which the holder is always told.
///
/// Refused 1 for a reply too short, 2 for an unsound table, 10 for figures that
/// differ from a recount, 7 for a malformed number or holder, in this order.
pub fn terminal_erasure(
    table: &mut [u64],
    figures: &mut [u64],
    reply: &mut [u8],
    number: u64,
    holder: u64,
) -> Answer {
    if reply.len() < ROOM {
        return Answer::Refusal(1);
    }
    counted(table, figures, |records| {
        if !is_number(number) || !is_number(holder) {
            return Answer::Refusal(7);
        }
        let record = find_record(records, number);
        let said = record.map_or(41, |record| force(record, NOBODY, holder));
        outcome(said, reply)
    })
}

/// Sends the notice of `number`, if it is due.
pub fn sending(
    table: &mut [u64],
    figures: &mut [u64],
    buffer: &mut [u8],
    number: u64,
    delay: u32,
    now: u32,
) -> Answer {
    if buffer.len() < ROOM {
        return Answer::Refusal(1);
    }
    counted(table, figures, |records| {
        send(records, buffer, number, delay, now)
    })
}

/// A sending on sound records.
fn send(records: &mut [Record], buffer: &mut [u8], number: u64, delay: u32, now: u32) -> Answer {
    // A sound table holds no malformed number, so that one is not found.
    let Some(record) = find_record(records, number) else {
        return Answer::Refusal(7);
    };
    let Some(delay) = seconds(delay) else {
        return Answer::Refusal(6);
    };
    if record[PHASE] % 2 == 0 {
        return Answer::Refusal(4);
    }
    if !is_due(record, delay, now) {
        return Answer::Refusal(5);
    }
    record[PHASE] += 1;
    record[FAILURE] = 0;
    Answer::Sent {
        addressee: record[ADDRESSEE],
        octets: notice_text(number, record[SUPERVISOR]).pack_into(buffer),
    }
}

/// What a notice says. One from the terminal leaves the supervisor's place blank.
fn notice_text(number: u64, supervisor: u64) -> Text {
    let mut text = Text::new();
    text.put(b"##214*").put_number(number).put(b"*88*");
    if supervisor != NOBODY {
        text.put_number(supervisor);
    }
    text.put(b"*#");
    text
}

/// Takes in the result of a sending: kind 0 is delivered, 1 to 4 are errors
/// that end the notice, 5 is any other error.
pub fn result(table: &mut [u64], figures: &mut [u64], number: u64, kind: u32, now: u32) -> Answer {
    counted(table, figures, |records| {
        take_result(records, number, kind, now)
    })
}

/// A result on sound records.
fn take_result(records: &mut [Record], number: u64, kind: u32, now: u32) -> Answer {
    let Some(record) = find_record(records, number) else {
        return Answer::Refusal(7);
    };
    if kind > 5 {
        return Answer::Refusal(3);
    }
    if record[PHASE] == 0 || record[PHASE] % 2 == 1 {
        return Answer::Refusal(4);
    }
    if kind == 5 && record[PHASE] != LAST_PHASE {
        record[PHASE] += 1;
        record[FAILURE] = u64::from(now);
        return Answer::Again;
    }
    record[NOTICE].fill(0);
    if kind == 0 {
        Answer::Delivered
    } else {
        Answer::Dropped
    }
}

/// Finds the lowest number whose notice is due.
pub fn finding(table: &[u64], delay: u32, now: u32) -> Answer {
    let Some(records) = sound_records(table) else {
        return Answer::Refusal(2);
    };
    let Some(delay) = seconds(delay) else {
        return Answer::Refusal(6);
    };
    match records.iter().find(|record| is_due(record, delay, now)) {
        Some(record) => Answer::Found(record[NUMBER]),
        None => Answer::NoneDue,
    }
}

/// The seconds that a delay stands for, if it is one.
fn seconds(delay: u32) -> Option<u32> {
    match delay {
        0 => Some(300),
        60..=600 => Some(delay),
        _ => None,
    }
}

/// Whether the notice of a sound record is due.
fn is_due(record: &Record, delay: u32, now: u32) -> bool {
    match record[PHASE] {
        1 => true,
        // The last failure is below 2^32 in a sound record.
        phase => phase % 2 == 1 && now.wrapping_sub(record[FAILURE] as u32) >= delay,
    }
}
