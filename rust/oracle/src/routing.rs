//! M-112: which MSISDN stands behind the functional number that a text message
//! goes to.
//!
//! The first three digits of a number are its international code, by the house
//! rule; the fourth is its type, the last two are its branch.

use crate::node::Answer;
use crate::number::{number_from_digits, MAX_DIGITS};
use crate::rows::{find_place, sound_records, HOLDER};

/// An international code, as its three characters.
pub type NetworkCode = [u8; 3];

/// A subaddress (000, table 2): extension and NSAP, a local decimal one, and the
/// branch.
pub type Subaddress = [u8; 3];
const NSAP: u8 = 0x80;
const LOCAL_DECIMAL: u8 = 0x48;

/// Says where a text message to `digits` goes. They have their international code,
/// or, where they are not `coded`, get the node's own, `home`, put in front.
///
/// Refused 2 for an unsound table; error 36 for a node's code that is not three
/// digits, a character that is no digit, or not 5 to 15 digits with the code.
pub fn routing(table: &[u64], home: &[u8], digits: &[u8], coded: bool) -> Answer {
    let Some(records) = sound_records(table) else {
        return Answer::Refusal(2);
    };
    let Some(home) = network_code(home) else {
        return Answer::Error(36);
    };
    let mut room = [0; MAX_DIGITS];
    let front: &[u8] = if coded { &[] } else { &home };
    let Some((number, digits)) = joined(front, digits, &mut room) else {
        return Answer::Error(36);
    };
    if let Some(&foreign) = digits.first_chunk().filter(|code| **code != home) {
        return Answer::AskNetwork(foreign);
    }
    let holder = find_place(records, number).map(|place| records[place][HOLDER]);
    match holder {
        Err(_) => unrouted(41),
        Ok(0) => unrouted(62),
        Ok(msisdn) => Answer::Routed {
            msisdn,
            subaddress: subaddress(digits),
        },
    }
}

/// The code that `characters` are, if they are three digits.
fn network_code(characters: &[u8]) -> Option<NetworkCode> {
    let code = NetworkCode::try_from(characters).ok()?;
    code.iter().all(u8::is_ascii_digit).then_some(code)
}

/// The number that `front` and `digits` make, and its digits, in `room`.
fn joined<'a>(
    front: &[u8],
    digits: &[u8],
    room: &'a mut [u8; MAX_DIGITS],
) -> Option<(u64, &'a [u8])> {
    let whole = room.get_mut(..front.len() + digits.len())?;
    let (start, rest) = whole.split_at_mut(front.len());
    start.copy_from_slice(front);
    rest.copy_from_slice(digits);
    Some((number_from_digits(whole)?, whole))
}

/// The subaddress of a number of type 2, 3 or 4. Its branch's right-hand digit is
/// in the high half.
fn subaddress(digits: &[u8]) -> Option<Subaddress> {
    let ([_, _, _, b'2'..=b'4', ..], [.., left, right]) = (digits, digits) else {
        return None;
    };
    let branch = (right - b'0') << 4 | (left - b'0');
    Some([NSAP, LOCAL_DECIMAL, branch])
}

/// An outcome, which has no text here.
fn unrouted(number: u8) -> Answer {
    Answer::Outcome {
        number,
        octets: 0,
        msisdn: 0,
    }
}
