//! The terminal at the node: its erasures, every refusal and outcome, the blank
//! notice, and what stays.

use ffn::radio::{Doing, Radio, QUESTION_ROOM};
use ffn::{
    c, finding, image_size, pack, read_image, read_request, request, result, sending,
    terminal_erasure, write_image, Failure, Figures, FunctionalNumber, Kind, Msisdn, Outcome,
    Refusal, Reply, RequestError, Resulted, Sent, BUFFER_ROOM, CODING_SCHEME, NUMBER_WORDS,
};

const UNTOUCHED: u8 = 0xEE;

/// F is 0492123401; A has Follow Me, B is a supervisor too.
const F: u64 = 10_492_123_401;
const A: u64 = 14_915_100_001;
const B: u64 = 14_915_100_002;
const LIST: [u64; 4] = [A, 1, B, 3];

const BLANK: &str = "##214*0492123401*88**#";

type Row = [u64; NUMBER_WORDS];

fn number(word: u64) -> FunctionalNumber {
    FunctionalNumber::from_word(word).unwrap()
}

fn msisdn(word: u64) -> Msisdn {
    Msisdn::from_word(word).unwrap()
}

fn packed(text: &str) -> Vec<u8> {
    let mut out = [0; 80];
    let count = pack(text.as_bytes(), &mut out).unwrap();
    out[..count].to_vec()
}

fn held_by(holder: u64) -> Row {
    [F, holder, 0, 0, 0, 0, 0]
}

/// F without holder, and a notice to A from the terminal.
fn notice(phase: u64, failure: u64) -> Row {
    [F, 0, phase, A, 0, failure, 0]
}

/// An erasure with the right figures, which it keeps right, and a reply that is
/// long enough, whose text and rest are checked.
fn erase(table: &mut [u64], word: u64, holder: u64) -> Outcome {
    let mut figures = Figures::recount(table).unwrap();
    let mut reply = [UNTOUCHED; BUFFER_ROOM + 1];
    let done = terminal_erasure(
        table,
        &mut figures,
        &mut reply,
        number(word),
        msisdn(holder),
    );
    let Reply { outcome, octets } = done.unwrap();
    let text = packed(&format!("{:02}", outcome.number()));
    assert_eq!((octets, &reply[..2]), (2, &text[..]));
    assert_eq!(reply[2..], [UNTOUCHED; BUFFER_ROOM - 1]);
    assert_eq!(Figures::recount(table), Ok(figures));
    outcome
}

/// Sends F's notice, whose text stands alone in the buffer.
fn send(table: &mut [u64], delay: u32, now: u32, text: &str) {
    let mut figures = Figures::recount(table).unwrap();
    let mut buffer = [UNTOUCHED; BUFFER_ROOM];
    let sent = sending(table, &mut figures, &mut buffer, number(F), delay, now);
    let (addressee, octets) = (msisdn(A), packed(text).len());
    assert_eq!(sent, Ok(Sent { addressee, octets }));
    assert_eq!(buffer[..octets], packed(text));
    assert!(buffer[octets..].iter().all(|&octet| octet == UNTOUCHED));
    assert_eq!(Figures::recount(table), Ok(figures));
}

fn told(table: &mut [u64], kind: Kind, now: u32) -> Resulted {
    let mut figures = Figures::recount(table).unwrap();
    result(table, &mut figures, number(F), kind, now).unwrap()
}

fn ask(table: &mut [u64], requester: u64, text: &str) -> Result<Outcome, Failure> {
    let mut figures = Figures::recount(table).unwrap();
    let (reply, string) = (&mut [0; BUFFER_ROOM], packed(text));
    let done = request(
        table,
        &mut figures,
        &LIST,
        reply,
        msisdn(requester),
        CODING_SCHEME,
        &string,
    );
    done.map(|reply| reply.outcome)
}

#[test]
fn a_number_is_cleared_and_its_holder_told() {
    let mut table = held_by(A);
    assert_eq!(erase(&mut table, F, B), Outcome::WrongHolder);
    assert_eq!(erase(&mut table, F + 1, A), Outcome::UnknownNumber);
    assert_eq!(table, held_by(A));
    assert_eq!(erase(&mut table, F, A), Outcome::Erased);
    assert_eq!(table, [10_492_123_401, 0, 1, 14_915_100_001, 0, 0, 0]);
    assert_eq!(erase(&mut table, F, A), Outcome::NoHolder);
    assert_eq!(finding(&table, 60, 100), Ok(Some(number(F))));
    send(&mut table, 60, 100, BLANK);
    assert_eq!(table, notice(2, 0));
    let mut again = table;
    let registered = ask(&mut again, A, "**214*0492123401***#");
    assert_eq!(registered, Ok(Outcome::Registered));
    assert_eq!(erase(&mut again, F, A), Outcome::NoticePending);
    assert_eq!(again, [F, A, 2, A, 0, 0, 0]);
    assert_eq!(told(&mut table, Kind::Delivered, 101), Resulted::Delivered);
    assert_eq!(table, held_by(0));
}

#[test]
fn only_the_number_s_own_row_changes() {
    for closed in [0, 1] {
        let (before, behind) = ([F - 1, A, 3, B, 0, 9, 1], [F + 1, A, 0, 0, 0, 0, 0]);
        let mut table = [before, [F, A, 0, 0, 0, 0, closed], behind];
        let erased = erase(table.as_flattened_mut(), F, A);
        assert_eq!(erased, Outcome::Erased);
        assert_eq!(table, [before, [F, 0, 1, A, 0, 0, closed], behind]);
    }
}

#[test]
fn a_pending_notice_in_every_phase() {
    for phase in 1..=12 {
        for supervisor in [0, B] {
            let row = [F, A, phase, A, supervisor, 0, 0];
            let mut table = row;
            assert_eq!(erase(&mut table, F, B), Outcome::WrongHolder);
            assert_eq!(erase(&mut table, F, A), Outcome::NoticePending);
            assert_eq!(table, row);
        }
    }
}

#[test]
fn refusals_in_their_order() {
    let right = Figures::from_words([1, 0, 0]);
    let refused = |table: &[u64], figures: Figures, room: usize, word, holder| {
        let (mut lent, mut counts) = (table.to_vec(), figures);
        let mut reply = [UNTOUCHED; BUFFER_ROOM];
        let (number, holder) = (number(word), msisdn(holder));
        let reply = &mut reply[..room];
        let said = terminal_erasure(&mut lent, &mut counts, reply, number, holder);
        assert_eq!((lent.as_slice(), counts), (table, figures));
        assert!(reply.iter().all(|&octet| octet == UNTOUCHED));
        said.unwrap_err()
    };
    let (table, wrong) = (held_by(A), Figures::default());
    assert_eq!(refused(&table[..6], wrong, 79, 7, 7), Refusal::NoRoom);
    assert_eq!(refused(&table[..6], wrong, 80, 7, 7), Refusal::TableUnsound);
    assert_eq!(refused(&table, wrong, 80, 7, 7), Refusal::Figures);
    assert_eq!(refused(&table, right, 80, 7, 7), Refusal::Number);
    assert_eq!(refused(&table, right, 80, F, 7), Refusal::Number);
    assert_eq!(refused(&table, right, 80, 7, A), Refusal::Number);
    assert_eq!(refused(&table, right, 80, F + 1, 7), Refusal::Number);
    // Nobody is no number either, in either place, and nothing else is named.
    let refusal = c::Answer {
        class: c::REFUSAL,
        number: 7,
        count: 0,
        value: 0,
    };
    let reply = &mut [0; BUFFER_ROOM];
    for (word, holder) in [(0, A), (F, 0), (0, 0)] {
        let said = c::terminal_erasure(&mut held_by(A), &mut [1, 0, 0], reply, word, holder);
        assert_eq!(said, refusal);
    }
    let outcome = c::Answer {
        class: c::OUTCOME,
        number: 2,
        count: 2,
        value: 0,
    };
    let said = c::terminal_erasure(&mut held_by(A), &mut [1, 0, 0], reply, F, A);
    assert_eq!(said, outcome);
}

/// A notice from nobody is sound, one to nobody or to the supervisor is not.
#[test]
fn soundness() {
    let row = |phase, addressee, supervisor| [F, 0, phase, addressee, supervisor, 0, 0];
    for phase in 1..=12 {
        assert!(Figures::recount(&row(phase, A, 0)).is_ok());
        for unsound in [row(phase, 0, 0), row(phase, 0, B), row(phase, A, A)] {
            assert_eq!(Figures::recount(&unsound), Err(Refusal::TableUnsound));
        }
    }
    for unsound in [row(0, A, 0), row(0, 0, B), row(13, A, 0), row(1, A, 7)] {
        assert_eq!(Figures::recount(&unsound), Err(Refusal::TableUnsound));
    }
}

#[test]
fn six_sendings() {
    let mut table = notice(1, 0);
    for sending in 1..=6 {
        let now = 1000 * sending as u32;
        send(&mut table, 600, now, BLANK);
        assert_eq!(table, notice(2 * sending, 0));
        let became = told(&mut table, Kind::OtherError, now);
        if sending == 6 {
            assert_eq!((became, table), (Resulted::Dropped, held_by(0)));
        } else {
            assert_eq!(became, Resulted::Again);
            assert_eq!(table, notice(2 * sending + 1, now.into()));
        }
    }
}

#[test]
fn a_blank_notice_is_no_request() {
    let error = RequestError::UnexpectedDataValue;
    assert_eq!(read_request(&packed(BLANK)), Err(error));
    let mut table = held_by(A);
    for requester in [A, B] {
        let said = ask(&mut table, requester, BLANK);
        assert_eq!(said, Err(Failure::Error(error)));
    }
    assert_eq!(table, held_by(A));
}

#[test]
fn images() {
    let rows: Vec<Row> = (1..=12).map(|n| [F + n, 0, n, A, 0, 0, n % 2]).collect();
    let table = rows.as_flattened();
    let figures = Figures::recount(table).unwrap();
    let mut image = vec![UNTOUCHED; image_size(12, 0)];
    let size = write_image(table, &figures, &[], &mut image);
    assert_eq!(size, Ok(image.len()));
    let mut back = vec![0; table.len()];
    let read = read_image(&image, &mut back, &mut []).unwrap();
    assert_eq!((back.as_slice(), read.figures), (table, figures));
    // To nobody.
    let addressee = 8 * 3;
    image[addressee..][..8].fill(0);
    let refused = read_image(&image, &mut back, &mut []);
    assert_eq!(refused, Err(Refusal::TableUnsound));
}

/// A's radio takes the notice, asks the node, and drops F.
#[test]
fn a_round() {
    let mut table = held_by(A);
    assert_eq!(erase(&mut table, F, A), Outcome::Erased);
    send(&mut table, 60, 100, BLANK);
    let mut radio = Radio::cab(msisdn(A));
    radio.store(number(F)).unwrap();
    let mut buffer = [UNTOUCHED; QUESTION_ROOM];
    let doing = radio.notice(&packed(BLANK), &mut buffer).unwrap();
    let Doing::Respond(Some(question)) = doing else {
        panic!("{doing:?}");
    };
    assert_eq!(
        buffer[..question.octets],
        packed("*#214*0492123401***#")[..]
    );
    let said = ask(&mut table, A, "*#214*0492123401***#");
    assert_eq!(said, Ok(Outcome::NoHolder));
    let done = radio.reply(question.invoke, &packed("62"), &mut buffer);
    assert_eq!(done, Ok(Doing::Done));
    assert_eq!(radio.stored().count(), 0);
}
