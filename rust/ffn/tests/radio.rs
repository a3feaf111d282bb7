//! The radio: every call and refusal, whole rounds, and rounds with the node.

use ffn::radio::{Doing, Entry, Question, Radio, Refusal, MOST_STORED, QUESTION_ROOM};
use ffn::{
    c, pack, request, sending, unpack, Figures, FunctionalNumber, Msisdn, BUFFER_ROOM,
    CODING_SCHEME,
};

const UNTOUCHED: u8 = 0xEE;

/// A has the radio, B is a supervisor. F and the numbers behind it have one
/// root, G another.
const A: u64 = 14_915_100_001;
const B: u64 = 14_915_100_002;
const C: u64 = 14_915_100_003;
const F: u64 = 10_492_123_401;
const G: u64 = 10_492_123_501;

const NOTICE: &str = "##214*0492123401*88*4915100002*#";

fn number(word: u64) -> FunctionalNumber {
    FunctionalNumber::from_word(word).unwrap()
}

fn msisdn(word: u64) -> Msisdn {
    Msisdn::from_word(word).unwrap()
}

fn with(mut radio: Radio, numbers: &[u64]) -> Radio {
    for &word in numbers {
        radio.store(number(word)).unwrap();
    }
    radio
}

fn cab(numbers: &[u64]) -> Radio {
    with(Radio::cab(msisdn(A)), numbers)
}

fn hand_held(numbers: &[u64]) -> Radio {
    with(Radio::hand_held(msisdn(A)), numbers)
}

fn packed(text: &str) -> Vec<u8> {
    let mut out = [0; 80];
    let count = pack(text.as_bytes(), &mut out).unwrap();
    out[..count].to_vec()
}

/// What is stored: the digits of each number, `?` where it is unsure, `!` where
/// it is still to be asked.
fn stored(radio: &Radio) -> String {
    let shown = radio.stored().map(|entry| {
        let unsure = if entry.unsure { "?" } else { "" };
        let to_ask = if entry.to_ask { "!" } else { "" };
        format!("{}{unsure}{to_ask}", entry.number)
    });
    shown.collect::<Vec<_>>().join(" ")
}

/// What a call came to: whether it responds, and its question's invoke number
/// and text.
type Said = Result<(bool, Option<(u8, String)>), Refusal>;

/// Makes a call, and checks what holds of every one.
fn said(
    radio: &mut Radio,
    call: impl FnOnce(&mut Radio, &mut [u8]) -> Result<Doing, Refusal>,
) -> Said {
    let before = radio.clone();
    let mut buffer = [UNTOUCHED; QUESTION_ROOM];
    let doing = call(radio, &mut buffer).inspect_err(|_| {
        assert_eq!(*radio, before);
        assert_eq!(buffer, [UNTOUCHED; QUESTION_ROOM]);
    })?;
    let asked = doing.question();
    let (last, octets) = asked.map_or((before.state().invoke, 0), |question| {
        (question.invoke, question.octets)
    });
    assert_eq!(radio.state().invoke, last);
    assert!(buffer[octets..].iter().all(|&octet| octet == UNTOUCHED));
    let asked = asked.map(|question| {
        let mut text = [0; 30];
        let count = unpack(&buffer[..octets], &mut text).unwrap();
        let text = String::from_utf8(text[..count].to_vec()).unwrap();
        (question.invoke, text)
    });
    Ok((matches!(doing, Doing::Respond(_)), asked))
}

fn notice(radio: &mut Radio, text: &str) -> Said {
    said(radio, |radio, buffer| radio.notice(&packed(text), buffer))
}

fn reply(radio: &mut Radio, invoke: u8, text: &str) -> Said {
    said(radio, |radio, buffer| {
        radio.reply(invoke, &packed(text), buffer)
    })
}

/// The question about the number with these digits.
fn asks(respond: bool, invoke: u8, digits: &str) -> Said {
    Ok((respond, Some((invoke, format!("*#214*{digits}***#")))))
}

const IS_OVER: Said = Ok((false, None));

#[test]
fn fresh_radios() {
    assert_eq!(cab(&[]).state().hand_held, 0);
    assert_eq!(hand_held(&[]).state().hand_held, 1);
    for radio in [cab(&[]), hand_held(&[])] {
        let state = *radio.state();
        assert_eq!((state.own, state.count, state.invoke), (A, 0, 0));
        assert_eq!(state.entries, [c::RadioEntry::default(); MOST_STORED]);
        assert_eq!(Radio::from_state(state), radio);
    }
}

#[test]
fn storing() {
    let mut radio = cab(&[F, G, F]);
    let entry = |word| Entry {
        number: number(word),
        unsure: false,
        to_ask: false,
    };
    assert!(radio.stored().eq([entry(F), entry(G)]));
    for malformed in [1, 99_999, 4_915_100_001, u64::MAX] {
        let before = radio.clone();
        assert_eq!(radio.store(number(malformed)), Err(Refusal::Number));
        assert_eq!(radio, before);
    }
    let sixteen: Vec<u64> = (F..).take(MOST_STORED).collect();
    let mut full = hand_held(&sixteen);
    let before = full.clone();
    assert_eq!(full.store(number(G)), Err(Refusal::Full));
    assert_eq!(full.store(number(1)), Err(Refusal::Number));
    assert_eq!(full.store(number(F)), Ok(()));
    assert_eq!(full, before);
}

#[test]
fn a_cab_radio_asks_one_root() {
    let mut radio = cab(&[F, G, F + 1, F + 2]);
    assert_eq!(notice(&mut radio, NOTICE), asks(true, 1, "0492123401"));
    assert_eq!(
        stored(&radio),
        "0492123401! 0492123501 0492123402! 0492123403!"
    );
    radio.store(number(F + 3)).unwrap(); // waits for the next round
    assert_eq!(reply(&mut radio, 1, "62"), asks(false, 2, "0492123402"));
    assert_eq!(reply(&mut radio, 2, "41"), asks(false, 3, "0492123403"));
    assert_eq!(reply(&mut radio, 3, "03 4915100001"), IS_OVER);
    assert_eq!(
        stored(&radio),
        "0492123501 0492123402? 0492123403 0492123404"
    );
    // The mark goes with the next reply.
    assert_eq!(notice(&mut radio, NOTICE), asks(true, 4, "0492123402"));
    let said = reply(&mut radio, 4, "03 4915100001");
    assert_eq!(said, asks(false, 5, "0492123403"));
    let said = reply(&mut radio, 5, "03 4915100003");
    assert_eq!(said, asks(false, 6, "0492123404"));
    assert_eq!(reply(&mut radio, 6, ""), IS_OVER);
    assert_eq!(stored(&radio), "0492123501 0492123402 0492123404?");
}

#[test]
fn a_hand_held_asks_all() {
    let mut radio = hand_held(&[G, F]);
    assert_eq!(notice(&mut radio, NOTICE), asks(true, 1, "0492123501"));
    assert_eq!(reply(&mut radio, 1, "62"), asks(false, 2, "0492123401"));
    assert_eq!(reply(&mut radio, 2, "62"), IS_OVER);
    assert_eq!(radio.stored().count(), 0);
}

#[test]
fn a_notice_responds_with_and_without_a_question() {
    let mut buffer = [UNTOUCHED; QUESTION_ROOM];
    let string = packed(NOTICE);
    for numbers in [&[][..], &[G]] {
        let said = cab(numbers).notice(&string, &mut buffer);
        assert_eq!(said, Ok(Doing::Respond(None)));
    }
    let question = Question {
        invoke: 1,
        octets: 18,
    };
    let mut radio = cab(&[F, F + 1]);
    let said = radio.notice(&string, &mut buffer);
    assert_eq!(said, Ok(Doing::Respond(Some(question))));
    let next = Question {
        invoke: 2,
        octets: 18,
    };
    let said = radio.reply(1, &[], &mut buffer);
    assert_eq!(said, Ok(Doing::Ask(next)));
    assert_eq!(radio.reply(2, &[], &mut buffer), Ok(Doing::Done));
}

#[test]
fn late_replies() {
    let mut radio = cab(&[F, G]);
    for invoke in [0, 1, 255] {
        assert_eq!(reply(&mut radio, invoke, "62"), Err(Refusal::NoQuestion));
    }
    notice(&mut radio, NOTICE).unwrap();
    let said = notice(&mut radio, "##214*0492123501*88*4915100002*#");
    assert_eq!(said, asks(true, 2, "0492123501"));
    assert_eq!(reply(&mut radio, 1, "62"), Err(Refusal::NoQuestion));
    assert_eq!(reply(&mut radio, 2, "62"), IS_OVER);
    assert_eq!(reply(&mut radio, 2, "62"), Err(Refusal::NoQuestion));
    assert_eq!(stored(&radio), "0492123401");
}

#[test]
fn invoke_number_255_is_followed_by_0() {
    let mut state = *cab(&[F, F + 1]).state();
    state.invoke = 254;
    let mut radio = Radio::from_state(state);
    assert_eq!(notice(&mut radio, NOTICE), asks(true, 255, "0492123401"));
    assert_eq!(reply(&mut radio, 255, "62"), asks(false, 0, "0492123402"));
    assert_eq!(reply(&mut radio, 0, "62"), IS_OVER);
}

#[test]
fn refusals_in_their_order() {
    let (notice, reply) = (packed(NOTICE), packed("62"));
    let mut sound = cab(&[F, F + 1]);
    let mut unsound = Radio::from_state(c::Radio {
        count: 17,
        ..*sound.state()
    });
    for room in [0, QUESTION_ROOM - 1, QUESTION_ROOM] {
        let buffer = &mut [UNTOUCHED; QUESTION_ROOM][..room];
        for string in [&notice, &reply] {
            let before = (sound.clone(), unsound.clone());
            assert_eq!(unsound.store(number(1)), Err(Refusal::Unsound));
            assert_eq!(unsound.notice(string, buffer), Err(Refusal::Unsound));
            assert_eq!(unsound.reply(0, string, buffer), Err(Refusal::Unsound));
            let refused = if room < QUESTION_ROOM {
                assert_eq!(sound.notice(string, buffer), Err(Refusal::NoRoom));
                Refusal::NoRoom
            } else {
                Refusal::NoQuestion
            };
            assert_eq!(sound.reply(0, string, buffer), Err(refused));
            assert_eq!((&sound, &unsound), (&before.0, &before.1));
        }
        assert!(buffer.iter().all(|&octet| octet == UNTOUCHED));
    }
    for text in ["##214*0492123401***#", "*#214*0492123401***#", "62", ""] {
        assert_eq!(self::notice(&mut sound, text), Err(Refusal::NoNotice));
    }
    // From the terminal, and against a rule.
    for text in [
        "**214*0492123401*88**#",
        "##214*0492123401*88*#",
        "##214*0492123401*88**BULK0#",
    ] {
        assert_eq!(self::notice(&mut sound, text), Err(Refusal::NoNotice));
    }
}

/// A round begins as by a supervisor's notice.
#[test]
fn a_notice_from_the_terminal() {
    for additional in ["", "CAB 7", " BULK0", "012345678901234567890123456789"] {
        let text = format!("##214*0492123401*88**{additional}#");
        for mut radio in [cab(&[G, F, F + 1]), hand_held(&[F, G])] {
            let mut other = radio.clone();
            assert_eq!(notice(&mut radio, &text), notice(&mut other, NOTICE));
            assert_eq!(radio, other);
        }
    }
}

#[test]
fn an_unsound_state_is_shown_as_far_as_it_goes() {
    let mut state = *cab(&[F]).state();
    state.count = usize::MAX;
    assert_eq!(stored(&Radio::from_state(state)), "0492123401");
}

/// The node, after B forced A off F.
struct Node {
    table: Vec<u64>,
    figures: Figures,
    list: [u64; 4],
}

impl Node {
    /// With A's flags in the list.
    fn new(flags: u64) -> Self {
        let rows = [(F, A), (F + 1, A), (F + 2, 0), (F + 3, C), (G, C)];
        let row = |(number, holder)| [number, holder, 0, 0, 0, 0, 0];
        let table: Vec<u64> = rows.into_iter().flat_map(row).collect();
        let figures = Figures::recount(&table).unwrap();
        let list = [A, flags, B, 3];
        let mut node = Self {
            table,
            figures,
            list,
        };
        let erased = node.ask(B, &packed("##214*0492123401*88*4915100001*#"));
        assert_eq!(erased, packed("02"));
        node
    }

    /// The reply to a request.
    fn ask(&mut self, requester: u64, string: &[u8]) -> Vec<u8> {
        let mut reply = [UNTOUCHED; BUFFER_ROOM];
        let done = request(
            &mut self.table,
            &mut self.figures,
            &self.list,
            &mut reply,
            msisdn(requester),
            CODING_SCHEME,
            string,
        );
        reply[..done.unwrap().octets].to_vec()
    }

    /// The notice that it sends to A.
    fn send(&mut self) -> Vec<u8> {
        let (table, figures) = (&mut self.table, &mut self.figures);
        let mut buffer = [UNTOUCHED; BUFFER_ROOM];
        let sent = sending(table, figures, &mut buffer, number(F), 60, 100).unwrap();
        assert_eq!(sent.addressee, msisdn(A));
        buffer[..sent.octets].to_vec()
    }
}

/// A whole round; how many questions it took.
fn round(radio: &mut Radio, mut node: Node) -> usize {
    let mut buffer = [UNTOUCHED; QUESTION_ROOM];
    let mut doing = radio.notice(&node.send(), &mut buffer).unwrap();
    assert!(matches!(doing, Doing::Respond(_)));
    let mut questions = 0;
    while let Some(Question { invoke, octets }) = doing.question() {
        let answer = node.ask(A, &buffer[..octets]);
        doing = radio.reply(invoke, &answer, &mut buffer).unwrap();
        questions += 1;
    }
    assert_eq!(doing, Doing::Done);
    questions
}

#[test]
fn rounds_with_the_node() {
    let numbers = [F + 4, F, G, F + 1, F + 2, F + 3];
    let mut radio = cab(&numbers);
    assert_eq!(round(&mut radio, Node::new(1)), 5);
    assert_eq!(stored(&radio), "0492123405? 0492123501 0492123402");
    let mut radio = hand_held(&numbers);
    assert_eq!(round(&mut radio, Node::new(1)), 6);
    assert_eq!(stored(&radio), "0492123405? 0492123402");
    // Without Follow Me each reply is 42.
    let mut radio = cab(&numbers);
    assert_eq!(round(&mut radio, Node::new(0)), 5);
    assert_eq!(
        stored(&radio),
        "0492123405? 0492123401? 0492123501 0492123402? 0492123403? 0492123404?"
    );
}
