//! The three figures beside the table: what each call makes of them, and where
//! others are refused.

use ffn::{
    c, framed_request, pack, request, result, sending, Answered, Failure, Figures, FramedReply,
    FunctionalNumber, Kind, Msisdn, Outcome, Refusal, Resulted, BUFFER_ROOM, CODING_SCHEME,
    FRAME_ROOM,
};

const UNTOUCHED: u8 = 0xEE;

/// F is 0492123401; A has Follow Me, B is a supervisor too.
const F: u64 = 10_492_123_401;
const A: u64 = 14_915_100_001;
const B: u64 = 14_915_100_002;
const LIST: [u64; 4] = [A, 1, B, 3];

const REGISTER: &str = "**214*0492123401***#";
const ERASE: &str = "##214*0492123401***#";
const FORCE_A: &str = "##214*0492123401*88*4915100001*#";
const FORCE_B: &str = "##214*0492123401*88*4915100002*#";

/// A's registration of F in a frame.
const FRAMED: [u8; 40] = [
    0x0B, 0x7B, 0x1C, 0x21, 0xA1, 0x1F, 0x02, 0x01, 0x01, 0x02, 0x01, 0x3B, 0x30, 0x17, 0x04, 0x01,
    0x0F, 0x04, 0x12, 0x2A, 0x95, 0x2C, 0x46, 0x53, 0xC1, 0x68, 0x39, 0x59, 0x4C, 0x36, 0xA3, 0xC1,
    0x62, 0x2A, 0x95, 0x6A, 0x04, 0x7F, 0x01, 0x00,
];

fn f() -> FunctionalNumber {
    FunctionalNumber::from_word(F).unwrap()
}

fn absent() -> FunctionalNumber {
    FunctionalNumber::from_word(F + 1).unwrap()
}

fn figures(held: u64, waiting: u64, in_flight: u64) -> Figures {
    Figures {
        held,
        waiting,
        in_flight,
    }
}

fn packed(text: &str) -> Vec<u8> {
    let mut out = [0; 80];
    let count = pack(text.as_bytes(), &mut out).unwrap();
    out[..count].to_vec()
}

fn ask(
    table: &mut [u64],
    figures: &mut Figures,
    requester: u64,
    text: &str,
) -> Result<Outcome, Failure> {
    let requester = Msisdn::from_word(requester).unwrap();
    let (reply, string) = (&mut [UNTOUCHED; BUFFER_ROOM], packed(text));
    let done = request(
        table,
        figures,
        &LIST,
        reply,
        requester,
        CODING_SCHEME,
        &string,
    );
    if done.is_err() {
        assert_eq!(reply, &[UNTOUCHED; BUFFER_ROOM]);
    }
    done.map(|reply| reply.outcome)
}

#[test]
fn a_recount() {
    assert_eq!(Figures::recount(&[]), Ok(Figures::default()));
    assert_eq!(
        Figures::recount(&[F, A, 0, 0, 0, 0, 0]),
        Ok(figures(1, 0, 0))
    );
    let phases: Vec<u64> = (1..=12)
        .flat_map(|phase| [F + phase, 0, phase, A, B, 0, 0])
        .collect();
    assert_eq!(Figures::recount(&phases), Ok(figures(0, 6, 6)));
    let full: Vec<u64> = (0..1024).flat_map(|n| [F + n, A, 2, A, B, 0, 0]).collect();
    assert_eq!(Figures::recount(&full), Ok(figures(1024, 0, 1024)));
    for unsound in [&[F][..], &[F, 7, 0, 0, 0, 0, 0], &[F, 0, 13, A, B, 0, 0]] {
        assert_eq!(Figures::recount(unsound), Err(Refusal::TableUnsound));
        let refused = c::Figures {
            class: c::REFUSAL,
            number: 2,
            held: 0,
            waiting: 0,
            in_flight: 0,
        };
        assert_eq!(c::recount(unsound), refused);
    }
    assert_eq!(c::recount(&phases).number, 0);
}

#[test]
fn requests() {
    let (mut table, mut lent) = ([F, 0, 0, 0, 0, 0, 0], Figures::default());
    for (requester, text, outcome, after) in [
        (A, REGISTER, Outcome::Registered, figures(1, 0, 0)),
        (A, REGISTER, Outcome::Registered, figures(1, 0, 0)),
        (B, REGISTER, Outcome::HeldByAnother, figures(1, 0, 0)),
        (A, ERASE, Outcome::Erased, figures(0, 0, 0)),
        (A, REGISTER, Outcome::Registered, figures(1, 0, 0)),
        (B, FORCE_A, Outcome::Erased, figures(0, 1, 0)),
        (A, REGISTER, Outcome::Registered, figures(1, 1, 0)),
        (B, FORCE_A, Outcome::NoticePending, figures(1, 1, 0)),
        (A, ERASE, Outcome::Erased, figures(0, 1, 0)),
        (B, REGISTER, Outcome::Registered, figures(1, 1, 0)),
        // Forced by the holder herself: no notice is made.
        (B, FORCE_B, Outcome::Erased, figures(0, 1, 0)),
    ] {
        assert_eq!(ask(&mut table, &mut lent, requester, text), Ok(outcome));
        assert_eq!(lent, after);
    }
}

#[test]
fn a_crew_of_ten() {
    let mut table: Vec<u64> = (0..10).flat_map(|n| [F + n, 0, 0, 0, 0, 0, 0]).collect();
    let mut lent = Figures::default();
    for (text, held) in [
        ("**214*0492123401***BULK9 020304050607080910#", 10),
        ("**214*0492123401***BULK9 020304050607080910#", 10),
        ("##214*0492123401***BULK8 0203040506070809#", 1),
    ] {
        assert!(ask(&mut table, &mut lent, A, text).is_ok());
        assert_eq!(lent, figures(held, 0, 0));
    }
}

#[test]
fn sendings_and_results() {
    for (kind, resulted, after) in [
        (Kind::Delivered, Resulted::Delivered, [1, 0, 0]),
        (Kind::UnknownSubscriber, Resulted::Dropped, [1, 0, 0]),
        (Kind::IllegalSubscriber, Resulted::Dropped, [1, 0, 0]),
        (Kind::IllegalEquipment, Resulted::Dropped, [1, 0, 0]),
        (Kind::ServiceNotSupported, Resulted::Dropped, [1, 0, 0]),
        (Kind::OtherError, Resulted::Again, [1, 1, 0]),
    ] {
        let (mut table, mut lent) = ([F, B, 1, A, B, 0, 0], figures(1, 1, 0));
        let mut buffer = [UNTOUCHED; BUFFER_ROOM];
        assert!(sending(&mut table, &mut lent, &mut buffer, f(), 60, 7).is_ok());
        assert_eq!(lent, figures(1, 0, 1));
        assert_eq!(result(&mut table, &mut lent, f(), kind, 7), Ok(resulted));
        assert_eq!(lent.words(), after);
    }
}

#[test]
fn framed_requests() {
    let (mut table, mut lent) = ([F, 0, 0, 0, 0, 0, 0], Figures::default());
    let requester = Msisdn::from_word(A).unwrap();
    let mut frame = [UNTOUCHED; FRAME_ROOM];
    let mut ask = |lent: &mut Figures, message: &[u8]| {
        framed_request(&mut table, lent, &LIST, &mut frame, requester, message)
    };
    let mut rejected = FRAMED;
    rejected[11] = 0x3C;
    let answer = ask(&mut lent, &rejected).unwrap().answered;
    assert!(matches!(answer, Answered::Reject(_)));
    assert_eq!(lent, Figures::default());
    let registered = FramedReply {
        answered: Answered::Result(Outcome::Registered),
        octets: 23,
    };
    assert_eq!(ask(&mut lent, &FRAMED), Ok(registered));
    assert_eq!(lent, figures(1, 0, 0));
    // Before a Reject.
    let mut other = figures(1, 0, 1);
    assert_eq!(ask(&mut other, &rejected), Err(Refusal::Figures));
    assert_eq!(other, figures(1, 0, 1));
}

#[test]
fn others_are_refused_directly_behind_an_unsound_table() {
    let held = [F, A, 0, 0, 0, 0, 0];
    let refused = |refusal| Err(Failure::Refused(refusal));
    for other in [[2, 0, 0], [0, 0, 0], [1, 1, 0], [1, 0, 1]].map(Figures::from_words) {
        let (mut table, mut lent) = (held, other);
        // Also where the requester is no MSISDN.
        for requester in [A, 1] {
            let said = ask(&mut table, &mut lent, requester, REGISTER);
            assert_eq!(said, refused(Refusal::Figures));
        }
        let mut buffer = [UNTOUCHED; BUFFER_ROOM];
        for number in [f(), absent()] {
            let sent = sending(&mut table, &mut lent, &mut buffer, number, 60, 7);
            assert_eq!(sent, Err(Refusal::Figures));
            let taken = result(&mut table, &mut lent, number, Kind::Delivered, 7);
            assert_eq!(taken, Err(Refusal::Figures));
        }
        assert_eq!(
            (table, lent, buffer),
            (held, other, [UNTOUCHED; BUFFER_ROOM])
        );
        let said = ask(&mut [F, 7, 0, 0, 0, 0, 0], &mut lent, A, REGISTER);
        assert_eq!(said, refused(Refusal::TableUnsound));
    }
    // Words that are not three.
    for other in [&[][..], &[1], &[1, 0], &[1, 0, 0, 0]] {
        let (mut table, mut lent) = (held, other.to_vec());
        let (reply, string) = (&mut [UNTOUCHED; BUFFER_ROOM], packed(REGISTER));
        let said = c::request(
            &mut table,
            &mut lent,
            &LIST,
            reply,
            A,
            CODING_SCHEME,
            &string,
        );
        assert_eq!((said.class, said.number), (c::REFUSAL, 10));
        assert_eq!((&table, &lent[..]), (&held, other));
        assert_eq!(reply, &[UNTOUCHED; BUFFER_ROOM]);
    }
}
