//! The cab radio: document 02, M-106. One example for each sentence of its
//! rules, and the edges.

mod common;

use common::*;
use oracle::radio::{is_sound, notice, reply, store, Doing, Entry, Radio, MAX_STORED};
use oracle::Answer;

/// F's root with other branches, G of another root, and H, whose digits are
/// those of F without the zero in front.
const F2: u64 = F + 1;
const F3: u64 = F + 2;
const G: u64 = F + 100;
const H: u64 = 1_492_123_401;

/// A notice about a branch that is not stored, by supervisor B.
const NOTICE: &str = "##214*0492123499*88*4915100002*#";
const NOTICE_OF_G: &str = "##214*0492123501*88*4915100002*#";

/// A's cab radio with these numbers, fresh.
fn cab(numbers: &[u64]) -> Radio {
    let mut radio = Radio {
        own: A,
        count: numbers.len(),
        ..Radio::default()
    };
    for (entry, &number) in radio.entries.iter_mut().zip(numbers) {
        entry.number = number;
    }
    radio
}

fn hand_held(numbers: &[u64]) -> Radio {
    Radio {
        hand_held: 1,
        ..cab(numbers)
    }
}

/// A radio whose last question had this invoke number.
fn after(invoke: u8, radio: Radio) -> Radio {
    Radio { invoke, ..radio }
}

/// Sixteen numbers, of which the first ten have F's root.
fn sixteen() -> Vec<u64> {
    (0..10)
        .map(|n| F + n)
        .chain((0..6).map(|n| G + n))
        .collect()
}

fn numbers(radio: &Radio) -> Vec<u64> {
    let stored = &radio.entries[..radio.count];
    stored.iter().map(|entry| entry.number).collect()
}

fn marked(radio: &Radio) -> Vec<u64> {
    let marked = radio.entries.iter().filter(|entry| entry.unsure == 1);
    marked.map(|entry| entry.number).collect()
}

fn to_ask(radio: &Radio) -> Vec<u64> {
    let to_ask = radio.entries.iter().filter(|entry| entry.to_ask == 1);
    to_ask.map(|entry| entry.number).collect()
}

/// What a call came to, in words: a refusal, or the question and the number that
/// it is asked under. Checks what holds of every call.
fn said(
    radio: &mut Radio,
    respond: u8,
    call: impl FnOnce(&mut Radio, &mut [u8]) -> Doing,
) -> String {
    let before = *radio;
    let mut buffer = [FILL; 200];
    let doing = call(radio, &mut buffer);
    assert!(buffer[doing.octets..].iter().all(|&octet| octet == FILL));
    if doing.refusal > 0 {
        assert_eq!(*radio, before);
        assert_eq!((doing.respond, doing.invoke, doing.octets), (0, 0, 0));
        return format!("refused {}", doing.refusal);
    }
    assert!(is_sound(radio));
    assert_eq!(doing.respond, respond);
    if doing.octets == 0 {
        assert_eq!((doing.invoke, radio.invoke), (0, before.invoke));
        return "no question".into();
    }
    assert_eq!(doing.invoke, radio.invoke);
    let question = unpacked(&buffer[..doing.octets]);
    format!("{}: {question}", doing.invoke)
}

fn store_said(radio: &mut Radio, number: u64) -> String {
    said(radio, 0, |radio, _| store(radio, number))
}

/// An accepted notice is responded to.
fn notice_said(radio: &mut Radio, string: &str) -> String {
    notice_octets_said(radio, &packed(string))
}

fn notice_octets_said(radio: &mut Radio, octets: &[u8]) -> String {
    said(radio, 1, |radio, buffer| notice(radio, octets, buffer))
}

fn reply_said(radio: &mut Radio, invoke: u8, text: &str) -> String {
    reply_octets_said(radio, invoke, &packed(text))
}

fn reply_octets_said(radio: &mut Radio, invoke: u8, octets: &[u8]) -> String {
    said(radio, 0, |radio, buffer| {
        reply(radio, invoke, octets, buffer)
    })
}

/// The question about F, under this invoke number.
fn about_f(invoke: u8) -> String {
    format!("{invoke}: {INTERROGATE}")
}

/// The same about the number with this branch.
fn about(invoke: u8, branch: &str) -> String {
    format!("{invoke}: *#214*04921234{branch}***#")
}

// The state.

/// Radios that each break one rule, beside one that keeps it.
fn unsound() -> Vec<(&'static str, Radio)> {
    let good = cab(&[F, F2, G]);
    let with = |change: &dyn Fn(&mut Radio)| {
        let mut radio = good;
        change(&mut radio);
        radio
    };
    let mut full = cab(&sixteen());
    full.count = 17;
    vec![
        ("own is nobody", with(&|r| r.own = 0)),
        ("own has no 1 in front", with(&|r| r.own = 4_915_100_001)),
        ("own has 16 digits", with(&|r| r.own = 10u64.pow(16))),
        ("17 numbers", full),
        ("very many numbers", with(&|r| r.count = usize::MAX)),
        ("a count with a high bit", with(&|r| r.count |= 1 << 32)),
        ("a number of 0", with(&|r| r.entries[1].number = 0)),
        ("one of 4 digits", with(&|r| r.entries[2].number = 19_999)),
        ("a count too high", with(&|r| r.count = 4)),
        ("a number twice", with(&|r| r.entries[2].number = F)),
        ("its neighbour", with(&|r| r.entries[1].number = F)),
        ("mark 2", with(&|r| r.entries[0].unsure = 2)),
        ("mark 255", with(&|r| r.entries[2].unsure = 255)),
        ("to be asked 2", with(&|r| r.entries[0].to_ask = 2)),
        ("kind 2", with(&|r| r.hand_held = 2)),
        ("a count too low", with(&|r| r.count = 2)),
        ("a number behind", with(&|r| r.entries[3].number = F3)),
        ("a last one behind", with(&|r| r.entries[15].number = F3)),
        ("a mark behind", with(&|r| r.entries[3].unsure = 1)),
        ("to be asked behind", with(&|r| r.entries[15].to_ask = 1)),
        ("two roots to be asked", {
            with(&|r| (r.entries[1].to_ask, r.entries[2].to_ask) = (1, 1))
        }),
    ]
}

#[test]
fn unsound_states_are_refused_24_first() {
    assert!(is_sound(&cab(&[F, F2, G])));
    for (what, mut radio) in unsound() {
        assert!(!is_sound(&radio), "{what}");
        // Before all other refusals, and where the call has no other fault.
        for number in [0, F, F3] {
            assert_eq!(store_said(&mut radio, number), "refused 24", "{what}");
        }
        for string in [NOTICE, REGISTER] {
            assert_eq!(notice_said(&mut radio, string), "refused 24", "{what}");
        }
        for invoke in [0, 1] {
            let said = reply_said(&mut radio, invoke, "62");
            assert_eq!(said, "refused 24", "{what}");
        }
        let before = radio;
        let doing = notice(&mut radio, &packed(NOTICE), &mut []);
        assert_eq!((doing.refusal, radio), (24, before), "{what}");
        let doing = reply(&mut radio, 0, &packed("62"), &mut []);
        assert_eq!((doing.refusal, radio), (24, before), "{what}");
    }
}

#[test]
fn sound_states_at_the_edges() {
    let mut last_asked = hand_held(&sixteen());
    last_asked.entries[15].to_ask = 1;
    let mut all_marked = cab(&sixteen());
    for entry in &mut all_marked.entries {
        (entry.unsure, entry.to_ask) = (1, u8::from(entry.number / 100 == F / 100));
    }
    let mut two_roots_in_a_hand_held = hand_held(&[F, G]);
    two_roots_in_a_hand_held.entries[0].to_ask = 1;
    two_roots_in_a_hand_held.entries[1].to_ask = 1;
    for radio in [
        cab(&[]),
        hand_held(&[]),
        last_asked,
        all_marked,
        two_roots_in_a_hand_held,
        // The same digits but for a zero, the shortest and longest, own's too.
        cab(&[F, H, A, 100_000, 199_999, 1_999_999_999_999_999]),
        after(255, cab(&[F])),
    ] {
        assert!(is_sound(&radio), "{radio:?}");
    }
    // H to be asked with F: they have roots of different lengths.
    let mut radio = cab(&[F, H]);
    radio.entries[0].to_ask = 1;
    assert!(is_sound(&radio));
    radio.entries[1].to_ask = 1;
    assert!(!is_sound(&radio));
}

// Store.

#[test]
fn a_new_number_goes_last_and_is_not_marked() {
    let mut radio = cab(&[]);
    for number in [F2, F, G, H] {
        assert_eq!(store_said(&mut radio, number), "no question");
    }
    assert_eq!(radio, cab(&[F2, F, G, H]));
    assert_eq!((marked(&radio), to_ask(&radio)), (vec![], vec![]));
}

#[test]
fn malformed_numbers_are_refused_23() {
    for numbers in [vec![], vec![F], sixteen()] {
        for word in [0, 1, 492_123_401, 19_999, 99_999, 200_000, u64::MAX] {
            assert_eq!(store_said(&mut cab(&numbers), word), "refused 23");
        }
    }
    let longest = 1_999_999_999_999_999;
    assert_eq!(store_said(&mut cab(&[]), longest), "no question");
    assert_eq!(store_said(&mut cab(&[]), longest + 1), "refused 23");
    assert_eq!(store_said(&mut cab(&[]), 100_000), "no question");
}

#[test]
fn storing_twice_changes_nothing() {
    let mut full = cab(&sixteen());
    full.entries[3].unsure = 1;
    let mut in_a_round = cab(&[F, F2, G]);
    notice_said(&mut in_a_round, NOTICE);
    for before in [cab(&[F, F2, G]), full, in_a_round] {
        for number in numbers(&before) {
            let mut radio = before;
            let doing = store(&mut radio, number);
            assert_eq!((doing, radio), (Doing::default(), before));
        }
    }
}

#[test]
fn a_seventeenth_number_is_refused_20() {
    let fifteen = &sixteen()[..15];
    let mut radio = cab(fifteen);
    assert_eq!(store_said(&mut radio, H), "no question");
    assert_eq!(radio, cab(&[fifteen, &[H]].concat()));
    assert_eq!(store_said(&mut radio, H + 1), "refused 20");
    assert_eq!(store_said(&mut radio, H), "no question");
}

#[test]
fn a_number_stored_in_a_round_waits_for_the_next() {
    let mut radio = cab(&[F]);
    assert_eq!(notice_said(&mut radio, NOTICE), about_f(1));
    assert_eq!(store_said(&mut radio, F2), "no question");
    assert_eq!(to_ask(&radio), [F]);
    assert_eq!(reply_said(&mut radio, 1, "03 4915100001"), "no question");
    assert_eq!(reply_said(&mut radio, 1, "62"), "refused 22");
    assert_eq!(notice_said(&mut radio, NOTICE), about_f(2));
    assert_eq!(reply_said(&mut radio, 2, "62"), about(3, "02"));
}

#[test]
fn a_number_dropped_and_stored_again_in_a_round_is_new() {
    let mut radio = cab(&[F, F2]);
    notice_said(&mut radio, NOTICE);
    assert_eq!(reply_said(&mut radio, 1, "62"), about(2, "02"));
    assert_eq!(store_said(&mut radio, F), "no question");
    assert_eq!(numbers(&radio), [F2, F]);
    assert_eq!(reply_said(&mut radio, 2, "62"), "no question");
    assert_eq!(radio, after(2, cab(&[F])));
}

// Notice.

#[test]
fn a_notice_asks_about_the_numbers_of_its_root() {
    let mut radio = cab(&[G, F, H, F2, A]);
    let mut buffer = [FILL; 160];
    let doing = notice(&mut radio, &packed(NOTICE), &mut buffer);
    let expected = Doing {
        refusal: 0,
        respond: 1,
        invoke: 1,
        octets: 18,
    };
    assert_eq!(doing, expected);
    assert_eq!(buffer[..18], packed(INTERROGATE));
    assert_eq!(buffer[18..], [FILL; 142]);
    let mut asking = after(1, cab(&[G, F, H, F2, A]));
    (asking.entries[1].to_ask, asking.entries[3].to_ask) = (1, 1);
    assert_eq!(radio, asking);
}

#[test]
fn a_notice_about_a_root_that_is_not_stored_asks_nothing() {
    for numbers in [&[][..], &[G], &[G, H, A]] {
        let mut radio = cab(numbers);
        assert_eq!(notice_said(&mut radio, NOTICE), "no question");
        assert_eq!(radio, cab(numbers));
    }
    // It ends a round all the same.
    let mut radio = cab(&[F, F2]);
    notice_said(&mut radio, NOTICE);
    let said = notice_said(&mut radio, NOTICE_OF_G);
    assert_eq!(said, "no question");
    assert_eq!(radio, after(1, cab(&[F, F2])));
    assert_eq!(reply_said(&mut radio, 1, "62"), "refused 22");
}

#[test]
fn a_hand_held_asks_about_all() {
    for string in [NOTICE, NOTICE_OF_G, "##214*12345*88*54321*#"] {
        let mut radio = hand_held(&[G, F, H]);
        let said = notice_said(&mut radio, string);
        assert_eq!(said, "1: *#214*0492123501***#");
        assert_eq!(to_ask(&radio), [G, F, H]);
        assert_eq!(reply_said(&mut radio, 1, "62"), about_f(2));
        let said = reply_said(&mut radio, 2, "62");
        assert_eq!(said, "3: *#214*492123401***#");
        assert_eq!(reply_said(&mut radio, 3, "62"), "no question");
        assert_eq!(numbers(&radio), []);
    }
    let said = notice_said(&mut hand_held(&[]), NOTICE);
    assert_eq!(said, "no question");
}

#[test]
fn roots_are_all_digits_but_the_last_two() {
    let asked = |number: &str, notice: &str| {
        let mut radio = cab(&[stored(number)]);
        let string = format!("##214*{notice}*88*4915100002*#");
        notice_said(&mut radio, &string) != "no question"
    };
    for (number, notice, same) in [
        ("0492123401", "0492123401", true),
        ("0492123401", "0492123499", true),
        ("0492123401", "0492123501", false),
        ("0492123401", "1492123401", false),
        // Numbers of another length, whichever digits they share.
        ("0492123401", "492123401", false),
        ("0492123401", "00492123401", false),
        ("0492123401", "04921234001", false),
        ("0492123401", "049212341", false),
        ("00000", "00099", true),
        ("00000", "00100", false),
        ("00000", "000000", false),
        ("99999", "99900", true),
        ("999999999999999", "999999999999900", true),
        ("999999999999999", "999999999999899", false),
        ("999999999999999", "99999999999999", false),
    ] {
        assert_eq!(asked(number, notice), same, "{number} {notice}");
        assert_eq!(asked(notice, number), same, "{notice} {number}");
    }
}

#[test]
fn other_strings_than_a_forced_erasure_are_refused_21() {
    let mut radio = cab(&[F, F2]);
    notice_said(&mut radio, NOTICE);
    for string in [
        "",
        REGISTER,
        ERASE,
        INTERROGATE,
        "##213*0492123401*88*4915100002*#",
        "**214*0492123401*88*4915100002*#",
        "*#214*0492123401*88*4915100002*#",
        "##214*0492123401*89*4915100002*#",
        "##214*0492123401*88*4915100002*",
        "##214*0492*88*4915100002*#",
        "##214*0492123401*88*4915*#",
        "##214*0492123401*88*4915100002*a#",
        // The additional field has 31 characters, or a crew's tag.
        "##214*0492123401*88*4915100002*0123456789012345678901234567890#",
        "##214*0492123401*88*4915100002*BULK0#",
        // From the terminal, and against a rule.
        "**214*0492123401*88**#",
        "##214*0492123401*89**#",
        "##214*0492123401***#",
        "##214*0492123401*88*#",
        "##214*0492123401*88***#",
        "##214*0492123401*88**",
        "##214*0492*88**#",
        "##214*0492123401*88**a#",
        "##214*0492123401*88**0123456789012345678901234567890#",
        "##214*0492123401*88**BULK0#",
    ] {
        assert_eq!(notice_said(&mut radio, string), "refused 21", "{string}");
    }
    let mut unreadable = packed(NOTICE);
    assert_eq!(unreadable.len(), 28);
    unreadable.pop();
    for octets in [&unreadable[..], &[0xAA; 160], &[0xAA; 161], &[0; 300]] {
        let said = notice_octets_said(&mut radio, octets);
        assert_eq!(said, "refused 21");
    }
    // Unused bits: 33 characters in 29 octets leave one.
    let mut string = packed("##214*0492123401*88*4915100002*1#");
    assert_eq!(string.len(), 29);
    string[28] |= 0x80;
    let said = notice_octets_said(&mut radio, &string);
    assert_eq!(said, "refused 21");
}

#[test]
fn the_additional_field_of_a_notice_does_not_matter() {
    for additional in [
        "",
        " ",
        "1",
        "CAB 7",
        " BULK0",
        "012345678901234567890123456789",
    ] {
        for supervisor in ["4915100002", ""] {
            let mut radio = cab(&[F]);
            let string = format!("##214*0492123401*88*{supervisor}*{additional}#");
            let said = notice_said(&mut radio, &string);
            assert_eq!(said, about_f(1));
        }
    }
}

/// A round begins as by a supervisor's notice, also in another round.
#[test]
fn a_notice_from_the_terminal() {
    let from_the_terminal = "##214*0492123499*88**#";
    for numbers in [&[][..], &[G, H], &[G, F, H, F2], &sixteen()] {
        for fresh in [cab(numbers), hand_held(numbers)] {
            let (mut first, mut second) = (fresh, fresh);
            for _ in 0..2 {
                let said = notice_said(&mut first, from_the_terminal);
                assert_eq!(said, notice_said(&mut second, NOTICE));
                assert_eq!(first, second);
            }
        }
    }
}

#[test]
fn a_question_buffer_under_160_octets_is_refused_1() {
    let mut in_a_round = cab(&[F, F2]);
    notice_said(&mut in_a_round, NOTICE);
    // Whether or not a question follows, and before 21 and 22.
    for before in [cab(&[]), cab(&[F]), cab(&[G]), in_a_round] {
        for room in [0, 22, 80, 159] {
            for string in [NOTICE, REGISTER, ""] {
                let mut radio = before;
                let buffer = &mut [FILL; 159][..room];
                let doing = notice(&mut radio, &packed(string), buffer);
                assert_eq!((doing.refusal, radio), (1, before));
                let doing = reply(&mut radio, 1, &packed(string), buffer);
                assert_eq!((doing.refusal, radio), (1, before));
                assert!(buffer.iter().all(|&octet| octet == FILL));
            }
        }
    }
    let mut radio = in_a_round;
    let doing = reply(&mut radio, 1, &packed("62"), &mut [FILL; 160]);
    assert_eq!((doing.refusal, doing.invoke, doing.octets), (0, 2, 18));
    let doing = notice(&mut radio, &packed(REGISTER), &mut [FILL; 160]);
    assert_eq!(doing.refusal, 21);
}

#[test]
fn a_notice_during_a_round_drops_the_open_question() {
    let mut radio = cab(&[F, F2, G, F3]);
    notice_said(&mut radio, NOTICE);
    assert_eq!(reply_said(&mut radio, 1, "41"), about(2, "02"));
    // The same root again: all from the first on, the one already asked too.
    let said = notice_said(&mut radio, NOTICE);
    assert_eq!(said, about_f(3));
    assert_eq!(to_ask(&radio), [F, F2, F3]);
    assert_eq!(reply_said(&mut radio, 2, "62"), "refused 22");
    // Another root: those of the first are no longer asked.
    let said = notice_said(&mut radio, NOTICE_OF_G);
    assert_eq!(said, "4: *#214*0492123501***#");
    assert_eq!(to_ask(&radio), [G]);
    assert_eq!(reply_said(&mut radio, 3, "62"), "refused 22");
    assert_eq!(reply_said(&mut radio, 4, "62"), "no question");
    assert_eq!(numbers(&radio), [F, F2, F3]);
}

#[test]
fn a_notice_leaves_the_marks() {
    let mut radio = cab(&[F, F2, G]);
    radio.entries[1].unsure = 1;
    radio.entries[2].unsure = 1;
    for string in [NOTICE, NOTICE_OF_G, NOTICE] {
        notice_said(&mut radio, string);
        assert_eq!(marked(&radio), [F2, G]);
    }
}

#[test]
fn questions_of_the_shortest_and_the_longest_number() {
    for (digits, octets) in [("00000", 14), ("012345678901234", 22)] {
        let mut radio = hand_held(&[stored(digits)]);
        let mut buffer = [FILL; 160];
        let doing = notice(&mut radio, &packed(NOTICE), &mut buffer);
        assert_eq!(doing.octets, octets);
        let question = unpacked(&buffer[..octets]);
        assert_eq!(question, format!("*#214*{digits}***#"));
    }
}

// Reply.

/// What became of F, the first of two that are asked.
fn made_of(own: u64, octets: &[u8]) -> &'static str {
    let outcomes = [0, 1].map(|unsure| {
        let mut radio = cab(&[G, F, F2]);
        (radio.own, radio.entries[1].unsure) = (own, unsure);
        notice_said(&mut radio, NOTICE);
        // Whichever it is, the next question follows, and G is not touched.
        assert_eq!(reply_octets_said(&mut radio, 1, octets), about(2, "02"));
        assert_eq!(to_ask(&radio), [F2]);
        match (numbers(&radio).as_slice(), marked(&radio).as_slice()) {
            ([G, F, F2], []) => "kept",
            ([G, F, F2], [F]) => "marked",
            ([G, F2], []) => "dropped",
            other => panic!("{other:?}"),
        }
    });
    // The mark from before does not matter.
    assert_eq!(outcomes[0], outcomes[1]);
    outcomes[0]
}

#[test]
fn replies_by_their_text() {
    for (text, outcome) in [
        ("03 4915100001", "kept"),
        ("03 4915100002", "dropped"),
        ("03 04915100001", "dropped"),
        ("03 915100001", "dropped"),
        ("03 49151000010", "dropped"),
        ("03 12345", "dropped"),
        ("03 123456789012345", "dropped"),
        ("03 0492123401", "dropped"),
        ("62", "dropped"),
        ("62 ", "marked"),
        ("62 4915100001", "marked"),
        ("620", "marked"),
        ("62A", "marked"),
        (" 62", "marked"),
        ("6", "marked"),
        ("", "marked"),
        ("03", "marked"),
        ("03 ", "marked"),
        ("03 1234", "marked"),
        ("03 1234567890123456", "marked"),
        ("034915100001", "marked"),
        ("03  4915100001", "marked"),
        (" 03 4915100001", "marked"),
        ("3 4915100001", "marked"),
        ("03*4915100001", "marked"),
        ("03 4915100001 ", "marked"),
        ("03 4915100001#", "marked"),
        ("03 4915A00001", "marked"),
        ("03 4915 100001", "marked"),
        ("03 62", "marked"),
        ("00 4915100001", "marked"),
        ("13 4915100001", "marked"),
    ] {
        assert_eq!(made_of(A, &packed(text)), outcome, "{text:?}");
    }
}

#[test]
fn other_outcomes_mark() {
    for outcome in 0..100 {
        let expected = if outcome == 62 { "dropped" } else { "marked" };
        let text = format!("{outcome:02}");
        assert_eq!(made_of(A, &packed(&text)), expected, "{text}");
        let text = format!("{outcome:02} 4915100001");
        let expected = if outcome == 3 { "kept" } else { "marked" };
        assert_eq!(made_of(A, &packed(&text)), expected, "{text}");
    }
    for text in ["11 2 0102 0", "12 0 1 01", "OK", NOTICE, INTERROGATE] {
        assert_eq!(made_of(A, &packed(text)), "marked", "{text}");
    }
}

#[test]
fn leading_zeros_of_own_count() {
    let own = stored("0012345678");
    for (digits, outcome) in [
        ("0012345678", "kept"),
        ("012345678", "dropped"),
        ("12345678", "dropped"),
        ("00012345678", "dropped"),
    ] {
        let text = format!("03 {digits}");
        assert_eq!(made_of(own, &packed(&text)), outcome, "{text}");
    }
    // Without its zeros this one is too short for a number.
    let own = stored("01234");
    assert_eq!(made_of(own, &packed("03 01234")), "kept");
    assert_eq!(made_of(own, &packed("03 1234")), "marked");
}

#[test]
fn own_of_every_length() {
    const DIGITS: &str = "012345678901234";
    for count in 5..=15 {
        let own = stored(&DIGITS[..count]);
        for length in 0..=15 {
            let text = format!("03 {}", &DIGITS[..length]);
            let outcome = match length {
                0..=4 => "marked",
                _ if length == count => "kept",
                _ => "dropped",
            };
            assert_eq!(made_of(own, &packed(&text)), outcome, "{count} {text}");
        }
    }
}

#[test]
fn octets_that_do_not_unpack_mark() {
    // 13 characters in 12 octets: five unused bits. Two in two: two.
    for (text, unused) in [("03 4915100001", 5), ("62", 2)] {
        for bit in 8 - unused..8 {
            let mut octets = packed(text);
            *octets.last_mut().unwrap() ^= 1 << bit;
            assert_eq!(made_of(A, &octets), "marked", "{text} {bit}");
        }
    }
    // 15 characters in 14 octets: a carriage return fills the last, and is not
    // a part of the text. Zeros there are one more character.
    let own = stored("491510000112");
    let mut octets = packed("03 491510000112");
    assert_eq!((octets.len(), octets[13] >> 1), (14, 13));
    assert_eq!(made_of(own, &octets), "kept");
    assert_eq!(made_of(A, &octets), "dropped");
    octets[13] &= 1;
    assert_eq!(made_of(own, &octets), "marked");
    // Elsewhere a carriage return is a character: `62` and one in three octets.
    assert_eq!(made_of(A, &[0x36, 0x59, 0x03]), "marked");
    assert_eq!(made_of(A, &[0x36, 0x19]), "dropped");
}

#[test]
fn long_replies_mark() {
    for length in [1, 2, 7, 8, 12, 16, 17, 79, 80, 81, 160, 161, 1000] {
        for octet in [0x00, 0x30, 0x55, 0xFF] {
            assert_eq!(made_of(A, &vec![octet; length]), "marked");
        }
    }
    // More than the 18 characters of `03` and 15 digits, in 80 octets too.
    for length in [19, 20, 91] {
        for text in ["62", "03 4915100001"] {
            let text = format!("{text:0<length$}");
            assert_eq!(made_of(A, &packed(&text)), "marked", "{text}");
        }
    }
    assert_eq!(packed(&"0".repeat(91)).len(), 80);
}

#[test]
fn a_round_goes_in_stored_order_and_ends() {
    let mut radio = cab(&[F3, G, F, F2]);
    let said = notice_said(&mut radio, NOTICE);
    assert_eq!(said, about(1, "03"));
    assert_eq!(reply_said(&mut radio, 1, "03 4915100001"), about_f(2));
    assert_eq!(reply_said(&mut radio, 2, "03 4915100002"), about(3, "02"));
    assert_eq!(reply_said(&mut radio, 3, "41"), "no question");
    assert_eq!(numbers(&radio), [F3, G, F2]);
    assert_eq!(marked(&radio), [F2]);
    // The next round: 03 with its own MSISDN takes the mark off.
    let said = notice_said(&mut radio, NOTICE);
    assert_eq!(said, about(4, "03"));
    assert_eq!(reply_said(&mut radio, 4, "62"), about(5, "02"));
    assert_eq!(reply_said(&mut radio, 5, "03 4915100001"), "no question");
    assert_eq!(radio, after(5, cab(&[G, F2])));
}

#[test]
fn a_dropped_number_leaves_no_gap() {
    let mut radio = hand_held(&sixteen());
    for entry in &mut radio.entries {
        entry.unsure = 1;
    }
    notice_said(&mut radio, NOTICE);
    for question in 1..=16 {
        reply_said(&mut radio, question, "62");
        let left = &sixteen()[usize::from(question)..];
        assert_eq!(numbers(&radio), left);
        assert_eq!(
            (marked(&radio), to_ask(&radio)),
            (left.to_vec(), left.to_vec())
        );
        assert!(radio.entries[left.len()..]
            .iter()
            .all(|e| *e == Entry::default()));
    }
    assert_eq!(radio, after(16, hand_held(&[])));
    assert_eq!(reply_said(&mut radio, 16, "62"), "refused 22");
}

#[test]
fn a_reply_without_its_question_open_is_refused_22() {
    for mut radio in [cab(&[]), cab(&[F]), hand_held(&[F])] {
        for invoke in [0, 1, 255] {
            assert_eq!(reply_said(&mut radio, invoke, "62"), "refused 22");
        }
    }
    // A question is open: only the reply to it is taken, and it stays open.
    let mut radio = cab(&[F, F2]);
    notice_said(&mut radio, NOTICE);
    for invoke in (0..=255).filter(|&invoke| invoke != 1) {
        for text in ["62", "03 4915100001", ""] {
            assert_eq!(reply_said(&mut radio, invoke, text), "refused 22");
        }
    }
    assert_eq!(reply_said(&mut radio, 1, "62"), about(2, "02"));
    // The same reply once more.
    assert_eq!(reply_said(&mut radio, 1, "62"), "refused 22");
    assert_eq!(reply_said(&mut radio, 2, "62"), "no question");
    assert_eq!(reply_said(&mut radio, 2, "62"), "refused 22");
}

#[test]
fn invoke_number_255_is_followed_by_0() {
    let mut radio = after(254, cab(&[F, F2, F3]));
    let said = notice_said(&mut radio, NOTICE);
    assert_eq!(said, about_f(255));
    assert_eq!(reply_said(&mut radio, 255, "62"), about(0, "02"));
    assert_eq!(reply_said(&mut radio, 255, "62"), "refused 22");
    assert_eq!(reply_said(&mut radio, 0, "62"), about(1, "03"));
    assert_eq!(reply_said(&mut radio, 1, "62"), "no question");
    // A notice's first question too.
    radio = after(255, cab(&[F]));
    let said = notice_said(&mut radio, NOTICE);
    assert_eq!(said, about_f(0));
    assert_eq!(reply_said(&mut radio, 0, "62"), "no question");
}

#[test]
fn a_late_reply_is_taken_256_questions_later() {
    let mut radio = cab(&[F]);
    for question in 1..=256_u32 {
        let invoke = (question % 256) as u8;
        let said = notice_said(&mut radio, NOTICE);
        assert_eq!(said, about_f(invoke));
        let late = reply_said(&mut radio, invoke.wrapping_sub(1), "62");
        assert_eq!(late, "refused 22");
    }
    notice_said(&mut radio, NOTICE);
    assert_eq!(reply_said(&mut radio, 1, "62"), "no question");
}

// With the node.

/// Asks the node what the radio asks, until it asks nothing. Returns how many
/// questions that took.
fn round(radio: &mut Radio, table: &mut [u64], list: &[u64], string: &[u8]) -> usize {
    let mut question = [FILL; 160];
    let mut doing = notice(radio, string, &mut question);
    assert_eq!((doing.refusal, doing.respond), (0, 1));
    for questions in 0..=MAX_STORED {
        if doing.octets == 0 {
            return questions;
        }
        let mut answer = [FILL; 80];
        let string = &question[..doing.octets];
        let octets = match request(table, list, &mut answer, radio.own, 0x0F, string) {
            Answer::Outcome { octets, .. } => octets,
            other => panic!("{other:?}"),
        };
        doing = reply(radio, doing.invoke, &answer[..octets], &mut question);
        assert_eq!((doing.refusal, doing.respond), (0, 0));
    }
    panic!("a round without an end");
}

/// The table after A was forced off F, and the notice that the node sends.
fn forced_off_f(rows: &[(u64, u64)], force: fn(&mut [u64]) -> String) -> (Vec<u64>, Vec<u8>) {
    let row = |&(number, holder)| [number, holder, 0, 0, 0, 0, 0];
    let mut table: Vec<u64> = rows.iter().flat_map(row).collect();
    assert_eq!(force(&mut table), "02");
    let mut string = vec![FILL; 80];
    match sending(&mut table, &mut string, F, 60, 0) {
        Answer::Sent { addressee, octets } => {
            assert_eq!(addressee, A);
            string.truncate(octets);
        }
        other => panic!("{other:?}"),
    }
    (table, string)
}

/// Of what is asked, A's radio keeps what the table gives to A, and what the
/// table does not know, marked; whether B forced A off F or the terminal did.
#[test]
fn a_round_with_the_node() {
    a_round_after(|table| ask(table, &LIST, B, FORCE_A));
    a_round_after(|table| ask_terminal(table, F, A));
}

fn a_round_after(force: fn(&mut [u64]) -> String) {
    const HELD: u64 = F + 1;
    const FREE: u64 = F + 2;
    const OF_C: u64 = F + 3;
    const UNKNOWN: u64 = F + 4;
    let rows = [(F, A), (HELD, A), (FREE, 0), (OF_C, C), (G, C)];
    let (mut table, sent) = forced_off_f(&rows, force);
    let stored = [UNKNOWN, F, G, HELD, FREE, OF_C];
    let mut radio = cab(&stored);
    assert_eq!(round(&mut radio, &mut table, &LIST, &sent), 5);
    assert_eq!(numbers(&radio), [UNKNOWN, G, HELD]);
    assert_eq!(marked(&radio), [UNKNOWN]);
    // A hand-held asks about G too, which is C's.
    let mut radio = hand_held(&stored);
    assert_eq!(round(&mut radio, &mut table, &LIST, &sent), 6);
    assert_eq!(numbers(&radio), [UNKNOWN, HELD]);
    assert_eq!(marked(&radio), [UNKNOWN]);
    // Without Follow Me she is answered 42: all that was asked is marked.
    let mut radio = cab(&stored);
    assert_eq!(round(&mut radio, &mut table, &[A, 0, B, 3], &sent), 5);
    assert_eq!(numbers(&radio), stored);
    assert_eq!(marked(&radio), [UNKNOWN, F, HELD, FREE, OF_C]);
}

#[test]
fn a_round_has_at_most_sixteen_questions() {
    let mut radio = hand_held(&sixteen());
    let mut table = Vec::new();
    let questions = round(&mut radio, &mut table, &LIST, &packed(NOTICE));
    assert_eq!(questions, MAX_STORED);
    assert_eq!(marked(&radio), sixteen());
}
