//! Generated radios and calls to them: that they reach everything that the
//! rules tell apart, and that every call does what the words of the rules say,
//! here read by the decimal writing of numbers.

mod common;

use std::collections::{BTreeMap, BTreeSet, VecDeque};

use common::{packed, unpacked};
use oracle::generate::radio::{case, RadioCall};
use oracle::generate::Generator;
use oracle::radio::{Doing, Entry, Radio, MAX_STORED};
use oracle::{read_notice, read_request, unpack};

const CALLS: usize = 200_000;

/// A call and its memory, before and after it was carried out.
struct Case {
    before: Radio,
    call: RadioCall,
    after: Radio,
    ran: RadioCall,
    doing: Doing,
}

fn carried_out(before: Radio, call: RadioCall) -> Case {
    let (mut after, mut ran) = (before, call.clone());
    let doing = ran.run(&mut after);
    Case {
        before,
        call,
        after,
        ran,
        doing,
    }
}

/// The digits of a word, if it is a number in stored form.
fn digits(word: u64) -> Option<String> {
    let text = word.to_string();
    let digits = text.strip_prefix('1')?;
    (5..=15).contains(&digits.len()).then(|| digits.into())
}

/// All digits of a number but the last two.
fn root(number: u64) -> String {
    let mut digits = digits(number).expect("a number");
    digits.truncate(digits.len() - 2);
    digits
}

fn is_sound(radio: &Radio) -> bool {
    if radio.count > MAX_STORED {
        return false;
    }
    let (stored, behind) = radio.entries.split_at(radio.count);
    let numbers: BTreeSet<u64> = stored.iter().map(|entry| entry.number).collect();
    let mut words = numbers.iter().chain([&radio.own]);
    if numbers.len() < radio.count || !words.all(|&word| digits(word).is_some()) {
        return false;
    }
    let to_ask = stored.iter().filter(|entry| entry.to_ask == 1);
    let roots: BTreeSet<String> = to_ask.map(|entry| root(entry.number)).collect();
    let flags = stored.iter().flat_map(|entry| [entry.unsure, entry.to_ask]);
    flags.chain([radio.hand_held]).all(|flag| flag <= 1)
        && behind
            .iter()
            .all(|entry| (entry.number, entry.unsure, entry.to_ask) == (0, 0, 0))
        && (radio.hand_held == 1 || roots.len() <= 1)
}

/// What a radio stores, if its count is in order.
fn stored(radio: &Radio) -> &[Entry] {
    &radio.entries[..radio.count]
}

/// The entry that the open question is about.
fn open(radio: &Radio) -> Option<&Entry> {
    stored(radio).iter().find(|entry| entry.to_ask == 1)
}

/// The characters of packed octets, if they unpack.
fn text(octets: &[u8]) -> Option<String> {
    let mut out = vec![0; 2 * octets.len()];
    let count = unpack(octets, &mut out).ok()?;
    out.truncate(count);
    Some(String::from_utf8(out).expect("seven bits each"))
}

/// Whether a text is the digits of a number.
fn is_number(digits: &str) -> bool {
    (5..=15).contains(&digits.len()) && digits.chars().all(|digit| digit.is_ascii_digit())
}

/// Whether a text may stand in the additional field of a notice.
fn is_additional(text: &str) -> bool {
    let allowed = |c: char| c.is_ascii_digit() || c.is_ascii_uppercase() || c == ' ';
    text.len() <= 30 && text.chars().all(allowed) && !text.starts_with("BULK")
}

/// The number of a notice and the digits of its supervisor, which may be none,
/// cut out of its text.
fn parts(string: &[u8]) -> Option<(u64, String)> {
    let text = text(string)?;
    let ["##214", number, "88", supervisor, rest] = text.split('*').collect::<Vec<_>>()[..] else {
        return None;
    };
    let keeps_the_rules = is_number(number)
        && (supervisor.is_empty() || is_number(supervisor))
        && is_additional(rest.strip_suffix('#')?);
    let number = format!("1{number}").parse().ok()?;
    keeps_the_rules.then_some((number, supervisor.into()))
}

/// The number of a notice.
fn forced_off(string: &[u8]) -> Option<u64> {
    Some(parts(string)?.0)
}

/// Whether a string is a notice from the terminal.
fn is_from_the_terminal(string: &[u8]) -> bool {
    parts(string).is_some_and(|(_, supervisor)| supervisor.is_empty())
}

/// Whether the place of the supervisor is blank in a string that has one.
fn is_blank(string: &[u8]) -> bool {
    text(string).is_some_and(|text| text.contains("*88**"))
}

/// The first refusal that applies, or 0.
fn expected_refusal(before: &Radio, call: &RadioCall) -> u8 {
    if !is_sound(before) {
        return 24;
    }
    match call {
        RadioCall::Store { number } => {
            let is_new = stored(before).iter().all(|entry| entry.number != *number);
            match digits(*number) {
                None => 23,
                Some(_) if is_new && before.count == MAX_STORED => 20,
                Some(_) => 0,
            }
        }
        RadioCall::Notice { question, .. } | RadioCall::Reply { question, .. }
            if question.len() < 160 =>
        {
            1
        }
        RadioCall::Notice { string, .. } if forced_off(string).is_none() => 21,
        RadioCall::Reply { invoke, .. } if open(before).is_none() || *invoke != before.invoke => 22,
        _ => 0,
    }
}

/// What is stored after an accepted call.
fn expected_entries(before: &Radio, call: &RadioCall) -> Vec<Entry> {
    let mut entries = stored(before).to_vec();
    match call {
        RadioCall::Store { number } => {
            if entries.iter().all(|entry| entry.number != *number) {
                entries.push(Entry {
                    number: *number,
                    ..Entry::default()
                });
            }
        }
        RadioCall::Notice { string, .. } => {
            let of = forced_off(string).map(root);
            for entry in &mut entries {
                let is_asked = before.hand_held == 1 || Some(root(entry.number)) == of;
                entry.to_ask = u8::from(is_asked);
            }
        }
        RadioCall::Reply { string, .. } => {
            let asked = open(before).expect("an open question").number;
            let told = told(string, before.own);
            entries.retain(|entry| entry.number != asked || told != "drops");
            for entry in entries.iter_mut().filter(|entry| entry.number == asked) {
                (entry.unsure, entry.to_ask) = (u8::from(told == "marks"), 0);
            }
        }
    }
    entries
}

/// What a reply does with the number that was asked.
fn told(string: &[u8], own: u64) -> &'static str {
    let own = digits(own).expect("a number");
    let text = text(string).unwrap_or_default();
    match text.strip_prefix("03 ") {
        Some(digits) if digits == own => "keeps",
        Some(digits) if is_number(digits) => "drops",
        None if text == "62" => "drops",
        _ => "marks",
    }
}

/// The buffer of a call.
fn question(call: &RadioCall) -> &[u8] {
    match call {
        RadioCall::Store { .. } => &[],
        RadioCall::Notice { question, .. } | RadioCall::Reply { question, .. } => question,
    }
}

/// Checks all that a call did.
fn check(case: &Case) {
    let Case {
        before,
        call,
        after,
        ran,
        doing,
    } = case;
    assert_eq!(doing.refusal, expected_refusal(before, call));
    if let RadioCall::Notice { string, .. } = call {
        let read = read_notice(string).map(|notice| {
            let supervisor = notice.supervisor.and_then(digits);
            (notice.number, supervisor.unwrap_or_default())
        });
        assert_eq!(read, parts(string));
    }
    if doing.refusal > 0 {
        assert_eq!((before, call), (after, ran));
        assert_eq!((doing.respond, doing.invoke, doing.octets), (0, 0, 0));
        return;
    }
    assert!(is_sound(after) && oracle::radio::is_sound(after));
    assert_eq!(stored(after), expected_entries(before, call));
    assert_eq!(after.own, before.own);
    assert_eq!(after.hand_held, before.hand_held);
    let is_notice = matches!(call, RadioCall::Notice { .. });
    assert_eq!(doing.respond, u8::from(is_notice));
    let (octets, invoke) = match (call, open(after)) {
        (RadioCall::Store { .. }, _) | (_, None) => (Vec::new(), before.invoke),
        (_, Some(entry)) => {
            let digits = digits(entry.number).expect("a number");
            let next = (u32::from(before.invoke) + 1) % 256;
            (packed(&format!("*#214*{digits}***#")), next as u8)
        }
    };
    assert_eq!(after.invoke, invoke);
    let said = if octets.is_empty() { 0 } else { invoke };
    assert_eq!((doing.invoke, doing.octets), (said, octets.len()));
    let (old, new) = (question(call), question(ran));
    assert_eq!(new, [&octets, &old[octets.len()..]].concat());
}

/// How a call ended, in words fine enough to tell the rules apart.
fn label(case: &Case) -> String {
    let Case { before, call, .. } = case;
    let refusal = case.doing.refusal;
    let ends = ["no question", "question"][usize::from(case.doing.octets > 0)];
    let kind = ["cab", "hand-held"].get(usize::from(before.hand_held));
    let kind = kind.copied().unwrap_or("neither");
    let round = || match open(before) {
        None => "",
        Some(_) => ", in a round",
    };
    match call {
        RadioCall::Store { .. } => match refusal {
            0 if case.after.count > before.count => format!("store: new{}", round()),
            0 if before.count == MAX_STORED => format!("store: again, full{}", round()),
            0 => format!("store: again{}", round()),
            _ => format!("store: refused {refusal}"),
        },
        RadioCall::Notice { string, .. } => match refusal {
            0 if is_from_the_terminal(string) => {
                format!("{kind}: terminal's notice, {ends}{}", round())
            }
            0 => format!("{kind}: notice, {ends}{}", round()),
            21 if text(string).is_none() => "notice: refused 21, unreadable".into(),
            21 if is_blank(string) => "notice: refused 21, a blank place".into(),
            21 if read_request(string).is_none() => "notice: refused 21, no request".into(),
            21 => "notice: refused 21, another request".into(),
            _ => format!("notice: refused {refusal}"),
        },
        RadioCall::Reply { string, .. } => match refusal {
            0 => format!("{kind}: reply {}, {ends}", told(string, before.own)),
            22 if open(before).is_none() => "reply: refused 22, none open".into(),
            22 => "reply: refused 22, another question's".into(),
            _ => format!("reply: refused {refusal}"),
        },
    }
}

/// What each call must come to at least a hundred times.
const REACHED: [&str; 46] = [
    "store: refused 24",
    "store: refused 23",
    "store: refused 20",
    "store: new",
    "store: new, in a round",
    "store: again",
    "store: again, in a round",
    "store: again, full",
    "store: again, full, in a round",
    "notice: refused 24",
    "notice: refused 1",
    "notice: refused 21, unreadable",
    "notice: refused 21, a blank place",
    "notice: refused 21, no request",
    "notice: refused 21, another request",
    "cab: notice, question",
    "cab: notice, question, in a round",
    "cab: notice, no question",
    "cab: notice, no question, in a round",
    "hand-held: notice, question",
    "hand-held: notice, question, in a round",
    "hand-held: notice, no question",
    "cab: terminal's notice, question",
    "cab: terminal's notice, question, in a round",
    "cab: terminal's notice, no question",
    "cab: terminal's notice, no question, in a round",
    "hand-held: terminal's notice, question",
    "hand-held: terminal's notice, question, in a round",
    "hand-held: terminal's notice, no question",
    "reply: refused 24",
    "reply: refused 1",
    "reply: refused 22, none open",
    "reply: refused 22, another question's",
    "cab: reply keeps, question",
    "cab: reply keeps, no question",
    "cab: reply drops, question",
    "cab: reply drops, no question",
    "cab: reply marks, question",
    "cab: reply marks, no question",
    "hand-held: reply keeps, question",
    "hand-held: reply keeps, no question",
    "hand-held: reply drops, question",
    "hand-held: reply drops, no question",
    "hand-held: reply marks, question",
    "hand-held: reply marks, no question",
    "question 0",
];

#[test]
fn calls_reach_every_end() {
    let mut generator = Generator::new(0x0004_9212_3401);
    let mut counts: BTreeMap<String, usize> = BTreeMap::new();
    for _ in 0..CALLS {
        let (radio, call) = case(&mut generator);
        let case = carried_out(radio, call);
        check(&case);
        *counts.entry(label(&case)).or_default() += 1;
        // It follows 255, and stands for no question elsewhere.
        if case.doing.octets > 0 && case.doing.invoke == 0 {
            *counts.entry("question 0".into()).or_default() += 1;
        }
    }
    for (label, count) in &counts {
        println!("{count:6} {label}");
    }
    for label in REACHED {
        let count = counts.get(label).copied().unwrap_or(0);
        assert!(count >= 100, "{label}: {count}");
    }
    assert_eq!(counts.len(), REACHED.len());
}

/// The texts that tell, and each text beside them, come up often enough.
#[test]
fn replies_reach_every_text() {
    let mut generator = Generator::new(0x0049_1510_0001);
    let mut counts: BTreeMap<&str, usize> = BTreeMap::new();
    for _ in 0..CALLS / 2 {
        let (radio, call) = case(&mut generator);
        let RadioCall::Reply { string, .. } = &call else {
            continue;
        };
        if expected_refusal(&radio, &call) > 0 {
            continue;
        }
        let own = format!("03 {}", digits(radio.own).expect("a number"));
        let kind = match text(string) {
            None => "unreadable",
            Some(text) if text.is_empty() => "empty",
            Some(text) if text == "62" => "62",
            Some(text) if text.starts_with("62") => "62 and more",
            Some(text) if text == own => "03 own",
            Some(text) if told(string, radio.own) == "drops" => match text.len() == own.len() {
                true => "03 another",
                false => "03 another, of another length",
            },
            Some(text) if text.starts_with(&own) => "03 own and more",
            Some(text) if text.starts_with("03 ") => "03 and no number",
            Some(text) if text.starts_with("03") => "03",
            Some(text) if text.len() > 18 => "long",
            Some(_) => "other",
        };
        *counts.entry(kind).or_default() += 1;
    }
    println!("{counts:?}");
    assert_eq!(counts.len(), 12);
    assert!(counts.values().all(|&count| count >= 100));
}

/// What is still to be asked in a round, kept beside the radio.
struct Round {
    due: VecDeque<u64>,
    /// What was stored as new since the notice.
    new: Vec<u64>,
    questions: usize,
}

/// Follows an accepted call: each number that is due at a notice is asked once,
/// in stored order, and nothing is dropped but by the reply to its question.
fn follow(round: &mut Round, case: &Case) {
    let numbers = |radio| -> Vec<u64> { stored(radio).iter().map(|e| e.number).collect() };
    let (before, after) = (numbers(&case.before), numbers(&case.after));
    let gone: Vec<u64> = before.into_iter().filter(|n| !after.contains(n)).collect();
    match &case.call {
        RadioCall::Store { number } => {
            assert_eq!(gone, []);
            if case.after.count > case.before.count {
                round.new.push(*number);
            }
            return;
        }
        RadioCall::Notice { string, .. } => {
            assert_eq!(gone, []);
            let of = root(forced_off(string).expect("a forced erasure"));
            let is_due = |number: &u64| case.before.hand_held == 1 || root(*number) == of;
            round.due = after.into_iter().filter(is_due).collect();
            (round.new, round.questions) = (Vec::new(), 0);
        }
        RadioCall::Reply { .. } => {
            let asked = round.due.pop_front().expect("an open question");
            assert!(gone.is_empty() || gone == [asked]);
        }
    }
    let string = &question(&case.ran)[..case.doing.octets];
    let asked = (case.doing.octets > 0).then(|| stored_number(&unpacked(string)));
    assert_eq!(asked, round.due.front().copied());
    if let Some(number) = asked {
        round.questions += 1;
        assert!(round.questions <= MAX_STORED && !round.new.contains(&number));
    }
}

/// The number that an interrogation asks about.
fn stored_number(question: &str) -> u64 {
    let digits = question.strip_prefix("*#214*").expect("an interrogation");
    let digits = digits.strip_suffix("***#").expect("an interrogation");
    format!("1{digits}").parse().expect("digits")
}

#[test]
fn rounds_ask_each_number_once_in_stored_order() {
    let mut generator = Generator::new(0x0004_9151_0002);
    let (mut rounds, mut ended) = (0, 0);
    for _ in 0..1000 {
        let mut radio = generator.radio();
        let to_ask = stored(&radio).iter().filter(|entry| entry.to_ask == 1);
        let mut round = Round {
            due: to_ask.map(|entry| entry.number).collect(),
            new: Vec::new(),
            questions: 0,
        };
        for _ in 0..60 {
            let mut call = generator.radio_call(&radio);
            // Most rounds are to end before the next notice.
            if matches!(call, RadioCall::Notice { .. }) && !round.due.is_empty() {
                call = generator.radio_call(&radio);
            }
            let case = carried_out(radio, call);
            check(&case);
            if case.doing.refusal == 0 {
                follow(&mut round, &case);
                rounds += usize::from(case.doing.respond);
                let is_reply = matches!(case.call, RadioCall::Reply { .. });
                ended += usize::from(is_reply && round.due.is_empty());
            }
            radio = case.after;
        }
    }
    println!("{rounds} rounds, {ended} of them ended by a reply");
    assert!(rounds > 5000 && ended > 1000);
}
