//! Calls to radios: each to a radio of its own, sound or not, and many to one.

use ffn::c;
use oracle::generate::radio::{case, RadioCall};
use oracle::generate::Generator;
use oracle::radio::{Doing, Entry, Radio};
use oracle::read_notice;

use crate::Counts;

/// How many calls one radio is given.
const TO_ONE: u64 = 200;

/// A radio, and a call to it with its memory.
#[derive(Clone, Debug, PartialEq, Eq)]
struct Lent {
    radio: Radio,
    call: RadioCall,
}

/// Makes `calls` calls from `seed`, each to a radio of its own, then as many of
/// which [`TO_ONE`] in a row go to one radio, and compares them one by one.
///
/// # Errors
/// At the first difference: the call, and what both made of it.
pub fn compare(seed: u64, calls: u64) -> Result<Counts, String> {
    let mut generator = Generator::new(seed);
    let mut counts = Counts::new();
    let place = |n, e| format!("radio call {n} of seed {seed}: {e}");
    for n in 0..calls {
        let (radio, call) = case(&mut generator);
        let (kind, _) = make(Lent { radio, call }).map_err(|e| place(n, e))?;
        *counts.entry(format!("radio, {kind}")).or_default() += 1;
    }
    let mut radio = Radio::default();
    for n in 0..calls {
        if n % TO_ONE == 0 {
            radio = generator.radio();
        }
        let call = generator.radio_call(&radio);
        let (kind, left) = make(Lent { radio, call }).map_err(|e| place(calls + n, e))?;
        *counts.entry(format!("one radio, {kind}")).or_default() += 1;
        radio = left;
    }
    Ok(counts)
}

/// Makes a call both ways. Returns the kind of its answer, and the radio that it
/// left.
fn make(before: Lent) -> Result<(String, Radio), String> {
    let (mut left, mut right) = (before.clone(), before.clone());
    let by_oracle = left.call.run(&mut left.radio);
    let by_library = ask_library(&mut right);
    if by_oracle != by_library || left != right {
        return Err(format!(
            "{before:?}\n\
             the independent implementation: {by_oracle:?}\nleaves {left:?}\n\
             the library: {by_library:?}\nleaves {right:?}"
        ));
    }
    Ok((kind(&before, &right.radio, by_library), right.radio))
}

fn ask_library(lent: &mut Lent) -> Doing {
    let mut radio = to_c(&lent.radio);
    let said = match &mut lent.call {
        RadioCall::Store { number } => c::radio_store(&mut radio, *number),
        RadioCall::Notice { string, question } => c::radio_notice(&mut radio, string, question),
        RadioCall::Reply {
            invoke,
            string,
            question,
        } => c::radio_reply(&mut radio, *invoke, string, question),
    };
    lent.radio = from_c(&radio);
    Doing {
        refusal: said.refusal,
        respond: said.respond,
        invoke: said.invoke,
        octets: said.octets,
    }
}

fn to_c(radio: &Radio) -> c::Radio {
    c::Radio {
        own: radio.own,
        count: radio.count,
        entries: radio.entries.map(|entry| c::RadioEntry {
            number: entry.number,
            unsure: entry.unsure,
            to_ask: entry.to_ask,
        }),
        hand_held: radio.hand_held,
        invoke: radio.invoke,
    }
}

fn from_c(radio: &c::Radio) -> Radio {
    Radio {
        own: radio.own,
        count: radio.count,
        entries: radio.entries.map(|entry| Entry {
            number: entry.number,
            unsure: entry.unsure,
            to_ask: entry.to_ask,
        }),
        hand_held: radio.hand_held,
        invoke: radio.invoke,
    }
}

/// The kind of an answer, for the counts.
fn kind(before: &Lent, left: &Radio, said: Doing) -> String {
    let (call, became) = match &before.call {
        RadioCall::Store { .. } if left.count > before.radio.count => ("store", "new"),
        RadioCall::Store { .. } => ("store", "known"),
        RadioCall::Notice { string, .. } if is_from_the_terminal(string) => {
            ("notice from the terminal", "taken")
        }
        RadioCall::Notice { .. } => ("notice", "taken"),
        RadioCall::Reply { .. } => ("reply", made_of_asked(&before.radio, left)),
    };
    match (said.refusal, said.octets) {
        (0, 0) => format!("{call}: {became}"),
        (0, _) => format!("{call}: {became}, asks"),
        (refusal, _) => format!("{call}: refused {refusal}"),
    }
}

/// Whether a string is a notice that names no supervisor.
fn is_from_the_terminal(string: &[u8]) -> bool {
    read_notice(string).is_some_and(|notice| notice.supervisor.is_none())
}

/// What became of the number that was asked.
fn made_of_asked(before: &Radio, left: &Radio) -> &'static str {
    let asked = before.entries.iter().find(|entry| entry.to_ask == 1);
    let now = asked.and_then(|asked| left.entries.iter().find(|now| now.number == asked.number));
    match now {
        None => "dropped",
        Some(entry) if entry.unsure == 1 => "marked",
        Some(_) => "kept",
    }
}

#[cfg(test)]
mod tests {
    use super::*;

    #[test]
    fn forty_thousand_calls_agree_and_every_kind_of_answer_comes_up() {
        let counts = compare(20_000, 20_000).unwrap_or_else(|difference| panic!("{difference}"));
        assert_eq!(counts.values().sum::<u64>(), 40_000);
        let expected = |call: &str, answers: &str| {
            for answer in answers.split("; ") {
                let kind = format!("{call}: {answer}");
                assert!(counts.contains_key(&kind), "no {kind} in {counts:#?}");
            }
        };
        for radio in ["radio", "one radio"] {
            let call = |name: &str| format!("{radio}, {name}");
            expected(&call("store"), "new; known; refused 20; refused 23");
            expected(&call("notice"), "taken; taken, asks; refused 1; refused 21");
            expected(&call("notice from the terminal"), "taken; taken, asks");
            expected(&call("reply"), "kept; marked; dropped");
            expected(&call("reply"), "kept, asks; marked, asks; dropped, asks");
            expected(&call("reply"), "refused 1; refused 22");
        }
        for call in ["store", "notice", "reply"] {
            expected(&format!("radio, {call}"), "refused 24");
        }
        // Calls leave a sound radio sound.
        let unsound = |kind: &&String| kind.starts_with("one radio") && kind.ends_with("24");
        assert_eq!(counts.keys().find(unsound), None);
    }
}
