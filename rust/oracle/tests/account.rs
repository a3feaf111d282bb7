//! M-108: along random calls every notice is accounted for, and every sending
//! goes to the holder who was forced off.

mod common;

use std::collections::BTreeMap;

use common::{packed, A, B, F, FORCE_B, ROW};
use oracle::account::{forced_erasure, pending, Account};
use oracle::generate::{Along, Call, Generator, Reply};
use oracle::{add, compact, Answer};

/// Whom each number's notice tells, and of which supervisor; 0 at the terminal.
fn notified(table: &[u64]) -> BTreeMap<u64, (u64, u64)> {
    let (records, _): (&[[u64; ROW]], _) = table.as_chunks();
    records
        .iter()
        .map(|record| (record[0], (record[3], record[4])))
        .collect()
}

/// The digits of a number in stored form; nobody has none.
fn digits(number: u64) -> String {
    number.to_string()[1..].into()
}

/// Whether a sending's buffer holds the notice of a number that names a
/// supervisor.
fn holds(call: &Call, octets: usize, supervisor: u64) -> bool {
    let Call::Sending { buffer, number, .. } = call else {
        return false;
    };
    let text = format!("##214*{}*88*{}*#", digits(*number), digits(supervisor));
    buffer[..octets] == packed(&text)
}

/// The number that a sending, a result or a forced erasure names.
fn named(call: &Call) -> Option<u64> {
    match call {
        Call::Sending { number, .. } | Call::Result { number, .. } => Some(*number),
        _ => forced_erasure(call).map(|erasure| erasure.number),
    }
}

/// The notices pending of each number.
fn pending_of(table: &[u64]) -> BTreeMap<u64, u64> {
    table
        .chunks(ROW)
        .map(|row| (row[0], pending(row)))
        .collect()
}

/// Compacts the table, and adds a number; the calls go on with what is left.
fn next_timetable(along: &mut Along, number: u64) -> usize {
    let mut words = along.table.clone();
    let rows = words.len() / ROW;
    words.resize(words.len() + ROW, 0);
    let Answer::Rows { in_use, gone } = compact(&mut words, rows, &along.figures) else {
        unreachable!("{along:?}");
    };
    let Answer::Rows { in_use, .. } = add(&mut words, in_use, &along.figures, number) else {
        unreachable!("{along:?}");
    };
    words.truncate(ROW * in_use);
    along.table = words;
    gone
}

#[test]
fn every_notice_is_accounted_for() {
    let mut generator = Generator::new(108);
    let mut whole = Account::default();
    let (mut gone, mut at_terminal, mut blank) = (0, 0, 0);
    for _ in 0..400 {
        let mut along = generator.along();
        let before = pending(&along.table);
        let mut account = Account::default();
        let mut each: BTreeMap<u64, Account> = BTreeMap::new();
        let start = along.table.clone();
        let mut told = notified(&along.table);
        for turn in 0..100 {
            // Between two lists of calls: closed numbers go, and a number comes.
            if turn % 25 == 24 {
                gone += next_timetable(&mut along, 10_499_900_000 + turn);
                assert!(account.is_balanced(before, pending(&along.table)));
            }
            let mut call = generator.call_along(&along);
            let Reply::Answer(answer) = call.run() else {
                unreachable!("{call:?}");
            };
            if let Answer::Sent { addressee, octets } = answer {
                let (holder, supervisor) = told[&named(&call).unwrap()];
                assert_eq!(addressee, holder);
                assert!(holds(&call, octets, supervisor), "{call:?}");
                blank += u64::from(supervisor == 0);
            }
            let one = {
                let mut one = Account::default();
                one.count(&call, answer);
                one
            };
            if one.erasures == 1 {
                let erasure = forced_erasure(&call).unwrap();
                told.insert(erasure.number, (erasure.holder, erasure.supervisor));
                at_terminal += u64::from(erasure.supervisor == 0);
            }
            account.count(&call, answer);
            whole.count(&call, answer);
            if let Some(number) = named(&call) {
                each.entry(number).or_default().count(&call, answer);
            }
            let (table, figures) = call.left(&along).unwrap();
            assert!(account.is_balanced(before, pending(table)), "{call:?}");
            assert_eq!(figures[1] + figures[2], pending(table));
            (along.table, along.figures) = (table.to_vec(), figures.to_vec());
        }
        // Of every number by itself, those that went and those that came among them.
        let (first, last) = (pending_of(&start), pending_of(&along.table));
        for number in first.keys().chain(last.keys()) {
            let account = each.get(number).copied().unwrap_or_default();
            let of = |pending: &BTreeMap<u64, u64>| pending.get(number).copied().unwrap_or(0);
            assert!(account.is_balanced(of(&first), of(&last)));
        }
    }
    // None of the counts is idle.
    assert!(whole.erasures > 200 && whole.deliveries > 40, "{whole:?}");
    assert!(
        whole.dropped_by_kind > 100 && whole.dropped_last > 50,
        "{whole:?}"
    );
    assert!(gone > 100, "{gone}");
    assert!(
        at_terminal > 100 && at_terminal < whole.erasures,
        "{at_terminal}"
    );
    assert!(blank > 100, "{blank}");
}

/// What one call counts.
fn counted(mut call: Call) -> (Answer, Account) {
    let Reply::Answer(answer) = call.run() else {
        unreachable!("{call:?}");
    };
    let mut account = Account::default();
    account.count(&call, answer);
    (answer, account)
}

#[test]
fn a_forced_erasure_by_the_holder_herself_makes_no_notice() {
    let (answer, account) = counted(Call::Request {
        table: vec![F, B, 0, 0, 0, 0, 0],
        figures: vec![1, 0, 0],
        list: vec![B, 3],
        reply: vec![0; 80],
        requester: B,
        scheme: 0x0F,
        string: packed(FORCE_B),
    });
    assert!(matches!(answer, Answer::Outcome { number: 2, .. }));
    assert_eq!(account, Account::default());
}

/// Answered 02 it counts, whomever it names; answered otherwise it does not.
#[test]
fn an_erasure_at_the_terminal_counts_always() {
    let ended = |row: [u64; ROW], number, holder| {
        counted(Call::TerminalErasure {
            figures: oracle::recount(&row).unwrap().to_vec(),
            table: row.to_vec(),
            reply: vec![0; 80],
            number,
            holder,
        })
    };
    let one = Account {
        erasures: 1,
        ..Account::default()
    };
    for holder in [A, B, F] {
        let (answer, account) = ended([F, holder, 0, 0, 0, 0, 0], F, holder);
        assert!(matches!(answer, Answer::Outcome { number: 2, .. }));
        assert_eq!(account, one);
    }
    let free = [F, 0, 0, 0, 0, 0, 0];
    let pending = [F, A, 2, B, 0, 0, 0];
    for (row, number, holder) in [(free, F, A), (pending, F, A), (pending, F, B), (free, 0, 0)] {
        assert_eq!(ended(row, number, holder).1, Account::default());
    }
}

/// Whatever it is answered, it makes and ends no notice.
#[test]
fn a_routing_counts_nothing() {
    for (row, code, outcome) in [
        ([F, A, 2, B, 0, 0, 0], b"049", None),
        ([F, 0, 1, A, B, 0, 0], b"049", Some(62)),
        ([F + 1, A, 0, 0, 0, 0, 0], b"049", Some(41)),
        ([F, A, 0, 0, 0, 0, 0], b"033", None),
    ] {
        let (answer, account) = counted(Call::Routing {
            table: row.to_vec(),
            code: code.to_vec(),
            digits: b"0492123401".to_vec(),
            coded: true,
        });
        let said = match answer {
            Answer::Outcome { number, .. } => Some(number),
            Answer::Routed { .. } | Answer::AskNetwork(_) => None,
            other => panic!("{other:?}"),
        };
        assert_eq!((said, account), (outcome, Account::default()));
    }
}
