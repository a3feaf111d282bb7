//! M-108: calls one after the other over one table, through the library and
//! the independent implementation. By the library's answers every notice is
//! accounted for, and its figures say how many are pending.

use oracle::account::{pending, Account};
use oracle::generate::Generator;

use crate::{ask_library, ask_oracle, Counts, Lent, Said};

/// How many calls share a table.
const LONG: u64 = 100;

/// Makes about `calls` calls from `seed`, and counts along them.
///
/// # Errors
/// At the first difference, or where the counts do not balance.
pub fn compare(seed: u64, calls: u64) -> Result<Counts, String> {
    let mut generator = Generator::new(seed);
    let mut whole = Account::default();
    for n in 0..calls.div_ceil(LONG) {
        along(&mut generator, &mut whole).map_err(|e| format!("list {n} of seed {seed}: {e}"))?;
    }
    let counts = [
        ("forced erasures that made a notice", whole.erasures),
        ("notices delivered", whole.deliveries),
        ("notices dropped by kinds 1 to 4", whole.dropped_by_kind),
        ("notices dropped after the last sending", whole.dropped_last),
    ];
    Ok(counts.map(|(kind, count)| (kind.into(), count)).into())
}

fn along(generator: &mut Generator, whole: &mut Account) -> Result<(), String> {
    let mut along = generator.along();
    let before = pending(&along.table);
    let mut account = Account::default();
    for _ in 0..LONG {
        let lent = Lent {
            call: generator.call_along(&along),
            text: Vec::new(),
        };
        let (mut left, mut right) = (lent.clone(), lent.clone());
        let (by_oracle, by_library) = (ask_oracle(&mut left), ask_library(&mut right));
        if by_oracle != by_library || left != right {
            return Err(format!(
                "{lent:?}\nthe independent implementation: {by_oracle:?}\nleaves {left:?}\n\
                 the library: {by_library:?}\nleaves {right:?}"
            ));
        }
        let Some((table, figures)) = right.call.left(&along) else {
            return Err(format!("{lent:?} keeps no table"));
        };
        let Said::Answer(answer) = by_library else {
            return Err(format!("{lent:?} was answered {by_library:?}"));
        };
        account.count(&lent.call, answer);
        whole.count(&lent.call, answer);
        let after = pending(table);
        if !account.is_balanced(before, after) || figures[1] + figures[2] != after {
            return Err(format!(
                "{lent:?}: {account:?}, {before} pending before, {after} after"
            ));
        }
        (along.table, along.figures) = (table.to_vec(), figures.to_vec());
    }
    Ok(())
}

#[cfg(test)]
mod tests {
    use super::*;

    #[test]
    fn twenty_thousand_calls_balance_and_no_count_is_idle() {
        let counts = compare(108, 20_000).unwrap_or_else(|difference| panic!("{difference}"));
        assert_eq!(counts.len(), 4);
        assert!(counts.values().all(|&count| count > 0), "{counts:?}");
    }
}
