//! Withdrawing numbers and reusing their rows.

use crate::{c, calls::answered, calls::refusal, Figures, FunctionalNumber, Refusal};

/// What compacting came to.
#[derive(Clone, Copy, Debug, PartialEq, Eq)]
pub struct Compacted {
    /// The rows now in use.
    pub rows: usize,
    /// How many went.
    pub gone: usize,
}

/// Closes a number: it keeps its holder and its notice, and nobody registers it
/// any more. Closing it again changes nothing.
///
/// # Errors
/// [`Refusal::TableUnsound`], [`Refusal::Figures`], [`Refusal::Number`] where it
/// is malformed, [`Refusal::Absent`], in this order. Nothing is changed then.
pub fn close(
    table: &mut [u64],
    figures: &Figures,
    number: FunctionalNumber,
) -> Result<(), Refusal> {
    let answer = c::close(table, &figures.words(), number.word());
    match answer.class {
        c::CLOSED => Ok(()),
        c::REFUSAL => Err(refusal(answer.number)),
        _ => unreachable!("{answer:?}"),
    }
}

/// Removes the closed rows without holder and notice from the `rows` rows in use
/// at the front of `words`. The others keep their order; the words that they leave
/// free become 0, and what lies behind stays.
///
/// # Errors
/// [`Refusal::TableUnsound`], also where `words` are fewer than the rows in use
/// have, then [`Refusal::Figures`]. Nothing is changed then.
///
/// # Examples
/// ```
/// use ffn::{add, close, compact, Compacted, Figures, FunctionalNumber, Refusal};
///
/// // Two rows in use, and no room for a third.
/// let mut words = [
///     [10_492_123_401, 0, 0, 0, 0, 0, 0],
///     [10_492_123_402, 14_915_100_001, 0, 0, 0, 0, 0],
/// ];
/// let words = words.as_flattened_mut();
/// let figures = Figures::recount(words)?;
/// let number = |word| FunctionalNumber::from_word(word).unwrap();
/// let (old, new) = (number(10_492_123_401), number(10_492_123_403));
/// assert_eq!(add(words, 2, &figures, new), Err(Refusal::Full));
///
/// // A number is withdrawn, and its row used again.
/// close(words, &figures, old)?;
/// let compacted = compact(words, 2, &figures)?;
/// assert_eq!(compacted, Compacted { rows: 1, gone: 1 });
/// assert_eq!(add(words, compacted.rows, &figures, new), Ok(2));
/// assert_eq!(words[..7], [10_492_123_402, 14_915_100_001, 0, 0, 0, 0, 0]);
/// assert_eq!(words[7..], [10_492_123_403, 0, 0, 0, 0, 0, 0]);
/// # Ok::<(), ffn::Refusal>(())
/// ```
pub fn compact(words: &mut [u64], rows: usize, figures: &Figures) -> Result<Compacted, Refusal> {
    let answer = c::compact(words, rows, &figures.words());
    match answer.class {
        c::ROWS => Ok(Compacted {
            rows: answer.count,
            gone: answered(answer.value.try_into().ok()),
        }),
        c::REFUSAL => Err(refusal(answer.number)),
        _ => unreachable!("{answer:?}"),
    }
}

/// Puts an open number without holder in its place among the `rows` rows in use at
/// the front of `words`, and returns the count of rows in use then. What lies
/// behind them stays.
///
/// # Errors
/// [`Refusal::TableUnsound`], also where `words` are fewer than the rows in use
/// have, [`Refusal::Figures`], [`Refusal::Number`] where it is malformed,
/// [`Refusal::Present`], [`Refusal::Full`], in this order. Nothing is changed then.
pub fn add(
    words: &mut [u64],
    rows: usize,
    figures: &Figures,
    number: FunctionalNumber,
) -> Result<usize, Refusal> {
    let answer = c::add(words, rows, &figures.words(), number.word());
    match answer.class {
        c::ROWS => Ok(answer.count),
        c::REFUSAL => Err(refusal(answer.number)),
        _ => unreachable!("{answer:?}"),
    }
}
