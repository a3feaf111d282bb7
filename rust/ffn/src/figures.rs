//! The figures beside a table.

#[cfg(feature = "archive")]
use crate::{c, calls::refusal, Refusal};

/// What a table comes to. It is lent with the table, and every call that changes
/// the table keeps it right: a caller recounts once, at the start.
#[derive(Clone, Copy, Debug, Default, PartialEq, Eq)]
pub struct Figures {
    /// Numbers that somebody holds.
    pub held: u64,
    /// Notices that wait to be sent: in an odd phase.
    pub waiting: u64,
    /// Notices that were sent and have no result yet: in an even phase above 0.
    pub in_flight: u64,
}

impl Figures {
    /// Their three words, in this order.
    pub fn words(self) -> [u64; 3] {
        [self.held, self.waiting, self.in_flight]
    }

    /// The figures with these words.
    pub fn from_words([held, waiting, in_flight]: [u64; 3]) -> Self {
        Self {
            held,
            waiting,
            in_flight,
        }
    }
}

#[cfg(feature = "archive")]
impl Figures {
    /// Counts them in a table.
    ///
    /// # Errors
    /// [`Refusal::TableUnsound`].
    ///
    /// # Examples
    /// ```
    /// use ffn::Figures;
    ///
    /// // One number held, and one with a notice to be sent.
    /// let table = [
    ///     [10_492_123_401, 14_915_100_001, 0, 0, 0, 0, 0],
    ///     [10_492_123_402, 0, 1, 14_915_100_001, 14_915_100_002, 0, 0],
    /// ];
    /// let figures = Figures::recount(table.as_flattened())?;
    /// assert_eq!(figures.words(), [1, 1, 0]);
    /// # Ok::<(), ffn::Refusal>(())
    /// ```
    pub fn recount(table: &[u64]) -> Result<Self, Refusal> {
        let counted = c::recount(table);
        match counted.class {
            c::COUNTED => Ok(Self {
                held: counted.held,
                waiting: counted.waiting,
                in_flight: counted.in_flight,
            }),
            c::REFUSAL => Err(refusal(counted.number)),
            _ => unreachable!("{counted:?}"),
        }
    }

    /// Lends the words to a call.
    pub(crate) fn lend<T>(&mut self, call: impl FnOnce(&mut [u64]) -> T) -> T {
        let mut words = self.words();
        let answer = call(&mut words);
        *self = Self::from_words(words);
        answer
    }
}
