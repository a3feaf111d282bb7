//! Erasures at the node's terminal: mostly of a number of the table, naming its
//! holder.

use super::{Call, Generator};
use crate::rows::{Record, ADDRESSEE, HOLDER, NUMBER, SUPERVISOR};

impl Generator {
    pub fn erasing_at_the_terminal(&mut self) -> Call {
        let (table, record, number) = self.table_and_number();
        Call::TerminalErasure {
            figures: self.figures(&table, 12),
            table,
            reply: self.buffer_around(80),
            number,
            holder: self.holder_to_name(record),
        }
    }

    /// The holder of a record mostly, where it has one; now and then another of
    /// its numbers, any number, or none.
    pub(super) fn holder_to_name(&mut self, record: Record) -> u64 {
        let others = [NUMBER, ADDRESSEE, SUPERVISOR];
        match (self.random.below(16), record[HOLDER]) {
            (0, _) => self.malformed_or_nobody(),
            (1, _) | (2.., 0) => self.number(),
            (2, _) => record[self.random.pick(&others)],
            (_, holder) => holder,
        }
    }
}
