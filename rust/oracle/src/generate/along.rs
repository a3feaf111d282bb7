//! Calls one after the other over one table: requests, framed ones, crews,
//! erasures at the terminal, sendings, results, closings and routings, most of them
//! about its few numbers.

use super::{Call, Generator};
use crate::rows::{recount, Record, NOTICE, NUMBER};

/// The memory that such calls share, with the delay of its sendings.
#[derive(Clone, Debug, PartialEq, Eq)]
pub struct Along {
    pub table: Vec<u64>,
    pub figures: Vec<u64>,
    pub list: Vec<u64>,
    pub delay: u32,
}

impl Generator {
    /// A sound start, with notices or without.
    pub fn along(&mut self) -> Along {
        let list = self.list(5);
        let rows = 1 + self.random.index(5);
        let mut table = self.table(rows, &list);
        if self.random.once_in(2) {
            let (records, _): (&mut [Record], _) = table.as_chunks_mut();
            for record in records {
                record[NOTICE].fill(0);
            }
        }
        let figures = recount(&table).map_or(Vec::new(), Vec::from);
        let delay = self.random.pick(&[0, 60, 600]);
        Along {
            table,
            figures,
            list,
            delay,
        }
    }

    /// The next call, on that memory: now and then with a broken string, an
    /// unknown number, a kind above 5, or a buffer too short.
    pub fn call_along(&mut self, along: &Along) -> Call {
        let Along {
            table,
            figures,
            delay,
            ..
        } = along.clone();
        let record = self.some_record(&table).unwrap_or_default();
        let number = match self.random.below(16) {
            0 => self.number(),
            _ => record[NUMBER],
        };
        match self.random.below(80) {
            0 => Call::Close {
                table,
                figures,
                number,
            },
            1..=6 => Call::TerminalErasure {
                table,
                figures,
                reply: self.buffer_along(80),
                number,
                holder: self.holder_to_name(record),
            },
            7..=37 => self.request_along(along),
            38..=53 => Call::Sending {
                table,
                figures,
                buffer: self.buffer_along(80),
                number,
                delay,
                now: self.now(record, delay),
            },
            54..=69 => Call::Result {
                table,
                figures,
                number,
                kind: match self.random.below(3) {
                    0 => self.random.below(7) as u32,
                    _ => 5,
                },
                now: self.second(),
            },
            _ => self.routing_on(table, number),
        }
    }

    /// A request, bare or in its frame, of one number or of a crew.
    fn request_along(&mut self, along: &Along) -> Call {
        let Along {
            table,
            figures,
            list,
            ..
        } = along.clone();
        let known: Vec<u64> = list.iter().step_by(2).copied().collect();
        let (requester, mut fields) = self.single_demand(&table, &known);
        if self.random.once_in(8) {
            fields = self.crew_fields(fields.number);
        }
        let string = self.string(&fields);
        if self.random.once_in(3) {
            return Call::FramedRequest {
                table,
                figures,
                list,
                frame: self.buffer_along(120),
                requester,
                message: self.register(0x0F, string),
            };
        }
        Call::Request {
            table,
            figures,
            list,
            reply: self.buffer_along(80),
            requester,
            scheme: 0x0F,
            string,
        }
    }

    fn buffer_along(&mut self, room: usize) -> Vec<u8> {
        let short = self.random.once_in(16);
        self.buffer(room - usize::from(short))
    }
}

impl Call {
    /// Table and figures that a call along others leaves; a routing is lent no
    /// figures, so they stay.
    pub fn left<'a>(&'a self, along: &'a Along) -> Option<(&'a [u64], &'a [u64])> {
        match self {
            Self::Request { table, figures, .. }
            | Self::FramedRequest { table, figures, .. }
            | Self::Sending { table, figures, .. }
            | Self::Result { table, figures, .. }
            | Self::Close { table, figures, .. }
            | Self::TerminalErasure { table, figures, .. } => Some((table, figures)),
            Self::Routing { table, .. } => Some((table, &along.figures)),
            _ => None,
        }
    }
}
