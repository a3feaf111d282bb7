//! A short text built on the stack: a reply, a notice or a request.

use crate::number::digit_count;
use crate::packing::pack_checked;

/// The longest text, a request with all its fields.
pub(crate) const MAX_TEXT: usize = 72;

/// Packable characters, at most [`MAX_TEXT`] of them.
pub(crate) struct Text {
    chars: [u8; MAX_TEXT],
    length: usize,
}

impl Text {
    pub(crate) fn new() -> Self {
        Self {
            chars: [0; MAX_TEXT],
            length: 0,
        }
    }

    /// Appends `chars`.
    pub(crate) fn put(&mut self, chars: &[u8]) -> &mut Self {
        self.grow(chars.len()).copy_from_slice(chars);
        self
    }

    /// Appends the two digits of an outcome.
    pub(crate) fn put_outcome(&mut self, outcome: u8) -> &mut Self {
        self.put(&[b'0' + outcome / 10, b'0' + outcome % 10])
    }

    /// Appends the digits of a number in stored form, leading zeros too.
    pub(crate) fn put_number(&mut self, number: u64) -> &mut Self {
        let mut left = number;
        for digit in self.grow(digit_count(number)).iter_mut().rev() {
            *digit = b'0' + (left % 10) as u8;
            left /= 10;
        }
        self
    }

    /// Packs the text into the start of `out`, which has the room, and returns
    /// the count of octets.
    pub(crate) fn pack_into(&self, out: &mut [u8]) -> usize {
        pack_checked(self.as_slice(), out)
    }

    pub(crate) fn as_slice(&self) -> &[u8] {
        &self.chars[..self.length]
    }

    fn grow(&mut self, count: usize) -> &mut [u8] {
        let part = &mut self.chars[self.length..][..count];
        self.length += count;
        part
    }
}
