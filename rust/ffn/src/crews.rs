//! Whole crews in one request: the additional field that names them, and what
//! became of their numbers.

use std::fmt;

/// The most codes besides the lead's, and with it.
const MOST_NAMED: usize = 9;
const MOST_CODES: usize = MOST_NAMED + 1;

/// Characters of a code.
const CODE_DIGITS: usize = 2;

/// What a crew's field starts with, and the characters of the longest: a digit,
/// a space and the codes behind it.
const TAG: &[u8; 4] = b"BULK";
const LONGEST_FIELD: usize = TAG.len() + 2 + CODE_DIGITS * MOST_NAMED;

/// The two digits of a code, if it has no more.
fn digits(code: u8) -> Option<[u8; CODE_DIGITS]> {
    (code < 100).then_some([b'0' + code / 10, b'0' + code % 10])
}

/// The value of one or two digits.
fn value(digits: &[u8]) -> Option<u8> {
    let is_digits = matches!(digits.len(), 1 | 2) && digits.iter().all(u8::is_ascii_digit);
    is_digits.then(|| {
        digits
            .iter()
            .fold(0, |value, digit| 10 * value + (digit - b'0'))
    })
}

/// The additional field of a crew's request.
#[derive(Clone, Copy, Debug, PartialEq, Eq)]
pub struct CrewField {
    chars: [u8; LONGEST_FIELD],
    length: usize,
}

impl CrewField {
    /// The field that names these codes besides the lead's, in this order;
    /// `None` where there are over nine, or one has over two digits. Whether one
    /// is 01 or comes twice, the library judges.
    pub fn new(codes: &[u8]) -> Option<Self> {
        let count = u8::try_from(codes.len()).ok()?;
        if codes.len() > MOST_NAMED {
            return None;
        }
        let mut field = Self {
            chars: [0; LONGEST_FIELD],
            length: 0,
        };
        field.put(TAG);
        field.put(&[b'0' + count]);
        if count > 0 {
            field.put(b" ");
        }
        for &code in codes {
            field.put(&digits(code)?);
        }
        Some(field)
    }

    /// Its characters.
    pub fn as_slice(&self) -> &[u8] {
        &self.chars[..self.length]
    }

    fn put(&mut self, chars: &[u8]) {
        self.chars[self.length..][..chars.len()].copy_from_slice(chars);
        self.length += chars.len();
    }
}

/// Codes of a crew, the lead's 1 perhaps among them, in the order in which its
/// numbers were treated. Written, they are their count, and a space and two
/// digits for each if there are any.
#[derive(Clone, Copy, Debug, Default, PartialEq, Eq)]
pub struct Codes {
    // Those from `count` on are 0, so that equality can be derived.
    codes: [u8; MOST_CODES],
    count: u8,
}

impl Codes {
    /// The codes, 0 to 99 each, at most ten.
    pub fn as_slice(&self) -> &[u8] {
        &self.codes[..usize::from(self.count)]
    }

    /// Reads codes at the start of a text, and what follows.
    fn read(text: &[u8]) -> Option<(Self, &[u8])> {
        let end = text.iter().position(|&c| c == b' ').unwrap_or(text.len());
        let (count, rest) = text.split_at(end);
        let mut read = Self {
            codes: [0; MOST_CODES],
            count: value(count)?,
        };
        if read.count == 0 {
            return Some((read, rest));
        }
        let places = read.codes.get_mut(..usize::from(read.count))?;
        let length = CODE_DIGITS * places.len();
        let (digits, rest) = rest.strip_prefix(b" ")?.split_at_checked(length)?;
        for (place, code) in places.iter_mut().zip(digits.chunks(CODE_DIGITS)) {
            *place = value(code)?;
        }
        Some((read, rest))
    }
}

impl fmt::Display for Codes {
    fn fmt(&self, f: &mut fmt::Formatter<'_>) -> fmt::Result {
        write!(f, "{}", self.count)?;
        if self.count > 0 {
            f.write_str(" ")?;
        }
        self.as_slice()
            .iter()
            .try_for_each(|code| write!(f, "{code:02}"))
    }
}

/// What became of a crew's numbers, by their codes. Written, it is what stands
/// behind the outcome in the reply: `2 0102 0`.
#[derive(Clone, Copy, Debug, PartialEq, Eq)]
pub struct Crew {
    /// Those answered 01 or 02.
    pub succeeded: Codes,
    /// All others.
    pub failed: Codes,
}

impl Crew {
    /// Reads what stands behind the outcome and the space in a reply.
    pub fn from_text(text: &[u8]) -> Option<Self> {
        let (succeeded, rest) = Codes::read(text)?;
        let (failed, rest) = Codes::read(rest.strip_prefix(b" ")?)?;
        rest.is_empty().then_some(Self { succeeded, failed })
    }
}

impl fmt::Display for Crew {
    fn fmt(&self, f: &mut fmt::Formatter<'_>) -> fmt::Result {
        write!(f, "{} {}", self.succeeded, self.failed)
    }
}
