//! Numbers: 5 to 15 decimal digits, stored with a 1 put in front.

/// The fewest and the most digits of a number.
const MIN_DIGITS: usize = 5;
pub(crate) const MAX_DIGITS: usize = 15;

/// The stored words of one count of digits: `low` up to but not including
/// `2 * low`, where `low` is ten to the power `digits`.
#[derive(Clone, Copy)]
struct Span {
    low: u64,
    digits: usize,
}

/// The only span that a word can lie in, by the word's leading zeros.
///
/// A span covers two bit lengths at most and the next one starts three or
/// four bits higher, so no bit length belongs to two spans. A bit length
/// without a span has `low` 0, and no word lies in it.
const SPANS: [Span; 65] = {
    let mut spans = [Span { low: 0, digits: 0 }; 65];
    let mut digits = MIN_DIGITS;
    while digits <= MAX_DIGITS {
        let low = 10u64.pow(digits as u32);
        spans[low.leading_zeros() as usize] = Span { low, digits };
        spans[(2 * low - 1).leading_zeros() as usize] = Span { low, digits };
        digits += 1;
    }
    spans
};

fn span(word: u64) -> Span {
    SPANS[word.leading_zeros() as usize]
}

/// Whether `word` is a number in stored form.
#[inline]
pub fn is_number(word: u64) -> bool {
    let Span { low, .. } = span(word);
    // One comparison for both bounds: a word below `low` wraps to a large one.
    word.wrapping_sub(low) < low
}

/// The count of digits of a number in stored form.
#[inline]
pub(crate) fn digit_count(number: u64) -> usize {
    debug_assert!(is_number(number));
    span(number).digits
}

/// The number with these digits, if they are 5 to 15 decimal digits.
pub fn number_from_digits(digits: &[u8]) -> Option<u64> {
    match leading_number(digits) {
        Some((number, [])) => Some(number),
        _ => None,
    }
}

/// The number that the digits at the start of `text` make, and what follows.
/// All digits there are taken, so a sixteenth one makes it no number.
pub(crate) fn leading_number(text: &[u8]) -> Option<(u64, &[u8])> {
    let count = text.iter().take_while(|c| c.is_ascii_digit()).count();
    if !(MIN_DIGITS..=MAX_DIGITS).contains(&count) {
        return None;
    }
    let (digits, rest) = text.split_at(count);
    let stored = digits
        .iter()
        .fold(1, |word, digit| 10 * word + u64::from(digit - b'0'));
    Some((stored, rest))
}

/// Checks that words are numbers and ascend strictly, one word at a time.
///
/// Ascending numbers have ascending counts of digits, so a word mostly lies in
/// the span of the word before, and one comparison shows it.
pub(crate) struct Ascent {
    previous: u64,
    /// The end of the span that `previous` lies in.
    end: u64,
}

impl Ascent {
    pub(crate) fn new() -> Self {
        Self {
            previous: 0,
            end: 0,
        }
    }

    /// Whether `word` is a number above the word before. After a no, the
    /// answers for further words mean nothing.
    #[inline]
    pub(crate) fn rises_to(&mut self, word: u64) -> bool {
        if word <= self.previous {
            return false;
        }
        self.previous = word;
        if word < self.end {
            return true;
        }
        let Span { low, .. } = span(word);
        self.end = 2 * low;
        word.wrapping_sub(low) < low
    }
}

#[cfg(test)]
mod tests {
    use super::*;

    /// The definition, by the decimal writing of the word.
    fn is_number_by_writing(word: u64) -> bool {
        let text = word.to_string();
        text.starts_with('1') && (6..=16).contains(&text.len())
    }

    #[test]
    fn stored_forms() {
        assert_eq!(number_from_digits(b"0492123401"), Some(10_492_123_401));
        assert_eq!(number_from_digits(b"492123401"), Some(1_492_123_401));
        assert_eq!(number_from_digits(b"00000"), Some(100_000));
        assert_eq!(
            number_from_digits(b"999999999999999"),
            Some(1_999_999_999_999_999)
        );
        for text in [
            "",
            "1234",
            "1234567890123456",
            "12345 ",
            " 12345",
            "1234a5",
            "+12345",
        ] {
            assert_eq!(number_from_digits(text.as_bytes()), None, "{text:?}");
        }
    }

    #[test]
    fn is_number_agrees_with_the_writing() {
        let mut words = vec![0, 1, u64::MAX];
        for exponent in 0..20 {
            let low = 10u64.pow(exponent);
            for factor in 1..=9 {
                let Some(base) = low.checked_mul(factor) else {
                    continue;
                };
                for step in 0..=4 {
                    words.push(base.wrapping_add(step).wrapping_sub(2));
                }
            }
        }
        for bit in 0..64 {
            words.extend([(1u64 << bit) - 1, 1 << bit, (1 << bit) + 1]);
        }
        words.extend(0..300_000);
        for word in words {
            assert_eq!(is_number(word), is_number_by_writing(word), "{word}");
        }
    }

    #[test]
    fn the_span_of_every_number_has_its_digits() {
        for digits in MIN_DIGITS..=MAX_DIGITS {
            let low = 10u64.pow(digits as u32);
            for word in [low, low + 1, low + low / 2, 2 * low - 1] {
                assert_eq!(digit_count(word), digits);
            }
        }
    }

    #[test]
    fn ascents() {
        let rises = |words: &[u64]| {
            let mut ascent = Ascent::new();
            words.iter().all(|&word| ascent.rises_to(word))
        };
        assert!(rises(&[]));
        assert!(rises(&[100_000]));
        assert!(rises(&[199_999, 1_000_000, 1_000_001, 10_000_000_000]));
        assert!(!rises(&[0]));
        assert!(!rises(&[199_999, 200_000]));
        assert!(!rises(&[199_999, 999_999, 1_000_000]));
        assert!(!rises(&[100_001, 100_001]));
        assert!(!rises(&[100_001, 100_000]));
        assert!(!rises(&[1_000_000, 100_000]));
        assert!(!rises(&[1_999_999_999_999_999, 10_000_000_000_000_000]));
    }
}
