//! Whole crews in one request (document 02, M-100): the additional field of a
//! crew, and the reply.

use crate::text::Text;

/// What a crew's additional field starts with.
pub(crate) const TAG: &[u8] = b"BULK";

/// The code of the lead, which its number ends in.
pub(crate) const LEAD: Code = *b"01";

/// The last two digits of a functional number, as characters.
pub type Code = [u8; 2];

/// The codes in a crew's additional field, in their order. `None` is a field
/// that is not of a crew, or breaks the rules of one.
pub fn crew_codes(additional: &[u8]) -> Option<&[Code]> {
    let (&count, rest) = additional.strip_prefix(TAG)?.split_first()?;
    let digits = match count {
        b'0' => rest,
        b'1'..=b'9' => rest.strip_prefix(b" ")?,
        _ => return None,
    };
    let (codes, []) = digits.as_chunks() else {
        return None;
    };
    let sound = |(place, code): (usize, &Code)| {
        code.iter().all(u8::is_ascii_digit) && *code != LEAD && !codes[..place].contains(code)
    };
    let as_counted = codes.len() == usize::from(count - b'0');
    (as_counted && codes.iter().enumerate().all(sound)).then_some(codes)
}

/// The number of a crew whose lead is `lead`: its last two digits replaced.
pub(crate) fn member(lead: u64, [tens, ones]: Code) -> u64 {
    lead - lead % 100 + 10 * u64::from(tens - b'0') + u64::from(ones - b'0')
}

/// The codes of a crew by what became of them.
pub(crate) struct Steps {
    succeeded: Text,
    failed: Text,
}

impl Steps {
    pub(crate) fn new() -> Self {
        Self {
            succeeded: Text::new(),
            failed: Text::new(),
        }
    }

    /// Notes what a step came to: 01 and 02 are successes.
    pub(crate) fn note(&mut self, code: &Code, outcome: u8) {
        match outcome {
            1 | 2 => self.succeeded.put(code),
            _ => self.failed.put(code),
        };
    }

    /// The reply to a crew's request.
    pub(crate) fn reply(&self, outcome: u8) -> Text {
        let mut text = Text::new();
        text.put_outcome(outcome);
        for codes in [&self.succeeded, &self.failed] {
            let codes = codes.as_slice();
            put_count(text.put(b" "), codes.len() / LEAD.len());
            if !codes.is_empty() {
                text.put(b" ").put(codes);
            }
        }
        text
    }
}

/// Appends a count of at most ten codes.
fn put_count(text: &mut Text, count: usize) {
    match u8::try_from(count) {
        Ok(count @ 0..=9) => text.put(&[b'0' + count]),
        _ => text.put(b"10"),
    };
}

#[cfg(test)]
mod tests {
    use super::*;

    fn codes(additional: &str) -> Option<String> {
        crew_codes(additional.as_bytes())
            .map(|codes| String::from_utf8(codes.concat()).expect("digits are characters"))
    }

    #[test]
    fn fields_of_crews() {
        for (additional, digits) in [
            ("BULK0", ""),
            ("BULK1 02", "02"),
            ("BULK1 00", "00"),
            ("BULK1 10", "10"),
            ("BULK1 11", "11"),
            ("BULK2 0210", "0210"),
            ("BULK4 02030708", "02030708"),
            ("BULK9 020304050607080900", "020304050607080900"),
        ] {
            assert_eq!(codes(additional), Some(digits.into()), "{additional:?}");
        }
    }

    #[test]
    fn fields_that_break_the_rules() {
        for additional in [
            "",
            "BUL",
            "BULK",
            "BULKY GOODS",
            "BULK ",
            "BULK 1 02",
            "BULKA",
            "BULK/",
            "BULK:",
            "BULK00",
            "BULK0 ",
            "BULK0 02",
            "BULK1",
            "BULK1 ",
            "BULK102",
            "BULK1  02",
            "BULK1 2",
            "BULK1 023",
            "BULK1 02 ",
            "BULK1 0203",
            "BULK1 A2",
            "BULK1 0A",
            "BULK1 01",
            "BULK2 02",
            "BULK2 0201",
            "BULK2 0102",
            "BULK2 0202",
            "BULK3 020302",
            "BULK2 02 03",
            "BULK10 02030405060708091011",
            "bulk0",
            " BULK1 02",
            "ABULK0",
        ] {
            assert_eq!(codes(additional), None, "{additional:?}");
        }
    }

    #[test]
    fn members() {
        assert_eq!(member(10_492_123_401, LEAD), 10_492_123_401);
        assert_eq!(member(10_492_123_401, *b"00"), 10_492_123_400);
        assert_eq!(member(10_492_123_401, *b"99"), 10_492_123_499);
        assert_eq!(member(100_001, *b"02"), 100_002);
    }

    #[test]
    fn replies() {
        let said = |succeeded: &str, failed: &str| {
            let mut steps = Steps::new();
            for (codes, outcome) in [(succeeded, 1), (failed, 61)] {
                for code in codes.as_bytes().as_chunks().0 {
                    steps.note(code, outcome);
                }
            }
            String::from_utf8(steps.reply(11).as_slice().to_vec()).unwrap()
        };
        assert_eq!(said("0102", ""), "11 2 0102 0");
        assert_eq!(said("", "0102"), "11 0 2 0102");
        assert_eq!(said("01", "0203"), "11 1 01 2 0203");
        let ten = "01020304050607080910";
        assert_eq!(said(ten, ""), format!("11 10 {ten} 0"));
        assert_eq!(said("", ten), format!("11 0 10 {ten}"));
        assert_eq!(said(&ten[..18], "10"), format!("11 9 {} 1 10", &ten[..18]));
    }
}
