//! The request string (document 000, 4.2.4.1): fields read from packed octets
//! and written as packed octets. The notice (6.2.1.1), read from them.

use crate::crew::{crew_codes, member, LEAD, TAG};
use crate::number::{is_number, leading_number};
use crate::packing::unpack;
use crate::text::Text;

/// The most octets of a string that is read, and the characters they hold.
const MAX_OCTETS: usize = 160;
pub(crate) const MAX_CHARACTERS: usize = MAX_OCTETS * 8 / 7;

/// The least room that the writer takes.
pub(crate) const WRITER_ROOM: usize = 160;

/// The most characters of the additional field.
const MAX_ADDITIONAL: usize = 30;

#[derive(Clone, Copy, Debug, PartialEq, Eq)]
pub enum Operation {
    /// `**`
    Register,
    /// `##`
    Erase,
    /// `*#`
    Interrogate,
}

impl Operation {
    const ALL: [Self; 3] = [Self::Register, Self::Erase, Self::Interrogate];

    const fn sign(self) -> &'static [u8; 2] {
        match self {
            Self::Register => b"**",
            Self::Erase => b"##",
            Self::Interrogate => b"*#",
        }
    }
}

/// The fields of a request string. The additional field is any type that
/// lends octets: [`Additional`] when read, whatever is at hand when written.
#[derive(Clone, Copy, Debug, PartialEq, Eq)]
pub struct Fields<A> {
    pub operation: Operation,
    /// The functional number, in stored form.
    pub number: u64,
    /// In a forced erasure, the MSISDN to erase, in stored form. The
    /// supervisor field is `88` if this is present, otherwise empty.
    pub forced: Option<u64>,
    pub additional: A,
}

/// An additional field as read: 0 to 30 characters.
#[derive(Clone, Copy, PartialEq, Eq)]
pub struct Additional {
    // Octets from `length` on are 0, so that equality can be derived.
    chars: [u8; MAX_ADDITIONAL],
    length: usize,
}

impl AsRef<[u8]> for Additional {
    fn as_ref(&self) -> &[u8] {
        &self.chars[..self.length]
    }
}

impl std::fmt::Debug for Additional {
    fn fmt(&self, f: &mut std::fmt::Formatter<'_>) -> std::fmt::Result {
        write!(f, "{:?}", String::from_utf8_lossy(self.as_ref()))
    }
}

/// Writes the request string of `fields`, packed, into the start of `out` and
/// returns the count of octets.
///
/// # Errors
/// 1 if `out` has under 160 octets; then 9 if the fields break the string's
/// rules. Either way `out` stays as it was.
pub fn write_request<A: AsRef<[u8]>>(fields: &Fields<A>, out: &mut [u8]) -> Result<usize, u8> {
    if out.len() < WRITER_ROOM {
        return Err(1);
    }
    let additional = fields.additional.as_ref();
    let forced_fits = match fields.forced {
        Some(msisdn) => fields.operation == Operation::Erase && is_number(msisdn),
        None => true,
    };
    let fits = is_number(fields.number) && forced_fits && is_additional(additional);
    if !fits || !crew_fits(fields) {
        return Err(9);
    }
    let mut text = Text::new();
    text.put(fields.operation.sign())
        .put(b"214*")
        .put_number(fields.number);
    match fields.forced {
        Some(msisdn) => text.put(b"*88*").put_number(msisdn).put(b"*"),
        None => text.put(b"***"),
    };
    text.put(additional).put(b"#");
    Ok(text.pack_into(out))
}

/// Reads a packed request string. `None` is error 36: over 160 octets,
/// unreadable bits, or a string that breaks its rules, as the empty one does.
pub fn read_request(octets: &[u8]) -> Option<Fields<Additional>> {
    let mut chars = [0; MAX_CHARACTERS];
    let fields = read_fields(octets, &mut chars)?;
    let mut additional = Additional {
        chars: [0; MAX_ADDITIONAL],
        length: fields.additional.len(),
    };
    additional.chars[..fields.additional.len()].copy_from_slice(fields.additional);
    Some(Fields {
        operation: fields.operation,
        number: fields.number,
        forced: fields.forced,
        additional,
    })
}

/// What a notice says.
#[derive(Clone, Copy, Debug, PartialEq, Eq)]
pub struct Notice {
    /// The functional number, in stored form.
    pub number: u64,
    /// Who forced its holder off, in stored form; none where that was done at the
    /// node's terminal.
    pub supervisor: Option<u64>,
}

/// Reads a packed notice: the string of a forced erasure, whose MSISDN may be
/// blank. `None` for anything else.
pub fn read_notice(octets: &[u8]) -> Option<Notice> {
    let mut chars = [0; MAX_CHARACTERS];
    let rest = unpacked(octets, &mut chars)?.strip_prefix(b"##214*")?;
    let (number, rest) = leading_number(rest)?;
    let rest = rest.strip_prefix(b"*88*")?;
    let (supervisor, rest) = match leading_number(rest) {
        Some((msisdn, rest)) => (Some(msisdn), rest),
        None => (None, rest),
    };
    let additional = rest.strip_prefix(b"*")?.strip_suffix(b"#")?;
    let reads = is_additional(additional) && !additional.starts_with(TAG);
    reads.then_some(Notice { number, supervisor })
}

/// The characters of a string that is not too long, in `chars`.
fn unpacked<'a>(octets: &[u8], chars: &'a mut [u8; MAX_CHARACTERS]) -> Option<&'a [u8]> {
    if octets.len() > MAX_OCTETS {
        return None;
    }
    let count = unpack(octets, chars).ok()?;
    Some(&chars[..count])
}

/// Unpacks `octets` into `chars` and reads the fields there.
pub(crate) fn read_fields<'a>(
    octets: &[u8],
    chars: &'a mut [u8; MAX_CHARACTERS],
) -> Option<Fields<&'a [u8]>> {
    parse(unpacked(octets, chars)?)
}

/// Reads the fields of an unpacked string, each from what the one before left.
fn parse(string: &[u8]) -> Option<Fields<&[u8]>> {
    let (sign, rest) = string.split_first_chunk::<2>()?;
    let operation = Operation::ALL.into_iter().find(|op| op.sign() == sign)?;
    let rest = rest.strip_prefix(b"214*")?;
    let (number, rest) = leading_number(rest)?;
    let rest = rest.strip_prefix(b"*")?;
    let (forced, rest) = match rest.strip_prefix(b"88*") {
        Some(rest) if operation == Operation::Erase => {
            let (msisdn, rest) = leading_number(rest)?;
            (Some(msisdn), rest.strip_prefix(b"*")?)
        }
        _ => (None, rest.strip_prefix(b"**")?),
    };
    let additional = rest.strip_suffix(b"#")?;
    let fields = Fields {
        operation,
        number,
        forced,
        additional,
    };
    (is_additional(additional) && crew_fits(&fields)).then_some(fields)
}

fn is_additional(chars: &[u8]) -> bool {
    chars.len() <= MAX_ADDITIONAL
        && chars
            .iter()
            .all(|c| matches!(c, b'0'..=b'9' | b'A'..=b'Z' | b' '))
}

/// Whether an additional field with a crew's tag keeps the rules, and stands
/// where it may: with a lead's number, in a registration or a plain erasure.
fn crew_fits<A: AsRef<[u8]>>(fields: &Fields<A>) -> bool {
    let additional = fields.additional.as_ref();
    !additional.starts_with(TAG)
        || crew_codes(additional).is_some()
            && member(fields.number, LEAD) == fields.number
            && fields.forced.is_none()
            && fields.operation != Operation::Interrogate
}

#[cfg(test)]
mod tests {
    use super::*;
    use crate::packing::pack;

    const F: u64 = 10_492_123_401;
    const A: u64 = 14_915_100_001;

    fn packed(string: &str) -> Vec<u8> {
        let mut octets = [0; 300];
        let count = pack(string.as_bytes(), &mut octets).unwrap();
        octets[..count].to_vec()
    }

    fn read(string: &str) -> Option<Fields<Additional>> {
        read_request(&packed(string))
    }

    /// The string reads as these fields, and they write the same octets.
    fn round(string: &str, operation: Operation, number: u64, forced: Option<u64>, add: &str) {
        let fields = read(string).unwrap_or_else(|| panic!("{string:?} does not read"));
        assert_eq!(
            (fields.operation, fields.number, fields.forced),
            (operation, number, forced)
        );
        assert_eq!(fields.additional.as_ref(), add.as_bytes());
        let mut octets = [0; 160];
        let count = pack(string.as_bytes(), &mut octets).unwrap();
        let mut out = [0xA5; 200];
        assert_eq!(write_request(&fields, &mut out), Ok(count));
        assert_eq!(out[..count], octets[..count]);
        assert!(out[count..].iter().all(|&o| o == 0xA5));
    }

    #[test]
    fn strings_that_read() {
        use Operation::*;
        round("**214*0492123401***#", Register, F, None, "");
        round("##214*0492123401***#", Erase, F, None, "");
        round("*#214*0492123401***#", Interrogate, F, None, "");
        round("##214*0492123401*88*4915100001*#", Erase, F, Some(A), "");
        round(
            "**214*0492123401***CAB 7 LINE 22#",
            Register,
            F,
            None,
            "CAB 7 LINE 22",
        );
        round("*#214*12345*** #", Interrogate, 112_345, None, " ");
        let thirty = "0123456789ABCDEFGHIJKLMNOPQRS ";
        round(
            &format!("**214*000000000000000***{thirty}#"),
            Register,
            1_000_000_000_000_000,
            None,
            thirty,
        );
        let longest = format!("##214*999999999999999*88*000000000000000*{thirty}#");
        assert_eq!(longest.len(), 72);
        round(
            &longest,
            Erase,
            1_999_999_999_999_999,
            Some(1_000_000_000_000_000),
            thirty,
        );
        let mut out = [0; 160];
        assert_eq!(write_request(&read(&longest).unwrap(), &mut out), Ok(63));
    }

    #[test]
    fn strings_that_do_not_read() {
        for string in [
            "",
            "*",
            "**",
            "**214",
            "**214*",
            "**214*0492123401",
            "**214*0492123401*",
            "**214*0492123401**",
            "**214*0492123401***",
            "**214*0492123401**#",
            "**214*0492123401****#",
            "**214*0492123401***##",
            "**214*0492123401***#*",
            "**214*0492123401***# ",
            " **214*0492123401***#",
            "#*214*0492123401***#",
            "*214*0492123401***#",
            "***214*0492123401***#",
            "**213*0492123401***#",
            "**21*0492123401***#",
            "**2140492123401***#",
            "**214#0492123401***#",
            "**214**0492123401***#",
            "**214*****#",
            "**214*1234***#",
            "**214*1234567890123456***#",
            "**214*04921A3401***#",
            "**214* 492123401***#",
            // Supervisor field and MSISDN: both or neither, `88`, `##` only.
            "**214*0492123401*88**#",
            "##214*0492123401*88**#",
            "##214*0492123401**4915100001*#",
            "**214*0492123401*88*4915100001*#",
            "*#214*0492123401*88*4915100001*#",
            "##214*0492123401*8*4915100001*#",
            "##214*0492123401*888*4915100001*#",
            "##214*0492123401*89*4915100001*#",
            "##214*0492123401*88 *4915100001*#",
            "##214*0492123401*88*4915100001#",
            "##214*0492123401*88*4915100001**#",
            "##214*0492123401*88*1234*#",
            "##214*0492123401*88*1234567890123456*#",
            "##214*0492123401*884915100001*#",
            // The additional field.
            "**214*0492123401***a#",
            "**214*0492123401***A-B#",
            "**214*0492123401***@#",
            "**214*0492123401***[#",
            "**214*0492123401***/#",
            "**214*0492123401***:#",
            "**214*0492123401***#A#",
            "**214*0492123401***A*#",
            "**214*0492123401***0123456789ABCDEFGHIJKLMNOPQRSTU#",
        ] {
            assert_eq!(read(string), None, "{string:?}");
        }
    }

    /// Strings of crews; each string that breaks a rule stands beside one that
    /// keeps it.
    #[test]
    fn crews_read_where_they_may_stand() {
        use Operation::*;
        for (operation, sign) in [(Register, "**"), (Erase, "##")] {
            for additional in ["BULK0", "BULK1 02", "BULK9 000203040506070809"] {
                let string = format!("{sign}214*0492123401***{additional}#");
                round(&string, operation, F, None, additional);
            }
        }
        round("**214*00001***BULK0#", Register, 100_001, None, "BULK0");
        round(
            "*#214*0492123402*** BULK1 02#",
            Interrogate,
            F + 1,
            None,
            " BULK1 02",
        );
        round("**214*0492123402***BUL#", Register, F + 1, None, "BUL");
        let forced = "##214*0492123401*88*4915100001* BULK1 02#";
        round(forced, Erase, F, Some(A), " BULK1 02");
        for string in [
            "**214*0492123401***BULK#",
            "**214*0492123401***BULKY GOODS#",
            "**214*0492123402***BULKY GOODS#",
            "**214*0492123401***BULK1 01#",
            "**214*0492123401***BULK2 0202#",
            "**214*0492123401***BULK102#",
            "**214*0492123401***BULK1 023#",
            "**214*0492123402***BULK1 02#",
            "**214*0492123411***BULK0#",
            "**214*0492123400***BULK0#",
            "**214*0492123410***BULK0#",
            "*#214*0492123401***BULK1 02#",
            "*#214*0492123401***BULKY GOODS#",
            "##214*0492123401*88*4915100001*BULK0#",
            "##214*0492123401*88*4915100001*BULKY GOODS#",
        ] {
            assert_eq!(read(string), None, "{string:?}");
        }
    }

    /// A supervisor's notice is the string of a forced erasure. The terminal's
    /// leaves her MSISDN blank, and is no request.
    #[test]
    fn notices_that_read() {
        let thirty = "0123456789ABCDEFGHIJKLMNOPQRS ";
        for additional in ["", " ", "7", "CAB 7", "BUL", " BULK0", "ABULK0", thirty] {
            for (msisdn, supervisor) in [
                ("", None),
                ("4915100001", Some(A)),
                ("00000", Some(100_000)),
                ("999999999999999", Some(1_999_999_999_999_999)),
            ] {
                let string = format!("##214*0492123401*88*{msisdn}*{additional}#");
                let notice = Notice {
                    number: F,
                    supervisor,
                };
                assert_eq!(read_notice(&packed(&string)), Some(notice), "{string}");
                assert_eq!(read(&string).is_some(), supervisor.is_some());
            }
        }
    }

    #[test]
    fn notices_that_do_not_read() {
        // Both forms, against the same rule; `_` is the MSISDN's place.
        for string in [
            "**214*0492123401*88*_*#",
            "*#214*0492123401*88*_*#",
            " ##214*0492123401*88*_*#",
            "##213*0492123401*88*_*#",
            "##2140492123401*88*_*#",
            "##214**88*_*#",
            "##214*0492*88*_*#",
            "##214*1234567890123456*88*_*#",
            "##214*04921A3401*88*_*#",
            "##214*0492123401**_*#",
            "##214*0492123401*8*_*#",
            "##214*0492123401*89*_*#",
            "##214*0492123401*888*_*#",
            "##214*0492123401*88_*#",
            "##214*0492123401*88*_#",
            "##214*0492123401*88*_*",
            "##214*0492123401*88*_**#",
            "##214*0492123401*88*_*##",
            "##214*0492123401*88*_*# ",
            "##214*0492123401*88*_*a#",
            "##214*0492123401*88*_*A-B#",
            "##214*0492123401*88*_*0123456789ABCDEFGHIJKLMNOPQRSTU#",
            "##214*0492123401*88*_*BULK#",
            "##214*0492123401*88*_*BULK0#",
            "##214*0492123401*88*_*BULK1 02#",
            "##214*0492123401*88*_*BULKY GOODS#",
        ] {
            for msisdn in ["4915100001", ""] {
                let string = string.replace('_', msisdn);
                assert_eq!(read_notice(&packed(&string)), None, "{string}");
            }
        }
        // An MSISDN that is neither a number nor blank.
        for msisdn in ["0", "1234", "1234567890123456", " ", "4915A00001", "*", "#"] {
            let string = format!("##214*0492123401*88*{msisdn}*#");
            assert_eq!(read_notice(&packed(&string)), None, "{string}");
        }
        assert_eq!(read_notice(&[]), None);
        // Twenty-two characters in twenty octets, six unused bits.
        let mut octets = packed("##214*0492123401*88**#");
        assert_eq!(octets.len(), 20);
        for bit in 2..8 {
            octets[19] ^= 1 << bit;
            assert_eq!(read_notice(&octets), None);
            octets[19] ^= 1 << bit;
        }
        assert!(read_notice(&octets).is_some());
        assert_eq!(read_notice(&octets[..19]), None);
        assert_eq!(read_notice(&[0xAA; 161]), None);
    }

    #[test]
    fn octets_that_do_not_read() {
        let mut octets = [0; 300];
        // Twenty characters in eighteen octets, four unused bits.
        let count = pack(b"**214*0492123401***#", &mut octets).unwrap();
        assert_eq!(count, 18);
        assert!(read_request(&octets[..18]).is_some());
        assert_eq!(read_request(&octets[..17]), None);
        assert_eq!(read_request(&octets[..19]), None);
        for bit in 4..8 {
            octets[17] ^= 1 << bit;
            assert_eq!(read_request(&octets[..18]), None);
            octets[17] ^= 1 << bit;
        }
        // Twenty-three characters: seven unused bits, which must not be 0.
        let count = pack(b"**214*0492123401***ABC#", &mut octets).unwrap();
        assert_eq!((count, octets[20] >> 1), (21, 13));
        assert!(read_request(&octets[..21]).is_some());
        octets[20] &= 1;
        assert_eq!(read_request(&octets[..21]), None);
        for length in 0..300 {
            assert_eq!(read_request(&[0xAA; 300][..length]), None);
        }
    }

    #[test]
    fn refusals_of_the_writer() {
        let good = Fields {
            operation: Operation::Erase,
            number: F,
            forced: Some(A),
            additional: &b"X"[..],
        };
        let refused = |fields: Fields<&[u8]>| {
            let mut out = [0xA5; 160];
            assert_eq!(write_request(&fields, &mut out), Err(9), "{fields:?}");
            assert_eq!(out, [0xA5; 160]);
            assert_eq!(write_request(&fields, &mut out[..159]), Err(1));
        };
        let mut out = [0xA5; 160];
        assert_eq!(write_request(&good, &mut out[..159]), Err(1));
        assert_eq!(write_request(&good, &mut []), Err(1));
        assert_eq!(out, [0xA5; 160]);
        assert_eq!(write_request(&good, &mut out), Ok(29));
        for word in [0, F - 10_000_000_000, 19_999, 200_000, u64::MAX] {
            refused(Fields {
                number: word,
                ..good
            });
            refused(Fields {
                forced: Some(word),
                ..good
            });
        }
        for operation in [Operation::Register, Operation::Interrogate] {
            refused(Fields { operation, ..good });
        }
        for additional in [&[b'A'; 31][..], b"a", b"*", b"#", b"\r", b"\x80", b"A\n"] {
            refused(Fields { additional, ..good });
        }
    }

    #[test]
    fn refusals_of_a_crew_by_the_writer() {
        let good = Fields {
            operation: Operation::Erase,
            number: F,
            forced: None,
            additional: &b"BULK2 0203"[..],
        };
        let written = |fields: Fields<&[u8]>| write_request(&fields, &mut [0; 160]);
        assert_eq!(written(good), Ok(27));
        let broken = |additional| Fields { additional, ..good };
        for additional in [&b"BULKY GOODS"[..], b"BULK1 01", b"BULK2 0202", b"BULK2 02"] {
            assert_eq!(written(broken(additional)), Err(9));
        }
        for fields in [
            Fields {
                number: F + 1,
                ..good
            },
            Fields {
                forced: Some(A),
                ..good
            },
            Fields {
                operation: Operation::Interrogate,
                ..good
            },
        ] {
            assert_eq!(written(fields), Err(9), "{fields:?}");
            let additional = &b" BULK2 0203"[..];
            assert!(written(Fields {
                additional,
                ..fields
            })
            .is_ok());
        }
    }
}
