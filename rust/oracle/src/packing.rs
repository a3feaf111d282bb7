//! Packed characters (TS 23.038, USSD): seven bits each, the first character
//! in the lowest bits of the first octet.
//!
//! Eight characters fill seven octets exactly, so both directions work on such
//! groups, held in one 64-bit word, and treat what is left over as a short
//! group. Seven characters alone leave seven bits unused, which hold a
//! carriage return: that is the full group with a carriage return as its
//! eighth character.

/// The filler for seven unused bits.
const CARRIAGE_RETURN: u8 = 13;

/// Octets that `characters` characters take: 7n/8, rounded up.
#[inline]
pub(crate) fn packed_length(characters: usize) -> usize {
    characters - characters / 8
}

/// Characters in `octets` octets before any drop: 8m/7, rounded down.
#[inline]
fn unpacked_length(octets: usize) -> usize {
    octets + octets / 7
}

/// Moves the low seven bits of each octet together: the packing of a group.
/// The top bit of each octet is 0.
#[inline]
fn squeeze(group: [u8; 8]) -> [u8; 8] {
    let x = u64::from_le_bytes(group);
    let x = (x & 0x007f_007f_007f_007f) | (x & 0x7f00_7f00_7f00_7f00) >> 1;
    let x = (x & 0x0000_3fff_0000_3fff) | (x & 0x3fff_0000_3fff_0000) >> 2;
    let x = (x & 0x0000_0000_0fff_ffff) | (x & 0x0fff_ffff_0000_0000) >> 4;
    x.to_le_bytes()
}

/// The reverse of [`squeeze`]. The top octet is 0.
#[inline]
fn stretch(group: [u8; 8]) -> [u8; 8] {
    let x = u64::from_le_bytes(group);
    let x = (x & 0x0000_0000_0fff_ffff) | (x & 0x00ff_ffff_f000_0000) << 4;
    let x = (x & 0x0000_3fff_0000_3fff) | (x & 0x0fff_c000_0fff_c000) << 2;
    let x = (x & 0x007f_007f_007f_007f) | (x & 0x3f80_3f80_3f80_3f80) << 1;
    x.to_le_bytes()
}

/// `part`, at most eight octets, filled up with zeros.
#[inline]
fn padded(part: &[u8]) -> [u8; 8] {
    let mut group = [0; 8];
    group[..part.len()].copy_from_slice(part);
    group
}

/// Packs `chars` into the start of `out` and returns the count of octets.
///
/// # Errors
/// 1 if `out` is shorter than the octets; then 9 if a value is above 127 or
/// is 13. Either way `out` stays as it was.
pub fn pack(chars: &[u8], out: &mut [u8]) -> Result<usize, u8> {
    if out.len() < packed_length(chars.len()) {
        return Err(1);
    }
    // No early end: the loop has no branch and works on many values at a time.
    let refused = chars
        .iter()
        .fold(false, |any, &c| any | (c > 127) | (c == CARRIAGE_RETURN));
    if refused {
        return Err(9);
    }
    Ok(pack_checked(chars, out))
}

/// [`pack`] for characters known to be packable and an `out` known to be long
/// enough.
pub(crate) fn pack_checked(chars: &[u8], out: &mut [u8]) -> usize {
    let octets = packed_length(chars.len());
    let (full, rest) = chars.as_chunks::<8>();
    let (full_out, rest_out) = out[..octets].as_chunks_mut::<7>();
    for (group, packed) in full.iter().zip(&mut *full_out) {
        packed.copy_from_slice(&squeeze(*group)[..7]);
    }
    // Up to six characters take as many octets; seven take a whole group.
    if rest.len() == 7 {
        let mut group = padded(rest);
        group[7] = CARRIAGE_RETURN;
        full_out[full.len()].copy_from_slice(&squeeze(group)[..7]);
    } else {
        rest_out.copy_from_slice(&squeeze(padded(rest))[..rest_out.len()]);
    }
    octets
}

/// Unpacks `octets` into the start of `out` and returns the count of
/// characters. A carriage return that is dropped is not written either.
///
/// # Errors
/// 1 if `out` is shorter than the characters before any drop; then 9 if
/// unused bits are not 0. Either way `out` stays as it was.
pub fn unpack(octets: &[u8], out: &mut [u8]) -> Result<usize, u8> {
    if out.len() < unpacked_length(octets.len()) {
        return Err(1);
    }
    let (mut full, mut rest) = octets.as_chunks::<7>();
    match rest.last() {
        // One to six octets left over have as many unused bits at their top.
        Some(last) if last >> (8 - rest.len()) != 0 => return Err(9),
        Some(_) => {}
        // With none left over, the last group may end in a carriage return:
        // then it holds seven characters, as short groups hold one an octet.
        None => {
            if let Some((last, before)) = full.split_last() {
                if last[6] >> 1 == CARRIAGE_RETURN {
                    (full, rest) = (before, last);
                }
            }
        }
    }
    let characters = 8 * full.len() + rest.len();
    let (full_out, rest_out) = out[..characters].as_chunks_mut::<8>();
    for (packed, group) in full.iter().zip(full_out) {
        *group = stretch(padded(packed));
    }
    rest_out.copy_from_slice(&stretch(padded(rest))[..rest_out.len()]);
    Ok(characters)
}

#[cfg(test)]
mod tests {
    use super::*;
    use crate::generate::{pack_by_bits, Random};

    /// The definition of reading, bit by bit.
    fn unpack_by_bits(octets: &[u8]) -> Option<Vec<u8>> {
        let bit = |i: usize| octets[i / 8] >> (i % 8) & 1;
        let count = octets.len() * 8 / 7;
        if (7 * count..8 * octets.len()).any(|i| bit(i) != 0) {
            return None;
        }
        let mut chars: Vec<u8> = (0..count)
            .map(|n| (0..7).map(|b| bit(7 * n + b) << b).sum())
            .collect();
        if octets.len().is_multiple_of(7) && chars.last() == Some(&13) {
            chars.pop();
        }
        Some(chars)
    }

    fn packed(text: &str) -> Vec<u8> {
        let mut out = [0; 200];
        let count = pack(text.as_bytes(), &mut out).unwrap();
        out[..count].to_vec()
    }

    #[test]
    fn examples_1_to_4() {
        assert_eq!(packed("*#"), [0xAA, 0x11]);
        assert_eq!(
            packed("1234567"),
            [0x31, 0xD9, 0x8C, 0x56, 0xB3, 0xDD, 0x1A]
        );
        assert_eq!(
            packed("12345678"),
            [0x31, 0xD9, 0x8C, 0x56, 0xB3, 0xDD, 0x70]
        );
        let mut out = [0xEE; 8];
        let octets = [0x31, 0xD9, 0x8C, 0x56, 0xB3, 0xDD, 0x00];
        assert_eq!(unpack(&octets, &mut out), Ok(8));
        assert_eq!(&out, b"1234567\0");
    }

    #[test]
    fn lengths() {
        for n in 0..2000 {
            assert_eq!(packed_length(n), (7 * n).div_ceil(8));
            assert_eq!(unpacked_length(n), 8 * n / 7);
        }
    }

    #[test]
    fn both_ways_agree_with_the_bits() {
        let mut random = Random::new(1);
        for n in 0..300 {
            for _ in 0..20 {
                let chars: Vec<u8> = (0..n)
                    .map(|_| match random.below(128) as u8 {
                        13 => 14,
                        c => c,
                    })
                    .collect();
                let mut out = [0xA5; 300];
                let count = pack(&chars, &mut out).unwrap();
                assert_eq!(out[..count], pack_by_bits(&chars));
                assert!(out[count..].iter().all(|&o| o == 0xA5));
                let mut back = [0x5A; 350];
                assert_eq!(unpack(&out[..count], &mut back), Ok(n));
                assert_eq!(back[..n], chars);
                assert!(back[n..].iter().all(|&o| o == 0x5A));
            }
        }
    }

    #[test]
    fn unpacking_random_octets_agrees_with_the_bits() {
        let mut random = Random::new(2);
        for m in 0..200 {
            for round in 0..20 {
                let mut octets: Vec<u8> = (0..m).map(|_| random.below(256) as u8).collect();
                if let Some(last) = octets.last_mut() {
                    match round % 4 {
                        0 => *last &= 1,
                        1 => *last = 0x1A | *last & 1,
                        _ => {}
                    }
                }
                let mut out = [0x5A; 300];
                let count = unpack(&octets, &mut out);
                match unpack_by_bits(&octets) {
                    Some(chars) => {
                        assert_eq!(count, Ok(chars.len()));
                        assert_eq!(out[..chars.len()], chars);
                        assert!(out[chars.len()..].iter().all(|&o| o == 0x5A));
                    }
                    None => {
                        assert_eq!(count, Err(9));
                        assert_eq!(out, [0x5A; 300]);
                    }
                }
            }
        }
    }

    #[test]
    fn refusals_of_the_packer() {
        for value in 0..=255 {
            for place in 0..20 {
                let mut chars = [b'1'; 20];
                chars[place] = value;
                let mut out = [0xA5; 18];
                if value == 13 || value > 127 {
                    assert_eq!(pack(&chars, &mut out), Err(9));
                    assert_eq!(out, [0xA5; 18]);
                    // The room is looked at first.
                    assert_eq!(pack(&chars, &mut out[..17]), Err(1));
                } else {
                    assert_eq!(pack(&chars, &mut out), Ok(18));
                }
            }
        }
        for n in 1..100 {
            let mut out = [0xA5; 100];
            let short = packed_length(n) - 1;
            assert_eq!(pack(&[b'1'; 100][..n], &mut out[..short]), Err(1));
            assert_eq!(out, [0xA5; 100]);
        }
        assert_eq!(pack(&[], &mut []), Ok(0));
    }

    #[test]
    fn refusals_of_the_unpacker() {
        // Six octets have six unused bits, at the top of the last one.
        for bit in 0..8 {
            let mut octets = [0; 6];
            octets[5] = 1 << bit;
            let mut out = [0xA5; 6];
            if bit < 2 {
                assert_eq!(unpack(&octets, &mut out), Ok(6));
            } else {
                assert_eq!(unpack(&octets, &mut out), Err(9));
                assert_eq!(out, [0xA5; 6]);
                assert_eq!(unpack(&octets, &mut out[..5]), Err(1));
            }
        }
        assert_eq!(unpack(&[], &mut []), Ok(0));
    }

    #[test]
    fn a_dropped_carriage_return_needs_room_and_is_not_written() {
        let octets = packed("1234567");
        let mut out = [0xEE; 9];
        assert_eq!(unpack(&octets, &mut out[..7]), Err(1));
        assert_eq!(out, [0xEE; 9]);
        assert_eq!(unpack(&octets, &mut out[..8]), Ok(7));
        assert_eq!(&out, b"1234567\xEE\xEE");
    }
}
