//! Numbers of sheets, in groups of seven bits, lowest group first. Bit 7 of a byte says that another group
//! follows.

use crate::WIDTH_LIMIT;

/// The fewest bytes that a number is written with.
pub(crate) fn fewest_bytes(value: u64) -> usize {
    let bits = 64 - value.leading_zeros() as usize;
    ((bits + 6) / 7).max(1)
}

/// Writes a number into all of `bytes`, which must be as many as it needs at least: high groups that it
/// does not need are empty.
pub(crate) fn fill(bytes: &mut [u8], mut value: u64) {
    debug_assert!(fewest_bytes(value) <= bytes.len());
    for byte in bytes.iter_mut() {
        *byte = value as u8 | 0x80;
        value >>= 7;
    }
    if let Some(last) = bytes.last_mut() {
        *last &= 0x7f;
    }
}

/// How many bytes the number at the start of `bytes` has; nothing if there is none that is whole within
/// ten bytes and below 2^64.
pub(crate) fn width(bytes: &[u8]) -> Option<usize> {
    let last = bytes
        .iter()
        .take(WIDTH_LIMIT)
        .position(|&byte| byte < 0x80)?;
    // Nine groups are 63 bits, so the tenth has one.
    let below = last + 1 < WIDTH_LIMIT || bytes[last] <= 1;
    below.then_some(last + 1)
}

#[cfg(test)]
mod tests {
    use super::*;

    #[test]
    fn bytes_that_are_needed() {
        for (value, needed) in [(0, 1), (127, 1), (128, 2), (16_383, 2), (16_384, 3)] {
            assert_eq!(fewest_bytes(value), needed);
        }
        assert_eq!(fewest_bytes((1 << 63) - 1), 9);
        assert_eq!(fewest_bytes(1 << 63), 10);
        assert_eq!(fewest_bytes(u64::MAX), 10);
    }

    #[test]
    fn numbers_fill_their_bytes() {
        let filled = |value, width| {
            let mut bytes = vec![0xa5; width];
            fill(&mut bytes, value);
            assert_eq!(super::width(&bytes), Some(width));
            bytes
        };
        assert_eq!(filled(0, 1), [0]);
        assert_eq!(filled(0, 2), [0x80, 0]);
        assert_eq!(filled(200, 2), [0xc8, 0x01]);
        assert_eq!(filled(200, 4), [0xc8, 0x81, 0x80, 0]);
        assert_eq!(filled(u64::MAX, 10)[8..], [0xff, 1]);
    }

    #[test]
    fn widths() {
        assert_eq!(width(&[5, 7]), Some(1));
        assert_eq!(width(&[0x80, 0, 7]), Some(2));
        let mut bytes = [0x80; 11];
        assert_eq!(width(&bytes), None);
        assert_eq!(width(&bytes[..0]), None);
        assert_eq!(width(&bytes[..1]), None);
        // Eleven groups.
        bytes[10] = 0;
        assert_eq!(width(&bytes), None);
        for (tenth, expected) in [(0, Some(10)), (1, Some(10)), (2, None)] {
            bytes[9] = tenth;
            assert_eq!(width(&bytes), expected);
        }
    }
}
