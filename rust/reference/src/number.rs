//! Numbers in groups of seven bits, lowest group first.
//!
//! A number has up to ten groups and lies below 2^64. Its high groups may be empty: it is padded then, and
//! has more bytes than the fewest. Whether that is allowed is for the caller to say: in a sheet it is, in
//! an image it is not.

/// The most bytes that a number has.
pub const WIDTH_LIMIT: usize = 10;

/// A number as it was read.
#[derive(Clone, Copy, Debug, PartialEq, Eq)]
pub struct Number {
    /// The number.
    pub value: u64,
    /// How many bytes were read.
    pub width: usize,
    /// Whether they were the fewest.
    pub fewest: bool,
}

/// The number that starts at `place`.
///
/// Nothing if it is missing, not whole within ten bytes, or not below 2^64.
pub fn read(bytes: &[u8], place: usize) -> Option<Number> {
    let mut value: u128 = 0;
    for (index, &byte) in bytes.get(place..)?.iter().take(WIDTH_LIMIT).enumerate() {
        let group = byte & 0x7f;
        value += u128::from(group) << (7 * index);
        if byte & 0x80 == 0 {
            return Some(Number {
                value: u64::try_from(value).ok()?,
                width: index + 1,
                fewest: index == 0 || group != 0,
            });
        }
    }
    None
}

/// Writes a number at the end of `bytes`, with the fewest bytes.
pub fn write(bytes: &mut Vec<u8>, value: u64) {
    write_padded(bytes, value, 1);
}

/// Writes a number at the end of `bytes`, with `width` bytes or, if it needs more, with the fewest.
pub fn write_padded(bytes: &mut Vec<u8>, mut value: u64, width: usize) {
    let start = bytes.len();
    while value >= 0x80 || bytes.len() + 1 < start + width {
        bytes.push((value & 0x7f) as u8 | 0x80);
        value >>= 7;
    }
    bytes.push(value as u8);
}

/// Reads numbers from the left, one after the other.
#[derive(Clone, Debug)]
pub struct Reader<'a> {
    bytes: &'a [u8],
    place: usize,
}

/// A number that was read, with the place of its first byte.
#[derive(Clone, Copy, Debug, PartialEq, Eq)]
pub struct Field {
    /// The number.
    pub value: u64,
    /// The place of its first byte.
    pub place: usize,
    /// Whether it was written with the fewest bytes.
    pub fewest: bool,
}

impl<'a> Reader<'a> {
    /// A reader at the start of `bytes`.
    pub fn new(bytes: &'a [u8]) -> Self {
        Reader { bytes, place: 0 }
    }

    /// The next number.
    ///
    /// # Errors
    ///
    /// The place where it should start, if it is missing, not whole within ten bytes, or not below 2^64.
    pub fn read(&mut self) -> Result<Field, usize> {
        let place = self.place;
        let number = read(self.bytes, place).ok_or(place)?;
        self.place += number.width;
        Ok(Field {
            value: number.value,
            place,
            fewest: number.fewest,
        })
    }

    /// Where the next number would start.
    pub fn place(&self) -> usize {
        self.place
    }

    /// Whether every byte was read.
    pub fn at_end(&self) -> bool {
        self.place == self.bytes.len()
    }
}

#[cfg(test)]
mod tests {
    use super::*;

    /// What is read at the start of some bytes.
    fn read_all(bytes: &[u8]) -> Option<(u64, usize, bool)> {
        read(bytes, 0).map(|number| (number.value, number.width, number.fewest))
    }

    /// Ten bytes: the first nine alike, then the tenth.
    fn ten(byte: u8, tenth: u8) -> Vec<u8> {
        [&[byte; 9][..], &[tenth]].concat()
    }

    #[test]
    fn numbers_go_out_and_come_back() {
        for value in [0, 1, 127, 128, 16_383, 16_384, 1 << 63, u64::MAX] {
            let mut fewest = Vec::new();
            write(&mut fewest, value);
            for width in 0..=WIDTH_LIMIT {
                let mut bytes = vec![7];
                write_padded(&mut bytes, value, width);
                let expected = Number {
                    value,
                    width: width.max(fewest.len()),
                    fewest: width <= fewest.len(),
                };
                assert_eq!(bytes.len(), 1 + expected.width);
                assert_eq!(read(&bytes, 1), Some(expected));
            }
        }
    }

    #[test]
    fn padded_numbers() {
        assert_eq!(read_all(&[0x00]), Some((0, 1, true)));
        assert_eq!(read_all(&[0x80, 0x00]), Some((0, 2, false)));
        assert_eq!(read_all(&[0x80, 0x01]), Some((128, 2, true)));
        assert_eq!(read_all(&[0xff, 0x80, 0x00]), Some((127, 3, false)));
        assert_eq!(read_all(&[0xff, 0x81, 0x00, 0x07]), Some((255, 3, false)));
    }

    /// The tenth group has one bit at most.
    #[test]
    fn ten_groups() {
        assert_eq!(read_all(&ten(0x80, 0)), Some((0, 10, false)));
        assert_eq!(read_all(&ten(0xff, 0)), Some(((1 << 63) - 1, 10, false)));
        assert_eq!(read_all(&ten(0x80, 1)), Some((1 << 63, 10, true)));
        assert_eq!(read_all(&ten(0xff, 1)), Some((u64::MAX, 10, true)));
        for first in [0x80, 0xff] {
            for tenth in [2, 3, 0x7f] {
                assert_eq!(read_all(&ten(first, tenth)), None);
            }
        }
    }

    /// Eleven groups are too many, even if the high ones are empty.
    #[test]
    fn eleven_groups() {
        for tenth in [0x80, 0x81, 0xff] {
            assert_eq!(read_all(&[&ten(0x80, tenth)[..], &[0]].concat()), None);
            assert_eq!(read_all(&[&ten(0x80, tenth)[..], &[1]].concat()), None);
        }
    }

    #[test]
    fn numbers_that_are_missing_or_cut_off() {
        assert_eq!(read_all(&[]), None);
        assert_eq!(read(&[1], 1), None);
        assert_eq!(read(&[1], 2), None);
        for length in 1..=12 {
            assert_eq!(read_all(&vec![0x80; length]), None);
        }
    }
}
