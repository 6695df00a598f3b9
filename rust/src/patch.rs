//! Patches one number of a stored sheet and moves no byte. Whether the sheet passes, before or after, is
//! not asked here.

use crate::number;
use std::error::Error;
use std::fmt;

/// Writes another value into a number of a stored sheet, in the bytes that the number has there.
///
/// `place` is the place of the number's first byte, such as that of a
/// [`Part`](crate::builder::Part). No byte is moved and the sheet's length stays, so a value that needs
/// more bytes than stand there is refused; [`Sheet::padded`](crate::builder::Sheet::padded) makes a sheet
/// whose numbers have room. With an error the sheet is as it was.
///
/// Only the number is looked at, and where it starts is told by the bytes alone: after one whose bit 7 is not
/// set. So a number can be patched also where what stands before it is none. Whether the value is allowed in its field, and whether the sheet passes, is
/// the business of [`check`](crate::check()). An image is not patched like this: in an image a padded number
/// is refused with 13.
///
/// # Errors
///
/// That no number starts at the place, or that the value does not fit.
///
/// ```
/// use vinzagew::builder::{Field, PartKind, Regex, SheetBuilder};
/// use vinzagew::{patch, PatchError};
///
/// let mut builder = SheetBuilder::new();
/// let digit = builder.token("digit");
/// builder.rule(digit, Regex::class(b'0', b'1'));
/// let sheet = builder.finish(digit.star())?.padded(2)?;
///
/// // The high byte of the class, which is then 9.
/// let high = |kind| matches!(kind, PartKind::Regex { rule: 0, field: Field::High, .. });
/// let part = sheet.parts().into_iter().find(|part| high(part.kind));
/// let place = part.ok_or("no class")?.place;
///
/// let mut stored = sheet.to_bytes();
/// assert_eq!(stored[place..place + 2], [b'1' | 0x80, 0]);
/// patch(&mut stored, place, b'9'.into())?;
/// assert_eq!(stored[place..place + 2], [b'9' | 0x80, 0]);
///
/// let error = patch(&mut stored, place, 16_384).unwrap_err();
/// assert_eq!(error, PatchError::DoesNotFit { place, value: 16_384, needed: 3, width: 2 });
/// # Ok::<(), Box<dyn std::error::Error>>(())
/// ```
pub fn patch(sheet: &mut [u8], place: usize, value: u64) -> Result<(), PatchError> {
    let width = width_at(sheet, place)?;
    let needed = number::fewest_bytes(value);
    if needed > width {
        return Err(PatchError::DoesNotFit {
            place,
            value,
            needed,
            width,
        });
    }
    number::fill(&mut sheet[place..place + width], value);
    Ok(())
}

/// How many bytes the number has that starts at a place.
fn width_at(sheet: &[u8], place: usize) -> Result<usize, PatchError> {
    if place >= sheet.len() {
        let length = sheet.len();
        return Err(PatchError::PastEnd { place, length });
    }
    // A number ends with the first byte whose bit 7 is not set, and the next one starts after it.
    let before = &sheet[..place];
    let start = before.iter().rposition(|&byte| byte < 0x80);
    let start = start.map_or(0, |end| end + 1);
    if start < place {
        return Err(PatchError::InsideNumber { place, start });
    }
    number::width(&sheet[place..]).ok_or(PatchError::NotANumber { place })
}

/// Why a number of a stored sheet was not patched.
#[derive(Clone, Copy, Debug, PartialEq, Eq, Hash)]
pub enum PatchError {
    /// The sheet has no byte at the place.
    PastEnd {
        /// The place.
        place: usize,
        /// How many bytes the sheet has.
        length: usize,
    },
    /// The byte at the place goes on with groups that start before it, a number or too many of them.
    InsideNumber {
        /// The place.
        place: usize,
        /// Where they start.
        start: usize,
    },
    /// The bytes from the place on are no number: it is cut off, has more than ten bytes, or is 2^64 or more.
    NotANumber {
        /// The place.
        place: usize,
    },
    /// The value needs more bytes than the number has.
    DoesNotFit {
        /// The place.
        place: usize,
        /// The value.
        value: u64,
        /// How many bytes the value needs.
        needed: usize,
        /// How many bytes the number has.
        width: usize,
    },
}

impl fmt::Display for PatchError {
    fn fmt(&self, formatter: &mut fmt::Formatter) -> fmt::Result {
        match self {
            PatchError::PastEnd { place, length } => write!(
                formatter,
                "no number starts at place {place}: the sheet has {length} bytes"
            ),
            PatchError::InsideNumber { place, start } => write!(
                formatter,
                "no number starts at place {place}: it is inside the number that starts at place {start}"
            ),
            PatchError::NotANumber { place } => write!(
                formatter,
                "no number starts at place {place}: what stands there is cut off, longer than ten bytes, \
                 or 2^64 or more"
            ),
            PatchError::DoesNotFit {
                place,
                value,
                needed,
                width,
            } => write!(
                formatter,
                "{value} does not fit at place {place}: it needs {needed} bytes, and the number there \
                 has {width}"
            ),
        }
    }
}

impl Error for PatchError {}

#[cfg(test)]
mod tests {
    use super::*;

    /// The sheet after a patch that succeeds.
    fn patched(sheet: &[u8], place: usize, value: u64) -> Vec<u8> {
        let mut sheet = sheet.to_vec();
        patch(&mut sheet, place, value).unwrap();
        sheet
    }

    /// The error of a patch, once the sheet is seen to be as before.
    fn refused(sheet: &[u8], place: usize, value: u64) -> PatchError {
        let mut same = sheet.to_vec();
        let error = patch(&mut same, place, value).unwrap_err();
        assert_eq!(same, sheet);
        error
    }

    #[test]
    fn a_number_keeps_its_width() {
        let sheet = [1, 0x82, 0x80, 0, 0xff, 1, 5];
        assert_eq!(patched(&sheet, 0, 127), [127, 0x82, 0x80, 0, 0xff, 1, 5]);
        assert_eq!(patched(&sheet, 1, 0), [1, 0x80, 0x80, 0, 0xff, 1, 5]);
        let largest = (1 << 21) - 1;
        assert_eq!(
            patched(&sheet, 1, largest)[..5],
            [1, 0xff, 0xff, 0x7f, 0xff]
        );
        assert_eq!(patched(&sheet, 4, 3), [1, 0x82, 0x80, 0, 0x83, 0, 5]);
        assert_eq!(patched(&sheet, 6, 6), [1, 0x82, 0x80, 0, 0xff, 1, 6]);
        // Ten bytes hold every number.
        let mut ten = [0x80; 10];
        ten[9] = 0;
        assert_eq!(patched(&ten, 0, u64::MAX)[7..], [0xff, 0xff, 1]);
    }

    #[test]
    fn a_value_that_does_not_fit() {
        let sheet = [1, 0x82, 0x80, 0];
        let error = refused(&sheet, 0, 128);
        assert_eq!(
            error.to_string(),
            "128 does not fit at place 0: it needs 2 bytes, and the number there has 1"
        );
        let error = refused(&sheet, 1, 1 << 21);
        let expected = PatchError::DoesNotFit {
            place: 1,
            value: 1 << 21,
            needed: 4,
            width: 3,
        };
        assert_eq!(error, expected);
    }

    #[test]
    fn places_where_no_number_starts() {
        let sheet = [1, 0x82, 0x80, 0, 0x80];
        let words = |place| refused(&sheet, place, 0).to_string();
        for place in [2, 3] {
            let start = 1;
            let error = PatchError::InsideNumber { place, start };
            assert_eq!(refused(&sheet, place, 0), error);
        }
        assert_eq!(
            words(2),
            "no number starts at place 2: it is inside the number that starts at place 1"
        );
        assert_eq!(
            words(4),
            "no number starts at place 4: what stands there is cut off, longer than ten bytes, or 2^64 or more"
        );
        assert_eq!(
            words(5),
            "no number starts at place 5: the sheet has 5 bytes"
        );
        let place = usize::MAX;
        let error = PatchError::PastEnd { place, length: 5 };
        assert_eq!(refused(&sheet, place, 0), error);
        assert_eq!(
            refused(&[], 0, 0),
            PatchError::PastEnd {
                place: 0,
                length: 0
            }
        );
    }

    /// Eleven groups are no number, and neither is 2^64. What stands after them is patched all the same.
    #[test]
    fn bytes_that_are_no_number() {
        let mut bytes = [0x80; 12];
        bytes[10] = 0;
        bytes[11] = 7;
        assert_eq!(refused(&bytes, 0, 0), PatchError::NotANumber { place: 0 });
        assert_eq!(patched(&bytes, 11, 9)[9..], [0x80, 0, 9]);
        bytes[9] = 2;
        assert_eq!(refused(&bytes, 0, 0), PatchError::NotANumber { place: 0 });
    }
}
