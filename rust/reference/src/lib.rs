//! A plain implementation of checking sheets, writing their images, running images and recognising
//! texts.
//!
//! It was written from the owner's contract alone (`docs/REFERENCE.md` renders it), without a look
//! at the proved code, and it is made to be read, not to be fast. Its five main functions,
//! [`vinzagew_check`], [`vinzagew_write`], [`vinzagew_run`], [`vinzagew_run_table`] and
//! [`vinzagew_recognise`], have the same results and the same effects on every buffer as the
//! functions of the static library, so that the two can be compared to the last byte.
//!
//! [`answer()`] works out the sheet's own answer in another way: from the words of the regexes and from
//! what the expression denotes, with no image and no machine.
//!
//! ```
//! use vinzagew_reference::{check, run, stack_length, write};
//!
//! let sheet = [
//!     1, 2, 3, 1, 2, 1, 48, 57, 4, 1, 48, 57, 2, 1, 47, 47, 0, 1, 32, 32, 3, 2, 0, 5, 4, 0, 3, 2, 1,
//!     3, 2, 0, 6, 0,
//! ];
//! let mut work = vec![0; 65_536];
//! assert!(check(&sheet, &mut work).is_ok());
//!
//! let mut image = vec![0; 65_536];
//! let written = write(&sheet, &mut work, &mut image);
//! assert_eq!((written.number, written.place, written.length), (0, 0, 48));
//!
//! let text = b"12 /7";
//! let mut stack = vec![0; stack_length(text.len())];
//! let ran = run(&image[..48], text, &mut stack);
//! assert_eq!((ran.number, ran.place, ran.tokens), (0, 5, 3));
//! ```

#![forbid(unsafe_code)]
#![warn(missing_docs)]

pub mod answer;
pub mod image;
pub mod lexer;
pub mod long_walks;
pub mod machine;
pub mod normal_form;
pub mod number;
pub mod recogniser;
pub mod sheet;
pub mod table;
pub mod types;

pub use answer::answer;
pub use machine::{run, vinzagew_run, Ran};
pub use recogniser::{recognise, vinzagew_recognise, RECOGNISER_TEXT_LIMIT};
pub use table::{run_table, vinzagew_run_table, Table};

use sheet::Sheet;

/// The bytes that the work area must have at least, and that end as zero.
pub const WORK_BYTES: usize = 65_536;

/// The most bytes that a sheet may have.
pub const SHEET_LIMIT: usize = 4_096;

/// The most bytes that a text may have.
pub const TEXT_LIMIT: usize = 1_048_576;

/// The most members that a production's tail has.
pub const TAIL_LIMIT: usize = 32;

/// "A long enough stack" for a text of so many bytes: a token has one byte at least, and a take removes
/// one pending nonterminal at least and adds a tail.
pub const fn stack_length(text_length: usize) -> usize {
    1 + (TAIL_LIMIT - 1) * text_length
}

/// A refusal: the number of the question that was answered with no, and its place.
#[derive(Clone, Copy, Debug, PartialEq, Eq)]
pub struct Refusal {
    /// The number of the question.
    pub number: u64,
    /// The place that the refusal names, 0 if it names none.
    pub place: usize,
}

/// What writing returns.
#[derive(Clone, Copy, Debug, PartialEq, Eq)]
pub struct Written {
    /// 0 for success, otherwise the number of the question.
    pub number: u64,
    /// The place that the refusal names, otherwise 0.
    pub place: usize,
    /// The bytes written on success, the bytes needed after 11, otherwise 0.
    pub length: usize,
}

/// Checks a sheet: questions 1 to 10, with all effects on the work area. Nothing is made that only an
/// image has. A sheet that passes is given in parts, of which [`image::fuse`] makes the image.
///
/// # Errors
///
/// The first question that is answered with no.
pub fn check(sheet: &[u8], work: &mut [u8]) -> Result<Sheet, Refusal> {
    let refused = |number| Err(Refusal { number, place: 0 });
    match work.get_mut(..WORK_BYTES) {
        Some(front) => front.fill(0),
        None => return refused(1),
    }
    if sheet.len() > SHEET_LIMIT {
        return refused(2);
    }
    let sheet = Sheet::read(sheet)?;
    lexer::check(&sheet)?;
    types::check(&sheet.nodes)?;
    Ok(sheet)
}

/// Writes a sheet's image: checks the sheet, whatever was checked before, then puts question 11, with all
/// effects on the work area and the image buffer.
pub fn write(sheet: &[u8], work: &mut [u8], image: &mut [u8]) -> Written {
    let bytes = match check(sheet, work) {
        Ok(sheet) => image::fuse(&sheet).to_bytes(),
        Err(Refusal { number, place }) => {
            return Written {
                number,
                place,
                length: 0,
            }
        }
    };
    let number = match image.get_mut(..bytes.len()) {
        Some(front) => {
            front.copy_from_slice(&bytes);
            0
        }
        None => 11,
    };
    Written {
        number,
        place: 0,
        length: bytes.len(),
    }
}

/// [`check`] with the results of the C interface: number, place and 0 in `out[0..3]`.
///
/// An `out` shorter than 3 is left untouched, and nothing else happens.
pub fn vinzagew_check(sheet: &[u8], work: &mut [u8], out: &mut [u64]) {
    if let Some(out) = out.get_mut(..3) {
        let (number, place) = match check(sheet, work) {
            Ok(_) => (0, 0),
            Err(refusal) => (refusal.number, refusal.place),
        };
        out.copy_from_slice(&[number, place as u64, 0]);
    }
}

/// [`write`](write()) with the results of the C interface: number, place and length in `out[0..3]`.
///
/// An `out` shorter than 3 is left untouched, and nothing else happens.
pub fn vinzagew_write(sheet: &[u8], work: &mut [u8], image: &mut [u8], out: &mut [u64]) {
    if let Some(out) = out.get_mut(..3) {
        let written = write(sheet, work, image);
        out.copy_from_slice(&[written.number, written.place as u64, written.length as u64]);
    }
}
