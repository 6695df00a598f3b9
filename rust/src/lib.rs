//! A proved grammar compiler, and the machine that reads by its images.
//!
//! A *sheet* has lexer rules and one typed context-free expression. [`check`](check()) says whether
//! a sheet passes, [`write`](write()) turns it into an [`Image`], and [`Image::run`] reads a text
//! by it; [`Image::run_long`] does so with a table, which is meant for long texts.
//! [`recognise`](recognise()) reads a text by the sheet itself, with a published method, to compare
//! a surprise with. All five call a static library whose code is proved to meet its contract, which
//! `docs/REFERENCE.md` of the repository has in words; this package links it and lends it the
//! buffers that it needs. The numbers and places in this documentation are those of REFERENCE,
//! section 11.
//!
//! [`builder`] writes sheets as Rust code. A number of a sheet may be padded with empty high groups, and
//! [`patch`](patch()) then writes another value into it and moves no byte.
//!
//! The library is found when this package is built: in the folder that the environment variable
//! `VINZAGEW_LIB_DIR` names, or else in `target/staticlib` at the top of the repository. If it is not
//! there, [`LIBRARY_LINKED`] is false and every function that needs it panics.
//!
#![cfg_attr(vinzagew_library, doc = "```")]
#![cfg_attr(not(vinzagew_library), doc = "```no_run")]
//! use vinzagew::builder::{Regex, SheetBuilder};
//!
//! let mut builder = SheetBuilder::new();
//! let number = builder.token("number");
//! let slash = builder.token("slash");
//! builder.rule(number, Regex::class(b'0', b'9').plus());
//! builder.rule(slash, Regex::byte(b'/'));
//! builder.skip(Regex::byte(b' '));
//!
//! // A number, then any number of times a slash and a number.
//! let sheet = builder.finish(number.then(slash.then(number).star()))?;
//!
//! let image = vinzagew::write(sheet.as_bytes())?;
//! assert_eq!(image.run(b"12 /7"), Ok(3));
//!
//! let refusal = image.run(b"12//7").unwrap_err();
//! assert_eq!((refusal.number, refusal.place), (15, 3));
//!
//! // A sheet that is refused names the part that is to blame. For the verdict no image is written.
//! let mut builder = SheetBuilder::new();
//! let number = builder.token("number");
//! builder.rule(number, Regex::class(b'0', b'9').plus());
//! let sheet = builder.finish(number.or(number))?;
//! let refusal = vinzagew::check(sheet.as_bytes()).unwrap_err();
//! assert_eq!(refusal.number, 10);
//! let part = sheet.locate(refusal.place);
//! assert_eq!(part.to_string(), "expression node 0: (number ∨ number)");
//! # Ok::<(), Box<dyn std::error::Error>>(())
//! ```

#![warn(missing_docs)]

pub mod builder;
pub mod library;
mod number;
mod patch;
mod recogniser;
mod refusal;

pub use library::LIBRARY_LINKED;
pub use patch::{patch, PatchError};
pub use recogniser::{
    recognise, recognise_with, Recognised, RECOGNISER_STACK_BYTES, RECOGNISER_TEXT_LIMIT,
};
pub use refusal::{CheckRefusal, Refusal};

use library::{vinzagew_check, vinzagew_run, vinzagew_run_table, vinzagew_write};

/// The bytes that the work area of [`check_with`] and [`write_into`] must have at least.
pub const WORK_BYTES: usize = 65_536;

/// The length of an image buffer that is enough for every sheet.
pub const IMAGE_BYTES: usize = 65_536;

/// The most bytes that a sheet may have.
pub const SHEET_LIMIT: usize = 4_096;

/// The most bytes that a number of a sheet may have: up to there it may be padded with empty high groups.
pub const WIDTH_LIMIT: usize = 10;

/// The most bytes that a text may have.
pub const TEXT_LIMIT: usize = 1_048_576;

/// The most members that a production's tail has. A take removes one pending nonterminal at least and
/// adds a tail.
pub const TAIL_LIMIT: usize = 32;

/// The bytes of the processor's stack that a run needs at most. This is measured, not proved.
pub const RUN_STACK_BYTES: usize = 131_072;

/// The entries that the table of [`run_with_table`] must have at least: at row × 256 + byte stands the next row.
pub const TABLE_ENTRIES: usize = 65_536;

/// The entries that the buffer for the winners of [`run_with_table`] must have at least, one for each row.
pub const WINNER_ENTRIES: usize = 256;

/// The winner of a row in which no rule wins. A rule's number is less.
pub const NO_WINNER: u16 = 32;

/// The length of a stack that is enough for every text of `text_length` bytes, 1 + 31 × its length.
///
/// ```
/// assert_eq!(vinzagew::stack_length(4), 125);
/// ```
pub const fn stack_length(text_length: usize) -> usize {
    1 + (TAIL_LIMIT - 1) * text_length
}

/// Checks a sheet, with a work area of its own.
///
/// A sheet passes exactly if [`write`](write()) accepts it.
///
/// # Errors
///
/// The first of questions 2 to 10 that is answered with no.
#[cfg_attr(vinzagew_library, doc = "```")]
#[cfg_attr(not(vinzagew_library), doc = "```no_run")]
/// let refusal = vinzagew::check(b"").unwrap_err();
/// assert_eq!((refusal.number, refusal.place), (3, 0));
/// ```
pub fn check(sheet: &[u8]) -> Result<(), CheckRefusal> {
    check_with(sheet, &mut vec![0; WORK_BYTES])
}

/// Checks a sheet with a work area that is lent, which an editor keeps from one check to the next.
///
/// The first [`WORK_BYTES`] bytes of the work area end as zero, except after 1, when none changes; the
/// rest never change. A sheet passes exactly if there is an image buffer that is long enough for
/// [`write_into`] with the same work area.
///
/// # Errors
///
/// The first of questions 1 to 10 that is answered with no.
pub fn check_with(sheet: &[u8], work: &mut [u8]) -> Result<(), CheckRefusal> {
    let mut out = [0; 3];
    vinzagew_check(sheet, work, &mut out);
    let [number, place, _] = out;
    if number == 0 {
        return Ok(());
    }
    Err(CheckRefusal {
        number,
        place: place as usize,
    })
}

/// Checks a sheet and writes its image, with buffers of its own.
///
/// # Errors
///
/// The first of questions 2 to 10 that is answered with no.
#[cfg_attr(vinzagew_library, doc = "```")]
#[cfg_attr(not(vinzagew_library), doc = "```no_run")]
/// let sheet = [1, 1, 1, 1, 1, 48, 57, 2, 0];
/// let image = vinzagew::write(&sheet)?;
/// assert_eq!(image.run(b"7"), Ok(1));
/// # Ok::<(), vinzagew::Refusal>(())
/// ```
pub fn write(sheet: &[u8]) -> Result<Image, Refusal> {
    let mut work = vec![0; WORK_BYTES];
    let mut image = vec![0; IMAGE_BYTES];
    let length = write_into(sheet, &mut work, &mut image)?.len();
    image.truncate(length);
    image.shrink_to_fit();
    Ok(Image { bytes: image })
}

/// Checks a sheet, writes its image into a buffer, and gives the part of the buffer that was written.
///
/// Nothing is taken over from an earlier check. The work area ends as after [`check_with`]. A refusal
/// leaves the image buffer untouched; success leaves the bytes past the image. [`IMAGE_BYTES`] are enough
/// for every sheet.
///
/// # Errors
///
/// The first of questions 1 to 11 that is answered with no.
pub fn write_into<'a>(
    sheet: &[u8],
    work: &mut [u8],
    image: &'a mut [u8],
) -> Result<&'a [u8], Refusal> {
    let mut out = [0; 3];
    vinzagew_write(sheet, work, image, &mut out);
    let [number, place, length] = out;
    if number == 0 {
        return Ok(&image[..length as usize]);
    }
    Err(Refusal {
        number,
        place: place as usize,
        needed: length as usize,
        tokens: 0,
    })
}

/// Runs an image over a text on a stack, and gives how many tokens were taken.
///
/// The stack ends all zero, except after 12 and 13, when it is untouched. [`stack_length`] says how long
/// a stack is enough for an image that writing made.
///
/// # Errors
///
/// The first of questions 12 to 17 that is answered with no.
pub fn run_with(image: &[u8], text: &[u8], stack: &mut [u8]) -> Result<usize, Refusal> {
    let mut out = [0; 3];
    vinzagew_run(image, text, stack, &mut out);
    ran(out)
}

/// Runs an image over a text with a table, which it builds before it reads the text, and gives how many tokens
/// were taken.
///
/// Unless 18 or 19 is given, the answer and the stack at the end are those of [`run_with`]. After 18, 12, 13 and
/// 19 the stack and both buffers are untouched. Otherwise the table stands in the first entries of the two
/// buffers, also if the text is refused, and what lies past its last row is as before. `table` has the next row
/// at row × 256 + byte, and `winners` has for each row the image's rule that wins if a match ends there, or
/// [`NO_WINNER`]. Row 0 is the start, row 1 the empty set; then comes each set of positions that a byte may
/// keep, in the order first reached, rows in order, bytes rising.
///
/// # Errors
///
/// The first question that is answered with no, in this order: 18, 12, 13, 19, then 14 to 17.
pub fn run_with_table(
    image: &[u8],
    text: &[u8],
    table: &mut [u16],
    winners: &mut [u16],
    stack: &mut [u8],
) -> Result<usize, Refusal> {
    let mut out = [0; 3];
    vinzagew_run_table(image, text, table, winners, stack, &mut out);
    ran(out)
}

/// The three numbers of a run as a result.
fn ran([number, place, tokens]: [u64; 3]) -> Result<usize, Refusal> {
    if number == 0 {
        return Ok(tokens as usize);
    }
    Err(Refusal {
        number,
        place: place as usize,
        needed: 0,
        tokens: tokens as usize,
    })
}

/// A readable image.
///
/// Its rules may have other numbers than in the sheet: see
/// [`Sheet::image_rules`](builder::Sheet::image_rules).
#[derive(Clone, Debug, PartialEq, Eq)]
pub struct Image {
    bytes: Vec<u8>,
}

impl Image {
    /// Takes bytes as an image, if they are readable.
    ///
    /// # Errors
    ///
    /// 13 with the place of the first offending number or leftover byte. In an image a padded number is
    /// offending.
    pub fn from_bytes(bytes: impl Into<Vec<u8>>) -> Result<Image, Refusal> {
        let bytes = bytes.into();
        match run_with(&bytes, b"", &mut [0]) {
            Err(refusal) if refusal.number == 13 => Err(refusal),
            _ => Ok(Image { bytes }),
        }
    }

    /// The bytes of the image.
    pub fn as_bytes(&self) -> &[u8] {
        &self.bytes
    }

    /// The bytes of the image, without a copy.
    pub fn into_bytes(self) -> Vec<u8> {
        self.bytes
    }

    /// Runs the image over a text on a long enough stack, and gives how many tokens were taken.
    ///
    /// For an image that writing made, this is the sheet's own answer. The longest match wins. Of two rules
    /// that match equally far, a word rule wins over any other, so that a word which stands below a name
    /// pattern is read as the word; of two of a kind the lower in the sheet wins.
    ///
    /// The stack is long enough for every readable image: a tail has at most [`TAIL_LIMIT`] members, and
    /// replaces one.
    ///
    /// # Errors
    ///
    /// The first of questions 12 to 16 that is answered with no.
    #[cfg_attr(vinzagew_library, doc = "```")]
    #[cfg_attr(not(vinzagew_library), doc = "```no_run")]
    /// use vinzagew::builder::{Regex, SheetBuilder};
    ///
    /// let mut builder = SheetBuilder::new();
    /// let name = builder.token("name");
    /// let word = builder.token("if");
    /// builder.rule(name, Regex::class(b'a', b'z').plus());
    /// builder.rule(word, Regex::literal(b"if"));
    /// builder.skip(Regex::byte(b' '));
    /// let sheet = builder.finish(word.then(name))?;
    ///
    /// let image = vinzagew::write(sheet.as_bytes())?;
    /// assert_eq!(image.run(b"if iffy"), Ok(2));
    /// assert_eq!(image.run(b"if if").unwrap_err().place, 3);
    /// # Ok::<(), Box<dyn std::error::Error>>(())
    /// ```
    pub fn run(&self, text: &[u8]) -> Result<usize, Refusal> {
        run_with(&self.bytes, text, &mut long_enough_stack(text))
    }

    /// Runs the image over a text with a table; the answer is that of [`run`](Image::run).
    ///
    /// It is meant for long texts: the table is built first, which takes longer than to read a short text, and
    /// then matching looks up one entry for each byte that it walks. An image whose table would have over 256
    /// rows is run without one.
    ///
    /// # Errors
    ///
    /// The first of questions 12 to 16 that is answered with no.
    #[cfg_attr(vinzagew_library, doc = "```")]
    #[cfg_attr(not(vinzagew_library), doc = "```no_run")]
    /// use vinzagew::builder::{Regex, SheetBuilder};
    ///
    /// let mut builder = SheetBuilder::new();
    /// let number = builder.token("number");
    /// builder.rule(number, Regex::class(b'0', b'9').plus());
    /// builder.skip(Regex::byte(b' '));
    /// let sheet = builder.finish(number.star())?;
    ///
    /// let image = vinzagew::write(sheet.as_bytes())?;
    /// let text = b"12 ".repeat(300_000);
    /// assert_eq!(image.run_long(&text), Ok(300_000));
    /// assert_eq!(image.run_long(&text), image.run(&text));
    /// # Ok::<(), Box<dyn std::error::Error>>(())
    /// ```
    pub fn run_long(&self, text: &[u8]) -> Result<usize, Refusal> {
        let mut table = vec![0; TABLE_ENTRIES];
        let mut winners = vec![0; WINNER_ENTRIES];
        let mut stack = long_enough_stack(text);
        match run_with_table(&self.bytes, text, &mut table, &mut winners, &mut stack) {
            Err(refusal) if refusal.number == 19 => run_with(&self.bytes, text, &mut stack),
            answer => answer,
        }
    }
}

/// A stack that is long enough for a text. A text over the limit is refused before the stack is looked at.
fn long_enough_stack(text: &[u8]) -> Vec<u8> {
    let room = if text.len() > TEXT_LIMIT {
        0
    } else {
        stack_length(text.len())
    };
    vec![0; room]
}

impl AsRef<[u8]> for Image {
    fn as_ref(&self) -> &[u8] {
        &self.bytes
    }
}
