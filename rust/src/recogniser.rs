//! The recogniser: a text's tokens are found, and then the sheet's expression itself is descended,
//! as in Figure 6 of "A Typed, Algebraic Approach to Parsing" by Neelakantan R. Krishnaswami and
//! Jeremy Yallop. It is a yardstick for the machine, which reads by an image.

use crate::library::vinzagew_recognise;
use crate::{Refusal, WORK_BYTES};

/// The most bytes that a text for the recogniser may have.
pub const RECOGNISER_TEXT_LIMIT: usize = 2_048;

/// The bytes of the processor's stack that a call of [`recognise_with`] needs at most. Its routines
/// call each other, the deeper the more tokens there are. This is measured, not proved.
pub const RECOGNISER_STACK_BYTES: usize = 131_072;

/// What [`recognise`](recognise()) found.
#[derive(Clone, Debug, PartialEq, Eq)]
pub struct Recognised {
    /// The numbers of the text's tokens, as far as a rule matches: all of them if the text is
    /// accepted and after 15 and 16, those before the place after 14, and none after any other
    /// number.
    pub tokens: Vec<u8>,
    /// How many tokens there are, if the text is accepted.
    pub answer: Result<usize, Refusal>,
}

/// Checks a sheet and recognises a text by it, with buffers of its own.
///
/// Where the sheet passes, the text is within the limit and every byte of it is in some match,
/// number and place are those of [`Image::run`](crate::Image::run) with the sheet's image. Where
/// that gives 15, there may be a later place at which no rule matches: then the recogniser, which
/// looks for tokens first, gives 14 there. The answer is the first of questions 2 to 10, 12, 14, 15
/// and 16 that is answered with no; the text may have [`RECOGNISER_TEXT_LIMIT`] bytes.
#[cfg_attr(vinzagew_library, doc = "```")]
#[cfg_attr(not(vinzagew_library), doc = "```no_run")]
/// use vinzagew::builder::{Regex, SheetBuilder};
///
/// let mut builder = SheetBuilder::new();
/// let number = builder.token("number");
/// let slash = builder.token("slash");
/// builder.rule(number, Regex::class(b'0', b'9').plus());
/// builder.rule(slash, Regex::byte(b'/'));
/// let sheet = builder.finish(number.then(slash.then(number).star()))?;
///
/// let found = vinzagew::recognise(sheet.as_bytes(), b"12/7");
/// assert_eq!(found.answer, Ok(3));
/// assert_eq!(found.tokens, [0, 1, 0]);
///
/// // The machine stops at the second slash; the recogniser has found all tokens before.
/// let image = vinzagew::write(sheet.as_bytes())?;
/// let by_machine = image.run(b"12//7").unwrap_err();
/// let found = vinzagew::recognise(sheet.as_bytes(), b"12//7");
/// let refusal = found.answer.unwrap_err();
/// assert_eq!((refusal.number, refusal.place), (by_machine.number, by_machine.place));
/// assert_eq!(found.tokens, [0, 1, 1, 0]);
/// # Ok::<(), Box<dyn std::error::Error>>(())
/// ```
pub fn recognise(sheet: &[u8], text: &[u8]) -> Recognised {
    // A text over the limit is refused before the list is looked at.
    let mut tokens = vec![0; text.len().min(RECOGNISER_TEXT_LIMIT)];
    let answer = recognise_with(sheet, text, &mut vec![0; WORK_BYTES], &mut tokens);
    tokens.truncate(match answer {
        Ok(count) => count,
        Err(refusal) => refusal.tokens,
    });
    Recognised { tokens, answer }
}

/// Checks a sheet, recognises a text by it with buffers that are lent, and gives how many tokens
/// were written into the list, a byte each, from its first entry on.
///
/// The list must be as long as the text, which may have [`RECOGNISER_TEXT_LIMIT`] bytes. After 14,
/// 15 and 16 it has [`Refusal::tokens`] tokens. The rest of it is as before, and so is all of it
/// after any other refusal. The work area ends as after [`check_with`](crate::check_with).
///
/// # Errors
///
/// The first question that is answered with no, in this order: 1 to 10, 12, 20, 14, then 15 or 16.
pub fn recognise_with(
    sheet: &[u8],
    text: &[u8],
    work: &mut [u8],
    list: &mut [u8],
) -> Result<usize, Refusal> {
    let mut out = [0; 3];
    vinzagew_recognise(sheet, text, work, list, &mut out);
    let [number, place, count] = out;
    if number == 0 {
        return Ok(count as usize);
    }
    Err(Refusal {
        number,
        place: place as usize,
        needed: if number == 20 { text.len() } else { 0 },
        tokens: count as usize,
    })
}
