//! Refusals: the question that was answered with no, its place, and both in words.
//!
//! Nothing is checked here. What stands at a place of a sheet is said by
//! [`Sheet::locate`](crate::builder::Sheet::locate).

use std::error::Error;
use std::fmt;

/// A refusal by checking: which of questions 1 to 10 was answered with no, and where.
///
/// Checking is lent no image buffer and reads no text, so there is no length and no count.
#[derive(Clone, Copy, Debug, PartialEq, Eq, Hash)]
pub struct CheckRefusal {
    /// The number of the question, 1 to 10.
    pub number: u64,
    /// The place in the sheet (3 to 10); 0 if the refusal names none.
    pub place: usize,
}

impl CheckRefusal {
    /// The question that was answered with no.
    ///
    /// ```
    /// let refusal = vinzagew::CheckRefusal { number: 10, place: 20 };
    /// assert_eq!(refusal.question(), "Are the alternatives apart?");
    /// ```
    pub fn question(&self) -> &'static str {
        Refusal::from(*self).question()
    }
}

impl fmt::Display for CheckRefusal {
    fn fmt(&self, formatter: &mut fmt::Formatter) -> fmt::Result {
        Refusal::from(*self).fmt(formatter)
    }
}

impl Error for CheckRefusal {}

/// What writing says of a sheet that checking refuses.
impl From<CheckRefusal> for Refusal {
    fn from(refusal: CheckRefusal) -> Refusal {
        Refusal {
            number: refusal.number,
            place: refusal.place,
            needed: 0,
            tokens: 0,
        }
    }
}

/// A refusal by writing, running or recognising: which question was answered with no, and where.
#[derive(Clone, Copy, Debug, PartialEq, Eq, Hash)]
pub struct Refusal {
    /// The number of the question, 1 to 20.
    pub number: u64,
    /// The place in the sheet (3 to 10), in the image (13) or in the text (14 to 17); 0 if the refusal
    /// names none.
    pub place: usize,
    /// After 11 the bytes that the image needs, after 20 those that the list needs, otherwise 0.
    pub needed: usize,
    /// The tokens that running took before the refusal, or that recognising wrote; 0 for writing.
    pub tokens: usize,
}

impl Refusal {
    /// The question that was answered with no.
    ///
    /// ```
    /// let refusal = vinzagew::Refusal { number: 10, place: 20, needed: 0, tokens: 0 };
    /// assert_eq!(refusal.question(), "Are the alternatives apart?");
    /// ```
    pub fn question(&self) -> &'static str {
        match self.number {
            1 => "Has the work area at least 65,536 bytes?",
            2 => "Is the sheet within 4,096 bytes?",
            3 => "Is this number present, whole and below 2^64?",
            4 => "Is its value allowed in its field?",
            5 => "Are the node and class limits kept with this tag?",
            6 => "Does the sheet end after its expression?",
            7 => "Does every rule match only non-empty words?",
            8 => "Is the variable guarded?",
            9 => "Is the sequence separable, or the repetition's part separable from itself?",
            10 => "Are the alternatives apart?",
            11 => "Does the image fit in its buffer?",
            12 => "Is the text within 1,048,576 bytes, or within 2,048 for the recogniser?",
            13 => "Is the image readable?",
            14 => "Does a rule match here?",
            15 => "Does a pending nonterminal, or the descent, take the token?",
            16 => "At the end, are the pending nonterminals nullable, or is the descent done?",
            17 => "Does the stack hold all pending nonterminals?",
            18 => "Has the table at least 65,536 entries, and the buffer for the winners at least 256?",
            19 => "Has the image's table at most 256 rows?",
            20 => "Has the list for the tokens at least as many bytes as the text?",
            _ => "There is no question with this number.",
        }
    }

    /// What the place counts in, if the refusal names a place.
    fn input(&self) -> Option<&'static str> {
        match self.number {
            3..=10 => Some("sheet"),
            13 => Some("image"),
            14..=17 => Some("text"),
            _ => None,
        }
    }
}

impl fmt::Display for Refusal {
    fn fmt(&self, formatter: &mut fmt::Formatter) -> fmt::Result {
        write!(formatter, "refused with {}", self.number)?;
        if let Some(input) = self.input() {
            write!(formatter, " at place {} of the {input}", self.place)?;
        }
        write!(formatter, ": {} No", self.question())?;
        match self.number {
            11 | 20 => write!(formatter, ": it needs {} bytes", self.needed),
            14..=17 => write!(formatter, ", with {} tokens counted", self.tokens),
            _ => Ok(()),
        }
    }
}

impl Error for Refusal {}

#[cfg(test)]
mod tests {
    use super::*;

    fn words(number: u64, place: usize, needed: usize, tokens: usize) -> String {
        Refusal {
            number,
            place,
            needed,
            tokens,
        }
        .to_string()
    }

    #[test]
    fn refusals_in_words() {
        assert_eq!(
            words(1, 0, 0, 0),
            "refused with 1: Has the work area at least 65,536 bytes? No"
        );
        assert_eq!(
            words(9, 20, 0, 0),
            "refused with 9 at place 20 of the sheet: Is the sequence separable, \
             or the repetition's part separable from itself? No"
        );
        assert_eq!(
            words(11, 0, 48, 0),
            "refused with 11: Does the image fit in its buffer? No: it needs 48 bytes"
        );
        assert_eq!(
            words(12, 0, 0, 0),
            "refused with 12: Is the text within 1,048,576 bytes, or within 2,048 for the recogniser? No"
        );
        assert_eq!(
            words(15, 3, 0, 2),
            "refused with 15 at place 3 of the text: Does a pending nonterminal, or the descent, take the token? No, with 2 tokens counted"
        );
        assert_eq!(
            words(18, 0, 0, 0),
            "refused with 18: Has the table at least 65,536 entries, and the buffer for the winners at least 256? No"
        );
        assert_eq!(
            words(19, 0, 0, 0),
            "refused with 19: Has the image's table at most 256 rows? No"
        );
        assert_eq!(
            words(20, 0, 5, 0),
            "refused with 20: Has the list for the tokens at least as many bytes as the text? \
             No: it needs 5 bytes"
        );
    }

    #[test]
    fn a_check_is_refused_in_the_same_words() {
        for (number, place) in [(1, 0), (2, 0), (3, 20), (7, 3), (8, 21), (10, 20)] {
            let refusal = CheckRefusal { number, place };
            assert_eq!(refusal.to_string(), words(number, place, 0, 0));
        }
    }
}
