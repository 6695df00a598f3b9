//! Regexes.

use std::fmt;

/// A regex.
#[derive(Clone, Debug, PartialEq, Eq)]
pub enum Regex {
    /// The empty word.
    Empty,
    /// One byte from `low` to `high`, both included.
    Class {
        /// The lowest byte.
        low: u8,
        /// The highest byte.
        high: u8,
    },
    /// A word of the first part, then one of the second.
    Sequence(Box<Regex>, Box<Regex>),
    /// A word of either part.
    Alternative(Box<Regex>, Box<Regex>),
    /// Any number of words of the part in a row.
    Star(Box<Regex>),
}

impl Regex {
    /// The empty word.
    pub fn empty() -> Regex {
        Regex::Empty
    }

    /// One byte from `low` to `high`, both included.
    pub fn class(low: u8, high: u8) -> Regex {
        Regex::Class { low, high }
    }

    /// One byte.
    pub fn byte(byte: u8) -> Regex {
        Regex::class(byte, byte)
    }

    /// These bytes in a row.
    ///
    /// ```
    /// # use vinzagew::builder::Regex;
    /// assert_eq!(Regex::literal(b"ab"), Regex::byte(b'a').then(Regex::byte(b'b')));
    /// ```
    pub fn literal(bytes: &[u8]) -> Regex {
        Regex::sequence(bytes.iter().copied().map(Regex::byte))
    }

    /// One of these bytes.
    ///
    /// # Panics
    ///
    /// If there are no bytes: every regex has a word.
    pub fn one_of(bytes: &[u8]) -> Regex {
        Regex::alternative(bytes.iter().copied().map(Regex::byte))
    }

    /// A word of each part, in a row; no part gives the empty word.
    pub fn sequence(parts: impl IntoIterator<Item = Regex>) -> Regex {
        nest(parts, Regex::then).unwrap_or(Regex::Empty)
    }

    /// A word of any part.
    ///
    /// # Panics
    ///
    /// If there are no parts: every regex has a word.
    pub fn alternative(parts: impl IntoIterator<Item = Regex>) -> Regex {
        nest(parts, Regex::or).expect("an alternative needs at least one part")
    }

    /// A word of this, then one of `next`.
    pub fn then(self, next: Regex) -> Regex {
        Regex::Sequence(Box::new(self), Box::new(next))
    }

    /// A word of this or of `other`.
    pub fn or(self, other: Regex) -> Regex {
        Regex::Alternative(Box::new(self), Box::new(other))
    }

    /// Any number of words in a row.
    pub fn star(self) -> Regex {
        Regex::Star(Box::new(self))
    }

    /// One or more words in a row: this, then its star. Its byte classes count twice.
    pub fn plus(self) -> Regex {
        self.clone().then(self.star())
    }

    /// A word of this or the empty word.
    pub fn optional(self) -> Regex {
        self.or(Regex::Empty)
    }

    /// Whether a rule with this regex is a word rule: it has only empty words, sequences and classes of one
    /// byte. Of two equally long matches a word rule wins over any other rule.
    ///
    /// With an alternative or a star it is none, whatever it matches.
    ///
    /// ```
    /// # use vinzagew::builder::Regex;
    /// assert!(Regex::literal(b"if").is_word());
    /// assert!(!Regex::class(b'a', b'z').plus().is_word());
    /// assert!(!Regex::literal(b"if").or(Regex::literal(b"if")).is_word());
    /// ```
    pub fn is_word(&self) -> bool {
        match self {
            Regex::Empty => true,
            Regex::Class { low, high } => low == high,
            Regex::Sequence(left, right) => left.is_word() && right.is_word(),
            Regex::Alternative(..) | Regex::Star(_) => false,
        }
    }
}

/// Joins parts so that each contains the rest on its right.
pub(super) fn nest<T>(parts: impl IntoIterator<Item = T>, join: impl Fn(T, T) -> T) -> Option<T> {
    let parts: Vec<T> = parts.into_iter().collect();
    parts
        .into_iter()
        .rev()
        .reduce(|rest, part| join(part, rest))
}

impl fmt::Display for Regex {
    fn fmt(&self, formatter: &mut fmt::Formatter) -> fmt::Result {
        match self {
            Regex::Empty => formatter.write_str("ε"),
            Regex::Class { low, high } if low == high => {
                write!(formatter, "{}", low.escape_ascii())
            }
            Regex::Class { low, high } => {
                write!(
                    formatter,
                    "[{}-{}]",
                    low.escape_ascii(),
                    high.escape_ascii()
                )
            }
            Regex::Sequence(left, right) => write!(formatter, "({left} {right})"),
            Regex::Alternative(left, right) => write!(formatter, "({left} | {right})"),
            Regex::Star(part) => write!(formatter, "{part}*"),
        }
    }
}
