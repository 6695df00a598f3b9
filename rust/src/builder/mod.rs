//! Writes sheets as Rust code.
//!
//! A [`SheetBuilder`] takes tokens and rules and, at the end, one expression; a [`Sheet`] then has the
//! bytes for [`check`](crate::check) and [`write`](crate::write()). The builder computes the numbers of
//! variables, and it leads from the place of a refusal back to the part that was written there: see
//! [`Sheet::locate`].
//!
//! The builder refuses only what cannot be written down: a variable outside its fixed point, and a
//! width that no number has. Limits, value ranges and types are the business of checking. Where a
//! branch is still to come, [`Expression::bottom`] stands for it.
//!
//! The longest match wins. Of two rules that match equally far, a word rule ([`Regex::is_word`]) wins over any
//! other, and of two of a kind the one that was added first. So a name pattern may stand above a fixed word.
//! Rules are numbered from 0 in the order in which they were added; the image has an order of its own, which
//! [`Sheet::image_rules`] gives.
//!
//! Numbers are written with the fewest bytes. [`Sheet::padded`] gives them room for larger ones, which
//! [`patch`](crate::patch()) writes into a stored sheet.
//!
//! ```
//! use vinzagew::builder::{Regex, SheetBuilder};
//!
//! let mut builder = SheetBuilder::new();
//! let number = builder.token("N");
//! let slash = builder.token("S");
//! builder.rule(number, Regex::class(b'0', b'9').plus());
//! builder.rule(slash, Regex::byte(b'/'));
//! builder.skip(Regex::byte(b' '));
//! let sheet = builder.finish(number.then(slash.then(number).star()))?;
//! assert_eq!(
//!     sheet.to_bytes(),
//!     [
//!         1, 2, 3, 1, 2, 1, 48, 57, 4, 1, 48, 57, 2, 1, 47, 47, 0, 1, 32, 32, 3, 2, 0, 7, 3, 2, 1, 2,
//!         0,
//!     ]
//! );
//! assert_eq!(sheet.locate(20).to_string(), "expression node 0: (N·(S·N)*)");
//! assert_eq!(sheet.locate(12).to_string(), "action of rule 1 (returns S)");
//! # Ok::<(), vinzagew::builder::UnboundVariable>(())
//! ```

mod expression;
mod part;
mod regex;

pub use expression::{Expression, Token, Variable};
pub use part::{Field, Part, PartKind};
pub use regex::Regex;

use crate::WIDTH_LIMIT;
use std::error::Error;
use std::fmt;

/// A lexer rule.
#[derive(Clone, Debug)]
pub struct Rule {
    /// The token that it returns; a rule that returns none skips.
    pub token: Option<Token>,
    /// The words that it matches.
    pub regex: Regex,
}

/// Gathers tokens and rules.
#[derive(Clone, Debug, Default)]
pub struct SheetBuilder {
    tokens: Vec<String>,
    rules: Vec<Rule>,
}

impl SheetBuilder {
    /// A builder with no tokens and no rules.
    pub fn new() -> Self {
        SheetBuilder::default()
    }

    /// Adds a token. The name is for [`Sheet::locate`] alone.
    pub fn token(&mut self, name: impl Into<String>) -> Token {
        self.tokens.push(name.into());
        Token(self.tokens.len() - 1)
    }

    /// Adds a rule that returns a token, and gives its number.
    ///
    /// A token may have several rules or none.
    pub fn rule(&mut self, token: Token, regex: Regex) -> usize {
        self.push(Some(token), regex)
    }

    /// Adds a rule that skips, and gives its number.
    pub fn skip(&mut self, regex: Regex) -> usize {
        self.push(None, regex)
    }

    fn push(&mut self, token: Option<Token>, regex: Regex) -> usize {
        self.rules.push(Rule { token, regex });
        self.rules.len() - 1
    }

    /// Takes the expression and makes the sheet.
    ///
    /// # Errors
    ///
    /// A variable that stands outside its fixed point.
    pub fn finish(self, expression: impl Into<Expression>) -> Result<Sheet, UnboundVariable> {
        let mut sheet = Sheet {
            tokens: self.tokens,
            rules: self.rules,
            expression: expression.into(),
            binders: Vec::new(),
            width: 1,
            bytes: Vec::new(),
        };
        let numbers = part::numbers(&sheet)?;
        let bytes = numbers.bytes(sheet.width);
        sheet.binders = numbers.binders;
        sheet.bytes = bytes;
        Ok(sheet)
    }
}

/// A sheet: tokens, rules and one expression.
#[derive(Clone, Debug)]
pub struct Sheet {
    tokens: Vec<String>,
    rules: Vec<Rule>,
    expression: Expression,
    /// For each expression node that is a variable, the node of its fixed point; for others, itself.
    binders: Vec<usize>,
    /// How many bytes each number has at least.
    width: usize,
    bytes: Vec<u8>,
}

impl Sheet {
    /// The same sheet with each number padded to `width` bytes, whatever it was padded to before.
    ///
    /// The width is the least that a number has: one that needs more keeps its fewest bytes, so 1 takes all
    /// padding off. Every number of a sheet that passes needs one byte or two.
    ///
    /// A padded sheet is judged as before and has the same image, as long as it keeps
    /// [`SHEET_LIMIT`](crate::SHEET_LIMIT); no sheet that passes and is padded to 7 bytes or less is
    /// longer. Places, as those of refusals and of [`Sheet::locate`], count the bytes of the padded sheet.
    ///
    /// # Errors
    ///
    /// A width of 0 or of more than [`WIDTH_LIMIT`].
    ///
    /// ```
    /// # use vinzagew::builder::{Regex, SheetBuilder};
    /// let mut builder = SheetBuilder::new();
    /// let a = builder.token("a");
    /// builder.rule(a, Regex::byte(b'a'));
    /// let sheet = builder.finish(a)?;
    /// assert_eq!(sheet.as_bytes(), [1, 1, 1, 1, 1, 97, 97, 2, 0]);
    /// assert_eq!(sheet.locate(7).to_string(), "expression node 0: a");
    ///
    /// let sheet = sheet.padded(2)?;
    /// assert_eq!(sheet.as_bytes()[..4], [0x81, 0, 0x81, 0]);
    /// assert_eq!(sheet.locate(14).to_string(), "expression node 0: a");
    /// # Ok::<(), Box<dyn std::error::Error>>(())
    /// ```
    pub fn padded(mut self, width: usize) -> Result<Sheet, WidthOutOfRange> {
        if !(1..=WIDTH_LIMIT).contains(&width) {
            return Err(WidthOutOfRange { width });
        }
        self.bytes = self.numbers().bytes(width);
        self.width = width;
        Ok(self)
    }

    /// The bytes of the sheet.
    pub fn to_bytes(&self) -> Vec<u8> {
        self.bytes.clone()
    }

    /// The bytes of the sheet, without a copy.
    pub fn as_bytes(&self) -> &[u8] {
        &self.bytes
    }

    /// The names of the tokens.
    pub fn tokens(&self) -> &[String] {
        &self.tokens
    }

    /// The rules.
    pub fn rules(&self) -> &[Rule] {
        &self.rules
    }

    /// The rules in the order in which the image numbers them: the word rules, then all others, each kind in
    /// the order of the sheet. At place k is the number that rule k of the image has here.
    ///
    /// Only the bytes of an image have these numbers. [`Sheet::locate`] speaks of the sheet's own.
    ///
    /// ```
    /// # use vinzagew::builder::{Regex, SheetBuilder};
    /// let mut builder = SheetBuilder::new();
    /// let name = builder.token("name");
    /// let word = builder.token("if");
    /// assert_eq!(builder.rule(name, Regex::class(b'a', b'z').plus()), 0);
    /// assert_eq!(builder.rule(word, Regex::literal(b"if")), 1);
    /// assert_eq!(builder.skip(Regex::byte(b' ')), 2);
    /// let sheet = builder.finish(word.then(name))?;
    /// assert_eq!(sheet.image_rules(), [1, 2, 0]);
    /// # Ok::<(), vinzagew::builder::UnboundVariable>(())
    /// ```
    pub fn image_rules(&self) -> Vec<usize> {
        let mut rules: Vec<usize> = (0..self.rules.len()).collect();
        // This sort keeps the order of rules of a kind.
        rules.sort_by_key(|&rule| !self.rules[rule].regex.is_word());
        rules
    }

    /// The expression.
    pub fn expression(&self) -> &Expression {
        &self.expression
    }

    /// The part of the sheet whose number stands at a place, such as a refusal's.
    pub fn locate(&self, place: usize) -> Part<'_> {
        part::locate(self, place)
    }

    /// The parts of the sheet in order, one for each number; [`patch`](crate::patch()) needs their places.
    pub fn parts(&self) -> Vec<Part<'_>> {
        part::parts(self)
    }

    fn numbers(&self) -> part::Numbers<'_> {
        part::numbers(self).expect("the variables were looked up when the sheet was made")
    }

    /// The name of a token, or its number if it has no name here.
    fn token_name(&self, token: Token) -> String {
        match self.tokens.get(token.0) {
            Some(name) => name.clone(),
            None => format!("token {}", token.0),
        }
    }
}

/// A variable that stands outside its fixed point.
#[derive(Clone, Debug, PartialEq, Eq)]
pub struct UnboundVariable {
    /// The variable.
    pub variable: Variable,
}

impl fmt::Display for UnboundVariable {
    fn fmt(&self, formatter: &mut fmt::Formatter) -> fmt::Result {
        write!(
            formatter,
            "the variable {} stands outside its fixed point",
            self.variable
        )
    }
}

impl Error for UnboundVariable {}

/// A width that no number has: 0, or more than [`WIDTH_LIMIT`].
#[derive(Clone, Copy, Debug, PartialEq, Eq)]
pub struct WidthOutOfRange {
    /// The width.
    pub width: usize,
}

impl fmt::Display for WidthOutOfRange {
    fn fmt(&self, formatter: &mut fmt::Formatter) -> fmt::Result {
        write!(
            formatter,
            "a number has 1 to {WIDTH_LIMIT} bytes, not {}",
            self.width
        )
    }
}

impl Error for WidthOutOfRange {}
