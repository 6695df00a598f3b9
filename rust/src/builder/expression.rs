//! Expressions.

use super::regex::nest;
use std::fmt;
use std::sync::atomic::{AtomicU64, Ordering};

/// A token of a [`SheetBuilder`](super::SheetBuilder), named by its number.
#[derive(Clone, Copy, Debug, PartialEq, Eq, Hash)]
pub struct Token(pub(super) usize);

impl Token {
    /// The token's number.
    pub fn number(self) -> usize {
        self.0
    }

    /// This token, then `next`.
    pub fn then(self, next: impl Into<Expression>) -> Expression {
        Expression::from(self).then(next)
    }

    /// This token or `other`.
    pub fn or(self, other: impl Into<Expression>) -> Expression {
        Expression::from(self).or(other)
    }

    /// Any number of times this token.
    pub fn star(self) -> Expression {
        Expression::from(self).star()
    }

    /// One or more times this token.
    pub fn plus(self) -> Expression {
        Expression::from(self).plus()
    }

    /// This token or ε.
    pub fn optional(self) -> Expression {
        Expression::from(self).optional()
    }
}

/// A variable.
#[derive(Clone, Debug, PartialEq, Eq, Hash)]
pub struct Variable(Name);

#[derive(Clone, Debug, PartialEq, Eq, Hash)]
enum Name {
    Given(String),
    Made(u64),
}

impl Variable {
    /// A variable that no other is equal to.
    fn fresh() -> Variable {
        static NEXT: AtomicU64 = AtomicU64::new(0);
        Variable(Name::Made(NEXT.fetch_add(1, Ordering::Relaxed)))
    }

    /// The name that was given to it, if any.
    pub fn name(&self) -> Option<&str> {
        match &self.0 {
            Name::Given(name) => Some(name),
            Name::Made(_) => None,
        }
    }
}

impl From<&str> for Variable {
    fn from(name: &str) -> Variable {
        Variable(Name::Given(name.to_owned()))
    }
}

impl fmt::Display for Variable {
    fn fmt(&self, formatter: &mut fmt::Formatter) -> fmt::Result {
        formatter.write_str(self.name().unwrap_or("of a closure"))
    }
}

/// An expression.
#[derive(Clone, Debug)]
pub enum Expression {
    /// The empty token sequence alone.
    Epsilon,
    /// No token sequence.
    Bottom,
    /// One token.
    Token(Token),
    /// A sequence of the first part, then one of the second.
    Sequence(Box<Expression>, Box<Expression>),
    /// A sequence of either part.
    Alternative(Box<Expression>, Box<Expression>),
    /// The fixed point of its body.
    Fix(Variable, Box<Expression>),
    /// A variable.
    Variable(Variable),
    /// Any number of sequences of the part in a row.
    Repetition(Box<Expression>),
    /// An expression with a label for [`Sheet::locate`](super::Sheet::locate); nothing is written for it.
    Labelled(String, Box<Expression>),
}

impl From<Token> for Expression {
    fn from(token: Token) -> Expression {
        Expression::Token(token)
    }
}

impl Expression {
    /// The empty token sequence alone.
    pub fn epsilon() -> Expression {
        Expression::Epsilon
    }

    /// No token sequence: what an author leaves where a branch is still to come.
    ///
    /// A sequence with a part that denotes nothing denotes nothing, and so does a fixed point that
    /// never ends, such as μx.a·x. A branch that denotes nothing is never entered: it takes no
    /// token, and what stands before ⊥ in it may be what another branch begins with. Its parts are
    /// still checked: ε·⊥ is refused with 9.
    #[cfg_attr(vinzagew_library, doc = "```")]
    #[cfg_attr(not(vinzagew_library), doc = "```no_run")]
    /// use vinzagew::builder::{Expression, Regex, SheetBuilder};
    ///
    /// let mut builder = SheetBuilder::new();
    /// let number = builder.token("number");
    /// builder.rule(number, Regex::class(b'0', b'9').plus());
    /// builder.skip(Regex::byte(b' '));
    /// let unfinished = number.then(Expression::bottom());
    /// let sheet = builder.finish(unfinished.or(number))?;
    ///
    /// let image = vinzagew::write(sheet.as_bytes())?;
    /// assert_eq!(image.run(b"12"), Ok(1));
    /// let refusal = image.run(b"12 7").unwrap_err();
    /// assert_eq!((refusal.number, refusal.place), (15, 3));
    /// # Ok::<(), Box<dyn std::error::Error>>(())
    /// ```
    pub fn bottom() -> Expression {
        Expression::Bottom
    }

    /// One token.
    pub fn token(token: Token) -> Expression {
        Expression::Token(token)
    }

    /// The fixed point of what the closure makes of the variable.
    ///
    /// ```
    /// # use vinzagew::builder::{Expression, Regex, SheetBuilder};
    /// # let mut builder = SheetBuilder::new();
    /// # let a = builder.token("a");
    /// # builder.rule(a, Regex::byte(b'a'));
    /// let many = Expression::fix(|many| Expression::epsilon().or(a.then(many)));
    /// let same = Expression::fix_named("many", {
    ///     Expression::epsilon().or(a.then(Expression::variable("many")))
    /// });
    /// let bytes = |expression| builder.clone().finish(expression).unwrap().to_bytes();
    /// assert_eq!(bytes(many), bytes(same));
    /// ```
    pub fn fix(body: impl FnOnce(Expression) -> Expression) -> Expression {
        let variable = Variable::fresh();
        let body = body(Expression::Variable(variable.clone()));
        Expression::Fix(variable, Box::new(body))
    }

    /// The fixed point of a body that has the variable of this name.
    ///
    /// Of several open fixed points with one name, the innermost counts.
    pub fn fix_named(name: &str, body: impl Into<Expression>) -> Expression {
        Expression::Fix(name.into(), Box::new(body.into()))
    }

    /// The variable of the innermost open fixed point with this name.
    pub fn variable(name: &str) -> Expression {
        Expression::Variable(name.into())
    }

    /// All parts in a row, each with the rest on its right; no part gives ε.
    pub fn sequence(parts: impl IntoIterator<Item = Expression>) -> Expression {
        nest(parts, Expression::then).unwrap_or(Expression::Epsilon)
    }

    /// Any of the parts; no part gives ⊥.
    pub fn alternative(parts: impl IntoIterator<Item = Expression>) -> Expression {
        nest(parts, Expression::or).unwrap_or(Expression::Bottom)
    }

    /// This, then `next`.
    pub fn then(self, next: impl Into<Expression>) -> Expression {
        Expression::Sequence(Box::new(self), Box::new(next.into()))
    }

    /// This or `other`.
    pub fn or(self, other: impl Into<Expression>) -> Expression {
        Expression::Alternative(Box::new(self), Box::new(other.into()))
    }

    /// Any number of times this, as a repetition. It means μx.(ε ∨ this·x), but it is one node, and
    /// variables count past it.
    ///
    /// This must be separable from itself: it must not be nullable, and no token that may follow its last
    /// token may begin it. Checking refuses any other with 9 at the repetition.
    ///
    /// ```
    /// # use vinzagew::builder::{Regex, SheetBuilder};
    /// let mut builder = SheetBuilder::new();
    /// let a = builder.token("a");
    /// builder.rule(a, Regex::byte(b'a'));
    /// let sheet = builder.finish(a.star())?;
    /// assert!(sheet.as_bytes().ends_with(&[7, 2, 0]));
    /// # Ok::<(), vinzagew::builder::UnboundVariable>(())
    /// ```
    pub fn star(self) -> Expression {
        Expression::Repetition(Box::new(self))
    }

    /// One or more times this: this, then its star, this·(this)*. Its nodes count twice.
    pub fn plus(self) -> Expression {
        self.clone().then(self.star())
    }

    /// This or ε.
    pub fn optional(self) -> Expression {
        Expression::Epsilon.or(self)
    }

    /// Gives the expression a label for [`Sheet::locate`](super::Sheet::locate).
    pub fn label(self, label: impl Into<String>) -> Expression {
        Expression::Labelled(label.into(), Box::new(self))
    }
}
