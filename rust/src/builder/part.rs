//! The numbers of a sheet, and the way back from a place to the part that was written there.

use super::{Expression, Regex, Sheet, UnboundVariable, Variable};
use crate::number;
use std::fmt;

/// A part of a sheet.
#[derive(Clone, Debug)]
pub struct Part<'a> {
    /// The place of the number's first byte.
    pub place: usize,
    /// What the number belongs to.
    pub kind: PartKind<'a>,
    words: String,
}

/// What a number of a sheet belongs to.
#[derive(Clone, Copy, Debug)]
pub enum PartKind<'a> {
    /// The version.
    Version,
    /// The token count.
    TokenCount,
    /// The rule count.
    RuleCount,
    /// The action of a rule, which also stands for the whole rule.
    Action {
        /// The rule.
        rule: usize,
    },
    /// A regex.
    Regex {
        /// The rule.
        rule: usize,
        /// The number of the regex node in prefix order, from the rule's own 0 on.
        node: usize,
        /// Which of the node's numbers this is.
        field: Field,
        /// The regex.
        regex: &'a Regex,
    },
    /// An expression.
    Expression {
        /// The number of the expression node in prefix order.
        node: usize,
        /// Which of the node's numbers this is.
        field: Field,
        /// The expression.
        expression: &'a Expression,
        /// The innermost label around it.
        label: Option<&'a str>,
    },
    /// The place after the last byte, or a later one.
    End,
}

/// Which of a node's numbers is meant.
#[derive(Clone, Copy, Debug, PartialEq, Eq)]
pub enum Field {
    /// The node's tag, which also stands for the whole node.
    Tag,
    /// The low byte of a class.
    Low,
    /// The high byte of a class.
    High,
    /// The number of a token.
    Token,
    /// How many open fixed points lie between a variable and its own.
    Variable,
}

impl fmt::Display for Part<'_> {
    fn fmt(&self, formatter: &mut fmt::Formatter) -> fmt::Result {
        formatter.write_str(&self.words)
    }
}

/// The numbers of a sheet, each with what it belongs to.
pub(super) struct Numbers<'a> {
    list: Vec<(u64, PartKind<'a>)>,
    /// As in [`Sheet`].
    pub(super) binders: Vec<usize>,
}

/// The numbers of a sheet.
pub(super) fn numbers(sheet: &Sheet) -> Result<Numbers<'_>, UnboundVariable> {
    let mut numbers = Numbers {
        list: Vec::new(),
        binders: Vec::new(),
    };
    numbers.push(1, PartKind::Version);
    numbers.push(sheet.tokens.len() as u64, PartKind::TokenCount);
    numbers.push(sheet.rules.len() as u64, PartKind::RuleCount);
    for (index, rule) in sheet.rules.iter().enumerate() {
        let action = rule.token.map_or(0, |token| token.0 as u64 + 1);
        numbers.push(action, PartKind::Action { rule: index });
        numbers.regex(&rule.regex, index, &mut 0);
    }
    numbers.expression(&sheet.expression, None, &mut Vec::new())?;
    Ok(numbers)
}

impl<'a> Numbers<'a> {
    fn push(&mut self, value: u64, kind: PartKind<'a>) {
        self.list.push((value, kind));
    }

    fn regex(&mut self, regex: &'a Regex, rule: usize, next: &mut usize) {
        let node = *next;
        *next += 1;
        let kind = |field| PartKind::Regex {
            rule,
            node,
            field,
            regex,
        };
        match regex {
            Regex::Empty => self.push(0, kind(Field::Tag)),
            Regex::Class { low, high } => {
                self.push(1, kind(Field::Tag));
                self.push(u64::from(*low), kind(Field::Low));
                self.push(u64::from(*high), kind(Field::High));
            }
            Regex::Sequence(left, right) => {
                self.push(2, kind(Field::Tag));
                self.regex(left, rule, next);
                self.regex(right, rule, next);
            }
            Regex::Alternative(left, right) => {
                self.push(3, kind(Field::Tag));
                self.regex(left, rule, next);
                self.regex(right, rule, next);
            }
            Regex::Star(part) => {
                self.push(4, kind(Field::Tag));
                self.regex(part, rule, next);
            }
        }
    }

    /// `open` has the open fixed points with their variables, the innermost last.
    fn expression(
        &mut self,
        expression: &'a Expression,
        label: Option<&'a str>,
        open: &mut Vec<(&'a Variable, usize)>,
    ) -> Result<(), UnboundVariable> {
        if let Expression::Labelled(label, part) = expression {
            return self.expression(part, Some(label), open);
        }
        let node = self.binders.len();
        self.binders.push(node);
        let kind = |field| PartKind::Expression {
            node,
            field,
            expression,
            label,
        };
        self.push(expression_tag(expression), kind(Field::Tag));
        match expression {
            Expression::Epsilon | Expression::Bottom => {}
            Expression::Token(token) => self.push(token.0 as u64, kind(Field::Token)),
            Expression::Sequence(left, right) | Expression::Alternative(left, right) => {
                self.expression(left, label, open)?;
                self.expression(right, label, open)?;
            }
            Expression::Fix(variable, body) => {
                open.push((variable, node));
                self.expression(body, label, open)?;
                open.pop();
            }
            Expression::Variable(variable) => {
                let (between, fix) = binder(variable, open)?;
                self.binders[node] = fix;
                self.push(between as u64, kind(Field::Variable));
            }
            // A repetition is no fixed point in a variable's count.
            Expression::Repetition(part) => self.expression(part, label, open)?,
            Expression::Labelled(..) => unreachable!("taken off above"),
        }
        Ok(())
    }

    /// The bytes of the numbers, each in at least so many bytes.
    pub(super) fn bytes(&self, width: usize) -> Vec<u8> {
        let mut bytes = Vec::new();
        for (value, _) in &self.list {
            let start = bytes.len();
            bytes.resize(start + own_width(*value, width), 0);
            number::fill(&mut bytes[start..], *value);
        }
        bytes
    }

    /// The place and the kind of each number's part, if each has at least so many bytes.
    fn places(self, width: usize) -> impl Iterator<Item = (usize, PartKind<'a>)> {
        let mut next = 0;
        self.list.into_iter().map(move |(value, kind)| {
            let place = next;
            next += own_width(value, width);
            (place, kind)
        })
    }
}

/// How many bytes a number has in a sheet where each has at least so many.
fn own_width(value: u64, width: usize) -> usize {
    number::fewest_bytes(value).max(width)
}

/// How many open fixed points lie between a variable and its own, and the node of its own.
fn binder(
    variable: &Variable,
    open: &[(&Variable, usize)],
) -> Result<(usize, usize), UnboundVariable> {
    let mut inner_first = open.iter().rev().enumerate();
    match inner_first.find(|(_, (other, _))| *other == variable) {
        Some((between, (_, fix))) => Ok((between, *fix)),
        None => Err(UnboundVariable {
            variable: variable.clone(),
        }),
    }
}

/// The tag of an expression that is not a label.
fn expression_tag(expression: &Expression) -> u64 {
    match expression {
        Expression::Epsilon => 0,
        Expression::Bottom => 1,
        Expression::Token(_) => 2,
        Expression::Sequence(..) => 3,
        Expression::Alternative(..) => 4,
        Expression::Fix(..) => 5,
        Expression::Variable(_) => 6,
        Expression::Repetition(_) => 7,
        Expression::Labelled(..) => unreachable!("nothing is written for a label"),
    }
}

/// The part whose number stands at a place.
pub(super) fn locate(sheet: &Sheet, place: usize) -> Part<'_> {
    let end = (sheet.bytes.len(), PartKind::End);
    let places = sheet.numbers().places(sheet.width).chain([end]);
    let found = places.take_while(|(start, _)| *start <= place).last();
    named(sheet, found.expect("the first number starts at place 0"))
}

/// The parts of a sheet in order, one for each number.
pub(super) fn parts(sheet: &Sheet) -> Vec<Part<'_>> {
    let places = sheet.numbers().places(sheet.width);
    places.map(|found| named(sheet, found)).collect()
}

/// The part of this kind at a place.
fn named<'a>(sheet: &Sheet, (place, kind): (usize, PartKind<'a>)) -> Part<'a> {
    Part {
        place,
        kind,
        words: words(sheet, kind),
    }
}

fn words(sheet: &Sheet, kind: PartKind) -> String {
    match kind {
        PartKind::Version => "version".to_owned(),
        PartKind::TokenCount => "token count".to_owned(),
        PartKind::RuleCount => "rule count".to_owned(),
        PartKind::Action { rule } => format!("action of {}", rule_words(sheet, rule)),
        PartKind::Regex {
            rule,
            node,
            field,
            regex,
        } => {
            let rule = rule_words(sheet, rule);
            format!("{}regex node {node} of {rule}: {regex}", field.words())
        }
        PartKind::Expression {
            node,
            field,
            expression,
            label,
        } => {
            let label = label.map_or(String::new(), |label| format!(" in {label}"));
            let shown = Shown { sheet, node }.show(expression);
            format!("{}expression node {node}{label}: {shown}", field.words())
        }
        PartKind::End => "end of the sheet".to_owned(),
    }
}

fn rule_words(sheet: &Sheet, rule: usize) -> String {
    match sheet.rules[rule].token {
        Some(token) => format!("rule {rule} (returns {})", sheet.token_name(token)),
        None => format!("rule {rule} (skips)"),
    }
}

impl Field {
    fn words(self) -> &'static str {
        match self {
            Field::Tag => "",
            Field::Low => "low byte of ",
            Field::High => "high byte of ",
            Field::Token => "token of ",
            Field::Variable => "number of ",
        }
    }
}

/// Writes an expression for people; `node` is the number of its next node. A fixed point of a closure
/// is named after its node.
struct Shown<'a> {
    sheet: &'a Sheet,
    node: usize,
}

impl Shown<'_> {
    fn show(&mut self, expression: &Expression) -> String {
        if let Expression::Labelled(_, part) = expression {
            return self.show(part);
        }
        let node = self.node;
        self.node += 1;
        let name = |variable: &Variable| match variable.name() {
            Some(name) => name.to_owned(),
            None => format!("x{}", self.sheet.binders[node]),
        };
        match expression {
            Expression::Epsilon => "ε".to_owned(),
            Expression::Bottom => "⊥".to_owned(),
            Expression::Token(token) => self.sheet.token_name(*token),
            Expression::Variable(variable) => name(variable),
            Expression::Sequence(left, right) => {
                let left = self.show(left);
                format!("({left}·{})", self.show(right))
            }
            Expression::Alternative(left, right) => {
                let left = self.show(left);
                format!("({left} ∨ {})", self.show(right))
            }
            Expression::Fix(variable, body) => {
                let name = name(variable);
                format!("μ{name}.{}", self.show(body))
            }
            Expression::Repetition(part) => {
                let shown = self.show(part);
                if has_brackets(part) {
                    format!("{shown}*")
                } else {
                    format!("({shown})*")
                }
            }
            Expression::Labelled(..) => unreachable!("taken off above"),
        }
    }
}

/// Whether an expression is shown with brackets around it.
fn has_brackets(expression: &Expression) -> bool {
    match expression {
        Expression::Sequence(..) | Expression::Alternative(..) => true,
        Expression::Labelled(_, part) => has_brackets(part),
        _ => false,
    }
}
