//! Sheets: their parts, and questions 3 to 6.

use crate::number::{Field, Reader};
use crate::Refusal;

/// The most tokens of a sheet.
pub const TOKEN_LIMIT: u64 = 24;
/// The most rules of a sheet.
pub const RULE_LIMIT: u64 = 32;
/// The most byte classes over all rules.
pub const CLASS_LIMIT: usize = 64;
/// The most regex nodes over all rules.
pub const REGEX_NODE_LIMIT: usize = 256;
/// The most expression nodes.
pub const NODE_LIMIT: usize = 64;

/// A sheet that passed questions 3 to 6.
#[derive(Clone, Debug)]
pub struct Sheet {
    /// How many tokens there are.
    pub tokens: u64,
    /// The lexer rules.
    pub rules: Vec<Rule>,
    /// The nodes of the expression, in sheet order; the first is the start.
    pub nodes: Vec<Node>,
}

/// A lexer rule.
#[derive(Clone, Debug)]
pub struct Rule {
    /// The place of its action.
    pub place: usize,
    /// The token that it returns; a rule that returns none skips.
    pub token: Option<u64>,
    /// The words that it matches.
    pub regex: Regex,
}

/// A regex.
#[derive(Clone, Debug)]
pub enum Regex {
    /// The empty word.
    Empty,
    /// One byte from `low` to `high`, both included.
    Class {
        /// The lowest byte.
        low: u8,
        /// The highest byte.
        high: u8,
    },
    /// A word of the first part, then one of the second.
    Sequence(Box<Regex>, Box<Regex>),
    /// A word of either part.
    Alternative(Box<Regex>, Box<Regex>),
    /// Any number of words of the part in a row.
    Star(Box<Regex>),
}

impl Regex {
    /// Whether a rule with this regex is a word rule: it has only empty words, sequences and classes with
    /// low = high. What an alternative or a star matches plays no part.
    pub fn is_word(&self) -> bool {
        match self {
            Regex::Empty => true,
            Regex::Class { low, high } => low == high,
            Regex::Sequence(left, right) => left.is_word() && right.is_word(),
            Regex::Alternative(..) | Regex::Star(_) => false,
        }
    }
}

/// A node of the expression.
#[derive(Clone, Debug)]
pub struct Node {
    /// The place of its tag.
    pub place: usize,
    /// What it is.
    pub kind: Kind,
}

/// What a node is; other nodes are named by their index in sheet order.
#[derive(Clone, Copy, Debug, PartialEq, Eq)]
pub enum Kind {
    /// The empty token sequence alone.
    Epsilon,
    /// No token sequence.
    Bottom,
    /// One token.
    Token(u64),
    /// A sequence of the first part, then one of the second.
    Sequence(usize, usize),
    /// A sequence of either part.
    Alternative(usize, usize),
    /// The fixed point of its body.
    Fix(usize),
    /// A variable, with its fixed point.
    Variable(usize),
    /// Any number of sequences of the part in a row.
    Repetition(usize),
}

impl Sheet {
    /// Questions 3 to 6.
    ///
    /// # Errors
    ///
    /// The first question that is answered with no.
    pub fn read(bytes: &[u8]) -> Result<Sheet, Refusal> {
        let mut parser = Parser {
            numbers: Reader::new(bytes),
            tokens: 0,
            classes: 0,
            regex_nodes: 0,
            nodes: Vec::new(),
        };
        parser.number(|value| value == 1)?;
        parser.tokens = parser
            .number(|value| (1..=TOKEN_LIMIT).contains(&value))?
            .value;
        let tokens = parser.tokens;
        let rule_count = parser
            .number(|value| (1..=RULE_LIMIT).contains(&value))?
            .value;
        let mut rules = Vec::new();
        for _ in 0..rule_count {
            let action = parser.number(|value| value <= tokens)?;
            rules.push(Rule {
                place: action.place,
                token: action.value.checked_sub(1),
                regex: parser.regex()?,
            });
        }
        parser.expression(&mut Vec::new())?;
        if !parser.numbers.at_end() {
            return Err(Refusal {
                number: 6,
                place: parser.numbers.place(),
            });
        }
        Ok(Sheet {
            tokens,
            rules,
            nodes: parser.nodes,
        })
    }
}

struct Parser<'a> {
    numbers: Reader<'a>,
    tokens: u64,
    classes: usize,
    regex_nodes: usize,
    nodes: Vec<Node>,
}

impl Parser<'_> {
    /// The next number: questions 3 and 4. It may be padded.
    fn number(&mut self, allowed: impl Fn(u64) -> bool) -> Result<Field, Refusal> {
        let field = self
            .numbers
            .read()
            .map_err(|place| Refusal { number: 3, place })?;
        if !allowed(field.value) {
            return Err(Refusal {
                number: 4,
                place: field.place,
            });
        }
        Ok(field)
    }

    fn regex(&mut self) -> Result<Regex, Refusal> {
        let tag = self.number(|value| value <= 4)?;
        self.regex_nodes += 1;
        if tag.value == 1 {
            self.classes += 1;
        }
        if self.regex_nodes > REGEX_NODE_LIMIT || self.classes > CLASS_LIMIT {
            return Err(Refusal {
                number: 5,
                place: tag.place,
            });
        }
        Ok(match tag.value {
            0 => Regex::Empty,
            1 => {
                let low = self.number(|value| value <= 255)?.value;
                let high = self.number(|value| (low..=255).contains(&value))?.value;
                Regex::Class {
                    low: low as u8,
                    high: high as u8,
                }
            }
            2 => {
                let left = self.regex()?;
                Regex::Sequence(Box::new(left), Box::new(self.regex()?))
            }
            3 => {
                let left = self.regex()?;
                Regex::Alternative(Box::new(left), Box::new(self.regex()?))
            }
            _ => Regex::Star(Box::new(self.regex()?)),
        })
    }

    /// Reads one tag of the expression, adds its node, and gives both.
    fn expression_tag(&mut self) -> Result<(u64, usize), Refusal> {
        let tag = self.number(|value| value <= 7)?;
        let node = self.nodes.len();
        if node == NODE_LIMIT {
            return Err(Refusal {
                number: 5,
                place: tag.place,
            });
        }
        // The kind is put in once the node's parts are read.
        self.nodes.push(Node {
            place: tag.place,
            kind: Kind::Bottom,
        });
        Ok((tag.value, node))
    }

    /// Reads one expression and gives the index of its first node; `open` has the open fixed points,
    /// the innermost last.
    fn expression(&mut self, open: &mut Vec<usize>) -> Result<usize, Refusal> {
        let (tag, node) = self.expression_tag()?;
        let tokens = self.tokens;
        let kind = match tag {
            0 => Kind::Epsilon,
            1 => Kind::Bottom,
            2 => Kind::Token(self.number(|value| value < tokens)?.value),
            3 => {
                let left = self.expression(open)?;
                Kind::Sequence(left, self.expression(open)?)
            }
            4 => {
                let left = self.expression(open)?;
                Kind::Alternative(left, self.expression(open)?)
            }
            5 => {
                open.push(node);
                let body = self.expression(open)?;
                open.pop();
                Kind::Fix(body)
            }
            6 => {
                let between = self.number(|value| value < open.len() as u64)?.value;
                Kind::Variable(open[open.len() - 1 - between as usize])
            }
            // A repetition is no fixed point in a variable's count: the open ones stay as they are.
            _ => Kind::Repetition(self.expression(open)?),
        };
        self.nodes[node].kind = kind;
        Ok(node)
    }
}
