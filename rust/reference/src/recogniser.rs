//! The recogniser of Figure 6 of the typing paper, over a text's tokens: questions 12 and 20, then
//! 14, then 15 or 16 by a descent of the expression. No image is made and no normal form. Only the
//! longest match is the machine's walk, by the positions of the rules in the image's order.

use crate::image::{numbered, Image};
use crate::lexer::positions;
use crate::machine::{longest_match, Ran};
use crate::sheet::{Kind, Node, Sheet, NODE_LIMIT};
use crate::types::{least_types, Type};
use crate::{check, Refusal};
use std::thread;

/// The most bytes that a text for the recogniser may have.
pub const RECOGNISER_TEXT_LIMIT: usize = 2_048;

/// How a descent ends.
#[derive(Clone, Copy, Debug, PartialEq, Eq)]
pub enum Descent {
    /// The node has read its tokens; so many are left.
    Left(usize),
    /// The first of the tokens that are left, so many, may not come next; or more must come, if
    /// none is left.
    Stuck(usize),
}

/// The expression and the tokens that are descended.
struct Descending<'a> {
    nodes: &'a [Node],
    types: &'a [Type],
    tokens: &'a [u64],
}

impl Descending<'_> {
    /// The first of so many tokens that are left.
    fn next(&self, left: usize) -> Option<u64> {
        self.tokens[self.tokens.len() - left..].first().copied()
    }

    /// Figure 6, node by node.
    fn node(&self, node: usize, left: usize) -> Descent {
        match self.nodes[node].kind {
            Kind::Epsilon => Descent::Left(left),
            Kind::Bottom => Descent::Stuck(left),
            Kind::Token(token) if self.next(left) == Some(token) => Descent::Left(left - 1),
            Kind::Token(_) => Descent::Stuck(left),
            Kind::Sequence(first, second) => match self.node(first, left) {
                Descent::Left(left) => self.node(second, left),
                stuck => stuck,
            },
            Kind::Alternative(one, other) => self.alternative(one, other, left),
            Kind::Fix(other) | Kind::Variable(other) => self.node(other, left),
            Kind::Repetition(part) => self.repetition(part, left),
        }
    }

    /// The part that has the token in its first set; else the part that is nullable. At the end
    /// of the tokens neither is descended.
    fn alternative(&self, one: usize, other: usize, left: usize) -> Descent {
        let [first, second] = [one, other].map(|part| self.types[part]);
        match self.next(left) {
            Some(token) if first.begins_with(token) => self.node(one, left),
            Some(token) if second.begins_with(token) => self.node(other, left),
            Some(_) if first.nullable => self.node(one, left),
            Some(_) if second.nullable => self.node(other, left),
            None if first.nullable || second.nullable => Descent::Left(left),
            _ => Descent::Stuck(left),
        }
    }

    /// The part again and again, as long as it has the token in its first set.
    fn repetition(&self, part: usize, mut left: usize) -> Descent {
        let begins = |token| self.types[part].begins_with(token);
        while self.next(left).map_or(false, begins) {
            match self.node(part, left) {
                Descent::Left(after) => left = after,
                stuck => return stuck,
            }
        }
        Descent::Left(left)
    }
}

/// The processor's stack for a descent. Between two tokens it goes down by at most as many calls as
/// there are nodes.
const STACK_BYTES: usize = (RECOGNISER_TEXT_LIMIT + 1) * (NODE_LIMIT + 1) * 1_024;

/// Descends an expression that passed questions 8 to 10 over tokens, of which there are at most
/// 2,048. Of what the nodes denote only `types` is asked.
///
/// A node that denotes nothing has the type of the empty language and is not entered. For the whole
/// that is asked here. A part of an alternative or a repetition is entered only if its type has the
/// token or is nullable. A sequence that is entered has no such part.
pub fn descend(nodes: &[Node], types: &[Type], tokens: &[u64]) -> Descent {
    assert!(tokens.len() <= RECOGNISER_TEXT_LIMIT);
    if types[0] == Type::BOTTOM {
        return Descent::Stuck(tokens.len());
    }
    let descending = Descending {
        nodes,
        types,
        tokens,
    };
    thread::scope(|scope| {
        let builder = thread::Builder::new().stack_size(STACK_BYTES);
        let descent = builder.spawn_scoped(scope, || descending.node(0, tokens.len()));
        descent.expect("a thread").join().expect("it ends")
    })
}

/// The tokens of a text with their places, and the first place where no rule matches, if there is
/// one.
type Lexed = (Vec<(u64, usize)>, Option<usize>);

/// Reads a text by longest match alone, whatever the expression says.
pub fn lex(sheet: &Sheet, text: &[u8]) -> Lexed {
    let rules = numbered(sheet);
    let (positions, first) = positions(&rules);
    // The rules of an image, without nonterminals.
    let scanner = Image {
        skips: Vec::new(),
        positions,
        first,
        rows: Vec::new(),
    };
    let mut tokens = Vec::new();
    let mut place = 0;
    while place < text.len() {
        let (rule, length) = match longest_match(&scanner, &text[place..]) {
            Some(found) => found,
            None => return (tokens, Some(place)),
        };
        tokens.extend(rules[rule].token.map(|token| (token, place)));
        place += length;
    }
    (tokens, None)
}

/// Recognises a text by a sheet, with all effects on the work area and the list: the tokens stand
/// in its first entries, a byte each.
pub fn recognise(sheet: &[u8], text: &[u8], work: &mut [u8], list: &mut [u8]) -> Ran {
    let refused = |number, place| Ran {
        number,
        place,
        tokens: 0,
    };
    let sheet = match check(sheet, work) {
        Ok(sheet) => sheet,
        Err(Refusal { number, place }) => return refused(number, place),
    };
    if text.len() > RECOGNISER_TEXT_LIMIT {
        return refused(12, 0);
    }
    if list.len() < text.len() {
        return refused(20, 0);
    }
    let (found, unmatched) = lex(&sheet, text);
    for (entry, (token, _)) in list.iter_mut().zip(&found) {
        *entry = *token as u8;
    }
    let answer = |number, place| Ran {
        number,
        place,
        tokens: found.len(),
    };
    if let Some(place) = unmatched {
        return answer(14, place);
    }
    let tokens: Vec<u64> = found.iter().map(|(token, _)| *token).collect();
    match descend(&sheet.nodes, &least_types(&sheet.nodes), &tokens) {
        Descent::Left(0) => answer(0, text.len()),
        Descent::Stuck(0) => answer(16, text.len()),
        Descent::Left(left) | Descent::Stuck(left) => answer(15, found[found.len() - left].1),
    }
}

/// [`recognise`] with the results of the C interface: number, place and count in `out[0..3]`.
///
/// An `out` shorter than 3 is left untouched, and nothing else happens.
pub fn vinzagew_recognise(
    sheet: &[u8],
    text: &[u8],
    work: &mut [u8],
    list: &mut [u8],
    out: &mut [u64],
) {
    if let Some(out) = out.get_mut(..3) {
        let ran = recognise(sheet, text, work, list);
        out.copy_from_slice(&[ran.number, ran.place as u64, ran.tokens as u64]);
    }
}
