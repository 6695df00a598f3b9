//! The least types of all nodes, by Figure 2 of the typing paper, and questions 8 to 10.
//!
//! The flap paper's type of a sequence is here too. It is part of the other, and by itself it
//! decides nothing.

use crate::sheet::{Kind, Node};
use crate::Refusal;

/// A type; a set of tokens has bit k for token k.
#[derive(Clone, Copy, Debug, PartialEq, Eq)]
pub struct Type {
    /// Whether the empty sequence may be denoted.
    pub nullable: bool,
    /// The tokens that may begin a sequence.
    pub first: u32,
    /// The tokens that may follow the last token of a sequence.
    pub follow_last: u32,
}

/// How the type of a sequence is made of those of its parts.
pub type SequenceType = fn(Type, Type) -> Type;

impl Type {
    /// The type of the empty language.
    pub const BOTTOM: Type = Type {
        nullable: false,
        first: 0,
        follow_last: 0,
    };

    /// The type of ε.
    const EPSILON: Type = Type {
        nullable: true,
        ..Type::BOTTOM
    };

    /// Whether the token may begin a sequence.
    pub fn begins_with(self, token: u64) -> bool {
        self.first >> token & 1 == 1
    }

    fn only_if(condition: bool, set: u32) -> u32 {
        if condition {
            set
        } else {
            0
        }
    }

    /// The type of a sequence by the typing paper: if a part has the type of the empty language, so
    /// has the sequence.
    pub fn sequence(self, other: Type) -> Type {
        if self == Type::BOTTOM || other == Type::BOTTOM {
            Type::BOTTOM
        } else {
            self.flap_sequence(other)
        }
    }

    /// The type of a sequence by the flap paper, which makes no exception for a part that has the
    /// type of the empty language.
    pub fn flap_sequence(self, other: Type) -> Type {
        Type {
            nullable: self.nullable && other.nullable,
            first: self.first | Type::only_if(self.nullable, other.first),
            follow_last: other.follow_last
                | Type::only_if(other.nullable, other.first | self.follow_last),
        }
    }

    fn alternative(self, other: Type) -> Type {
        Type {
            nullable: self.nullable || other.nullable,
            first: self.first | other.first,
            follow_last: self.follow_last | other.follow_last,
        }
    }

    fn separable(self, other: Type) -> bool {
        self.follow_last & other.first == 0 && !self.nullable
    }

    fn apart(self, other: Type) -> bool {
        self.first & other.first == 0 && !(self.nullable && other.nullable)
    }
}

/// The least types that solve the equations of all nodes together.
pub fn least_types(nodes: &[Node]) -> Vec<Type> {
    least_types_by(nodes, Type::sequence)
}

/// The same, with sequences typed in this way.
pub fn least_types_by(nodes: &[Node], sequence: SequenceType) -> Vec<Type> {
    let mut types = vec![Type::BOTTOM; nodes.len()];
    loop {
        let next: Vec<Type> = nodes
            .iter()
            .enumerate()
            .map(|(index, node)| match node.kind {
                Kind::Epsilon => Type::EPSILON,
                Kind::Bottom => Type::BOTTOM,
                Kind::Token(token) => Type {
                    first: 1 << token,
                    ..Type::BOTTOM
                },
                Kind::Sequence(left, right) => sequence(types[left], types[right]),
                Kind::Alternative(left, right) => types[left].alternative(types[right]),
                Kind::Fix(other) | Kind::Variable(other) => types[other],
                // As μβ.(ε ∨ part·β), where β has the repetition's own type.
                Kind::Repetition(part) => {
                    Type::EPSILON.alternative(sequence(types[part], types[index]))
                }
            })
            .collect();
        if next == types {
            return types;
        }
        types = next;
    }
}

/// Questions 8 to 10, node by node in sheet order.
///
/// # Errors
///
/// The first question that is answered with no.
pub fn check(nodes: &[Node]) -> Result<(), Refusal> {
    check_by(nodes, Type::sequence)
}

/// The same, with sequences typed in this way.
///
/// # Errors
///
/// The first question that is answered with no.
pub fn check_by(nodes: &[Node], sequence: SequenceType) -> Result<(), Refusal> {
    check_node(nodes, &least_types_by(nodes, sequence), 0, 0, 0)
}

/// Checks a node under the two contexts of the flap paper's Figure 2, each a set of fixed points. A
/// node comes before its parts, and the left part before the right one: that is sheet order.
fn check_node(
    nodes: &[Node],
    types: &[Type],
    node: usize,
    gamma: u64,
    delta: u64,
) -> Result<(), Refusal> {
    let demand = |number, holds| {
        let place = nodes[node].place;
        if holds {
            Ok(())
        } else {
            Err(Refusal { number, place })
        }
    };
    match nodes[node].kind {
        Kind::Epsilon | Kind::Bottom | Kind::Token(_) => Ok(()),
        Kind::Variable(fix) => demand(8, gamma >> fix & 1 == 1),
        Kind::Sequence(left, right) => {
            demand(9, types[left].separable(types[right]))?;
            check_node(nodes, types, left, gamma, delta)?;
            check_node(nodes, types, right, gamma | delta, 0)
        }
        Kind::Alternative(left, right) => {
            demand(10, types[left].apart(types[right]))?;
            check_node(nodes, types, left, gamma, delta)?;
            check_node(nodes, types, right, gamma, delta)
        }
        Kind::Fix(body) => check_node(nodes, types, body, gamma, delta | 1 << node),
        // The part is the left part of the sequence in μβ.(ε ∨ part·β): both contexts stay.
        Kind::Repetition(part) => {
            demand(9, types[part].separable(types[part]))?;
            check_node(nodes, types, part, gamma, delta)
        }
    }
}
