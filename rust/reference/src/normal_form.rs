//! Figure 4 with the variables resolved: the productions of the expression's nodes.

use crate::sheet::{Kind, Node};

/// A production of a node.
#[derive(Clone, Debug, PartialEq, Eq)]
pub enum Production {
    /// The empty sequence.
    Epsilon,
    /// A token, then the nodes of the tail.
    Token(u64, Vec<usize>),
}

/// The productions of a node, for an expression that passed questions 8 to 10. The same token may
/// come several times, but at most one of them is in a branch that denotes something.
pub fn productions(nodes: &[Node], node: usize) -> Vec<Production> {
    match nodes[node].kind {
        Kind::Epsilon => vec![Production::Epsilon],
        Kind::Bottom => Vec::new(),
        Kind::Token(token) => vec![Production::Token(token, Vec::new())],
        Kind::Sequence(left, right) => followed_by(productions(nodes, left), right),
        Kind::Alternative(left, right) => {
            let mut both = productions(nodes, left);
            both.extend(productions(nodes, right));
            both
        }
        Kind::Fix(other) | Kind::Variable(other) => productions(nodes, other),
        Kind::Repetition(part) => {
            let mut row = vec![Production::Epsilon];
            row.extend(followed_by(productions(nodes, part), node));
            row
        }
    }
}

/// The productions with a node added at the end of each tail.
fn followed_by(mut productions: Vec<Production>, node: usize) -> Vec<Production> {
    for production in &mut productions {
        match production {
            Production::Token(_, tail) => tail.push(node),
            Production::Epsilon => {
                unreachable!("question 9 refuses a nullable left part and a nullable repeated part")
            }
        }
    }
    productions
}

/// For each node, whether it derives some token sequence.
pub fn derives_some(nodes: &[Node]) -> Vec<bool> {
    let mut derives_some = vec![false; nodes.len()];
    loop {
        let next: Vec<bool> = nodes
            .iter()
            .map(|node| match node.kind {
                // A repetition derives the empty sequence, whatever its part derives.
                Kind::Epsilon | Kind::Token(_) | Kind::Repetition(_) => true,
                Kind::Bottom => false,
                Kind::Sequence(left, right) => derives_some[left] && derives_some[right],
                Kind::Alternative(left, right) => derives_some[left] || derives_some[right],
                Kind::Fix(other) | Kind::Variable(other) => derives_some[other],
            })
            .collect();
        if next == derives_some {
            return derives_some;
        }
        derives_some = next;
    }
}

/// The productions of every node, without those whose tail holds a node that derives nothing. Now
/// no token comes twice.
pub fn normal_form(nodes: &[Node]) -> Vec<Vec<Production>> {
    let derives_some = derives_some(nodes);
    (0..nodes.len())
        .map(|node| {
            let mut productions = productions(nodes, node);
            productions.retain(|production| match production {
                Production::Epsilon => true,
                Production::Token(_, tail) => tail.iter().all(|&member| derives_some[member]),
            });
            productions
        })
        .collect()
}
