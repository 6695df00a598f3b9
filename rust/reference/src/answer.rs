//! The sheet's own answer, from the words of the regexes and from what the expression denotes.
//!
//! Nothing of the image or the run is used here. The work grows with the third power of the number of
//! tokens, so this is for short texts.

use crate::machine::Ran;
use crate::sheet::{Kind, Node, Regex, Sheet};
use std::cmp::Reverse;

/// The sheet's own answer for a text.
pub fn answer(sheet: &Sheet, text: &[u8]) -> Ran {
    let mut place = 0;
    let mut tokens = Vec::new();
    loop {
        let stop = |number| Ran {
            number,
            place,
            tokens: tokens.len(),
        };
        if place == text.len() {
            let denoted = denotes(&sheet.nodes, &tokens);
            return stop(if denoted { 0 } else { 16 });
        }
        let (rule, length) = match longest_front(sheet, &text[place..]) {
            Some(found) => found,
            None => return stop(14),
        };
        if let Some(token) = sheet.rules[rule].token {
            let mut longer = tokens.clone();
            longer.push(token);
            if !begins(&sheet.nodes, &longer) {
                return stop(15);
            }
            tokens = longer;
        }
        place += length;
    }
}

/// The sheet's rule that has the longest front of `rest` that is a word of any rule, and its length. Of
/// several such rules a word rule wins over any other, and of two of a kind the lower.
pub fn longest_front(sheet: &Sheet, rest: &[u8]) -> Option<(usize, usize)> {
    let matches = sheet.rules.iter().enumerate().filter_map(|(rule, own)| {
        let length = word_lengths(&own.regex, rest, 0).last().copied()?;
        Some((rule, length, own.regex.is_word()))
    });
    matches
        .min_by_key(|&(rule, length, is_word)| (Reverse(length), !is_word, rule))
        .map(|(rule, length, _)| (rule, length))
}

/// The places, rising, where a word of the regex that starts at `start` may end.
pub fn word_lengths(regex: &Regex, text: &[u8], start: usize) -> Vec<usize> {
    let mut ends = match regex {
        Regex::Empty => vec![start],
        Regex::Class { low, high, .. } => match text.get(start) {
            Some(byte) if low <= byte && byte <= high => vec![start + 1],
            _ => Vec::new(),
        },
        Regex::Sequence(left, right) => word_lengths(left, text, start)
            .into_iter()
            .flat_map(|middle| word_lengths(right, text, middle))
            .collect(),
        Regex::Alternative(left, right) => {
            let mut ends = word_lengths(left, text, start);
            ends.extend(word_lengths(right, text, start));
            ends
        }
        Regex::Star(part) => {
            let mut ends = vec![start];
            let mut next = 0;
            while let Some(&middle) = ends.get(next) {
                next += 1;
                for end in word_lengths(part, text, middle) {
                    if !ends.contains(&end) {
                        ends.push(end);
                    }
                }
            }
            ends
        }
    };
    ends.sort_unstable();
    ends.dedup();
    ends
}

/// For each node and each pair of places, whether the node denotes the tokens between them.
struct Chart {
    count: usize,
    holds: Vec<bool>,
}

impl Chart {
    fn index(&self, node: usize, from: usize, to: usize) -> usize {
        (node * (self.count + 1) + from) * (self.count + 1) + to
    }

    fn get(&self, node: usize, from: usize, to: usize) -> bool {
        self.holds[self.index(node, from, to)]
    }

    /// The least chart that solves the equations of section 3.4 for all nodes together.
    fn new(nodes: &[Node], tokens: &[u64]) -> Chart {
        let count = tokens.len();
        let mut chart = Chart {
            count,
            holds: vec![false; nodes.len() * (count + 1) * (count + 1)],
        };
        let spans: Vec<(usize, usize)> = (0..=count)
            .flat_map(|from| (from..=count).map(move |to| (from, to)))
            .collect();
        let mut changed = true;
        while changed {
            changed = false;
            for node in (0..nodes.len()).rev() {
                for &(from, to) in &spans {
                    let index = chart.index(node, from, to);
                    let new = !chart.holds[index] && chart.equation(nodes, tokens, node, from, to);
                    chart.holds[index] |= new;
                    changed |= new;
                }
            }
        }
        chart
    }

    /// What the equation of a node says of the tokens between two places.
    fn equation(
        &self,
        nodes: &[Node],
        tokens: &[u64],
        node: usize,
        from: usize,
        to: usize,
    ) -> bool {
        let in_a_row = |left, right| {
            (from..=to).any(|middle| self.get(left, from, middle) && self.get(right, middle, to))
        };
        match nodes[node].kind {
            Kind::Epsilon => from == to,
            Kind::Bottom => false,
            Kind::Token(token) => tokens[from..to] == [token],
            Kind::Sequence(left, right) => in_a_row(left, right),
            Kind::Alternative(left, right) => self.get(left, from, to) || self.get(right, from, to),
            Kind::Fix(other) | Kind::Variable(other) => self.get(other, from, to),
            // μβ.(ε ∨ part·β)
            Kind::Repetition(part) => from == to || in_a_row(part, node),
        }
    }
}

/// Whether the expression denotes the tokens.
pub fn denotes(nodes: &[Node], tokens: &[u64]) -> bool {
    which_denote(nodes, tokens)[0]
}

/// For each node, whether it denotes the tokens. A variable denotes what its fixed point does.
pub fn which_denote(nodes: &[Node], tokens: &[u64]) -> Vec<bool> {
    let chart = Chart::new(nodes, tokens);
    let all = 0..nodes.len();
    all.map(|node| chart.get(node, 0, tokens.len())).collect()
}

/// For each node and each place, whether some sequence that the node denotes begins with the tokens
/// from the place on. For the last place this says that the node denotes some sequence at all.
type Fronts = Vec<Vec<bool>>;

/// Whether some sequence that the expression denotes begins with the tokens.
pub fn begins(nodes: &[Node], tokens: &[u64]) -> bool {
    which_begin(nodes, tokens)[0]
}

/// For each node, whether some sequence that it denotes begins with the tokens.
pub fn which_begin(nodes: &[Node], tokens: &[u64]) -> Vec<bool> {
    let chart = Chart::new(nodes, tokens);
    let mut fronts: Fronts = vec![vec![false; tokens.len() + 1]; nodes.len()];
    let mut changed = true;
    while changed {
        changed = false;
        for node in (0..nodes.len()).rev() {
            for from in 0..=tokens.len() {
                let new =
                    !fronts[node][from] && begins_from(nodes, tokens, &chart, &fronts, node, from);
                fronts[node][from] |= new;
                changed |= new;
            }
        }
    }
    fronts.into_iter().map(|own| own[0]).collect()
}

/// What the equation of a node says of the tokens from a place on.
fn begins_from(
    nodes: &[Node],
    tokens: &[u64],
    chart: &Chart,
    fronts: &Fronts,
    node: usize,
    from: usize,
) -> bool {
    let count = tokens.len();
    // The tokens end within the left part or within the right one.
    let in_a_row = |left: usize, right: usize| {
        (fronts[left][from] && fronts[right][count])
            || (from..=count).any(|middle| chart.get(left, from, middle) && fronts[right][middle])
    };
    match nodes[node].kind {
        Kind::Epsilon => from == count,
        Kind::Bottom => false,
        Kind::Token(token) => [token].starts_with(&tokens[from..]),
        Kind::Sequence(left, right) => in_a_row(left, right),
        Kind::Alternative(left, right) => fronts[left][from] || fronts[right][from],
        Kind::Fix(other) | Kind::Variable(other) => fronts[other][from],
        // μβ.(ε ∨ part·β)
        Kind::Repetition(part) => from == count || in_a_row(part, node),
    }
}
