//! Lexer rules: question 7, positions, and their first, last and follow sets.

use crate::sheet::{Regex, Rule, Sheet};
use crate::Refusal;

/// Whether the empty word is a word of the regex.
pub fn nullable(regex: &Regex) -> bool {
    match regex {
        Regex::Empty | Regex::Star(_) => true,
        Regex::Class { .. } => false,
        Regex::Sequence(left, right) => nullable(left) && nullable(right),
        Regex::Alternative(left, right) => nullable(left) || nullable(right),
    }
}

/// Question 7.
///
/// # Errors
///
/// The first rule that has the empty word.
pub fn check(sheet: &Sheet) -> Result<(), Refusal> {
    match sheet.rules.iter().find(|rule| nullable(&rule.regex)) {
        None => Ok(()),
        Some(rule) => Err(Refusal {
            number: 7,
            place: rule.place,
        }),
    }
}

/// A byte class with its place in the walk.
#[derive(Clone, Copy, Debug, PartialEq, Eq)]
pub struct Position {
    /// The lowest byte.
    pub low: u8,
    /// The highest byte.
    pub high: u8,
    /// The rule that the class belongs to.
    pub rule: usize,
    /// Whether a match may end here.
    pub last: bool,
    /// The positions that may come next.
    pub follow: u64,
}

/// The positions of the rules, which are numbered as they come, and where a match may begin.
pub fn positions(rules: &[&Rule]) -> (Vec<Position>, u64) {
    let mut positions = Vec::new();
    let mut first = 0;
    for (index, rule) in rules.iter().enumerate() {
        let ends = place(&rule.regex, index, &mut positions);
        first |= ends.first;
        for position in members(ends.last) {
            positions[position].last = true;
        }
    }
    (positions, first)
}

struct Ends {
    first: u64,
    last: u64,
}

fn members(set: u64) -> impl Iterator<Item = usize> {
    (0..64).filter(move |position| set >> position & 1 == 1)
}

/// Adds the classes of a regex to the positions, joins those that may come one after the other, and
/// gives where its words may begin and end.
fn place(regex: &Regex, rule: usize, positions: &mut Vec<Position>) -> Ends {
    match regex {
        Regex::Empty => Ends { first: 0, last: 0 },
        &Regex::Class { low, high } => {
            let position = positions.len();
            positions.push(Position {
                low,
                high,
                rule,
                last: false,
                follow: 0,
            });
            Ends {
                first: 1 << position,
                last: 1 << position,
            }
        }
        Regex::Sequence(left, right) => {
            let before = place(left, rule, positions);
            let after = place(right, rule, positions);
            for position in members(before.last) {
                positions[position].follow |= after.first;
            }
            Ends {
                first: before.first | if nullable(left) { after.first } else { 0 },
                last: after.last | if nullable(right) { before.last } else { 0 },
            }
        }
        Regex::Alternative(left, right) => {
            let one = place(left, rule, positions);
            let other = place(right, rule, positions);
            Ends {
                first: one.first | other.first,
                last: one.last | other.last,
            }
        }
        Regex::Star(part) => {
            let ends = place(part, rule, positions);
            for position in members(ends.last) {
                positions[position].follow |= ends.first;
            }
            ends
        }
    }
}
