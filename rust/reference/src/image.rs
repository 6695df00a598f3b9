//! Images: fusion, the image's bytes, and question 13.

use crate::lexer::{positions, Position};
use crate::normal_form::{normal_form, Production};
use crate::number::{write, Field, Reader};
use crate::sheet::{Rule, Sheet, RULE_LIMIT};
use crate::{Refusal, TAIL_LIMIT};

/// An image in parts.
#[derive(Clone, Debug, PartialEq, Eq)]
pub struct Image {
    /// For each rule, whether it skips.
    pub skips: Vec<bool>,
    /// The positions.
    pub positions: Vec<Position>,
    /// Where a match may begin.
    pub first: u64,
    /// The nonterminals; 0 is the start.
    pub rows: Vec<Row>,
}

/// A nonterminal with its productions.
#[derive(Clone, Debug, PartialEq, Eq)]
pub struct Row {
    /// Whether it may be dropped.
    pub nullable: bool,
    /// For rising rules, the rule and the tail.
    pub productions: Vec<(usize, Vec<usize>)>,
}

/// The rules in the order in which an image numbers them: the word rules, then all others, each kind in
/// sheet order.
pub fn numbered(sheet: &Sheet) -> Vec<&Rule> {
    let (words, others): (Vec<&Rule>, Vec<&Rule>) =
        sheet.rules.iter().partition(|rule| rule.regex.is_word());
    [words, others].concat()
}

/// The image of a sheet that passed checking.
pub fn fuse(sheet: &Sheet) -> Image {
    let rules = numbered(sheet);
    let (positions, first) = positions(&rules);
    let grammar = normal_form(&sheet.nodes);
    // `met` has the nodes that are reached from the start, as first met.
    let mut met = vec![0];
    let mut rows = Vec::new();
    while let Some(&node) = met.get(rows.len()) {
        let mut productions = Vec::new();
        for (rule, token) in rules.iter().map(|rule| rule.token).enumerate() {
            for production in &grammar[node] {
                match production {
                    Production::Token(own, tail) if Some(*own) == token => {
                        productions.push((rule, number_tail(&mut met, tail)));
                    }
                    _ => {}
                }
            }
        }
        rows.push(Row {
            nullable: grammar[node].contains(&Production::Epsilon),
            productions,
        });
    }
    Image {
        skips: rules.iter().map(|rule| rule.token.is_none()).collect(),
        positions,
        first,
        rows,
    }
}

/// The numbers of a tail's nodes; a node that was not met before gets the next number.
fn number_tail(met: &mut Vec<usize>, tail: &[usize]) -> Vec<usize> {
    tail.iter()
        .map(|node| match met.iter().position(|other| other == node) {
            Some(number) => number,
            None => {
                met.push(*node);
                met.len() - 1
            }
        })
        .collect()
}

impl Image {
    /// The numbers of the image, in order.
    pub fn numbers(&self) -> Vec<u64> {
        let mut numbers = vec![1, self.skips.len() as u64];
        numbers.extend(self.skips.iter().map(|&skips| u64::from(skips)));
        numbers.push(self.positions.len() as u64);
        for position in &self.positions {
            numbers.extend([
                u64::from(position.low),
                u64::from(position.high),
                position.rule as u64,
                u64::from(position.last),
                position.follow,
            ]);
        }
        numbers.extend([self.first, self.rows.len() as u64]);
        for row in &self.rows {
            numbers.extend([u64::from(row.nullable), row.productions.len() as u64]);
            for (rule, tail) in &row.productions {
                numbers.extend([*rule as u64, tail.len() as u64]);
                numbers.extend(tail.iter().map(|&member| member as u64));
            }
        }
        numbers
    }

    /// The bytes of the image.
    pub fn to_bytes(&self) -> Vec<u8> {
        let mut bytes = Vec::new();
        for number in self.numbers() {
            write(&mut bytes, number);
        }
        bytes
    }

    /// Question 13: reads an image.
    ///
    /// # Errors
    ///
    /// 13 with the place of the first offending number or leftover byte.
    pub fn read(bytes: &[u8]) -> Result<Image, Refusal> {
        read_image(&mut Reader::new(bytes)).map_err(|place| Refusal { number: 13, place })
    }
}

/// The next number, which in an image must have the fewest bytes; otherwise its place.
fn field(reader: &mut Reader) -> Result<Field, usize> {
    let field = reader.read()?;
    if field.fewest {
        Ok(field)
    } else {
        Err(field.place)
    }
}

/// The next number, if its value is from `low` to `high`; otherwise its place.
fn number(reader: &mut Reader, low: u64, high: u64) -> Result<u64, usize> {
    let Field { value, place, .. } = field(reader)?;
    if (low..=high).contains(&value) {
        Ok(value)
    } else {
        Err(place)
    }
}

fn read_image(reader: &mut Reader) -> Result<Image, usize> {
    number(reader, 1, 1)?;
    let rules = number(reader, 1, RULE_LIMIT)?;
    let mut skips = Vec::new();
    for _ in 0..rules {
        skips.push(number(reader, 0, 1)? == 1);
    }

    let count = number(reader, 1, 64)?;
    let all = u64::MAX >> (64 - count);
    let mut positions: Vec<Position> = Vec::new();
    let mut lowest_rule = 0;
    for _ in 0..count {
        let low = number(reader, 0, 255)?;
        let high = number(reader, low, 255)?;
        let rule = number(reader, lowest_rule, rules - 1)?;
        lowest_rule = rule;
        positions.push(Position {
            low: low as u8,
            high: high as u8,
            rule: rule as usize,
            last: number(reader, 0, 1)? == 1,
            follow: number(reader, 0, all)?,
        });
    }
    let first = number(reader, 0, all)?;

    let row_count = number(reader, 1, 64)?;
    let mut rows = Vec::new();
    for _ in 0..row_count {
        let nullable = number(reader, 0, 1)? == 1;
        let production_count = number(reader, 0, 32)?;
        let mut productions: Vec<(usize, Vec<usize>)> = Vec::new();
        for _ in 0..production_count {
            let Field { value, place, .. } = field(reader)?;
            let rising = productions
                .last()
                .map_or(true, |(before, _)| (*before as u64) < value);
            if value >= rules || !rising || skips[value as usize] {
                return Err(place);
            }
            let mut tail = Vec::new();
            for _ in 0..number(reader, 0, TAIL_LIMIT as u64)? {
                tail.push(number(reader, 0, row_count - 1)? as usize);
            }
            productions.push((value as usize, tail));
        }
        rows.push(Row {
            nullable,
            productions,
        });
    }
    if !reader.at_end() {
        return Err(reader.place());
    }
    Ok(Image {
        skips,
        positions,
        first,
        rows,
    })
}
