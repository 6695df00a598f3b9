//! Readable images that no sheet need have, random ones with texts for them and others made by hand, and images
//! with a chosen number of rows in their tables.
//!
//! Nothing is called and nothing is compared here.

use super::random::Random;
use vinzagew_reference::image::{Image, Row};
use vinzagew_reference::lexer::Position;

/// The most bytes of a random text.
const LONGEST_TEXT: usize = 600;

/// A byte class of any kind. Some depend on the positions before it.
fn class(random: &mut Random, before: &[Position]) -> (u8, u8) {
    let [one, other] = [(); 2].map(|()| random.next() as u8);
    match random.below(12) {
        0 => (0, 255),
        1 => (one, 255),
        2 => (0, one),
        3 => *random.pick(&[(0, 0), (255, 255)]),
        4 | 5 => *random.pick(&[(b'a', b'm'), (b'n', b'z'), (b'a', b'z')]),
        6 | 7 if !before.is_empty() => near_class(random, before),
        8 => (one.min(other), one.max(other)),
        _ => *random.pick(&[(b'a', b'a'), (b'b', b'b'), (b'c', b'c')]),
    }
}

/// The class of an earlier position, or one that begins just past it or ends just before it.
fn near_class(random: &mut Random, before: &[Position]) -> (u8, u8) {
    let other = *random.pick(before);
    let more = random.below(8) as u8;
    match random.below(3) {
        0 if other.high < 255 => (other.high + 1, other.high.saturating_add(1 + more)),
        1 if other.low > 0 => (other.low.saturating_sub(1 + more), other.low - 1),
        _ => (other.low, other.high),
    }
}

/// All of so many positions.
pub fn all(count: usize) -> u64 {
    u64::MAX >> (64 - count)
}

/// One to three of so many positions.
fn few(random: &mut Random, count: usize) -> u64 {
    (0..random.range(1, 3)).fold(0, |set, _| set | 1 << random.below(count))
}

/// A set of so many positions.
fn set(random: &mut Random, count: usize) -> u64 {
    let highest = 1 << (count - 1);
    match random.below(12) {
        0 => 0,
        1 => all(count),
        2 => highest,
        3 => highest | few(random, count),
        4..=6 => random.next() & all(count),
        _ => few(random, count),
    }
}

/// A position's follow set. In some images it is often the position itself, the next one, or both.
fn follow(random: &mut Random, position: usize, count: usize, near: bool) -> u64 {
    if !near || random.once_in(4) {
        return set(random, count);
    }
    let own = 1 << position;
    let next = own << 1 & all(count);
    *random.pick(&[own, next, own | next])
}

/// The positions of an image with so many rules, of which some may have no position. In some images all classes
/// are equal.
fn positions(random: &mut Random, rules: usize) -> Vec<Position> {
    let count = match random.below(6) {
        0 => 64,
        1 => random.range(33, 64),
        _ => random.range(1, 12),
    };
    let near = random.once_in(2);
    let all_equal = random.once_in(10);
    // One in so many positions is last.
    let last = *random.pick(&[1, 2, 2, 6, 20]);
    let mut own_rules: Vec<usize> = (0..count).map(|_| random.below(rules)).collect();
    own_rules.sort_unstable();
    let mut positions: Vec<Position> = Vec::new();
    for (position, rule) in own_rules.into_iter().enumerate() {
        let (low, high) = match positions.first() {
            Some(first) if all_equal => (first.low, first.high),
            _ => class(random, &positions),
        };
        positions.push(Position {
            low,
            high,
            rule,
            last: random.once_in(last),
            follow: follow(random, position, count, near),
        });
    }
    positions
}

/// A production for a rule, or now and then none. Most tails have one or two members.
fn production(random: &mut Random, rule: usize, row_count: usize) -> Option<(usize, Vec<usize>)> {
    if random.once_in(40) {
        return None;
    }
    let length = match random.below(16) {
        0 => 0,
        _ => random.range(1, 2),
    };
    let tail = (0..length).map(|_| random.below(row_count)).collect();
    Some((rule, tail))
}

/// Nonterminals that take most rules. Most of them are nullable.
fn rows(random: &mut Random, skips: &[bool]) -> Vec<Row> {
    let count = *random.pick(&[1, 1, 1, 3]);
    let returning: Vec<usize> = (0..skips.len()).filter(|&rule| !skips[rule]).collect();
    (0..count)
        .map(|_| Row {
            nullable: !random.once_in(12),
            productions: returning
                .iter()
                .filter_map(|&rule| production(random, rule, count))
                .collect(),
        })
        .collect()
}

/// A readable image. In many of them the last position may begin a match, has every byte and ends a match, so
/// that no place is without a match.
pub fn image(random: &mut Random) -> Image {
    let rules = match random.below(4) {
        0 => random.range(1, 32),
        _ => random.range(1, 5),
    };
    let skips: Vec<bool> = (0..rules).map(|_| random.once_in(3)).collect();
    let mut positions = positions(random, rules);
    let count = positions.len();
    let mut first = match random.below(40) {
        0 => 0,
        _ => set(random, count) | few(random, count),
    };
    if first != 0 && random.once_in(2) {
        first |= 1 << (count - 1);
        let last = &mut positions[count - 1];
        last.low = 0;
        last.high = 255;
        last.last = true;
        last.follow &= random.next() & random.next();
    }
    let rows = rows(random, &skips);
    Image {
        skips,
        positions,
        first,
        rows,
    }
}

/// A byte of a position's class, often the lowest or the highest.
pub fn byte_of(random: &mut Random, position: Position) -> u8 {
    match random.below(3) {
        0 => position.low,
        1 => position.high,
        _ => random.range(position.low.into(), position.high.into()) as u8,
    }
}

/// The positions of a set, rising.
pub fn members(image: &Image, set: u64) -> Vec<Position> {
    let numbers = (0..image.positions.len()).filter(|number| set >> number & 1 == 1);
    numbers.map(|number| image.positions[number]).collect()
}

/// About so many bytes that keep some position one after another from the first set on, some of them repeated.
fn walked(random: &mut Random, image: &Image, length: usize) -> Vec<u8> {
    let mut bytes = Vec::new();
    let mut held = members(image, image.first);
    while !held.is_empty() && bytes.len() < length {
        let position = *random.pick(&held);
        let byte = byte_of(random, position);
        let times = *random.pick(&[1, 1, 1, 6]);
        bytes.extend(vec![byte; times]);
        held = members(image, position.follow);
    }
    bytes
}

/// A part of a text: the same byte many times, bytes of one class, bytes 0 or 255, any bytes, or bytes that are
/// kept one after another.
pub fn part(random: &mut Random, image: &Image) -> Vec<u8> {
    let position = *random.pick(&image.positions);
    let length = *random.pick(&[1, 2, 3, 8, 8, 40, 300]);
    match random.below(8) {
        0 | 1 => vec![byte_of(random, position); length],
        2 => (0..length).map(|_| byte_of(random, position)).collect(),
        3 => vec![*random.pick(&[0, 255]); length],
        4 => random.bytes(length.min(3)),
        _ => walked(random, image, length),
    }
}

/// A text. Some begin with a few bytes of any kind, which in many images match nothing.
pub fn text(random: &mut Random, image: &Image) -> Vec<u8> {
    let mut text = match random.below(12) {
        0 => {
            let length = random.range(1, 3);
            random.bytes(length)
        }
        _ => Vec::new(),
    };
    for _ in 0..random.below(7) {
        text.extend(part(random, image));
    }
    text.truncate(LONGEST_TEXT);
    text
}

/// The set of these positions.
fn set_of(positions: &[usize]) -> u64 {
    positions
        .iter()
        .fold(0, |set, position| set | 1 << position)
}

/// A position that is no last one.
pub fn inner(low: u8, high: u8, rule: usize, follow: &[usize]) -> Position {
    Position {
        low,
        high,
        rule,
        last: false,
        follow: set_of(follow),
    }
}

/// A position that is last.
pub fn last(low: u8, high: u8, rule: usize, follow: &[usize]) -> Position {
    Position {
        last: true,
        ..inner(low, high, rule, follow)
    }
}

/// An image whose grammar takes every rule that does not skip, any number of times.
pub fn taking_all(skips: &[bool], first: &[usize], positions: Vec<Position>) -> Vec<u8> {
    let returning = (0..skips.len()).filter(|&rule| !skips[rule]);
    let row = Row {
        nullable: true,
        productions: returning.map(|rule| (rule, vec![0])).collect(),
    };
    let image = Image {
        skips: skips.to_vec(),
        positions,
        first: set_of(first),
        rows: vec![row],
    };
    image.to_bytes()
}

/// Adds the positions of a rule that matches bytes from `low` to `high`, of which the one before the last
/// `count - 1` is `low`, and gives where a match may begin. If any of its positions are kept, the first is one of
/// them, and of the other `count` it may be any: that makes 2^`count` sets.
fn add_shifting(
    positions: &mut Vec<Position>,
    rule: usize,
    low: u8,
    high: u8,
    count: usize,
) -> u64 {
    let start = positions.len();
    positions.push(inner(low, high, rule, &[start, start + 1]));
    positions.push(inner(low, low, rule, &[start + 2]));
    for own in start + 2..=start + count {
        positions.push(inner(low, high, rule, &[own + 1]));
    }
    let end = &mut positions[start + count];
    end.follow = 0;
    end.last = true;
    1 << start | 1 << (start + 1)
}

/// Adds the positions of a rule that matches one word of so many bytes, 128 and those after it, and gives where the
/// match begins. Each of its positions is kept alone: that makes so many sets.
fn add_word(positions: &mut Vec<Position>, rule: usize, length: usize) -> u64 {
    let start = positions.len();
    for own in start..start + length {
        let byte = 128 + (own - start) as u8;
        positions.push(inner(byte, byte, rule, &[own + 1]));
    }
    match positions[start..].last_mut() {
        None => 0,
        Some(end) => {
            end.follow = 0;
            end.last = true;
            1 << start
        }
    }
}

/// The `count` of each shifting rule of an image near the limit, and how many rows they make, with rows 0 and 1.
/// Beside them there is room for a word that makes 260 rows of it.
const SHIFTING: [(&[usize], usize); 6] = [
    (&[7, 6, 5], 226),
    (&[6, 7, 4, 5], 242),
    (&[5, 5, 5, 7, 5], 258),
    (&[7, 3, 4, 6, 5], 250),
    (&[6, 6, 6, 5], 226),
    (&[7, 7], 258),
];

/// An image whose table has, or would have, so many rows: 250 to 260, of which 256 are allowed.
pub fn near_row_limit(random: &mut Random) -> (Image, usize) {
    let (counts, least) = *random.pick(&SHIFTING);
    let wanted = random.range(250, 260).max(least);
    let word_rule = random.below(counts.len() + 1);
    let rules = counts.len() + 1;
    let (mut positions, mut first) = (Vec::new(), 0);
    for rule in 0..rules {
        if rule == word_rule {
            first |= add_word(&mut positions, rule, wanted - least);
        } else {
            let shifting = rule - usize::from(rule > word_rule);
            let low = b'a' + 3 * shifting as u8;
            first |= add_shifting(&mut positions, rule, low, low + 2, counts[shifting]);
        }
    }
    for position in &mut positions {
        position.last |= random.once_in(5);
    }
    let skips: Vec<bool> = (0..rules).map(|_| random.once_in(3)).collect();
    let rows = rows(random, &skips);
    let image = Image {
        skips,
        positions,
        first,
        rows,
    };
    (image, wanted)
}
