//! Random sheets, images and texts for long walks: texts over several blocks of 1,024 bytes in which many bytes are
//! walked in vain.
//!
//! Nothing is compared here. The reference is asked only for bytes that suit, and the test counts what came of it.

use super::images;
use super::random::Random;
use vinzagew::builder::{Expression, Regex, Sheet, SheetBuilder, Token};
use vinzagew_reference::image::{Image, Row};
use vinzagew_reference::lexer::Position;
use vinzagew_reference::long_walks::{turns, Turn};

/// For so many places at a time the library keeps which positions are alive.
pub const BLOCK: usize = 1_024;

/// The letters of a sheet's rules.
const LETTERS: &[u8] = b"abcde";

/// A class of one letter or of some that are next to each other.
fn class(random: &mut Random) -> Regex {
    let low = random.below(LETTERS.len());
    let high = (low + *random.pick(&[0, 0, 1, 2])).min(LETTERS.len() - 1);
    Regex::class(LETTERS[low], LETTERS[high])
}

/// A rule that walks on for long before it matches, or while it does.
fn long_rule(random: &mut Random) -> Regex {
    let [one, other, third] = [(); 3].map(|()| class(random));
    match random.below(12) {
        0 | 1 => one.star().then(other),
        2 | 3 => Regex::sequence([one, other.star(), third]),
        4 => Regex::sequence([one.then(other).star(), third]),
        5 => Regex::sequence([one.clone().star(), other, one.star(), third]),
        6 => one.clone().star().then(other.clone()).plus(),
        7 => {
            let ones = (0..random.range(2, 9)).map(|_| one.clone());
            Regex::sequence(ones.chain([third]))
        }
        8..=10 => {
            let letter = Regex::byte(*random.pick(LETTERS));
            let more = (0..random.range(4, 9)).map(|_| one.clone());
            let parts = [one.clone().star(), letter].into_iter();
            Regex::sequence(parts.chain(more).chain([third]))
        }
        _ => one.plus(),
    }
}

/// What a sheet denotes: any sequence of its tokens; all but one of them; up to a last token, of which there is one
/// at the end, or as many as of all others and one more.
fn expression(random: &mut Random, tokens: &[Token]) -> Expression {
    let own = random.below(tokens.len());
    let all = || tokens.iter().map(|&token| Expression::from(token));
    let others = || {
        let others = all().enumerate().filter(|(number, _)| *number != own);
        Expression::alternative(others.map(|(_, token)| token))
    };
    match random.below(10) {
        0 | 1 if tokens.len() > 1 => others().star(),
        2 | 3 if tokens.len() > 1 => Expression::fix(|more| tokens[own].or(others().then(more))),
        4 | 5 if tokens.len() > 1 => Expression::fix(|more| {
            let two = more.clone().then(more);
            tokens[own].or(others().then(two))
        }),
        _ => Expression::alternative(all()).star(),
    }
}

/// A sheet that passes: most letters are tokens by themselves, and there are some rules for long walks.
pub fn sheet(random: &mut Random) -> Sheet {
    let mut builder = SheetBuilder::new();
    let mut tokens = Vec::new();
    let mut regexes: Vec<Regex> = (0..random.range(1, 4)).map(|_| long_rule(random)).collect();
    let letters = LETTERS.iter().filter(|_| !random.once_in(20));
    regexes.extend(letters.map(|&letter| Regex::byte(letter)));
    for (number, regex) in regexes.into_iter().enumerate() {
        if random.once_in(5) && number > 0 {
            builder.skip(regex);
        } else {
            let token = builder.token(format!("t{number}"));
            builder.rule(token, regex);
            tokens.push(token);
        }
    }
    let expression = expression(random, &tokens);
    builder.finish(expression).expect("bound")
}

/// Nonterminals that take all rules: one that comes again after each, or twice after one; or three, each with a tail
/// of the next, that take so many tokens and no more.
fn rows(random: &mut Random, image: &Image) -> Vec<Row> {
    let skips = &image.skips;
    let own = random.pick(&image.positions).rule;
    let nullable = random.once_in(2);
    let row = |tail: &dyn Fn(usize) -> Vec<usize>| Row {
        nullable,
        productions: (0..skips.len())
            .filter(|&rule| !skips[rule])
            .map(|rule| (rule, tail(rule)))
            .collect(),
    };
    match random.below(3) {
        0 => {
            let [one, two] = [(); 2].map(|()| random.range(1, 32));
            let tails = [vec![1; one], vec![2; two], Vec::new()];
            tails.map(|tail| row(&|_| tail.clone())).into()
        }
        1 => vec![row(&|rule| vec![0; if rule == own { 2 } else { 1 }])],
        _ => vec![row(&|_| vec![0])],
    }
}

/// Makes the last position one that begins and ends a match at nearly every byte.
fn match_most_bytes(random: &mut Random, image: &mut Image) {
    let number = image.positions.len() - 1;
    let (low, high) = *random.pick(&[(0, 255), (0, 255), (b'a', 255), (0, b'y')]);
    let own = &mut image.positions[number];
    (own.low, own.high, own.last) = (low, high, true);
    own.follow &= random.next() & random.next();
    image.first |= 1 << number;
}

/// Makes some position one that ends a match, with a byte of its own, after half of all positions.
fn match_after_many(random: &mut Random, image: &mut Image) {
    let number = random.below(image.positions.len());
    let byte = random.next() as u8;
    for position in &mut image.positions {
        position.follow |= (random.next() & 1) << number;
    }
    let own = &mut image.positions[number];
    (own.low, own.high, own.last) = (byte, byte, true);
    own.follow &= random.next() & random.next();
}

/// A readable image, whose positions may follow each other across rules. Few of its positions are last.
pub fn image(random: &mut Random) -> Image {
    let mut image = images::image(random);
    let rarely = *random.pick(&[1, 4, 20]);
    for position in &mut image.positions {
        position.last &= random.once_in(rarely);
    }
    if !random.once_in(3) {
        match_after_many(random, &mut image);
    }
    if !random.once_in(16) {
        match_most_bytes(random, &mut image);
    }
    if !random.once_in(4) {
        image.rows = rows(random, &image);
    }
    image
}

/// The length of a text over so many blocks or one more, often around a block's end.
fn length(random: &mut Random, blocks: usize) -> usize {
    match random.below(3) {
        0 => BLOCK * blocks + random.below(BLOCK),
        1 => BLOCK * blocks + random.below(5) - 2,
        _ => BLOCK * blocks + *random.pick(&[0, 1]),
    }
}

/// How many bytes are looked at to choose what a text is made of.
const SAMPLE: usize = 40;

/// The first that suits of so many that are drawn, or else the last.
fn drawn<T>(
    random: &mut Random,
    attempts: usize,
    mut draw: impl FnMut(&mut Random) -> (T, bool),
) -> T {
    for _ in 1..attempts {
        if let (own, true) = draw(random) {
            return own;
        }
    }
    draw(random).0
}

/// A byte of some position.
fn byte(random: &mut Random, positions: &[Position]) -> u8 {
    let own = *random.pick(positions);
    images::byte_of(random, own)
}

/// Whether many bytes of a sample are walked in vain: four times its length is charged for it, or more.
fn walked_in_vain(image: &Image, sample: &[u8]) -> bool {
    let charged: usize = turns(image, sample).iter().map(Turn::charge).sum();
    charged >= 4 * sample.len()
}

/// What texts are made of: bytes that come often, one that may end a match, and one at which a walk may stop.
struct Bytes {
    often: Vec<u8>,
    end: u8,
    stop: u8,
    /// Whether the end does end a match and a walk does stop at the stop, after bytes that come often.
    both: bool,
}

impl Bytes {
    /// Bytes of positions. Of those that come often many are walked in vain, if such are found. In most cases an end
    /// after them makes them a match, and a walk stops at a stop after them, if such are found.
    fn of(random: &mut Random, image: &Image) -> Bytes {
        let all = &image.positions[..];
        let mut ending = all.to_vec();
        ending.retain(|position| position.last);
        if ending.is_empty() {
            ending = all.to_vec();
        }
        let often = drawn(random, 40, |random| {
            let bytes: Vec<u8> = (0..random.range(1, 3)).map(|_| byte(random, all)).collect();
            let often: Vec<u8> = (0..SAMPLE).map(|_| *random.pick(&bytes)).collect();
            let suits = walked_in_vain(image, &often);
            (often, suits)
        });
        let first = |byte: u8| turns(image, &[&often[..], &[byte]].concat())[0];
        let attempts = *random.pick(&[1, 40, 40, 40]);
        let end = drawn(random, attempts, |random| {
            let end = byte(random, &ending);
            (end, first(end).length == SAMPLE + 1)
        });
        let stop = drawn(random, attempts, |random| {
            let stop = byte(random, all);
            (stop, first(stop).walked == SAMPLE)
        });
        let both = first(end).length == SAMPLE + 1 && first(stop).walked == SAMPLE;
        Bytes {
            often,
            end,
            stop,
            both,
        }
    }

    /// So many bytes that come often.
    fn run(&self, random: &mut Random, length: usize) -> Vec<u8> {
        match random.below(2) {
            0 => vec![self.often[0]; length],
            _ => (0..length).map(|_| *random.pick(&self.often)).collect(),
        }
    }

    /// A short run with an end, again and again.
    fn ordinary(&self, random: &mut Random, length: usize) -> Vec<u8> {
        let mut part = Vec::new();
        while part.len() < length {
            let run = random.below(5);
            part.extend(self.run(random, run));
            part.push(self.end);
        }
        part
    }

    /// A part of a text: about so many bytes that come often, or bytes of any kind.
    fn part(&self, random: &mut Random, image: &Image, length: usize) -> Vec<u8> {
        match random.below(16) {
            0 => images::part(random, image),
            1 => self.ordinary(random, length),
            _ => self.run(random, length),
        }
    }

    /// The front of a text: that of an ordinary text, so that the switch comes late; a walk in vain, so that it comes
    /// early; or nothing.
    fn front(&self, random: &mut Random, length: usize, early: bool) -> Vec<u8> {
        if early {
            return [vec![self.often[0]; 120], vec![self.stop]].concat();
        }
        match random.below(3) {
            0 => {
                let ordinary = random.below(length);
                self.ordinary(random, ordinary)
            }
            _ => Vec::new(),
        }
    }

    /// A text over one block or more, of which few bytes are walked in vain, so that mostly no switch is made: again
    /// and again an ordinary part, and then a short run at whose end a walk may stop.
    fn mostly_ordinary(&self, random: &mut Random) -> Vec<u8> {
        let blocks = random.range(1, 4);
        let length = length(random, blocks);
        let mut text = Vec::new();
        while text.len() < length {
            let [ordinary, run] = [random.below(600), random.below(30)];
            text.extend(self.ordinary(random, ordinary));
            text.extend(self.run(random, run));
            text.push(self.stop);
        }
        text.truncate(length);
        text
    }

    /// A text over one block or more, of which many bytes are walked in vain. It has more blocks where walks often stop
    /// before its end: to walk far at each place takes the reference long.
    fn mostly_in_vain(&self, random: &mut Random, image: &Image) -> Vec<u8> {
        let early = self.both && random.once_in(2);
        // How many of four parts end with a byte that may end a match, and how many with one at which a walk may stop.
        let (ends, stops) = match early {
            true => (3, 1),
            false => *random.pick(&[(0, 0), (1, 0), (0, 1), (1, 2), (2, 2)]),
        };
        let (blocks, lengths) = match ends + stops {
            3 | 4 => (&[2, 2, 3, 3, 4, 5], &[7, 100, 300, 1_000, 1_000, 2_000]),
            _ if image.positions.len() > 32 => (&[1; 6], &[1, 7, 40, 300, 1_000, 1_500]),
            _ => (&[1, 1, 1, 1, 2, 3], &[1, 7, 40, 300, 1_000, 1_500]),
        };
        let blocks = *random.pick(blocks);
        let length = length(random, blocks);
        let mut text = self.front(random, length, early);
        while text.len() < length {
            let own = *random.pick(lengths);
            text.extend(self.part(random, image, own));
            match random.below(4) {
                own if own < ends => text.push(self.end),
                own if own < ends + stops => text.push(self.stop),
                _ => {}
            }
        }
        text.truncate(length);
        text
    }

    /// A text of one kind or the other, often with one byte changed.
    fn text(&self, random: &mut Random, image: &Image) -> Vec<u8> {
        let mut text = match random.below(3) {
            0 => self.mostly_ordinary(random),
            _ => self.mostly_in_vain(random, image),
        };
        if random.once_in(4) {
            let place = random.below(text.len());
            text[place] = random.next() as u8;
        }
        text
    }
}

/// An image and a text for it. Most images are drawn again if no bytes are found of which many are walked in vain.
pub fn reading(random: &mut Random, draw: impl Fn(&mut Random) -> Image) -> (Image, Vec<u8>) {
    let attempts = *random.pick(&[1, 6, 6, 6]);
    let (image, bytes) = drawn(random, attempts, |random| {
        let image = draw(random);
        let bytes = Bytes::of(random, &image);
        let suits = walked_in_vain(&image, &bytes.often);
        ((image, bytes), suits)
    });
    let text = bytes.text(random, &image);
    (image, text)
}
