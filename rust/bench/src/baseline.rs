//! Running an image in plain Rust, to measure beside the library.
//!
//! It asks questions 12 to 17 and is made to be fast. One pass over the image's bytes fills fixed tables,
//! and nothing is put on the heap. A table has for each byte the set of positions whose class has it, so
//! that one `and` gives the positions that a byte keeps. Only those are walked, as a word, and as long as
//! the same ones are kept, nothing is walked at all. It does not turn the sets into states of a
//! deterministic automaton; [`table`] does.

pub mod table;

use vinzagew_reference::{TAIL_LIMIT, TEXT_LIMIT};

/// The most bytes that a number has.
const WIDTH_LIMIT: usize = 10;
const RULE_LIMIT: u8 = 32;
const POSITION_LIMIT: u8 = 64;
const NONTERMINAL_LIMIT: u8 = 64;
const PRODUCTION_LIMIT: u8 = 32;
/// Most images have no more nonterminals, and a table for so few is soon cleared.
const FEW_NONTERMINALS: u8 = 16;

/// Runs an image over a text: number, place and count.
// Reached by a call, as the library's function is, so that neither is inlined into the loop that measures it.
#[inline(never)]
pub fn run(image: &[u8], text: &[u8], stack: &mut [u8]) -> [usize; 3] {
    if text.len() > TEXT_LIMIT {
        return [12, 0, 0];
    }
    let mut reader = Reader {
        bytes: image,
        place: 0,
    };
    let mut machine = Machine::<{ FEW_NONTERMINALS as usize }>::new(Scanner::new(), image);
    match machine.scanner.fill(&mut reader) {
        None => [13, reader.place, 0],
        Some(count) if count <= FEW_NONTERMINALS => machine.run(reader, count, text, stack),
        Some(count) => Machine::<{ NONTERMINAL_LIMIT as usize }>::new(machine.scanner, image)
            .run(reader, count, text, stack),
    }
}

/// Reads an image from the left. Where nothing is given, `place` is that of the offending number or byte.
struct Reader<'a> {
    bytes: &'a [u8],
    place: usize,
}

impl Reader<'_> {
    /// The next number, if it is from `low` to `high`, which is below 128. Such a number has one byte. Any
    /// other first byte offends, whatever comes after it, and the place is the same.
    fn small(&mut self, low: u8, high: u8) -> Option<u8> {
        let byte = *self.bytes.get(self.place)?;
        if byte < low || high < byte {
            return None;
        }
        self.place += 1;
        Some(byte)
    }

    /// The next number, if it is from `low` to 255. From 128 on, its second group is 1, and its first byte,
    /// bit 7 of which is set, is the number itself.
    fn byte(&mut self, low: u8) -> Option<u8> {
        let (value, width) = match self.bytes[self.place..] {
            [value @ 0..=0x7f, ..] => (value, 1),
            [value, 1, ..] => (value, 2),
            _ => return None,
        };
        if value < low {
            return None;
        }
        self.place += width;
        Some(value)
    }

    /// The next number, if it is at most `high`.
    fn set(&mut self, high: u64) -> Option<u64> {
        let rest = &self.bytes[self.place..];
        let (mut value, mut bits) = (0, 0);
        for &byte in &rest[..rest.len().min(WIDTH_LIMIT)] {
            value |= u64::from(byte & 0x7f) << bits;
            bits += 7;
            if byte < 0x80 {
                // With an empty last group it is not the shortest. Nine groups are 63 bits, so the tenth
                // has one.
                let shortest = bits == 7 || byte != 0;
                let below = bits < 7 * WIDTH_LIMIT || byte <= 1;
                if !shortest || !below || high < value {
                    return None;
                }
                self.place += bits / 7;
                return Some(value);
            }
        }
        None
    }
}

/// An image's rules and positions. In a set of positions, position i is 2^i.
struct Scanner {
    rule_count: u8,
    /// The rules that do not skip, rule i being 2^i.
    returning: u32,
    /// For each byte the positions whose class has it.
    having: [u64; 256],
    /// For each position its rule, and [`RULE_LIMIT`] more if that rule skips.
    rules: [u8; POSITION_LIMIT as usize],
    follow: [u64; POSITION_LIMIT as usize],
    last: u64,
    first: u64,
}

impl Scanner {
    fn new() -> Self {
        Scanner {
            rule_count: 0,
            returning: 0,
            having: [0; 256],
            rules: [0; POSITION_LIMIT as usize],
            follow: [0; POSITION_LIMIT as usize],
            last: 0,
            first: 0,
        }
    }

    /// Fills the tables, up to the nonterminal count, which is given.
    fn fill(&mut self, reader: &mut Reader) -> Option<u8> {
        reader.small(1, 1)?;
        self.rule_count = reader.small(1, RULE_LIMIT)?;
        for rule in 0..self.rule_count {
            let skips = reader.small(0, 1)?;
            self.returning |= u32::from(1 - skips) << rule;
        }
        let count = reader.small(1, POSITION_LIMIT)?;
        let all = u64::MAX >> (POSITION_LIMIT - count);
        let mut rule = 0;
        for position in 0..count {
            rule = self.fill_position(reader, position, rule, all)?;
        }
        self.first = reader.set(all)?;
        // So far `having` has for each byte the positions that come or go with it.
        let mut positions = 0;
        for entry in &mut self.having {
            positions ^= *entry;
            *entry = positions;
        }
        reader.small(1, NONTERMINAL_LIMIT)
    }

    /// Reads a position, whose rule is `lowest` at least, and gives its rule.
    fn fill_position(
        &mut self,
        reader: &mut Reader,
        position: u8,
        lowest: u8,
        all: u64,
    ) -> Option<u8> {
        let low = reader.byte(0)?;
        let high = reader.byte(low)?;
        self.having[low as usize] ^= 1 << position;
        if high < 255 {
            self.having[high as usize + 1] ^= 1 << position;
        }
        let rule = reader.small(lowest, self.rule_count - 1)?;
        let skips = self.returning >> rule & 1 == 0;
        self.rules[position as usize] = rule + if skips { RULE_LIMIT } else { 0 };
        self.last |= u64::from(reader.small(0, 1)?) << position;
        self.follow[position as usize] = reader.set(all)?;
        Some(rule)
    }

    /// The longest match from `start` on: where it ends, and which last positions end it. Without a match
    /// there are none.
    #[inline(always)]
    fn longest_match(&self, text: &[u8], start: usize) -> (usize, u64) {
        let mut found = (start, 0);
        let mut place = start;
        let mut kept = self.kept(self.first, text, place);
        while kept != 0 {
            let held = self.followers(kept);
            place += 1;
            let mut next = 0;
            // As long as the same positions are kept, the same ones are held.
            if held != 0 {
                next = self.kept(held, text, place);
                while next == kept {
                    place += 1;
                    next = self.kept(held, text, place);
                }
            }
            let ended = kept & self.last;
            if next == 0 {
                if ended == 0 {
                    rare();
                    return found;
                }
                return (place, ended);
            }
            if ended != 0 {
                found = (place, ended);
            }
            kept = next;
        }
        found
    }

    /// The held positions that the byte at a place keeps; none at the text's end.
    #[inline(always)]
    fn kept(&self, held: u64, text: &[u8], place: usize) -> u64 {
        match text.get(place) {
            Some(&byte) => held & self.having[byte as usize],
            None => 0,
        }
    }

    /// The positions that may follow some others, of which there is one at least.
    #[inline(always)]
    fn followers(&self, mut positions: u64) -> u64 {
        let mut followers = self.follow[positions.trailing_zeros() as usize & 63];
        positions &= positions.wrapping_sub(1);
        while positions != 0 {
            followers |= self.follow[positions.trailing_zeros() as usize & 63];
            positions &= positions - 1;
        }
        followers
    }
}

/// Does nothing. Because it is marked as seldom called, the compiler puts a branch before the call. Without it
/// the compiler selects one of the two places where a match may end with no branch, and then the next match
/// cannot start before the last byte of this one is looked up.
#[cold]
#[inline(never)]
fn rare() {}

/// An entry says at once what a pending nonterminal does with a rule. It is one number of 16 bits. From this bit on
/// stands its kind.
const KIND: u32 = 12;
/// Takes the rule, with a tail of one member, which is the whole entry.
const ONE: u16 = 0;
/// Takes it, with an empty tail.
const EMPTY: u16 = 1;
/// Takes it, with a tail of two members, the first in the lowest six bits and the second in the next six.
const TWO: u16 = 2;
/// Takes it, with a longer tail. The other bits say how far the first member is from the start of its
/// nonterminal's productions, which is at most 31 × 34 + 2; the place in the image would not always fit.
const MORE: u16 = 3;
/// Has no production for it, and is dropped; the other bits are 0.
const DROP: u16 = 4;
/// Has none, and may not be dropped; the other bits are 0.
const REFUSE: u16 = 5;

/// An image as tables for `N` nonterminals, a power of two.
struct Machine<'a, const N: usize> {
    scanner: Scanner,
    image: &'a [u8],
    /// Nonterminal i is 2^i.
    nullable: u64,
    /// For each nonterminal the place in the image where its productions start.
    rows: [u32; N],
    /// For each nonterminal and rule what is done.
    entries: [[u16; RULE_LIMIT as usize]; N],
}

impl<'a, const N: usize> Machine<'a, N> {
    fn new(scanner: Scanner, image: &'a [u8]) -> Self {
        Machine {
            scanner,
            image,
            nullable: 0,
            rows: [0; N],
            entries: [[REFUSE << KIND; RULE_LIMIT as usize]; N],
        }
    }

    /// Reads the image from its `count` nonterminals on, and then the text.
    fn run(&mut self, mut reader: Reader, count: u8, text: &[u8], stack: &mut [u8]) -> [usize; 3] {
        if self.fill(&mut reader, count).is_none() {
            return [13, reader.place, 0];
        }
        let result = self.walk(text, stack);
        stack.fill(0);
        result
    }

    /// Reads the nonterminals, after which the image must end.
    fn fill(&mut self, reader: &mut Reader, count: u8) -> Option<()> {
        for nonterminal in 0..count {
            let nullable = reader.small(0, 1)?;
            self.nullable |= u64::from(nullable) << nonterminal;
            if nullable == 1 {
                self.entries[nonterminal as usize].fill(DROP << KIND);
            }
            let productions = reader.small(0, PRODUCTION_LIMIT)?;
            self.rows[nonterminal as usize] = reader.place as u32;
            let mut lowest = 0;
            for _ in 0..productions {
                lowest = 1 + self.fill_production(reader, nonterminal, lowest, count)?;
            }
        }
        (reader.place == reader.bytes.len()).then_some(())
    }

    /// Reads a production, whose rule is `lowest` at least, and gives its rule.
    fn fill_production(
        &mut self,
        reader: &mut Reader,
        nonterminal: u8,
        lowest: u8,
        count: u8,
    ) -> Option<u8> {
        let place = reader.place;
        let rule = reader.small(lowest, self.scanner.rule_count - 1)?;
        if self.scanner.returning >> rule & 1 == 0 {
            reader.place = place;
            return None;
        }
        let length = reader.small(0, TAIL_LIMIT as u8)?;
        let start = reader.place;
        for _ in 0..length {
            reader.small(0, count - 1)?;
        }
        let offset = start as u32 - self.rows[nonterminal as usize];
        self.entries[nonterminal as usize][rule as usize] = match reader.bytes[start..reader.place]
        {
            [] => EMPTY << KIND,
            [one] => ONE << KIND | u16::from(one),
            [one, other] => TWO << KIND | u16::from(other) << 6 | u16::from(one),
            _ => MORE << KIND | offset as u16,
        };
        Some(rule)
    }

    /// Questions 14 to 17.
    #[inline(never)]
    fn walk(&self, text: &[u8], stack: &mut [u8]) -> [usize; 3] {
        if stack.is_empty() {
            return [17, 0, 0];
        }
        let mut pending = Pending {
            count: 1,
            first: 0,
            stack,
        };
        let (mut place, mut tokens) = (0, 0);
        while place < text.len() {
            let (end, ended) = self.scanner.longest_match(text, place);
            if ended == 0 {
                return [14, place, tokens];
            }
            // Rules never fall from a position to the next, so the lowest position has the lowest rule.
            let rule = self.scanner.rules[ended.trailing_zeros() as usize & 63];
            if rule < RULE_LIMIT {
                if let Err(number) = self.take(rule, &mut pending) {
                    return [number, place, tokens];
                }
                tokens += 1;
            }
            place = end;
        }
        while pending.count > 0 {
            if !self.is_nullable(pending.first) {
                return [16, place, tokens];
            }
            pending.drop();
        }
        [0, place, tokens]
    }

    /// Takes a rule, or gives 15 or 17.
    #[inline(always)]
    fn take(&self, rule: u8, pending: &mut Pending) -> Result<(), usize> {
        while pending.count > 0 {
            let entry = self.entries[pending.first & (N - 1)][rule as usize];
            if entry < EMPTY << KIND {
                pending.first = entry as usize;
                return Ok(());
            }
            if entry < TWO << KIND {
                pending.drop();
                return Ok(());
            }
            if entry < MORE << KIND {
                pending.push((entry >> 6) as u8 & 63)?;
                pending.first = entry as usize & 63;
                return Ok(());
            }
            if entry < DROP << KIND {
                return self.copy_tail(entry, pending);
            }
            if entry != DROP << KIND {
                return Err(15);
            }
            pending.drop();
        }
        Err(15)
    }

    /// Replaces the first pending nonterminal by a tail of more than two members, or gives 17.
    #[inline(always)]
    fn copy_tail(&self, entry: u16, pending: &mut Pending) -> Result<(), usize> {
        let row = self.rows[pending.first & (N - 1)];
        let start = row as usize + (entry & ((1 << KIND) - 1)) as usize;
        let length = self.image[start - 1] as usize;
        for &member in self.image[start + 1..start + length].iter().rev() {
            pending.push(member)?;
        }
        pending.first = self.image[start] as usize;
        Ok(())
    }

    #[inline(always)]
    fn is_nullable(&self, nonterminal: usize) -> bool {
        self.nullable >> (nonterminal & 63) & 1 == 1
    }
}

/// The pending nonterminals. The first is kept apart, the others are on the stack from entry 1 on, the
/// second of all on top.
struct Pending<'a> {
    count: usize,
    /// The first, if there is one.
    first: usize,
    stack: &'a mut [u8],
}

impl Pending<'_> {
    /// Adds one behind the first, or gives 17.
    #[inline(always)]
    fn push(&mut self, nonterminal: u8) -> Result<(), usize> {
        *self.stack.get_mut(self.count).ok_or(17usize)? = nonterminal;
        self.count += 1;
        Ok(())
    }

    /// Drops the first of one or more.
    #[inline(always)]
    fn drop(&mut self) {
        self.count -= 1;
        self.first = self.stack[self.count] as usize;
    }
}

#[cfg(test)]
mod tests {
    use super::*;
    use crate::common::generate;
    use crate::common::random::for_case;
    use crate::{grammars, image_bytes};
    use vinzagew_reference::image::{Image, Row};
    use vinzagew_reference::lexer::Position;
    use vinzagew_reference::stack_length;

    /// The baseline and the reference agree on an image and a text: their results and what they leave on a
    /// stack of `room` entries. The number.
    fn agree(image: &[u8], text: &[u8], room: usize) -> usize {
        let mut stack = vec![0xa5; room];
        let found = run(image, text, &mut stack);
        let mut expected_stack = vec![0xa5; room];
        let expected = vinzagew_reference::run(image, text, &mut expected_stack);
        let expected = [expected.number as usize, expected.place, expected.tokens];
        assert_eq!(found, expected, "{image:?}, {text:?}");
        assert!(stack == expected_stack);
        let untouched = matches!(found[0], 12 | 13);
        assert!(stack.iter().all(|&entry| (entry == 0xa5) == untouched));
        found[0]
    }

    fn all_grammars() -> impl Iterator<Item = grammars::Grammar> {
        let pairs = grammars::pairs().into_iter().flatten();
        let scanning = grammars::scanning_alone().into_iter();
        grammars::all().into_iter().chain(pairs).chain(scanning)
    }

    /// The grammars' sheets pass, and the baseline and the reference agree on their texts, whole, cut
    /// off and damaged, on stacks long and short.
    #[test]
    fn baseline_and_reference_agree() {
        for grammar in all_grammars() {
            let image = image_bytes(&grammar.sheet);
            for text in [&grammar.text[..], grammar.short_text] {
                assert_eq!(agree(&image, text, stack_length(text.len())), 0);
            }
            for end in 0..300 {
                let mut text = grammar.text[..end].to_vec();
                agree(&image, &text, stack_length(end));
                agree(&image, &text, end % 7);
                if let Some(byte) = text.get_mut(end * 7 / 11) {
                    *byte = *byte % 64 + 32;
                }
                agree(&image, &text, stack_length(end));
            }
        }
        let image = image_bytes(&grammars::all()[0].sheet);
        assert_eq!(agree(&image, &[b'1'; TEXT_LIMIT + 1], 1), 12);
        assert_eq!(agree(&image, &[b'1'; TEXT_LIMIT], 1), 0);
    }

    /// They agree on the grammars' images cut off and with every byte changed.
    #[test]
    fn damaged_images() {
        let mut unreadable = 0;
        for grammar in all_grammars() {
            let image = image_bytes(&grammar.sheet);
            let text = &grammar.text[..40];
            for place in 0..image.len() {
                assert_eq!(agree(&image[..place], text, 9), 13);
                let mut damaged = image.clone();
                for value in 0..=255 {
                    damaged[place] = value;
                    unreadable += usize::from(agree(&damaged, text, 200) == 13);
                }
            }
            assert_eq!(agree(&[&image[..], &[0]].concat(), text, 9), 13);
        }
        assert!(unreadable > 0);
    }

    /// They agree on images that no sheet need have, whole and damaged.
    #[test]
    fn random_images() {
        let mut met = [0; 18];
        for case in 0..20_000 {
            let random = &mut for_case(5, case);
            let mut image = generate::readable_image(random);
            if random.once_in(4) {
                image = generate::stretch_tail(random, &image);
            }
            let text = generate::text(random, &image);
            let room = match random.below(3) {
                0 => random.below(12),
                _ => stack_length(text.len()),
            };
            met[agree(&image.to_bytes(), &text, room)] += 1;
            let damaged = generate::damage_field(random, &image);
            met[agree(&damaged, &text, room)] += 1;
            let damaged = generate::damage_bytes(random, image.to_bytes());
            met[agree(&damaged, &text, room)] += 1;
        }
        for number in [0, 13, 14, 15, 16, 17] {
            assert!(met[number] > 100, "{met:?}");
        }
    }

    /// An image with as many nonterminals and rules, and as long tails, as there may be; it has more than
    /// 65,536 bytes.
    fn largest_image() -> Image {
        let position = |rule| Position {
            low: 8 * rule as u8,
            high: 8 * rule as u8 + 7,
            rule,
            last: true,
            follow: 0,
        };
        let production = |row, rule| {
            let members = (0..TAIL_LIMIT).map(|index| (row + rule + 7 * index) % 64);
            (rule, members.collect())
        };
        let row = |row| Row {
            nullable: row % 2 == 0,
            productions: (0..32).map(|rule| production(row, rule)).collect(),
        };
        Image {
            skips: vec![false; 32],
            positions: (0..32).map(position).collect(),
            first: u64::from(u32::MAX),
            rows: (0..64).map(row).collect(),
        }
    }

    /// They agree on an image whose first set has ten groups, with other tenth groups.
    #[test]
    fn sets_of_ten_groups() {
        let position = Position {
            low: 0,
            high: 255,
            rule: 0,
            last: true,
            follow: 0,
        };
        let row = Row {
            nullable: true,
            productions: Vec::new(),
        };
        let image = Image {
            skips: vec![true],
            positions: vec![position; 64],
            first: u64::MAX,
            rows: vec![row],
        };
        let bytes = image.to_bytes();
        let tenth = bytes.len() - 4;
        for (value, number) in [(0, 13), (1, 0), (2, 13), (0x81, 13)] {
            let mut bytes = bytes.clone();
            bytes[tenth] = value;
            assert_eq!(agree(&bytes, b"a", 1), number);
        }
    }

    /// They agree on the largest image, also if some of its productions are missing.
    #[test]
    fn the_largest_image() {
        let mut image = largest_image();
        assert!(image.to_bytes().len() > 1 << 16);
        for case in 0..300 {
            let random = &mut for_case(6, case);
            let text = random.bytes(30);
            let number = agree(&image.to_bytes(), &text, stack_length(text.len()));
            assert!(case > 0 || number == 16);
            let row = random.pick(&[0, 1, 20, 62, 63]);
            let productions = &mut image.rows[*row].productions;
            if productions.len() > 24 {
                productions.remove(random.below(24));
            }
        }
    }
}
