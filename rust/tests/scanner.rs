//! The scanner: the library against the reference on readable images that no sheet need have, and on texts in
//! which many bytes after each other keep the same positions.
//!
//! What comes up in the random images and texts is counted with a walk of this file's own, which is held against
//! the reference. What the cases with names give is written down by hand.
//!
//! `VINZAGEW_SEED` sets the seed and `VINZAGEW_CASES` the number of cases of each random test. By hand:
//!
//!     VINZAGEW_SEED=7 VINZAGEW_CASES=100000 cargo test --offline --release --test scanner -- --nocapture

mod common;

use common::calls::Call;
use common::images::{self, all, inner, last, members, taking_all};
use common::random::{for_case, seed_and_cases};
use common::{engines, full_run, hexadecimal, pattern, LIBRARY, REFERENCE};
use std::collections::BTreeMap;
use vinzagew::stack_length;
use vinzagew_reference::image::Image;
use vinzagew_reference::lexer::Position;
use vinzagew_reference::machine::longest_match;

/// How many cases a random test has if `VINZAGEW_CASES` does not say. From so many on, everything that is
/// counted must come up.
const CASES: usize = 20_000;

/// How many things are counted of an image, of the bytes of a walk, and of its end.
const IMAGE_EVENTS: usize = 8;
const BYTE_EVENTS: usize = 8;
const END_EVENTS: usize = 8;

/// An image, a text, and the lengths of the stacks on which it is run: a long enough one and two that may be
/// too short.
struct Case {
    image: Image,
    text: Vec<u8>,
    rooms: [usize; 3],
}

impl Case {
    fn new(seed: u64, case: usize) -> Case {
        let random = &mut for_case(seed, case);
        let image = images::image(random);
        let text = images::text(random, &image);
        let most = text.len();
        let rooms = [stack_length(most), random.below(4), random.below(most + 2)];
        Case { image, text, rooms }
    }
}

/// The library and the reference agree on a run: on number, place, count and the whole stack.
fn agree(image: &[u8], text: &[u8], room: usize, context: &str) {
    let [found, expected] = [LIBRARY, REFERENCE].map(|engine| {
        let mut call = Call::Run {
            image: image.to_vec(),
            text: text.to_vec(),
            stack: pattern(room),
            out: vec![7; 3],
        };
        call.make(engine);
        call
    });
    let stacks_equal = found.buffers() == expected.buffers();
    assert!(
        found == expected,
        "{context}:\nlibrary: {found}\nreference: {expected}\nstacks equal: {stacks_equal}"
    );
}

#[test]
#[cfg_attr(not(vinzagew_library), ignore = "the static library was not found")]
fn library_and_reference_agree() {
    let (seed, cases) = seed_and_cases(CASES);
    for number in 0..cases {
        let case = Case::new(seed, number);
        let image = case.image.to_bytes();
        for room in case.rooms {
            let context = format!("seed {seed}, case {number}");
            agree(&image, &case.text, room, &context);
        }
    }
    println!("seed {seed}, {cases} cases agree");
}

/// The sets of positions that the bytes from the start of `rest` keep, up to the first byte that keeps none.
fn kept_sets(image: &Image, rest: &[u8]) -> Vec<u64> {
    let mut sets = Vec::new();
    let mut held = image.first;
    for &byte in rest {
        let (mut kept, mut next) = (0, 0);
        for (number, position) in image.positions.iter().enumerate() {
            if held >> number & 1 == 1 && position.low <= byte && byte <= position.high {
                kept |= 1 << number;
                next |= position.follow;
            }
        }
        if kept == 0 {
            break;
        }
        sets.push(kept);
        held = next;
    }
    sets
}

/// The rules that end a match where a byte keeps this set, rising; a rule with several positions comes once.
fn ended_rules(image: &Image, kept: u64) -> Vec<usize> {
    let ended = members(image, kept).into_iter();
    let mut rules: Vec<usize> = ended
        .filter(|position| position.last)
        .map(|position| position.rule)
        .collect();
    rules.dedup();
    rules
}

/// A walk from a place of a text on.
struct Walk<'a> {
    rest: &'a [u8],
    /// The sets that are kept.
    kept: Vec<u64>,
    /// The length of the longest match, 0 without one, and the rules that end it.
    length: usize,
    rules: Vec<usize>,
}

impl<'a> Walk<'a> {
    fn new(image: &Image, rest: &'a [u8]) -> Self {
        let kept = kept_sets(image, rest);
        let mut length = kept.len();
        while length > 0 && ended_rules(image, kept[length - 1]).is_empty() {
            length -= 1;
        }
        let rules = match length {
            0 => Vec::new(),
            _ => ended_rules(image, kept[length - 1]),
        };
        Walk {
            rest,
            kept,
            length,
            rules,
        }
    }

    /// The rule and the length of the longest match.
    fn found(&self) -> Option<(usize, usize)> {
        Some((*self.rules.first()?, self.length))
    }

    /// Whether the byte at this index keeps the same set as the byte before it.
    fn repeats(&self, index: usize) -> bool {
        index > 0 && index < self.kept.len() && self.kept[index] == self.kept[index - 1]
    }

    /// What is counted of the bytes of a walk, and whether it is so at some byte.
    fn byte_events(&self) -> [(&'static str, bool); BYTE_EVENTS] {
        let (kept, rest) = (&self.kept, self.rest);
        let some = |holds: &dyn Fn(usize) -> bool| (0..kept.len()).any(holds);
        let another_follows = |i: usize| i + 1 < kept.len() && !self.repeats(i + 1);
        [
            ("same set as before", some(&|i| self.repeats(i))),
            (
                "same set as before, by another byte",
                some(&|i| self.repeats(i) && rest[i] != rest[i - 1]),
            ),
            (
                "same set as before, then another set",
                some(&|i| self.repeats(i) && another_follows(i)),
            ),
            ("position 63 kept", some(&|i| kept[i] >> 63 == 1)),
            ("byte 255 kept", some(&|i| rest[i] == 255)),
            ("byte 0 kept", some(&|i| rest[i] == 0)),
            ("over 8 kept", some(&|i| kept[i].count_ones() > 8)),
            ("all 64 kept", some(&|i| kept[i] == u64::MAX)),
        ]
    }

    /// What is counted of the end of a walk and of its match, and whether it is so here.
    fn end_events(&self, image: &Image) -> [(&'static str, bool); END_EVENTS] {
        let (last, length) = (self.kept.last(), self.length);
        let back = match length {
            0 => 0,
            _ => self.kept.len() - length,
        };
        let repeats_past_match = (length + 1..self.kept.len()).any(|i| self.repeats(i));
        let none_follows = |set: &u64| members(image, *set).iter().all(|own| own.follow == 0);
        let at_end = length > 0 && self.repeats(length - 1);
        [
            ("same set as before, at the match's end", at_end),
            ("goes back", back > 0),
            ("goes back by 30 bytes or more", back >= 30),
            (
                "goes back over the same set as before",
                back > 0 && repeats_past_match,
            ),
            ("nothing kept at the first byte", last.is_none()),
            (
                "something kept, but no match",
                last.is_some() && length == 0,
            ),
            (
                "something kept that none may follow",
                last.map_or(false, none_follows),
            ),
            ("several rules end the match", self.rules.len() > 1),
        ]
    }
}

/// What is counted of an image, and whether it is so here.
fn image_events(image: &Image) -> [(&'static str, bool); IMAGE_EVENTS] {
    let positions = &image.positions;
    let any = |holds: &dyn Fn(&Position) -> bool| positions.iter().any(holds);
    let any_two = |holds: &dyn Fn(&Position, &Position) -> bool| {
        let holds_before =
            |own: usize| (0..own).any(|earlier| holds(&positions[earlier], &positions[own]));
        (0..positions.len()).any(holds_before)
    };
    let adjacent = |low: &Position, high: &Position| u32::from(low.high) + 1 == high.low.into();
    [
        ("64 positions", positions.len() == 64),
        ("empty first set", image.first == 0),
        ("full first set", image.first == all(positions.len())),
        ("empty follow set", any(&|own| own.follow == 0)),
        (
            "follow set with 64 members",
            any(&|own| own.follow == u64::MAX),
        ),
        (
            "two equal classes",
            any_two(&|one, other| (one.low, one.high) == (other.low, other.high)),
        ),
        (
            "two adjacent classes",
            any_two(&|one, other| adjacent(one, other) || adjacent(other, one)),
        ),
        (
            "rule without positions",
            !(0..image.skips.len()).all(|rule| any(&|own| own.rule == rule)),
        ),
    ]
}

/// Things that are counted, with how often they came up.
type Tally = BTreeMap<&'static str, usize>;

fn count<const N: usize>(tally: &mut Tally, events: [(&'static str, bool); N]) {
    for (event, holds) in events {
        *tally.entry(event).or_insert(0) += usize::from(holds);
    }
}

/// What comes up in an image and in the walks of a run that ends at this place. Each walk finds what the
/// reference finds.
fn events(case: &Case, end: usize, context: &str) -> Tally {
    let mut tally = Tally::new();
    count(&mut tally, image_events(&case.image));
    let mut place = 0;
    while place < case.text.len() && place <= end {
        let rest = &case.text[place..];
        let walk = Walk::new(&case.image, rest);
        assert_eq!(walk.found(), longest_match(&case.image, rest), "{context}");
        count(&mut tally, walk.byte_events());
        count(&mut tally, walk.end_events(&case.image));
        match walk.found() {
            Some((_, length)) => place += length,
            None => break,
        }
    }
    tally
}

/// The cases are of use only if all that matters comes up in them. For each thing the cases are counted in which
/// it comes up once or more.
#[test]
fn what_matters_comes_up() {
    let (seed, cases) = seed_and_cases(CASES);
    let mut tally = Tally::new();
    let mut numbers = BTreeMap::new();
    for number in 0..cases {
        let case = Case::new(seed, number);
        let image = case.image.to_bytes();
        let context = format!(
            "seed {seed}, case {number}: image {} text {}",
            hexadecimal(&image),
            hexadecimal(&case.text)
        );
        assert_eq!(Image::read(&image).as_ref(), Ok(&case.image), "{context}");
        let ran = case
            .rooms
            .map(|room| full_run(REFERENCE, &image, &case.text, room));
        for [answer, _, _] in ran {
            *numbers.entry(answer).or_insert(0) += 1;
        }
        let [_, end, _] = ran[0];
        for (event, times) in events(&case, end as usize, &context) {
            *tally.entry(event).or_insert(0) += usize::from(times > 0);
        }
    }
    println!("seed {seed}, {cases} cases: {tally:#?}\nnumbers: {numbers:?}");
    let all_came_up = tally.len() == IMAGE_EVENTS + BYTE_EVENTS + END_EVENTS
        && tally.values().all(|&count| count > 0);
    assert!(cases < CASES || all_came_up, "{tally:?}");
    let every_number = numbers.keys().eq(&[0, 14, 15, 16, 17]);
    assert!(cases < CASES || every_number, "{numbers:?}");
}

/// By every engine, the run of an image over a text gives number, place and count, on a long enough stack and
/// on one entry, which is all that the grammar of [`taking_all`] needs.
fn gives(image: &[u8], text: &[u8], expected: [u64; 3]) {
    for engine in engines() {
        for room in [1, stack_length(text.len())] {
            let found = full_run(engine, image, text, room);
            assert_eq!(found, expected, "{}: {text:?}", engine.name);
        }
    }
}

/// Rules `a` and `ab*c`, and a third, `b`, which may skip.
fn a_above_abc(third_skips: bool) -> Vec<u8> {
    let positions = vec![
        last(b'a', b'a', 0, &[]),
        inner(b'a', b'a', 1, &[2, 3]),
        inner(b'b', b'b', 1, &[2, 3]),
        last(b'c', b'c', 1, &[]),
        last(b'b', b'b', 2, &[]),
    ];
    taking_all(&[false, false, third_skips], &[0, 1, 4], positions)
}

/// `ab*c` is walked to the text's end or to the byte that ends it, and without its `c` the match is `a`.
#[test]
fn goes_back_to_a_shorter_match() {
    let without_b = taking_all(
        &[false, false],
        &[0, 1],
        vec![
            last(b'a', b'a', 0, &[]),
            inner(b'a', b'a', 1, &[2, 3]),
            inner(b'b', b'b', 1, &[2, 3]),
            last(b'c', b'c', 1, &[]),
        ],
    );
    gives(&without_b, b"abbbb", [14, 1, 1]);
    gives(&without_b, b"abbbbc", [0, 6, 1]);
    gives(&a_above_abc(false), b"abbbb", [0, 5, 5]);
    gives(&a_above_abc(true), b"abbbb", [0, 5, 1]);
    gives(&a_above_abc(true), b"abbbba", [0, 6, 2]);
    gives(&a_above_abc(true), b"abbbbabbbbc", [0, 11, 2]);
    gives(&a_above_abc(true), b"abbbbabbbbcc", [14, 11, 2]);
}

#[test]
fn a_class_with_every_byte() {
    let every_byte: Vec<u8> = (0..=255).collect();
    let one_byte = taking_all(&[false], &[0], vec![last(0, 255, 0, &[])]);
    gives(&one_byte, &[0, 255], [0, 2, 2]);
    gives(&one_byte, &every_byte, [0, 256, 256]);
    let many_bytes = taking_all(&[false], &[0], vec![last(0, 255, 0, &[0])]);
    gives(&many_bytes, &[0], [0, 1, 1]);
    gives(&many_bytes, &[255], [0, 1, 1]);
    gives(&many_bytes, &[255, 0, 255], [0, 3, 1]);
    gives(&many_bytes, &every_byte, [0, 256, 1]);
}

/// Positions 0 to 62 have `b` and belong to rule 0, which skips; position 63 has `a` and belongs to rule 1.
#[test]
fn only_the_last_of_64_positions_is_kept() {
    let everything: Vec<usize> = (0..64).collect();
    let image = |follow: &[usize]| {
        let mut positions = vec![last(b'b', b'b', 0, follow); 63];
        positions.push(last(b'a', b'a', 1, follow));
        taking_all(&[true, false], &everything, positions)
    };
    gives(&image(&[]), b"aaaa", [0, 4, 4]);
    gives(&image(&[63]), b"aaaa", [0, 4, 1]);
    gives(&image(&everything), b"aaaa", [0, 4, 1]);
    gives(&image(&everything), b"aabaa", [0, 5, 1]);
    gives(&image(&everything), b"aabb", [0, 4, 0]);
    gives(&image(&[63]), b"aabb", [0, 4, 1]);
    gives(&image(&[]), b"abc", [14, 2, 1]);
}

/// One class from `a` to `z` keeps the same set at every letter. Split into two positions, the first half of the
/// alphabet and the second, it keeps the same set only where two letters of one half come after each other. The
/// words are the same.
#[test]
fn the_same_text_with_and_without_the_same_set_kept() {
    let blank = last(b' ', b' ', 1, &[]);
    let whole = vec![last(b'a', b'z', 0, &[0]), blank];
    let whole = taking_all(&[false, true], &[0, 1], whole);
    let halves = vec![
        last(b'a', b'm', 0, &[0, 1]),
        last(b'n', b'z', 0, &[0, 1]),
        blank,
    ];
    let halves = taking_all(&[false, true], &[0, 1, 2], halves);
    for image in [&whole, &halves] {
        gives(image, b"anbozmzn", [0, 8, 1]);
        gives(image, b"aaaannnn", [0, 8, 1]);
        gives(image, b"amnz an aa n nn", [0, 15, 5]);
        gives(image, b"amnz{", [14, 4, 1]);
        gives(image, b"mm`", [14, 2, 1]);
    }
}

/// A word is one token, however often its middle byte comes.
#[test]
fn a_longer_and_a_shorter_run_of_one_byte() {
    let image = a_above_abc(true);
    for middle in [0, 1, 2, 3, 63, 64, 65, 1_000] {
        let word = [&b"a"[..], &vec![b'b'; middle], b"c"].concat();
        gives(&image, &word, [0, middle as u64 + 2, 1]);
        gives(
            &image,
            &[&word[..], &word].concat(),
            [0, 2 * middle as u64 + 4, 2],
        );
    }
}

/// Of the rules that end the longest match the lowest wins, also where only the higher ended an earlier one.
#[test]
fn the_lowest_of_several_rules_wins() {
    // Rule 0, `aa`, skips; rule 1 has all words of one or more letters.
    let positions = vec![
        inner(b'a', b'a', 0, &[1]),
        last(b'a', b'a', 0, &[]),
        last(b'a', b'z', 1, &[2]),
    ];
    let image = taking_all(&[true, false], &[0, 2], positions);
    gives(&image, b"a", [0, 1, 1]);
    gives(&image, b"aa", [0, 2, 0]);
    gives(&image, b"aaa", [0, 3, 1]);
    gives(&image, b"ab", [0, 2, 1]);
}

#[test]
fn an_empty_first_set() {
    let image = taking_all(&[false], &[], vec![last(0, 255, 0, &[0])]);
    gives(&image, b"", [0, 0, 0]);
    gives(&image, b"a", [14, 0, 0]);
    gives(&image, &[0; 40], [14, 0, 0]);
}

/// Every class has the bytes from its low to its high one, and no other.
#[test]
fn every_class_has_its_own_bytes() {
    let every_byte: Vec<u8> = (0..=255).collect();
    let pairs = (0..=255).flat_map(|low| (low..=255).map(move |high| (low, high)));
    for (low, high) in pairs {
        let size = u64::from(high - low) + 1;
        let alone = taking_all(&[false], &[0], vec![last(low, high, 0, &[])]);
        let from_low = &every_byte[low.into()..];
        let number = if high == 255 { 0 } else { 14 };
        gives(&alone, from_low, [number, size, size]);
        // With a rule below it that skips every byte, the whole text is read, and the tokens are the bytes of
        // the class: there are no more of them than those from low to high.
        let above_all = vec![last(low, high, 0, &[]), last(0, 255, 1, &[])];
        let above_all = taking_all(&[false, true], &[0, 1], above_all);
        gives(&above_all, &every_byte, [0, 256, size]);
    }
}
