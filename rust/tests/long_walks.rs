//! Long walks: the library against the reference where walks go far past the ends of their matches, in texts over
//! several blocks of 1,024 bytes, with a table and without. Also that no text of a mebibyte takes long.
//!
//! A walk in vain is made again, and twice its bytes are charged. Before the sum would be more than the text's length,
//! and more than 4,096, the library goes on with alive positions: the switch. No answer tells of it, so how often it is
//! made is counted by the reference's turns, and must come up.
//!
//! `VINZAGEW_SEED` sets the seed and `VINZAGEW_CASES` the number of cases of each random test. By hand:
//!
//!     VINZAGEW_SEED=7 VINZAGEW_CASES=10000 cargo test --offline --release --test long_walks -- --nocapture

mod common;
#[path = "../bench/src/long_walk_sheets.rs"]
mod long_walk_sheets;

use common::images::{inner, last, taking_all};
use common::long_walks::{self, BLOCK};
use common::random::{for_case, seed_and_cases, Random};
use common::tables::{full_run_table, Lent};
use common::{full_run, hexadecimal, image_of, LIBRARY, REFERENCE};
use long_walk_sheets::{a_star_b, a_star_b_and_c, comments, LongWalks, Text};
use std::collections::BTreeMap;
use std::time::{Duration, Instant};
use vinzagew::{stack_length, LIBRARY_LINKED, RUN_STACK_BYTES, TEXT_LIMIT};
use vinzagew_reference::image::Image;
use vinzagew_reference::long_walks::{switch, turns, Turn};
use vinzagew_reference::Table;

/// How many cases a random test has if `VINZAGEW_CASES` does not say. From so many on, everything that is counted
/// must come up.
const CASES: usize = 400;

/// How many things are counted of a run with the switch, beside the numbers that it ends with.
const EVENTS: usize = 11;

/// The numbers that a run may end with.
const ENDS: [u64; 5] = [0, 14, 15, 16, 17];

/// An image, a text, and how many entries the stack has.
struct Case {
    image: Image,
    text: Vec<u8>,
    room: usize,
}

impl Case {
    fn new(random: &mut Random, draw: impl Fn(&mut Random) -> Image) -> Case {
        let (image, text) = long_walks::reading(random, draw);
        let room = match random.below(3) {
            0 => random.range(1, 60),
            1 => random.range(1, text.len()),
            _ => stack_length(text.len()),
        };
        Case { image, text, room }
    }

    fn shown(&self) -> String {
        let (image, text) = (self.image.to_bytes(), &self.text);
        let (image, text) = (hexadecimal(&image), hexadecimal(text));
        format!("image {image}, text {text}, a stack of {}", self.room)
    }
}

/// The answer of a run by the reference, and the table, if it has at most 256 rows. The library gives the same, with a
/// table and without, and leaves the same in every buffer.
fn agree(case: &Case, context: &str) -> ([u64; 3], Option<Table>) {
    let (image, text, room) = (&case.image.to_bytes()[..], &case.text[..], case.room);
    let lent = Lent::enough(room);
    let with_table = full_run_table(REFERENCE, image, text, lent);
    let answer = match with_table.1 {
        None => full_run(REFERENCE, image, text, room),
        Some(_) => with_table.0,
    };
    if LIBRARY_LINKED {
        let found = full_run(LIBRARY, image, text, room);
        assert_eq!(found, answer, "{context}: {}", case.shown());
        let found = full_run_table(LIBRARY, image, text, lent);
        assert_eq!(
            found.0,
            with_table.0,
            "{context}, with a table: {}",
            case.shown()
        );
        assert!(
            found.1 == with_table.1,
            "{context}, the table: {}",
            case.shown()
        );
    }
    (answer, with_table.1)
}

/// The block that a place is in.
fn block(place: usize) -> usize {
    place / BLOCK
}

/// The turns of a run that ends at this place: those before the switch, which are all if it is not made, and those from
/// it on. The reference's turns and its run end at the same place.
fn turns_around_the_switch(case: &Case, end: usize) -> [Vec<Turn>; 2] {
    let mut turns = turns(&case.image, &case.text);
    turns.retain(|turn| turn.place <= end);
    let last = turns.last().expect("no text is empty");
    let ends = [last.place, last.place + last.length];
    assert!(ends.contains(&end), "{end}: {}", case.shown());
    let first = switch(&turns, case.text.len()).unwrap_or(turns.len());
    let after = turns.split_off(first);
    [turns, after]
}

/// What is counted of the turns before the switch and of those from it on, and whether it is so here.
fn events(
    [before, after]: &[Vec<Turn>; 2],
    text: &[u8],
    with_table: bool,
) -> [(&'static str, bool); EVENTS] {
    let place = after[0].place;
    let some = |holds: &dyn Fn(&Turn) -> bool| after.iter().any(holds);
    let blocks = |turn: &Turn, bytes: usize| block(turn.place + bytes - 1) - block(turn.place);
    let crossed = |turn: &Turn| blocks(turn, turn.length.max(1));
    let in_vain = |turn: &Turn| blocks(turn, turn.walked.max(1)) > crossed(turn);
    let made_again = before.iter().any(Turn::is_in_vain);
    let at_an_end = |turn: &Turn| turn.length > 0 && (turn.place + turn.length) % BLOCK == 0;
    [
        ("the switch is made", true),
        ("at the text's start", place == 0),
        ("after a walk that is made again", made_again),
        ("past the first block", block(place) > 0),
        ("in the last block", block(place) == block(text.len() - 1)),
        (
            "then a match crosses a block's end",
            some(&|turn| crossed(turn) == 1),
        ),
        (
            "then a match crosses several",
            some(&|turn| crossed(turn) > 1),
        ),
        ("then a match ends at a block's end", some(&at_an_end)),
        ("then a walk in vain crosses a block's end", some(&in_vain)),
        ("with a table", with_table),
        ("with over 256 rows", !with_table),
    ]
}

/// Things that are counted, with how often they came up.
type Tally = BTreeMap<&'static str, usize>;

/// What is counted of many runs.
#[derive(Debug, Default)]
struct Counts {
    /// What comes up in runs in which the switch is made.
    tally: Tally,
    /// The numbers that these runs end with.
    ends: BTreeMap<u64, usize>,
    /// The numbers that the others end with in which a walk is made again.
    ends_without: BTreeMap<u64, usize>,
}

impl Counts {
    /// Counts a run that ended with this number at this place.
    fn add(&mut self, case: &Case, [number, end]: [u64; 2], with_table: bool) {
        let turns = turns_around_the_switch(case, end as usize);
        if !turns[1].is_empty() {
            for (event, holds) in events(&turns, &case.text, with_table) {
                *self.tally.entry(event).or_insert(0) += usize::from(holds);
            }
            *self.ends.entry(number).or_insert(0) += 1;
        } else if turns[0].iter().any(Turn::is_in_vain) {
            *self.ends_without.entry(number).or_insert(0) += 1;
        }
    }

    /// Of so many cases the switch is made in a third at least, and everything that is counted came up.
    fn all_came_up(&self, cases: usize) -> bool {
        self.tally.len() == EVENTS
            && self.tally.values().all(|&count| count > 0)
            && self.tally["the switch is made"] >= cases / 3
            && self.ends.keys().eq(&ENDS)
            && self.ends_without.keys().eq(&ENDS)
    }
}

/// Compares the library with the reference on random cases, and counts what comes up.
fn compare(kind: &str, draw: impl Fn(&mut Random) -> Image) {
    let (seed, cases) = seed_and_cases(CASES);
    let mut counts = Counts::default();
    for number in 0..cases {
        let case = Case::new(&mut for_case(seed, number), &draw);
        let ([answer, end, _], table) = agree(&case, &format!("seed {seed}, case {number}"));
        counts.add(&case, [answer, end], table.is_some());
    }
    println!("{kind}, seed {seed}, {cases} cases: {counts:#?}");
    assert!(cases < CASES || counts.all_came_up(cases), "{counts:?}");
}

#[test]
fn random_sheets() {
    compare("sheets", |random| {
        let sheet = long_walks::sheet(random);
        image_of(sheet.as_bytes()).expect("it passes")
    });
}

/// No sheet need have these images.
#[test]
fn random_images() {
    compare("images", long_walks::image);
}

/// The image of a sheet that is written down.
fn image_of_named(own: &LongWalks) -> Image {
    image_of(own.sheet.as_bytes()).expect("it passes")
}

/// Every text is accepted, of whatever length.
#[test]
fn sheets_with_names_around_block_ends() {
    for own in long_walk_sheets::all() {
        let image = image_of_named(&own);
        for (name, text) in own.ordinary_texts().into_iter().chain(own.in_vain) {
            for length in [1_023, 1_024, 1_025, 2_047, 2_048, 2_049] {
                let case = Case {
                    image: image.clone(),
                    text: text(length),
                    room: 1,
                };
                let context = format!("{}: {name}, {length} bytes", own.name);
                let ([number, place, _], _) = agree(&case, &context);
                assert_eq!([number, place], [0, length as u64], "{context}");
            }
        }
    }
}

/// The texts in vain are so: the switch is made in each of them, and in none that is ordinary. Where each token has one
/// byte, no walk is in vain at all: else the times of that text would not tell what such walks cost.
#[test]
fn texts_with_names_are_walked_in_vain() {
    for own in long_walk_sheets::all() {
        let image = image_of_named(&own);
        let turns = |text: Text| turns(&image, &text(2_048));
        let made = |text: Text| switch(&turns(text), 2_048).is_some();
        for (name, text) in own.ordinary_texts() {
            assert!(!made(text), "{}: {name}", own.name);
        }
        let short = |turn: &Turn| turn.length == 1 && !turn.is_in_vain();
        assert!(turns(own.short_tokens).iter().all(short), "{}", own.name);
        for (name, text) in own.in_vain {
            assert!(made(text), "{}: {name}", own.name);
        }
    }
}

/// By the library, with a table and without, a run on a stack of one entry gives number, place and count.
fn gives(image: &[u8], text: &[u8], expected: [u64; 3]) {
    let found = full_run(LIBRARY, image, text, 1);
    assert_eq!(found, expected);
    let (found, table) = full_run_table(LIBRARY, image, text, Lent::enough(1));
    assert_eq!(found, expected, "with a table");
    assert!(table.is_some());
}

/// The rules `a`, `c` and `a*b` in an image with 64 positions, of which the last is that of the star.
fn with_64_positions() -> Vec<u8> {
    let mut positions = vec![inner(b'z', b'z', 0, &[]); 60];
    positions.extend([
        last(b'a', b'a', 1, &[]),
        last(b'c', b'c', 2, &[]),
        last(b'b', b'b', 3, &[]),
        inner(b'a', b'a', 3, &[62, 63]),
    ]);
    taking_all(&[false; 4], &[60, 61, 62, 63], positions)
}

/// First the switch is made, by `a` that no `b` follows; later one match goes from `start` to `end`.
fn one_long_match(image: &[u8], [start, end, length]: [usize; 3]) {
    let mut text = [vec![b'a'; 200], vec![b'c']].concat();
    text.resize(start, b'c');
    text.resize(end - 1, b'a');
    text.push(b'b');
    text.resize(length, b'c');
    let tokens = start + 1 + (length - end);
    gives(image, &text, [0, length as u64, tokens as u64]);
    // Without its end the match is one `a`, again and again.
    text[end - 1] = b'c';
    gives(image, &text, [0, length as u64, length as u64]);
    text[end - 1] = b'd';
    gives(image, &text, [14, end as u64 - 1, end as u64 - 1]);
}

#[test]
#[cfg_attr(not(vinzagew_library), ignore = "the static library was not found")]
fn a_match_from_block_end_to_block_end() {
    for image in [
        image_of_named(&a_star_b_and_c()).to_bytes(),
        with_64_positions(),
    ] {
        for start in 1_021..=1_027 {
            for end in (1_021..=1_027).flat_map(|end| [end + 1_024, end + 2_048]) {
                for length in [end, end + 1, 4_096] {
                    one_long_match(&image, [start, end, length]);
                }
            }
        }
    }
}

/// So long may a mebibyte take: many times what it does take, and far less than if each walk went to its end.
const MEBIBYTE_LIMIT: Duration = Duration::from_secs(2);

/// The library reads texts of 64 KiB and of 1 MiB to their ends in time, with a table and without. The shorter comes
/// first, so that a failure does not take half an hour. Gives the counts.
fn in_time(own: &LongWalks, name: &str, text: impl Fn(usize) -> Vec<u8>) -> [u64; 2] {
    let image = image_of_named(own).to_bytes();
    let lent = Lent::enough(1);
    [TEXT_LIMIT / 16, TEXT_LIMIT].map(|length| {
        let text = text(length);
        let limit = MEBIBYTE_LIMIT * length as u32 / TEXT_LIMIT as u32;
        let run = |with_table| match with_table {
            true => full_run_table(LIBRARY, &image, &text, lent).0,
            false => full_run(LIBRARY, &image, &text, 1),
        };
        let answers = [false, true].map(|with_table| {
            let start = Instant::now();
            let answer = run(with_table);
            let time = start.elapsed();
            let context = format!("{}: {name}, {length} bytes, table {with_table}", own.name);
            assert!(time < limit, "{context}: {time:?}");
            assert_eq!(answer[..2], [0, length as u64], "{context}");
            answer[2]
        });
        assert_eq!(answers[0], answers[1]);
        answers[0]
    })
}

#[test]
#[cfg_attr(not(vinzagew_library), ignore = "the static library was not found")]
fn a_mebibyte_in_time() {
    for own in long_walk_sheets::all() {
        for (name, text) in &own.in_vain {
            in_time(&own, name, text);
        }
    }
}

/// The answers are known without the reference, which would take hours.
#[test]
#[cfg_attr(not(vinzagew_library), ignore = "the static library was not found")]
fn a_mebibyte_with_known_answers() {
    let only_a = |length| vec![b'a'; length];
    assert_eq!(in_time(&a_star_b(), "only a", only_a), [65_536, 1_048_576]);
    // `/` and `*` are tokens, and the blank is skipped; the last byte is a `/`.
    let opened = |length| b"/* ".iter().copied().cycle().take(length).collect();
    let counts = in_time(&comments(), "opened", opened);
    assert_eq!(counts, [43_691, 699_051]);
    // One match from the start to the end.
    let closed = |length| [only_a(length - 1), vec![b'b']].concat();
    assert_eq!(in_time(&a_star_b(), "closed", closed), [1, 1]);
    // Half of it in vain, then one match.
    let half_closed = |length| [only_a(length / 2), vec![b'c'], closed(length / 2 - 1)].concat();
    let counts = in_time(&a_star_b_and_c(), "half closed", half_closed);
    assert_eq!(counts, [32_770, 524_290]);
    let image = image_of_named(&a_star_b()).to_bytes();
    let text = [only_a(TEXT_LIMIT - 1), vec![b'c']].concat();
    gives(&image, &text, [14, 1_048_575, 1_048_575]);
}

/// Runs that come to alive positions, on threads with as much of the processor's stack as the header promises to be
/// enough.
#[test]
#[cfg_attr(not(vinzagew_library), ignore = "the static library was not found")]
fn a_run_fits_its_stack() {
    let image = image_of_named(&a_star_b()).to_bytes();
    let text = vec![b'a'; 3 * BLOCK + 1_100];
    let expected = [0, text.len() as u64, text.len() as u64];
    let mut stack = vec![0; stack_length(text.len())];
    let mut lent = (
        vec![0; vinzagew::TABLE_ENTRIES],
        vec![0; vinzagew::WINNER_ENTRIES],
    );
    let calls = std::thread::Builder::new().stack_size(RUN_STACK_BYTES);
    let thread = calls.spawn(move || {
        let mut out = [[0; 3]; 2];
        (LIBRARY.run)(&image, &text, &mut stack, &mut out[0]);
        let (table, winners) = (&mut lent.0, &mut lent.1);
        (LIBRARY.run_table)(&image, &text, table, winners, &mut stack, &mut out[1]);
        out
    });
    let out = thread.expect("a thread").join().expect("an answer");
    assert_eq!(out, [expected, expected]);
}
