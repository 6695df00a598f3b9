//! Runs with a table: the library against the reference, runs with a table against runs without one, and what the
//! lent buffers hold at the end.
//!
//! What comes up in the random images and texts is counted with sets of this file's own, against which every table
//! is held, row by row and byte by byte. What the cases with names give is written down by hand.
//!
//! `VINZAGEW_SEED` sets the seed and `VINZAGEW_CASES` the number of cases of each random test. By hand:
//!
//!     VINZAGEW_SEED=7 VINZAGEW_CASES=100000 cargo test --offline --release --test table -- --nocapture

mod common;

use common::calls::{entry_count, Call};
use common::images::{self, inner, last, members, near_row_limit, taking_all};
use common::random::{for_case, seed_and_cases, Random};
use common::tables::{entry_pattern, full_run_table, short_out_changes_nothing, Lent};
use common::{
    engines, full_run, generate, hexadecimal, image_of, pattern, IMAGE_OF_D, LIBRARY, REFERENCE,
};
use std::collections::{BTreeMap, BTreeSet};
use vinzagew::builder::{Regex, SheetBuilder};
use vinzagew::{stack_length, NO_WINNER, TABLE_ENTRIES, TEXT_LIMIT, WINNER_ENTRIES};
use vinzagew_reference::image::Image;
use vinzagew_reference::machine::longest_match;
use vinzagew_reference::Table;

/// How many cases a random test has if `VINZAGEW_CASES` does not say. From so many on, everything that is counted
/// must come up.
const CASES: usize = 4_000;

/// How many things are counted of a table, of the matches of a text, and of what is lent.
const TABLE_EVENTS: usize = 13;
const MATCH_EVENTS: usize = 5;
const LENT_EVENTS: usize = 8;

/// An image, a text, and what is lent to the run.
struct Case {
    image: Vec<u8>,
    text: Vec<u8>,
    lent: Lent,
    /// How many rows the table has, or would have, if that is known beforehand.
    rows: Option<usize>,
}

/// A readable image, with how many rows its table has, if that is known: of a sheet, or one that no sheet need
/// have.
fn readable_image(random: &mut Random) -> (Image, Option<usize>) {
    let of_sheet = |sheet: vinzagew::builder::Sheet| image_of(sheet.as_bytes()).expect("it passes");
    let image = match random.below(16) {
        0 | 1 => of_sheet(generate::passing_sheet(random)),
        2 => of_sheet(generate::unfinished_sheet(random)),
        3 | 4 => of_sheet(generate::overlapping_sheet(random)),
        5 => of_sheet(generate::large_sheet(random)),
        6 | 7 => generate::readable_image(random),
        8 => {
            let (image, rows) = near_row_limit(random);
            return (image, Some(rows));
        }
        _ => images::image(random),
    };
    (image, None)
}

/// A text for an image.
fn text(random: &mut Random, image: &Image) -> Vec<u8> {
    if random.once_in(2) {
        images::text(random, image)
    } else {
        generate::text(random, image)
    }
}

/// The lengths of the buffers. Most are enough.
fn lent(random: &mut Random, text: &[u8]) -> Lent {
    let stack = match random.below(6) {
        0 => 0,
        1 => random.below(4),
        2 => random.below(text.len() + 2),
        _ => stack_length(text.len()),
    };
    Lent {
        table: entry_count(random, TABLE_ENTRIES),
        winners: entry_count(random, WINNER_ENTRIES),
        stack,
    }
}

impl Case {
    fn new(seed: u64, case: usize) -> Case {
        let random = &mut for_case(seed, case);
        let (image, rows) = readable_image(random);
        let mut text = text(random, &image);
        let lent = lent(random, &text);
        if random.once_in(150) {
            text.resize(TEXT_LIMIT + 1, b'a');
        }
        let whole = image.to_bytes();
        let image = match random.below(20) {
            0 => generate::damage(random, &whole),
            1 => generate::damage_field(random, &image),
            _ => whole.clone(),
        };
        // A damaged image may be readable still, and have other rows.
        let rows = rows.filter(|_| image == whole);
        Case {
            image,
            text,
            lent,
            rows,
        }
    }

    fn context(&self, seed: u64, case: usize) -> String {
        let text = &self.text[..self.text.len().min(2_000)];
        format!(
            "seed {seed}, case {case}: image {}, text {}, {} bytes, {:?}",
            hexadecimal(&self.image),
            hexadecimal(text),
            self.text.len(),
            self.lent
        )
    }

    fn run_with_a_table(&self) -> Call {
        Call::RunTable {
            image: self.image.clone(),
            text: self.text.clone(),
            table: entry_pattern(self.lent.table),
            winners: entry_pattern(self.lent.winners),
            stack: pattern(self.lent.stack),
            out: vec![7; 3],
        }
    }

    fn run_without_a_table(&self) -> Call {
        Call::Run {
            image: self.image.clone(),
            text: self.text.clone(),
            stack: pattern(self.lent.stack),
            out: vec![7; 3],
        }
    }
}

/// With all buffers, to the last entry. Unless the library gives 18 or 19, it gives number, place and count of its
/// run without a table, and the same stack.
#[test]
#[cfg_attr(not(vinzagew_library), ignore = "the static library was not found")]
fn library_and_reference_agree() {
    let (seed, cases) = seed_and_cases(CASES);
    for number in 0..cases {
        let case = Case::new(seed, number);
        let [found, expected] = [LIBRARY, REFERENCE].map(|engine| {
            let mut call = case.run_with_a_table();
            call.make(engine);
            call
        });
        let context = || case.context(seed, number);
        assert_eq!(found.out(), expected.out(), "{}", context());
        assert!(found.entries() == expected.entries(), "{}", context());
        assert!(found.buffers() == expected.buffers(), "{}", context());
        if matches!(found.out(), [18 | 19, ..]) {
            continue;
        }
        let mut without = case.run_without_a_table();
        without.make(LIBRARY);
        assert_eq!(found.out(), without.out(), "{}", context());
        assert!(found.buffers() == without.buffers(), "{}", context());
    }
    println!("seed {seed}, {cases} cases agree");
}

/// The positions that a byte keeps of some that are held.
fn kept(image: &Image, held: u64, byte: u8) -> u64 {
    let mut kept = 0;
    for (number, position) in image.positions.iter().enumerate() {
        if held >> number & 1 == 1 && position.low <= byte && byte <= position.high {
            kept |= 1 << number;
        }
    }
    kept
}

/// The positions that are held after these were kept.
fn followers(image: &Image, kept: u64) -> u64 {
    let kept = members(image, kept).into_iter();
    kept.fold(0, |held, position| held | position.follow)
}

/// The rules that end a match where these positions are kept.
fn ended_rules(image: &Image, kept: u64) -> Vec<usize> {
    let ended = members(image, kept).into_iter();
    let ended = ended.filter(|position| position.last);
    let mut rules: Vec<usize> = ended.map(|position| position.rule).collect();
    rules.dedup();
    rules
}

/// The sets of a table's rows from row 1 on, and that the table is right: each entry leads to the row of the set
/// that is kept, no two rows have one set, and each row but the first two comes after those that were reached
/// before it. A row wins for the lowest rule that ends there.
fn sets_of(image: &Image, table: &Table, context: &str) -> Vec<u64> {
    assert_eq!(table.entries.len(), 256 * table.rows(), "{context}");
    let mut sets = vec![0];
    for row in 0..table.rows() {
        let held = match row {
            0 => image.first,
            _ => followers(image, sets[row - 1]),
        };
        for byte in 0..=255 {
            let next = usize::from(table.entries[256 * row + usize::from(byte)]);
            let kept = kept(image, held, byte);
            if next == sets.len() + 1 && !sets.contains(&kept) {
                sets.push(kept);
            }
            let found = next.checked_sub(1).and_then(|own| sets.get(own));
            assert_eq!(found, Some(&kept), "row {row}, byte {byte}: {context}");
        }
        let rules = match row {
            0 => Vec::new(),
            _ => ended_rules(image, sets[row - 1]),
        };
        let winner = rules.first().map_or(NO_WINNER, |&rule| rule as u16);
        assert_eq!(table.winners[row], winner, "row {row}: {context}");
    }
    assert_eq!(sets.len() + 1, table.rows(), "{context}");
    sets
}

/// For each row the rows other than row 1 that lead to it.
fn led_to(table: &Table) -> Vec<BTreeSet<usize>> {
    let mut led_to = vec![BTreeSet::new(); table.rows()];
    for (row, entries) in table.entries.chunks(256).enumerate() {
        let mut nexts = entries.to_vec();
        nexts.dedup();
        for next in nexts.into_iter().filter(|_| row != 1) {
            led_to[usize::from(next)].insert(row);
        }
    }
    led_to
}

/// What is counted of an image and its table, and whether it is so here.
fn table_events(
    image: &Image,
    table: &Table,
    sets: &[u64],
) -> [(&'static str, bool); TABLE_EVENTS] {
    let (rows, winners) = (table.rows(), &table.winners);
    let led_to = led_to(table);
    let ended = |row: usize| ended_rules(image, sets[row - 1]);
    let wins = |row: usize, skips: bool| {
        let rule = usize::from(winners[row]);
        winners[row] != NO_WINNER && image.skips[rule] == skips
    };
    [
        ("rows 0 and 1 alone", rows == 2),
        ("row 1 not reached", led_to[1].is_empty()),
        ("row of the first set", sets[1..].contains(&image.first)),
        (
            "row that two lead to",
            led_to[2..].iter().any(|from| from.len() > 1),
        ),
        (
            "row that leads to itself",
            (2..rows).any(|row| led_to[row].contains(&row)),
        ),
        ("row without a winner", winners[2..].contains(&NO_WINNER)),
        (
            "row of several rules",
            (2..rows).any(|row| ended(row).len() > 1),
        ),
        ("winner that skips", (2..rows).any(|row| wins(row, true))),
        ("winner that returns", (2..rows).any(|row| wins(row, false))),
        ("position 63 kept", sets.iter().any(|set| set >> 63 == 1)),
        ("over 100 rows", rows > 100),
        ("255 rows", rows == 255),
        ("256 rows", rows == 256),
    ]
}

/// The rows that the bytes from the start of `rest` lead to one after another, up to the first that leads to row 1.
fn walked(table: &Table, rest: &[u8]) -> Vec<u16> {
    let mut rows = Vec::new();
    let mut row = 0;
    for &byte in rest {
        row = table.entries[256 * usize::from(row) + usize::from(byte)];
        if row == 1 {
            break;
        }
        rows.push(row);
    }
    rows
}

/// What is counted of the matches of a text, and whether it is so here. At each place that is looked at, the match
/// by rows is the match by sets.
fn match_events(
    image: &Image,
    table: &Table,
    text: &[u8],
    context: &str,
) -> [(&'static str, bool); MATCH_EVENTS] {
    let mut events = [
        ("no match", false),
        ("match shorter than the walk", false),
        ("match as long as the walk", false),
        ("row after itself", false),
        ("text ends before row 1", false),
    ];
    let text = &text[..text.len().min(600)];
    for place in (0..text.len()).step_by(1 + text.len() / 60) {
        let rest = &text[place..];
        let found = table.longest_match(rest);
        assert_eq!(found, longest_match(image, rest), "{place}: {context}");
        let rows = walked(table, rest);
        let length = found.map_or(0, |(_, length)| length);
        let holds = [
            found.is_none(),
            length > 0 && length < rows.len(),
            length > 0 && length == rows.len(),
            rows.windows(2).any(|pair| pair[0] == pair[1]),
            rows.len() == rest.len(),
        ];
        for (event, holds) in events.iter_mut().zip(holds) {
            event.1 |= holds;
        }
    }
    events
}

/// What is counted of the lent buffers, and whether it is so here.
fn lent_events(lent: Lent, answer: u64) -> [(&'static str, bool); LENT_EVENTS] {
    let table_short = lent.table < TABLE_ENTRIES;
    let winners_short = lent.winners < WINNER_ENTRIES;
    let built = !matches!(answer, 12 | 13 | 18 | 19);
    [
        ("table one short", lent.table == TABLE_ENTRIES - 1),
        ("winners one short", lent.winners == WINNER_ENTRIES - 1),
        ("only the table short", table_short && !winners_short),
        ("only the winners short", winners_short && !table_short),
        ("both short", table_short && winners_short),
        ("longer table, built", lent.table > TABLE_ENTRIES && built),
        (
            "more winners, built",
            lent.winners > WINNER_ENTRIES && built,
        ),
        ("no stack, built", lent.stack == 0 && built),
    ]
}

/// Things that are counted, with how often they came up.
type Tally = BTreeMap<&'static str, usize>;

fn count<const N: usize>(tally: &mut Tally, events: [(&'static str, bool); N]) {
    for (event, holds) in events {
        *tally.entry(event).or_insert(0) += usize::from(holds);
    }
}

/// Counts what comes up in a case, and gives the answer of the reference, whose table is held against sets of this
/// file's own.
fn count_case(tally: &mut Tally, case: &Case, context: &str) -> u64 {
    let ([answer, ..], built) = full_run_table(REFERENCE, &case.image, &case.text, case.lent);
    count(tally, lent_events(case.lent, answer));
    let image = match Image::read(&case.image) {
        Ok(image) => image,
        Err(_) => return answer,
    };
    let table = match answer {
        12 | 18 => Table::of(&image),
        _ => built,
    };
    if let Some(rows) = case.rows {
        let fits = (rows <= 256).then_some(rows);
        assert_eq!(table.as_ref().map(Table::rows), fits, "{context}");
    }
    if let Some(table) = table {
        let sets = sets_of(&image, &table, context);
        count(tally, table_events(&image, &table, &sets));
        count(tally, match_events(&image, &table, &case.text, context));
    }
    answer
}

/// The cases are of use only if all that matters comes up in them.
#[test]
fn what_matters_comes_up() {
    let (seed, cases) = seed_and_cases(CASES);
    let mut tally = Tally::new();
    let mut numbers = BTreeMap::new();
    let mut known_rows = BTreeMap::new();
    for number in 0..cases {
        let case = Case::new(seed, number);
        let answer = count_case(&mut tally, &case, &case.context(seed, number));
        *numbers.entry(answer).or_insert(0) += 1;
        if let Some(rows) = case.rows {
            *known_rows.entry(rows).or_insert(0) += 1;
        }
    }
    println!("seed {seed}, {cases} cases: {tally:#?}\nnumbers: {numbers:?}\nrows: {known_rows:?}");
    let all_came_up = tally.len() == TABLE_EVENTS + MATCH_EVENTS + LENT_EVENTS
        && tally.values().all(|&count| count > 0);
    assert!(cases < CASES || all_came_up, "{tally:?}");
    let every_number = numbers.keys().copied().eq([0].into_iter().chain(12..=19));
    assert!(cases < CASES || every_number, "{numbers:?}");
    let every_count = known_rows.keys().copied().eq(250..=260);
    assert!(cases < CASES || every_count, "{known_rows:?}");
}

/// By every engine, the table of an image whose run over a text gives number, place and count; the run without a
/// table gives the same.
fn table_of(image: &[u8], text: &[u8], stack: usize, expected: [u64; 3]) -> Table {
    let tables = engines().into_iter().map(|engine| {
        let lent = Lent::enough(stack);
        let (found, table) = full_run_table(engine, image, text, lent);
        assert_eq!(found, expected, "{}", engine.name);
        assert_eq!(
            full_run(engine, image, text, stack),
            expected,
            "{}",
            engine.name
        );
        let longer = full_run_table(engine, image, text, lent.longer());
        assert_eq!(longer, (expected, table.clone()), "{}", engine.name);
        table.unwrap_or_else(|| panic!("{}: no table", engine.name))
    });
    let tables: Vec<Table> = tables.collect();
    assert!(tables.iter().all(|table| *table == tables[0]));
    tables[0].clone()
}

/// A table's row: which row each byte leads to, as bytes from, bytes to, row; all other bytes lead to row 1.
fn row(leads: &[(u8, u8, u16)]) -> Vec<u16> {
    let mut row = vec![1; 256];
    for &(low, high, to) in leads {
        row[low.into()..=high.into()].fill(to);
    }
    row
}

/// The blank is met before the slash, the slash before the digits, and the second digit after the first.
#[test]
fn the_table_of_sheet_d() {
    let table = table_of(&IMAGE_OF_D, b"12 /7", 156, [0, 5, 3]);
    assert_eq!(table.winners, [32, 32, 1, 0, 2, 2]);
    let rows = [
        row(&[(32, 32, 2), (47, 47, 3), (48, 57, 4)]),
        row(&[]),
        row(&[]),
        row(&[]),
        row(&[(48, 57, 5)]),
        row(&[(48, 57, 5)]),
    ];
    assert_eq!(table.entries, rows.concat());
}

/// The table is built before the text is read: it stands whatever becomes of the run.
#[test]
fn the_table_stands_after_a_refusal() {
    let whole = table_of(&IMAGE_OF_D, b"12/7", 125, [0, 4, 3]);
    for (text, stack, answer) in [
        (&b""[..], 0, [17, 0, 0]),
        (b"h", 0, [17, 0, 0]),
        (b"12", 1, [0, 2, 1]),
        (b"12/7", 1, [0, 4, 3]),
        (b"12h", 94, [14, 2, 1]),
        (b"12//7", 156, [15, 3, 2]),
        (b"", 1, [16, 0, 0]),
        (b"12/", 94, [16, 3, 2]),
    ] {
        assert_eq!(table_of(&IMAGE_OF_D, text, stack, answer), whole);
    }
    // One rule, one position and one nullable nonterminal, whose tail is itself twice.
    let image = [1, 1, 0, 1, 97, 97, 0, 1, 0, 1, 1, 1, 1, 0, 2, 0, 0];
    let whole = table_of(&image, b"aaa", 4, [0, 3, 3]);
    assert_eq!(whole.winners, [32, 32, 0]);
    assert_eq!(table_of(&image, b"aaa", 3, [17, 2, 2]), whole);
}

/// A table or winners that are too short, beside no stack.
fn short_buffers() -> [Lent; 3] {
    let enough = Lent::enough(0);
    let shorter = |table, winners| Lent {
        table: enough.table - table,
        winners: enough.winners - winners,
        ..enough
    };
    [
        shorter(1, 0),
        shorter(0, 1),
        shorter(TABLE_ENTRIES, WINNER_ENTRIES),
    ]
}

/// 18 comes before 12, 12 before 13, 13 before 19, and 19 before 17. Until then nothing is written.
#[test]
fn the_questions_are_put_in_order() {
    let long = vec![b'7'; TEXT_LIMIT + 1];
    let unreadable = &IMAGE_OF_D[..47];
    let many_rows = &image_of_many_rows(8);
    let damaged = &many_rows[..many_rows.len() - 1];
    let images = [&IMAGE_OF_D[..], unreadable, many_rows, damaged, &[]];
    let enough = Lent::enough(0);
    for engine in engines() {
        let run = |image: &[u8], text: &[u8], lent| full_run_table(engine, image, text, lent).0;
        for image in images {
            for short in short_buffers() {
                assert_eq!(run(image, b"12", short), [18, 0, 0]);
                assert_eq!(run(image, &long, short), [18, 0, 0]);
            }
            assert_eq!(run(image, &long, enough), [12, 0, 0]);
        }
        assert_eq!(run(unreadable, b"12", enough), [13, 47, 0]);
        assert_eq!(run(damaged, b"12", enough), [13, damaged.len() as u64, 0]);
        assert_eq!(run(many_rows, b"12", enough), [19, 0, 0]);
        assert_eq!(run(&IMAGE_OF_D, b"12", enough), [17, 0, 0]);
        let found = run(&IMAGE_OF_D, &long[1..], Lent::enough(2));
        assert_eq!(found, [0, 1_048_576, 1]);
    }
}

#[test]
fn a_short_out_changes_nothing() {
    for engine in engines() {
        short_out_changes_nothing(engine, &IMAGE_OF_D, b"12");
        short_out_changes_nothing(engine, &[], b"12");
    }
}

/// Row 0 is no set: where the set of the first positions is kept, that is another row.
#[test]
fn the_start_is_no_set() {
    // One or more `a`.
    let image = taking_all(&[false], &[0], vec![last(b'a', b'a', 0, &[0])]);
    let table = table_of(&image, b"aa", 63, [0, 2, 1]);
    assert_eq!(table.winners, [32, 32, 0]);
    let rows = [row(&[(97, 97, 2)]), row(&[]), row(&[(97, 97, 2)])];
    assert_eq!(table.entries, rows.concat());
}

/// Without a first position there are rows 0 and 1 alone, and row 0 is not the empty set's.
#[test]
fn an_empty_first_set() {
    let image = taking_all(&[false], &[], vec![last(0, 255, 0, &[0])]);
    let table = table_of(&image, b"", 1, [0, 0, 0]);
    assert_eq!(table.winners, [32, 32]);
    assert_eq!(table.entries, [1; 512]);
    assert_eq!(table_of(&image, b"a", 32, [14, 0, 0]), table);
}

/// Row 1 is there even if nothing but itself leads to it.
#[test]
fn an_empty_set_that_is_never_reached() {
    let image = taking_all(&[true], &[0], vec![last(0, 255, 0, &[0])]);
    let table = table_of(&image, b"ab", 63, [0, 2, 0]);
    assert_eq!(table.winners, [32, 32, 0]);
    let rows = [row(&[(0, 255, 2)]), row(&[]), row(&[(0, 255, 2)])];
    assert_eq!(table.entries, rows.concat());
}

/// Of the rows that one row leads to, that of the lower byte comes first; of those that two rows lead to, that of
/// the lower row.
#[test]
fn rows_in_order_and_bytes_rising() {
    // Rule 0 has `bz`, rule 1 `cy` and rule 2 `a`, each also without its end, and rule 3 has `byte 255`.
    let positions = vec![
        last(b'b', b'b', 0, &[1]),
        last(b'z', b'z', 0, &[]),
        last(b'c', b'c', 1, &[3]),
        last(b'y', b'y', 1, &[]),
        last(b'a', b'a', 2, &[]),
        last(255, 255, 3, &[]),
    ];
    let image = taking_all(&[false; 4], &[0, 2, 4, 5], positions);
    let table = table_of(&image, b"bzcya\xff", 187, [0, 6, 4]);
    assert_eq!(table.winners, [32, 32, 2, 0, 1, 3, 0, 1]);
    let rows = [
        row(&[
            (b'a', b'a', 2),
            (b'b', b'b', 3),
            (b'c', b'c', 4),
            (255, 255, 5),
        ]),
        row(&[]),
        row(&[]),
        row(&[(b'z', b'z', 6)]),
        row(&[(b'y', b'y', 7)]),
        row(&[]),
        row(&[]),
        row(&[]),
    ];
    assert_eq!(table.entries, rows.concat());
}

/// Of the rules of which a kept position is last the lowest wins. A position that is not last does not win, and one
/// that is not kept does not either.
#[test]
fn the_lowest_rule_wins() {
    let positions = vec![
        inner(b'a', b'a', 0, &[0]),
        last(b'b', b'b', 1, &[]),
        last(b'a', b'a', 2, &[2]),
        last(b'a', b'b', 3, &[]),
    ];
    let image = taking_all(&[false; 4], &[0, 1, 2, 3], positions);
    let table = table_of(&image, b"aab", 94, [0, 3, 2]);
    // Row 2 keeps positions 0, 2 and 3, row 3 positions 1 and 3, row 4 positions 0 and 2.
    assert_eq!(table.winners, [32, 32, 2, 1, 2]);
    let rows = [
        row(&[(b'a', b'a', 2), (b'b', b'b', 3)]),
        row(&[]),
        row(&[(b'a', b'a', 4)]),
        row(&[]),
        row(&[(b'a', b'a', 4)]),
    ];
    assert_eq!(table.entries, rows.concat());
}

/// The image of the regex (a|b)*a(a|b)^`count`, with each of its classes of one byte.
fn image_of_many_rows(count: usize) -> Vec<u8> {
    let either = || Regex::byte(b'a').or(Regex::byte(b'b'));
    let parts = [either().star(), Regex::byte(b'a')].into_iter();
    let regex = Regex::sequence(parts.chain((0..count).map(|_| either())));
    let mut builder = SheetBuilder::new();
    let word = builder.token("word");
    builder.rule(word, regex);
    let sheet = builder.finish(word.star()).expect("bound");
    image_of(sheet.as_bytes()).expect("it passes").to_bytes()
}

/// With seven bytes after the `a` there are more than 256 rows, and the run without a table still reads; with six
/// there are fewer.
#[test]
fn more_rows_than_there_may_be() {
    let text = b"abababab";
    let image = image_of_many_rows(7);
    for engine in engines() {
        let lent = Lent::enough_for(text);
        let found = full_run_table(engine, &image, text, lent.longer());
        assert_eq!(found, ([19, 0, 0], None), "{}", engine.name);
        assert_eq!(full_run(engine, &image, text, lent.stack), [0, 8, 1]);
    }
    // Each of the last seven bytes may be an `a` or not.
    let table = table_of(&image_of_many_rows(6), &text[..7], 218, [0, 7, 1]);
    assert_eq!(table.rows(), 2 + 128);
}

/// What the buffers hold before a run does not matter to it: a second run in the same buffers builds its own table,
/// and past its last row that of the first run stays.
#[test]
fn two_runs_in_the_same_buffers() {
    let image = taking_all(&[false], &[0], vec![last(b'a', b'a', 0, &[0])]);
    let first = table_of(&IMAGE_OF_D, b"12", 63, [0, 2, 1]);
    let second = table_of(&image, b"aa", 63, [0, 2, 1]);
    for engine in engines() {
        let mut table = vec![0xffff; TABLE_ENTRIES];
        let mut winners = vec![0xffff; WINNER_ENTRIES];
        let (mut stack, mut out) = (pattern(63), [7; 3]);
        let mut run = |image: &[u8], text: &[u8]| {
            (engine.run_table)(image, text, &mut table, &mut winners, &mut stack, &mut out);
            assert_eq!(out, [0, 2, 1], "{}", engine.name);
            assert_eq!(stack, [0; 63], "{}", engine.name);
            (table.clone(), winners.clone())
        };
        let (table, winners) = run(&IMAGE_OF_D, b"12");
        assert_eq!(table[..1_536], first.entries);
        assert_eq!(winners[..6], first.winners);
        let (table, winners) = run(&image, b"aa");
        assert_eq!(table[..768], second.entries);
        assert_eq!(table[768..1_536], first.entries[768..]);
        assert!(table[1_536..].iter().all(|&entry| entry == 0xffff));
        assert_eq!(winners[..3], second.winners);
        assert_eq!(winners[3..6], first.winners[3..]);
        assert!(winners[6..].iter().all(|&entry| entry == 0xffff));
    }
}
