//! Measures texts in which walks go far past the ends of their matches, beside ordinary texts of the same length, by
//! the library alone: plain Rust makes each walk to its end, so that its time grows with the square of the length.
//!
//! All runs are on the small stack, and the texts that are compared take turns.

use crate::grammars::{self, Grammar};
use crate::length_chart::Line;
use crate::long_walk_sheets::{self, LongWalks};
use crate::running::{Buffers, Case, SMALL_STACK};
use crate::{image_bytes, median, ratio, shown, ROUNDS};
use std::time::Duration;
use vinzagew::builder::Sheet;
use vinzagew::{LIBRARY_LINKED, TEXT_LIMIT};
use vinzagew_reference::image::Image;
use vinzagew_reference::Table;

/// The lengths of the texts whose times are held against their lengths.
pub const LENGTHS: [usize; 5] = [1 << 16, 1 << 17, 1 << 18, 1 << 19, 1 << 20];

/// Prints the tables on long walks, and gives the times by length.
pub fn tables() -> Vec<Line> {
    if !LIBRARY_LINKED {
        return Vec::new();
    }
    let buffers = &mut Buffers::new();
    let sheet_d = &grammars::all()[0];
    mebibyte_table(sheet_d, buffers);
    length_table(sheet_d, buffers)
}

/// A run of a sheet's image over a text on the small stack.
fn case<'a>(sheet: &Sheet, text: &'a [u8], with_table: bool) -> Case<'a> {
    Case {
        name: "",
        image: image_bytes(sheet),
        text,
        room: SMALL_STACK,
        with_table,
    }
}

/// The median time of each case. They take turns.
fn times(cases: &[Case], buffers: &mut Buffers) -> Vec<Option<Duration>> {
    let mut times = vec![Vec::new(); cases.len()];
    for _ in 0..ROUNDS {
        for (own, case) in times.iter_mut().zip(cases) {
            own.extend(case.library_time(1, buffers));
        }
    }
    times.iter_mut().map(|own| median(own)).collect()
}

fn milliseconds(time: Option<Duration>) -> Option<f64> {
    time.map(|time| time.as_secs_f64() * 1e3)
}

fn mebibyte_table(sheet_d: &Grammar, buffers: &mut Buffers) {
    println!(
        "\nTexts of {TEXT_LIMIT} bytes with long walks, by the library on a stack of {SMALL_STACK} entries, beside \
        sheet D's text and the ordinary texts of the same sheet, {ROUNDS} rounds, median:\n"
    );
    let ratios = "Time / sheet D's | Time / ordinary text's | Time / one byte a token's";
    println!(
        "| Rules | Positions | Rows | Text | Without a table, ms | {ratios} | With a table, ms | {ratios} |"
    );
    println!("|---|---|---|---|---|---|---|---|---|---|---|---|");
    for own in long_walk_sheets::all() {
        mebibyte_rows(&own, sheet_d, buffers);
    }
}

/// A row for each ordinary text of a sheet and for each of the others.
fn mebibyte_rows(own: &LongWalks, sheet_d: &Grammar, buffers: &mut Buffers) {
    let named = [own.ordinary_texts(), own.in_vain.clone()].concat();
    let texts: Vec<Vec<u8>> = named.iter().map(|(_, text)| text(TEXT_LIMIT)).collect();
    let columns =
        [false, true].map(|with_table| mebibyte_columns(own, &texts, sheet_d, with_table, buffers));
    let image = Image::read(&image_bytes(&own.sheet)).expect("written");
    let rows = Table::of(&image).map_or("over 256".to_owned(), |table| table.rows().to_string());
    let positions = image.positions.len();
    for (index, (name, _)) in named.iter().enumerate() {
        let [without, with] = [&columns[0][index], &columns[1][index]];
        println!(
            "| {} | {positions} | {rows} | {name} | {without} | {with} |",
            own.name
        );
    }
}

/// For each text its time, and that divided by the times of sheet D's text, of the ordinary text, and of the one whose
/// tokens have one byte. The ordinary texts come first.
fn mebibyte_columns(
    own: &LongWalks,
    texts: &[Vec<u8>],
    sheet_d: &Grammar,
    with_table: bool,
    buffers: &mut Buffers,
) -> Vec<String> {
    let mut cases = vec![case(&sheet_d.sheet, &sheet_d.text, with_table)];
    for text in texts {
        let case = case(&own.sheet, text, with_table);
        let [number, place, _] = case.library(buffers);
        assert_eq!([number, place], [0, text.len() as u64], "{}", own.name);
        cases.push(case);
    }
    let times = times(&cases, buffers);
    let columns = times[1..].iter().map(|&time| {
        let figures = [
            milliseconds(time),
            ratio(time, times[0]),
            ratio(time, times[1]),
            ratio(time, times[2]),
        ];
        figures.map(shown).join(" | ")
    });
    columns.collect()
}

/// The texts whose times are held against their lengths: what they are, with their sheets, and the text of the
/// greatest length, of which the others are fronts. Sheet D's comes first.
fn texts_by_length(sheet_d: &Grammar) -> Vec<(&'static str, Sheet, Vec<u8>)> {
    let (sheet, text) = (sheet_d.sheet.clone(), sheet_d.text.clone());
    let mut texts = vec![("sheet D, its ordinary text", sheet, text)];
    for (name, own) in [
        ("rules a and a*b, a alone", long_walk_sheets::a_star_b()),
        (
            "rules for comments and signs, a comment not closed",
            long_walk_sheets::comments(),
        ),
        (
            "60 positions that follow each other, a or b",
            long_walk_sheets::sixty_of_two_letters(),
        ),
        ("a table of 250 rows, a or b", long_walk_sheets::many_rows()),
    ] {
        let (_, text) = own.in_vain[0];
        texts.push((name, own.sheet, text(TEXT_LIMIT)));
    }
    texts
}

fn length_table(sheet_d: &Grammar, buffers: &mut Buffers) -> Vec<Line> {
    println!(
        "\nTime against length, by the library on a stack of {SMALL_STACK} entries, {ROUNDS} rounds, median, \
        ms:\n"
    );
    println!("| Rules and text | Table | 64 KiB | 128 KiB | 256 KiB | 512 KiB | 1 MiB | 1 MiB / 64 KiB |");
    println!("|---|---|---|---|---|---|---|---|");
    let mut lines = Vec::new();
    for (name, sheet, text) in texts_by_length(sheet_d) {
        for with_table in [false, true] {
            let fronts = LENGTHS.map(|length| &text[..length.min(text.len())]);
            let cases = fronts.map(|front| case(&sheet, front, with_table));
            let times = times(&cases, buffers);
            let table = if with_table { "with" } else { "without" };
            let shown_times: Vec<String> = times
                .iter()
                .map(|&time| shown(milliseconds(time)))
                .collect();
            let growth = shown(ratio(times[LENGTHS.len() - 1], times[0]));
            println!(
                "| {name} | {table} | {} | {growth} |",
                shown_times.join(" | ")
            );
            lines.push(Line {
                name,
                with_table,
                times: times.into_iter().filter_map(milliseconds).collect(),
            });
        }
    }
    lines
}
