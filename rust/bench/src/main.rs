//! Measures checking, writing and running beside plain Rust code, and the recogniser beside the
//! machine, in the same process, and prints Markdown.
//!
//! `cargo run --release --bin bench`, and with `-- --chart FILE` after it the speeds of running are also drawn
//! into an SVG file ([`chart`]), and with `--lengths FILE` times against lengths ([`length_chart`]). Running is
//! measured on accepted texts of up to 1 MiB and of 8 bytes, and compared with [`baseline`]; [`running`] does this.
//! It is also measured with rules that all skip, so that nothing but scanning is left. Running with a table is
//! compared with [`baseline::table`], on the same texts, and on the empty text, so that nothing but building the table
//! is left. Without a table a run over the empty text leaves nothing but reading the image; what clearing the stack
//! takes is measured alone too. Texts in which walks go far past the ends of their matches are read by the library
//! alone, beside ordinary texts ([`long_walks`]). Checking is compared with
//! [`plain_check`], and writing with [`plain_write`]; beside it stands the reference implementation, which
//! works on vectors. All buffers are lent and stay the same from round to round; both sides clear them as the
//! contract says, and this time counts. Each figure is the median of several rounds, in which the sides take
//! turns; so do the two spellings of a grammar, with fixed points and with repetitions.

mod baseline;
mod chart;
#[cfg(test)]
#[path = "../../tests/common/mod.rs"]
mod common;
mod grammars;
mod length_chart;
mod long_walk_sheets;
mod long_walks;
mod plain_check;
mod plain_write;
mod recognising;
mod running;
mod sheets;

use sheets::Case;
use std::ffi::OsString;
use std::path::{Path, PathBuf};
use std::time::{Duration, Instant};
use std::{env, fs, process};
use vinzagew::builder::Sheet;
use vinzagew::{check_with, write_into, IMAGE_BYTES, LIBRARY_LINKED, WORK_BYTES};

const ROUNDS: usize = 9;

/// The value, read back from memory, so that the compiler leaves out no call whose argument or result goes
/// through here. The standard library's own `black_box` is newer than the oldest Rust that this package
/// works with.
fn black_box<T: Copy>(value: T) -> T {
    // SAFETY: the pointer is that of a local, and what is read from it may be copied.
    unsafe { std::ptr::read_volatile(&value) }
}

fn main() {
    let files = files();
    if !LIBRARY_LINKED {
        println!("The library was not linked: only the other side is measured.\n");
    }
    let speeds = running::tables();
    if let Some(file) = files.chart {
        write_chart(&file, &chart::chart(running::SMALL_STACK, &speeds));
    }
    let lines = long_walks::tables();
    if let Some(file) = files.lengths {
        write_chart(&file, &length_chart::chart(&long_walks::LENGTHS, &lines));
    }
    recognising::table();

    println!("\nChecking and writing, {ROUNDS} rounds, median:\n");
    println!(
        "| Grammar | Sheet bytes | Check: library, µs | Check: plain Rust, µs | Library time / plain time \
        | Write: library, µs | Write: plain Rust, µs | Library time / plain time | Write: reference, µs |"
    );
    println!("|---|---|---|---|---|---|---|---|---|");
    let mut work = vec![0; WORK_BYTES];
    let mut image = vec![0; IMAGE_BYTES];
    for case in &sheets::all() {
        same_verdicts(case, &mut work);
        same_images(case, &mut work, &mut image);
        sheet_row(case, &mut work, &mut image);
    }
}

/// The files that charts go to.
#[derive(Default)]
struct Files {
    /// Of the speeds of running.
    chart: Option<PathBuf>,
    /// Of times against lengths.
    lengths: Option<PathBuf>,
}

/// The files that the words after the program's name say.
fn files() -> Files {
    let words: Vec<OsString> = env::args_os().skip(1).collect();
    let mut files = Files::default();
    for pair in words.chunks(2) {
        match pair {
            [option, file] if *option == "--chart" => files.chart = Some(file.into()),
            [option, file] if *option == "--lengths" => files.lengths = Some(file.into()),
            _ => {
                eprintln!("usage: bench [--chart FILE] [--lengths FILE]");
                process::exit(2)
            }
        }
    }
    files
}

fn write_chart(file: &Path, svg: &str) {
    if let Err(error) = fs::write(file, svg) {
        eprintln!("{}: {error}", file.display());
        process::exit(1);
    }
}

/// The image of a sheet, by the reference.
fn image_bytes(sheet: &Sheet) -> Vec<u8> {
    let mut work = vec![0; WORK_BYTES];
    let mut image = vec![0; IMAGE_BYTES];
    let written = vinzagew_reference::write(sheet.as_bytes(), &mut work, &mut image);
    assert_eq!(written.number, 0, "{}", sheet.locate(written.place));
    image.truncate(written.length);
    image
}

/// All sides say of a sheet what is expected of it.
fn same_verdicts(case: &Case, work: &mut [u8]) {
    let sheet = case.sheet.as_bytes();
    let expected = match vinzagew_reference::check(sheet, work) {
        Ok(_) => [0, 0],
        Err(refusal) => [refusal.number as usize, refusal.place],
    };
    assert_eq!(expected[0], case.number, "{}", case.name);
    assert_eq!(plain_check::check(sheet, work), expected, "{}", case.name);
    if LIBRARY_LINKED {
        let found = match check_with(sheet, work) {
            Ok(()) => [0, 0],
            Err(refusal) => [refusal.number as usize, refusal.place],
        };
        assert_eq!(found, expected, "{}", case.name);
    }
}

/// All sides write the same image, or none.
fn same_images(case: &Case, work: &mut [u8], image: &mut [u8]) {
    let sheet = case.sheet.as_bytes();
    let written = vinzagew_reference::write(sheet, work, image);
    assert_eq!(written.number as usize, case.number, "{}", case.name);
    let expected = image[..written.length].to_vec();
    image.fill(0);
    let found = plain_write::write(sheet, work, image);
    let same = [written.number as usize, written.place, written.length];
    assert_eq!(found, same, "{}", case.name);
    assert!(image[..written.length] == expected, "{}", case.name);
    if LIBRARY_LINKED {
        image.fill(0);
        let written = write_into(sheet, work, image);
        assert_eq!(written.ok(), (case.number == 0).then_some(&expected[..]));
    }
}

/// The times of checking by the library and in plain Rust, and of writing by the library, in plain Rust and by
/// the reference; in each round they take turns.
fn sheet_times(sheet: &[u8], work: &mut [u8], image: &mut [u8]) -> [Option<Duration>; 5] {
    const REPEATS: u32 = 200;
    let mut times = [(); 5].map(|()| Vec::new());
    for _ in 0..ROUNDS {
        if LIBRARY_LINKED {
            times[0].push(time(REPEATS, || {
                black_box(check_with(black_box(sheet), work)).ok();
            }));
        }
        times[1].push(time(REPEATS, || {
            black_box(plain_check::check(black_box(sheet), work));
        }));
        if LIBRARY_LINKED {
            times[2].push(time(REPEATS, || {
                black_box(write_into(black_box(sheet), work, image)).ok();
            }));
        }
        times[3].push(time(REPEATS, || {
            black_box(plain_write::write(black_box(sheet), work, image));
        }));
        times[4].push(time(REPEATS, || {
            black_box(vinzagew_reference::write(black_box(sheet), work, image));
        }));
    }
    times.map(|mut times| median(&mut times))
}

fn sheet_row(case: &Case, work: &mut [u8], image: &mut [u8]) {
    let sheet = case.sheet.as_bytes();
    let [check, plain_check, write, plain_write, reference] = sheet_times(sheet, work, image);
    let microseconds = |time: Option<Duration>| shown(time.map(|time| time.as_secs_f64() * 1e6));
    println!(
        "| {} | {} | {} | {} | {} | {} | {} | {} | {} |",
        case.name,
        sheet.len(),
        microseconds(check),
        microseconds(plain_check),
        shown(ratio(check, plain_check)),
        microseconds(write),
        microseconds(plain_write),
        shown(ratio(write, plain_write)),
        microseconds(reference),
    );
}

/// The time of one call, over some repeats.
fn time(repeats: u32, mut call: impl FnMut()) -> Duration {
    let start = Instant::now();
    for _ in 0..repeats {
        call();
    }
    start.elapsed() / repeats
}

fn median(times: &mut [Duration]) -> Option<Duration> {
    times.sort_unstable();
    times.get(times.len() / 2).copied()
}

fn ratio(own: Option<Duration>, other: Option<Duration>) -> Option<f64> {
    Some(own?.as_secs_f64() / other?.as_secs_f64())
}

fn shown(figure: Option<f64>) -> String {
    match figure {
        None => "–".to_owned(),
        Some(figure) if figure < 10.0 => format!("{figure:.2}"),
        Some(figure) => format!("{figure:.0}"),
    }
}
