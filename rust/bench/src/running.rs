//! Measures running, without a table and with one, beside [`baseline`], in the same process.
//!
//! A run clears its whole stack. A long enough one has 31 entries for each byte of the text, and clearing it
//! takes a good part of the time. So each text is also run on a small stack, which has room for all of its
//! pending nonterminals too, and the difference of the two is held against clearing alone.

use crate::baseline::table::Lent;
use crate::chart::Speeds;
use crate::grammars::{self, Grammar};
use crate::{baseline, black_box, image_bytes, median, ratio, sheets, shown, time, ROUNDS};
use std::time::Duration;
use vinzagew::library::{vinzagew_run, vinzagew_run_table};
use vinzagew::{stack_length, LIBRARY_LINKED, TABLE_ENTRIES, TEXT_LIMIT, WINNER_ENTRIES};
use vinzagew_reference::image::Image;
use vinzagew_reference::Table;

/// The entries of the small stack. Every text that is measured is accepted on it.
pub const SMALL_STACK: usize = 4_096;

/// The buffers that are lent to all runs.
pub struct Buffers {
    stack: Vec<u8>,
    table: Vec<u16>,
    winners: Vec<u16>,
}

impl Buffers {
    /// Buffers that are long enough for every text.
    pub fn new() -> Self {
        Buffers {
            stack: vec![0; stack_length(TEXT_LIMIT)],
            table: vec![0; TABLE_ENTRIES],
            winners: vec![0; WINNER_ENTRIES],
        }
    }
}

/// A text that is run by an image on a stack of `room` entries, with or without a table.
#[derive(Clone)]
pub struct Case<'a> {
    /// What the image is of.
    pub name: &'static str,
    /// The image.
    pub image: Vec<u8>,
    /// The text.
    pub text: &'a [u8],
    /// The entries of the stack.
    pub room: usize,
    /// Whether a table is lent.
    pub with_table: bool,
}

impl<'a> Case<'a> {
    fn new(grammar: &Grammar, text: &'a [u8], room: usize) -> Self {
        Case {
            name: grammar.name,
            image: image_bytes(&grammar.sheet),
            text,
            room,
            with_table: false,
        }
    }

    fn small_stack(grammar: &Grammar, text: &'a [u8]) -> Self {
        Case::new(grammar, text, SMALL_STACK)
    }

    fn long_enough_stack(grammar: &Grammar, text: &'a [u8]) -> Self {
        Case::new(grammar, text, stack_length(text.len()))
    }

    /// The run over the empty text: that only reads the image, and with a table also builds the table.
    fn empty_text(name: &'static str, image: Vec<u8>) -> Self {
        Case {
            name,
            image,
            text: b"",
            room: 1,
            with_table: false,
        }
    }

    fn with_table(self) -> Self {
        Case {
            with_table: true,
            ..self
        }
    }

    fn positions(&self) -> usize {
        let image = Image::read(&self.image).expect("written");
        image.positions.len()
    }

    /// How many rows the image's table has, if there is one.
    fn rows(&self) -> Option<usize> {
        let image = Image::read(&self.image).expect("written");
        Table::of(&image).map(|table| table.rows())
    }

    /// Number, place and count, by the library.
    #[inline(always)]
    pub fn library(&self, buffers: &mut Buffers) -> [u64; 3] {
        let (image, text) = (black_box(&self.image[..]), black_box(self.text));
        let stack = &mut buffers.stack[..self.room];
        let (table, winners) = (&mut buffers.table, &mut buffers.winners);
        let mut out = [0; 3];
        if self.with_table {
            vinzagew_run_table(image, text, table, winners, stack, &mut out);
        } else {
            vinzagew_run(image, text, stack, &mut out);
        }
        black_box(out)
    }

    /// Number, place and count, by the baseline.
    #[inline(always)]
    fn baseline(&self, buffers: &mut Buffers) -> [usize; 3] {
        let (image, text) = (black_box(&self.image[..]), black_box(self.text));
        let stack = &mut buffers.stack[..self.room];
        let (table, winners) = (&mut buffers.table[..], &mut buffers.winners[..]);
        black_box(if self.with_table {
            baseline::table::run(image, text, Lent { table, winners }, stack)
        } else {
            baseline::run(image, text, stack)
        })
    }

    /// Number, place and count. Both sides must say the same.
    fn answer(&self, buffers: &mut Buffers) -> [usize; 3] {
        let answer = self.baseline(buffers);
        if LIBRARY_LINKED {
            let found = self.library(buffers);
            assert_eq!(found, answer.map(|number| number as u64), "{}", self.name);
        }
        answer
    }

    /// The time of a run by the library, if it was linked.
    pub fn library_time(&self, repeats: u32, buffers: &mut Buffers) -> Option<Duration> {
        LIBRARY_LINKED.then(|| {
            time(repeats, || {
                self.library(buffers);
            })
        })
    }

    /// The time of a run by the baseline.
    fn baseline_time(&self, repeats: u32, buffers: &mut Buffers) -> Duration {
        time(repeats, || {
            self.baseline(buffers);
        })
    }
}

/// What measuring a case gave; the times are medians.
struct Figures {
    /// Number, place and count.
    answer: [usize; 3],
    library: Option<Duration>,
    baseline: Option<Duration>,
}

impl Figures {
    /// The tokens of a text, which must be accepted.
    fn tokens(&self) -> usize {
        let [number, _, tokens] = self.answer;
        assert_eq!(number, 0);
        tokens
    }

    /// How fast the library and the baseline read a text, in MiB/s.
    fn speeds(&self, text: &[u8]) -> [Option<f64>; 2] {
        [self.library, self.baseline].map(|time| time.map(speed(text)))
    }

    /// The two times in some unit, and the ratio.
    fn columns(&self, in_unit: impl Fn(Duration) -> f64) -> String {
        format!(
            "{} | {} | {}",
            shown(self.library.map(&in_unit)),
            shown(self.baseline.map(&in_unit)),
            shown(ratio(self.library, self.baseline)),
        )
    }
}

/// Runs each case some times in each round; the two sides take turns, and so do the cases.
fn measure(cases: &[Case], repeats: u32, buffers: &mut Buffers) -> Vec<Figures> {
    let answers: Vec<[usize; 3]> = cases.iter().map(|case| case.answer(buffers)).collect();
    let mut library = vec![Vec::new(); cases.len()];
    let mut baseline = vec![Vec::new(); cases.len()];
    for _ in 0..ROUNDS {
        for (index, case) in cases.iter().enumerate() {
            library[index].extend(case.library_time(repeats, buffers));
            baseline[index].push(case.baseline_time(repeats, buffers));
        }
    }
    (0..cases.len())
        .map(|index| Figures {
            answer: answers[index],
            library: median(&mut library[index]),
            baseline: median(&mut baseline[index]),
        })
        .collect()
}

/// Runs one case some times in each round.
fn measure_alone(case: &Case, repeats: u32, buffers: &mut Buffers) -> Figures {
    let mut figures = measure(std::slice::from_ref(case), repeats, buffers);
    figures.remove(0)
}

/// Prints all tables on running, and gives the speeds on the small stack.
pub fn tables() -> Vec<Speeds> {
    let buffers = &mut Buffers::new();
    let grammars = grammars::all();
    let without_table = small_stack_table(&grammars, buffers);
    long_enough_stack_table(&grammars, buffers);
    clearing_table(&grammars, buffers);
    let with_table = with_table_table(&grammars, buffers);
    scanning_table(&grammars::scanning_alone(), buffers);
    short_table(&grammars, buffers);
    short_with_table_table(&grammars, buffers);
    reading_table(buffers);
    building_table(&grammars, buffers);
    pair_table(&grammars::pairs(), buffers);
    let speeds = with_table.into_iter().zip(without_table);
    grammars
        .iter()
        .zip(speeds)
        .map(|(grammar, (with_table, without_table))| Speeds {
            name: grammar.name,
            with_table,
            without_table,
        })
        .collect()
}

/// How many mebibytes of a text are read in a second, if all is read in some time.
fn speed(text: &[u8]) -> impl Fn(Duration) -> f64 {
    let mebibytes = text.len() as f64 / (1 << 20) as f64;
    move |time| mebibytes / time.as_secs_f64()
}

/// Gives the two speeds of each grammar.
fn small_stack_table(grammars: &[Grammar], buffers: &mut Buffers) -> Vec<[Option<f64>; 2]> {
    println!("Running on a stack of {SMALL_STACK} entries, {ROUNDS} rounds, median:\n");
    println!("| Grammar | Image bytes | Positions | Text bytes | Tokens | Library, MiB/s | Baseline, MiB/s | Library time / baseline time |");
    println!("|---|---|---|---|---|---|---|---|");
    let mut speeds = Vec::new();
    for grammar in grammars {
        let case = Case::small_stack(grammar, &grammar.text);
        let figures = measure_alone(&case, 1, buffers);
        speeds.push(figures.speeds(case.text));
        println!(
            "| {} | {} | {} | {} | {} | {} |",
            case.name,
            case.image.len(),
            case.positions(),
            case.text.len(),
            figures.tokens(),
            figures.columns(speed(case.text)),
        );
    }
    speeds
}

fn long_enough_stack_table(grammars: &[Grammar], buffers: &mut Buffers) {
    println!("\nRunning on a long enough stack, {ROUNDS} rounds, median:\n");
    println!("| Grammar | Stack entries | Library, MiB/s | Baseline, MiB/s | Library time / baseline time |");
    println!("|---|---|---|---|---|");
    for grammar in grammars {
        let case = Case::long_enough_stack(grammar, &grammar.text);
        let columns = measure_alone(&case, 1, buffers).columns(speed(case.text));
        println!("| {} | {} | {} |", case.name, case.room, columns);
    }
}

/// Clears a stack, and nothing else.
// Reached by a call, as a run is.
#[inline(never)]
fn clear(stack: &mut [u8]) {
    stack.fill(0);
}

/// By how much a run on a long enough stack takes longer than one on the small stack, and how long clearing so much
/// memory takes alone.
fn clearing_table(grammars: &[Grammar], buffers: &mut Buffers) {
    println!(
        "\nClearing the stack alone: `slice::fill` over 1 + 31 × the text's length, and by how much a run takes longer \
        on a long enough stack than on {SMALL_STACK} entries, {ROUNDS} rounds, median:\n"
    );
    println!(
        "| Grammar | `fill`, ms | `fill`, GiB/s | Library, ms | Library time / `fill` time | Baseline, ms \
        | Baseline time / `fill` time |"
    );
    println!("|---|---|---|---|---|---|---|");
    for grammar in grammars {
        let gibibytes = stack_length(grammar.text.len()) as f64 / (1 << 30) as f64;
        let [fill, library, baseline] = clearing_times(grammar, buffers);
        let milliseconds =
            |time: Option<Duration>| shown(time.map(|time| time.as_secs_f64() * 1e3));
        println!(
            "| {} | {} | {} | {} | {} | {} | {} |",
            grammar.name,
            milliseconds(fill),
            shown(fill.map(|time| gibibytes / time.as_secs_f64())),
            milliseconds(library),
            shown(ratio(library, fill)),
            milliseconds(baseline),
            shown(ratio(baseline, fill)),
        );
    }
}

/// The times of clearing alone, and of what the long enough stack costs the library and the baseline; they take
/// turns. Each difference is that of one round.
fn clearing_times(grammar: &Grammar, buffers: &mut Buffers) -> [Option<Duration>; 3] {
    let small = Case::small_stack(grammar, &grammar.text);
    let long = Case::long_enough_stack(grammar, &grammar.text);
    let mut times = [(); 3].map(|()| Vec::new());
    for _ in 0..ROUNDS {
        times[0].push(time(1, || clear(&mut buffers.stack[..long.room])));
        let library = [&small, &long].map(|case| case.library_time(1, buffers));
        if let [Some(small), Some(long)] = library {
            times[1].push(long.saturating_sub(small));
        }
        let [small, long] = [&small, &long].map(|case| case.baseline_time(1, buffers));
        times[2].push(long.saturating_sub(small));
    }
    times.map(|mut times| median(&mut times))
}

/// Building the table is part of each run. Gives the two speeds of each grammar on the small stack.
fn with_table_table(grammars: &[Grammar], buffers: &mut Buffers) -> Vec<[Option<f64>; 2]> {
    println!("\nRunning with a table, on a stack of {SMALL_STACK} entries and on a long enough one, {ROUNDS} rounds, median:\n");
    println!("| Grammar | Rows | Stack entries | Library, MiB/s | Baseline, MiB/s | Library time / baseline time |");
    println!("|---|---|---|---|---|---|");
    let mut speeds = Vec::new();
    for grammar in grammars {
        for case in [
            Case::small_stack(grammar, &grammar.text).with_table(),
            Case::long_enough_stack(grammar, &grammar.text).with_table(),
        ] {
            let figures = measure_alone(&case, 1, buffers);
            assert!(figures.tokens() > 0, "{}", case.name);
            if case.room == SMALL_STACK {
                speeds.push(figures.speeds(case.text));
            }
            println!(
                "| {} | {} | {} | {} |",
                case.name,
                shown_rows(&case),
                case.room,
                figures.columns(speed(case.text)),
            );
        }
    }
    speeds
}

fn shown_rows(case: &Case) -> String {
    case.rows()
        .map_or("over 256".to_owned(), |rows| rows.to_string())
}

/// The images of all sheets that pass; a padded sheet has the image of its twin.
fn reading_table(buffers: &mut Buffers) {
    const REPEATS: u32 = 2_000;
    println!("\nReading an image alone, by a run without a table over the empty text, {ROUNDS} rounds, median:\n");
    println!("| Grammar | Image bytes | Positions | Library, ns | Baseline, ns | Library time / baseline time |");
    println!("|---|---|---|---|---|---|");
    let mut before = Vec::new();
    for own in sheets::all().iter().filter(|own| own.number == 0) {
        let case = Case::empty_text(own.name, image_bytes(&own.sheet));
        if case.image == before {
            continue;
        }
        let figures = measure_alone(&case, REPEATS, buffers);
        println!(
            "| {} | {} | {} | {} |",
            case.name,
            case.image.len(),
            case.positions(),
            figures.columns(|time| time.as_secs_f64() * 1e9),
        );
        before = case.image;
    }
}

/// With over 256 rows nothing is built, and the answer is 19.
fn building_table(grammars: &[Grammar], buffers: &mut Buffers) {
    const REPEATS: u32 = 20;
    println!(
        "\nBuilding the table alone, by a run over the empty text, {ROUNDS} rounds, median:\n"
    );
    println!("| Grammar | Positions | Rows | Library, µs | Baseline, µs | Library time / baseline time |");
    println!("|---|---|---|---|---|---|");
    let own = grammars
        .iter()
        .map(|grammar| Case::empty_text(grammar.name, image_bytes(&grammar.sheet)));
    let of_rows = [("255 rows", 255), ("256 rows", 256), ("257 rows", 257)]
        .map(|(name, rows)| Case::empty_text(name, image_bytes(&grammars::of_rows(rows))));
    for case in own.chain(of_rows).map(Case::with_table) {
        let figures = measure_alone(&case, REPEATS, buffers);
        assert_eq!(figures.answer[0] == 19, case.rows().is_none());
        println!(
            "| {} | {} | {} | {} |",
            case.name,
            case.positions(),
            shown_rows(&case),
            figures.columns(|time| time.as_secs_f64() * 1e6),
        );
    }
}

/// The rules of these grammars all skip, so that no token is taken.
fn scanning_table(grammars: &[Grammar], buffers: &mut Buffers) {
    println!("\nScanning alone, all rules skipping, on a stack of {SMALL_STACK} entries, {ROUNDS} rounds, median:\n");
    println!(
        "| Grammar | Table | Library, MiB/s | Baseline, MiB/s | Library time / baseline time |"
    );
    println!("|---|---|---|---|---|");
    for grammar in grammars {
        let case = Case::small_stack(grammar, &grammar.text);
        for (table, case) in [("without", case.clone()), ("with", case.with_table())] {
            let figures = measure_alone(&case, 1, buffers);
            assert_eq!(figures.tokens(), 0, "{}", case.name);
            let columns = figures.columns(speed(case.text));
            println!("| {} | {table} | {columns} |", case.name);
        }
    }
}

/// The columns of a table on short texts.
fn short_columns() {
    println!("| Grammar | Text | Stack entries | Library, ns | Baseline, ns | Library time / baseline time |");
    println!("|---|---|---|---|---|---|");
}

/// An 8-byte text on both stacks.
fn short_cases(grammar: &Grammar) -> [Case<'_>; 2] {
    [
        Case::small_stack(grammar, grammar.short_text),
        Case::long_enough_stack(grammar, grammar.short_text),
    ]
}

fn short_table(grammars: &[Grammar], buffers: &mut Buffers) {
    println!("\nShort texts, on a stack of {SMALL_STACK} entries and on a long enough one, {ROUNDS} rounds, median:\n");
    short_columns();
    for grammar in grammars {
        short_rows(&short_cases(grammar), buffers);
    }
}

/// Here building the table takes most of the time.
fn short_with_table_table(grammars: &[Grammar], buffers: &mut Buffers) {
    println!("\nShort texts with a table, on a stack of {SMALL_STACK} entries and on a long enough one, {ROUNDS} rounds, median:\n");
    short_columns();
    for grammar in grammars {
        short_rows(&short_cases(grammar).map(Case::with_table), buffers);
    }
}

fn short_rows(cases: &[Case], buffers: &mut Buffers) {
    const REPEATS: u32 = 2_000;
    for (case, figures) in cases.iter().zip(measure(cases, REPEATS, buffers)) {
        let text = String::from_utf8_lossy(case.text).replace('\n', "\\n");
        assert!(figures.tokens() > 0, "{}", case.name);
        println!(
            "| {} | `{}` | {} | {} |",
            case.name,
            text,
            case.room,
            figures.columns(|time| time.as_secs_f64() * 1e9),
        );
    }
}

fn pair_table(pairs: &[[Grammar; 2]], buffers: &mut Buffers) {
    println!("\nRunning, with fixed points / with repetitions, {ROUNDS} rounds, median:\n");
    println!("| Grammar | Image bytes | Tokens | Library, ms | Baseline, ms |");
    println!("|---|---|---|---|---|");
    for pair in pairs {
        pair_row(pair, buffers);
    }
}

fn pair_row(pair: &[Grammar; 2], buffers: &mut Buffers) {
    let cases: Vec<Case> = pair
        .iter()
        .map(|grammar| Case::long_enough_stack(grammar, &grammar.text))
        .collect();
    let figures = measure(&cases, 1, buffers);
    let both = |shown: &dyn Fn(usize) -> String| format!("{} / {}", shown(0), shown(1));
    let milliseconds = |time: Option<Duration>| match time {
        None => "–".to_owned(),
        Some(time) => format!("{:.1}", time.as_secs_f64() * 1e3),
    };
    println!(
        "| {} | {} | {} | {} | {} |",
        cases[0].name,
        both(&|index| cases[index].image.len().to_string()),
        both(&|index| figures[index].tokens().to_string()),
        both(&|index| milliseconds(figures[index].library)),
        both(&|index| milliseconds(figures[index].baseline)),
    );
}
