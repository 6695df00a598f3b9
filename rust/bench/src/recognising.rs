//! Measures the recogniser beside the machine, on texts of up to 2,048 bytes, in the same process.
//!
//! The recogniser checks the sheet with every call, so it stands beside checking alone, beside
//! writing the image and running it, and beside running an image that was written before.

use crate::grammars::{self, Grammar};
use crate::{black_box, median, ratio, shown, time, ROUNDS};
use std::time::Duration;
use vinzagew::{
    check_with, recognise_with, run_with, stack_length, write_into, IMAGE_BYTES, LIBRARY_LINKED,
    RECOGNISER_TEXT_LIMIT, WORK_BYTES,
};

/// The buffers that are lent to all calls.
struct Buffers {
    work: Vec<u8>,
    image: Vec<u8>,
    stack: Vec<u8>,
    list: Vec<u8>,
}

impl Buffers {
    fn new() -> Self {
        Buffers {
            work: vec![0; WORK_BYTES],
            image: vec![0; IMAGE_BYTES],
            stack: vec![0; stack_length(RECOGNISER_TEXT_LIMIT)],
            list: vec![0; RECOGNISER_TEXT_LIMIT],
        }
    }

    fn check(&mut self, sheet: &[u8]) {
        black_box(check_with(black_box(sheet), &mut self.work)).expect("it passes");
    }

    fn recognise(&mut self, sheet: &[u8], text: &[u8]) -> usize {
        let (sheet, text) = (black_box(sheet), black_box(text));
        let found = recognise_with(sheet, text, &mut self.work, &mut self.list);
        black_box(found).expect("it is accepted")
    }

    /// Writes the image, and gives its length.
    fn write(&mut self, sheet: &[u8]) -> usize {
        let written = write_into(black_box(sheet), &mut self.work, &mut self.image);
        written.expect("it passes").len()
    }

    /// Runs the image that was written last, on a long enough stack.
    fn run(&mut self, length: usize, text: &[u8]) -> usize {
        let stack = &mut self.stack[..stack_length(text.len())];
        let found = run_with(black_box(&self.image[..length]), black_box(text), stack);
        black_box(found).expect("it is accepted")
    }
}

/// Prints the table, if the library was linked: there is no other side.
pub fn table() {
    if !LIBRARY_LINKED {
        return;
    }
    println!(
        "\nRecogniser and machine, texts of up to {RECOGNISER_TEXT_LIMIT} bytes, long enough \
        stack, {ROUNDS} rounds, median:\n"
    );
    println!(
        "| Grammar | Text bytes | Tokens | Check, µs | Recognise, µs | Write and run, µs \
        | Recognise time / write and run time | Run, µs |"
    );
    println!("|---|---|---|---|---|---|---|---|");
    let buffers = &mut Buffers::new();
    for grammar in &grammars::all() {
        row(grammar, buffers);
    }
}

fn row(grammar: &Grammar, buffers: &mut Buffers) {
    let (sheet, text) = (grammar.sheet.as_bytes(), &grammar.middling_text[..]);
    let tokens = buffers.recognise(sheet, text);
    let length = buffers.write(sheet);
    assert_eq!(buffers.run(length, text), tokens, "{}", grammar.name);
    let [check, recognise, both, run] = times(sheet, text, buffers);
    let microseconds = |time: Option<Duration>| shown(time.map(|time| time.as_secs_f64() * 1e6));
    println!(
        "| {} | {} | {tokens} | {} | {} | {} | {} | {} |",
        grammar.name,
        text.len(),
        microseconds(check),
        microseconds(recognise),
        microseconds(both),
        shown(ratio(recognise, both)),
        microseconds(run),
    );
}

/// The times of checking, of recognising, of writing and running, and of running; they take turns.
fn times(sheet: &[u8], text: &[u8], buffers: &mut Buffers) -> [Option<Duration>; 4] {
    const REPEATS: u32 = 200;
    let mut times = [(); 4].map(|()| Vec::new());
    let length = buffers.write(sheet);
    for _ in 0..ROUNDS {
        times[0].push(time(REPEATS, || buffers.check(sheet)));
        times[1].push(time(REPEATS, || {
            buffers.recognise(sheet, text);
        }));
        times[2].push(time(REPEATS, || {
            let length = buffers.write(sheet);
            buffers.run(length, text);
        }));
        times[3].push(time(REPEATS, || {
            buffers.run(length, text);
        }));
    }
    times.map(|mut times| median(&mut times))
}

#[cfg(test)]
mod tests {
    use super::*;
    use crate::common::recognised::recognised;
    use crate::common::{engines, full_run, full_write};

    /// Every text that is measured is nearly as long as can be, and accepted by recogniser and
    /// machine.
    #[test]
    fn the_texts_are_accepted() {
        for grammar in &grammars::all() {
            let (sheet, text) = (grammar.sheet.as_bytes(), &grammar.middling_text[..]);
            assert!((1_900..=RECOGNISER_TEXT_LIMIT).contains(&text.len()));
            for engine in engines() {
                let (answer, _) = recognised(engine, sheet, text);
                assert_eq!(answer[..2], [0, text.len() as u64], "{}", grammar.name);
                let (_, image) = full_write(engine, sheet, 65_536, 65_536);
                let run = full_run(engine, &image, text, stack_length(text.len()));
                assert_eq!(run, answer, "{}", grammar.name);
            }
        }
    }
}
