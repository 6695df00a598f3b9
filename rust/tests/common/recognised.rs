//! Calls of the recogniser, with a look at every byte of both buffers.
//!
//! No test is here. What is right is said by the reference, the machine and the vectors.

use super::{pattern, three, work_after, Engine, OUT};

/// A byte from here on is no token.
const UNWRITTEN: u8 = 100;

/// What a list holds before a call: nothing that is ever written, and a byte that is moved by less
/// than 149 places shows.
pub fn list_pattern(length: usize) -> Vec<u8> {
    let piece: Vec<u8> = (UNWRITTEN..249).collect();
    piece.iter().copied().cycle().take(length).collect()
}

/// The result of a call with buffers of the given lengths, after all effects were looked at that do
/// not depend on sheet and text: number, place and count, and the tokens that were written.
pub fn full_recognise(
    engine: Engine,
    sheet: &[u8],
    text: &[u8],
    work_length: usize,
    list_length: usize,
) -> ([u64; 3], Vec<u8>) {
    let mut work = pattern(work_length);
    let mut list = list_pattern(list_length);
    let mut out = OUT;
    (engine.recognise)(sheet, text, &mut work, &mut list, &mut out);
    let [number, place, count] = three(engine, out);
    assert!(work == work_after(number, work_length), "{}", engine.name);
    if matches!(number, 1..=10 | 12 | 20) {
        assert_eq!(count, 0, "{}: a count after {number}", engine.name);
    }
    let count = count as usize;
    assert!(count <= list_length, "{}: {count} tokens", engine.name);
    let rest = &list_pattern(list_length)[count..];
    assert!(list[count..] == *rest, "{}: past the tokens", engine.name);
    list.truncate(count);
    let written = list.iter().all(|&token| token < UNWRITTEN);
    assert!(written, "{}: fewer tokens than counted", engine.name);
    ([number, place, count as u64], list)
}

/// The same with a long enough work area and a list as long as the text.
pub fn recognised(engine: Engine, sheet: &[u8], text: &[u8]) -> ([u64; 3], Vec<u8>) {
    full_recognise(engine, sheet, text, 65_536, text.len())
}

/// A call with an `out` of fewer than three numbers changes nothing.
pub fn short_out_changes_nothing(engine: Engine, sheet: &[u8], text: &[u8]) {
    for length in 0..3 {
        let mut work = pattern(65_540);
        let mut list = list_pattern(text.len());
        let mut out = OUT[..length].to_vec();
        (engine.recognise)(sheet, text, &mut work, &mut list, &mut out);
        assert!(work == pattern(65_540), "{}", engine.name);
        assert!(list == list_pattern(text.len()), "{}", engine.name);
        assert_eq!(out, OUT[..length], "{}", engine.name);
    }
}
