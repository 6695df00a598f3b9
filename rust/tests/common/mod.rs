//! What the tests share: the engines that are compared, and calls of them with a look at every buffer.
//!
//! No test is here, and nothing but the reference says what is right for a sheet, an image or a text. The
//! benchmark's tests use this too.

#![allow(dead_code)]

pub mod calls;
pub mod generate;
pub mod images;
pub mod json_lines;
pub mod long_walks;
pub mod numbers;
pub mod random;
pub mod recognised;
pub mod tables;
pub mod words;

use vinzagew_reference::image::{self, Image};
use vinzagew_reference::Refusal;

/// The image of the contract's sheet D.
pub const IMAGE_OF_D: [u8; 48] = [
    1, 3, 0, 1, 0, 4, 47, 47, 0, 1, 0, 32, 32, 1, 1, 0, 48, 57, 2, 1, 8, 48, 57, 2, 1, 8, 7, 4, 0,
    1, 2, 1, 1, 1, 1, 0, 1, 2, 0, 1, 2, 1, 3, 1, 1, 0, 1, 2,
];

/// Checks a sheet: sheet, work area, out.
pub type Check = fn(&[u8], &mut [u8], &mut [u64]);

/// Writes a sheet's image: sheet, work area, image buffer, out.
pub type Write = fn(&[u8], &mut [u8], &mut [u8], &mut [u64]);

/// Runs an image: image, text, stack, out.
pub type Run = fn(&[u8], &[u8], &mut [u8], &mut [u64]);

/// Runs an image with a table: image, text, table, winners, stack, out.
pub type RunTable = fn(&[u8], &[u8], &mut [u16], &mut [u16], &mut [u8], &mut [u64]);

/// Recognises a text by a sheet: sheet, text, work area, list, out.
pub type Recognise = fn(&[u8], &[u8], &mut [u8], &mut [u8], &mut [u64]);

/// The five functions of an implementation, with the results and effects of the C interface.
#[derive(Clone, Copy)]
pub struct Engine {
    pub name: &'static str,
    pub check: Check,
    pub write: Write,
    pub run: Run,
    pub run_table: RunTable,
    pub recognise: Recognise,
}

pub const REFERENCE: Engine = Engine {
    name: "reference",
    check: vinzagew_reference::vinzagew_check,
    write: vinzagew_reference::vinzagew_write,
    run: vinzagew_reference::vinzagew_run,
    run_table: vinzagew_reference::vinzagew_run_table,
    recognise: vinzagew_reference::vinzagew_recognise,
};

pub const LIBRARY: Engine = Engine {
    name: "library",
    check: vinzagew::library::vinzagew_check,
    write: vinzagew::library::vinzagew_write,
    run: vinzagew::library::vinzagew_run,
    run_table: vinzagew::library::vinzagew_run_table,
    recognise: vinzagew::library::vinzagew_recognise,
};

/// The reference, and the library if it was linked.
pub fn engines() -> Vec<Engine> {
    if vinzagew::LIBRARY_LINKED {
        vec![REFERENCE, LIBRARY]
    } else {
        vec![REFERENCE]
    }
}

/// Bytes in hexadecimal.
pub fn hexadecimal(bytes: &[u8]) -> String {
    bytes.iter().map(|byte| format!("{byte:02x}")).collect()
}

/// What a buffer holds before a call: no zero, and a byte that is moved by less than 251 places shows.
pub fn pattern(length: usize) -> Vec<u8> {
    let piece: Vec<u8> = (1..=251).collect();
    let mut pattern = piece.repeat(length / 251 + 1);
    pattern.truncate(length);
    pattern
}

/// The numbers that `out` holds before a call; more than are written.
const OUT: [u64; 6] = [u64::MAX, 71, 72, 73, 74, 75];

/// The first three numbers of `out` after a call, once the rest is seen to be as before.
fn three(engine: Engine, out: [u64; 6]) -> [u64; 3] {
    assert_eq!(out[3..], OUT[3..], "{}: out past 3", engine.name);
    [out[0], out[1], out[2]]
}

/// The work area after a check or a write that gave this number.
fn work_after(number: u64, length: usize) -> Vec<u8> {
    let mut work = pattern(length);
    if number != 1 {
        work[..65_536].fill(0);
    }
    work
}

/// By the reference, the image in parts of a sheet that passes.
pub fn image_of(sheet: &[u8]) -> Result<Image, Refusal> {
    let sheet = vinzagew_reference::check(sheet, &mut vec![0; 65_536])?;
    Ok(image::fuse(&sheet))
}

/// The number and place of a check with a work area of the given length, after all effects were looked
/// at that do not depend on the sheet.
pub fn full_check(engine: Engine, sheet: &[u8], work_length: usize) -> [u64; 2] {
    let mut work = pattern(work_length);
    let mut out = OUT;
    (engine.check)(sheet, &mut work, &mut out);
    let [number, place, zero] = three(engine, out);
    assert_eq!(zero, 0, "{}: the third number of a check", engine.name);
    assert!(number <= 10, "{}: a check gave {number}", engine.name);
    assert!(work == work_after(number, work_length), "{}", engine.name);
    [number, place]
}

/// The result of a write with buffers of the given lengths, after all effects were looked at that do not
/// depend on the sheet: number, place, length, and the image, empty on refusal.
pub fn full_write(
    engine: Engine,
    sheet: &[u8],
    work_length: usize,
    image_length: usize,
) -> ([u64; 3], Vec<u8>) {
    let mut work = pattern(work_length);
    let mut image = pattern(image_length);
    let mut out = OUT;
    (engine.write)(sheet, &mut work, &mut image, &mut out);
    let [number, place, length] = three(engine, out);
    assert!(work == work_after(number, work_length), "{}", engine.name);
    let written = if number == 0 { length as usize } else { 0 };
    let rest = &pattern(image_length)[written..];
    assert!(image[written..] == *rest, "{}", engine.name);
    image.truncate(written);
    ([number, place, length], image)
}

/// The result of a run on a stack of the given length, after the effects on the stack were looked at:
/// number, place and count.
pub fn full_run(engine: Engine, image: &[u8], text: &[u8], stack_length: usize) -> [u64; 3] {
    let mut stack = pattern(stack_length);
    let mut out = OUT;
    (engine.run)(image, text, &mut stack, &mut out);
    let [number, place, count] = three(engine, out);
    if matches!(number, 12 | 13) {
        assert!(stack == pattern(stack_length), "{}", engine.name);
    } else {
        assert!(stack.iter().all(|&byte| byte == 0), "{}", engine.name);
    }
    [number, place, count]
}

/// Checking and writing with an `out` of fewer than three numbers change nothing.
pub fn short_out_changes_nothing(
    engine: Engine,
    sheet: &[u8],
    work_length: usize,
    image_length: usize,
) {
    for length in 0..3 {
        let mut work = pattern(work_length);
        let mut image = pattern(image_length);
        let mut out = OUT[..length].to_vec();
        (engine.check)(sheet, &mut work, &mut out);
        (engine.write)(sheet, &mut work, &mut image, &mut out);
        assert!(work == pattern(work_length), "{}", engine.name);
        assert!(image == pattern(image_length), "{}", engine.name);
        assert_eq!(out, OUT[..length], "{}", engine.name);
    }
}
