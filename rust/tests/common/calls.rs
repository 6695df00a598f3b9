//! Random calls of checking, writing, running, with and without a table, and recognising, with all
//! their buffers.
//!
//! A call can be made by any engine, and two of them compared to the last byte. What is right
//! is not said here: the reference is asked only for images to run and for lengths that matter.

use super::random::Random;
use super::{generate, hexadecimal, image_of, images, numbers, Engine, IMAGE_OF_D, REFERENCE};
use std::fmt;
use vinzagew::{stack_length, TABLE_ENTRIES, TEXT_LIMIT, WINNER_ENTRIES};

/// A call with all its buffers.
#[derive(Clone, PartialEq, Eq)]
pub enum Call {
    Check {
        sheet: Vec<u8>,
        work: Vec<u8>,
        out: Vec<u64>,
    },
    Write {
        sheet: Vec<u8>,
        work: Vec<u8>,
        image: Vec<u8>,
        out: Vec<u64>,
    },
    Run {
        image: Vec<u8>,
        text: Vec<u8>,
        stack: Vec<u8>,
        out: Vec<u64>,
    },
    RunTable {
        image: Vec<u8>,
        text: Vec<u8>,
        table: Vec<u16>,
        winners: Vec<u16>,
        stack: Vec<u8>,
        out: Vec<u64>,
    },
    Recognise {
        sheet: Vec<u8>,
        text: Vec<u8>,
        work: Vec<u8>,
        list: Vec<u8>,
        out: Vec<u64>,
    },
}

impl Call {
    pub fn make(&mut self, engine: Engine) {
        match self {
            Call::Check { sheet, work, out } => (engine.check)(sheet, work, out),
            Call::Write {
                sheet,
                work,
                image,
                out,
            } => (engine.write)(sheet, work, image, out),
            Call::Run {
                image,
                text,
                stack,
                out,
            } => (engine.run)(image, text, stack, out),
            Call::RunTable {
                image,
                text,
                table,
                winners,
                stack,
                out,
            } => (engine.run_table)(image, text, table, winners, stack, out),
            Call::Recognise {
                sheet,
                text,
                work,
                list,
                out,
            } => (engine.recognise)(sheet, text, work, list, out),
        }
    }

    pub fn kind(&self) -> &'static str {
        match self {
            Call::Check { .. } => "check",
            Call::Write { .. } => "write",
            Call::Run { .. } => "run",
            Call::RunTable { .. } => "run with a table",
            Call::Recognise { .. } => "recognise",
        }
    }

    pub fn out(&self) -> &[u64] {
        match self {
            Call::Check { out, .. }
            | Call::Write { out, .. }
            | Call::Run { out, .. }
            | Call::RunTable { out, .. }
            | Call::Recognise { out, .. } => out,
        }
    }

    /// The buffers of bytes that the call may write to.
    pub fn buffers(&self) -> Vec<&[u8]> {
        match self {
            Call::Check { work, .. } => vec![work],
            Call::Write { work, image, .. } => vec![work, image],
            Call::Run { stack, .. } | Call::RunTable { stack, .. } => vec![stack],
            Call::Recognise { work, list, .. } => vec![work, list],
        }
    }

    /// The buffers of entries of two bytes that the call may write to.
    pub fn entries(&self) -> Vec<&[u16]> {
        match self {
            Call::RunTable { table, winners, .. } => vec![table, winners],
            _ => Vec::new(),
        }
    }

    /// The bytes that the call only reads.
    fn inputs(&self) -> Vec<&[u8]> {
        match self {
            Call::Check { sheet, .. } | Call::Write { sheet, .. } => vec![sheet],
            Call::Run { image, text, .. } | Call::RunTable { image, text, .. } => {
                vec![image, text]
            }
            Call::Recognise { sheet, text, .. } => vec![sheet, text],
        }
    }
}

impl fmt::Display for Call {
    fn fmt(&self, formatter: &mut fmt::Formatter) -> fmt::Result {
        write!(formatter, "{}", self.kind())?;
        for input in self.inputs() {
            write!(formatter, ", reads {}", hexadecimal(input))?;
        }
        for buffer in self.buffers() {
            write!(formatter, ", is lent {} bytes", buffer.len())?;
        }
        for buffer in self.entries() {
            write!(formatter, ", is lent {} entries", buffer.len())?;
        }
        write!(formatter, ", out {:?}", self.out())
    }
}

/// A sheet of any kind, passing or not. Some are padded, and of these some are damaged thereafter.
pub fn sheet(random: &mut Random) -> Vec<u8> {
    let sheet = unpadded_sheet(random);
    match random.below(16) {
        0..=2 => numbers::twin(random, &sheet),
        3 => {
            let twin = numbers::twin(random, &sheet);
            generate::damage(random, &twin)
        }
        _ => sheet,
    }
}

/// A sheet of any kind, passing or not, with no number padded but by damage.
fn unpadded_sheet(random: &mut Random) -> Vec<u8> {
    match random.below(27) {
        0..=5 => generate::passing_sheet(random).to_bytes(),
        6 | 7 => generate::unfinished_sheet(random).to_bytes(),
        8 => generate::long_tailed_sheet(random).to_bytes(),
        9..=13 => {
            let sheet = generate::passing_sheet(random).to_bytes();
            generate::damage(random, &sheet)
        }
        14..=16 => generate::nearly_passing_sheet(random).to_bytes(),
        17 => generate::nearly_unfinished_sheet(random).to_bytes(),
        18 | 19 => generate::untyped_sheet(random).to_bytes(),
        20 => generate::number_soup(random),
        21 if random.once_in(2) => generate::crowded_sheet(random),
        21 => generate::long_expression_sheet(random),
        22 => {
            let length = random.below(12);
            random.bytes(length)
        }
        23 | 24 => generate::large_sheet(random).to_bytes(),
        25 => {
            let sheet = generate::large_sheet(random).to_bytes();
            generate::damage(random, &sheet)
        }
        _ => long_sheet(random),
    }
}

/// A sheet that is too long, or nearly so: a passing one with leftover bytes, or any bytes.
fn long_sheet(random: &mut Random) -> Vec<u8> {
    let length = match random.below(3) {
        0 => random.range(4_097, 20_000),
        _ => random.range(4_094, 4_098),
    };
    if random.once_in(4) {
        return random.bytes(length);
    }
    let mut sheet = generate::passing_sheet(random).to_bytes();
    sheet.resize(length, random.next() as u8);
    sheet
}

/// A buffer with random content, which repeats in most long ones.
fn buffer(random: &mut Random, length: usize) -> Vec<u8> {
    if length < 256 || random.once_in(64) {
        return random.bytes(length);
    }
    let pattern = random.bytes(31);
    pattern.iter().copied().cycle().take(length).collect()
}

fn out(random: &mut Random) -> Vec<u64> {
    let length = match random.below(16) {
        0 => random.below(3),
        1 => random.range(4, 6),
        _ => 3,
    };
    (0..length).map(|_| random.next()).collect()
}

/// The length of a work area; some are too short, and some far longer than need be.
pub fn work_length(random: &mut Random) -> usize {
    match random.below(24) {
        0 => random.below(4),
        1 => random.below(65_536),
        2 => 65_535,
        3 => 65_537,
        4 => 65_536 + random.below(100),
        5 => random.range(65_536, 200_000),
        _ => 65_536,
    }
}

fn check_call(random: &mut Random) -> Call {
    let length = work_length(random);
    Call::Check {
        sheet: sheet(random),
        work: buffer(random, length),
        out: out(random),
    }
}

fn write_call(random: &mut Random) -> Call {
    let sheet = sheet(random);
    let work_length = work_length(random);
    let needed = image_of(&sheet).map_or(0, |image| image.to_bytes().len());
    let image_length = match random.below(12) {
        0 => needed.saturating_sub(1),
        1 => random.below(needed + 1),
        2 => 0,
        3 => 65_536,
        4 | 5 => needed,
        _ => needed + random.below(20),
    };
    Call::Write {
        work: buffer(random, work_length),
        image: buffer(random, image_length),
        out: out(random),
        sheet,
    }
}

/// The shortest stack that does not lead to 17.
fn least_stack(image: &[u8], text: &[u8]) -> usize {
    let enough = |length| {
        let mut out = [0; 3];
        (REFERENCE.run)(image, text, &mut vec![0; length], &mut out);
        out[0] != 17
    };
    let (mut low, mut high) = (0, stack_length(text.len()));
    while low < high {
        let middle = (low + high) / 2;
        if enough(middle) {
            high = middle;
        } else {
            low = middle + 1;
        }
    }
    low
}

/// What a run reads, and how many entries its stack has.
struct Reading {
    image: Vec<u8>,
    text: Vec<u8>,
    room: usize,
}

/// A text around the limit, on a stack that is long enough for sheet D's image or nearly so.
fn long_reading(random: &mut Random) -> Reading {
    let length = random.range(1_048_574, 1_048_577);
    let piece = *random.pick(&[&b"7"[..], b"12 /", b"7/"]);
    Reading {
        image: IMAGE_OF_D.to_vec(),
        text: piece.iter().copied().cycle().take(length).collect(),
        room: random.below(4),
    }
}

/// An image of any kind, often damaged, with a text for it.
fn short_reading(random: &mut Random) -> Reading {
    let image = match random.below(12) {
        0..=3 => generate::readable_image(random),
        4 => image_of(generate::long_tailed_sheet(random).as_bytes()).expect("it passes"),
        5 => image_of(generate::large_sheet(random).as_bytes()).expect("it passes"),
        _ => image_of(generate::passing_sheet(random).as_bytes()).expect("it passes"),
    };
    let text = generate::text(random, &image);
    let image = match random.below(6) {
        0 => generate::damage(random, &image.to_bytes()),
        1 => generate::damage_field(random, &image),
        2 if random.once_in(2) => generate::stretch_tail(random, &image).to_bytes(),
        3 if random.once_in(2) => numbers::twin_with_one_padded(random, &image.to_bytes()),
        _ => image.to_bytes(),
    };
    let room = match random.below(8) {
        0 => random.below(12),
        1..=3 => {
            let least = least_stack(&image, &text);
            (least + random.below(3)).saturating_sub(1)
        }
        _ => stack_length(text.len()),
    };
    Reading { image, text, room }
}

fn reading(random: &mut Random) -> Reading {
    if random.once_in(150) {
        return long_reading(random);
    }
    let mut reading = short_reading(random);
    if random.once_in(80) {
        reading.text.resize(TEXT_LIMIT + 1, b' ');
    }
    reading
}

fn run_call(random: &mut Random) -> Call {
    let Reading { image, text, room } = reading(random);
    Call::Run {
        stack: buffer(random, room),
        out: out(random),
        image,
        text,
    }
}

/// An image whose table has 256 rows or some more or fewer, with a text for it.
fn reading_near_the_row_limit(random: &mut Random) -> Reading {
    let (image, _) = images::near_row_limit(random);
    let text = images::text(random, &image);
    Reading {
        image: image.to_bytes(),
        room: stack_length(text.len()),
        text,
    }
}

/// Entries with random content, which repeats.
fn entries(random: &mut Random, length: usize) -> Vec<u16> {
    let pattern: Vec<u16> = (0..31).map(|_| random.next() as u16).collect();
    pattern.iter().copied().cycle().take(length).collect()
}

/// The length of a buffer of which `enough` entries are needed; some are too short, and some longer than need be.
pub fn entry_count(random: &mut Random, enough: usize) -> usize {
    match random.below(32) {
        0 => random.below(enough),
        1 => enough - 1,
        2 => enough + random.below(1_000),
        3 => 2 * enough,
        _ => enough,
    }
}

/// A run with a table: a reading as for a run without, or one near the limit.
pub fn run_table_call(random: &mut Random) -> Call {
    let Reading { image, text, room } = match random.below(24) {
        0 => reading_near_the_row_limit(random),
        _ => reading(random),
    };
    let table_length = entry_count(random, TABLE_ENTRIES);
    let winners_length = entry_count(random, WINNER_ENTRIES);
    Call::RunTable {
        table: entries(random, table_length),
        winners: entries(random, winners_length),
        stack: buffer(random, room),
        out: out(random),
        image,
        text,
    }
}

/// A text for a sheet of any kind; for one that passes, in most cases it has tokens of the sheet.
/// Some texts have as many bytes as the recogniser allows, or nearly.
fn text_for(random: &mut Random, sheet: &[u8]) -> Vec<u8> {
    let mut text = match image_of(sheet) {
        Ok(image) => generate::text(random, &image),
        Err(_) => generate::letters(random),
    };
    if random.once_in(12) {
        let length = random.range(2_046, 2_049);
        let piece = if text.is_empty() { b"a" } else { &text[..] };
        text = piece.iter().copied().cycle().take(length).collect();
    }
    text
}

/// The length of a list for a text; some are too short, and some longer than need be.
pub fn list_length(random: &mut Random, text: &[u8]) -> usize {
    match random.below(12) {
        0 => random.below(text.len() + 1),
        1 => text.len().saturating_sub(1),
        2 | 3 => text.len() + random.below(300),
        _ => text.len(),
    }
}

fn recognise_call(random: &mut Random) -> Call {
    let sheet = match random.below(6) {
        0 => sheet(random),
        1 => generate::unfinished_sheet(random).to_bytes(),
        2 => generate::untyped_sheet(random).to_bytes(),
        _ => generate::passing_sheet(random).to_bytes(),
    };
    let text = text_for(random, &sheet);
    let (work_length, list_length) = (work_length(random), list_length(random, &text));
    Call::Recognise {
        work: buffer(random, work_length),
        list: buffer(random, list_length),
        out: out(random),
        sheet,
        text,
    }
}

/// A call of any kind.
pub fn call(random: &mut Random) -> Call {
    match random.below(6) {
        0 => check_call(random),
        1 => write_call(random),
        2 => run_table_call(random),
        3 => recognise_call(random),
        _ => run_call(random),
    }
}
