//! Runs with a table, with a look at every entry of both buffers.
//!
//! No test is here. What a table must have is said by the reference and by the vectors.

use super::{pattern, three, Engine, OUT};
use vinzagew::{stack_length, TABLE_ENTRIES, WINNER_ENTRIES};
use vinzagew_reference::Table;

/// The lengths of the buffers that are lent to a run with a table, in entries.
#[derive(Clone, Copy, Debug, PartialEq, Eq)]
pub struct Lent {
    pub table: usize,
    pub winners: usize,
    pub stack: usize,
}

impl Lent {
    /// Buffers that are just long enough, beside a stack.
    pub fn enough(stack: usize) -> Lent {
        Lent {
            table: TABLE_ENTRIES,
            winners: WINNER_ENTRIES,
            stack,
        }
    }

    /// Buffers that are just long enough, and a long enough stack.
    pub fn enough_for(text: &[u8]) -> Lent {
        Lent::enough(stack_length(text.len()))
    }

    /// Both buffers longer than need be.
    pub fn longer(self) -> Lent {
        Lent {
            table: self.table + 300,
            winners: self.winners + 7,
            ..self
        }
    }
}

/// An entry from here on is no row and no rule.
const UNWRITTEN: u16 = 0x8000;

/// What a buffer of entries holds before a call: nothing that is ever written, and an entry that is moved by less
/// than 251 places shows.
pub fn entry_pattern(length: usize) -> Vec<u16> {
    let piece: Vec<u16> = (1..=251).map(|entry| UNWRITTEN + entry).collect();
    let mut pattern = piece.repeat(length / 251 + 1);
    pattern.truncate(length);
    pattern
}

/// The result of a run with a table, after all effects were looked at that do not depend on the image and the text:
/// number, place and count, and the table, if one was built. What lies past its last row is as before.
pub fn full_run_table(
    engine: Engine,
    image: &[u8],
    text: &[u8],
    lent: Lent,
) -> ([u64; 3], Option<Table>) {
    let mut table = entry_pattern(lent.table);
    let mut winners = entry_pattern(lent.winners);
    let mut stack = pattern(lent.stack);
    let mut out = OUT;
    (engine.run_table)(image, text, &mut table, &mut winners, &mut stack, &mut out);
    let answer = three(engine, out);
    let untouched = matches!(answer[0], 12 | 13 | 18 | 19);
    if untouched {
        assert!(stack == pattern(lent.stack), "{}", engine.name);
    } else {
        assert!(stack.iter().all(|&byte| byte == 0), "{}", engine.name);
    }
    let built = built(engine, table, winners);
    assert_eq!(built.is_none(), untouched, "{}", engine.name);
    (answer, built)
}

/// The table that was built in two buffers, if they are not as before.
fn built(engine: Engine, mut table: Vec<u16>, mut winners: Vec<u16>) -> Option<Table> {
    let written = winners.iter().filter(|&&winner| winner < UNWRITTEN);
    let rows = written.count();
    let entries = 256 * rows;
    let rest = |buffer: &[u16], written: usize| {
        buffer[written..] == entry_pattern(buffer.len())[written..]
    };
    assert!(entries <= table.len(), "{}: {rows} rows", engine.name);
    assert!(rest(&table, entries), "{}: table past its end", engine.name);
    assert!(
        rest(&winners, rows),
        "{}: winners past the end",
        engine.name
    );
    table.truncate(entries);
    winners.truncate(rows);
    let leads_to_a_row = |&entry: &u16| usize::from(entry) < rows;
    assert!(table.iter().all(leads_to_a_row), "{}", engine.name);
    (rows > 0).then_some(Table {
        entries: table,
        winners,
    })
}

/// A run with a table and an `out` of fewer than three numbers changes nothing.
pub fn short_out_changes_nothing(engine: Engine, image: &[u8], text: &[u8]) {
    for length in 0..3 {
        let mut table = entry_pattern(TABLE_ENTRIES);
        let mut winners = entry_pattern(WINNER_ENTRIES);
        let mut stack = pattern(100);
        let mut out = OUT[..length].to_vec();
        (engine.run_table)(image, text, &mut table, &mut winners, &mut stack, &mut out);
        assert!(table == entry_pattern(TABLE_ENTRIES), "{}", engine.name);
        assert!(winners == entry_pattern(WINNER_ENTRIES), "{}", engine.name);
        assert_eq!(stack, pattern(100), "{}", engine.name);
        assert_eq!(out, OUT[..length], "{}", engine.name);
    }
}
