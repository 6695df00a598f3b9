//! The scanner table of an image, and running with a table: questions 18, 12, 13 and 19, then those of the
//! machine. The longest match is written by rows here too, but no run uses it: the answers come from the
//! machine's own sets.

use crate::image::Image;
use crate::machine::{run, Ran};
use crate::TEXT_LIMIT;

/// The entries that a lent table must have at least.
pub const TABLE_ENTRIES: usize = 65_536;

/// The entries that a lent buffer for the winners must have at least.
pub const WINNER_ENTRIES: usize = 256;

/// The most rows that a table has.
pub const ROW_LIMIT: usize = 256;

/// The winner of a row that has none.
pub const NO_WINNER: u16 = 32;

/// The table of an image.
#[derive(Clone, Debug, PartialEq, Eq)]
pub struct Table {
    /// At row × 256 + byte the next row.
    pub entries: Vec<u16>,
    /// For each row the winning rule, or [`NO_WINNER`].
    pub winners: Vec<u16>,
}

/// A row: the start, or a set of kept positions. The start is no set, and equals none.
#[derive(Clone, Copy, PartialEq, Eq)]
enum Row {
    Start,
    Kept(u64),
}

impl Row {
    /// The positions that are held when the next byte comes.
    fn held(self, image: &Image) -> u64 {
        match self {
            Row::Start => image.first,
            Row::Kept(kept) => {
                members(kept).fold(0, |held, own| held | image.positions[own].follow)
            }
        }
    }

    /// The lowest rule of which a kept position is last.
    fn winner(self, image: &Image) -> u16 {
        let kept = match self {
            Row::Start => 0,
            Row::Kept(kept) => kept,
        };
        let positions = members(kept).map(|own| &image.positions[own]);
        let ended = positions.filter(|position| position.last);
        match ended.map(|position| position.rule).min() {
            Some(rule) => rule as u16,
            None => NO_WINNER,
        }
    }
}

/// The row that a byte leads to: the held positions whose class has it.
fn next(image: &Image, held: u64, byte: u8) -> Row {
    let has = |&own: &usize| {
        let position = &image.positions[own];
        position.low <= byte && byte <= position.high
    };
    let kept = members(held).filter(has);
    Row::Kept(kept.fold(0, |set, own| set | 1 << own))
}

/// The positions of a set, rising.
fn members(set: u64) -> impl Iterator<Item = usize> {
    (0..64).filter(move |position| set >> position & 1 == 1)
}

impl Table {
    /// The table of an image: row 0 is the start, row 1 the empty set, then each set of kept positions in
    /// the order first reached, rows in order, bytes rising. With over 256 rows there is none.
    pub fn of(image: &Image) -> Option<Table> {
        let mut rows = vec![Row::Start, Row::Kept(0)];
        let mut entries = Vec::new();
        let mut winners = Vec::new();
        while let Some(&row) = rows.get(winners.len()) {
            let held = row.held(image);
            for byte in 0..=255 {
                let next = next(image, held, byte);
                let number = rows.iter().position(|other| *other == next);
                if number.is_none() {
                    rows.push(next);
                }
                entries.push(number.unwrap_or(rows.len() - 1) as u16);
            }
            winners.push(row.winner(image));
            if rows.len() > ROW_LIMIT {
                return None;
            }
        }
        Some(Table { entries, winners })
    }

    /// How many rows there are.
    pub fn rows(&self) -> usize {
        self.winners.len()
    }

    /// The longest match at the start of `rest`, found by rows: its rule and its length. One entry is looked
    /// up for each byte, and in row 1 nothing can be found any more.
    pub fn longest_match(&self, rest: &[u8]) -> Option<(usize, usize)> {
        let mut found = None;
        let mut row = 0;
        for (index, &byte) in rest.iter().enumerate() {
            row = usize::from(self.entries[256 * row + usize::from(byte)]);
            if row == 1 {
                break;
            }
            if self.winners[row] != NO_WINNER {
                found = Some((self.winners[row].into(), index + 1));
            }
        }
        found
    }
}

/// Runs an image over a text with a table, which is put into the first entries of two lent buffers before the
/// text is read. With all effects on these buffers and on the stack. Once the table stands, the answer is that
/// of [`run`], which knows of no table.
pub fn run_table(
    image: &[u8],
    text: &[u8],
    table: &mut [u16],
    winners: &mut [u16],
    stack: &mut [u8],
) -> Ran {
    let refused = |number, place| Ran {
        number,
        place,
        tokens: 0,
    };
    if table.len() < TABLE_ENTRIES || winners.len() < WINNER_ENTRIES {
        return refused(18, 0);
    }
    if text.len() > TEXT_LIMIT {
        return refused(12, 0);
    }
    let parts = match Image::read(image) {
        Ok(parts) => parts,
        Err(refusal) => return refused(refusal.number, refusal.place),
    };
    match Table::of(&parts) {
        None => return refused(19, 0),
        Some(own) => {
            table[..own.entries.len()].copy_from_slice(&own.entries);
            winners[..own.rows()].copy_from_slice(&own.winners);
        }
    }
    run(image, text, stack)
}

/// [`run_table`] with the results of the C interface: number, place and count in `out[0..3]`.
///
/// An `out` shorter than 3 is left untouched, and nothing else happens.
pub fn vinzagew_run_table(
    image: &[u8],
    text: &[u8],
    table: &mut [u16],
    winners: &mut [u16],
    stack: &mut [u8],
    out: &mut [u64],
) {
    if let Some(out) = out.get_mut(..3) {
        let ran = run_table(image, text, table, winners, stack);
        out.copy_from_slice(&[ran.number, ran.place as u64, ran.tokens as u64]);
    }
}
