//! Running an image with a table in plain Rust, to measure beside the library.
//!
//! It asks questions 18, 12, 13 and 19, and then those of a run without a table, whose reading of images
//! and whose takes are used. It is made to be fast. Nothing is put on the heap. To build the table, sets are found by
//! their hash, and bytes after each other that the same positions have are looked at once for all of them. To read,
//! one entry is looked up for a byte, and none after a row that leads nowhere.

use super::{
    Machine, Pending, Reader, Scanner, FEW_NONTERMINALS, NONTERMINAL_LIMIT, POSITION_LIMIT,
    RULE_LIMIT,
};
use vinzagew_reference::table::{NO_WINNER, ROW_LIMIT, TABLE_ENTRIES, WINNER_ENTRIES};
use vinzagew_reference::TEXT_LIMIT;

/// The buffers that are lent for a table.
pub struct Lent<'a> {
    pub table: &'a mut [u16],
    pub winners: &'a mut [u16],
}

/// Runs an image over a text with a table: number, place and count.
// Reached by a call, as the library's function is.
#[inline(never)]
pub fn run(image: &[u8], text: &[u8], lent: Lent, stack: &mut [u8]) -> [usize; 3] {
    let rows = match Rows::lent(lent) {
        Some(rows) => rows,
        None => return [18, 0, 0],
    };
    if text.len() > TEXT_LIMIT {
        return [12, 0, 0];
    }
    let mut reader = Reader {
        bytes: image,
        place: 0,
    };
    let mut machine = Machine::<{ FEW_NONTERMINALS as usize }>::new(Scanner::new(), image);
    match machine.scanner.fill(&mut reader) {
        None => [13, reader.place, 0],
        Some(count) if count <= FEW_NONTERMINALS => {
            run_machine(&mut machine, reader, count, rows, text, stack)
        }
        Some(count) => {
            let mut machine =
                Machine::<{ NONTERMINAL_LIMIT as usize }>::new(machine.scanner, image);
            run_machine(&mut machine, reader, count, rows, text, stack)
        }
    }
}

/// Reads the image from its `count` nonterminals on, builds the table, and then reads the text.
fn run_machine<const N: usize>(
    machine: &mut Machine<N>,
    mut reader: Reader,
    count: u8,
    mut rows: Rows,
    text: &[u8],
    stack: &mut [u8],
) -> [usize; 3] {
    if machine.fill(&mut reader, count).is_none() {
        return [13, reader.place, 0];
    }
    if rows.build(&machine.scanner).is_none() {
        return [19, 0, 0];
    }
    let result = rows.walk(machine, text, stack);
    stack.fill(0);
    result
}

/// The sets of the rows that were met, in the order first reached.
struct Sets {
    count: usize,
    /// For each row its set. Row 0 has none.
    sets: [u64; ROW_LIMIT],
    /// Rows by the hash of their sets, each in the first free entry from there on; 0 where none stands. Less than
    /// half of it is used.
    by_hash: [u8; 2 * ROW_LIMIT],
}

impl Sets {
    /// The start and the empty set.
    fn new() -> Self {
        Sets {
            count: 2,
            sets: [0; ROW_LIMIT],
            by_hash: [0; 2 * ROW_LIMIT],
        }
    }

    /// The row of a set. A set that was not met before gets the next row, if there is room.
    #[inline(always)]
    fn row_of(&mut self, set: u64) -> Option<u8> {
        if set == 0 {
            return Some(1);
        }
        let mut place = (set.wrapping_mul(0x9e37_79b9_7f4a_7c15) >> 55) as usize;
        loop {
            let row = self.by_hash[place % (2 * ROW_LIMIT)];
            if row == 0 {
                break;
            }
            if self.sets[row as usize] == set {
                return Some(row);
            }
            place += 1;
        }
        let row = self.count;
        *self.sets.get_mut(row)? = set;
        self.by_hash[place % (2 * ROW_LIMIT)] = row as u8;
        self.count += 1;
        Some(row as u8)
    }

    /// The positions that are held in a row.
    fn held(&self, scanner: &Scanner, row: usize) -> u64 {
        match row {
            0 => scanner.first,
            1 => 0,
            _ => scanner.followers(self.sets[row]),
        }
    }

    /// The lowest rule that ends in a row.
    fn winner(&self, scanner: &Scanner, row: usize) -> u16 {
        let ended = self.sets[row] & scanner.last;
        if ended == 0 {
            return NO_WINNER;
        }
        // Rules never fall from a position to the next, so the lowest position has the lowest rule.
        (scanner.rules[ended.trailing_zeros() as usize & 63] % RULE_LIMIT).into()
    }
}

/// What is done where a match ends, beside the rules that are taken: nothing, since the rule skips.
const SKIP: u8 = RULE_LIMIT;
/// No rule wins, and an earlier match is looked for.
const NO_MATCH: u8 = RULE_LIMIT + 1;
/// Added if the row leads to row 1 for all bytes.
const FINAL: u8 = 64;

/// What is done where a match with this winner ends.
fn action(scanner: &Scanner, winner: u16) -> u8 {
    if winner == NO_WINNER {
        NO_MATCH
    } else if scanner.returning >> winner & 1 == 0 {
        SKIP
    } else {
        winner as u8
    }
}

/// The most parts of the bytes: a class begins one part at most, and ends one at most.
const PART_LIMIT: usize = 2 * POSITION_LIMIT as usize + 1;

/// The bytes in parts, rising. The bytes of a part are after each other, and the same positions have them.
struct Parts {
    count: usize,
    having: [u64; PART_LIMIT],
    /// For each part the end of its bytes.
    ends: [u16; PART_LIMIT],
}

impl Parts {
    fn new(scanner: &Scanner) -> Self {
        let mut parts = Parts {
            count: 0,
            having: [0; PART_LIMIT],
            ends: [0; PART_LIMIT],
        };
        parts.having[0] = scanner.having[0];
        for byte in 1..256 {
            if scanner.having[byte] != scanner.having[byte - 1] {
                parts.ends[parts.count] = byte as u16;
                parts.count += 1;
                parts.having[parts.count] = scanner.having[byte];
            }
        }
        parts.ends[parts.count] = 256;
        parts.count += 1;
        parts
    }
}

/// A table in lent buffers.
struct Rows<'a> {
    table: &'a mut [u16; TABLE_ENTRIES],
    winners: &'a mut [u16; WINNER_ENTRIES],
    /// For each row the rule that is taken where a match ends, or one of the numbers above.
    actions: [u8; ROW_LIMIT],
}

impl<'a> Rows<'a> {
    /// The front of lent buffers, if they are long enough.
    fn lent(lent: Lent<'a>) -> Option<Self> {
        let table = lent.table.get_mut(..TABLE_ENTRIES)?;
        let winners = lent.winners.get_mut(..WINNER_ENTRIES)?;
        Some(Rows {
            table: table.try_into().ok()?,
            winners: winners.try_into().ok()?,
            actions: [0; ROW_LIMIT],
        })
    }

    /// Builds the table. With over 256 rows nothing is written.
    #[inline(never)]
    fn build(&mut self, scanner: &Scanner) -> Option<()> {
        let parts = Parts::new(scanner);
        let mut sets = Sets::new();
        let mut row = 0;
        while row < sets.count {
            let held = sets.held(scanner, row);
            for having in &parts.having[..parts.count] {
                sets.row_of(held & having)?;
            }
            row += 1;
        }
        for row in 0..sets.count {
            let held = sets.held(scanner, row);
            let entries = &mut self.table[256 * row..256 * row + 256];
            let mut start = 0;
            for part in 0..parts.count {
                let end = parts.ends[part] as usize;
                let next = sets.row_of(held & parts.having[part])?;
                entries[start..end].fill(next.into());
                start = end;
            }
            self.winners[row] = sets.winner(scanner, row);
            let after = if held == 0 { FINAL } else { 0 };
            self.actions[row] = after + action(scanner, self.winners[row]);
        }
        Some(())
    }

    /// The row that the byte at a place leads to; row 1 at the text's end. No row is above 255.
    #[inline(always)]
    fn next(&self, row: u8, text: &[u8], place: usize) -> u8 {
        match text.get(place) {
            Some(&byte) => self.table[(row as usize) << 8 | byte as usize] as u8,
            None => 1,
        }
    }

    /// The longest match from `start` on, which is no end: where it ends, and its action.
    #[inline(always)]
    fn longest_match(&self, text: &[u8], start: usize) -> (usize, u8) {
        let mut row = self.table[text[start] as usize] as u8;
        let mut place = start + 1;
        let mut action = self.actions[row as usize];
        while action < FINAL {
            let mut next = self.next(row, text, place);
            // As long as a row leads to itself, the processor can look up the next entry before it has this one.
            while next == row {
                place += 1;
                next = self.next(row, text, place);
            }
            if next == 1 {
                break;
            }
            row = next;
            place += 1;
            action = self.actions[row as usize];
        }
        if action % FINAL == NO_MATCH {
            return self.earlier_match(text, start);
        }
        (place, action % FINAL)
    }

    /// The longest match from `start` on, where the walk ends in a row without a winner.
    #[cold]
    #[inline(never)]
    fn earlier_match(&self, text: &[u8], start: usize) -> (usize, u8) {
        let mut found = (start, NO_MATCH);
        let mut place = start;
        let mut row = self.next(0, text, place);
        while row != 1 {
            place += 1;
            let action = self.actions[row as usize] % FINAL;
            if action != NO_MATCH {
                found = (place, action);
            }
            row = self.next(row, text, place);
        }
        found
    }

    /// Questions 14 to 17.
    #[inline(never)]
    fn walk<const N: usize>(
        &self,
        machine: &Machine<N>,
        text: &[u8],
        stack: &mut [u8],
    ) -> [usize; 3] {
        if stack.is_empty() {
            return [17, 0, 0];
        }
        let mut pending = Pending {
            count: 1,
            first: 0,
            stack,
        };
        let (mut place, mut tokens) = (0, 0);
        while place < text.len() {
            let (end, action) = self.longest_match(text, place);
            if action == NO_MATCH {
                return [14, place, tokens];
            }
            if action < SKIP {
                if let Err(number) = machine.take(action, &mut pending) {
                    return [number, place, tokens];
                }
                tokens += 1;
            }
            place = end;
        }
        while pending.count > 0 {
            if !machine.is_nullable(pending.first) {
                return [16, place, tokens];
            }
            pending.drop();
        }
        [0, place, tokens]
    }
}

#[cfg(test)]
mod tests {
    use super::*;
    use crate::common::json_lines;
    use crate::common::random::for_case;
    use crate::common::{generate, images};
    use crate::{grammars, image_bytes};
    use vinzagew_reference::image::Image;
    use vinzagew_reference::{run_table, stack_length};

    /// The lengths of the buffers for a table that are just long enough.
    const ENOUGH: [usize; 2] = [TABLE_ENTRIES, WINNER_ENTRIES];

    /// This code and the reference agree on an image and a text: on their results, and on what they leave in all
    /// buffers. The number.
    fn agree(image: &[u8], text: &[u8], lengths: [usize; 2], room: usize) -> usize {
        let buffers = || {
            let [table, winners] = lengths.map(|length| vec![0xa5a5; length]);
            (table, winners, vec![0xa5; room])
        };
        let (mut table, mut winners, mut stack) = buffers();
        let lent = Lent {
            table: &mut table,
            winners: &mut winners,
        };
        let found = run(image, text, lent, &mut stack);
        let mut others = buffers();
        let expected = run_table(image, text, &mut others.0, &mut others.1, &mut others.2);
        let expected = [expected.number as usize, expected.place, expected.tokens];
        assert_eq!(found, expected, "{image:?}, {text:?}");
        assert!((table, winners, stack) == others, "{image:?}, {text:?}");
        found[0]
    }

    /// They agree on the grammars' texts, whole, cut off and damaged, on stacks long and short.
    #[test]
    fn texts_of_the_grammars() {
        let all = grammars::all()
            .into_iter()
            .chain(grammars::scanning_alone());
        for grammar in all {
            let image = image_bytes(&grammar.sheet);
            for text in [&grammar.text[..], grammar.short_text] {
                assert_eq!(agree(&image, text, ENOUGH, stack_length(text.len())), 0);
            }
            for end in (0..300).step_by(7) {
                let mut text = grammar.text[..end].to_vec();
                agree(&image, &text, ENOUGH, stack_length(end));
                agree(&image, &text, ENOUGH, end % 5);
                if let Some(byte) = text.get_mut(end * 7 / 11) {
                    *byte = *byte % 64 + 32;
                }
                agree(&image, &text, ENOUGH, stack_length(end));
            }
        }
    }

    /// The questions are put in the same order.
    #[test]
    fn refusals_before_the_text_is_read() {
        let image = image_bytes(&grammars::all()[0].sheet);
        let many_rows = image_bytes(&grammars::of_rows(257));
        let long = vec![b'1'; TEXT_LIMIT + 1];
        let cut = &image[..image.len() - 1];
        for [table, winners] in [[65_535, 256], [65_536, 255], [0, 0]] {
            for image in [&image[..], cut, &many_rows] {
                assert_eq!(agree(image, &long, [table, winners], 3), 18);
            }
        }
        let longer = [65_600, 300];
        for image in [&image[..], cut, &many_rows] {
            assert_eq!(agree(image, &long, longer, 3), 12);
        }
        assert_eq!(agree(cut, b"12", longer, 3), 13);
        assert_eq!(agree(&many_rows, b"12", longer, 3), 19);
        assert_eq!(agree(&image, b"12", longer, 0), 17);
        assert_eq!(agree(&image, b"12", longer, 3), 0);
    }

    /// They agree on images that no sheet need have, whole and damaged, also near the limit of the rows.
    #[test]
    fn random_images() {
        let mut met = [0; 20];
        for case in 0..2_000 {
            let random = &mut for_case(9, case);
            let image = match random.below(8) {
                0 => images::near_row_limit(random).0,
                1..=4 => images::image(random),
                _ => generate::readable_image(random),
            };
            let text = images::text(random, &image);
            let room = match random.below(3) {
                0 => random.below(12),
                _ => stack_length(text.len()),
            };
            met[agree(&image.to_bytes(), &text, ENOUGH, room)] += 1;
            let damaged = generate::damage_field(random, &image);
            met[agree(&damaged, &text, ENOUGH, room)] += 1;
        }
        for number in [0, 13, 14, 15, 16, 17, 19] {
            assert!(met[number] > 20, "{met:?}");
        }
    }

    /// The images of so many rows are those of the last vectors of request 6, of which the last two have too many.
    #[test]
    fn images_of_many_rows() {
        let lines = include_str!("../../../tests/data/request-06.jsonl").lines();
        let lines: Vec<&str> = lines.collect();
        for (line, rows) in lines[lines.len() - 4..].iter().zip(255..) {
            let vector = json_lines::read(line);
            let image = image_bytes(&grammars::of_rows(rows));
            assert_eq!(image, vector.bytes("image"), "{rows} rows");
            let built = vinzagew_reference::Table::of(&Image::read(&image).expect("written"));
            let built = built.map(|table| table.rows() as u64);
            assert_eq!(built, vector.number_or_null("rows"));
            assert_eq!(built, (rows <= 256).then_some(rows as u64));
        }
    }
}
