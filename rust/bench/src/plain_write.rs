//! Writing a sheet's image in plain Rust, to measure beside the library.
//!
//! It asks questions 1 to 11 and is made to be fast. It reads and types the sheet as `plain_check` does, and keeps
//! the rules' columns while they are read. It visits a regex node twice and finds the productions of a nonterminal
//! by one walk. The image is made in the work area, so that nothing need be measured before question 11. All else is
//! in fixed arrays.

use crate::plain_check::{
    Expression, Keep, Reader, Type, ALTERNATIVE, BOTTOM, FIX, LEAST, REPETITION, SEQUENCE, TOKEN,
    VARIABLE,
};
use vinzagew_reference::sheet::{
    CLASS_LIMIT, NODE_LIMIT, REGEX_NODE_LIMIT, RULE_LIMIT, TOKEN_LIMIT,
};
use vinzagew_reference::{TAIL_LIMIT, WORK_BYTES};

const RULES: usize = RULE_LIMIT as usize;
/// Entries for the tokens; more than there are, so that five bits are an index.
const TOKENS: usize = 32;
/// Stands for the token of rules that skip: action k + 1 returns token k, and action 0 skips.
const SKIP: u8 = TOKENS as u8 - 1;
const _: () = assert!(TOKEN_LIMIT <= SKIP as u64);

/// Writes a sheet's image: number, place and length. The work area is cleared as the contract says.
// Reached by a call, as the library's function is.
#[inline(never)]
pub fn write(sheet: &[u8], work: &mut [u8], image: &mut [u8]) -> [usize; 3] {
    let front = match work.get_mut(..WORK_BYTES) {
        Some(front) => front,
        None => return [1, 0, 0],
    };
    let mut output = Output {
        bytes: front,
        length: 0,
    };
    let answer = match make_image(sheet, &mut output) {
        Some([number, place]) => [number, place, 0],
        None => match image.get_mut(..output.length) {
            Some(written) => {
                written.copy_from_slice(&output.bytes[..output.length]);
                [0, 0, output.length]
            }
            None => [11, 0, output.length],
        },
    };
    front.fill(0);
    answer
}

/// Questions 2 to 10: makes the image of a sheet that passes, or gives the refusal.
fn make_image(sheet: &[u8], output: &mut Output) -> Option<[usize; 2]> {
    let mut reader = Reader::new(sheet, Rules::new());
    if let Some(refusal) = reader.read() {
        return Some(refusal);
    }
    let (rules, expression) = (&reader.kept, &reader.expression);
    let types = expression.least_types();
    let verdict = expression.verdict(&types);
    if verdict[0] != 0 {
        return Some(verdict);
    }
    let order = Order::of(rules);
    order.write(rules, output);
    Positions::new().write(rules, &order, output);
    Rows::new(expression, &types, &order).write(output);
    None
}

/// Where the image is made. No image of a sheet has more than some 37,000 bytes: at most 32 nonterminals, each
/// with 32 productions of at most 34 bytes, and some 1,200 bytes for the rest.
struct Output<'a> {
    bytes: &'a mut [u8],
    length: usize,
}

impl Output<'_> {
    #[inline(always)]
    fn byte(&mut self, byte: u8) {
        self.bytes[self.length] = byte;
        self.length += 1;
    }

    /// The next bytes, to be written.
    #[inline(always)]
    fn next(&mut self, count: usize) -> &mut [u8] {
        let start = self.length;
        self.length += count;
        &mut self.bytes[start..self.length]
    }

    /// Writes some bytes again.
    #[inline(always)]
    fn repeat(&mut self, start: usize, end: usize) {
        self.bytes.copy_within(start..end, self.length);
        self.length += end - start;
    }

    #[inline(always)]
    fn number(&mut self, mut number: u64) {
        while number >= 0x80 {
            self.byte(number as u8 | 0x80);
            number >>= 7;
        }
        self.byte(number as u8);
    }

    #[inline(always)]
    fn position(&mut self, [low, high]: [u8; 2], rule: u8, last: bool, follow: u64) {
        self.number(low.into());
        self.number(high.into());
        self.byte(rule);
        self.byte(last.into());
        self.number(follow);
    }
}

/// The tags of regex nodes.
const EMPTY_WORD: u8 = 0;
const CLASS: u8 = 1;
const CONCATENATION: u8 = 2;
const UNION: u8 = 3;
const STAR: u8 = 4;

/// The rules, in sheet order.
struct Rules {
    count: usize,
    actions: [u8; RULES],
    /// For each rule its first regex node and its first class; where the last one ends stands in the next entry.
    first_nodes: [u16; RULES + 1],
    first_classes: [u8; RULES + 1],
    /// The rules that are no word rules, rule i being 2^i, and the rule that is read.
    patterns: u32,
    own: u32,
    tags: [u8; REGEX_NODE_LIMIT],
    /// For each node where its last part begins. The first part is the next node.
    last_parts: [u8; REGEX_NODE_LIMIT],
    /// The lowest and highest bytes of the classes.
    bytes: [[u8; 2]; CLASS_LIMIT],
}

impl Rules {
    fn new() -> Self {
        Rules {
            count: 0,
            actions: [0; RULES],
            first_nodes: [0; RULES + 1],
            first_classes: [0; RULES + 1],
            patterns: 0,
            own: 0,
            tags: [0; REGEX_NODE_LIMIT],
            last_parts: [0; REGEX_NODE_LIMIT],
            bytes: [[0; 2]; CLASS_LIMIT],
        }
    }
}

impl Keep for Rules {
    #[inline(always)]
    fn rule(&mut self, action: u64, node: usize, class: usize) {
        let rule = self.count % RULES;
        self.actions[rule] = action as u8;
        self.first_nodes[rule] = node as u16;
        self.first_classes[rule] = class as u8;
        self.count += 1;
        self.own = 1 << rule;
    }

    #[inline(always)]
    fn regex_node(&mut self, node: usize, tag: u64) {
        self.tags[node % REGEX_NODE_LIMIT] = tag as u8;
        if tag as u8 >= UNION {
            self.patterns |= self.own;
        }
    }

    #[inline(always)]
    fn last_part(&mut self, node: usize, part: usize) {
        self.last_parts[node % REGEX_NODE_LIMIT] = part as u8;
    }

    #[inline(always)]
    fn class(&mut self, class: usize, low: u64, high: u64) {
        self.bytes[class % CLASS_LIMIT] = [low as u8, high as u8];
        if low != high {
            self.patterns |= self.own;
        }
    }

    #[inline(always)]
    fn end(&mut self, nodes: usize, classes: usize) {
        self.first_nodes[self.count] = nodes as u16;
        self.first_classes[self.count] = classes as u8;
    }
}

/// The rules in the image's order: the word rules first, each kind in sheet order.
struct Order {
    count: usize,
    rules: [u8; RULES],
    /// For each rule, in the image's numbers, the token that it returns, or [`SKIP`].
    tokens: [u8; RULES],
    /// For each token the rules that return it, in the image's numbers, rule i being 2^i.
    returning: [u32; TOKENS],
}

impl Order {
    fn of(rules: &Rules) -> Self {
        let mut order = Order {
            count: 0,
            rules: [0; RULES],
            tokens: [0; RULES],
            returning: [0; TOKENS],
        };
        let all = u32::MAX >> (RULES - rules.count);
        order.add(rules, all & !rules.patterns);
        order.add(rules, rules.patterns);
        order
    }

    /// Adds a set of rules, rising.
    fn add(&mut self, rules: &Rules, mut set: u32) {
        while set != 0 {
            let rule = set.trailing_zeros() as usize;
            set &= set - 1;
            let number = self.count % RULES;
            self.count += 1;
            let token = rules.actions[rule].wrapping_sub(1) % TOKENS as u8;
            self.rules[number] = rule as u8;
            self.tokens[number] = token;
            self.returning[token as usize] |= 1 << number;
        }
    }

    /// Writes the image up to its position count.
    fn write(&self, rules: &Rules, output: &mut Output) {
        output.byte(1);
        output.byte(self.count as u8);
        for &token in &self.tokens[..self.count] {
            output.byte((token == SKIP) as u8);
        }
        output.byte(rules.first_classes[rules.count]);
    }
}

/// What is known of the regex nodes, each of which is visited twice. From the last node to the first a node gets its
/// first set and whether it has the empty word. Only its parent needs these. So from the first node to the last it
/// gets in their place the positions that may follow it and whether a match may end with it.
struct Positions {
    sets: [u64; REGEX_NODE_LIMIT],
    flags: [bool; REGEX_NODE_LIMIT],
}

/// The set, if the flag is set, and else the empty one.
#[inline(always)]
fn masked(flag: bool, set: u64) -> u64 {
    0u64.wrapping_sub(flag.into()) & set
}

impl Positions {
    fn new() -> Self {
        Positions {
            sets: [0; REGEX_NODE_LIMIT],
            flags: [false; REGEX_NODE_LIMIT],
        }
    }

    /// Writes the positions and the first set.
    fn write(&mut self, rules: &Rules, order: &Order, output: &mut Output) {
        let mut first = 0;
        let mut position = 0;
        for (number, &rule) in order.rules[..order.count].iter().enumerate() {
            let rule = rule as usize;
            let [class, end] = [rule, rule + 1].map(|rule| rules.first_classes[rule] as usize);
            first |= self.find_first(rules, rule, position + end - class);
            self.write_positions(rules, rule, number as u8, output);
            position += end - class;
        }
        output.number(first);
    }

    /// Visits a rule's nodes from the last to the first; its positions end before `position`. Gives its first set.
    #[inline(always)]
    fn find_first(&mut self, rules: &Rules, rule: usize, mut position: usize) -> u64 {
        let nodes = rules.first_nodes[rule] as usize..rules.first_nodes[rule + 1] as usize;
        // Those of the node that was visited before, which is the first part.
        let (mut first, mut empty) = (0, true);
        for node in nodes.rev() {
            let node = node % REGEX_NODE_LIMIT;
            let last_part = rules.last_parts[node] as usize % REGEX_NODE_LIMIT;
            let (set, flag) = (self.sets[last_part], self.flags[last_part]);
            match rules.tags[node] {
                EMPTY_WORD => (first, empty) = (0, true),
                CLASS => {
                    position -= 1;
                    (first, empty) = (1 << (position % CLASS_LIMIT), false);
                }
                CONCATENATION => (first, empty) = (first | masked(empty, set), empty & flag),
                UNION => (first, empty) = (first | set, empty | flag),
                _ => empty = true,
            }
            self.sets[node] = first;
            self.flags[node] = empty;
        }
        first
    }

    /// Visits a rule's nodes from the first to the last, and writes its classes as positions.
    #[inline(always)]
    fn write_positions(&mut self, rules: &Rules, rule: usize, number: u8, output: &mut Output) {
        let mut class = rules.first_classes[rule] as usize;
        let (mut follow, mut ends) = (0, true);
        for node in rules.first_nodes[rule]..rules.first_nodes[rule + 1] {
            let node = node as usize % REGEX_NODE_LIMIT;
            let next = (node + 1) % REGEX_NODE_LIMIT;
            let last_part = rules.last_parts[node] as usize % REGEX_NODE_LIMIT;
            let (set, flag) = (self.sets[last_part], self.flags[last_part]);
            match rules.tags[node] {
                // A star's part may begin again after it.
                STAR => follow |= self.sets[next],
                CONCATENATION | UNION => {
                    self.sets[last_part] = follow;
                    self.flags[last_part] = ends;
                    if rules.tags[node] == CONCATENATION {
                        (follow, ends) = (set | masked(flag, follow), flag & ends);
                    }
                }
                tag => {
                    if tag == CLASS {
                        output.position(rules.bytes[class % CLASS_LIMIT], number, ends, follow);
                        class += 1;
                    }
                    // The next node is no part of this one, and got its own before.
                    (follow, ends) = (self.sets[next], self.flags[next]);
                }
            }
        }
    }
}

/// A tail's nodes, the last one first.
type Tail = [u8; TAIL_LIMIT];

/// A node that was not met.
const UNMET: u8 = u8::MAX;

/// The nodes that are nonterminals, as first met.
struct Met {
    count: usize,
    nodes: [u8; NODE_LIMIT],
    /// For each node its nonterminal.
    numbers: [u8; NODE_LIMIT],
}

impl Met {
    /// The nonterminal of a node, which gets the next number if it was not met before.
    #[inline(always)]
    fn number(&mut self, node: u8) -> u8 {
        let number = &mut self.numbers[node as usize % NODE_LIMIT];
        if *number == UNMET {
            *number = self.count as u8;
            self.nodes[self.count % NODE_LIMIT] = node;
            self.count += 1;
        }
        *number
    }
}

/// A walk over the nodes that a node may begin with.
struct Walk {
    /// The tail of a token that is met here.
    tail: Tail,
    length: usize,
    /// Right parts of alternatives that are still to be walked, and how long the tail is there.
    left: [[u8; 2]; NODE_LIMIT],
    left_count: usize,
}

impl Walk {
    fn new() -> Self {
        Walk {
            tail: [0; TAIL_LIMIT],
            length: 0,
            left: [[0; 2]; NODE_LIMIT],
            left_count: 0,
        }
    }

    /// Adds a node to the tail.
    #[inline(always)]
    fn add(&mut self, node: u8) {
        self.tail[self.length % TAIL_LIMIT] = node;
        self.length += 1;
    }

    /// Leaves a right part for later.
    #[inline(always)]
    fn leave(&mut self, part: u8) {
        self.left[self.left_count % NODE_LIMIT] = [part, self.length as u8];
        self.left_count += 1;
    }

    /// The next of the parts that were left, if there is one.
    #[inline(always)]
    fn next_part(&mut self) -> Option<usize> {
        self.left_count = self.left_count.checked_sub(1)?;
        let [part, length] = self.left[self.left_count % NODE_LIMIT];
        self.length = length as usize;
        Some(part as usize)
    }
}

/// The nonterminals, and the productions of one of them.
struct Rows<'a> {
    expression: &'a Expression,
    types: &'a [Type; NODE_LIMIT],
    order: &'a Order,
    met: Met,
    /// The rules that have a production, rule i being 2^i.
    rules: u32,
    /// For each token that such a rule returns the tail and its length.
    tails: [Tail; TOKENS],
    lengths: [u8; TOKENS],
}

impl<'a> Rows<'a> {
    fn new(expression: &'a Expression, types: &'a [Type; NODE_LIMIT], order: &'a Order) -> Self {
        Rows {
            expression,
            types,
            order,
            met: Met {
                count: 0,
                nodes: [0; NODE_LIMIT],
                numbers: [UNMET; NODE_LIMIT],
            },
            rules: 0,
            tails: [[0; TAIL_LIMIT]; TOKENS],
            lengths: [0; TOKENS],
        }
    }

    /// Writes the image from its nonterminal count on.
    fn write(&mut self, output: &mut Output) {
        let place = output.length;
        output.byte(0);
        self.met.number(0);
        // For each node where its row begins and ends, if one was written.
        let mut written = [[0; 2]; NODE_LIMIT];
        let mut row = 0;
        while row < self.met.count {
            let node = self.resolved(self.met.nodes[row % NODE_LIMIT] as usize);
            row += 1;
            let [start, end] = written[node];
            if end > 0 {
                output.repeat(start as usize, end as usize);
                continue;
            }
            let start = output.length as u16;
            self.find_productions(node);
            output.byte((self.types[node].nullable & 1) as u8);
            self.write_productions(output);
            written[node] = [start, output.length as u16];
        }
        output.bytes[place] = self.met.count as u8;
    }

    /// The node that has the productions of a fixed point or a variable. Several nonterminals may have the same.
    fn resolved(&self, mut node: usize) -> usize {
        loop {
            let own = self.expression.nodes[node % NODE_LIMIT];
            node = match own.tag {
                FIX => node + 1,
                VARIABLE => own.other as usize,
                _ => return node % NODE_LIMIT,
            };
        }
    }

    /// Finds the productions of a node, by one walk over all nodes that it may begin with. One that
    /// denotes nothing, which has the least type, has none that stay. If all nodes on the way to a
    /// token denote something, so do those of the tail.
    fn find_productions(&mut self, mut node: usize) {
        self.rules = 0;
        let mut walk = Walk::new();
        loop {
            let own = self.expression.nodes[node % NODE_LIMIT];
            let denotes_nothing = self.types[node % NODE_LIMIT] == LEAST;
            let number = node as u8;
            node += 1;
            match if denotes_nothing { BOTTOM } else { own.tag } {
                FIX => {}
                SEQUENCE => walk.add(own.other),
                REPETITION => walk.add(number),
                ALTERNATIVE => walk.leave(own.other),
                VARIABLE => node = own.other as usize,
                tag => {
                    if tag == TOKEN {
                        self.keep(own.other, &walk);
                    }
                    match walk.next_part() {
                        Some(part) => node = part,
                        None => return,
                    }
                }
            }
        }
    }

    /// Keeps a production for each rule that returns a token.
    #[inline(always)]
    fn keep(&mut self, token: u8, walk: &Walk) {
        let token = token as usize % TOKENS;
        self.rules |= self.order.returning[token];
        self.tails[token] = walk.tail;
        self.lengths[token] = walk.length as u8;
    }

    /// Writes the productions that were found, by rising rule.
    fn write_productions(&mut self, output: &mut Output) {
        let mut rules = self.rules;
        output.byte(rules.count_ones() as u8);
        while rules != 0 {
            let rule = rules.trailing_zeros() as usize;
            rules &= rules - 1;
            let token = self.order.tokens[rule % RULES] as usize % TOKENS;
            let length = self.lengths[token] as usize;
            let tail = &self.tails[token][..length];
            let bytes = output.next(2 + length);
            bytes[0] = rule as u8;
            bytes[1] = length as u8;
            for (byte, &node) in bytes[2..].iter_mut().zip(tail.iter().rev()) {
                *byte = self.met.number(node);
            }
        }
    }
}

#[cfg(test)]
mod tests {
    use super::*;
    use crate::common::random::for_case;
    use crate::common::{calls, generate, json_lines, pattern};
    use crate::sheets;

    /// All files of vectors. Request 5 changed no answer and has none.
    const FILES: [&str; 8] = [
        include_str!("../../tests/data/base.jsonl"),
        include_str!("../../tests/data/request-01.jsonl"),
        include_str!("../../tests/data/request-02.jsonl"),
        include_str!("../../tests/data/request-03.jsonl"),
        include_str!("../../tests/data/request-04.jsonl"),
        include_str!("../../tests/data/request-06.jsonl"),
        include_str!("../../tests/data/request-07.jsonl"),
        include_str!("../../tests/data/request-08.jsonl"),
    ];

    /// The plain writer and the reference agree on a sheet: on their results, and on what they leave in the work
    /// area and the image buffer. The result and the image buffer.
    fn agree(sheet: &[u8], work_length: usize, room: usize) -> ([usize; 3], Vec<u8>) {
        let (mut work, mut image) = (pattern(work_length), pattern(room));
        let found = write(sheet, &mut work, &mut image);
        let (mut other_work, mut other_image) = (pattern(work_length), pattern(room));
        let expected = vinzagew_reference::write(sheet, &mut other_work, &mut other_image);
        let expected = [expected.number as usize, expected.place, expected.length];
        assert_eq!(found, expected, "{sheet:?}");
        assert!(work == other_work, "{sheet:?}");
        assert_eq!(image, other_image, "{sheet:?}");
        (found, image)
    }

    /// They agree on a sheet with image buffers just long enough and just too short. The number on a buffer that is
    /// long enough.
    fn agree_around_the_length(sheet: &[u8], work_length: usize) -> usize {
        let ([number, _, length], _) = agree(sheet, work_length, WORK_BYTES);
        for room in [0, length.saturating_sub(1), length, length + 1] {
            agree(sheet, work_length, room);
        }
        number
    }

    /// Number, place and length of a writing, and the image.
    type Written = ([usize; 3], Vec<u8>);

    /// What a vector says of writing, and what is written with the buffers that it lends, on which
    /// they agree.
    fn told_and_found(vector: &json_lines::Object) -> [Written; 2] {
        let length = |key| vector.number(key) as usize;
        let sheet = vector.bytes("sheet");
        let (found, mut image) = agree(&sheet, length("work_len"), length("image_len"));
        image.truncate(if found[0] == 0 { found[2] } else { 0 });
        let told = ["number", "place", "length"].map(length);
        [(told, vector.bytes("image")), (found, image)]
    }

    /// They agree on the sheets of a file's vectors. For those of writing, what each says and what
    /// is written.
    fn agree_on_file(lines: &str) -> Vec<[Written; 2]> {
        let mut vectors: Vec<_> = lines.lines().map(json_lines::read).collect();
        vectors.retain(|vector| matches!(vector.text("kind"), "compile" | "read" | "program"));
        for vector in &vectors {
            agree_around_the_length(&vector.bytes("sheet"), WORK_BYTES);
        }
        vectors.retain(|vector| vector.text("kind") == "compile");
        vectors.iter().map(told_and_found).collect()
    }

    /// They agree on the sheets of all vectors. What the vectors of the last four files say of
    /// writing holds, but for a few of each, which refuse with 9 or 10 by the flap paper's types.
    /// Those of the other files are from before word rules won.
    #[test]
    fn vectors() {
        let files = FILES.map(agree_on_file);
        let all = || files.iter().flatten();
        let met = |number| all().any(|[_, found]| found.0[0] == number);
        assert!((0..12).all(met));
        let mut changed = [0; 4];
        for (count, file) in changed.iter_mut().zip(&files[4..]) {
            let differ = file.iter().filter(|[told, found]| told != found);
            let differ: Vec<usize> = differ.map(|[told, _]| told.0[0]).collect();
            assert!(differ.iter().all(|number| matches!(number, 9 | 10)));
            *count = differ.len();
        }
        assert_eq!(changed, [3, 1, 1, 0]);
    }

    /// They agree on the sheets that are measured, with image buffers of all lengths up to some more than is needed.
    #[test]
    fn all_lengths_of_the_image_buffer() {
        for case in sheets::all() {
            let sheet = case.sheet.as_bytes();
            let ([number, _, length], _) = agree(sheet, WORK_BYTES, WORK_BYTES);
            assert_eq!(number, case.number, "{}", case.name);
            for room in 0..length + 9 {
                let number = agree(sheet, WORK_BYTES, room).0[0];
                let expected = if room < length { 11 } else { case.number };
                assert_eq!(number, expected, "{}, {room}", case.name);
            }
        }
    }

    /// They agree on random sheets of any kind, passing or not, padded and damaged.
    #[test]
    fn random_sheets() {
        let mut met = [0; 12];
        for case in 0..20_000 {
            let random = &mut for_case(11, case);
            let sheet = calls::sheet(random);
            let work_length = calls::work_length(random);
            met[agree_around_the_length(&sheet, work_length)] += 1;
        }
        for (number, count) in met.iter().enumerate().take(11) {
            assert!(*count > 20, "{number}, {met:?}");
        }
    }

    /// They agree on random sheets with long tails and on large ones, and on those that are measured, damaged.
    #[test]
    fn large_and_damaged_sheets() {
        let cases = sheets::all();
        let mut passed = 0;
        for index in 0..6_000 {
            let random = &mut for_case(12, index);
            let sheet = match random.below(4) {
                0 => generate::long_tailed_sheet(random).to_bytes(),
                1 | 2 => generate::large_sheet(random).to_bytes(),
                _ => generate::damage(random, cases[index % cases.len()].sheet.as_bytes()),
            };
            passed += usize::from(agree_around_the_length(&sheet, WORK_BYTES) == 0);
        }
        assert!(passed > 3_000, "{passed}");
    }

    /// They agree on μx.(s ∨ ((t·x)·x)·…), with 31 rules for t: all 31 nonterminals have tails of 30 members.
    #[test]
    fn a_long_image() {
        let mut sheet = vec![1, 2, 32];
        for byte in 0..32 {
            let action = if byte < 31 { 1 } else { 2 };
            sheet.extend([action, CLASS, byte, byte]);
        }
        sheet.extend([FIX, ALTERNATIVE, TOKEN, 1]);
        sheet.extend([SEQUENCE; 30]);
        sheet.extend([TOKEN, 0]);
        sheet.extend([[VARIABLE, 0]; 30].concat());
        let ([number, _, length], _) = agree(&sheet, WORK_BYTES, WORK_BYTES);
        assert_eq!(number, 0);
        assert!(length > 31 * 31 * 32, "{length}");
        agree_around_the_length(&sheet, WORK_BYTES + 1);
    }
}
