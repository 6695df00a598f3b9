//! Checking a sheet in plain Rust, to measure beside the library.
//!
//! It asks questions 1 to 10 and is made to be fast. Whether a rule has the empty word and whether a
//! variable is guarded is known once they are read. Types are found from the last node to the first, and
//! after that only those are looked at again which a variable changes. All is in fixed arrays. It makes no
//! image; `plain_write` does, which reads and types sheets by the code here.

use vinzagew_reference::sheet::{
    CLASS_LIMIT, NODE_LIMIT, REGEX_NODE_LIMIT, RULE_LIMIT, TOKEN_LIMIT,
};
use vinzagew_reference::{SHEET_LIMIT, WORK_BYTES};

/// A number and a place: of the question that is answered with no, or both 0.
pub type Verdict = [usize; 2];

/// Checks a sheet, and clears the work area as the contract says.
pub fn check(sheet: &[u8], work: &mut [u8]) -> Verdict {
    match work.get_mut(..WORK_BYTES) {
        Some(front) => front.fill(0),
        None => return [1, 0],
    }
    let mut reader = Reader::new(sheet, ());
    match reader.read() {
        None => reader.expression.verdict(&reader.expression.least_types()),
        Some(refusal) => refusal,
    }
}

/// The tags of expression nodes.
pub const EPSILON: u8 = 0;
pub const BOTTOM: u8 = 1;
pub const TOKEN: u8 = 2;
pub const SEQUENCE: u8 = 3;
pub const ALTERNATIVE: u8 = 4;
pub const FIX: u8 = 5;
pub const VARIABLE: u8 = 6;
pub const REPETITION: u8 = 7;
/// A variable that is not guarded; no sheet has this tag.
const UNGUARDED: u8 = 8;

/// A node of the expression. Its first part, if it has one, is the next node.
#[derive(Clone, Copy)]
pub struct Node {
    pub tag: u8,
    /// The right part, the token, or a variable's fixed point.
    pub other: u8,
    pub parent: u8,
    place: u16,
}

/// The nodes of an expression, in sheet order.
pub struct Expression {
    pub count: usize,
    pub nodes: [Node; NODE_LIMIT],
    /// For each fixed point the set of its variables, node i being 2^i.
    pub variables: [u64; NODE_LIMIT],
}

/// What is kept of the rules while they are read. Checking keeps nothing, and then a call does nothing. Regex nodes
/// and classes are counted over all rules.
pub trait Keep {
    /// A rule begins, with the regex node and the class that come next.
    #[inline(always)]
    fn rule(&mut self, _action: u64, _node: usize, _class: usize) {}

    /// A regex node begins.
    #[inline(always)]
    fn regex_node(&mut self, _node: usize, _tag: u64) {}

    /// The last part of a regex node begins, with the node `_part`.
    #[inline(always)]
    fn last_part(&mut self, _node: usize, _part: usize) {}

    /// The bytes of a class.
    #[inline(always)]
    fn class(&mut self, _class: usize, _low: u64, _high: u64) {}

    /// The rules end, with so many regex nodes and classes.
    #[inline(always)]
    fn end(&mut self, _nodes: usize, _classes: usize) {}
}

impl Keep for () {}

/// Reads a sheet.
pub struct Reader<'a, K> {
    bytes: &'a [u8],
    place: usize,
    /// The refusal, once a function gave nothing.
    refusal: Verdict,
    /// The action of the first rule that has the empty word.
    empty_word: Option<usize>,
    tokens: u64,
    classes: usize,
    regex_nodes: usize,
    /// The open fixed points, the innermost last.
    open: [u8; NODE_LIMIT],
    pub expression: Expression,
    /// What is kept of the rules.
    pub kept: K,
}

impl<'a, K: Keep> Reader<'a, K> {
    pub fn new(bytes: &'a [u8], kept: K) -> Self {
        let blank = Node {
            tag: BOTTOM,
            other: 0,
            parent: 0,
            place: 0,
        };
        Reader {
            bytes,
            place: 0,
            refusal: [0, 0],
            empty_word: None,
            tokens: 0,
            classes: 0,
            regex_nodes: 0,
            open: [0; NODE_LIMIT],
            expression: Expression {
                count: 0,
                nodes: [blank; NODE_LIMIT],
                variables: [0; NODE_LIMIT],
            },
            kept,
        }
    }

    /// Questions 2 to 7: reads the sheet, and gives the refusal, if there is one.
    #[inline(always)]
    pub fn read(&mut self) -> Option<Verdict> {
        if self.bytes.len() > SHEET_LIMIT {
            return Some([2, 0]);
        }
        if self.sheet().is_none() {
            return Some(self.refusal);
        }
        self.empty_word.map(|place| [7, place])
    }

    #[cold]
    fn refuse<T>(&mut self, number: usize, place: usize) -> Option<T> {
        self.refusal = [number, place];
        None
    }

    /// A number from `low` to `high`. Most have one byte.
    #[inline(always)]
    fn number(&mut self, low: u64, high: u64) -> Option<u64> {
        let place = self.place;
        let value = match self.bytes.get(place) {
            Some(&byte) if byte < 0x80 => {
                self.place += 1;
                u64::from(byte)
            }
            _ => self.long_number()?,
        };
        if low <= value && value <= high {
            Some(value)
        } else {
            self.refuse(4, place)
        }
    }

    /// A number of several bytes, of which the high ones may be empty, or one that is missing.
    #[inline(never)]
    fn long_number(&mut self) -> Option<u64> {
        let mut value = 0;
        for (index, &byte) in self.bytes[self.place..].iter().take(10).enumerate() {
            let group = u64::from(byte & 0x7f);
            if index == 9 && group > 1 {
                break;
            }
            value |= group << (7 * index);
            if byte < 0x80 {
                self.place += index + 1;
                return Some(value);
            }
        }
        self.refuse(3, self.place)
    }

    /// Questions 3 to 6.
    fn sheet(&mut self) -> Option<()> {
        self.number(1, 1)?;
        self.tokens = self.number(1, TOKEN_LIMIT)?;
        for _ in 0..self.number(1, RULE_LIMIT)? {
            let place = self.place;
            let action = self.number(0, self.tokens)?;
            self.kept.rule(action, self.regex_nodes, self.classes);
            if self.regex()? && self.empty_word.is_none() {
                self.empty_word = Some(place);
            }
        }
        self.kept.end(self.regex_nodes, self.classes);
        self.node(0, 0, 0)?;
        if self.place < self.bytes.len() {
            return self.refuse(6, self.place);
        }
        Some(())
    }

    /// Reads a regex, and says whether it has the empty word: it has if `always`, and also if `with_rest`
    /// and what is still to be read has it.
    fn regex(&mut self) -> Option<bool> {
        let mut always = false;
        let mut with_rest = true;
        loop {
            let place = self.place;
            let tag = self.number(0, 4)?;
            let node = self.regex_nodes;
            self.regex_nodes += 1;
            self.classes += usize::from(tag == 1);
            if self.regex_nodes > REGEX_NODE_LIMIT || self.classes > CLASS_LIMIT {
                return self.refuse(5, place);
            }
            self.kept.regex_node(node, tag);
            match tag {
                0 => return Some(always || with_rest),
                1 => {
                    let low = self.number(0, 255)?;
                    let high = self.number(low, 255)?;
                    self.kept.class(self.classes - 1, low, high);
                    return Some(always);
                }
                2 => with_rest &= self.regex()?,
                3 => always |= self.regex()? && with_rest,
                _ => {
                    always |= with_rest;
                    with_rest = false;
                }
            }
            self.kept.last_part(node, self.regex_nodes);
        }
    }

    /// Reads a node with its parts. Of the fixed points, `depth` are open, and the outermost `guarded` of
    /// them are guarded.
    fn node(&mut self, mut parent: usize, mut depth: usize, mut guarded: usize) -> Option<()> {
        loop {
            let place = self.place;
            let tag = self.number(0, 7)? as u8;
            let node = self.expression.count;
            if node == NODE_LIMIT {
                return self.refuse(5, place);
            }
            self.expression.count += 1;
            self.expression.nodes[node] = Node {
                tag,
                other: 0,
                parent: parent as u8,
                place: place as u16,
            };
            parent = node;
            match tag {
                EPSILON | BOTTOM => return Some(()),
                TOKEN => {
                    self.expression.nodes[node].other = self.number(0, self.tokens - 1)? as u8;
                    return Some(());
                }
                SEQUENCE | ALTERNATIVE => {
                    self.node(node, depth, guarded)?;
                    self.expression.nodes[node].other = self.expression.count as u8;
                    guarded = if tag == SEQUENCE { depth } else { guarded };
                }
                FIX => {
                    self.open[depth] = node as u8;
                    depth += 1;
                }
                VARIABLE => return self.variable(node, depth, guarded),
                _ => {}
            }
        }
    }

    /// Reads the number of a variable.
    fn variable(&mut self, node: usize, depth: usize, guarded: usize) -> Option<()> {
        let place = self.place;
        let between = self.number(0, u64::MAX)?;
        if between >= depth as u64 {
            return self.refuse(4, place);
        }
        let own = depth - 1 - between as usize;
        let fix = self.open[own];
        self.expression.variables[usize::from(fix) % NODE_LIMIT] |= 1 << node;
        self.expression.nodes[node].other = fix;
        if own >= guarded {
            self.expression.nodes[node].tag = UNGUARDED;
        }
        Some(())
    }
}

/// A type; a set of tokens has bit k for token k.
#[derive(Clone, Copy, PartialEq, Eq)]
pub struct Type {
    first: u32,
    follow_last: u32,
    /// All bits, or none.
    pub nullable: u32,
}

/// The type of the empty language.
pub const LEAST: Type = Type {
    first: 0,
    follow_last: 0,
    nullable: 0,
};

impl Type {
    fn separable(self, other: Type) -> bool {
        self.follow_last & other.first == 0 && self.nullable == 0
    }

    fn apart(self, other: Type) -> bool {
        self.first & other.first == 0 && self.nullable & other.nullable == 0
    }
}

impl Expression {
    /// Questions 8 to 10.
    #[inline(always)]
    pub fn verdict(&self, types: &[Type; NODE_LIMIT]) -> Verdict {
        for index in 0..self.count {
            let node = self.nodes[index];
            let (one, other) = parts(types, index, node);
            let number = match node.tag {
                UNGUARDED => 8,
                SEQUENCE if !one.separable(other) => 9,
                REPETITION if !one.separable(one) => 9,
                ALTERNATIVE if !one.apart(other) => 10,
                _ => continue,
            };
            return [number, usize::from(node.place)];
        }
        [0, 0]
    }

    /// Parts come after their node, so that from the last node to the first all types are found, but for
    /// what comes by the variables. That goes up from them as far as it changes something.
    #[inline(always)]
    pub fn least_types(&self) -> [Type; NODE_LIMIT] {
        let mut types = [LEAST; NODE_LIMIT];
        // The fixed points whose variables may have an older type.
        let mut stale = 0;
        for index in (0..self.count).rev() {
            types[index] = from_parts(&types, index, self.nodes[index]);
            stale |= u64::from(self.nodes[index].tag == FIX) << index;
        }
        while stale != 0 {
            let fix = stale.trailing_zeros() as usize;
            stale &= stale - 1;
            let mut variables = self.variables[fix];
            while variables != 0 {
                let variable = variables.trailing_zeros() as usize;
                variables &= variables - 1;
                let found = types[fix];
                stale |= self.raise(&mut types, variable, found);
            }
        }
        types
    }

    /// Gives a variable its type, changes what is above it, and gives the fixed points that changed.
    fn raise(&self, types: &mut [Type; NODE_LIMIT], variable: usize, mut found: Type) -> u64 {
        let mut changed = 0;
        let mut index = variable;
        while types[index] != found {
            types[index] = found;
            changed |= u64::from(self.nodes[index].tag == FIX) << index;
            // The first node is its own parent.
            index = usize::from(self.nodes[index].parent) % NODE_LIMIT;
            found = from_parts(types, index, self.nodes[index]);
        }
        changed
    }
}

/// The types of the next node and of the other one. An index never leaves the types, so no bounds need be
/// looked at.
fn parts(types: &[Type; NODE_LIMIT], index: usize, node: Node) -> (Type, Type) {
    (
        types[(index + 1) % NODE_LIMIT],
        types[usize::from(node.other) % NODE_LIMIT],
    )
}

/// The type of a node, from those of its parts. A variable has the least one.
fn from_parts(types: &[Type; NODE_LIMIT], index: usize, node: Node) -> Type {
    let (one, other) = parts(types, index, node);
    match node.tag {
        EPSILON => Type {
            nullable: u32::MAX,
            ..LEAST
        },
        TOKEN => Type {
            first: 1 << (node.other % 32),
            ..LEAST
        },
        SEQUENCE if one == LEAST || other == LEAST => LEAST,
        SEQUENCE => Type {
            first: one.first | one.nullable & other.first,
            follow_last: other.follow_last | other.nullable & (other.first | one.follow_last),
            nullable: one.nullable & other.nullable,
        },
        ALTERNATIVE => Type {
            first: one.first | other.first,
            follow_last: one.follow_last | other.follow_last,
            nullable: one.nullable | other.nullable,
        },
        FIX => one,
        // The least solution of its own equation.
        REPETITION => Type {
            first: one.first,
            follow_last: one.first | one.follow_last,
            nullable: u32::MAX,
        },
        _ => LEAST,
    }
}

#[cfg(test)]
mod tests {
    use super::*;
    use crate::common::random::for_case;
    use crate::common::{generate, numbers};
    use crate::sheets;

    fn agree(sheet: &[u8], work_length: usize) -> usize {
        let mut work = vec![0xa5; work_length];
        let found = check(sheet, &mut work);
        let mut expected = vec![0xa5; work_length];
        let verdict = match vinzagew_reference::check(sheet, &mut expected) {
            Ok(_) => [0, 0],
            Err(refusal) => [refusal.number as usize, refusal.place],
        };
        assert_eq!(found, verdict, "{sheet:?}");
        assert!(work == expected);
        found[0]
    }

    /// The plain check and the reference agree on the sheets that are measured, whole, cut off and
    /// damaged.
    #[test]
    fn plain_check_and_reference_agree() {
        let mut met = [false; 11];
        for case in sheets::all() {
            let sheet = case.sheet.as_bytes();
            assert_eq!(agree(sheet, WORK_BYTES), case.number, "{}", case.name);
            met[agree(sheet, WORK_BYTES - 1)] = true;
            // The padded sheet is long, and every fourth place is enough: its numbers have 7 bytes, so each
            // of the 7 comes up.
            for end in (0..sheet.len()).step_by(1 + sheet.len() / 1_000) {
                met[agree(&sheet[..end], WORK_BYTES)] = true;
                let mut damaged = sheet.to_vec();
                for value in (0..8).chain([24, 25, 127, 128, 129, 255]) {
                    damaged[end] = value;
                    met[agree(&damaged, WORK_BYTES + 1)] = true;
                }
            }
        }
        met[agree(&[1; SHEET_LIMIT + 1], WORK_BYTES)] = true;
        met[agree(&[1; SHEET_LIMIT], WORK_BYTES)] = true;
        assert_eq!(met, [true; 11]);
    }

    /// The plain check and the reference agree on twins of these sheets, whole and damaged.
    #[test]
    fn plain_check_and_reference_agree_on_twins() {
        for case in sheets::all() {
            for seed in 0..200 {
                let random = &mut for_case(1, seed);
                let twin = numbers::twin(random, case.sheet.as_bytes());
                let number = agree(&twin, WORK_BYTES);
                let too_long = twin.len() > SHEET_LIMIT;
                assert_eq!(number, if too_long { 2 } else { case.number });
                agree(&generate::damage(random, &twin), WORK_BYTES);
            }
        }
    }

    #[test]
    fn long_numbers() {
        let mut longest = [0xff; 10];
        for last in [0, 1, 2, 0x81] {
            longest[9] = last;
            agree(&longest, WORK_BYTES);
        }
        for sheet in [&[0x80][..], &[0x80, 0], &[0x81, 0], &[0x81, 1], &[0xff; 11]] {
            agree(sheet, WORK_BYTES);
        }
        // A version of eleven groups, and one of ten, after which the token count is missing.
        let mut version = [0x80; 11];
        version[0] = 0x81;
        version[10] = 0;
        assert_eq!(agree(&version, WORK_BYTES), 3);
        version[9] = 0;
        assert_eq!(check(&version[..10], &mut [0; WORK_BYTES]), [3, 10]);
    }
}
