//! How far the walks of a run go: which of them are in vain, what is charged for these, and the switch.
//!
//! No answer depends on this. Before too much is charged, the library goes on in another way, and the tests count how
//! often it has to.

use crate::image::Image;

/// A text may be charged at least so many bytes, however short it is.
pub const LEAST_BUDGET: usize = 4_096;

/// A turn of a run: the walk at a place, and its match.
#[derive(Clone, Copy, Debug, PartialEq, Eq)]
pub struct Turn {
    /// Where the walk begins.
    pub place: usize,
    /// How many bytes it goes until no position is kept, or to the text's end.
    pub walked: usize,
    /// The length of the match, 0 without one.
    pub length: usize,
}

impl Turn {
    /// Whether the walk goes past the end of its match, or over some bytes and finds none. Then all of its bytes are
    /// walked in vain.
    pub fn is_in_vain(&self) -> bool {
        self.walked > self.length
    }

    /// The bytes that are charged. A walk in vain is made again to find its match, so its bytes count twice; for a walk
    /// that ends with its match nothing is charged.
    pub fn charge(&self) -> usize {
        match self.is_in_vain() {
            true => 2 * self.walked,
            false => 0,
        }
    }
}

/// The turns in which a text is read by longest match, whatever the grammar takes. Without a match there is no turn
/// after it.
pub fn turns(image: &Image, text: &[u8]) -> Vec<Turn> {
    let mut turns = Vec::new();
    let mut place = 0;
    while place < text.len() {
        let (walked, length) = walk(image, &text[place..]);
        turns.push(Turn {
            place,
            walked,
            length,
        });
        if length == 0 {
            break;
        }
        place += length;
    }
    turns
}

/// How many bytes from the start of `rest` on keep a position, one after the other, and at how many of them the
/// longest match ends.
fn walk(image: &Image, rest: &[u8]) -> (usize, usize) {
    let mut held = image.first;
    let mut length = 0;
    for (index, byte) in rest.iter().enumerate() {
        let (mut kept, mut ends, mut next) = (false, false, 0);
        for (number, position) in image.positions.iter().enumerate() {
            if held >> number & 1 == 1 && (position.low..=position.high).contains(byte) {
                kept = true;
                ends |= position.last;
                next |= position.follow;
            }
        }
        if !kept {
            return (index, length);
        }
        if ends {
            length = index + 1;
        }
        held = next;
    }
    (rest.len(), length)
}

/// How many bytes a text of this length may be charged in all: as many as it has, but at least 4,096.
pub fn budget(text_length: usize) -> usize {
    text_length.max(LEAST_BUDGET)
}

/// The number of the first turn whose charge brings the sum above the budget, if there is one: the switch is made
/// there, and the rest of the text is read with alive positions.
///
/// ```
/// use vinzagew_reference::image::fuse;
/// use vinzagew_reference::long_walks::{switch, turns};
///
/// // The rules `a` and `a*b`, and any sequence of their tokens.
/// let sheet = [1, 2, 2, 1, 1, 97, 97, 2, 2, 4, 1, 97, 97, 1, 98, 98, 7, 4, 2, 0, 2, 1];
/// let image = fuse(&vinzagew_reference::check(&sheet, &mut vec![0; 65_536]).unwrap());
///
/// // At each place the walk goes to the text's end, and the match is one byte.
/// let turns = turns(&image, &[b'a'; 100]);
/// assert_eq!((turns[1].place, turns[1].walked, turns[1].length), (1, 99, 1));
/// // Twice 100, twice 99 and so on are charged, but nothing for the last walk: 4,094 before turn 23, 10,098 in all.
/// assert_eq!(turns[23].charge(), 154);
/// assert_eq!(turns[99].charge(), 0);
/// assert_eq!(switch(&turns, 100), Some(23));
/// // The budget of a longer text is its length.
/// assert_eq!(switch(&turns, 10_097), Some(98));
/// assert_eq!(switch(&turns, 10_098), None);
/// ```
pub fn switch(turns: &[Turn], text_length: usize) -> Option<usize> {
    let mut charged = 0;
    for (number, turn) in turns.iter().enumerate() {
        charged += turn.charge();
        if charged > budget(text_length) {
            return Some(number);
        }
    }
    None
}
