//! Word rules and patterns: where their order matters, and sheets that differ in nothing else.
//!
//! A pattern is any rule that is no word rule. Which rule is which, the reference says. Nothing is compared
//! here.

use vinzagew_reference::number;
use vinzagew_reference::sheet::{Rule, Sheet};

/// Whether some pattern stands above a word rule. Only then may the order of the kinds matter.
pub fn pattern_above_word(rules: &[Rule]) -> bool {
    let is_word = |rule: &Rule| rule.regex.is_word();
    let patterns = rules.iter().skip_while(|rule| is_word(rule));
    patterns.skip(1).any(is_word)
}

/// What [`without_words`] puts in front of each regex: a sequence whose first part is the star of the empty
/// word.
const NOTHING: [u8; 3] = [2, 4, 0];

/// A readable sheet with a star of the empty word in front of each rule's regex. Every rule matches what it
/// matched, with the same classes, and none is a word rule any more: where two match equally far, the lower
/// wins, and images number the rules as they stand. So it was for all sheets before request 4.
///
/// The regex nodes are three more a rule, and the sheet may break a limit that it kept.
pub fn without_words(sheet: &[u8]) -> Vec<u8> {
    let mut without = Vec::new();
    let mut copied = 0;
    for rule in Sheet::read(sheet).expect("readable").rules {
        let action = number::read(sheet, rule.place).expect("a number");
        let regex = rule.place + action.width;
        without.extend(&sheet[copied..regex]);
        without.extend(NOTHING);
        copied = regex;
    }
    without.extend(&sheet[copied..]);
    without
}

/// The place in [`without_words`] of the number that stands at a place of the sheet.
pub fn place_without_words(sheet: &[u8], place: usize) -> usize {
    let rules = Sheet::read(sheet).expect("readable").rules;
    let before = rules.iter().filter(|rule| rule.place < place).count();
    place + before * NOTHING.len()
}

/// A readable sheet with its rules in another order: the word rules, then the patterns, each kind as it
/// stands.
pub fn words_first(sheet: &[u8]) -> Vec<u8> {
    let parts = Sheet::read(sheet).expect("readable");
    let expression = parts.nodes[0].place;
    let starts = parts.rules.iter().map(|rule| rule.place);
    let ends = starts.clone().skip(1).chain([expression]);
    let places: Vec<(usize, usize)> = starts.zip(ends).collect();
    let mut ordered = sheet[..places[0].0].to_vec();
    for words in [true, false] {
        for (rule, &(start, end)) in parts.rules.iter().zip(&places) {
            if rule.regex.is_word() == words {
                ordered.extend(&sheet[start..end]);
            }
        }
    }
    ordered.extend(&sheet[expression..]);
    ordered
}
