//! The machine: questions 12 to 17.

use crate::image::Image;
use crate::TEXT_LIMIT;

/// What running returns.
#[derive(Clone, Copy, Debug, PartialEq, Eq)]
pub struct Ran {
    /// 0 for acceptance, otherwise the number of the question.
    pub number: u64,
    /// The text's length on acceptance, otherwise the place that the refusal names.
    pub place: usize,
    /// How many tokens were taken.
    pub tokens: usize,
}

/// Runs an image over a text, with all effects on the stack.
pub fn run(image: &[u8], text: &[u8], stack: &mut [u8]) -> Ran {
    if text.len() > TEXT_LIMIT {
        return Ran {
            number: 12,
            place: 0,
            tokens: 0,
        };
    }
    match Image::read(image) {
        Err(refusal) => Ran {
            number: refusal.number,
            place: refusal.place,
            tokens: 0,
        },
        Ok(image) => {
            stack.fill(0);
            walk(&image, text, stack.len())
        }
    }
}

/// [`run`] with the results of the C interface: number, place and count in `out[0..3]`.
///
/// An `out` shorter than 3 is left untouched, and nothing else happens.
pub fn vinzagew_run(image: &[u8], text: &[u8], stack: &mut [u8], out: &mut [u64]) {
    if let Some(out) = out.get_mut(..3) {
        let ran = run(image, text, stack);
        out[0] = ran.number;
        out[1] = ran.place as u64;
        out[2] = ran.tokens as u64;
    }
}

/// The longest match at the start of `rest`: its rule and its length. Of several rules that match as far, the
/// image's lowest wins; that word rules win over others is in the image's numbers.
pub fn longest_match(image: &Image, rest: &[u8]) -> Option<(usize, usize)> {
    let mut found = None;
    let mut held = image.first;
    for (index, byte) in rest.iter().enumerate() {
        let kept: Vec<_> = image
            .positions
            .iter()
            .enumerate()
            .filter(|(number, position)| {
                held >> number & 1 == 1 && (position.low..=position.high).contains(byte)
            })
            .map(|(_, position)| position)
            .collect();
        let ended = kept.iter().filter(|position| position.last);
        if let Some(rule) = ended.map(|position| position.rule).min() {
            found = Some((rule, index + 1));
        }
        held = kept.iter().fold(0, |set, position| set | position.follow);
        if held == 0 {
            break;
        }
    }
    found
}

/// Questions 14 to 17, with room for `room` pending nonterminals.
fn walk(image: &Image, text: &[u8], room: usize) -> Ran {
    let mut place = 0;
    let mut tokens = 0;
    let answer = |number, place, tokens| Ran {
        number,
        place,
        tokens,
    };
    if room == 0 {
        return answer(17, place, tokens);
    }
    // The first pending nonterminal comes last.
    let mut pending = vec![0];
    while place < text.len() {
        let (rule, length) = match longest_match(image, &text[place..]) {
            Some(found) => found,
            None => return answer(14, place, tokens),
        };
        if !image.skips[rule] {
            loop {
                let nonterminal = match pending.pop() {
                    Some(first) => first,
                    None => return answer(15, place, tokens),
                };
                let row = &image.rows[nonterminal];
                let production = row.productions.iter().find(|(own, _)| *own == rule);
                if let Some((_, tail)) = production {
                    pending.extend(tail.iter().rev());
                    break;
                }
                if !row.nullable {
                    return answer(15, place, tokens);
                }
            }
            if pending.len() > room {
                return answer(17, place, tokens);
            }
            tokens += 1;
        }
        place += length;
    }
    let all_nullable = pending.iter().all(|&number| image.rows[number].nullable);
    answer(if all_nullable { 0 } else { 16 }, place, tokens)
}
