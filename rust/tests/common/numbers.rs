//! The numbers of a sheet or an image, and twins: the same numbers, each written in any way.
//!
//! Nothing is called and nothing is compared here. What a number is, the reference says.

use super::random::Random;
use vinzagew_reference::number::{self, Number, WIDTH_LIMIT};
use vinzagew_reference::SHEET_LIMIT;

/// The numbers from the left on, each with its place, and the place after them: the end, or that of
/// something that is no number.
pub fn numbers(bytes: &[u8]) -> (Vec<(usize, Number)>, usize) {
    let mut found = Vec::new();
    let mut place = 0;
    while let Some(number) = number::read(bytes, place) {
        found.push((place, number));
        place += number.width;
    }
    (found, place)
}

/// The twin whose numbers have these many bytes, by their index; one that needs more has its fewest. What
/// stands after the numbers stays as it is.
pub fn twin_of_widths(bytes: &[u8], mut width: impl FnMut(usize) -> usize) -> Vec<u8> {
    let (found, end) = numbers(bytes);
    let mut twin = Vec::new();
    for (index, (_, number)) in found.into_iter().enumerate() {
        number::write_padded(&mut twin, number.value, width(index));
    }
    twin.extend(&bytes[end..]);
    twin
}

/// The twin whose numbers have the fewest bytes.
pub fn fewest_twin(bytes: &[u8]) -> Vec<u8> {
    twin_of_widths(bytes, |_| 1)
}

/// The twin whose number with this index has so many bytes; all others have the fewest.
pub fn twin_with(bytes: &[u8], chosen: usize, width: usize) -> Vec<u8> {
    twin_of_widths(bytes, |index| if index == chosen { width } else { 1 })
}

/// A twin with one number padded, if it does not need as many bytes; all others have the fewest.
pub fn twin_with_one_padded(random: &mut Random, bytes: &[u8]) -> Vec<u8> {
    let chosen = random.below(numbers(bytes).0.len().max(1));
    let width = random.range(2, WIDTH_LIMIT);
    twin_with(bytes, chosen, width)
}

/// A twin; if there are enough numbers it may have about as many bytes as a sheet may have.
pub fn twin(random: &mut Random, bytes: &[u8]) -> Vec<u8> {
    let same = random.range(1, WIDTH_LIMIT);
    let any = |random: &mut Random| random.range(1, WIDTH_LIMIT);
    match random.below(6) {
        0 => twin_of_widths(bytes, |_| WIDTH_LIMIT),
        1 => twin_of_widths(bytes, |_| same),
        2 => twin_of_widths(bytes, |_| if random.once_in(9) { any(random) } else { 1 }),
        3 => twin_at_the_limit(random, bytes),
        _ => twin_of_widths(bytes, |_| any(random)),
    }
}

/// A twin of 4,095 to 4,097 bytes, if there are enough numbers and none needs more than its share.
fn twin_at_the_limit(random: &mut Random, bytes: &[u8]) -> Vec<u8> {
    let (found, end) = numbers(bytes);
    let rest = bytes.len() - end;
    let room = random
        .range(SHEET_LIMIT - 1, SHEET_LIMIT + 1)
        .saturating_sub(rest);
    let count = found.len().max(1);
    let (share, more) = (room / count, room % count);
    twin_of_widths(bytes, |index| {
        (share + usize::from(index < more)).min(WIDTH_LIMIT)
    })
}

/// The place in a twin of the number, or of what follows the numbers, that stands at a place of the bytes.
pub fn place_in_twin(bytes: &[u8], place: usize, twin: &[u8]) -> usize {
    let starts = |bytes: &[u8]| -> Vec<usize> {
        let (found, end) = numbers(bytes);
        let places = found.into_iter().map(|(place, _)| place);
        places.chain([end]).collect()
    };
    let index = starts(bytes).iter().position(|&start| start == place);
    starts(twin)[index.expect("a refusal names the first byte of a number")]
}
