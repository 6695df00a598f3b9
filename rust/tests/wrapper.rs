//! The wrapper, the builder together with checking and writing, patches of stored sheets, and the limits.
//!
//! A few sheets with results that are written down; the many sheets are those of the vectors and of the
//! random comparisons. Without the library, what needs no wrapper is still tested on the reference.

mod common;

use common::numbers::{twin_of_widths, twin_with};
use common::{
    engines, full_check, full_run, full_write, pattern, short_out_changes_nothing, IMAGE_OF_D,
};
use vinzagew::builder::{Expression, Field, PartKind, Regex, Sheet, SheetBuilder, Token};
#[cfg(vinzagew_library)]
use vinzagew::{
    check, check_with, recognise, recognise_with, run_with, run_with_table, write, write_into,
    Image, Recognised, Refusal, RECOGNISER_TEXT_LIMIT, TABLE_ENTRIES, WINNER_ENTRIES,
};
use vinzagew::{patch, stack_length, CheckRefusal, PatchError};
use vinzagew_reference::image::Image as Parts;

fn builder() -> SheetBuilder {
    let mut builder = SheetBuilder::new();
    let number = builder.token("N");
    let slash = builder.token("S");
    builder.rule(number, Regex::class(b'0', b'9').plus());
    builder.rule(slash, Regex::byte(b'/'));
    builder.skip(Regex::byte(b' '));
    builder
}

/// The tokens N and S of [`builder`].
fn tokens() -> (Token, Token) {
    let mut other = SheetBuilder::new();
    (other.token("N"), other.token("S"))
}

/// Sheet D.
fn sheet_d() -> Sheet {
    let (number, slash) = tokens();
    let more = Expression::fix(|more| Expression::epsilon().or(slash.then(number.then(more))));
    builder().finish(number.then(more)).unwrap()
}

/// Where the archive's folder is named, the tests that need the archive are not left out.
#[test]
fn a_named_archive_is_linked() {
    assert!(option_env!("VINZAGEW_LIB_DIR").is_none() || vinzagew::LIBRARY_LINKED);
}

#[test]
fn the_builder_writes_sheet_d() {
    let expected = [
        1, 2, 3, 1, 2, 1, 48, 57, 4, 1, 48, 57, 2, 1, 47, 47, 0, 1, 32, 32, 3, 2, 0, 5, 4, 0, 3, 2,
        1, 3, 2, 0, 6, 0,
    ];
    assert_eq!(sheet_d().to_bytes(), expected);
}

/// Its slash is rule 0 of the image, the blank rule 1 and the number rule 2.
#[test]
fn sheet_d_has_its_image() {
    for engine in engines() {
        let (written, image) = full_write(engine, sheet_d().as_bytes(), 65_536, 65_536);
        assert_eq!(written, [0, 0, 48], "{}", engine.name);
        assert_eq!(image, IMAGE_OF_D, "{}", engine.name);
    }
    assert_eq!(sheet_d().image_rules(), [1, 2, 0]);
}

#[test]
fn regexes_of_word_rules() {
    let word = Regex::literal(b"word");
    for regex in [
        Regex::empty(),
        Regex::byte(0),
        Regex::byte(255),
        word.clone(),
        Regex::empty().then(word.clone()),
        word.clone().then(Regex::empty().then(Regex::empty())),
        Regex::one_of(b"a"),
    ] {
        assert!(regex.is_word(), "{regex}");
    }
    let nothing = Regex::empty().star();
    for regex in [
        Regex::class(b'a', b'b'),
        Regex::class(0, 255),
        word.clone().then(Regex::class(b'a', b'b')),
        word.clone().star(),
        word.clone().plus(),
        word.clone().optional(),
        word.clone().or(word.clone()),
        nothing.clone().then(word.clone()),
        word.then(nothing),
    ] {
        assert!(!regex.is_word(), "{regex}");
    }
}

/// Names, and words below them: `if` is a token and `rem` is skipped, as blanks are.
fn sheet_with_words() -> Sheet {
    let mut builder = SheetBuilder::new();
    let name = builder.token("name");
    let word = builder.token("if");
    builder.rule(name, Regex::class(b'a', b'z').plus());
    builder.skip(Regex::byte(b' ').plus());
    builder.rule(word, Regex::literal(b"if"));
    builder.skip(Regex::literal(b"rem"));
    // Of two words of equal text the lower wins, so that this one never does.
    builder.rule(name, Regex::literal(b"if").then(Regex::empty()));
    builder.finish(word.then(name.star()).star()).unwrap()
}

/// Words below a name pattern are read as words.
#[test]
fn words_below_a_name_pattern_are_read() {
    let sheet = sheet_with_words();
    assert_eq!(sheet.image_rules(), [2, 3, 4, 0, 1]);
    for engine in engines() {
        let (written, image) = full_write(engine, sheet.as_bytes(), 65_536, 65_536);
        assert_eq!(written[0], 0);
        let read = |text: &[u8]| full_run(engine, &image, text, stack_length(text.len()));
        assert_eq!(read(b"if"), [0, 2, 1], "{}", engine.name);
        assert_eq!(read(b"if iffy"), [0, 7, 2]);
        assert_eq!(read(b"iffy"), [15, 0, 0]);
        assert_eq!(read(b"if rem  remark if"), [0, 17, 3]);
        assert_eq!(read(b"rem"), [0, 3, 0]);
        assert_eq!(read(b"remif"), [15, 0, 0]);
        // The blanks are a pattern, and no word.
        assert_eq!(read(b"if if a"), [0, 7, 3]);
    }
}

/// Where people read of a rule it is the sheet's, whatever its number in the image.
#[test]
fn rules_are_named_by_their_numbers_in_the_sheet() {
    let sheet = sheet_with_words();
    let rules: Vec<String> = sheet
        .parts()
        .iter()
        .filter(|part| matches!(part.kind, PartKind::Action { .. }))
        .map(|part| part.to_string())
        .collect();
    let expected = [
        "action of rule 0 (returns name)",
        "action of rule 1 (skips)",
        "action of rule 2 (returns if)",
        "action of rule 3 (skips)",
        "action of rule 4 (returns name)",
    ];
    assert_eq!(rules, expected);

    // Both the pattern and the word match the empty word, and the pattern comes first.
    let mut builder = builder();
    let (number, slash) = tokens();
    builder.rule(number, Regex::byte(b'a').star());
    builder.rule(slash, Regex::empty());
    let sheet = builder.finish(number).unwrap();
    for engine in engines() {
        let [number, place] = full_check(engine, sheet.as_bytes(), 65_536);
        assert_eq!(number, 7, "{}", engine.name);
        let part = sheet.locate(place as usize).to_string();
        assert_eq!(part, "action of rule 3 (returns N)", "{}", engine.name);
    }
}

#[test]
fn places_lead_back_to_parts() {
    let sheet = sheet_d();
    let words = |place| sheet.locate(place).to_string();
    assert_eq!(words(0), "version");
    assert_eq!(words(1), "token count");
    assert_eq!(words(2), "rule count");
    assert_eq!(words(3), "action of rule 0 (returns N)");
    assert_eq!(
        words(4),
        "regex node 0 of rule 0 (returns N): ([0-9] [0-9]*)"
    );
    assert_eq!(
        words(11),
        "high byte of regex node 3 of rule 0 (returns N): [0-9]"
    );
    assert_eq!(words(16), "action of rule 2 (skips)");
    assert_eq!(words(20), "expression node 0: (N·μx2.(ε ∨ (S·(N·x2))))");
    assert_eq!(words(22), "token of expression node 1: N");
    assert_eq!(words(32), "expression node 9: x2");
    assert_eq!(words(33), "number of expression node 9: x2");
    assert_eq!(words(34), "end of the sheet");
    assert!(matches!(
        sheet.locate(29).kind,
        PartKind::Expression {
            node: 7,
            expression: Expression::Sequence(..),
            label: None,
            ..
        }
    ));
}

#[test]
fn labels_and_names_show() {
    let mut builder = SheetBuilder::new();
    let a = builder.token("a");
    builder.rule(a, Regex::byte(b'a'));
    let inner = Expression::variable("list").or(a).label("item");
    let sheet = builder
        .finish(Expression::fix_named("list", a.then(inner)))
        .unwrap();
    // Version, counts, action, class, then fixed point, sequence, token, alternative.
    assert_eq!(
        sheet.locate(11).to_string(),
        "expression node 3 in item: (list ∨ a)"
    );
}

#[test]
fn star_and_plus_are_repetitions() {
    let (number, slash) = tokens();
    let expression = |expression: Expression| {
        let sheet = builder().finish(expression).unwrap();
        (
            sheet.as_bytes()[20..].to_vec(),
            sheet.locate(20).to_string(),
        )
    };
    let (tags, words) = expression(number.star());
    assert_eq!(tags, [7, 2, 0]);
    assert_eq!(words, "expression node 0: (N)*");
    let (tags, words) = expression(number.then(slash).plus());
    assert_eq!(tags, [3, 3, 2, 0, 2, 1, 7, 3, 2, 0, 2, 1]);
    assert_eq!(words, "expression node 0: ((N·S)·(N·S)*)");
    let (tags, words) = expression(number.or(slash).label("item").star().star());
    assert_eq!(tags, [7, 7, 4, 2, 0, 2, 1]);
    assert_eq!(words, "expression node 0: ((N ∨ S)*)*");
}

/// A repetition is no fixed point in a variable's count.
#[test]
fn variables_count_past_repetitions() {
    let (number, slash) = tokens();
    let brackets =
        Expression::fix(|own| number.then(Expression::from(slash).or(own.plus().then(slash))));
    let sheet = builder().finish(brackets).unwrap();
    assert_eq!(
        sheet.as_bytes()[20..],
        [5, 3, 2, 0, 4, 2, 1, 3, 3, 6, 0, 7, 6, 0, 2, 1]
    );
    let words = |place| sheet.locate(place).to_string();
    assert_eq!(words(20), "expression node 0: μx0.(N·(S ∨ ((x0·(x0)*)·S)))");
    assert_eq!(words(31), "expression node 8: (x0)*");
    assert_eq!(words(33), "number of expression node 9: x0");
    for engine in engines() {
        let (written, image) = full_write(engine, sheet.as_bytes(), 65_536, 65_536);
        assert_eq!(written[0], 0);
        let room = stack_length(10);
        assert_eq!(full_run(engine, &image, b"1 1/1 1///", room), [0, 10, 8]);
    }

    let (outer, inner) = (Expression::variable("outer"), Expression::variable("inner"));
    let body = Expression::fix_named("inner", outer.then(inner).star());
    let sheet = builder().finish(Expression::fix_named("outer", body.star()));
    assert_eq!(sheet.unwrap().as_bytes()[20..], [5, 7, 5, 7, 3, 6, 1, 6, 0]);
}

#[test]
fn a_refused_repetition_is_named() {
    let (number, slash) = tokens();
    let sheet = builder().finish(number.then(slash.star().star())).unwrap();
    for engine in engines() {
        let [number, place] = full_check(engine, sheet.as_bytes(), 65_536);
        let refusal = CheckRefusal {
            number,
            place: place as usize,
        };
        assert_eq!(
            refusal.to_string(),
            "refused with 9 at place 23 of the sheet: Is the sequence separable, \
             or the repetition's part separable from itself? No"
        );
        let part = sheet.locate(refusal.place);
        assert_eq!(part.to_string(), "expression node 2: ((S)*)*");
    }
}

/// A branch that is not finished changes nothing, and a part that is refused is still named.
#[test]
fn an_unfinished_branch_is_left_out() {
    let (number, slash) = tokens();
    let unfinished = number.then(slash).then(Expression::bottom());
    let finished = number.then(slash.then(number).star());
    let sheet = builder().finish(unfinished.clone().or(finished)).unwrap();
    let words = "expression node 0: (((N·S)·⊥) ∨ (N·(S·N)*))";
    assert_eq!(sheet.locate(20).to_string(), words);
    let refused = unfinished.or(number.or(number).label("twice"));
    let refused = builder().finish(refused).unwrap();
    for engine in engines() {
        let (written, image) = full_write(engine, sheet.as_bytes(), 65_536, 65_536);
        assert_eq!(written[0], 0);
        let run = |text: &[u8]| full_run(engine, &image, text, stack_length(text.len()));
        assert_eq!(run(b"12 /7"), [0, 5, 3]);
        assert_eq!(run(b"12/"), [16, 3, 2]);
        assert_eq!(run(b"12//"), [15, 3, 2]);
        assert_eq!(full_check(engine, refused.as_bytes(), 65_536), [10, 28]);
    }
    let words = "expression node 6 in twice: (N ∨ N)";
    assert_eq!(refused.locate(28).to_string(), words);
}

#[test]
fn a_variable_outside_its_fixed_point_is_refused() {
    let error = builder().finish(Expression::variable("x")).unwrap_err();
    assert_eq!(
        error.to_string(),
        "the variable x stands outside its fixed point"
    );
}

/// Numbers of 128 and more take two bytes; places stay right.
#[test]
fn places_count_bytes() {
    let mut builder = SheetBuilder::new();
    let token = builder.token("high");
    builder.rule(token, Regex::class(200, 255));
    let sheet = builder.finish(token.or(token)).unwrap();
    for engine in engines() {
        assert_eq!(full_check(engine, sheet.as_bytes(), 65_536), [10, 9]);
    }
    assert_eq!(
        sheet.locate(9).to_string(),
        "expression node 0: (high ∨ high)"
    );
}

/// A sheet with numbers of one byte and of two.
fn sheet_of_high_bytes() -> Sheet {
    let mut builder = SheetBuilder::new();
    let token = builder.token("high");
    builder.rule(token, Regex::class(127, 128).or(Regex::class(200, 255)));
    builder.finish(token.star()).unwrap()
}

/// A padded sheet has the same parts at the places of its own bytes.
#[test]
fn the_builder_pads() {
    for sheet in [sheet_d(), sheet_of_high_bytes()] {
        let unpadded = sheet.to_bytes();
        let words = |sheet: &Sheet| -> Vec<String> {
            let parts = sheet.parts();
            parts.iter().map(|part| part.to_string()).collect()
        };
        for width in 1..=10 {
            let padded = sheet.clone().padded(width).unwrap();
            let bytes = padded.to_bytes();
            assert_eq!(bytes, twin_of_widths(&unpadded, |_| width));
            assert_eq!(words(&padded), words(&sheet));
            let parts = padded.parts();
            let ends = parts.iter().skip(1).map(|part| part.place);
            for (part, end) in parts.iter().zip(ends.chain([bytes.len()])) {
                assert!(end - part.place >= width);
                let inside = [part.place, end - 1].map(|place| padded.locate(place));
                assert!(inside.iter().all(
                    |found| found.place == part.place && found.to_string() == part.to_string()
                ));
            }
            let end = padded.locate(bytes.len());
            assert_eq!(end.place, bytes.len());
            assert!(matches!(end.kind, PartKind::End));
            // The width is the last that was asked for.
            assert_eq!(padded.padded(1).unwrap().to_bytes(), unpadded);
        }
    }
}

/// The width is the least one: a number that needs more keeps its own.
#[test]
fn a_number_that_needs_more_keeps_its_bytes() {
    let sheet = sheet_of_high_bytes().padded(1).unwrap();
    let class = [1, 127, 0x80, 1, 1, 0xc8, 1, 0xff, 1];
    assert_eq!(sheet.as_bytes()[5..14], class);
    let bytes = sheet.padded(2).unwrap().to_bytes();
    let class = [0x81, 0, 0xff, 0, 0x80, 1, 0x81, 0, 0xc8, 1, 0xff, 1];
    assert_eq!(bytes[10..22], class);
}

#[test]
fn a_width_that_no_number_has_is_refused() {
    for width in [0, 11, usize::MAX] {
        let error = sheet_d().padded(width).unwrap_err();
        assert_eq!(error.width, width);
        let words = format!("a number has 1 to 10 bytes, not {width}");
        assert_eq!(error.to_string(), words);
    }
}

/// Padded sheets have the same image, and are refused at the same part.
#[test]
fn padded_sheets_are_judged_as_before() {
    let (number, slash) = tokens();
    let refused = builder().finish(number.then(slash.star().star())).unwrap();
    for engine in engines() {
        let write = |sheet: &Sheet| full_write(engine, sheet.as_bytes(), 65_536, 65_536);
        for width in 1..=10 {
            let padded = sheet_d().padded(width).unwrap();
            assert_eq!(write(&padded), write(&sheet_d()));
            let padded = refused.clone().padded(width).unwrap();
            let [number, place] = full_check(engine, padded.as_bytes(), 65_536);
            assert_eq!([number, place], [9, 23 * width as u64]);
            assert_eq!(write(&padded), ([9, place, 0], Vec::new()));
            let part = padded.locate(place as usize);
            assert_eq!(part.to_string(), "expression node 2: ((S)*)*");
        }
    }
}

/// Hexadecimal 80 00 is zero in a sheet, and 13 in an image, as every padded number is.
#[test]
fn a_padded_zero_in_a_sheet_and_in_an_image() {
    let sheet = sheet_d().to_bytes();
    let twin = twin_with(&sheet, 16, 2);
    assert_eq!(twin[16..18], [0x80, 0x00]);
    assert_eq!(twin.len(), sheet.len() + 1);
    for engine in engines() {
        let (written, image) = full_write(engine, &twin, 65_536, 65_536);
        assert_eq!(written, [0, 0, 48]);
        assert_eq!(full_write(engine, &sheet, 65_536, 65_536).1, image);
        assert_eq!(full_run(engine, &image, b"12 /7", 125), [0, 5, 3]);
        for place in 0..48 {
            let padded = twin_with(&image, place, 2);
            assert_eq!(padded[place..place + 2], [0x80 | image[place], 0x00]);
            let found = full_run(engine, &padded, b"12 /7", 125);
            assert_eq!(found, [13, place as u64, 0]);
        }
    }
}

/// Up to ten groups and below 2^64, wherever the number stands.
#[test]
fn the_longest_numbers() {
    let sheet = sheet_d().to_bytes();
    let with = |place: usize, bytes: &[u8]| -> Vec<u8> {
        [&sheet[..place], bytes, &sheet[place + 1..]].concat()
    };
    for engine in engines() {
        let check = |sheet: &[u8]| full_check(engine, sheet, 65_536);
        for place in 0..sheet.len() {
            let mut bytes = [0x80; 11];
            bytes[0] |= sheet[place];
            bytes[10] = 0;
            let refused = |number| [number, place as u64];
            // Eleven groups, of which all high ones are empty.
            assert_eq!(check(&with(place, &bytes)), refused(3));
            for (tenth, expected) in [(0, [0, 0]), (1, refused(4)), (2, refused(3))] {
                bytes[9] = tenth;
                assert_eq!(check(&with(place, &bytes[..10])), expected);
            }
            for groups in 1..=11 {
                let cut = [&sheet[..place], &vec![0x80; groups]].concat();
                assert_eq!(check(&cut), refused(3));
            }
        }
    }
}

/// The places of the low and the high bytes of a rule's classes.
fn class_places(sheet: &Sheet, own: usize) -> Vec<usize> {
    let parts = sheet.parts().into_iter();
    let of_class = parts.filter(|part| {
        matches!(part.kind, PartKind::Regex { rule, field: Field::Low | Field::High, .. } if rule == own)
    });
    of_class.map(|part| part.place).collect()
}

/// What a seed counter does: the slash of a stored sheet becomes a comma, and no byte moves.
#[test]
fn a_stored_sheet_is_patched_and_run() {
    for width in 1..=10 {
        let sheet = sheet_d().padded(width).unwrap();
        let mut stored = sheet.to_bytes();
        let places = class_places(&sheet, 1);
        assert_eq!(places, [14 * width, 15 * width]);
        for engine in engines() {
            stored.copy_from_slice(sheet.as_bytes());
            let read = |stored: &[u8], text: &[u8]| {
                let (written, image) = full_write(engine, stored, 65_536, 65_536);
                assert_eq!(written, [0, 0, 48]);
                full_run(engine, &image, text, stack_length(text.len()))
            };
            assert_eq!(read(&stored, b"12/7"), [0, 4, 3]);
            assert_eq!(read(&stored, b"12,7"), [14, 2, 1]);
            for &place in &places {
                patch(&mut stored, place, b','.into()).unwrap();
            }
            assert_eq!(stored.len(), 34 * width);
            assert_eq!(read(&stored, b"12/7"), [14, 2, 1]);
            assert_eq!(read(&stored, b"12,7"), [0, 4, 3]);
        }
    }
}

/// Whether a patched value is allowed is for checking to say, and a value that does not fit changes nothing.
#[test]
fn patches_that_checking_refuses_and_patches_that_do_not_fit() {
    let sheet = sheet_d().padded(2).unwrap();
    let place = class_places(&sheet, 1)[1];
    let mut stored = sheet.to_bytes();
    patch(&mut stored, place, 255).unwrap();
    for engine in engines() {
        assert_eq!(full_check(engine, &stored, 65_536), [0, 0]);
    }
    patch(&mut stored, place, 256).unwrap();
    for engine in engines() {
        assert_eq!(full_check(engine, &stored, 65_536), [4, place as u64]);
    }
    let before = stored.clone();
    let error = patch(&mut stored, place, 1 << 14).unwrap_err();
    let expected = PatchError::DoesNotFit {
        place,
        value: 1 << 14,
        needed: 3,
        width: 2,
    };
    assert_eq!(error, expected);
    let inside = patch(&mut stored, place + 1, 0).unwrap_err();
    assert_eq!(
        inside.to_string(),
        "no number starts at place 31: it is inside the number that starts at place 30"
    );
    assert_eq!(stored, before);
}

/// A sheet with as many numbers as one that passes can have: 32 rules of eight nodes and two classes, and 64
/// expression nodes with 32 tokens.
fn sheet_of_515_numbers() -> Sheet {
    let mut builder = SheetBuilder::new();
    let token = builder.token("a");
    for rule in 0..32 {
        let more = Regex::byte(b'0').optional().optional().star();
        builder.rule(token, Regex::byte(64 + rule).then(more));
    }
    let row = (0..31).fold(Expression::token(token), |row, _| row.then(token));
    builder.finish(row.star()).unwrap()
}

/// Padding a sheet that passes breaks the limit of 4,096 bytes from 8 bytes a number on.
#[test]
fn the_largest_sheet_is_too_long_if_its_numbers_are() {
    let sheet = sheet_of_515_numbers();
    let unpadded = sheet.to_bytes();
    assert_eq!(unpadded.len(), 515);
    // 491 × 8 + 24 × 7 bytes are 4,096.
    let eights = |count| twin_of_widths(&unpadded, |index| if index < count { 8 } else { 7 });
    assert_eq!(eights(491).len(), 4_096);
    for engine in engines() {
        let (written, image) = full_write(engine, &unpadded, 65_536, 65_536);
        assert_eq!(written[0], 0);
        for width in 1..=10 {
            let padded = sheet.clone().padded(width).unwrap();
            assert_eq!(padded.as_bytes().len(), 515 * width);
            let found = full_write(engine, padded.as_bytes(), 65_536, 65_536);
            if width <= 7 {
                assert_eq!(found, (written, image.clone()));
            } else {
                assert_eq!(found, ([2, 0, 0], Vec::new()));
            }
        }
        let found = full_write(engine, &eights(491), 65_536, 65_536);
        assert_eq!(found, (written, image));
        assert_eq!(full_check(engine, &eights(492), 65_536), [2, 0]);
    }
}

#[test]
fn limits() {
    let sheet = sheet_d();
    for engine in engines() {
        let check = |work| full_check(engine, sheet.as_bytes(), work);
        assert_eq!(check(0), [1, 0]);
        assert_eq!(check(65_535), [1, 0]);
        assert_eq!(check(65_536), [0, 0]);
        assert_eq!(check(65_537), [0, 0]);
        assert_eq!(full_check(engine, &[1; 4_097], 65_535), [1, 0]);
        assert_eq!(full_check(engine, &[1; 4_097], 65_536), [2, 0]);
        assert_eq!(full_check(engine, &[1; 4_096], 65_536), [6, 8]);

        let write = |work, image| full_write(engine, sheet.as_bytes(), work, image).0;
        assert_eq!(write(65_535, 48), [1, 0, 0]);
        assert_eq!(write(65_536, 47), [11, 0, 48]);
        assert_eq!(write(65_537, 48), [0, 0, 48]);
        assert_eq!(full_write(engine, &[1; 4_097], 65_536, 0).0, [2, 0, 0]);

        let (_, image) = full_write(engine, sheet.as_bytes(), 65_536, 65_536);
        let long = vec![b'7'; 1_048_577];
        assert_eq!(full_run(engine, &image, &long, 5), [12, 0, 0]);
        assert_eq!(full_run(engine, &[], &long, 5), [12, 0, 0]);
        assert_eq!(full_run(engine, &image, &long[1..], 2), [0, 1_048_576, 1]);
        assert_eq!(full_run(engine, &image, b"", 0), [17, 0, 0]);
        assert_eq!(full_run(engine, &image, b"h", 0), [17, 0, 0]);
    }
}

/// A repetition of 31 sequences has 64 nodes, and its tail is as long as a tail can be: after one byte
/// the long enough stack is full.
#[test]
fn the_longest_tail_is_reached() {
    let mut builder = SheetBuilder::new();
    let a = builder.token("a");
    builder.rule(a, Regex::byte(b'a'));
    let row = (0..31).fold(Expression::token(a), |row, _| row.then(a));
    let sheet = builder.finish(row.star()).unwrap();
    for engine in engines() {
        let (written, bytes) = full_write(engine, sheet.as_bytes(), 65_536, 65_536);
        assert_eq!(written[0], 0);
        let image = Parts::read(&bytes).unwrap();
        // The right parts from the innermost on, then the repetition itself, which is the start.
        let tail: Vec<usize> = (1..=31).chain([0]).collect();
        assert_eq!(image.rows[0].productions, [(0, tail)]);
        assert_eq!(stack_length(1), 32);
        assert_eq!(full_run(engine, &bytes, b"a", 32), [16, 1, 1]);
        assert_eq!(full_run(engine, &bytes, b"a", 31), [17, 0, 0]);
        assert_eq!(full_run(engine, &bytes, &[b'a'; 64], 32), [0, 64, 64]);
    }
}

/// In every image a tail has at most 32 members, and the long enough stack is enough.
#[test]
fn tails_of_images_run_to_32() {
    // One rule, one position and one nullable nonterminal, whose tail is itself so many times.
    let image = |length: u8| {
        let mut image = vec![1, 1, 0, 1, 97, 97, 0, 1, 0, 1, 1, 1, 1, 0, length];
        image.resize(15 + usize::from(length), 0);
        image
    };
    for engine in engines() {
        let run = |length, room| full_run(engine, &image(length), b"aaa", room);
        assert_eq!(run(31, 1 + 30 * 3), [0, 3, 3]);
        assert_eq!(run(32, 1 + 31 * 3), [0, 3, 3]);
        assert_eq!(run(32, 31 * 3), [17, 2, 2]);
        assert_eq!(run(33, 1 + 32 * 3), [13, 14, 0]);
    }
    assert_eq!(stack_length(3), 1 + 31 * 3);
}

/// With an `out` shorter than 3 nothing changes.
#[test]
fn a_short_out_changes_nothing() {
    let sheet = sheet_d();
    for engine in engines() {
        short_out_changes_nothing(engine, sheet.as_bytes(), 65_536, 65_536);
        let (_, image) = full_write(engine, sheet.as_bytes(), 65_536, 65_536);
        for length in 0..3 {
            let mut out = vec![7; length];
            let mut stack = pattern(100);
            (engine.run)(&image, b"12", &mut stack, &mut out);
            assert_eq!(stack, pattern(100));
            assert_eq!(out, vec![7; length]);
        }
    }
}

/// A good sheet is checked, then a bad one is written with the same work area, and the other way round.
#[test]
fn writing_does_not_trust_an_earlier_check() {
    let (number, _) = tokens();
    let good = sheet_d();
    let bad = builder().finish(number.or(number)).unwrap();
    for engine in engines() {
        let mut work = pattern(65_540);
        let mut image = pattern(50);
        let mut out = [7; 3];
        (engine.check)(good.as_bytes(), &mut work, &mut out);
        assert_eq!(out, [0, 0, 0]);
        (engine.write)(bad.as_bytes(), &mut work, &mut image, &mut out);
        assert_eq!(out, [10, 20, 0]);
        assert_eq!(image, pattern(50));
        (engine.check)(bad.as_bytes(), &mut work, &mut out);
        assert_eq!(out, [10, 20, 0]);
        (engine.write)(good.as_bytes(), &mut work, &mut image, &mut out);
        assert_eq!(out, [0, 0, 48]);
        let (_, expected) = full_write(engine, good.as_bytes(), 65_536, 48);
        assert_eq!(image[..48], expected);
        assert_eq!(image[48..], pattern(50)[48..]);
        assert!(work[..65_536].iter().all(|&byte| byte == 0));
        assert_eq!(work[65_536..], pattern(65_540)[65_536..]);
    }
}

#[cfg(vinzagew_library)]
#[test]
fn the_wrapper_checks() {
    let sheet = sheet_d();
    assert_eq!(check(sheet.as_bytes()), Ok(()));
    let mut work = pattern(65_537);
    assert_eq!(check_with(sheet.as_bytes(), &mut work), Ok(()));
    assert!(work[..65_536].iter().all(|&byte| byte == 0));
    assert_eq!(work[65_536..], pattern(65_537)[65_536..]);

    let cut = &sheet.as_bytes()[..30];
    let refusal = CheckRefusal {
        number: 3,
        place: 30,
    };
    assert_eq!(check(cut), Err(refusal));
    assert_eq!(check_with(cut, &mut work), Err(refusal));
    assert_eq!(write(cut), Err(refusal.into()));
}

#[cfg(vinzagew_library)]
#[test]
fn the_wrapper_writes_and_runs() {
    let sheet = sheet_d();
    let image = write(sheet.as_bytes()).unwrap();
    assert_eq!(image.as_bytes().len(), 48);
    assert_eq!(image.run(b"12 /7"), Ok(3));
    let refusal = image.run(b"12h").unwrap_err();
    assert_eq!((refusal.number, refusal.place, refusal.tokens), (14, 2, 1));
    assert_eq!(image.run(&vec![b'1'; 1_048_577]).unwrap_err().number, 12);

    let mut work = pattern(65_536);
    let mut buffer = pattern(50);
    let written = write_into(sheet.as_bytes(), &mut work, &mut buffer).unwrap();
    assert_eq!(written, image.as_bytes());

    assert_eq!(run_with(image.as_bytes(), b"1", &mut [1]), Ok(1));
    let refusal = run_with(image.as_bytes(), b"1", &mut []).unwrap_err();
    assert_eq!(refusal.number, 17);
}

#[cfg(vinzagew_library)]
#[test]
fn the_wrapper_reads_a_word_below_a_name_pattern() {
    let image = write(sheet_with_words().as_bytes()).unwrap();
    assert_eq!(image.run(b"if iffy rem if"), Ok(3));
    assert_eq!(image.run(b"iffy").unwrap_err().number, 15);
}

/// The wrapper runs with a table that is lent: the table is there, and past it everything is as before.
#[cfg(vinzagew_library)]
#[test]
fn the_wrapper_runs_with_a_table() {
    let mut table = vec![77; TABLE_ENTRIES + 1];
    let mut winners = vec![78; WINNER_ENTRIES + 1];
    let mut run = |text: &[u8], stack: &mut [u8]| {
        let ran = run_with_table(&IMAGE_OF_D, text, &mut table, &mut winners, stack);
        (ran, table.clone(), winners.clone())
    };
    let mut stack = pattern(40);
    let long = vec![b'1'; 1_048_577];
    let (ran, table, winners) = run(&long, &mut stack);
    assert_eq!(ran, Err(nowhere(12, 0)));
    assert!(table.iter().all(|&entry| entry == 77));
    assert!(winners.iter().all(|&entry| entry == 78));
    assert_eq!(stack, pattern(40));

    let (ran, table, winners) = run(b"12 /7", &mut stack);
    assert_eq!(ran, Ok(3));
    assert_eq!(winners[..7], [32, 32, 1, 0, 2, 2, 78]);
    assert!(table[..6 * 256].iter().all(|&row| row < 6));
    assert!(table[6 * 256..].iter().all(|&entry| entry == 77));
    assert_eq!(stack, [0; 40]);

    let refusal = run(b"12h", &mut stack).0.unwrap_err();
    assert_eq!((refusal.number, refusal.place, refusal.tokens), (14, 2, 1));
    let refusal = run(b"12", &mut []).0.unwrap_err();
    assert_eq!(refusal.number, 17);
}

/// 18 if either buffer is one entry short.
#[cfg(vinzagew_library)]
#[test]
fn the_wrapper_refuses_short_buffers() {
    for (table, winners) in [
        (TABLE_ENTRIES - 1, WINNER_ENTRIES),
        (TABLE_ENTRIES, WINNER_ENTRIES - 1),
    ] {
        let (mut table, mut winners) = (vec![77; table], vec![78; winners]);
        let mut stack = pattern(40);
        let ran = run_with_table(&IMAGE_OF_D, b"12", &mut table, &mut winners, &mut stack);
        assert_eq!(ran, Err(nowhere(18, 0)));
        assert!(table.iter().all(|&entry| entry == 77));
        assert!(winners.iter().all(|&entry| entry == 78));
        assert_eq!(stack, pattern(40));
    }
}

/// A sheet for words of `a` and `b` whose eighth byte from the end is an `a`. A table of its image would have 259
/// rows.
#[cfg(vinzagew_library)]
fn sheet_of_many_rows() -> Sheet {
    let either = || Regex::class(b'a', b'b');
    let parts = [either().star(), Regex::byte(b'a')].into_iter();
    let regex = Regex::sequence(parts.chain((0..7).map(|_| either())));
    let mut builder = SheetBuilder::new();
    let word = builder.token("word");
    builder.rule(word, regex);
    builder.skip(Regex::byte(b' '));
    builder.finish(word.star()).unwrap()
}

/// `run_long` gives what `run` gives, also for an image that has no table.
#[cfg(vinzagew_library)]
#[test]
fn the_wrapper_runs_long_texts() {
    let image = write(sheet_d().as_bytes()).unwrap();
    let numbers = [&b"/7 ".repeat(349_000)[1..], b"/12"].concat();
    assert_eq!(image.run_long(&numbers), Ok(2 * 349_000 + 1));
    for text in [&numbers[..], b"", b"12 /7", b"12/", b"12//7", b"12h"] {
        assert_eq!(image.run_long(text), image.run(text));
    }
    let long = vec![b'1'; 1_048_577];
    assert_eq!(image.run_long(&long), Err(nowhere(12, 0)));
    assert_eq!(image.run_long(&long[1..]), Ok(1));

    let image = write(sheet_of_many_rows().as_bytes()).unwrap();
    let mut buffers = (vec![0; TABLE_ENTRIES], vec![0; WINNER_ENTRIES]);
    let mut stack = vec![0; 40];
    let (table, winners) = (&mut buffers.0, &mut buffers.1);
    let ran = run_with_table(image.as_bytes(), b"", table, winners, &mut stack);
    assert_eq!(ran, Err(nowhere(19, 0)));
    let words = b"abbbbbbb babbabbab ".repeat(50_000);
    assert_eq!(image.run_long(&words), Ok(100_000));
    assert_eq!(image.run_long(b"abbbbbbb b").unwrap_err().place, 9);
    assert_eq!(image.run_long(&long).unwrap_err().number, 12);
}

/// The wrapper gives the tokens, also if the text is refused by them or after some of them.
#[cfg(vinzagew_library)]
#[test]
fn the_wrapper_recognises() {
    let sheet = sheet_d();
    let refused = |number, place, tokens: &[u8]| Recognised {
        tokens: tokens.to_vec(),
        answer: Err(Refusal {
            number,
            place,
            needed: 0,
            tokens: tokens.len(),
        }),
    };
    let accepted = Recognised {
        tokens: vec![0, 1, 0],
        answer: Ok(3),
    };
    for (text, expected) in [
        (&b"12 /7"[..], accepted),
        (b"12//7h", refused(14, 5, &[0, 1, 1, 0])),
        (b"12//7", refused(15, 3, &[0, 1, 1, 0])),
        (b"12/", refused(16, 3, &[0, 1])),
        (b"", refused(16, 0, &[])),
        (&[b'1'; RECOGNISER_TEXT_LIMIT + 1], refused(12, 0, &[])),
    ] {
        assert_eq!(recognise(sheet.as_bytes(), text), expected);
    }
    let longest = recognise(sheet.as_bytes(), &[b'1'; RECOGNISER_TEXT_LIMIT]);
    assert_eq!(longest.answer, Ok(1));
    let cut = &sheet.as_bytes()[..30];
    assert_eq!(recognise(cut, b"12"), refused(3, 30, &[]));
}

/// The wrapper recognises with buffers that are lent, and says how long the list must be.
#[cfg(vinzagew_library)]
#[test]
fn the_wrapper_recognises_with_lent_buffers() {
    let sheet = sheet_d();
    let mut work = pattern(65_540);
    let mut list = [77; 6];
    let mut call = |text: &[u8], length: usize| {
        let answer = recognise_with(sheet.as_bytes(), text, &mut work, &mut list[..length]);
        assert!(work[..65_536].iter().all(|&byte| byte == 0));
        assert_eq!(work[65_536..], pattern(65_540)[65_536..]);
        (answer, list)
    };
    let needs_5 = Refusal {
        needed: 5,
        ..nowhere(20, 0)
    };
    assert_eq!(call(b"12 /7", 4), (Err(needs_5), [77; 6]));
    assert_eq!(call(b"12 /7", 5), (Ok(3), [0, 1, 0, 77, 77, 77]));
    let (answer, list) = call(b"//", 6);
    let refusal = answer.unwrap_err();
    assert_eq!((refusal.number, refusal.place, refusal.tokens), (15, 0, 2));
    assert_eq!(list, [1, 1, 0, 77, 77, 77]);
    let mut short = pattern(65_535);
    let refusal = recognise_with(sheet.as_bytes(), b"", &mut short, &mut []).unwrap_err();
    assert_eq!(refusal, nowhere(1, 0));
    assert_eq!(short, pattern(65_535));
}

/// A surprise is compared with the published method: where no 14 comes up, number and place are the
/// same.
#[cfg(vinzagew_library)]
#[test]
fn the_wrapper_recognises_what_it_runs() {
    let sheet = sheet_with_words();
    let image = write(sheet.as_bytes()).unwrap();
    for text in [&b"if iffy rem if"[..], b"iffy", b"if if", b"if", b""] {
        let found = recognise(sheet.as_bytes(), text);
        match (image.run(text), found.answer) {
            (Ok(run), Ok(count)) => assert_eq!((run, run), (count, found.tokens.len())),
            (Err(run), Err(other)) => {
                assert_eq!((run.number, run.place), (other.number, other.place));
            }
            (run, other) => panic!("{run:?} and {other:?}"),
        }
    }
}

/// A refusal of writing or running that names no place.
#[cfg(vinzagew_library)]
fn nowhere(number: u64, needed: usize) -> Refusal {
    Refusal {
        number,
        place: 0,
        needed,
        tokens: 0,
    }
}

/// With a work area that is too short nothing changes.
#[cfg(vinzagew_library)]
#[test]
fn the_wrapper_changes_nothing_after_1() {
    let sheet = sheet_d();
    for length in [0, 1, 65_535] {
        let mut work = pattern(length);
        let mut buffer = pattern(50);
        let short = check_with(sheet.as_bytes(), &mut work).unwrap_err();
        assert_eq!((short.number, short.place), (1, 0));
        assert_eq!(work, pattern(length));
        let refusal = write_into(sheet.as_bytes(), &mut work, &mut buffer).unwrap_err();
        assert_eq!(refusal, nowhere(1, 0));
        assert_eq!(work, pattern(length));
        assert_eq!(buffer, pattern(50));
    }
}

/// With an image buffer that is too short it does not change, and the work area ends as after checking.
#[cfg(vinzagew_library)]
#[test]
fn the_wrapper_keeps_the_buffer_after_11() {
    let sheet = sheet_d();
    for room in [0, 1, 47] {
        let mut work = pattern(65_540);
        let mut buffer = pattern(room);
        let refusal = write_into(sheet.as_bytes(), &mut work, &mut buffer).unwrap_err();
        assert_eq!(refusal, nowhere(11, 48));
        assert_eq!(buffer, pattern(room));
        assert!(work[..65_536].iter().all(|&byte| byte == 0));
        assert_eq!(work[65_536..], pattern(65_540)[65_536..]);
    }
}

#[cfg(vinzagew_library)]
#[test]
fn the_wrapper_refuses_a_sheet_that_is_too_long() {
    let sheet = [1; 4_097];
    let refusal = CheckRefusal {
        number: 2,
        place: 0,
    };
    assert_eq!(check(&sheet), Err(refusal));
    assert_eq!(write(&sheet), Err(nowhere(2, 0)));
    let mut work = pattern(65_536);
    assert_eq!(check_with(&sheet, &mut work), Err(refusal));
    assert!(work.iter().all(|&byte| byte == 0));
    let mut work = pattern(65_536);
    let mut buffer = pattern(50);
    assert_eq!(
        write_into(&sheet, &mut work, &mut buffer),
        Err(nowhere(2, 0))
    );
    assert!(work.iter().all(|&byte| byte == 0));
    assert_eq!(buffer, pattern(50));
    // One byte less is within the limit.
    assert_eq!(check(&sheet[1..]).unwrap_err().number, 6);
}

#[cfg(vinzagew_library)]
#[test]
fn images_come_from_readable_bytes_only() {
    let image = write(sheet_d().as_bytes()).unwrap();
    assert_eq!(Image::from_bytes(image.as_bytes()), Ok(image.clone()));
    let mut bytes = image.clone().into_bytes();
    bytes.push(0);
    let refusal = Image::from_bytes(bytes).unwrap_err();
    assert_eq!((refusal.number, refusal.place), (13, 48));
    let padded = twin_with(image.as_bytes(), 47, 2);
    let refusal = Image::from_bytes(padded).unwrap_err();
    assert_eq!((refusal.number, refusal.place), (13, 47));
}

/// The slash of a stored sheet becomes a comma.
#[cfg(vinzagew_library)]
#[test]
fn the_wrapper_writes_a_patched_sheet() {
    let sheet = sheet_d().padded(2).unwrap();
    let mut stored = sheet.to_bytes();
    let image = write(&stored).unwrap();
    assert_eq!(image, write(sheet_d().as_bytes()).unwrap());
    assert_eq!(image.run(b"12/7"), Ok(3));
    for place in class_places(&sheet, 1) {
        patch(&mut stored, place, b','.into()).unwrap();
    }
    assert_eq!(check(&stored), Ok(()));
    assert_eq!(write(&stored).unwrap().run(b"12,7"), Ok(3));
    assert_eq!(write(&stored).unwrap().run(b"12/7").unwrap_err().number, 14);
}

/// A variable that is not guarded, found by its place.
#[cfg(vinzagew_library)]
#[test]
fn a_refusal_leads_back_to_its_part() {
    let sheet = builder().finish(Expression::fix(|own| own)).unwrap();
    let refusal = check(sheet.as_bytes()).unwrap_err();
    assert_eq!(
        refusal.to_string(),
        "refused with 8 at place 21 of the sheet: Is the variable guarded? No"
    );
    assert_eq!(
        sheet.locate(refusal.place).to_string(),
        "expression node 1: x0"
    );
}
