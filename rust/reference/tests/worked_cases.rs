//! The contract's worked cases, and those of requests 1 to 8 of document 02: no random ones.

use vinzagew_reference::image::Image;
use vinzagew_reference::normal_form::{productions, Production};
use vinzagew_reference::number::write_padded;
use vinzagew_reference::sheet::Sheet;
use vinzagew_reference::table::{NO_WINNER, TABLE_ENTRIES, WINNER_ENTRIES};
use vinzagew_reference::types::{check_by, least_types, Type};
use vinzagew_reference::{
    answer, check, recognise, run, run_table, stack_length, write, Ran, Refusal, Table, Written,
};

/// Sheet D's bytes before its expression.
const RULES: [u8; 20] = [
    1, 2, 3, 1, 2, 1, 48, 57, 4, 1, 48, 57, 2, 1, 47, 47, 0, 1, 32, 32,
];
/// Sheet D's expression.
const EXPRESSION: [u8; 14] = [3, 2, 0, 5, 4, 0, 3, 2, 1, 3, 2, 0, 6, 0];
/// Sheet D's image.
const IMAGE: [u8; 48] = [
    1, 3, 0, 1, 0, 4, 47, 47, 0, 1, 0, 32, 32, 1, 1, 0, 48, 57, 2, 1, 8, 48, 57, 2, 1, 8, 7, 4, 0,
    1, 2, 1, 1, 1, 1, 0, 1, 2, 0, 1, 2, 1, 3, 1, 1, 0, 1, 2,
];

fn with_rules(expression: &[u8]) -> Vec<u8> {
    [&RULES[..], expression].concat()
}

/// The verdict of checking: number and place, both 0 if the sheet passes.
fn verdict(sheet: &[u8]) -> (u64, usize) {
    match check(sheet, &mut vec![0xa5; 65_536]) {
        Ok(_) => (0, 0),
        Err(Refusal { number, place }) => (number, place),
    }
}

/// What writing returns into a long buffer, which is what checking says, and the image.
fn written(sheet: &[u8]) -> (Written, Vec<u8>) {
    let mut image = vec![0xa5; 65_536];
    let result = write(sheet, &mut vec![0xa5; 65_536], &mut image);
    assert_eq!(verdict(sheet), (result.number, result.place));
    image.truncate(if result.number == 0 { result.length } else { 0 });
    (result, image)
}

fn read(sheet: &[u8], text: &[u8]) -> (u64, usize, usize) {
    let (result, image) = written(sheet);
    assert_eq!(result.number, 0);
    let ran = run(&image, text, &mut vec![0xa5; stack_length(text.len())]);
    assert_eq!(answer(&Sheet::read(sheet).unwrap(), text), ran);
    (ran.number, ran.place, ran.tokens)
}

fn refusal(expression: &[u8]) -> (u64, usize) {
    let (result, _) = written(&with_rules(expression));
    assert_eq!(result.length, 0);
    (result.number, result.place)
}

#[test]
fn sheet_d_and_its_readings() {
    let sheet = with_rules(&EXPRESSION);
    assert_eq!(written(&sheet).1, IMAGE);
    assert_eq!(read(&sheet, b"12 /7"), (0, 5, 3));
    assert_eq!(read(&sheet, b"12/7"), (0, 4, 3));
    assert_eq!(read(&sheet, b""), (16, 0, 0));
    assert_eq!(read(&sheet, b"12/"), (16, 3, 2));
    assert_eq!(read(&sheet, b"12//7"), (15, 3, 2));
    assert_eq!(read(&sheet, b"12h"), (14, 2, 1));
    assert_eq!(read(&sheet, b"12 7"), (15, 3, 1));
    assert_eq!(read(&sheet, b" "), (16, 1, 0));
}

#[test]
fn other_expressions() {
    assert_eq!(refusal(&[4, 2, 0, 2, 0]), (10, 20));
    assert_eq!(refusal(&[3, 4, 0, 2, 0, 2, 1]), (9, 20));
    assert_eq!(refusal(&[5, 6, 0]), (8, 21));
    assert_eq!(refusal(&[5, 4, 6, 0, 4, 2, 0, 2, 0]), (10, 21));
    let ends_in = |token| [3, 3, 2, 1, 5, 4, 0, 3, 2, 0, 6, 0, 2, token];
    assert_eq!(refusal(&ends_in(0)), (9, 20));
    assert_eq!(written(&with_rules(&ends_in(1))).0.number, 0);
}

/// Request 1 of document 02: tag 7.
#[test]
fn repetitions_and_their_readings() {
    // N·(S·N)*
    let sheet = with_rules(&[3, 2, 0, 7, 3, 2, 1, 2, 0]);
    let rows = [3, 0, 1, 2, 1, 1, 1, 1, 0, 2, 2, 1, 0, 1, 2, 0];
    assert_eq!(written(&sheet).1, [&IMAGE[..27], &rows].concat());
    assert_eq!(read(&sheet, b"12/7"), (0, 4, 3));
    assert_eq!(read(&sheet, b"12//7"), (15, 3, 2));
    assert_eq!(read(&sheet, b"12/"), (16, 3, 2));

    // (N)*, whose tail is the start
    let sheet = with_rules(&[7, 2, 0]);
    let rows = [1, 1, 1, 2, 1, 0];
    assert_eq!(written(&sheet).1, [&IMAGE[..27], &rows].concat());
    assert_eq!(read(&sheet, b""), (0, 0, 0));
    assert_eq!(read(&sheet, b"1 2 3"), (0, 5, 3));
    assert_eq!(read(&sheet, b"1 2/"), (15, 3, 2));

    // (⊥)*
    let sheet = with_rules(&[7, 1]);
    assert_eq!(written(&sheet).1, [&IMAGE[..27], &[1, 1, 0]].concat());
    assert_eq!(read(&sheet, b" "), (0, 1, 0));
    assert_eq!(read(&sheet, b"1"), (15, 0, 0));

    // N·(⊥)*: the repetition derives the empty sequence, so the production of N stays
    let sheet = with_rules(&[3, 2, 0, 7, 1]);
    let rows = [2, 0, 1, 2, 1, 1, 1, 0];
    assert_eq!(written(&sheet).1, [&IMAGE[..27], &rows].concat());
    assert_eq!(read(&sheet, b"1"), (0, 1, 1));
}

#[test]
fn repetitions_that_are_refused() {
    // (ε)*, (ε ∨ N)*, ((N)*)*, (N·(N)*)*
    assert_eq!(refusal(&[7, 0]), (9, 20));
    assert_eq!(refusal(&[7, 4, 0, 2, 0]), (9, 20));
    assert_eq!(refusal(&[7, 7, 2, 0]), (9, 20));
    assert_eq!(refusal(&[7, 3, 2, 0, 7, 2, 0]), (9, 20));
    // (N·(S)*)·S, (N ∨ N)*, μα.(α)*, μα.N·(S·α)*
    assert_eq!(refusal(&[3, 3, 2, 0, 7, 2, 1, 2, 1]), (9, 20));
    assert_eq!(refusal(&[7, 4, 2, 0, 2, 0]), (10, 21));
    assert_eq!(refusal(&[5, 7, 6, 0]), (9, 21));
    assert_eq!(refusal(&[5, 3, 2, 0, 7, 3, 2, 1, 6, 0]), (9, 24));
    // A repetition without its part, and a tag that is none.
    assert_eq!(refusal(&[7]), (3, 21));
    assert_eq!(refusal(&[8]), (4, 20));
}

/// Brackets, μα.N·(S ∨ (α·(α)*)·S): the variable in the repetition counts past it.
#[test]
fn a_repetition_is_no_fixed_point_in_the_count() {
    let brackets = |count| [5, 3, 2, 0, 4, 2, 1, 3, 3, 6, 0, 7, 6, count, 2, 1];
    let sheet = with_rules(&brackets(0));
    assert_eq!(read(&sheet, b"1 1/1 1///"), (0, 10, 8));
    assert_eq!(read(&sheet, b"1 1/1 1//"), (16, 9, 7));
    assert_eq!(read(&sheet, b"1 1//1"), (15, 5, 4));
    assert_eq!(refusal(&brackets(1)), (4, 33));
}

#[test]
fn an_expression_that_denotes_nothing() {
    let (result, image) = written(&with_rules(&[5, 3, 2, 0, 6, 0]));
    assert_eq!(result.number, 0);
    assert_eq!(image[27..], [1, 0, 0]);
}

#[test]
fn limits() {
    let sequence = |pairs: usize| {
        let mut expression = [3, 2, 0].repeat(pairs);
        expression.extend([5, 2, 0]);
        expression
    };
    // Each pair is two nodes, and the end two more.
    assert_eq!(written(&with_rules(&sequence(31))).0.number, 0);
    assert_eq!(refusal(&sequence(32)), (5, 20 + 32 * 3));
    let repetition = |pairs: usize| [&[7], &[3, 2, 0].repeat(pairs)[..], &[2, 0]].concat();
    assert_eq!(written(&with_rules(&repetition(31))).0.number, 0);
    assert_eq!(refusal(&repetition(32)), (5, 20 + 1 + 31 * 3 + 1));

    let sheet = with_rules(&EXPRESSION);
    let mut image = [0xa5; 47];
    let result = write(&sheet, &mut [0xa5; 65_536], &mut image);
    assert_eq!((result.number, result.place, result.length), (11, 0, 48));
    assert_eq!(image, [0xa5; 47]);
    assert_eq!(verdict(&sheet), (0, 0));
    let refused = Ran {
        number: 17,
        place: 0,
        tokens: 0,
    };
    assert_eq!(run(&IMAGE, b"12/7", &mut []), refused);
}

/// The sheet with each of its numbers, which all have one byte, in so many bytes.
fn padded(sheet: &[u8], width: usize) -> Vec<u8> {
    let mut padded = Vec::new();
    for &byte in sheet {
        write_padded(&mut padded, byte.into(), width);
    }
    padded
}

/// The bytes with others for the one at a place.
fn replaced(bytes: &[u8], place: usize, others: &[u8]) -> Vec<u8> {
    [&bytes[..place], others, &bytes[place + 1..]].concat()
}

/// Ten groups, all empty but for the lowest and the tenth.
fn ten_groups(lowest: u8, tenth: u8) -> [u8; 10] {
    [0x80 | lowest, 128, 128, 128, 128, 128, 128, 128, 128, tenth]
}

/// Request 3 of document 02: hexadecimal 80 00 is zero in a sheet, and 13 in an image.
#[test]
fn padded_zero_in_a_sheet_and_in_an_image() {
    let sheet = with_rules(&EXPRESSION);
    // The action of the rule that skips, the token N, ε, and how far the variable counts.
    for place in [16, 22, 25, 33] {
        assert_eq!(sheet[place], 0);
        let twin = replaced(&sheet, place, &[0x80, 0x00]);
        assert_eq!(written(&twin).1, IMAGE);
        assert_eq!(read(&twin, b"12 /7"), (0, 5, 3));
    }
    // As the version it is read, and zero is not allowed.
    assert_eq!(verdict(&[0x80, 0x00]), (4, 0));
    // In an image no number may be padded, zero or not.
    for (place, byte) in IMAGE.into_iter().enumerate() {
        let image = replaced(&IMAGE, place, &[0x80 | byte, 0x00]);
        let mut stack = [0xa5; 32];
        let ran = run(&image, b"7", &mut stack);
        assert_eq!((ran.number, ran.place, ran.tokens), (13, place, 0));
        assert_eq!(stack, [0xa5; 32]);
    }
}

#[test]
fn a_padded_twin_has_the_same_image() {
    let sheet = with_rules(&EXPRESSION);
    for width in 1..=10 {
        let twin = padded(&sheet, width);
        assert_eq!(twin.len(), 34 * width);
        assert_eq!(written(&twin).1, IMAGE);
        assert_eq!(read(&twin, b"12//7"), (15, 3, 2));
        // No number of an image may be padded, the version first of all.
        let ran = run(&padded(&IMAGE, width), b"7", &mut [0xa5; 32]);
        let expected = if width == 1 { (0, 1) } else { (13, 0) };
        assert_eq!((ran.number, ran.place), expected);
    }
}

/// Places are byte places of the padded sheet.
#[test]
fn a_padded_twin_is_refused_at_the_same_number() {
    for (expression, number, place) in [
        (&[4, 2, 0, 2, 0][..], 10, 20),
        (&[3, 4, 0, 2, 0, 2, 1], 9, 20),
        (&[5, 6, 0], 8, 21),
        (&[2, 0, 0], 6, 22),
        (&[2, 2], 4, 21),
        (&[3, 2, 0], 3, 23),
    ] {
        assert_eq!(refusal(expression), (number, place));
        for width in 1..=10 {
            let twin = padded(&with_rules(expression), width);
            assert_eq!(verdict(&twin), (number, place * width));
            assert_eq!(written(&twin).0.length, 0);
        }
    }
    assert_eq!(verdict(&padded(&[1, 1, 1, 0, 0, 2, 0], 3)), (7, 9));
    let many = padded(&with_rules(&[5; 65]), 2);
    assert_eq!(verdict(&many), (5, 2 * (20 + 64)));
}

/// Up to ten groups, and below 2^64.
#[test]
fn the_longest_numbers() {
    let sheet = with_rules(&EXPRESSION);
    for place in [0, 6, 20, 33] {
        let with = |bytes: &[u8]| replaced(&sheet, place, bytes);
        assert_eq!(written(&with(&ten_groups(sheet[place], 0))).1, IMAGE);
        // The tenth group's lowest bit is 2^63: a number, but not allowed in any field.
        assert_eq!(verdict(&with(&ten_groups(sheet[place], 1))), (4, place));
        assert_eq!(verdict(&with(&ten_groups(sheet[place], 2))), (3, place));
        let eleven = [&ten_groups(sheet[place], 0x80)[..], &[0]].concat();
        assert_eq!(verdict(&with(&eleven)), (3, place));
    }
    // Cut off: the last number has no last byte.
    for groups in 1..=12 {
        let cut = [&sheet[..33], &vec![0x80; groups]].concat();
        assert_eq!(verdict(&cut), (3, 33));
    }
}

/// The largest sheet that passes has 515 numbers; in ten bytes each it is too long.
#[test]
fn padded_sheets_keep_the_limit() {
    // 32 rules of eight regex nodes and two classes: a·(((b ∨ ε) ∨ ε))*.
    let rule = [1, 2, 1, 97, 97, 4, 3, 3, 1, 98, 98, 0, 0];
    // A repetition of 32 tokens in a row.
    let expression = [&[7], &[3, 2, 0].repeat(31)[..], &[2, 0]].concat();
    let sheet = [&[1, 1, 32], &rule.repeat(32)[..], &expression].concat();
    assert_eq!(sheet.len(), 515);
    let (result, image) = written(&sheet);
    assert_eq!(result.number, 0);
    for width in [2, 7] {
        assert_eq!(written(&padded(&sheet, width)).1, image);
    }
    for width in [8, 10] {
        assert_eq!(verdict(&padded(&sheet, width)), (2, 0));
    }
    // 491 numbers of eight bytes and 24 of seven are 4,096 bytes.
    let bytes = |eights| [padded(&sheet[..eights], 8), padded(&sheet[eights..], 7)].concat();
    assert_eq!(bytes(491).len(), 4_096);
    assert_eq!(written(&bytes(491)).1, image);
    assert_eq!(verdict(&bytes(492)), (2, 0));
}

/// Both leave the work area alike, on every outcome; neither trusts what was done before.
#[test]
fn checking_and_writing_share_a_work_area() {
    let good = with_rules(&EXPRESSION);
    let bad = with_rules(&[4, 2, 0, 2, 0]);
    let mut work = vec![0xa5; 65_540];
    let left = |work: &[u8]| {
        assert!(work[..65_536].iter().all(|&byte| byte == 0));
        assert_eq!(work[65_536..], [0xa5; 4]);
    };
    assert!(check(&good, &mut work).is_ok());
    left(&work);
    let mut image = [0xa5; 48];
    let result = write(&bad, &mut work, &mut image);
    assert_eq!((result.number, result.place, result.length), (10, 20, 0));
    assert_eq!(image, [0xa5; 48]);
    left(&work);
    assert!(check(&bad, &mut work).is_err());
    left(&work);
    assert_eq!(write(&good, &mut work, &mut image).number, 0);
    assert_eq!(image, IMAGE);
    left(&work);

    let mut short = vec![0xa5; 65_535];
    let refusal = check(&good, &mut short).unwrap_err();
    assert_eq!((refusal.number, refusal.place), (1, 0));
    assert_eq!(write(&good, &mut short, &mut image).number, 1);
    assert_eq!(short, [0xa5; 65_535]);
}

#[test]
fn the_longest_match_is_over_all_rules() {
    let sheet = [
        1, 3, 3, 1, 1, 97, 97, 2, 2, 1, 97, 97, 1, 98, 98, 3, 1, 98, 98, 3, 2, 0, 2, 2,
    ];
    assert_eq!(read(&sheet, b"ab"), (15, 0, 0));
}

#[test]
fn tails_that_lead_nowhere_are_dropped() {
    // N·⊥ ∨ S: N begins no sequence.
    assert_eq!(read(&with_rules(&[4, 3, 2, 0, 1, 2, 1]), b"1/"), (15, 0, 0));
}

/// A follow-last set that comes from the left part of a sequence with a nullable right part.
#[test]
fn follow_last_of_the_left_part_counts() {
    // Tokens A, B, C; ((A·(ε ∨ B))·(ε ∨ C))·B is not separable, and with A last it is.
    let rules = [
        1, 3, 3, 1, 1, 97, 97, 2, 1, 98, 98, 3, 1, 99, 99, 3, 3, 3, 2, 0, 4, 0, 2, 1, 4, 0, 2, 2, 2,
    ];
    let sheet = |last| [&rules[..], &[last]].concat();
    let (result, _) = written(&sheet(1));
    assert_eq!((result.number, result.place), (9, 15));
    assert_eq!(written(&sheet(0)).0.number, 0);
    assert_eq!(read(&sheet(0), b"abca"), (0, 4, 4));
}

/// A sheet of these rules.
fn sheet_of(tokens: u8, rules: &[&[u8]], expression: &[u8]) -> Vec<u8> {
    let counts = [1, tokens, rules.len() as u8];
    [&counts[..], &rules.concat(), expression].concat()
}

/// The token that a text of one lexeme is read as. With another token as its expression the sheet refuses
/// the text at its start.
fn token_of(tokens: u8, rules: &[&[u8]], text: &[u8]) -> u8 {
    let accepts = |token: &u8| {
        let found = read(&sheet_of(tokens, rules, &[2, *token]), text);
        assert!([(0, text.len(), 1), (15, 0, 0)].contains(&found));
        found.0 == 0
    };
    let accepting: Vec<u8> = (0..tokens).filter(accepts).collect();
    assert_eq!(accepting.len(), 1);
    accepting[0]
}

/// Whether a rule with this regex is a word rule.
fn is_word(regex: &[u8]) -> bool {
    let rule = [&[1], regex].concat();
    let sheet = sheet_of(1, &[&rule], &[2, 0]);
    Sheet::read(&sheet).unwrap().rules[0].regex.is_word()
}

/// A rule for names, which gives token 0.
const NAME: [u8; 9] = [1, 2, 1, 97, 122, 4, 1, 97, 122];
/// A rule for the word `if`, which gives token 1.
const IF: [u8; 8] = [2, 2, 1, 105, 105, 1, 102, 102];
/// A rule that skips a blank.
const BLANK: [u8; 4] = [0, 1, 32, 32];

/// Request 4 of document 02: a word below a name pattern is read as the word.
#[test]
fn a_name_above_a_word() {
    let rules = [&NAME[..], &IF, &BLANK];
    assert_eq!(token_of(2, &rules, b"if"), 1);
    assert_eq!(token_of(2, &rules, b"iffy"), 0);
    assert_eq!(token_of(2, &rules, b"i"), 0);
    assert_eq!(token_of(2, &rules, b"fi"), 0);
    // The word first, then a name.
    let sheet = sheet_of(2, &rules, &[3, 2, 1, 2, 0]);
    assert_eq!(read(&sheet, b"if iffy"), (0, 7, 2));
    assert_eq!(read(&sheet, b"if if"), (15, 3, 1));
    assert_eq!(read(&sheet, b"ifif"), (15, 0, 0));
    assert_eq!(read(&sheet, b"iffy if"), (15, 0, 0));
    assert_eq!(read(&sheet, b"if"), (16, 2, 1));
    // The word is rule 0, the blank rule 1 and the name rule 2; positions and productions follow.
    let image = [
        1, 3, 0, 1, 0, 5, 105, 105, 0, 0, 2, 102, 102, 0, 1, 0, 32, 32, 1, 1, 0, 97, 122, 2, 1, 16,
        97, 122, 2, 1, 16, 13, 2, 0, 1, 0, 1, 1, 0, 1, 2, 0,
    ];
    assert_eq!(written(&sheet).1, image);
    // With the rules in this order by hand, the image and the readings are the same.
    let by_hand = [&IF[..], &BLANK, &NAME];
    assert_eq!(written(&sheet_of(2, &by_hand, &[3, 2, 1, 2, 0])).1, image);
    assert_eq!(token_of(2, &by_hand, b"if"), 1);
    assert_eq!(token_of(2, &by_hand, b"iffy"), 0);
}

#[test]
fn word_rules() {
    let (a, b) = ([1, 97, 97], [1, 98, 98]);
    let joined = |tag: u8, one: &[u8], other: &[u8]| [&[tag], one, other].concat();
    assert!(is_word(&a));
    assert!(is_word(&[0]));
    assert!(is_word(&[1, 0, 0]));
    assert!(is_word(&joined(2, &a, &b)));
    // An empty word on either side, and in the middle.
    assert!(is_word(&joined(2, &[0], &a)));
    assert!(is_word(&joined(2, &joined(2, &a, &[0]), &b)));
    assert!(!is_word(&[1, 97, 98]));
    assert!(!is_word(&[1, 0, 127]));
    assert!(!is_word(&joined(2, &a, &[1, 97, 98])));
    assert!(!is_word(&joined(2, &[1, 97, 98], &a)));
    // Neither a star nor an alternative, whatever it matches.
    assert!(!is_word(&joined(3, &a, &b)));
    assert!(!is_word(&joined(3, &a, &a)));
    assert!(!is_word(&joined(3, &[0], &[0])));
    assert!(!is_word(&joined(2, &a, &joined(3, &[0], &[0]))));
    assert!(!is_word(&[&[4], &a[..]].concat()));
    assert!(!is_word(&joined(2, &[4, 0], &a)));
    assert!(!is_word(&joined(2, &a, &[4, 0])));
}

/// Of two equally long matches a word rule wins over any other.
#[test]
fn a_word_wins_over_any_other() {
    let word = [2, 1, 97, 97];
    let alternative_of_equals = [1, 3, 1, 97, 97, 1, 97, 97];
    let alternative = [1, 3, 1, 98, 98, 1, 97, 97];
    let class = [1, 1, 97, 98];
    let star_of_nothing = [1, 2, 4, 0, 1, 97, 97];
    let stars = [1, 2, 1, 97, 97, 4, 1, 97, 97];
    for other in [
        &alternative_of_equals[..],
        &alternative,
        &class,
        &star_of_nothing,
        &stars,
    ] {
        assert_eq!(token_of(2, &[other, &word], b"a"), 1);
        assert_eq!(token_of(2, &[&word, other], b"a"), 1);
    }
    // An empty word keeps a word a word.
    assert_eq!(token_of(2, &[&class, &[2, 2, 0, 1, 97, 97]], b"a"), 1);
    let in_the_middle = [2, 2, 1, 97, 97, 2, 0, 1, 98, 98];
    assert_eq!(token_of(2, &[&NAME, &in_the_middle], b"ab"), 1);
    // A longer match wins over a word, and where the word does not match it is not in the way.
    assert_eq!(token_of(2, &[&stars, &word], b"aa"), 0);
    assert_eq!(token_of(2, &[&class, &word], b"b"), 0);
}

/// Of two of a kind the lower wins.
#[test]
fn the_lower_of_two_of_a_kind_wins() {
    // Two words of equal text, one with an empty word in it.
    let (plain, with_empty) = ([1, 1, 97, 97], [2, 2, 0, 1, 97, 97]);
    assert_eq!(token_of(2, &[&plain, &with_empty], b"a"), 0);
    assert_eq!(token_of(2, &[&with_empty, &plain], b"a"), 1);
    let pattern = [3, 1, 97, 98];
    assert_eq!(token_of(3, &[&pattern, &with_empty, &plain], b"a"), 1);
    // Two patterns.
    let (narrow, wide) = ([1, 1, 97, 98], [2, 1, 97, 99]);
    assert_eq!(token_of(2, &[&narrow, &wide], b"a"), 0);
    assert_eq!(token_of(2, &[&wide, &narrow], b"a"), 1);
    assert_eq!(token_of(2, &[&narrow, &wide], b"c"), 1);
}

/// The action plays no part: a rule that skips may be a word rule, and it may lose to one.
#[test]
fn a_skipped_word_and_a_pattern() {
    // Any number of names; the word `if` is skipped.
    let skipped_if = [&[0], &IF[1..]].concat();
    let sheet = sheet_of(1, &[&NAME, &skipped_if, &BLANK], &[7, 2, 0]);
    assert_eq!(read(&sheet, b"if"), (0, 2, 0));
    assert_eq!(read(&sheet, b"iffy if fi"), (0, 10, 2));
    // Names are skipped; the word `if` is a token.
    let skipped_name = [&[0], &NAME[1..]].concat();
    let sheet = sheet_of(2, &[&skipped_name, &IF, &BLANK], &[7, 2, 1]);
    assert_eq!(read(&sheet, b"iffy if fi if"), (0, 13, 2));
    // Of two skipped words and a token of equal text, the lowest word wins.
    let sheet = sheet_of(2, &[&NAME, &skipped_if, &IF], &[7, 2, 1]);
    assert_eq!(read(&sheet, b"if"), (0, 2, 0));
    let sheet = sheet_of(2, &[&NAME, &IF, &skipped_if], &[7, 2, 1]);
    assert_eq!(read(&sheet, b"if"), (0, 2, 1));
}

/// Words and patterns in turn: each kind keeps its order.
#[test]
fn each_kind_keeps_its_order() {
    let rules = [
        &[1, 1, 97, 98][..],
        &[2, 1, 97, 97],
        &[0, 2, 1, 97, 99, 1, 97, 99],
        &[0, 2, 1, 99, 99, 1, 99, 99],
        &[3, 1, 97, 99],
        &[4, 1, 97, 97],
    ];
    // Any number of A ∨ (B ∨ (C ∨ D)·B).
    let expression = [7, 4, 2, 0, 4, 2, 1, 3, 4, 2, 2, 2, 3, 2, 1];
    let sheet = sheet_of(4, &rules, &expression);
    // The rules 1, 3, 5, then 0, 2, 4 of the sheet.
    let lexer = [
        1, 6, 0, 1, 0, 0, 1, 0, 8, 97, 97, 0, 1, 0, 99, 99, 1, 0, 4, 99, 99, 1, 1, 0, 97, 97, 2, 1,
        0, 97, 98, 3, 1, 0, 97, 99, 4, 0, 64, 97, 99, 4, 1, 0, 97, 99, 5, 1, 0,
    ];
    // Positions 0, 1, 3, 4, 5 and 7 begin a match, in two bytes. B, D, A and C are the rules 0, 2, 3, 5.
    let rows = [
        187, 1, 2, 1, 4, 0, 1, 0, 2, 2, 1, 0, 3, 1, 0, 5, 2, 1, 0, 0, 1, 0, 0,
    ];
    assert_eq!(written(&sheet).1, [&lexer[..], &rows].concat());
    assert_eq!(token_of(4, &rules, b"a"), 1);
    assert_eq!(token_of(4, &rules, b"b"), 0);
    assert_eq!(token_of(4, &rules, b"c"), 2);
    // Both `cc` and the pattern above it skip; `ab` is only of the pattern.
    assert_eq!(read(&sheet, b"ccb"), (0, 3, 1));
    assert_eq!(read(&sheet, b"abcca"), (0, 5, 1));
}

/// Where no pattern stands above a word the rules keep their numbers; otherwise the skip flags show the new
/// ones.
#[test]
fn rules_that_keep_their_numbers_and_others() {
    let skips = |rules: &[&[u8]]| written(&sheet_of(1, rules, &[0])).1[2..][..rules.len()].to_vec();
    let (word, skipped_word) = ([1, 1, 97, 97], [0, 1, 98, 98]);
    let (pattern, skipped_pattern) = ([1, 1, 97, 98], [0, 1, 98, 99]);
    assert_eq!(skips(&[&word, &skipped_word, &word]), [0, 1, 0]);
    assert_eq!(skips(&[&pattern, &skipped_pattern, &pattern]), [0, 1, 0]);
    assert_eq!(
        skips(&[&skipped_word, &pattern, &skipped_pattern]),
        [1, 0, 1]
    );
    assert_eq!(skips(&[&pattern, &skipped_pattern, &word]), [0, 0, 1]);
    assert_eq!(skips(&[&pattern, &skipped_word, &word]), [1, 0, 0]);
}

/// Question 7 is put rule by rule in the sheet's order, whatever the kinds.
#[test]
fn the_empty_word_in_sheet_order() {
    let verdict = |rules: &[&[u8]]| verdict(&sheet_of(1, rules, &[2, 0]));
    let (pattern, bad_pattern) = ([1, 1, 97, 98], [1, 4, 1, 97, 97]);
    let (word, bad_word) = ([1, 1, 97, 97], [1, 2, 0, 0]);
    assert_eq!(verdict(&[&bad_pattern, &bad_word]), (7, 3));
    assert_eq!(verdict(&[&bad_word, &bad_pattern]), (7, 3));
    assert_eq!(verdict(&[&pattern, &bad_pattern, &word, &bad_word]), (7, 7));
    assert_eq!(verdict(&[&pattern, &bad_word, &word, &bad_pattern]), (7, 7));
    // Questions 8 to 10 come after it, at the expression's own places.
    let sheet = sheet_of(1, &[&pattern, &bad_word], &[4, 2, 0, 2, 0]);
    assert_eq!(self::verdict(&sheet), (7, 7));
    let sheet = sheet_of(1, &[&pattern, &word], &[4, 2, 0, 2, 0]);
    assert_eq!(self::verdict(&sheet), (10, 11));
}

/// The table of an image, if it has at most 256 rows.
fn table_of(image: &[u8]) -> Option<Table> {
    Table::of(&Image::read(image).unwrap())
}

/// Request 6 of document 02: row 0 is the start, row 1 the empty set. The image's rules are the slash, the blank and
/// the number, and the blank is the lowest byte.
#[test]
fn the_table_of_sheet_d() {
    let table = table_of(&IMAGE).unwrap();
    assert_eq!(table.rows(), 6);
    assert_eq!(table.winners, [32, 32, 1, 0, 2, 2]);
    for byte in 0..=255 {
        let column = (0..6).map(|row| table.entries[256 * row + usize::from(byte)]);
        let expected = match byte {
            b' ' => [2, 1, 1, 1, 1, 1],
            b'/' => [3, 1, 1, 1, 1, 1],
            b'0'..=b'9' => [4, 1, 1, 1, 5, 5],
            _ => [1; 6],
        };
        assert_eq!(column.collect::<Vec<u16>>(), expected, "byte {byte}");
    }
    assert_eq!(table.longest_match(b"12 /7"), Some((2, 2)));
    assert_eq!(table.longest_match(b" /7"), Some((1, 1)));
    assert_eq!(table.longest_match(b"/7"), Some((0, 1)));
    assert_eq!(table.longest_match(b"h"), None);
    assert_eq!(table.longest_match(b""), None);
}

/// What the lent buffers hold after a run of sheet D's image.
#[test]
fn the_lent_buffers_of_sheet_d() {
    let own = table_of(&IMAGE).unwrap();
    for (text, room, answer) in [
        (&b"12 /7"[..], 156, (0, 5, 3)),
        (b"12h", 94, (14, 2, 1)),
        (b"12//7", 156, (15, 3, 2)),
        (b"12/", 94, (16, 3, 2)),
        (b"12", 0, (17, 0, 0)),
    ] {
        let mut table = vec![777; TABLE_ENTRIES + 1];
        let mut winners = vec![778; WINNER_ENTRIES + 1];
        let mut stack = vec![0xa5; room];
        let ran = run_table(&IMAGE, text, &mut table, &mut winners, &mut stack);
        assert_eq!((ran.number, ran.place, ran.tokens), answer);
        assert_eq!(table[..6 * 256], own.entries);
        assert!(table[6 * 256..].iter().all(|&entry| entry == 777));
        assert_eq!(winners[..6], own.winners);
        assert!(winners[6..].iter().all(|&entry| entry == 778));
        assert!(stack.iter().all(|&entry| entry == 0));
    }
}

/// A run with a table that is refused with this number and place before anything is written.
fn refused_untouched(image: &[u8], text: &[u8], lengths: [usize; 2], refusal: (u64, usize)) {
    let mut table = vec![777; lengths[0]];
    let mut winners = vec![778; lengths[1]];
    let mut stack = [0xa5; 3];
    let ran = run_table(image, text, &mut table, &mut winners, &mut stack);
    assert_eq!(
        (ran.number, ran.place, ran.tokens),
        (refusal.0, refusal.1, 0)
    );
    assert!(table.iter().all(|&entry| entry == 777));
    assert!(winners.iter().all(|&entry| entry == 778));
    assert_eq!(stack, [0xa5; 3]);
}

/// The image of (a|b)*a(a|b)^`count`, which is the word of the only token.
fn image_of_many_rows(count: usize) -> Vec<u8> {
    let either = [3, 1, 97, 97, 1, 98, 98];
    let more = [&[2][..], &either].concat().repeat(count - 1);
    let rule = [&[1, 2, 4][..], &either, &[2, 1, 97, 97], &more, &either].concat();
    written(&sheet_of(1, &[&rule], &[2, 0])).1
}

/// The order is 18, 12, 13, 19. All four leave the stack and both buffers untouched.
#[test]
fn questions_18_and_19() {
    let long = vec![b'7'; 1_048_577];
    let many = image_of_many_rows(7);
    let enough = [TABLE_ENTRIES, WINNER_ENTRIES];
    for short in [[65_535, 256], [65_536, 255], [0, 0]] {
        refused_untouched(&IMAGE, b"12", short, (18, 0));
        refused_untouched(&IMAGE, &long, short, (18, 0));
        refused_untouched(&[], b"12", short, (18, 0));
        refused_untouched(&many, b"12", short, (18, 0));
    }
    refused_untouched(&[], &long, enough, (12, 0));
    refused_untouched(&many, &long, enough, (12, 0));
    refused_untouched(&IMAGE[..47], b"12", enough, (13, 47));
    refused_untouched(&many[..many.len() - 1], b"12", enough, (13, many.len() - 1));
    refused_untouched(&many, b"12", enough, (19, 0));
}

/// Each of the last bytes may be an `a` or not, one byte more than the count: twice as many rows with each.
#[test]
fn rows_of_a_byte_before_the_end() {
    let rows = |count| table_of(&image_of_many_rows(count)).map(|table| table.rows());
    assert_eq!(rows(5), Some(2 + 64));
    assert_eq!(rows(6), Some(2 + 128));
    assert_eq!(rows(7), None);
}

/// An image of one rule with one position, which is last and follows itself.
fn image_of_one_position(class: &[u8], first: u8) -> Vec<u8> {
    [&[1, 1, 0, 1], class, &[0, 1, 1, first, 1, 1, 0]].concat()
}

/// Row 0 is no set: where the first set is kept, that is another row. Row 1 is there even if it is never reached,
/// and row 0 stands before it also if nothing is first.
#[test]
fn the_first_two_rows() {
    let table = |class: &[u8], first| table_of(&image_of_one_position(class, first)).unwrap();
    let one = table(&[97, 97], 1);
    assert_eq!(one.winners, [NO_WINNER, NO_WINNER, 0]);
    assert_eq!([0, 1, 2].map(|row| one.entries[256 * row + 97]), [2, 1, 2]);
    assert_eq!([0, 1, 2].map(|row| one.entries[256 * row + 98]), [1, 1, 1]);
    let all = table(&[0, 255, 1], 1);
    assert_eq!(all.winners, [NO_WINNER, NO_WINNER, 0]);
    assert_eq!(all.entries, [[2; 256], [1; 256], [2; 256]].concat());
    let none = table(&[0, 255, 1], 0);
    assert_eq!(none.winners, [NO_WINNER, NO_WINNER]);
    assert_eq!(none.entries, [1; 512]);
}

/// What the recogniser says of a text, with a list that has one byte more than need be: number,
/// place and the tokens, as many as counted.
fn recognised(sheet: &[u8], text: &[u8]) -> (u64, usize, Vec<u8>) {
    let mut work = vec![0xa5; 65_537];
    let mut list = vec![0xa5; text.len() + 1];
    let ran = recognise(sheet, text, &mut work, &mut list);
    assert!(work[..65_536].iter().all(|&byte| byte == 0));
    assert_eq!(work[65_536], 0xa5);
    assert!(list[ran.tokens..].iter().all(|&byte| byte == 0xa5));
    list.truncate(ran.tokens);
    (ran.number, ran.place, list)
}

/// Request 7 of document 02: the tokens are all written, and 14 comes before any 15.
#[test]
fn the_recogniser_and_sheet_d() {
    let sheet = with_rules(&EXPRESSION);
    for (text, number, place, tokens) in [
        (&b"12 /7"[..], 0, 5, &[0, 1, 0][..]),
        (b"12//7", 15, 3, &[0, 1, 1, 0]),
        (b"12//7h", 14, 5, &[0, 1, 1, 0]),
        (b"12 7 /", 15, 3, &[0, 0, 1]),
        (b"12/", 16, 3, &[0, 1]),
        (b"12h", 14, 2, &[0]),
        (b"", 16, 0, &[]),
    ] {
        let expected = (number, place, tokens.to_vec());
        assert_eq!(recognised(&sheet, text), expected);
        let run = read(&sheet, text);
        assert!(number == 14 || (run.0, run.1) == (number, place));
    }
}

/// A branch that denotes nothing is not entered, and a whole that denotes nothing takes no token.
#[test]
fn the_recogniser_and_branches_that_denote_nothing() {
    // N·⊥ ∨ S
    let branch = with_rules(&[4, 3, 2, 0, 1, 2, 1]);
    assert_eq!(recognised(&branch, b"1"), (15, 0, vec![0]));
    assert_eq!(recognised(&branch, b"/"), (0, 1, vec![1]));
    // μα.N·α
    let whole = with_rules(&[5, 3, 2, 0, 6, 0]);
    assert_eq!(recognised(&whole, b"1 2"), (15, 0, vec![0, 0]));
    assert_eq!(recognised(&whole, b""), (16, 0, vec![]));
}

/// The order is 1 to 10, 12, 20, 14. Up to 20 the list is untouched.
#[test]
fn questions_12_and_20() {
    let sheet = with_rules(&EXPRESSION);
    let refused = with_rules(&[4, 2, 0, 2, 0]);
    let long = [b'7'; 2_049];
    for (sheet, text, list_length, number, place) in [
        (&refused, &long[..], 0, 10, 20),
        (&refused, b"hh", 1, 10, 20),
        (&sheet, &long, 2_048, 12, 0),
        (&sheet, &long, 2_049, 12, 0),
        (&sheet, &long[1..], 2_047, 20, 0),
        (&sheet, b"hh", 1, 20, 0),
    ] {
        let mut list = vec![0xa5; list_length];
        let ran = recognise(sheet, text, &mut vec![0xa5; 65_536], &mut list);
        assert_eq!((ran.number, ran.place, ran.tokens), (number, place, 0));
        assert!(list.iter().all(|&byte| byte == 0xa5));
    }
    assert_eq!(recognised(&sheet, &long[1..]), (0, 2_048, vec![0]));
}

/// What the flap paper's types say of an expression with sheet D's rules.
fn flap_verdict(expression: &[u8]) -> (u64, usize) {
    let nodes = Sheet::read(&with_rules(expression)).unwrap().nodes;
    match check_by(&nodes, Type::flap_sequence) {
        Ok(()) => (0, 0),
        Err(Refusal { number, place }) => (number, place),
    }
}

/// Request 8 of document 02: a sequence with a part of the empty language's type has that type.
/// What the verdict was before, and what it is.
#[test]
fn unfinished_branches_and_their_verdicts() {
    for (expression, before, now) in [
        // N·⊥ ∨ N; N·(μα.N·α) ∨ N; N·⊥ ∨ N·⊥
        (&[4, 3, 2, 0, 1, 2, 0][..], (10, 20), (0, 0)),
        (&[4, 3, 2, 0, 5, 3, 2, 0, 6, 0, 2, 0], (10, 20), (0, 0)),
        (&[4, 3, 2, 0, 1, 3, 2, 0, 1], (10, 20), (0, 0)),
        // (S·(N·⊥ ∨ ε))·N
        (&[3, 3, 2, 1, 4, 3, 2, 0, 1, 0, 2, 0], (9, 20), (0, 0)),
        // ε·⊥; (N·⊥ ∨ ε)·N; ε* after a branch that is not finished
        (&[3, 0, 1], (9, 20), (9, 20)),
        (&[3, 4, 3, 2, 0, 1, 0, 2, 0], (9, 20), (9, 20)),
        (&[4, 3, 2, 0, 1, 7, 0], (9, 25), (9, 25)),
        // ⊥·N; (N·⊥)*
        (&[3, 1, 2, 0], (0, 0), (0, 0)),
        (&[7, 3, 2, 0, 1], (0, 0), (0, 0)),
        // N·⊥ ∨ (N ∨ N); N·⊥ ∨ N·μα.α
        (&[4, 3, 2, 0, 1, 4, 2, 0, 2, 0], (10, 20), (10, 25)),
        (&[4, 3, 2, 0, 1, 3, 2, 0, 5, 6, 0], (10, 20), (8, 29)),
    ] {
        assert_eq!(flap_verdict(expression), before);
        assert_eq!(verdict(&with_rules(expression)), now);
    }
}

/// The image and the readings are those of the expression without the branch.
#[test]
fn unfinished_branches_add_nothing() {
    let number = with_rules(&[2, 0]);
    for expression in [
        // N·⊥ ∨ N; N ∨ N·⊥; N·(μα.N·α) ∨ N; (N·⊥ ∨ N·⊥) ∨ N
        &[4, 3, 2, 0, 1, 2, 0][..],
        &[4, 2, 0, 3, 2, 0, 1],
        &[4, 3, 2, 0, 5, 3, 2, 0, 6, 0, 2, 0],
        &[4, 4, 3, 2, 0, 1, 3, 2, 0, 1, 2, 0],
    ] {
        let sheet = with_rules(expression);
        assert_eq!(written(&sheet).1, written(&number).1);
        assert_eq!(written(&sheet).1[27..], [1, 0, 1, 2, 0]);
        for text in [&b"1"[..], b"", b"1 2", b"/", b"1/"] {
            assert_eq!(read(&sheet, text), read(&number, text));
            assert_eq!(recognised(&sheet, text), recognised(&number, text));
        }
    }
    // (S·(N·⊥ ∨ ε))·N: the N after S is that of the last part.
    let sheet = with_rules(&[3, 3, 2, 1, 4, 3, 2, 0, 1, 0, 2, 0]);
    assert_eq!(read(&sheet, b"/1"), (0, 2, 2));
    assert_eq!(recognised(&sheet, b"/1"), (0, 2, vec![1, 0]));
    assert_eq!(read(&sheet, b"/1 1"), (15, 3, 2));
    assert_eq!(read(&sheet, b"/"), (16, 1, 1));
}

/// μα.N·μβ.(α ∨ α)·β: all nodes but N have the type of the empty language, so the two α are apart.
#[test]
fn alternatives_of_what_denotes_nothing() {
    let expression = [5, 3, 2, 0, 5, 3, 4, 6, 1, 6, 1, 6, 0];
    assert_eq!(flap_verdict(&expression), (10, 26));
    let sheet = with_rules(&expression);
    assert_eq!(written(&sheet).1[27..], [1, 0, 0]);
    let nodes = Sheet::read(&sheet).unwrap().nodes;
    let rows = [0, 3].map(|node| productions(&nodes, node));
    assert_eq!(rows[0], [Production::Token(0, vec![3])]);
    // Twice the same token with the same tail.
    let one = Production::Token(0, vec![3, 8]);
    assert_eq!(rows[1], [one.clone(), one]);
    let types = least_types(&nodes).into_iter();
    let others: Vec<bool> = types.map(|own| own != Type::BOTTOM).collect();
    assert_eq!(others, [0, 1, 2, 3, 4, 5, 6, 7, 8].map(|node| node == 2));
}
