//! The recogniser: the library against the reference, the recogniser against the machine and the
//! sheet's own answer, and what the lent buffers hold at the end.
//!
//! What comes up in the random sheets and texts is counted, by the reference's parts. What the
//! cases with names give is written down by hand.
//!
//! `VINZAGEW_SEED` sets the seed and `VINZAGEW_CASES` the number of cases of each random test. By
//! hand:
//!
//!     export VINZAGEW_SEED=7 VINZAGEW_CASES=100000
//!     cargo test --offline --release --test recognise -- --nocapture

mod common;

use common::calls::{list_length, work_length, Call};
use common::random::{for_case, seed_and_cases, Random};
use common::recognised::{full_recognise, list_pattern, recognised, short_out_changes_nothing};
use common::{
    engines, full_check, full_run, full_write, generate, hexadecimal, image_of, numbers, pattern,
    Engine, LIBRARY, REFERENCE,
};
use std::collections::BTreeMap;
use vinzagew::{stack_length, RECOGNISER_TEXT_LIMIT, SHEET_LIMIT};
use vinzagew_reference::answer;
use vinzagew_reference::answer::longest_front;
use vinzagew_reference::normal_form::derives_some;
use vinzagew_reference::recogniser::{descend, lex};
use vinzagew_reference::sheet::{Kind, Regex, Sheet};
use vinzagew_reference::types::{least_types, least_types_by, Type};

/// How many cases a random test has if `VINZAGEW_CASES` does not say. From so many on, everything
/// that is counted must come up.
const CASES: usize = 4_000;

/// A sheet, a text, and what is lent.
struct Case {
    sheet: Vec<u8>,
    text: Vec<u8>,
    work: usize,
    list: usize,
}

/// A sheet that passes checking. Many have branches that denote nothing.
fn passing_sheet(random: &mut Random) -> Vec<u8> {
    let sheet = match random.below(12) {
        0..=4 => generate::unfinished_sheet(random),
        5 | 6 => generate::overlapping_sheet(random),
        7 => generate::letter_sheet(random),
        8 if random.once_in(2) => generate::long_tailed_sheet(random),
        8 => generate::large_sheet(random),
        _ => generate::passing_sheet(random),
    };
    sheet.to_bytes()
}

/// A text for a sheet that passes: with its tokens, with what no rule matches at the end of some,
/// and as long as can be, or one byte shorter or longer.
fn text(random: &mut Random, sheet: &[u8]) -> Vec<u8> {
    let image = image_of(sheet).expect("it passes");
    let mut text = match random.below(8) {
        0 => {
            let size = random.range(600, 2_100);
            generate::long_text(random, &image, size)
        }
        1 => {
            let count = random.range(1, 6);
            generate::words(random, &image, count)
        }
        _ => generate::text(random, &image),
    };
    text.truncate(3_000);
    if random.once_in(6) {
        // Whatever these are to the sheet, after one another they are often not allowed.
        let again = text.clone();
        text.extend(again);
    }
    if random.once_in(6) {
        text.push(*random.pick(b"\x00\x07~"));
    }
    match random.below(10) {
        0 if !text.is_empty() => {
            let length = random.range(RECOGNISER_TEXT_LIMIT - 1, RECOGNISER_TEXT_LIMIT + 1);
            text.iter().copied().cycle().take(length).collect()
        }
        1 if !text.is_empty() => text.repeat(RECOGNISER_TEXT_LIMIT / text.len()),
        _ => text,
    }
}

impl Case {
    fn new(seed: u64, case: usize) -> Case {
        let random = &mut for_case(seed, case);
        let passing = passing_sheet(random);
        let text = text(random, &passing);
        // A twin may be too long.
        let sheet = match random.below(16) {
            0 => generate::damage(random, &passing),
            1 | 2 => numbers::twin(random, &passing),
            _ => passing,
        };
        Case {
            work: work_length(random),
            list: list_length(random, &text),
            sheet,
            text,
        }
    }

    fn context(&self, seed: u64, case: usize) -> String {
        format!(
            "seed {seed}, case {case}: sheet {}, text {}, {} bytes, work {}, list {}",
            hexadecimal(&self.sheet),
            hexadecimal(&self.text),
            self.text.len(),
            self.work,
            self.list
        )
    }

    fn call(&self) -> Call {
        Call::Recognise {
            sheet: self.sheet.clone(),
            text: self.text.clone(),
            work: pattern(self.work),
            list: list_pattern(self.list),
            out: vec![7; 3],
        }
    }
}

/// With both buffers, to the last byte.
#[test]
#[cfg_attr(not(vinzagew_library), ignore = "the static library was not found")]
fn library_and_reference_agree() {
    let (seed, cases) = seed_and_cases(CASES);
    for number in 0..cases {
        let case = Case::new(seed, number);
        let [found, expected] = [LIBRARY, REFERENCE].map(|engine| {
            let mut call = case.call();
            call.make(engine);
            call
        });
        let context = || case.context(seed, number);
        assert_eq!(found.out(), expected.out(), "{}", context());
        assert!(found.buffers() == expected.buffers(), "{}", context());
    }
    println!("seed {seed}, {cases} cases agree");
}

/// By an engine, the run of a sheet's image on a long enough stack.
fn machine(engine: Engine, sheet: &[u8], text: &[u8]) -> [u64; 3] {
    let (_, image) = full_write(engine, sheet, 65_536, 65_536);
    full_run(engine, &image, text, stack_length(text.len()))
}

/// The tokens of a text by the words of the rules, and the first place where none begins, if there
/// is one.
fn tokens_by_words(sheet: &Sheet, text: &[u8]) -> (Vec<u8>, Option<usize>) {
    let mut tokens = Vec::new();
    let mut place = 0;
    while place < text.len() {
        let (rule, length) = match longest_front(sheet, &text[place..]) {
            Some(found) => found,
            None => return (tokens, Some(place)),
        };
        tokens.extend(sheet.rules[rule].token.map(|token| token as u8));
        place += length;
    }
    (tokens, None)
}

/// What the recogniser must give, from the words of the rules and from another answer: that of the
/// machine or the sheet's own.
fn expected(sheet: &Sheet, text: &[u8], other: [u64; 3]) -> ([u64; 3], Vec<u8>) {
    let (tokens, unmatched) = tokens_by_words(sheet, text);
    let count = tokens.len() as u64;
    match unmatched {
        Some(place) => ([14, place as u64, count], tokens),
        None => ([other[0], other[1], count], tokens),
    }
}

/// How many nodes a regex has.
fn regex_nodes(regex: &Regex) -> usize {
    match regex {
        Regex::Empty | Regex::Class { .. } => 1,
        Regex::Star(part) => 1 + regex_nodes(part),
        Regex::Sequence(left, right) | Regex::Alternative(left, right) => {
            1 + regex_nodes(left) + regex_nodes(right)
        }
    }
}

/// Whether no regex is so deep that its words, which are found by trying, take long to find.
fn words_are_found_soon(sheet: &Sheet) -> bool {
    let mut regexes = sheet.rules.iter().map(|rule| &rule.regex);
    regexes.all(|regex| regex_nodes(regex) <= 20)
}

/// Machine, recogniser and own answer say the same of short texts, by every engine.
#[test]
fn recognised_as_run_and_as_the_own_answer() {
    let (seed, cases) = seed_and_cases(CASES);
    let mut tally = BTreeMap::new();
    for number in 0..cases {
        let mut case = Case::new(seed, number);
        // For the own answer.
        case.text.truncate(30);
        let sheet = match vinzagew_reference::check(&case.sheet, &mut vec![0; 65_536]) {
            Ok(sheet) if words_are_found_soon(&sheet) => sheet,
            _ => continue,
        };
        let own = answer(&sheet, &case.text);
        let own = [own.number, own.place as u64, own.tokens as u64];
        let expected = expected(&sheet, &case.text, own);
        for engine in engines() {
            let context = || format!("{}, {}", engine.name, case.context(seed, number));
            assert_eq!(
                machine(engine, &case.sheet, &case.text),
                own,
                "{}",
                context()
            );
            let found = recognised(engine, &case.sheet, &case.text);
            assert_eq!(found, expected, "{}", context());
        }
        *tally.entry((own[0], expected.0[0])).or_insert(0) += 1;
    }
    println!("seed {seed}, {cases} cases, own answer and recogniser: {tally:?}");
    let all = [(0, 0), (14, 14), (15, 14), (15, 15), (16, 16)];
    assert!(cases < CASES || tally.keys().eq(&all), "{tally:?}");
}

/// Where every byte is in some match, number and place are the machine's, also for long texts, by
/// every engine; and the list has the tokens that the reference finds.
#[test]
fn recognised_as_run() {
    let (seed, cases) = seed_and_cases(CASES);
    let mut tally = BTreeMap::new();
    for number in 0..cases {
        let case = Case::new(seed, number);
        let sheet = match vinzagew_reference::check(&case.sheet, &mut vec![0; 65_536]) {
            Ok(sheet) if case.text.len() <= RECOGNISER_TEXT_LIMIT => sheet,
            _ => continue,
        };
        let (tokens, unmatched) = lex(&sheet, &case.text);
        let tokens: Vec<u8> = tokens.into_iter().map(|(token, _)| token as u8).collect();
        for engine in engines() {
            let run = machine(engine, &case.sheet, &case.text);
            let (found, list) = recognised(engine, &case.sheet, &case.text);
            let context = || format!("{}, {}", engine.name, case.context(seed, number));
            let [answer, place] = match unmatched {
                Some(place) => [14, place as u64],
                None => [run[0], run[1]],
            };
            let expected = [answer, place, tokens.len() as u64];
            assert_eq!((found, &list), (expected, &tokens), "{}", context());
            *tally.entry((run[0], found[0])).or_insert(0) += 1;
        }
    }
    println!("seed {seed}, {cases} cases, machine and recogniser: {tally:?}");
    let all = [(0, 0), (14, 14), (15, 14), (15, 15), (16, 16)];
    assert!(cases < CASES || tally.keys().eq(&all), "{tally:?}");
}

/// What is counted of a case, and whether it is so here.
type Events = Vec<(&'static str, bool)>;

/// What is counted of a sheet that passes and of a text's tokens.
fn sheet_events(sheet: &Sheet, text: &[u8], number: u64) -> Events {
    let nodes = &sheet.nodes;
    let (tokens, unmatched) = lex(sheet, text);
    let tokens: Vec<u64> = tokens.into_iter().map(|(token, _)| token).collect();
    let derives_some = derives_some(nodes);
    let none = !derives_some[0];
    let some_kind = |kind: fn(&Kind) -> bool| sheet.nodes.iter().any(|node| kind(&node.kind));
    // By these types a branch that denotes nothing may have tokens in FIRST.
    let flap_types = || least_types_by(nodes, Type::flap_sequence);
    let by_flap_types = || descend(nodes, &flap_types(), &tokens);
    let entered = || by_flap_types() != descend(nodes, &least_types(nodes), &tokens);
    vec![
        ("part that denotes nothing", derives_some.contains(&false)),
        ("whole that denotes nothing, 15", none && number == 15),
        ("whole that denotes nothing, 16", none && number == 16),
        ("flap types would enter what denotes nothing", {
            !none && unmatched.is_none() && entered()
        }),
        ("variable, accepted", {
            number == 0 && some_kind(|kind| matches!(kind, Kind::Variable(_)))
        }),
        ("repetition, accepted", {
            number == 0 && some_kind(|kind| matches!(kind, Kind::Repetition(_)))
        }),
        ("fewer tokens than bytes", tokens.len() < text.len()),
        ("a token a byte", tokens.len() == text.len()),
        ("over 500 tokens, 0", tokens.len() > 500 && number == 0),
        ("over 500 tokens, 15", {
            tokens.len() > 500 && number == 15
        }),
    ]
}

/// What is counted of the answers: those of the machine, and the recogniser's.
fn answer_events(run: [u64; 3], [number, place, count]: [u64; 3]) -> Events {
    let [at_run, taken] = [run[1], run[2]];
    vec![
        ("14 after an earlier 15", {
            number == 14 && run[0] == 15 && at_run < place
        }),
        ("14 of both", number == 14 && run[0] == 14),
        ("15 at the first token", number == 15 && taken == 0),
        ("15 at the last token", number == 15 && taken + 1 == count),
        ("15 with tokens after it", {
            number == 15 && taken + 1 < count
        }),
        ("16 with no token", number == 16 && count == 0),
        ("16 with tokens", number == 16 && count > 0),
        ("0 with no token", number == 0 && count == 0),
        ("0 with tokens", number == 0 && count > 0),
    ]
}

/// What is counted of what is lent.
fn lent_events(case: &Case, [number, _, count]: [u64; 3]) -> Events {
    let (text, list) = (case.text.len(), case.list);
    let read = matches!(number, 0 | 14..=16);
    vec![
        ("list one short", number == 20 && list + 1 == text),
        ("list empty, 20", number == 20 && list == 0),
        ("list empty, read", read && list == 0),
        ("list as long as the text", read && list == text),
        ("list longer than the text", read && list > text),
        ("list longer than the tokens", read && list > count as usize),
        ("short list and 12", number == 12 && list < text),
        ("text of 2,048 bytes", read && text == 2_048),
        ("text of 2,048 bytes, 20", number == 20 && text == 2_048),
        ("text of 2,049 bytes", number == 12 && text == 2_049),
        ("sheet refused, text too long", number < 12 && text > 2_048),
        ("longer work area", read && case.work > 65_536),
    ]
}

/// The cases are of use only if all that matters comes up in them.
#[test]
fn what_matters_comes_up() {
    let (seed, cases) = seed_and_cases(CASES);
    let mut tally: BTreeMap<&'static str, usize> = BTreeMap::new();
    let mut numbers = BTreeMap::new();
    for number in 0..cases {
        let case = Case::new(seed, number);
        let (sheet, text) = (&case.sheet, &case.text);
        let (found, _) = full_recognise(REFERENCE, sheet, text, case.work, case.list);
        *numbers.entry(found[0]).or_insert(0) += 1;
        let mut events = lent_events(&case, found);
        if matches!(found[0], 0 | 14..=16) {
            events.extend(answer_events(machine(REFERENCE, sheet, text), found));
            let sheet = Sheet::read(sheet).expect("it passes");
            events.extend(sheet_events(&sheet, text, found[0]));
        }
        for (event, holds) in events {
            *tally.entry(event).or_insert(0) += usize::from(holds);
        }
    }
    println!("seed {seed}, {cases} cases: {tally:#?}\nnumbers: {numbers:?}");
    let all_came_up = tally.len() == 31 && tally.values().all(|&count| count > 0);
    assert!(cases < CASES || all_came_up, "{tally:?}");
    let needed = [0, 1, 3, 4, 12, 14, 15, 16, 20];
    let every_number = needed.iter().all(|number| numbers.contains_key(number));
    assert!(cases < CASES || every_number, "{numbers:?}");
}

/// Sheet D's bytes before its expression: N = 0, S = 1, the blank skips.
const RULES: [u8; 20] = [
    1, 2, 3, 1, 2, 1, 48, 57, 4, 1, 48, 57, 2, 1, 47, 47, 0, 1, 32, 32,
];

/// Sheet D's rules with another expression.
fn with_rules(expression: &[u8]) -> Vec<u8> {
    [&RULES[..], expression].concat()
}

fn sheet_d() -> Vec<u8> {
    with_rules(&[3, 2, 0, 5, 4, 0, 3, 2, 1, 3, 2, 0, 6, 0])
}

/// By every engine, what a sheet gives for a text: number, place, and the tokens, as many as
/// counted.
fn gives(sheet: &[u8], text: &[u8], number: u64, place: u64, tokens: &[u8]) {
    let expected = ([number, place, tokens.len() as u64], tokens.to_vec());
    for engine in engines() {
        assert_eq!(recognised(engine, sheet, text), expected, "{}", engine.name);
        let longer = full_recognise(engine, sheet, text, 65_600, text.len() + 200);
        assert_eq!(longer, expected, "{}", engine.name);
    }
}

#[test]
fn sheet_d_and_its_readings() {
    let sheet = &sheet_d();
    gives(sheet, b"12 /7", 0, 5, &[0, 1, 0]);
    gives(sheet, b"12/7", 0, 4, &[0, 1, 0]);
    gives(sheet, b"", 16, 0, &[]);
    gives(sheet, b" ", 16, 1, &[]);
    gives(sheet, b"12/", 16, 3, &[0, 1]);
    gives(sheet, b"12/ ", 16, 4, &[0, 1]);
    gives(sheet, b"12//7", 15, 3, &[0, 1, 1, 0]);
    gives(sheet, b"12 7 /", 15, 3, &[0, 0, 1]);
    gives(sheet, b"/", 15, 0, &[1]);
    gives(sheet, b"12h", 14, 2, &[0]);
    gives(sheet, b"h12", 14, 0, &[]);
    // The machine stops at 3 with 15; here the tokens are found first.
    gives(sheet, b"12//7h", 14, 5, &[0, 1, 1, 0]);
    gives(sheet, b"12//h7", 14, 4, &[0, 1, 1]);
}

/// A branch that denotes nothing is not entered.
#[test]
fn branches_that_denote_nothing() {
    // N·⊥ ∨ S
    let sheet = with_rules(&[4, 3, 2, 0, 1, 2, 1]);
    gives(&sheet, b"1", 15, 0, &[0]);
    gives(&sheet, b"1/", 15, 0, &[0, 1]);
    gives(&sheet, b"/", 0, 1, &[1]);
    gives(&sheet, b"/1", 15, 1, &[1, 0]);
    gives(&sheet, b"", 16, 0, &[]);
    // ((N·⊥) ∨ S) ∨ ε
    let sheet = with_rules(&[4, 4, 3, 2, 0, 1, 2, 1, 0]);
    gives(&sheet, b"1", 15, 0, &[0]);
    gives(&sheet, b"/", 0, 1, &[1]);
    gives(&sheet, b"", 0, 0, &[]);
    // (N·⊥ ∨ S)*
    let sheet = with_rules(&[7, 4, 3, 2, 0, 1, 2, 1]);
    gives(&sheet, b"//1/", 15, 2, &[1, 1, 0, 1]);
    gives(&sheet, b"//", 0, 2, &[1, 1]);
    // (N·⊥)*
    let sheet = with_rules(&[7, 3, 2, 0, 1]);
    gives(&sheet, b"1", 15, 0, &[0]);
    gives(&sheet, b" ", 0, 1, &[]);
    // S·(N·(μα.N·α) ∨ S): a fixed point without an end instead of ⊥.
    let sheet = with_rules(&[3, 2, 1, 4, 3, 2, 0, 5, 3, 2, 0, 6, 0, 2, 1]);
    gives(&sheet, b"/1", 15, 1, &[1, 0]);
    gives(&sheet, b"//", 0, 2, &[1, 1]);
}

/// Such a branch is not entered either if what it begins with may begin another part that could be
/// read there.
#[test]
fn branches_that_denote_nothing_and_begin_like_other_parts() {
    // N·⊥ ∨ N, and with the branch last: N alone.
    for expression in [&[4, 3, 2, 0, 1, 2, 0][..], &[4, 2, 0, 3, 2, 0, 1]] {
        let sheet = with_rules(expression);
        gives(&sheet, b"1", 0, 1, &[0]);
        gives(&sheet, b"1 1", 15, 2, &[0, 0]);
        gives(&sheet, b"/", 15, 0, &[1]);
        gives(&sheet, b"", 16, 0, &[]);
    }
    // N·(S·⊥ ∨ S·N) ∨ N·⊥
    let parts = [
        &[4, 3, 2, 0, 4, 3, 2, 1, 1, 3, 2, 1, 2, 0][..],
        &[3, 2, 0, 1],
    ];
    let sheet = with_rules(&parts.concat());
    gives(&sheet, b"1/1", 0, 3, &[0, 1, 0]);
    gives(&sheet, b"1//", 15, 2, &[0, 1, 1]);
    gives(&sheet, b"1/", 16, 2, &[0, 1]);
    // (S·(N·⊥ ∨ ε))·N: the N after S is that of the last part.
    let sheet = with_rules(&[3, 3, 2, 1, 4, 3, 2, 0, 1, 0, 2, 0]);
    gives(&sheet, b"/1", 0, 2, &[1, 0]);
    gives(&sheet, b"/1 1", 15, 3, &[1, 0, 0]);
    gives(&sheet, b"/", 16, 1, &[1]);
}

/// If the whole denotes nothing, the first token is 15, and a text without one 16.
#[test]
fn a_whole_that_denotes_nothing() {
    // μα.N·α; ⊥; S·⊥; ⊥·N
    for expression in [&[5, 3, 2, 0, 6, 0][..], &[1], &[3, 2, 1, 1], &[3, 1, 2, 0]] {
        let sheet = with_rules(expression);
        gives(&sheet, b"1 2", 15, 0, &[0, 0]);
        gives(&sheet, b" /1", 15, 1, &[1, 0]);
        gives(&sheet, b"", 16, 0, &[]);
        gives(&sheet, b"  ", 16, 2, &[]);
        gives(&sheet, b"1h", 14, 1, &[0]);
    }
}

/// Token k is byte k, whatever rule returns it: here token 23 comes from the first rule.
#[test]
fn the_list_has_the_sheets_tokens() {
    let rules = [24, 1, 97, 97, 1, 1, 98, 98, 24, 2, 1, 99, 99, 1, 99, 99];
    let sheet = [&[1, 24, 3][..], &rules, &[7, 4, 2, 23, 2, 0]].concat();
    gives(&sheet, b"abcca", 0, 5, &[23, 0, 23, 23]);
}

/// 1 to 10 come before 12, 12 before 20, and 20 before 14. Until then the list is untouched.
#[test]
fn the_questions_are_put_in_order() {
    let long = vec![b'7'; RECOGNISER_TEXT_LIMIT + 1];
    let good = sheet_d();
    let bad = with_rules(&[4, 2, 0, 2, 0]);
    for engine in engines() {
        let numbers = |sheet: &[u8], text: &[u8], work, list| {
            full_recognise(engine, sheet, text, work, list).0
        };
        for list in [0, 2_048, 2_049] {
            assert_eq!(numbers(&good, &long, 65_535, list), [1, 0, 0]);
            assert_eq!(
                numbers(&[0; SHEET_LIMIT + 1], &long, 65_536, list),
                [2, 0, 0]
            );
            assert_eq!(numbers(&bad, &long, 65_536, list), [10, 20, 0]);
            assert_eq!(numbers(&good, &long, 65_536, list), [12, 0, 0]);
        }
        for text in [&b"h2"[..], b"//", b"1/", b"12", b"  "] {
            assert_eq!(numbers(&bad, text, 65_536, 0), [10, 20, 0]);
            assert_eq!(numbers(&good, text, 65_536, 0), [20, 0, 0]);
            // Also where the tokens would fit.
            assert_eq!(numbers(&good, text, 65_536, 1), [20, 0, 0]);
            assert_ne!(numbers(&good, text, 65_536, 2)[0], 20);
        }
    }
}

/// A text of 2,048 bytes is read, with as many tokens as bytes and with one; a longer one is 12.
#[test]
fn the_longest_texts() {
    let sheet = sheet_d();
    let number = [b'1'; 2_049];
    gives(&sheet, &number[1..], 0, 2_048, &[0]);
    gives(&sheet, &number, 12, 0, &[]);
    let slashes = [b"1/".repeat(1_023), b"1 ".to_vec()].concat();
    let tokens = [0, 1].repeat(1_024);
    gives(&sheet, &slashes, 0, 2_048, &tokens[..2_047]);
    let unended = b"1/".repeat(1_024);
    gives(&sheet, &unended, 16, 2_048, &tokens);
    let last = [&unended[..2_047], b"2"].concat();
    let tokens = [&tokens[..2_046], &[0]].concat();
    gives(&sheet, &last[..2_047], 0, 2_047, &tokens);
    let unmatched = [&unended[..2_047], b"h"].concat();
    gives(&sheet, &unmatched, 14, 2_047, &tokens);
}

#[test]
fn a_short_out_changes_nothing() {
    for engine in engines() {
        short_out_changes_nothing(engine, &sheet_d(), b"12/7");
        short_out_changes_nothing(engine, &[], b"12");
        short_out_changes_nothing(engine, &sheet_d(), &[b'1'; 2_049]);
    }
}

/// What the buffers hold before a call does not matter to it, and no call trusts an earlier one.
#[test]
fn calls_in_the_same_buffers() {
    let (good, bad) = (sheet_d(), with_rules(&[4, 2, 0, 2, 0]));
    for engine in engines() {
        let mut work = pattern(65_540);
        let mut list = list_pattern(8);
        let mut call = |sheet: &[u8], text: &[u8]| {
            let mut out = [7; 3];
            (engine.recognise)(sheet, text, &mut work, &mut list, &mut out);
            assert!(work[..65_536].iter().all(|&byte| byte == 0));
            assert_eq!(work[65_536..], pattern(65_540)[65_536..]);
            (out, list.clone())
        };
        let rest = &list_pattern(8)[3..];
        let after_first = [&[0, 1, 0], rest].concat();
        assert_eq!(call(&good, b"1/2"), ([0, 3, 3], after_first.clone()));
        assert_eq!(call(&bad, b"///"), ([10, 20, 0], after_first.clone()));
        assert_eq!(call(&good, b""), ([16, 0, 0], after_first));
        let after_second = [&[1, 1, 0], rest].concat();
        assert_eq!(call(&good, b"//"), ([15, 0, 2], after_second));
    }
}

/// The recogniser passes and refuses the sheets that checking does.
#[test]
fn sheets_are_judged_as_by_checking() {
    let (seed, cases) = seed_and_cases(CASES);
    for case in 0..cases {
        let random = &mut for_case(seed, case);
        let sheet = common::calls::sheet(random);
        let work = work_length(random);
        for engine in engines() {
            let check = full_check(engine, &sheet, work);
            let ([number, place, _], _) = full_recognise(engine, &sheet, b"", work, 0);
            let found = match number {
                0 | 16 => [0, 0],
                _ => [number, place],
            };
            let context = format!("seed {seed}, case {case}, {}", engine.name);
            assert_eq!(found, check, "{context}: {}", hexadecimal(&sheet));
        }
    }
}
