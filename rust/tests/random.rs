//! Random comparisons: of the library with the reference, and of what both say in different ways.
//!
//! No result is written down here; the vectors have some that come from elsewhere.
//!
//! `VINZAGEW_SEED` sets the seed and `VINZAGEW_CASES` the number of cases of each test. A failure names
//! the seed and the case; the same seed gives the same cases. By hand:
//!
//!     VINZAGEW_SEED=7 VINZAGEW_CASES=200000 cargo test --offline --release --test random -- --nocapture

mod common;

use common::calls;
use common::random::{for_case, seed_and_cases, Random};
use common::words::{pattern_above_word, place_without_words, without_words, words_first};
use common::{
    engines, full_check, full_run, full_write, generate, hexadecimal, image_of, numbers, pattern,
    Engine, LIBRARY, REFERENCE,
};
use std::collections::BTreeMap;
use vinzagew::builder::{self, Expression, Part, PartKind};
use vinzagew::{patch, stack_length, PatchError, SHEET_LIMIT, TAIL_LIMIT, WIDTH_LIMIT};
use vinzagew_reference::answer::{longest_front, word_lengths};
use vinzagew_reference::image::Image;
use vinzagew_reference::lexer::nullable;
use vinzagew_reference::number;
use vinzagew_reference::sheet::{Kind, Node, Regex, Sheet};
use vinzagew_reference::types::least_types;
use vinzagew_reference::{answer, Refusal};

/// The generators are of use only if every answer comes up.
#[test]
fn every_number_comes_up() {
    let mut tally = BTreeMap::new();
    let (seed, cases) = seed_and_cases(6_000);
    for case in 0..cases {
        let mut call = calls::call(&mut for_case(seed, case));
        call.make(REFERENCE);
        if let [number, _, _, ..] = *call.out() {
            *tally.entry((call.kind(), number)).or_insert(0) += 1;
        }
    }
    println!("seed {seed}, {cases} cases: {tally:?}");
    let checks = (0..=10).map(|number| ("check", number));
    let writes = (0..=11).map(|number| ("write", number));
    let runs = [0].into_iter().chain(12..=17).map(|number| ("run", number));
    let numbers_with_a_table = [0].into_iter().chain(12..=19);
    let with_a_table = numbers_with_a_table.map(|number| ("run with a table", number));
    let numbers_of_recognising = (0..=10).chain([12, 14, 15, 16, 20]);
    let recognisings = numbers_of_recognising.map(|number| ("recognise", number));
    let expected: Vec<(&str, u64)> = checks
        .chain(writes)
        .chain(runs)
        .chain(with_a_table)
        .chain(recognisings)
        .collect();
    let missing: Vec<&(&str, u64)> = expected
        .iter()
        .filter(|answer| !tally.contains_key(*answer))
        .collect();
    assert!(cases < 6_000 || missing.is_empty(), "{missing:?}");
    assert!(tally.keys().all(|answer| expected.contains(answer)));
}

/// Every sheet that is made to pass passes.
#[test]
fn typed_sheets_pass() {
    let (seed, cases) = seed_and_cases(2_000);
    let (mut nodes, mut rows, mut members) = (0, 0, 0);
    for case in 0..cases {
        let sheet = generate::passing_sheet(&mut for_case(seed, case));
        let image = image_of(sheet.as_bytes()).unwrap_or_else(|refusal| {
            let part = sheet.locate(refusal.place);
            panic!("seed {seed}, case {case}: {refusal:?}: {part}");
        });
        let own_nodes = Sheet::read(sheet.as_bytes())
            .expect("it passes")
            .nodes
            .len();
        nodes += own_nodes;
        // The nonterminals are the start, right parts and repetitions: twice as many are at most one more
        // than the nodes.
        assert!(
            2 * image.rows.len() <= own_nodes + 1,
            "seed {seed}, case {case}"
        );
        rows += image.rows.len();
        let productions = image.rows.iter().flat_map(|row| &row.productions);
        members += productions.map(|(_, tail)| tail.len()).sum::<usize>();
    }
    println!("seed {seed}, {cases} sheets: {nodes} nodes, {rows} rows, {members} tail members");
}

/// How many nodes and classes a regex has, and how many nodes stand on the longest way down.
fn regex_sizes(regex: &Regex) -> [usize; 3] {
    let (one, other) = match regex {
        Regex::Empty => return [1, 0, 1],
        Regex::Class { .. } => return [1, 1, 1],
        Regex::Sequence(left, right) | Regex::Alternative(left, right) => {
            (regex_sizes(left), regex_sizes(right))
        }
        Regex::Star(part) => (regex_sizes(part), [0; 3]),
    };
    [
        1 + one[0] + other[0],
        one[1] + other[1],
        1 + one[2].max(other[2]),
    ]
}

/// Every large sheet passes and has as many regex nodes as can be; many have all classes and all nodes,
/// and their rules are deep and flat.
#[test]
fn large_sheets_pass_and_are_large() {
    let (seed, cases) = seed_and_cases(2_000);
    let mut tally = BTreeMap::new();
    for case in 0..cases {
        let sheet = generate::large_sheet(&mut for_case(seed, case));
        let parts = vinzagew_reference::check(sheet.as_bytes(), &mut vec![0; 65_536])
            .unwrap_or_else(|refusal| panic!("seed {seed}, case {case}: {refusal:?}"));
        let sizes: Vec<[usize; 3]> = parts
            .rules
            .iter()
            .map(|rule| regex_sizes(&rule.regex))
            .collect();
        let sum = |which: usize| sizes.iter().map(|sizes| sizes[which]).sum::<usize>();
        assert_eq!(sum(0), 256, "seed {seed}, case {case}: regex nodes");
        let depth = sizes.iter().map(|sizes| sizes[2]).max();
        let kinds = [
            ("64 classes", sum(1) == 64),
            ("depth 190 or more", depth >= Some(190)),
            ("depth 8 or less", depth <= Some(8)),
            ("32 rules", sizes.len() == 32),
            ("64 expression nodes", parts.nodes.len() == 64),
        ];
        for (kind, holds) in kinds {
            *tally.entry(kind).or_insert(0) += usize::from(holds);
        }
    }
    println!("seed {seed}, {cases} sheets: {tally:?}");
    let often = tally.values().all(|&count| count >= cases / 100);
    assert!(cases < 2_000 || often, "{tally:?}");
}

/// A sheet of many classes passes, has the empty word or breaks a limit; each comes up.
#[test]
fn crowded_sheets_come_both_ways() {
    let (seed, cases) = seed_and_cases(2_000);
    let mut tally = BTreeMap::new();
    for case in 0..cases {
        let sheet = generate::crowded_sheet(&mut for_case(seed, case));
        let [number, _] = full_check(REFERENCE, &sheet, 65_536);
        *tally.entry(number).or_insert(0) += 1;
    }
    println!("seed {seed}, {cases} cases: {tally:?}");
    assert!(cases < 2_000 || tally.keys().eq(&[0, 5, 7]), "{tally:?}");
}

/// The node after the last one of an expression.
fn end(nodes: &[Node], node: usize) -> usize {
    match nodes[node].kind {
        Kind::Epsilon | Kind::Bottom | Kind::Token(_) | Kind::Variable(_) => node + 1,
        Kind::Fix(part) | Kind::Repetition(part) => end(nodes, part),
        Kind::Sequence(_, right) | Kind::Alternative(_, right) => end(nodes, right),
    }
}

/// What kinds of repetition this one is of.
fn repetition_kinds(nodes: &[Node], repetition: usize, part: usize) -> Vec<&'static str> {
    let below = &nodes[part..end(nodes, part)];
    let counts_past = below
        .iter()
        .any(|node| matches!(node.kind, Kind::Variable(fix) if fix < repetition));
    let nested = below
        .iter()
        .any(|node| matches!(node.kind, Kind::Repetition(_)));
    let kinds = [
        ("any", true),
        ("whole expression", repetition == 0),
        ("of ⊥", nodes[part].kind == Kind::Bottom),
        ("with one below it", nested),
        ("with a variable that counts past it", counts_past),
    ];
    let held = kinds.iter().filter(|(_, holds)| *holds);
    held.map(|(kind, _)| *kind).collect()
}

/// Repetitions come up in many places of sheets that pass, and the longest tail does.
#[test]
fn repetitions_come_up() {
    let (seed, cases) = seed_and_cases(2_000);
    let mut tally = BTreeMap::new();
    for case in 0..cases {
        let random = &mut for_case(seed, case);
        let sheet = match random.below(8) {
            0 => generate::long_tailed_sheet(random),
            _ => generate::passing_sheet(random),
        };
        let nodes = Sheet::read(sheet.as_bytes()).expect("it passes").nodes;
        let mut found: Vec<&str> = (0..nodes.len())
            .flat_map(|node| match nodes[node].kind {
                Kind::Repetition(part) => repetition_kinds(&nodes, node, part),
                _ => Vec::new(),
            })
            .collect();
        let image = image_of(sheet.as_bytes()).expect("it passes");
        let mut productions = image.rows.iter().flat_map(|row| &row.productions);
        if productions.any(|(_, tail)| tail.len() == TAIL_LIMIT) {
            found.push("longest tail");
        }
        for kind in found {
            *tally.entry(kind).or_insert(0) += 1;
        }
    }
    println!("seed {seed}, {cases} cases: {tally:?}");
    assert!(cases < 2_000 || tally.len() == 6, "{tally:?}");
}

/// Whether a part is at the place of a refusal and of the kind that the question is about.
fn leads_back(part: &Part, refusal: Refusal) -> bool {
    let expression = match part.kind {
        PartKind::Expression { expression, .. } => Some(expression),
        _ => None,
    };
    let right = match refusal.number {
        4 => matches!(part.kind, PartKind::RuleCount),
        5 => matches!(part.kind, PartKind::Regex { .. }) || expression.is_some(),
        7 => matches!(part.kind, PartKind::Action { .. }),
        8 => matches!(expression, Some(Expression::Variable(_))),
        9 => matches!(
            expression,
            Some(Expression::Sequence(..) | Expression::Repetition(_))
        ),
        10 => matches!(expression, Some(Expression::Alternative(..))),
        _ => false,
    };
    right && part.place == refusal.place
}

/// Every refusal leads back to its part, that of 5 to a regex or an expression, also in padded sheets.
#[test]
fn refusals_lead_back_to_their_parts() {
    let (seed, cases) = seed_and_cases(2_000);
    let mut tally = BTreeMap::new();
    for case in 0..cases {
        let random = &mut for_case(seed, case);
        let sheet = match random.below(5) {
            0 => generate::overfull_sheet(random),
            1 | 2 => generate::untyped_sheet(random),
            3 => generate::nearly_unfinished_sheet(random),
            _ => generate::nearly_passing_sheet(random),
        };
        // With 3 bytes a number, none of these sheets is too long.
        let sheet = sheet.padded(random.range(1, 3)).expect("a width");
        let refusal = match image_of(sheet.as_bytes()) {
            Err(refusal) => refusal,
            Ok(_) => continue,
        };
        let part = sheet.locate(refusal.place);
        assert!(
            leads_back(&part, refusal),
            "seed {seed}, case {case}: {refusal:?}: {part}"
        );
        let of_regex = matches!(part.kind, PartKind::Regex { .. });
        *tally.entry((refusal.number, of_regex)).or_insert(0) += 1;
    }
    println!("seed {seed}, {cases} cases: {tally:?}");
    let mut expected = vec![(5, true)];
    expected.extend([4, 5, 7, 8, 9, 10].map(|number| (number, false)));
    let all_came_up = expected.iter().all(|key| tally.contains_key(key));
    assert!(cases < 2_000 || all_came_up, "{tally:?}");
}

/// The sheet's own answer: number, place and count.
fn own_answer(sheet: &[u8], text: &[u8]) -> [u64; 3] {
    let own = answer(&Sheet::read(sheet).expect("readable"), text);
    [own.number, own.place as u64, own.tokens as u64]
}

/// Running the image that writing made gives the sheet's own answer.
#[test]
fn runs_give_the_sheets_own_answer() {
    let (seed, cases) = seed_and_cases(2_000);
    let mut tally = BTreeMap::new();
    for case in 0..cases {
        let random = &mut for_case(seed, case);
        let sheet = match random.below(3) {
            0 => generate::untyped_sheet(random),
            1 => generate::unfinished_sheet(random),
            _ => generate::passing_sheet(random),
        };
        let sheet = sheet.as_bytes();
        for engine in engines() {
            let (written, image) = full_write(engine, sheet, 65_536, 65_536);
            if written[0] != 0 {
                continue;
            }
            let parts = Image::read(&image).expect("written");
            for _ in 0..4 {
                let mut text = generate::text(random, &parts);
                text.truncate(40);
                let own = own_answer(sheet, &text);
                assert_eq!(
                    full_run(engine, &image, &text, stack_length(text.len())),
                    own,
                    "seed {seed}, case {case}, {}: sheet {} text {}",
                    engine.name,
                    hexadecimal(sheet),
                    hexadecimal(&text)
                );
                *tally.entry((engine.name, own[0])).or_insert(0) += 1;
            }
        }
    }
    println!("seed {seed}, {cases} cases: {tally:?}");
    // For each engine 0, 14, 15 and 16.
    let every_number = 4 * engines().len();
    assert!(cases < 2_000 || tally.len() == every_number, "{tally:?}");
}

/// A sheet, and the same with its repetitions spelled out as fixed points, if it has some and both keep
/// the limits: a repetition that is spelled out has four nodes more.
fn two_spellings(random: &mut Random) -> Option<[builder::Sheet; 2]> {
    let sheet = match random.below(5) {
        0 | 1 => generate::passing_sheet(random),
        2 => generate::nearly_passing_sheet(random),
        3 => generate::nearly_unfinished_sheet(random),
        _ => generate::untyped_sheet(random),
    };
    let spelled_out = generate::spelled_out_sheet(&sheet);
    let differ = sheet.as_bytes() != spelled_out.as_bytes();
    let readable = |sheet: &builder::Sheet| Sheet::read(sheet.as_bytes()).is_ok();
    (differ && readable(&sheet) && readable(&spelled_out)).then_some([sheet, spelled_out])
}

/// Both sheets pass, or both are refused with the same number, which is given. A repetition of a
/// nullable part is the one exception: its fixed point meets 10 at the alternative, before 9.
fn same_verdict([sheet, spelled_out]: &[builder::Sheet; 2], context: &str) -> u64 {
    let nodes_of = |sheet: &builder::Sheet| Sheet::read(sheet.as_bytes()).expect("readable").nodes;
    let nodes = nodes_of(sheet);
    let types = least_types(&nodes);
    assert_eq!(
        types[0],
        least_types(&nodes_of(spelled_out))[0],
        "{context}"
    );
    let repeats_nullable = |place| {
        nodes.iter().any(|node| match node.kind {
            Kind::Repetition(part) => node.place == place && types[part].nullable,
            _ => false,
        })
    };
    let mut verdict = 0;
    for engine in engines() {
        let check = |sheet: &builder::Sheet| full_check(engine, sheet.as_bytes(), 65_536);
        let [number, place] = check(sheet);
        let [other, _] = check(spelled_out);
        let excepted = number == 9 && repeats_nullable(place as usize);
        let expected = if excepted { 10 } else { number };
        assert_eq!(other, expected, "{context}: {}", engine.name);
        verdict = number;
    }
    verdict
}

/// The own answers of both sheets and the runs of both images, if they have one, are all the same.
fn same_answers(sheets: &[builder::Sheet; 2], text: &[u8], context: &str) {
    let mut answers = Vec::new();
    for sheet in sheets {
        let sheet = sheet.as_bytes();
        answers.push(own_answer(sheet, text));
        for engine in engines() {
            let (written, image) = full_write(engine, sheet, 65_536, 65_536);
            if written[0] == 0 {
                answers.push(full_run(engine, &image, text, stack_length(text.len())));
            }
        }
    }
    assert!(
        answers.iter().all(|answer| *answer == answers[0]),
        "{context}, text {}: {answers:?}",
        hexadecimal(text)
    );
}

/// A repetition has the type, the verdict and the answers of the fixed point that it stands for.
#[test]
fn repetitions_are_like_their_fixed_points() {
    let (seed, cases) = seed_and_cases(2_000);
    let mut tally = BTreeMap::new();
    for case in 0..cases {
        let random = &mut for_case(seed, case);
        let sheets = match two_spellings(random) {
            Some(sheets) => sheets,
            None => continue,
        };
        let context = format!(
            "seed {seed}, case {case}, sheet {}",
            hexadecimal(sheets[0].as_bytes())
        );
        let verdict = same_verdict(&sheets, &context);
        *tally.entry(verdict).or_insert(0) += 1;
        // With an empty word in a rule the own answer need not end.
        if verdict == 7 {
            continue;
        }
        for sheet in sheets.iter().chain(&sheets) {
            let mut text = match image_of(sheet.as_bytes()) {
                Ok(image) => generate::text(random, &image),
                Err(_) => generate::letters(random),
            };
            text.truncate(24);
            same_answers(&sheets, &text, &context);
        }
    }
    println!("seed {seed}, {cases} cases: {tally:?}");
    assert!(cases < 2_000 || tally.len() == 5, "{tally:?}");
}

/// Number, place, length and image; a check has no length and no image.
type Outcome = ([u64; 3], Vec<u8>);

/// The outcomes of checking a sheet and of writing it with image buffers of these lengths.
fn outcomes(engine: Engine, sheet: &[u8], rooms: [usize; 3]) -> Vec<Outcome> {
    let [number, place] = full_check(engine, sheet, 65_536);
    let mut outcomes = vec![([number, place, 0], Vec::new())];
    outcomes.extend(rooms.map(|room| full_write(engine, sheet, 65_536, room)));
    outcomes
}

/// The outcome for a twin, by that for the sheet, which is not too long: the same number, at the place of the
/// same number of the sheet, the same length and the same image. Only a twin that is too long is refused
/// for that.
fn in_twin(sheet: &[u8], twin: &[u8], outcome: &Outcome) -> Outcome {
    if twin.len() > SHEET_LIMIT {
        return ([2, 0, 0], Vec::new());
    }
    let ([number, place, length], image) = outcome;
    let place = numbers::place_in_twin(sheet, *place as usize, twin) as u64;
    ([*number, place, *length], image.clone())
}

/// A sheet and its twin are judged alike and have the same image, by every engine, whose answers agree. Gives
/// the verdict on the twin.
fn twins_are_alike(sheet: &[u8], twin: &[u8], context: &str) -> [u64; 2] {
    let ([_, _, needed], _) = full_write(REFERENCE, sheet, 65_536, 65_536);
    let needed = needed as usize;
    let rooms = [65_536, needed, needed.saturating_sub(1)];
    let own = outcomes(REFERENCE, sheet, rooms);
    let expected: Vec<Outcome> = own
        .iter()
        .map(|outcome| in_twin(sheet, twin, outcome))
        .collect();
    for engine in engines() {
        let same = outcomes(engine, sheet, rooms) == own;
        assert!(same, "{context}, {}: sheet", engine.name);
        let same = outcomes(engine, twin, rooms) == expected;
        assert!(same, "{context}, {}: twin", engine.name);
    }
    let ([number, place, _], _) = expected[0];
    [number, place]
}

/// What is wrong with the number at a place that is refused with 3.
fn wrong_number(sheet: &[u8], place: usize) -> &'static str {
    let rest = &sheet[place..];
    match rest.iter().position(|&byte| byte < 0x80) {
        None if rest.is_empty() => "missing",
        None if rest.len() < WIDTH_LIMIT => "cut off",
        Some(last) if last + 1 == WIDTH_LIMIT => "2^64 or more",
        _ => "over ten groups",
    }
}

/// A sheet of any kind within the limit of its length, and a twin with other bytes.
fn sheet_and_twin(random: &mut Random) -> (Vec<u8>, Vec<u8>) {
    loop {
        let sheet = match random.below(8) {
            0 => generate::large_sheet(random).to_bytes(),
            1 | 2 => {
                let sheet = calls::sheet(random);
                generate::damage(random, &sheet)
            }
            _ => calls::sheet(random),
        };
        let twin = numbers::twin(random, &sheet);
        if sheet.len() <= SHEET_LIMIT && sheet != twin {
            return (sheet, twin);
        }
    }
}

/// A sheet and its padded twin, each of at most 4,096 bytes, are accepted alike and have the same image; or
/// they are refused with the same number, at the place of the same number of the sheet.
#[test]
fn padded_twins_are_alike() {
    let (seed, cases) = seed_and_cases(3_000);
    let mut tally = BTreeMap::new();
    for case in 0..cases {
        let (sheet, twin) = sheet_and_twin(&mut for_case(seed, case));
        let context = format!(
            "seed {seed}, case {case}: sheet {}, twin {}",
            hexadecimal(&sheet),
            hexadecimal(&twin)
        );
        let [number, place] = twins_are_alike(&sheet, &twin, &context);
        let more = match number {
            0 if twin.len() == SHEET_LIMIT => "as long as can be",
            3 => wrong_number(&twin, place as usize),
            _ => "",
        };
        *tally.entry((number, more)).or_insert(0) += 1;
    }
    println!("seed {seed}, {cases} cases: {tally:?}");
    let mut expected = vec![(0, "as long as can be")];
    expected
        .extend(["missing", "cut off", "2^64 or more", "over ten groups"].map(|more| (3, more)));
    expected.extend([0, 2, 4, 5, 6, 7, 8, 9, 10].map(|number| (number, "")));
    expected.sort_unstable();
    assert!(cases < 3_000 || tally.keys().eq(&expected), "{tally:?}");
}

/// What a patch should do, by the reference's reading of the numbers: the sheet after it, if a number starts
/// at the place and has the bytes for the value.
fn patched(sheet: &[u8], place: usize, value: u64) -> Option<Vec<u8>> {
    let (found, _) = numbers::numbers(sheet);
    let (_, number) = found.into_iter().find(|(start, _)| *start == place)?;
    let mut patched = sheet[..place].to_vec();
    number::write_padded(&mut patched, value, number.width);
    patched.extend(&sheet[place + number.width..]);
    (patched.len() == sheet.len()).then_some(patched)
}

/// A patch changes one number and moves no byte, or changes nothing.
#[test]
fn patches_move_no_byte() {
    let (seed, cases) = seed_and_cases(5_000);
    let mut tally = BTreeMap::new();
    for case in 0..cases {
        let random = &mut for_case(seed, case);
        let sheet = calls::sheet(random);
        let sheet = numbers::twin(random, &sheet);
        let (found, end) = numbers::numbers(&sheet);
        let place = match random.below(3) {
            0 => random.below(end + 2),
            _ => found
                .get(random.below(found.len() + 1))
                .map_or(end, |(place, _)| *place),
        };
        let value = random.next() >> random.below(64);
        let mut stored = sheet.clone();
        let result = patch(&mut stored, place, value);
        let context = format!("seed {seed}, case {case}, place {place}: {result:?}");
        // Past what is no number, other numbers may start.
        if place <= end {
            let expected = patched(&sheet, place, value);
            assert_eq!(result.is_ok(), expected.is_some(), "{context}");
            assert!(stored == expected.unwrap_or(sheet), "{context}");
        }
        let kind = match result {
            Ok(()) => "patched",
            Err(PatchError::PastEnd { .. }) => "past the end",
            Err(PatchError::InsideNumber { .. }) => "inside a number",
            Err(PatchError::NotANumber { .. }) => "not a number",
            Err(PatchError::DoesNotFit { .. }) => "does not fit",
        };
        *tally.entry(kind).or_insert(0) += 1;
    }
    println!("seed {seed}, {cases} cases: {tally:?}");
    assert!(cases < 5_000 || tally.len() == 5, "{tally:?}");
}

/// Of a sheet that is refused with 7, what kind of rule is to blame, and whether a bad one of the other kind
/// stands below it.
fn bad_rule(sheet: &Sheet) -> &'static str {
    let bad = sheet.rules.iter().filter(|rule| nullable(&rule.regex));
    let is_word: Vec<bool> = bad.map(|rule| rule.regex.is_word()).collect();
    match is_word[..] {
        [false, ..] if is_word.contains(&true) => "a pattern above a word rule",
        [false, ..] => "a pattern",
        _ => "a word rule",
    }
}

/// Checking knows no kinds of rules: a sheet and the same without word rules have the same verdict, at the
/// place of the same number of the sheet.
#[test]
fn checking_knows_no_kinds_of_rules() {
    let (seed, cases) = seed_and_cases(3_000);
    let mut tally = BTreeMap::new();
    for case in 0..cases {
        let random = &mut for_case(seed, case);
        let sheet = match random.below(3) {
            0 => generate::nearly_passing_sheet(random).to_bytes(),
            1 => generate::untyped_sheet(random).to_bytes(),
            _ => calls::sheet(random),
        };
        let parts = match Sheet::read(&sheet) {
            Ok(parts) if sheet.len() <= SHEET_LIMIT => parts,
            _ => continue,
        };
        let without = without_words(&sheet);
        // Some have too many nodes then, or too many bytes.
        if Sheet::read(&without).is_err() || without.len() > SHEET_LIMIT {
            continue;
        }
        let context = format!("seed {seed}, case {case}: sheet {}", hexadecimal(&sheet));
        for engine in engines() {
            let [number, place] = full_check(engine, &sheet, 65_536);
            let place = place_without_words(&sheet, place as usize) as u64;
            let found = full_check(engine, &without, 65_536);
            assert_eq!(found, [number, place], "{context}, {}", engine.name);
            let bad = if number == 7 { bad_rule(&parts) } else { "" };
            *tally.entry((number, bad)).or_insert(0) += 1;
        }
    }
    println!("seed {seed}, {cases} cases: {tally:?}");
    // 0, 8, 9 and 10, and 7 in three ways.
    assert!(cases < 3_000 || tally.len() == 7, "{tally:?}");
}

/// The places of a text where a tie is decided by kind: without word rules a pattern wins there, and with them
/// a word rule that stands below it and matches as far. At every place the matches are equally long.
fn decided_by_kind(sheet: &[u8], text: &[u8], context: &str) -> Vec<usize> {
    let parts = Sheet::read(sheet).expect("readable");
    let without = Sheet::read(&without_words(sheet)).expect("readable");
    let mut decided = Vec::new();
    let mut place = 0;
    while let Some((rule, length)) = longest_front(&parts, &text[place..]) {
        let rest = &text[place..];
        let (other, same) = longest_front(&without, rest).expect("a match as long");
        assert_eq!(length, same, "{context}");
        if rule != other {
            assert!(other < rule, "{context}");
            let [word, pattern] = [rule, other].map(|rule| &parts.rules[rule].regex);
            assert!(word.is_word() && !pattern.is_word(), "{context}");
            for regex in [word, pattern] {
                let longest = word_lengths(regex, rest, 0).last().copied();
                assert_eq!(longest, Some(length), "{context}");
            }
            decided.push(place);
        }
        place += length;
    }
    assert_eq!(longest_front(&without, &text[place..]), None, "{context}");
    decided
}

/// By every engine the sheet, which passes, gives its own answer for a text. It is given.
fn own_answer_of_all(sheet: &[u8], text: &[u8], context: &str) -> [u64; 3] {
    let own = own_answer(sheet, text);
    for engine in engines() {
        let (written, image) = full_write(engine, sheet, 65_536, 65_536);
        assert_eq!(written[0], 0, "{context}, {}", engine.name);
        let found = full_run(engine, &image, text, stack_length(text.len()));
        assert_eq!(found, own, "{context}, {}", engine.name);
    }
    own
}

/// Whether a reading of a text reached a place where a tie is decided by kind, and whether it differs from
/// that without word rules. Only then may it differ.
fn ties_and_readings(sheet: &[u8], text: &[u8], context: &str) -> &'static str {
    let decided = decided_by_kind(sheet, text, context);
    let new = own_answer_of_all(sheet, text, context);
    let old = own_answer_of_all(&without_words(sheet), text, context);
    let nearest = new[1].min(old[1]);
    match decided.first() {
        Some(&place) if place as u64 <= nearest && old == new => "same reading",
        Some(&place) if place as u64 <= nearest => "other reading",
        _ => {
            assert_eq!(old, new, "{context}");
            "no tie"
        }
    }
}

/// A reading differs from that without word rules, which it was before request 4, only if it reached a place
/// where a pattern stands above a word rule and both match equally far.
#[test]
fn a_reading_changes_only_where_a_tie_is_decided_by_kind() {
    let (seed, cases) = seed_and_cases(2_000);
    let mut tally = BTreeMap::new();
    for case in 0..cases {
        let random = &mut for_case(seed, case);
        let sheet = generate::overlapping_sheet(random).to_bytes();
        if image_of(&without_words(&sheet)).is_err() {
            continue;
        }
        let image = image_of(&sheet).expect("it passes");
        for _ in 0..4 {
            let size = random.range(1, 6);
            let mut text = match random.below(4) {
                0 => generate::text(random, &image),
                _ => generate::derived_text(random, &image, size),
            };
            text.truncate(24);
            let context = format!(
                "seed {seed}, case {case}: sheet {} text {}",
                hexadecimal(&sheet),
                hexadecimal(&text)
            );
            *tally
                .entry(ties_and_readings(&sheet, &text, &context))
                .or_insert(0) += 1;
        }
    }
    println!("seed {seed}, {cases} cases: {tally:?}");
    let often = tally.len() == 3 && tally.values().all(|&count| count >= cases / 4);
    assert!(cases < 2_000 || often, "{tally:?}");
}

/// A sheet that passes, with its rules as they were made or in the order of the image.
fn sheet_in_any_order(random: &mut Random) -> Vec<u8> {
    let sheet = match random.below(4) {
        0 => generate::passing_sheet(random),
        1 => generate::long_tailed_sheet(random),
        _ => generate::overlapping_sheet(random),
    };
    match random.below(3) {
        0 => words_first(sheet.as_bytes()),
        _ => sheet.to_bytes(),
    }
}

/// Where no pattern stands above a word rule, an image numbers the rules as they stand: it is that of the
/// sheet without word rules, byte for byte.
#[test]
fn an_image_changes_only_with_a_pattern_above_a_word_rule() {
    let (seed, cases) = seed_and_cases(2_000);
    let mut tally = BTreeMap::new();
    for case in 0..cases {
        let sheet = sheet_in_any_order(&mut for_case(seed, case));
        let without = without_words(&sheet);
        let image = match image_of(&without) {
            Ok(image) => image,
            // It has too many nodes.
            Err(_) => continue,
        };
        let same = image_of(&sheet).as_ref() == Ok(&image);
        let above = pattern_above_word(&Sheet::read(&sheet).expect("it passes").rules);
        let context = format!("seed {seed}, case {case}: sheet {}", hexadecimal(&sheet));
        assert!(same || above, "{context}");
        for engine in engines() {
            let write = |sheet: &[u8]| full_write(engine, sheet, 65_536, 65_536);
            let (_, found) = write(&without);
            assert_eq!(found, image.to_bytes(), "{context}, {}", engine.name);
            assert_eq!(write(&sheet).1 == found, same, "{context}, {}", engine.name);
        }
        let most_rules = image.skips.len() == 32;
        *tally.entry((above, same, most_rules)).or_insert(0) += 1;
    }
    println!("seed {seed}, {cases} cases: {tally:?}");
    let [none_above, changed, changed_at_the_limit] = [
        (false, true, false),
        (true, false, false),
        (true, false, true),
    ]
    .map(|kind| tally.get(&kind).copied().unwrap_or(0));
    let often = none_above.min(changed) >= cases / 4 && changed_at_the_limit > 0;
    assert!(cases < 2_000 || often, "{tally:?}");
}

/// Both sheets pass, and by every engine they have the same image.
fn same_image(sheet: &[u8], other: &[u8], context: &str) {
    for engine in engines() {
        let write = |sheet: &[u8]| full_write(engine, sheet, 65_536, 65_536);
        let (written, image) = write(sheet);
        assert_eq!(written[0], 0, "{context}, {}", engine.name);
        assert_eq!(write(other), (written, image), "{context}, {}", engine.name);
    }
}

/// With its rules put into the order of the image by hand, a sheet has the same image and the same readings.
#[test]
fn rules_in_the_order_of_the_image() {
    let (seed, cases) = seed_and_cases(2_000);
    let mut tally = BTreeMap::new();
    for case in 0..cases {
        let random = &mut for_case(seed, case);
        let is_large = random.once_in(5);
        let sheet = match is_large {
            true => generate::large_sheet(random).to_bytes(),
            false => sheet_in_any_order(random),
        };
        let ordered = words_first(&sheet);
        let context = format!("seed {seed}, case {case}: sheet {}", hexadecimal(&sheet));
        same_image(&sheet, &ordered, &context);
        *tally.entry((is_large, sheet != ordered)).or_insert(0) += 1;
        // The own answer takes too long for the stars in stars of a large sheet.
        if !is_large {
            let image = image_of(&sheet).expect("it passes");
            let mut text = generate::text(random, &image);
            text.truncate(24);
            let own = own_answer_of_all(&sheet, &text, &context);
            assert_eq!(
                own_answer_of_all(&ordered, &text, &context),
                own,
                "{context}"
            );
        }
    }
    println!("seed {seed}, {cases} cases: {tally:?}");
    let often = tally.len() == 4 && tally.values().all(|&count| count >= cases / 50);
    assert!(cases < 2_000 || often, "{tally:?}");
}

/// The classes of a regex, from the left.
fn classes(regex: &builder::Regex) -> Vec<(u8, u8)> {
    match regex {
        builder::Regex::Empty => Vec::new(),
        builder::Regex::Class { low, high } => vec![(*low, *high)],
        builder::Regex::Star(part) => classes(part),
        builder::Regex::Sequence(left, right) | builder::Regex::Alternative(left, right) => {
            [classes(left), classes(right)].concat()
        }
    }
}

/// The builder knows which rule of the sheet is which of the image: it has the same action and the same
/// classes.
#[test]
fn the_builder_knows_the_rules_of_the_image() {
    let (seed, cases) = seed_and_cases(2_000);
    let mut moved = 0;
    for case in 0..cases {
        let random = &mut for_case(seed, case);
        let sheet = match random.below(3) {
            0 => generate::large_sheet(random),
            1 => generate::passing_sheet(random),
            _ => generate::overlapping_sheet(random),
        };
        let rules = sheet.image_rules();
        for engine in engines() {
            let context = format!("seed {seed}, case {case}, {}", engine.name);
            let (_, image) = full_write(engine, sheet.as_bytes(), 65_536, 65_536);
            let image = Image::read(&image).expect("written");
            assert_eq!(rules.len(), image.skips.len(), "{context}");
            for (number, &rule) in rules.iter().enumerate() {
                let own = &sheet.rules()[rule];
                assert_eq!(own.token.is_none(), image.skips[number], "{context}");
                let positions = image.positions.iter();
                let found: Vec<(u8, u8)> = positions
                    .filter(|position| position.rule == number)
                    .map(|position| (position.low, position.high))
                    .collect();
                assert_eq!(classes(&own.regex), found, "{context}");
            }
        }
        moved += usize::from(rules.windows(2).any(|pair| pair[0] > pair[1]));
    }
    println!("seed {seed}, {cases} cases: {moved} with other numbers");
    assert!(cases < 2_000 || moved >= cases / 4, "{moved}");
}

/// Whatever its length, an image buffer changes nothing for a sheet that is refused.
fn refused_by_both(engine: Engine, sheet: &[u8], work: usize, verdict: [u64; 2], context: &str) {
    let [number, place] = verdict;
    for room in [0, 1, 300, 65_536] {
        let (written, image) = full_write(engine, sheet, work, room);
        assert_eq!(written, [number, place, 0], "{context}");
        assert!(image.is_empty(), "{context}");
    }
}

/// A sheet that passes is written from its image's own length on, and with less it is 11.
fn written_from_own_length_on(
    engine: Engine,
    sheet: &[u8],
    work: usize,
    more: usize,
    context: &str,
) {
    let (written, image) = full_write(engine, sheet, work, 65_536);
    let length = image.len();
    let accepted = [0, 0, length as u64];
    assert_eq!(written, accepted, "{context}");
    for room in [length, length + 1, length + more, 70_000] {
        let found = full_write(engine, sheet, work, room);
        assert!(found == (accepted, image.clone()), "{context}, room {room}");
    }
    for room in [length - 1, more % length, 0] {
        let (written, image) = full_write(engine, sheet, work, room);
        assert_eq!(written, [11, 0, length as u64], "{context}, room {room}");
        assert!(image.is_empty(), "{context}, room {room}");
    }
}

/// A sheet passes checking exactly if some image buffer is long enough for writing it, whatever the
/// length of the work area; otherwise both say the same.
#[test]
fn a_sheet_passes_exactly_if_it_can_be_written() {
    let (seed, cases) = seed_and_cases(2_000);
    let mut tally = BTreeMap::new();
    for case in 0..cases {
        let random = &mut for_case(seed, case);
        let sheet = calls::sheet(random);
        let work = calls::work_length(random);
        let more = random.range(2, 400);
        for engine in engines() {
            let context = format!(
                "seed {seed}, case {case}, {}: sheet {} work length {work}",
                engine.name,
                hexadecimal(&sheet)
            );
            let verdict = full_check(engine, &sheet, work);
            match verdict[0] {
                0 => written_from_own_length_on(engine, &sheet, work, more, &context),
                _ => refused_by_both(engine, &sheet, work, verdict, &context),
            }
            assert_eq!(verdict[0] == 1, work < 65_536, "{context}");
            *tally.entry((engine.name, verdict[0])).or_insert(0) += 1;
        }
    }
    println!("seed {seed}, {cases} cases: {tally:?}");
    let every_number = 11 * engines().len();
    assert!(cases < 2_000 || tally.len() == every_number, "{tally:?}");
}

/// Writes and then checks a sheet with a work area that earlier calls left. All results must be those of
/// the reference with fresh buffers, and each time the first 65,536 bytes of the work area must end as
/// zero, and the rest as they were.
fn as_if_it_came_first(engine: Engine, sheet: &[u8], work: &mut [u8], room: usize, context: &str) {
    let rest = work[65_536..].to_vec();
    let as_promised =
        |work: &[u8]| work[..65_536].iter().all(|&byte| byte == 0) && work[65_536..] == rest;
    let mut out = [7; 3];

    let (written, image) = full_write(REFERENCE, sheet, 65_536, room);
    let mut found = pattern(room);
    (engine.write)(sheet, work, &mut found, &mut out);
    assert_eq!(out, written, "{context}");
    assert_eq!(found[..image.len()], image, "{context}");
    let rest_of_buffer = &pattern(room)[image.len()..];
    assert_eq!(found[image.len()..], *rest_of_buffer, "{context}");
    assert!(as_promised(work), "{context}: work after writing");

    let [number, place] = full_check(REFERENCE, sheet, 65_536);
    (engine.check)(sheet, work, &mut out);
    assert_eq!(out, [number, place, 0], "{context}");
    assert!(as_promised(work), "{context}: work after checking");
}

/// After any check and any write, with the same work area, a sheet is judged as if it came first.
#[test]
fn no_call_trusts_an_earlier_one() {
    let (seed, cases) = seed_and_cases(1_000);
    for case in 0..cases {
        let random = &mut for_case(seed, case);
        let sheets = [(); 4].map(|()| calls::sheet(random));
        let room = match random.below(2) {
            0 => random.below(400),
            _ => random.below(4_000),
        };
        for engine in engines() {
            let context = format!("seed {seed}, case {case}, {}", engine.name);
            let mut work = pattern(65_600);
            for sheet in &sheets {
                as_if_it_came_first(engine, sheet, &mut work, room, &context);
            }
        }
    }
}

/// The library and the reference agree on all results and all buffers.
#[test]
#[cfg_attr(not(vinzagew_library), ignore = "the static library was not found")]
fn library_and_reference_agree() {
    let (seed, cases) = seed_and_cases(20_000);
    for case in 0..cases {
        let before = calls::call(&mut for_case(seed, case));
        let mut expected = before.clone();
        expected.make(REFERENCE);
        let mut found = before.clone();
        found.make(LIBRARY);
        if found != expected {
            panic!(
                "seed {seed}, case {case}:\nbefore: {before}\nlibrary: {found}\nreference: {expected}\nbuffers equal: {}, {}",
                found.buffers() == expected.buffers(),
                found.entries() == expected.entries()
            );
        }
    }
    println!("seed {seed}, {cases} cases agree");
}
