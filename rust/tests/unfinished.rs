//! Unfinished branches: sheets with parts that denote nothing, by the types of the typing paper,
//! and beside them the flap paper's types, by which sheets were judged before.
//!
//! The library takes part wherever a sheet is checked, written, run or recognised. What types say
//! of a node is held against what it denotes and against its productions. What the cases with names
//! give is written down by hand.
//!
//! `VINZAGEW_SEED` sets the seed and `VINZAGEW_CASES` the number of cases of each random test. By
//! hand:
//!
//!     export VINZAGEW_SEED=7 VINZAGEW_CASES=100000
//!     cargo test --offline --release --test unfinished -- --nocapture

mod common;

use common::random::{for_case, seed_and_cases, Random};
use common::recognised::recognised;
use common::tables::{full_run_table, Lent};
use common::{calls, engines, full_check, full_run, full_write, generate, hexadecimal};
use std::collections::BTreeMap;
use vinzagew::builder::{self, Expression};
use vinzagew::{stack_length, SHEET_LIMIT};
use vinzagew_reference::answer::{which_begin, which_denote};
use vinzagew_reference::image::fuse;
use vinzagew_reference::normal_form::{derives_some, normal_form, productions, Production};
use vinzagew_reference::sheet::{Kind, Node, Sheet};
use vinzagew_reference::types::{check_by, least_types, least_types_by, SequenceType, Type};
use vinzagew_reference::{answer, lexer};

/// How many cases a random test has if `VINZAGEW_CASES` does not say. From so many on, everything
/// that is counted must come up.
const CASES: usize = 4_000;

/// The verdict on nodes by questions 8 to 10, if sequences are typed in this way.
fn verdict_by(sequence: SequenceType, nodes: &[Node]) -> [u64; 2] {
    match check_by(nodes, sequence) {
        Ok(()) => [0, 0],
        Err(refusal) => [refusal.number, refusal.place as u64],
    }
}

/// A sheet of any kind; many have parts that denote nothing.
fn any_sheet(random: &mut Random) -> Vec<u8> {
    match random.below(8) {
        0 | 1 => generate::unfinished_sheet(random).to_bytes(),
        2 => generate::nearly_unfinished_sheet(random).to_bytes(),
        3 => generate::nearly_passing_sheet(random).to_bytes(),
        4 | 5 => generate::untyped_sheet(random).to_bytes(),
        _ => calls::sheet(random),
    }
}

/// The parts of a sheet that questions 2 to 7 do not refuse.
fn readable(sheet: &[u8]) -> Option<Sheet> {
    let parts = Sheet::read(sheet).ok()?;
    let passes = sheet.len() <= SHEET_LIMIT && lexer::check(&parts).is_ok();
    passes.then_some(parts)
}

/// A sheet that passes checking. Most have parts that denote nothing.
fn passing_sheet(random: &mut Random) -> builder::Sheet {
    match random.below(6) {
        0 => generate::passing_sheet(random),
        1 => generate::letter_sheet(random),
        _ => generate::unfinished_sheet(random),
    }
}

/// Types fall, so a question that was answered with yes still is, and 8 goes by no types: a sheet
/// that passed passes, and one that was refused is refused for the same node or a later one, with
/// the same number if it is the same.
fn no_earlier_refusal(before: [u64; 2], now: [u64; 2], context: &str) {
    match before {
        [0, _] | [8, _] => assert_eq!(now, before, "{context}"),
        [_, place] => assert!(now[0] == 0 || now == before || now[1] > place, "{context}"),
    }
}

/// Every sheet that passed by the flap paper's types still passes, and every engine judges all
/// sheets by the typing paper's. The image is what it was: it is made by no types.
#[test]
fn what_passed_still_passes() {
    let (seed, cases) = seed_and_cases(CASES);
    let mut tally = BTreeMap::new();
    for case in 0..cases {
        let sheet = any_sheet(&mut for_case(seed, case));
        let parts = match readable(&sheet) {
            Some(parts) => parts,
            None => continue,
        };
        let context = format!("seed {seed}, case {case}: sheet {}", hexadecimal(&sheet));
        let ways: [SequenceType; 2] = [Type::flap_sequence, Type::sequence];
        let [before, now] = ways.map(|sequence| verdict_by(sequence, &parts.nodes));
        no_earlier_refusal(before, now, &context);
        judged_and_written(&sheet, &parts, now, &context);
        *tally.entry((before[0], now[0], before == now)).or_insert(0) += 1;
    }
    println!("seed {seed}, {cases} cases, before and now: {tally:?}");
    let same = [0, 8, 9, 10].map(|number| (number, number, true));
    let passes = [9, 10].map(|number| (number, 0, false));
    let later = [8, 9, 10].map(|number| (10, number, false));
    let needed = [&same[..], &passes, &later].concat();
    let all_came_up = needed.iter().all(|key| tally.contains_key(key));
    assert!(cases < CASES || all_came_up, "{tally:?}");
}

/// Every engine gives this verdict on a sheet, and writes the image of one that passes.
fn judged_and_written(sheet: &[u8], parts: &Sheet, verdict: [u64; 2], context: &str) {
    let image = match verdict {
        [0, _] => fuse(parts).to_bytes(),
        _ => Vec::new(),
    };
    for engine in engines() {
        let found = full_check(engine, sheet, 65_536);
        assert_eq!(found, verdict, "{context}, {}", engine.name);
        let (written, found) = full_write(engine, sheet, 65_536, 65_536);
        assert_eq!(written[..2], verdict, "{context}, {}", engine.name);
        assert_eq!(found, image, "{context}, {}", engine.name);
    }
}

/// What begins the sequences that a node denotes: the tokens, bit k for token k, and whether there
/// is the empty one.
type Starts = (u32, bool);

/// The starts by productions.
fn starts_of_row(row: &[Production]) -> Starts {
    let start = |(first, nullable): Starts, production: &Production| match production {
        Production::Epsilon => (first, true),
        Production::Token(token, _) => (first | 1 << token, nullable),
    };
    row.iter().fold((0, false), start)
}

/// For each node, the starts by its type, and whether that is the empty language's.
fn by_types(nodes: &[Node]) -> Vec<(Starts, bool)> {
    let types = least_types(nodes).into_iter();
    let own = |own: Type| ((own.first, own.nullable), own == Type::BOTTOM);
    types.map(own).collect()
}

/// For each node, the starts by what it denotes, and whether it denotes nothing. No type is used.
fn by_denotation(sheet: &Sheet) -> Vec<(Starts, bool)> {
    let nodes = &sheet.nodes;
    let begin = (0..sheet.tokens).map(|token| which_begin(nodes, &[token]));
    let begin: Vec<Vec<bool>> = begin.collect();
    let (empty, some) = (which_denote(nodes, &[]), which_begin(nodes, &[]));
    let own = |node: usize| {
        let tokens = (0..begin.len()).filter(|&token| begin[token][node]);
        let first = tokens.fold(0, |set, token| set | 1 << token);
        ((first, empty[node]), !some[node])
    };
    (0..nodes.len()).map(own).collect()
}

/// Whether a sheet passes or is refused with 8 to 10: FIRST has just the tokens that begin what a
/// node denotes, NULL says whether it denotes the empty sequence, and a node has the type of the
/// empty language exactly if it denotes nothing.
#[test]
fn types_are_exact_on_refused_sheets_too() {
    let (seed, cases) = seed_and_cases(CASES);
    let mut tally = BTreeMap::new();
    for case in 0..cases {
        let bytes = any_sheet(&mut for_case(seed, case));
        let sheet = match readable(&bytes) {
            Some(sheet) => sheet,
            None => continue,
        };
        let context = format!("seed {seed}, case {case}: sheet {}", hexadecimal(&bytes));
        let found = by_types(&sheet.nodes);
        assert_eq!(found, by_denotation(&sheet), "{context}");
        let some_nothing = found.iter().any(|&(_, nothing)| nothing);
        let number = verdict_by(Type::sequence, &sheet.nodes)[0];
        *tally.entry((number, some_nothing)).or_insert(0) += 1;
    }
    println!("seed {seed}, {cases} cases, verdict and some part denotes nothing: {tally:?}");
    // A sheet that is refused with 8 has a part that denotes nothing: otherwise 9 or 10 comes first.
    let often = tally.len() == 7 && tally.values().all(|&count| count >= cases / 100);
    assert!(cases < CASES || often, "{tally:?}");
}

/// On sheets that pass, the same is so of the productions that stay.
#[test]
fn types_are_exact() {
    let (seed, cases) = seed_and_cases(CASES);
    let mut tally = BTreeMap::new();
    for case in 0..cases {
        let bytes = passing_sheet(&mut for_case(seed, case)).to_bytes();
        let context = format!("seed {seed}, case {case}: sheet {}", hexadecimal(&bytes));
        let sheet = vinzagew_reference::check(&bytes, &mut vec![0; 65_536]).expect(&context);
        let rows = normal_form(&sheet.nodes);
        let starts = rows.iter().map(|row| (starts_of_row(row), row.is_empty()));
        let by_rows: Vec<(Starts, bool)> = starts.collect();
        assert_eq!(by_types(&sheet.nodes), by_rows, "{context}");
        assert_eq!(by_denotation(&sheet), by_rows, "{context}");
        let twice = rows.iter().any(|row| has_a_token_twice(row));
        assert!(!twice, "{context}");
        let empty: Vec<bool> = rows.iter().map(|row| row.is_empty()).collect();
        let derives_none: Vec<bool> = derives_some(&sheet.nodes).iter().map(|own| !own).collect();
        assert_eq!(empty, derives_none, "{context}");
        let key = (empty[0], empty.contains(&true));
        *tally.entry(key).or_insert(0) += 1;
    }
    println!("seed {seed}, {cases} cases, whole and some part that denotes nothing: {tally:?}");
    assert!(cases < CASES || tally.len() == 3, "{tally:?}");
}

/// The expression with ⊥ for each part that denotes nothing; nodes that denote something stay nodes
/// of their own. `nothing` says of each node, in sheet order, whether it denotes nothing.
fn emptied(expression: &Expression, nothing: &mut impl Iterator<Item = bool>) -> Expression {
    if let Expression::Labelled(label, part) = expression {
        return emptied(part, nothing).label(label);
    }
    let denotes_nothing = nothing.next().expect("a node");
    let made = match expression {
        Expression::Sequence(left, right) => emptied(left, nothing).then(emptied(right, nothing)),
        Expression::Alternative(left, right) => emptied(left, nothing).or(emptied(right, nothing)),
        Expression::Repetition(part) => emptied(part, nothing).star(),
        Expression::Fix(variable, body) => {
            Expression::Fix(variable.clone(), Box::new(emptied(body, nothing)))
        }
        leaf => leaf.clone(),
    };
    match denotes_nothing {
        true => Expression::Bottom,
        false => made,
    }
}

/// With ⊥ for each part that denotes nothing, a sheet passes by the flap paper's types too, since
/// no sequence has such a part any more, and it has the same image.
#[test]
fn unfinished_branches_add_nothing() {
    let (seed, cases) = seed_and_cases(CASES);
    let mut tally = BTreeMap::new();
    for case in 0..cases {
        let sheet = passing_sheet(&mut for_case(seed, case));
        let bytes = hexadecimal(sheet.as_bytes());
        let context = format!("seed {seed}, case {case}: sheet {bytes}");
        let nodes = Sheet::read(sheet.as_bytes()).expect(&context).nodes;
        let types = least_types(&nodes).into_iter();
        let mut nothing = types.map(|own| own == Type::BOTTOM);
        let other = emptied(sheet.expression(), &mut nothing);
        let other = generate::with_expression(&sheet, other);
        same_image_by_flap_types(&sheet, &other, &context);
        let before = verdict_by(Type::flap_sequence, &nodes)[0];
        let same = sheet.as_bytes() == other.as_bytes();
        *tally.entry((before, same)).or_insert(0) += 1;
    }
    println!("seed {seed}, {cases} cases, verdict before and same sheet: {tally:?}");
    let needed = [(0, false), (0, true), (9, false), (10, false)];
    assert!(cases < CASES || tally.keys().eq(&needed), "{tally:?}");
}

/// By every engine both sheets have the same image; the other one passes by the flap paper's types.
fn same_image_by_flap_types(sheet: &builder::Sheet, other: &builder::Sheet, context: &str) {
    let nodes = Sheet::read(other.as_bytes()).expect(context).nodes;
    let verdict = verdict_by(Type::flap_sequence, &nodes);
    assert_eq!(verdict, [0, 0], "{context}");
    for engine in engines() {
        let write = |sheet: &builder::Sheet| full_write(engine, sheet.as_bytes(), 65_536, 65_536);
        let (written, image) = write(other);
        assert_eq!(written[0], 0, "{context}, {}", engine.name);
        assert_eq!(write(sheet), (written, image), "{context}, {}", engine.name);
    }
}

/// What is counted of nodes, and whether it is so of some.
type Events = Vec<(&'static str, bool)>;

/// Whether some token stands in two productions of a row.
fn has_a_token_twice(row: &[Production]) -> bool {
    let tokens = row.iter().filter_map(|production| match production {
        Production::Token(token, _) => Some(token),
        Production::Epsilon => None,
    });
    let mut tokens: Vec<&u64> = tokens.collect();
    tokens.sort_unstable();
    tokens.windows(2).any(|pair| pair[0] == pair[1])
}

/// What is counted of a node: types by the flap paper and now, and the node.
fn node_events(nodes: &[Node], flap: &[Type], now: &[Type], node: usize) -> Events {
    let nothing = |part: usize| now[part] == Type::BOTTOM;
    let bottom = |part: usize| nodes[part].kind == Kind::Bottom;
    let variable = |part: usize| matches!(nodes[part].kind, Kind::Variable(_));
    match nodes[node].kind {
        Kind::Sequence(left, right) => vec![
            ("⊥ on the left", bottom(left)),
            ("⊥ on the right", bottom(right)),
            ("nothing on the left alone", {
                nothing(left) && !nothing(right)
            }),
            ("nothing on the right alone", {
                !nothing(left) && nothing(right)
            }),
        ],
        Kind::Alternative(left, right) => vec![
            ("two branches denote nothing", {
                nothing(left) && nothing(right)
            }),
            ("two variables denote nothing", {
                nothing(left) && nothing(right) && variable(left) && variable(right)
            }),
            ("a branch denotes nothing and begins like the other", {
                nothing(left) != nothing(right) && flap[left].first & flap[right].first != 0
            }),
        ],
        Kind::Fix(body) => vec![("a fixed point denotes nothing", nothing(body))],
        Kind::Repetition(part) => vec![("a repeated part denotes nothing", {
            nothing(part) && !bottom(part)
        })],
        _ => Vec::new(),
    }
}

/// What is counted of the nodes of a sheet that passes.
fn events(nodes: &[Node]) -> Events {
    let flap = least_types_by(nodes, Type::flap_sequence);
    let now = least_types(nodes);
    let mut rows = (0..nodes.len()).map(|node| productions(nodes, node));
    let mut events = vec![
        ("a whole that denotes nothing", now[0] == Type::BOTTOM),
        ("64 nodes, and some denote nothing", {
            nodes.len() == 64 && now.contains(&Type::BOTTOM)
        }),
        // Before any production is dropped.
        ("a token twice in a row", {
            rows.any(|row| has_a_token_twice(&row))
        }),
        ("a token twice in the start's row", {
            has_a_token_twice(&productions(nodes, 0))
        }),
    ];
    let own = (0..nodes.len()).flat_map(|node| node_events(nodes, &flap, &now, node));
    events.extend(own);
    events
}

/// The sheets are of use only if all that matters comes up in them.
#[test]
fn what_matters_comes_up() {
    let (seed, cases) = seed_and_cases(CASES);
    let mut tally: BTreeMap<&'static str, usize> = BTreeMap::new();
    for case in 0..cases {
        let sheet = passing_sheet(&mut for_case(seed, case));
        let nodes = Sheet::read(sheet.as_bytes()).expect("it passes").nodes;
        let mut found: Vec<&str> = events(&nodes)
            .into_iter()
            .filter_map(|(event, holds)| holds.then_some(event))
            .collect();
        found.sort_unstable();
        found.dedup();
        for event in found {
            *tally.entry(event).or_insert(0) += 1;
        }
    }
    println!("seed {seed}, {cases} sheets: {tally:#?}");
    let often = tally.len() == 13 && tally.values().all(|&count| count >= cases / 100);
    assert!(cases < CASES || often, "{tally:?}");
}

/// Sheet D's bytes before its expression: N = 0, S = 1, the blank skips.
const RULES: [u8; 20] = [
    1, 2, 3, 1, 2, 1, 48, 57, 4, 1, 48, 57, 2, 1, 47, 47, 0, 1, 32, 32,
];

/// Sheet D's expression.
const EXPRESSION: [u8; 14] = [3, 2, 0, 5, 4, 0, 3, 2, 1, 3, 2, 0, 6, 0];

/// Sheet D's rules with another expression.
fn with_rules(expression: &[u8]) -> Vec<u8> {
    [&RULES[..], expression].concat()
}

/// By every engine: the sheet, which the flap paper's types refuse with 10, passes, and its image
/// ends in these rows, after what sheet D's image has before them.
fn has_rows(sheet: &[u8], rows: &[u8]) {
    let nodes = Sheet::read(sheet).expect("readable").nodes;
    assert_eq!(verdict_by(Type::flap_sequence, &nodes)[0], 10);
    for engine in engines() {
        let name = engine.name;
        assert_eq!(full_check(engine, sheet, 65_536), [0, 0], "{name}");
        let (written, image) = full_write(engine, sheet, 65_536, 65_536);
        assert_eq!(written[..2], [0, 0], "{name}");
        assert_eq!(image, [&common::IMAGE_OF_D[..27], rows].concat(), "{name}");
        let (short, _) = full_write(engine, sheet, 65_536, image.len() - 1);
        assert_eq!(short, [11, 0, image.len() as u64], "{name}");
    }
}

/// By every engine, what a sheet gives for a text of which every byte is in some match: number,
/// place and count of a run, with and without a table, which are the own answer's, and the
/// recogniser's number and place, with these tokens in its list.
fn reads(sheet: &[u8], text: &[u8], expected: [u64; 3], tokens: &[u8]) {
    let own = answer(&Sheet::read(sheet).expect("readable"), text);
    assert_eq!([own.number, own.place as u64, own.tokens as u64], expected);
    for engine in engines() {
        let name = engine.name;
        let (_, image) = full_write(engine, sheet, 65_536, 65_536);
        let room = stack_length(text.len());
        assert_eq!(full_run(engine, &image, text, room), expected, "{name}");
        let (found, _) = full_run_table(engine, &image, text, Lent::enough(room));
        assert_eq!(found, expected, "{name}");
        let (found, list) = recognised(engine, sheet, text);
        assert_eq!(found[..2], expected[..2], "{name}");
        assert_eq!(list, tokens, "{name}");
    }
}

/// How many productions each node's row has before any is dropped.
fn row_lengths(sheet: &[u8]) -> Vec<usize> {
    let nodes = Sheet::read(sheet).expect("readable").nodes;
    let lengths = (0..nodes.len()).map(|node| productions(&nodes, node).len());
    lengths.collect()
}

/// So many branches that are a variable's sequence and ⊥, then a token.
fn unfinished_branches(count: usize, variable: u8, token: u8) -> Vec<u8> {
    let branch = [4, 3, 6, variable, 1];
    [&branch.repeat(count)[..], &[2, token]].concat()
}

/// μα.(N ∨ S)·μβ.L·μγ.M·K, where L has two branches α·⊥, M four β·⊥, K six γ·⊥, and each one token:
/// the rows of the four have 2, 5, 21 and 127 productions before dropping, and one or two after.
#[test]
fn a_row_of_127_productions() {
    let expression = [
        &[5, 3, 4, 2, 0, 2, 1, 5, 3][..],
        &unfinished_branches(2, 1, 1),
        &[5, 3],
        &unfinished_branches(4, 1, 0),
        &unfinished_branches(6, 0, 1),
    ];
    let sheet = with_rules(&expression.concat());
    let lengths = row_lengths(&sheet);
    assert_eq!(lengths.len(), 60);
    assert_eq!([0, 5, 16, 35].map(|node| lengths[node]), [2, 5, 21, 127]);
    let rows = [
        &[4, 0, 2, 0, 1, 1, 2, 1, 1][..],
        &[0, 1, 0, 1, 2],
        &[0, 1, 2, 1, 3],
        &[0, 1, 0, 0],
    ];
    has_rows(&sheet, &rows.concat());
    reads(&sheet, b"1/1/", [0, 4, 4], &[0, 1, 0, 1]);
    reads(&sheet, b"//1/", [0, 4, 4], &[1, 1, 0, 1]);
    reads(&sheet, b"1/1", [16, 3, 3], &[0, 1, 0]);
    reads(&sheet, b"1 1/1", [15, 2, 1], &[0, 0, 1, 0]);
    reads(&sheet, b"1//", [15, 2, 2], &[0, 1, 1]);
    reads(&sheet, b"1/1 1", [15, 4, 3], &[0, 1, 0, 0]);
    reads(&sheet, b"1/1//", [15, 4, 4], &[0, 1, 0, 1, 1]);
    reads(&sheet, b"", [16, 0, 0], &[]);
}

/// μα.N·μβ.(α ∨ α)·μγ.(β ∨ β)·…, seven fixed points, and at the end their seven variables: 1, 2, 4
/// and so on up to 64 productions, and 127 in all. None stays.
fn tower() -> Vec<u8> {
    let doubled = [5, 3, 4, 6, 1, 6, 1].repeat(6);
    let variables: Vec<u8> = (0..6).flat_map(|variable| [4, 6, variable]).collect();
    [&[5, 3, 2, 0], &doubled[..], &variables, &[6, 6]].concat()
}

/// A tower beside sheet D's expression: the image is D's.
#[test]
fn a_row_of_127_productions_that_do_not_stay() {
    for sheet in [
        with_rules(&[&[4], &tower()[..], &EXPRESSION].concat()),
        with_rules(&[&[4], &EXPRESSION[..], &tower()].concat()),
    ] {
        let lengths = row_lengths(&sheet);
        assert_eq!(lengths.len(), 57);
        assert_eq!(lengths.iter().max(), Some(&127));
        // N of the tower and N of sheet D.
        assert_eq!(lengths[0], 2);
        has_rows(&sheet, &common::IMAGE_OF_D[27..]);
        reads(&sheet, b"12 /7", [0, 5, 3], &[0, 1, 0]);
        reads(&sheet, b"12//7", [15, 3, 2], &[0, 1, 1, 0]);
        reads(&sheet, b"12/", [16, 3, 2], &[0, 1]);
        reads(&sheet, b"/", [15, 0, 0], &[1]);
    }
}

/// The same with three variables each, in 64 nodes: one row has 3^9 productions, and the whole
/// denotes nothing.
#[test]
fn a_row_of_19683_productions_that_do_not_stay() {
    let tripled = [5, 3, 4, 6, 1, 4, 6, 1, 6, 1].repeat(8);
    let last = [4, 6, 0, 4, 6, 0, 6, 0];
    let sheet = with_rules(&[&[5, 3, 2, 0], &tripled[..], &last].concat());
    let lengths = row_lengths(&sheet);
    assert_eq!(lengths.len(), 64);
    assert_eq!(lengths.iter().max(), Some(&19_683));
    has_rows(&sheet, &[1, 0, 0]);
    reads(&sheet, b"1", [15, 0, 0], &[0]);
    reads(&sheet, b"", [16, 0, 0], &[]);
}

/// N·⊥ ∨ (N·⊥ ∨ … N), 15 branches that are not finished, in 61 nodes: N alone.
#[test]
fn many_branches_that_begin_alike() {
    let branches = [4, 3, 2, 0, 1].repeat(15);
    let sheet = with_rules(&[&branches[..], &[2, 0]].concat());
    let lengths = row_lengths(&sheet);
    assert_eq!((lengths.len(), lengths[0]), (61, 16));
    has_rows(&sheet, &[1, 0, 1, 2, 0]);
    reads(&sheet, b"1", [0, 1, 1], &[0]);
    reads(&sheet, b"1 1", [15, 2, 1], &[0, 0]);
    reads(&sheet, b"", [16, 0, 0], &[]);
}
