//! Builds the C example with its script and runs it, and holds the C header against this package.
//!
//! What the library's functions do is tested elsewhere: here it is only that C reaches them.

use std::path::{Path, PathBuf};
use std::process::Command;
use std::{env, fs};

fn top() -> PathBuf {
    Path::new(env!("CARGO_MANIFEST_DIR")).join("..")
}

/// The header must be C that compiles with no warning, library or not.
#[test]
fn the_example_compiles() {
    let object = Path::new(env!("CARGO_TARGET_TMPDIR")).join("read.o");
    let status = Command::new("cc")
        .args([
            "-std=c11",
            "-Wall",
            "-Wextra",
            "-Wpedantic",
            "-Werror",
            "-c",
            "-I",
        ])
        .arg(top().join("include"))
        .arg(top().join("examples/c/read.c"))
        .arg("-o")
        .arg(object)
        .status()
        .expect("cc is there");
    assert!(status.success());
}

fn header() -> String {
    fs::read_to_string(top().join("include/vinzagew.h")).expect("the header")
}

/// What the header defines a name as, without the comment.
fn defined(header: &str, name: &str) -> usize {
    let define = format!("#define VINZAGEW_{name} ");
    let line = header.lines().find_map(|line| line.strip_prefix(&define));
    let value = line.unwrap_or_else(|| panic!("{name} is in the header"));
    let value = value.split("/*").next().unwrap_or_default();
    value.trim().parse().expect("a number")
}

/// The names of the numbers from 0 on, each with words of its question.
const NUMBERS: [(&str, &str); 21] = [
    ("SUCCESS", "no question"),
    ("WORK_TOO_SHORT", "work area"),
    ("SHEET_TOO_LONG", "sheet within"),
    ("BAD_NUMBER", "number present, whole and below"),
    ("BAD_VALUE", "value allowed"),
    ("TOO_MANY_NODES", "node and class limits"),
    ("SHEET_GOES_ON", "sheet end"),
    ("EMPTY_WORD", "non-empty words"),
    ("NOT_GUARDED", "guarded"),
    ("NOT_SEPARABLE", "separable"),
    ("NOT_APART", "apart"),
    ("IMAGE_TOO_LONG", "image fit"),
    ("TEXT_TOO_LONG", "text within"),
    ("NOT_READABLE", "readable"),
    ("NO_MATCH", "rule match"),
    ("NOT_TAKEN", "take the token"),
    ("ENDS_EARLY", "At the end"),
    ("STACK_TOO_SHORT", "stack"),
    ("TABLE_TOO_SHORT", "table at least"),
    ("TOO_MANY_ROWS", "at most 256 rows"),
    ("LIST_TOO_SHORT", "list for the tokens"),
];

/// The header's numbers are those of this package's questions.
#[test]
fn the_header_has_the_same_numbers() {
    let header = header();
    for (number, (name, words)) in NUMBERS.into_iter().enumerate() {
        assert_eq!(defined(&header, name), number, "{name}");
        let refusal = vinzagew::Refusal {
            number: number as u64,
            place: 0,
            needed: 0,
            tokens: 0,
        };
        assert!(refusal.question().contains(words), "{name}");
    }
}

/// The header's limits are those of this package.
#[test]
fn the_header_has_the_same_limits() {
    let header = header();
    let limit = |name: &str| defined(&header, name);
    assert_eq!(limit("WORK_BYTES"), vinzagew::WORK_BYTES);
    assert_eq!(limit("IMAGE_BYTES"), vinzagew::IMAGE_BYTES);
    assert_eq!(limit("SHEET_LIMIT"), vinzagew::SHEET_LIMIT);
    assert_eq!(limit("WIDTH_LIMIT"), vinzagew::WIDTH_LIMIT);
    assert_eq!(limit("TEXT_LIMIT"), vinzagew::TEXT_LIMIT);
    assert_eq!(limit("TAIL_LIMIT"), vinzagew::TAIL_LIMIT);
    assert_eq!(
        limit("RECOGNISER_TEXT_LIMIT"),
        vinzagew::RECOGNISER_TEXT_LIMIT
    );
    assert_eq!(
        limit("RECOGNISER_STACK_BYTES"),
        vinzagew::RECOGNISER_STACK_BYTES
    );
    assert_eq!(limit("RUN_STACK_BYTES"), vinzagew::RUN_STACK_BYTES);
    assert_eq!(limit("TABLE_ENTRIES"), vinzagew::TABLE_ENTRIES);
    assert_eq!(limit("WINNER_ENTRIES"), vinzagew::WINNER_ENTRIES);
    assert_eq!(limit("NO_WINNER"), vinzagew::NO_WINNER.into());
    assert!(header.contains(
        "#define VINZAGEW_STACK_LENGTH(n) (1 + (VINZAGEW_TAIL_LIMIT - 1) * (size_t)(n))\n"
    ));
}

/// Builds the example in a folder of this name, and gives the folder.
fn build(name: &str) -> PathBuf {
    let folder = Path::new(env!("CARGO_TARGET_TMPDIR")).join(name);
    fs::create_dir_all(&folder).expect("a folder of our own");
    let status = Command::new(top().join("examples/c/build.sh"))
        .arg(&folder)
        .env(
            "VINZAGEW_LIB_DIR",
            option_env!("VINZAGEW_LIBRARY").unwrap_or_default(),
        )
        .status()
        .expect("sh is there");
    assert!(status.success());
    folder
}

/// What the example prints if it is called with these arguments, and its exit status.
fn call(folder: &Path, arguments: &[&str]) -> (String, Option<i32>) {
    let output = Command::new(folder.join("read"))
        .current_dir(folder)
        .args(arguments)
        .output()
        .expect("the example runs");
    let line = String::from_utf8(output.stdout).expect("a line");
    (line.trim_end().to_owned(), output.status.code())
}

/// Lines as the example prints them, with this exit status.
fn printed(lines: &[&str], status: i32) -> (String, Option<i32>) {
    (lines.join("\n"), Some(status))
}

/// What the example prints for a sheet and a text, if there is one, and its exit status.
fn read(folder: &Path, sheet: &[u8], text: Option<&[u8]>) -> (String, Option<i32>) {
    fs::write(folder.join("sheet"), sheet).expect("a sheet");
    match text {
        Some(text) => {
            fs::write(folder.join("text"), text).expect("a text");
            call(folder, &["sheet", "text"])
        }
        None => call(folder, &["sheet"]),
    }
}

#[test]
#[cfg_attr(not(vinzagew_library), ignore = "the static library was not found")]
fn the_example_reads_numbers_between_slashes() {
    let folder = build("c-example");
    let check = |sheet: &[u8]| read(&folder, sheet, None);
    let read = |sheet: &[u8], text: &[u8]| read(&folder, sheet, Some(text));
    // Sheet D's rules, with N·(S·N)* and with sheet D's own expression; and each number of D in two bytes.
    let rules = [
        1, 2, 3, 1, 2, 1, 48, 57, 4, 1, 48, 57, 2, 1, 47, 47, 0, 1, 32, 32,
    ];
    let sheet = [&rules[..], &[3, 2, 0, 7, 3, 2, 1, 2, 0]].concat();
    let own = [3, 2, 0, 5, 4, 0, 3, 2, 1, 3, 2, 0, 6, 0];
    let sheet_d = [&rules[..], &own].concat();
    let padded: Vec<u8> = sheet_d.iter().flat_map(|byte| [byte | 0x80, 0]).collect();
    for sheet in [&sheet, &sheet_d, &padded] {
        assert_eq!(check(sheet), printed(&["0 0 0"], 0));
        for (text, run, recognised, status) in [
            (&b"12/7"[..], "0 4 3", "recogniser 0 4 3: 0 1 0", 0),
            (b"12//7", "15 3 2", "recogniser 15 3 4: 0 1 1 0", 1),
            (b"12//7h", "15 3 2", "recogniser 14 5 4: 0 1 1 0", 1),
            (b"12h", "14 2 1", "recogniser 14 2 1: 0", 1),
            (b"", "16 0 0", "recogniser 16 0 0", 1),
        ] {
            let expected = printed(&[run, recognised], status);
            assert_eq!(read(sheet, text), expected);
        }
    }
    for (sheet, refusal) in [(&rules[..], "3 20 0"), (&[0; 4_097], "2 0 0")] {
        assert_eq!(check(sheet), printed(&[refusal], 1));
        assert_eq!(read(sheet, b""), printed(&[refusal], 1));
    }
    let long = vec![b'1'; 1_048_577];
    let too_long = "recogniser 12 0 0";
    for (length, run, recognised, status) in [
        (2_048, "0 2048 1", "recogniser 0 2048 1: 0", 0),
        (2_049, "0 2049 1", too_long, 0),
        (1_048_576, "0 1048576 1", too_long, 0),
        (1_048_577, "12 0 0", too_long, 1),
    ] {
        let expected = printed(&[run, recognised], status);
        assert_eq!(read(&sheet, &long[..length]), expected);
    }
}

/// The second sheet of the example's comment: a word below a name pattern is read as the word.
#[test]
#[cfg_attr(not(vinzagew_library), ignore = "the static library was not found")]
fn the_example_reads_a_word_below_a_name_pattern() {
    let folder = build("c-example-words");
    let sheet = [
        1, 2, 3, 1, 2, 1, 97, 122, 4, 1, 97, 122, 2, 2, 1, 105, 105, 1, 102, 102, 0, 1, 32, 32, 3,
        2, 1, 2, 0,
    ];
    let read = |text: &[u8]| read(&folder, &sheet, Some(text));
    for (text, run, recognised, status) in [
        (&b"if iffy"[..], "0 7 2", "recogniser 0 7 2: 1 0", 0),
        (b"if if", "15 3 1", "recogniser 15 3 2: 1 1", 1),
        (b"iffy", "15 0 0", "recogniser 15 0 1: 0", 1),
    ] {
        assert_eq!(read(text), printed(&[run, recognised], status));
    }
}

/// The third sheet of the example's comment: a table of its image would have over 256 rows, and the text is read
/// without one.
#[test]
#[cfg_attr(not(vinzagew_library), ignore = "the static library was not found")]
fn the_example_reads_without_a_table() {
    let folder = build("c-example-many-rows");
    let either = [1, 97, 98];
    let sheet = [
        &[1, 1, 1, 1, 2, 4][..],
        &either,
        &[2, 1, 97, 97],
        &[&[2][..], &either].concat().repeat(6),
        &either,
        &[2, 0],
    ]
    .concat();
    let read = |text: &[u8]| read(&folder, &sheet, Some(text));
    let long = vec![b'a'; 1_048_577];
    for (text, run, recognised, status) in [
        (&b"abababab"[..], "0 8 1", "recogniser 0 8 1: 0", 0),
        (b"babababa", "14 0 0", "recogniser 14 0 0", 1),
        (b"", "16 0 0", "recogniser 16 0 0", 1),
        (&long, "12 0 0", "recogniser 12 0 0", 1),
    ] {
        assert_eq!(read(text), printed(&[run, recognised], status));
    }
}

/// The status is 2, and nothing is printed, if a file is missing and if the usage is wrong.
#[test]
#[cfg_attr(not(vinzagew_library), ignore = "the static library was not found")]
fn the_example_says_what_it_cannot_do() {
    let folder = build("c-example-misused");
    fs::write(folder.join("sheet"), [1]).expect("a sheet");
    assert_eq!(call(&folder, &["sheet"]), ("3 1 0".to_owned(), Some(1)));
    for arguments in [
        &[][..],
        &["missing"],
        &["sheet", "missing"],
        &["missing", "sheet"],
        &["sheet", "sheet", "sheet"],
    ] {
        let found = call(&folder, arguments);
        assert_eq!(found, (String::new(), Some(2)), "{arguments:?}");
    }
}
