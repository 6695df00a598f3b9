//! The grammars that are measured, each with a long, a middling and a short text that it accepts.
//! Nothing is measured here.

use vinzagew::builder::{Expression, Regex, Sheet, SheetBuilder, Token};
use vinzagew::{RECOGNISER_TEXT_LIMIT, TEXT_LIMIT};

/// A grammar with three texts.
pub struct Grammar {
    /// What the grammar reads.
    pub name: &'static str,
    /// Its sheet.
    pub sheet: Sheet,
    /// A text of at most [`TEXT_LIMIT`] bytes that it accepts, and not many fewer.
    pub text: Vec<u8>,
    /// The same, but of at most [`RECOGNISER_TEXT_LIMIT`] bytes.
    pub middling_text: Vec<u8>,
    /// A text of 8 bytes that it accepts.
    pub short_text: &'static [u8; 8],
}

/// The grammars that the targets are about.
pub fn all() -> Vec<Grammar> {
    vec![sheet_d(), s_expressions(), json(), csv()]
}

/// Grammars written with fixed points, each beside one that is written with repetitions. Both of a pair
/// have the same rules and the same text.
pub fn pairs() -> Vec<[Grammar; 2]> {
    vec![
        [json(), json_with_repetition()],
        [csv(), csv_with_repetition()],
    ]
}

/// The grammars of [`all`], made so that running only scans: all rules skip, and the expression denotes the
/// empty sequence alone. They accept the same texts, with no tokens.
pub fn scanning_alone() -> Vec<Grammar> {
    let skipping = |grammar: Grammar| {
        let mut builder = SheetBuilder::new();
        // A sheet has one token at least. No rule returns this one.
        builder.token("unused");
        for rule in grammar.sheet.rules() {
            builder.skip(rule.regex.clone());
        }
        Grammar {
            sheet: builder.finish(Expression::epsilon()).expect("bound"),
            ..grammar
        }
    };
    all().into_iter().map(skipping).collect()
}

/// Numbers that vary from one to the next and are the same in every run.
fn varied(state: &mut u32) -> u32 {
    *state = state.wrapping_mul(1_664_525).wrapping_add(1_013_904_223);
    *state >> 8
}

/// Repeats items between a start and an end until the limit is near.
fn fill(limit: usize, [start, end]: [&str; 2], item: &dyn Fn(&mut u32, bool) -> String) -> Vec<u8> {
    let mut text = start.as_bytes().to_vec();
    let mut state = 1;
    let mut first = true;
    loop {
        let next = item(&mut state, first);
        if text.len() + next.len() + end.len() > limit {
            break;
        }
        text.extend(next.as_bytes());
        first = false;
    }
    text.extend(end.as_bytes());
    text
}

/// The long text and the middling one, each of items between a start and an end.
fn texts(start: &str, end: &str, item: impl Fn(&mut u32, bool) -> String) -> [Vec<u8>; 2] {
    [TEXT_LIMIT, RECOGNISER_TEXT_LIMIT].map(|limit| fill(limit, [start, end], &item))
}

/// The contract's sheet D: numbers between slashes.
fn sheet_d() -> Grammar {
    let mut builder = SheetBuilder::new();
    let number = builder.token("N");
    let slash = builder.token("S");
    builder.rule(number, Regex::class(b'0', b'9').plus());
    builder.rule(slash, Regex::byte(b'/'));
    builder.skip(Regex::byte(b' '));
    let more = Expression::fix(|more| Expression::epsilon().or(slash.then(number.then(more))));
    let [text, middling_text] = texts("7", "", |state, _| format!(" /{}", varied(state) % 10_000));
    Grammar {
        name: "sheet D",
        sheet: builder.finish(number.then(more)).expect("bound"),
        text,
        middling_text,
        short_text: b"12/3/456",
    }
}

/// Atoms and lists in round brackets.
fn s_expressions() -> Grammar {
    let mut builder = SheetBuilder::new();
    let atom = builder.token("atom");
    let open = builder.token("open");
    let close = builder.token("close");
    let letter = Regex::class(b'a', b'z').or(Regex::class(b'0', b'9'));
    builder.rule(atom, letter.plus());
    builder.rule(open, Regex::byte(b'('));
    builder.rule(close, Regex::byte(b')'));
    builder.skip(Regex::byte(b' ').or(Regex::byte(b'\n')));
    let expression = Expression::fix(|expression| {
        let rest = Expression::fix(|rest| Expression::from(close).or(expression.then(rest)));
        atom.or(open.then(rest))
    });
    let [text, middling_text] = texts("(", ")", |state, _| {
        let (one, other) = (varied(state), varied(state));
        format!("(define f{one} (lambda (x y) (plus x (times y {other}))))\n")
    });
    Grammar {
        name: "s-expressions",
        sheet: builder.finish(expression).expect("bound"),
        text,
        middling_text,
        short_text: b"(ab (c))",
    }
}

/// JSON.
fn json() -> Grammar {
    json_with_lists("JSON", |item, comma, close| {
        // An item and more of them after commas, up to the closing token; or none.
        let more =
            Expression::fix(|more| Expression::from(close).or(comma.then(item.clone().then(more))));
        Expression::from(close).or(item.then(more))
    })
}

/// JSON, with repetitions in its lists; the language is the same.
fn json_with_repetition() -> Grammar {
    json_with_lists("JSON with repetition", |item, comma, close| {
        let items = item.clone().then(comma.then(item).star());
        Expression::from(close).or(items.then(close))
    })
}

/// JSON; `list` makes of an item, the comma and a closing token what may follow the opening one.
fn json_with_lists(
    name: &'static str,
    list: impl Fn(Expression, Token, Token) -> Expression,
) -> Grammar {
    let mut builder = SheetBuilder::new();
    let string = builder.token("string");
    let scalar = builder.token("scalar");
    let punctuation = ["{", "}", "[", "]", ",", ":"].map(|sign| {
        let token = builder.token(sign);
        builder.rule(token, Regex::literal(sign.as_bytes()));
        token
    });
    let [open_object, close_object, open_array, close_array, comma, colon] = punctuation;
    builder.rule(string, json_string());
    builder.rule(scalar, json_number());
    for word in [&b"true"[..], b"false", b"null"] {
        builder.rule(scalar, Regex::literal(word));
    }
    builder.skip(json_blank());

    let value = Expression::fix(|value| {
        let member = string.then(colon.then(value.clone())).label("member");
        let members = list(member, comma, close_object);
        let object = open_object.then(members).label("object");
        let array = open_array
            .then(list(value, comma, close_array))
            .label("array");
        Expression::alternative([string.into(), scalar.into(), object, array])
    });
    let [text, middling_text] = json_texts();
    Grammar {
        name,
        sheet: builder.finish(value).expect("bound"),
        text,
        middling_text,
        short_text: b"[1,\"ab\"]",
    }
}

fn digit() -> Regex {
    Regex::class(b'0', b'9')
}

fn json_blank() -> Regex {
    Regex::alternative([
        Regex::byte(b' '),
        Regex::class(b'\t', b'\n'),
        Regex::byte(b'\r'),
    ])
}

fn json_string() -> Regex {
    let hexadecimal =
        || Regex::alternative([digit(), Regex::class(b'A', b'F'), Regex::class(b'a', b'f')]);
    let escape = Regex::one_of(b"\"\\/bfnrt").or(Regex::sequence(
        std::iter::once(Regex::byte(b'u')).chain((0..4).map(|_| hexadecimal())),
    ));
    let sign = Regex::alternative([
        Regex::class(b' ', b'!'),
        Regex::class(b'#', b'['),
        Regex::class(b']', 255),
        Regex::byte(b'\\').then(escape),
    ]);
    let quote = || Regex::byte(b'"');
    Regex::sequence([quote(), sign.star(), quote()])
}

fn json_number() -> Regex {
    Regex::sequence([
        Regex::byte(b'-').optional(),
        Regex::byte(b'0').or(Regex::class(b'1', b'9').then(digit().star())),
        Regex::byte(b'.').then(digit().plus()).optional(),
        Regex::sequence([
            Regex::one_of(b"eE"),
            Regex::one_of(b"+-").optional(),
            digit().plus(),
        ])
        .optional(),
    ])
}

fn json_texts() -> [Vec<u8>; 2] {
    texts("[", "]", |state, first| {
        let comma = if first { "" } else { "," };
        let (one, other) = (varied(state), varied(state) % 1_000);
        format!(
            "{comma}\n  {{\"number\": {one}, \"name\": \"sample \\\"{other}\\\"\", \
             \"values\": [1.5, -2e+3, {other}, null], \"sown\": true}}"
        )
    })
}

/// Fields between commas and line ends; a field may be empty, bare or quoted.
fn csv() -> Grammar {
    csv_with_lines("CSV", |field, comma, end| {
        Expression::fix(|file| {
            let next = comma.then(file.clone()).or(end.then(file));
            let after_field = Expression::epsilon().or(next.clone());
            Expression::epsilon().or(field.then(after_field).or(next))
        })
    })
}

/// CSV as repeated lines, each of them repeated fields; here the last line ends with a line end too.
fn csv_with_repetition() -> Grammar {
    csv_with_lines("CSV with repetition", |field, comma, end| {
        // A repetition is nullable, so none can be the left part of a sequence: what comes first in a
        // line is written apart.
        let next = comma.then(field.optional());
        let line = field.or(next.clone()).then(next.star());
        end.or(line.then(end)).star()
    })
}

/// CSV; `file` makes of a field, the comma and the line end what is read.
fn csv_with_lines(
    name: &'static str,
    file: impl FnOnce(Token, Token, Token) -> Expression,
) -> Grammar {
    let mut builder = SheetBuilder::new();
    let field = builder.token("field");
    let comma = builder.token("comma");
    let end = builder.token("end of line");
    let bare = || {
        Regex::alternative([
            Regex::class(b' ', b'!'),
            Regex::class(b'#', b'+'),
            Regex::class(b'-', 255),
        ])
    };
    let quote = || Regex::byte(b'"');
    let quoted = Regex::alternative([
        Regex::class(0, b'!'),
        Regex::class(b'#', 255),
        Regex::literal(b"\"\""),
    ]);
    builder.rule(field, bare().plus());
    builder.rule(field, Regex::sequence([quote(), quoted.star(), quote()]));
    builder.rule(comma, Regex::byte(b','));
    builder.rule(end, Regex::byte(b'\r').optional().then(Regex::byte(b'\n')));
    let [text, middling_text] = texts("number,name,place,count\n", "", |state, _| {
        let (one, other) = (varied(state), varied(state) % 1_000);
        format!("{one},\"plot {other}, \"\"north\"\"\",,{other}\r\n")
    });
    Grammar {
        name,
        sheet: builder.finish(file(field, comma, end)).expect("bound"),
        text,
        middling_text,
        short_text: b"ab,\"c\",\n",
    }
}

/// How many rows the rules of [`of_rows`] but the first make, with rows 0 and 1.
const ROWS_WITHOUT_THE_WORD: usize = 2 + 128 + 64 + 32;

/// A sheet whose image's table has, or would have, so many rows. It has a word, each byte of which makes a row, and
/// three rules of two letters each: any number of either, the first of the two, and then some more of either.
pub fn of_rows(rows: usize) -> Sheet {
    let mut builder = SheetBuilder::new();
    let tokens = ["word", "a, b", "c, d", "e, f"].map(|name| builder.token(name));
    let end = 128 + (rows - ROWS_WITHOUT_THE_WORD) as u8;
    builder.rule(tokens[0], Regex::literal(&(128..end).collect::<Vec<u8>>()));
    for (token, (low, more)) in tokens[1..].iter().zip([(b'a', 6), (b'c', 5), (b'e', 4)]) {
        let either = || Regex::class(low, low + 1);
        let parts = [either().star(), Regex::byte(low)].into_iter();
        let regex = Regex::sequence(parts.chain((0..more).map(|_| either())));
        builder.rule(*token, regex);
    }
    let either = Expression::alternative(tokens.map(Expression::from));
    builder.finish(either).expect("bound")
}
