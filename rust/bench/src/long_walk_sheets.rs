//! Sheets by which a walk may go far past the end of its match, each with texts in which many walks do so, and with
//! ordinary texts in which few do. Every text is accepted, however long. Nothing is measured here.
//!
//! The tests of long walks use this file too.

use vinzagew::builder::{Expression, Regex, Sheet, SheetBuilder};

/// A text of so many bytes.
pub type Text = fn(usize) -> Vec<u8>;

/// A sheet with its texts.
pub struct LongWalks {
    /// What the sheet's rules are.
    pub name: &'static str,
    /// It accepts any sequence of its tokens.
    pub sheet: Sheet,
    /// Few bytes of it are walked in vain.
    pub ordinary: Text,
    /// None of it is walked in vain, and each of its tokens has one byte, as where walks are in vain: beside it a time
    /// tells what these walks cost, and not what short tokens do.
    pub short_tokens: Text,
    /// Texts with a name each, of which many bytes are walked in vain.
    pub in_vain: Vec<(&'static str, Text)>,
}

impl LongWalks {
    /// The texts that are ordinary, with a name each; the one of longer tokens comes first.
    pub fn ordinary_texts(&self) -> Vec<(&'static str, Text)> {
        vec![
            ("ordinary", self.ordinary),
            ("ordinary, one byte a token", self.short_tokens),
        ]
    }
}

/// All of these sheets.
pub fn all() -> Vec<LongWalks> {
    vec![
        a_star_b(),
        a_star_b_and_c(),
        comments(),
        sixty_of_two_letters(),
        sixty_in_a_row(),
        sixty_optional(),
        many_rows(),
        closed_or_not(),
    ]
}

/// A sheet in which each of these rules returns a token of its own, and any sequence of tokens is denoted.
fn sheet(rules: impl IntoIterator<Item = Regex>, skipped: &[Regex]) -> Sheet {
    let mut builder = SheetBuilder::new();
    let mut tokens = Vec::new();
    for (number, regex) in rules.into_iter().enumerate() {
        let token = builder.token(format!("t{number}"));
        builder.rule(token, regex);
        tokens.push(Expression::from(token));
    }
    for regex in skipped {
        builder.skip(regex.clone());
    }
    let any = Expression::alternative(tokens).star();
    builder.finish(any).expect("bound")
}

/// Numbers that vary from one to the next and are the same in every run.
struct Varied(u32);

impl Varied {
    fn below(&mut self, bound: u32) -> u32 {
        self.0 = self.0.wrapping_mul(1_664_525).wrapping_add(1_013_904_223);
        (self.0 >> 8) % bound
    }

    /// So many letters, each of them one of two.
    fn letters(&mut self, count: u32, two: &[u8; 2]) -> Vec<u8> {
        (0..count).map(|_| two[self.below(2) as usize]).collect()
    }
}

/// Pieces one after the other, the last of them cut off, so that there are so many bytes.
fn fill(length: usize, piece: impl Fn(&mut Varied) -> Vec<u8>) -> Vec<u8> {
    let mut varied = Varied(1);
    let mut text = Vec::with_capacity(length);
    while text.len() < length {
        text.extend(piece(&mut varied));
    }
    text.truncate(length);
    text
}

/// The same bytes again and again.
fn repeated(length: usize, piece: &[u8]) -> Vec<u8> {
    fill(length, |_| piece.to_vec())
}

/// A text whose first half is of one kind and whose second half is of another.
fn halves(length: usize, [first, second]: [Text; 2]) -> Vec<u8> {
    let half = length / 2;
    [first(half), second(length - half)].concat()
}

/// Letters in vain and a byte that ends their walks, and then a text of another kind. 3,000 letters are enough that the
/// library goes on with alive positions within them, also in a text of a mebibyte. They are at most half of the text,
/// so that what comes after them is read in a short text too.
fn with_front(length: usize, front: impl Fn(usize) -> Vec<u8>, rest: Text) -> Vec<u8> {
    let mut text = front((length / 2).min(3_000));
    text.truncate(length);
    text.extend(rest(length - text.len()));
    text
}

/// A front for `with_front` of so many letters.
fn letters_and_z(count: usize) -> Vec<u8> {
    letters_and(&mut Varied(1), count as u32, b"z")
}

fn byte(byte: u8) -> Regex {
    Regex::byte(byte)
}

/// Without a `b` the walk goes to the text's end at each `a`.
pub fn a_star_b() -> LongWalks {
    fn ordinary(length: usize) -> Vec<u8> {
        repeated(length, b"aaab")
    }
    fn only_a(length: usize) -> Vec<u8> {
        repeated(length, b"a")
    }
    LongWalks {
        name: "`a`, `a*b`",
        sheet: sheet([byte(b'a'), byte(b'a').star().then(byte(b'b'))], &[]),
        ordinary,
        short_tokens: |length| repeated(length, b"b"),
        in_vain: vec![
            ("`a` alone", only_a),
            ("`aaab`, later `a` alone", |length| {
                halves(length, [ordinary, only_a])
            }),
        ],
    }
}

/// Here a walk in vain ends at the next `c`, and long matches come between such walks.
pub fn a_star_b_and_c() -> LongWalks {
    fn ordinary(length: usize) -> Vec<u8> {
        repeated(length, b"aaabc")
    }
    fn run(varied: &mut Varied, end: u8) -> Vec<u8> {
        let mut run = vec![b'a'; 100 + varied.below(800) as usize];
        run.push(end);
        run
    }
    LongWalks {
        name: "`a`, `a*b`, `c`",
        sheet: sheet(
            [byte(b'a'), byte(b'a').star().then(byte(b'b')), byte(b'c')],
            &[],
        ),
        ordinary,
        short_tokens: |length| repeated(length, b"bc"),
        in_vain: vec![
            ("hundreds of `a`, then `c` or `b` in turn", |length| {
                fill(length, |varied| {
                    [run(varied, b'c'), run(varied, b'b')].concat()
                })
            }),
            ("hundreds of `a`, then `c`", |length| {
                fill(length, |varied| run(varied, b'c'))
            }),
            ("3,000 `a` and `c`, then ordinary", |length| {
                let front = |count| [vec![b'a'; count], vec![b'c']].concat();
                with_front(length, front, ordinary)
            }),
        ],
    }
}

/// Names and signs, and in each line a comment that is closed.
fn commented_lines(length: usize) -> Vec<u8> {
    fill(length, |varied| {
        let names = [(); 3].map(|()| {
            let count = 1 + varied.below(7);
            varied.letters(count, b"xy")
        });
        let [one, two, three] = names.map(|name| String::from_utf8(name).expect("letters"));
        format!("{one} + ({two} - {three}); /* {two} * {one} */\n").into_bytes()
    })
}

/// Comments as in C, beside signs and names. If a comment is not closed, the walk goes to the text's end at each `/`
/// before `*`, and each byte after it is a token or a blank.
pub fn comments() -> LongWalks {
    fn opened(length: usize) -> Vec<u8> {
        repeated(length, b"/* ")
    }
    fn sign(varied: &mut Varied) -> Vec<u8> {
        vec![b"+-();"[varied.below(5) as usize]]
    }
    let signs = b"/*+-();".map(byte);
    let name = Regex::class(b'a', b'z').plus();
    LongWalks {
        name: "`/`, `/* .. */`, other signs",
        sheet: sheet(
            signs.into_iter().chain([name]),
            &[byte(b' ').or(byte(b'\n')), comment()],
        ),
        ordinary: commented_lines,
        short_tokens: |length| fill(length, sign),
        in_vain: vec![
            ("`/* ` again and again", opened),
            ("`/* x + y; ` again and again", |length| {
                repeated(length, b"/* x + y; ")
            }),
            ("`/*` in each line, never closed", |length| {
                repeated(length, b"xyx * (x - yy) + (y / x);  /* x + y;\n")
            }),
            ("ordinary, later `/* `", |length| {
                halves(length, [commented_lines, opened])
            }),
        ],
    }
}

/// `/*`, then bytes with no `*/` among them, then `*/`.
fn comment() -> Regex {
    let not_star = || Regex::class(0, b'*' - 1).or(Regex::class(b'*' + 1, 255));
    let neither = Regex::alternative([
        Regex::class(0, b'*' - 1),
        Regex::class(b'*' + 1, b'/' - 1),
        Regex::class(b'/' + 1, 255),
    ]);
    let stars = || byte(b'*').plus();
    Regex::sequence([
        Regex::literal(b"/*"),
        not_star().or(stars().then(neither)).star(),
        stars(),
        byte(b'/'),
    ])
}

/// Any number of letters, then `c`. Of so many positions each may follow each, and they have `a` and `b` in turn, so
/// that about half of them are kept at each letter.
fn letters_then_c(positions: usize) -> Regex {
    let letters = (0..positions).map(|number| byte(b"ab"[number % 2]));
    Regex::alternative(letters).star().then(byte(b'c'))
}

/// So many letters, and a byte after them.
fn letters_and(varied: &mut Varied, count: u32, end: &[u8]) -> Vec<u8> {
    [&varied.letters(count, b"ab")[..], end].concat()
}

/// Matches of eight bytes by `letters_then_c`.
fn sevens_and_c(length: usize) -> Vec<u8> {
    fill(length, |varied| letters_and(varied, 7, b"c"))
}

/// 29 positions are kept at each letter.
pub fn sixty_of_two_letters() -> LongWalks {
    LongWalks {
        name: "`a`, `b`, `[ab]*c` of 59 positions",
        sheet: sheet([byte(b'a'), byte(b'b'), letters_then_c(58)], &[]),
        ordinary: sevens_and_c,
        short_tokens: |length| repeated(length, b"c"),
        in_vain: vec![("`a` or `b`", |length| {
            fill(length, |varied| varied.letters(64, b"ab"))
        })],
    }
}

/// As many positions, and a byte that ends a walk in vain. So walks in vain may stand beside long matches, or before a
/// text that is ordinary.
fn closed_or_not() -> LongWalks {
    let signs = b"abz".map(byte);
    LongWalks {
        name: "`a`, `b`, `z`, `[ab]*c` of 58 positions",
        sheet: sheet(signs.into_iter().chain([letters_then_c(57)]), &[]),
        ordinary: sevens_and_c,
        short_tokens: |length| repeated(length, b"c"),
        in_vain: vec![
            ("3,000 letters and `z`, then ordinary", |length| {
                with_front(length, letters_and_z, sevens_and_c)
            }),
            ("300 letters, then `z` or `c` in turn", |length| {
                fill(length, |varied| {
                    [b"z", b"c"]
                        .map(|end| letters_and(varied, 300, end))
                        .concat()
                })
            }),
        ],
    }
}

/// A walk goes on for 59 bytes at most, one position after the other. `c` is there for short tokens that begin no walk
/// in vain.
fn sixty_in_a_row() -> LongWalks {
    fn run(more: usize) -> Vec<u8> {
        [vec![b'a'; 59 + more], vec![b'b']].concat()
    }
    LongWalks {
        name: "`a`, 59 times `a` then `b`, `c`",
        sheet: sheet(
            [
                byte(b'a'),
                Regex::sequence((0..59).map(|_| byte(b'a')).chain([byte(b'b')])),
                byte(b'c'),
            ],
            &[],
        ),
        ordinary: |length| repeated(length, &run(0)),
        short_tokens: |length| repeated(length, b"c"),
        in_vain: vec![
            ("`a` alone", |length| repeated(length, b"a")),
            ("`a`, now and then `b`", |length| {
                fill(length, |varied| run(varied.below(600) as usize))
            }),
        ],
    }
}

/// Of 59 positions each may be followed by each later one, so that up to 59 are kept.
fn sixty_optional() -> LongWalks {
    let parts = (0..59).map(|_| byte(b'a').optional());
    LongWalks {
        name: "`a`, up to 59 times `a` then `b`",
        sheet: sheet(
            [byte(b'a'), Regex::sequence(parts.chain([byte(b'b')]))],
            &[],
        ),
        ordinary: |length| repeated(length, b"aaaaaaab"),
        short_tokens: |length| repeated(length, b"b"),
        in_vain: vec![
            ("`a` alone", |length| repeated(length, b"a")),
            ("`a`, now and then `b`", |length| {
                fill(length, |varied| {
                    [vec![b'a'; 100 + varied.below(600) as usize], vec![b'b']].concat()
                })
            }),
        ],
    }
}

/// Any number of two letters, the first of the two, so many of either, and then an end.
fn shifting(low: u8, more: usize, end: u8) -> Regex {
    let either = || Regex::class(low, low + 1);
    let parts = [either().star(), byte(low)].into_iter();
    let more = (0..more).map(|_| either());
    Regex::sequence(parts.chain(more).chain([byte(end)]))
}

/// A match by `shifting(b'a', 6, b'c')`.
fn closed(varied: &mut Varied, count: u32) -> Vec<u8> {
    let [before, after] = [count, 6].map(|count| varied.letters(count, b"ab"));
    [&before[..], b"a", &after, b"c"].concat()
}

/// The last bytes that were read decide which row it is, of 250. At each `a` or `b` the walk goes to the next `c` or
/// `z`.
pub fn many_rows() -> LongWalks {
    fn ordinary(length: usize) -> Vec<u8> {
        fill(length, |varied| closed(varied, 4))
    }
    let signs = b"abz".map(byte);
    // Each byte of the word makes a row too.
    let others = [
        shifting(b'a', 6, b'c'),
        shifting(b'd', 5, b'f'),
        shifting(b'g', 4, b'i'),
        Regex::literal(&(128..146).collect::<Vec<u8>>()),
    ];
    LongWalks {
        name: "`a`, `b`, `z`, `[ab]*a[ab]..c`",
        sheet: sheet(signs.into_iter().chain(others), &[]),
        ordinary,
        short_tokens: |length| repeated(length, b"z"),
        in_vain: vec![
            ("`a` or `b`", |length| {
                fill(length, |varied| varied.letters(64, b"ab"))
            }),
            (
                "hundreds of `a` or `b`, then `z` or `c` in turn",
                |length| {
                    fill(length, |varied| {
                        let [count, vain] = [(); 2].map(|()| 100 + varied.below(800));
                        [letters_and(varied, vain, b"z"), closed(varied, count)].concat()
                    })
                },
            ),
            ("3,000 letters and `z`, then ordinary", |length| {
                with_front(length, letters_and_z, ordinary)
            }),
        ],
    }
}
