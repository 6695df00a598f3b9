//! Random sheets, images and texts, valid and damaged.
//!
//! Nothing is called and nothing is compared here. What a sheet is made to be, such as one that passes
//! checking, is only a promise of its function: the tests see whether it is kept.

use super::numbers::numbers;
use super::random::Random;
use vinzagew::builder::{Expression, Regex, Sheet, SheetBuilder, Token};
use vinzagew::TAIL_LIMIT;
use vinzagew_reference::image::{Image, Row};
use vinzagew_reference::lexer::Position;
use vinzagew_reference::machine::longest_match;
use vinzagew_reference::number::{self, WIDTH_LIMIT};
use vinzagew_reference::sheet::{CLASS_LIMIT, NODE_LIMIT, REGEX_NODE_LIMIT};

/// The bytes that most classes are made of: few, so that several rules match.
const ALPHABET: &[u8] = b"abc01/ ";

fn letter(random: &mut Random) -> u8 {
    match random.below(24) {
        0 => random.next() as u8,
        _ => *random.pick(ALPHABET),
    }
}

fn class(random: &mut Random) -> Regex {
    let low = letter(random);
    let high = match random.below(8) {
        0 => low.saturating_add(random.below(4) as u8),
        1 => low.max(letter(random)),
        2 if random.once_in(8) => 255,
        _ => low,
    };
    Regex::class(low, high)
}

/// A regex of at most `size` nodes without the empty word.
fn solid_regex(random: &mut Random, size: usize) -> Regex {
    if size < 3 {
        return class(random);
    }
    let left = random.range(1, size - 2);
    let right = size - 1 - left;
    match random.below(6) {
        0 => class(random),
        1 => solid_regex(random, left).or(solid_regex(random, right)),
        2 => any_regex(random, left).then(solid_regex(random, right)),
        3 => solid_regex(random, (size - 2) / 2).plus(),
        _ => solid_regex(random, left).then(any_regex(random, right)),
    }
}

/// A regex of at most `size` nodes.
fn any_regex(random: &mut Random, size: usize) -> Regex {
    if size < 3 {
        return match random.below(4) {
            0 => Regex::empty(),
            1 if size == 2 => class(random).star(),
            _ => class(random),
        };
    }
    let left = random.range(1, size - 2);
    let right = size - 1 - left;
    match random.below(6) {
        0 => any_regex(random, size - 1).star(),
        1 => any_regex(random, left).or(any_regex(random, right)),
        2 => any_regex(random, left).then(any_regex(random, right)),
        _ => solid_regex(random, size),
    }
}

/// How many nodes a regex has at most, so that all rules together keep the limits.
fn regex_size(random: &mut Random, rules: usize) -> usize {
    let most = (64 / rules).min(20);
    match random.below(4) {
        0 => 1,
        1 => random.range(1, most),
        _ => random.range(1, most.min(6)),
    }
}

/// Adds so many tokens.
fn add_tokens(builder: &mut SheetBuilder, count: usize) -> Vec<Token> {
    (0..count)
        .map(|index| builder.token(format!("t{index}")))
        .collect()
}

/// The regex of a word rule for this word: its bytes in sequences that are nested in any way, with empty words
/// here and there.
fn word_regex(random: &mut Random, word: &[u8]) -> Regex {
    let inner = match word {
        [] => Regex::empty(),
        [byte] => Regex::byte(*byte),
        _ => {
            let (left, right) = word.split_at(random.range(1, word.len() - 1));
            word_regex(random, left).then(word_regex(random, right))
        }
    };
    match random.below(16) {
        0 => Regex::empty().then(inner),
        1 => inner.then(Regex::empty()),
        _ => inner,
    }
}

/// A word of at most so many letters, each `a` or `b`: often others are equal to it or begin with it.
fn short_word(random: &mut Random, longest: usize) -> Vec<u8> {
    (0..random.range(1, longest))
        .map(|_| *random.pick(b"ab"))
        .collect()
}

/// The regex of a rule that is no word rule and matches this word, and in most cases others too. The longest
/// word has `longest` letters, and the regex at most twice as many classes.
fn pattern_regex(random: &mut Random, word: &[u8], longest: usize) -> Regex {
    let own = word_regex(random, word);
    match random.below(9) {
        0..=2 => Regex::class(b'a', b'b').plus(),
        3 => Regex::sequence(word.iter().map(|&byte| Regex::class(byte, byte + 1))),
        4 => own.then(class(random).star()),
        5 => {
            let other = short_word(random, longest);
            own.or(word_regex(random, &other))
        }
        // With the word alone.
        6 => own.clone().or(own),
        7 => Regex::empty().star().then(own),
        _ => own.then(Regex::empty().or(Regex::empty())),
    }
}

/// Tokens and rules: words, some of them equal, and patterns that match them too, in any order. Each may
/// skip. They are few, or about as many rules and classes as the limits allow.
fn overlapping_rules(random: &mut Random) -> (SheetBuilder, Vec<Token>) {
    let mut builder = SheetBuilder::new();
    let (token_count, rule_count, longest) = match random.below(6) {
        0 => (random.range(1, 24), random.range(24, 32), 1),
        _ => (random.range(1, 4), random.range(2, 8), 3),
    };
    let tokens = add_tokens(&mut builder, token_count);
    // The word of most rules.
    let shared = short_word(random, longest);
    let blank = random.below(rule_count + 1);
    for rule in 0..rule_count {
        let word = match random.below(4) {
            0 => short_word(random, longest),
            _ => shared.clone(),
        };
        // Most often the uppermost is a pattern, so that it stands above all words.
        let regex = if random.once_in(if rule == 0 { 4 } else { 2 }) {
            word_regex(random, &word)
        } else {
            pattern_regex(random, &word, longest)
        };
        match random.below(6) {
            _ if rule == blank => builder.skip(Regex::byte(b' ')),
            0 => builder.skip(regex),
            _ => builder.rule(*random.pick(&tokens), regex),
        };
    }
    (builder, tokens)
}

/// Tokens and rules.
fn rules(random: &mut Random) -> (SheetBuilder, Vec<Token>) {
    if random.once_in(3) {
        return overlapping_rules(random);
    }
    let mut builder = SheetBuilder::new();
    let (token_count, rule_count) = match random.below(8) {
        0 => (random.range(1, 24), random.range(1, 32)),
        1 => (random.range(1, 24), random.range(24, 32)),
        _ => {
            let tokens = random.range(1, 6);
            (tokens, tokens + random.below(3))
        }
    };
    let tokens = add_tokens(&mut builder, token_count);
    for rule in 0..rule_count {
        let size = regex_size(random, rule_count);
        // Often a rule of a token has a word that few others have.
        let regex = match ALPHABET.get(rule) {
            Some(&byte) if byte != b' ' && !random.once_in(3) => Regex::byte(byte),
            _ => solid_regex(random, size),
        };
        match tokens.get(rule) {
            Some(&token) if !random.once_in(16) => builder.rule(token, regex),
            _ if random.once_in(2) => builder.rule(*random.pick(&tokens), regex),
            _ if random.once_in(2) => builder.skip(Regex::byte(b' ')),
            _ => builder.skip(regex),
        };
    }
    (builder, tokens)
}

/// What the type of an expression must keep.
#[derive(Clone, Copy)]
struct Bounds {
    /// The first set is within this one.
    first: u32,
    /// Whether the expression may be nullable.
    nullable: bool,
    /// The follow-last set has none of these.
    avoid: u32,
}

/// Those of an expression that denotes nothing: its type is the empty language's and keeps any
/// bounds.
const NOTHING: Bounds = Bounds {
    first: 0,
    nullable: false,
    avoid: u32::MAX,
};

/// An open fixed point.
#[derive(Clone)]
struct Open {
    variable: Expression,
    bounds: Bounds,
    guarded: bool,
}

impl Open {
    fn fits(&self, bounds: Bounds) -> bool {
        self.guarded
            && self.bounds.first & !bounds.first == 0
            && (bounds.nullable || !self.bounds.nullable)
            && bounds.avoid & !self.bounds.avoid == 0
    }
}

/// The open fixed points, as they are in the right part of a sequence.
fn guarded(open: &[Open]) -> Vec<Open> {
    let guarded = |open: &Open| Open {
        guarded: true,
        ..open.clone()
    };
    open.iter().map(guarded).collect()
}

struct Typed<'a> {
    random: &'a mut Random,
    tokens: Vec<Token>,
    /// Whether a bound may be forgotten now and then, so that some node may fail its question.
    slips: bool,
    /// In how many expressions one has a branch beside it that denotes nothing, or is a repetition
    /// of what denotes nothing. Of the leaves half as many are ⊥.
    unfinished: usize,
}

impl Typed<'_> {
    fn slip(&mut self) -> bool {
        self.slips && self.random.once_in(8)
    }

    /// A subset, with at least one member if there is one.
    fn subset(&mut self, set: u32) -> u32 {
        match set & self.random.next() as u32 {
            0 => set & set.wrapping_neg(),
            subset => subset,
        }
    }

    fn leaf(&mut self, bounds: Bounds, open: &[Open]) -> Expression {
        let fitting: Vec<&Open> = open.iter().filter(|open| open.fits(bounds)).collect();
        if !fitting.is_empty() && !self.random.once_in(4) {
            return self.random.pick(&fitting).variable.clone();
        }
        if bounds.nullable && (bounds.first == 0 || self.random.once_in(2)) {
            return Expression::epsilon();
        }
        let tokens: Vec<Token> = self
            .tokens
            .iter()
            .copied()
            .filter(|token| bounds.first >> token.number() & 1 == 1)
            .collect();
        if tokens.is_empty() || self.random.once_in(2 * self.unfinished) {
            return Expression::bottom();
        }
        Expression::token(*self.random.pick(&tokens))
    }

    /// An expression of at most `size` nodes that has a type within the bounds.
    fn expression(&mut self, size: usize, bounds: Bounds, open: &[Open]) -> Expression {
        if bounds.first == 0 && !bounds.nullable {
            return self.denoting_nothing(size, open);
        }
        if size >= 5 && self.random.once_in(self.unfinished) {
            return self.with_unfinished(size, bounds, open);
        }
        let repeats = bounds.nullable && self.random.once_in(3);
        let least = if repeats { 2 } else { 3 };
        if size < least || self.random.once_in(16) {
            return self.leaf(bounds, open);
        }
        let several = bounds.nullable || bounds.first.count_ones() > 1;
        let made = match self.random.below(8) {
            _ if repeats => self.repetition(size, bounds, open),
            0..=2 if several => self.alternative(size, bounds, open, open),
            3 => self.fix(size, bounds, open),
            _ => self.sequence(size, bounds, open),
        };
        if self.random.once_in(30) {
            made.label("labelled")
        } else {
            made
        }
    }

    /// All tokens, as a set.
    fn all(&self) -> u32 {
        let numbers = self.tokens.iter().map(|token| token.number());
        numbers.fold(0, |set, number| set | 1 << number)
    }

    /// An alternative with a branch that denotes nothing. That may begin with the tokens that the
    /// other part begins with.
    fn with_unfinished(&mut self, size: usize, bounds: Bounds, open: &[Open]) -> Expression {
        let unfinished_size = self.random.range(1, size - 2);
        let unfinished = self.denoting_nothing(unfinished_size, open);
        let other = self.expression(size - 1 - unfinished_size, bounds, open);
        match self.random.below(2) {
            0 => unfinished.or(other),
            _ => other.or(unfinished),
        }
    }

    /// An expression of at most `size` nodes that denotes nothing. Of a sequence one part is such,
    /// and the other need not be.
    fn denoting_nothing(&mut self, size: usize, open: &[Open]) -> Expression {
        if size < 3 || self.random.once_in(8) {
            return self.leaf(NOTHING, open);
        }
        let left = self.random.range(1, size - 2);
        let right = size - 1 - left;
        let any = Bounds {
            first: self.all(),
            nullable: false,
            avoid: 0,
        };
        let inner = guarded(open);
        match self.random.below(8) {
            0 | 1 => self.fix_denoting_nothing(size, open),
            2 => {
                let left = self.denoting_nothing(left, open);
                left.or(self.denoting_nothing(right, open))
            }
            3 => {
                let nullable = self.random.once_in(2);
                let right_bounds = Bounds { nullable, ..any };
                let left = self.denoting_nothing(left, open);
                left.then(self.expression(right, right_bounds, &inner))
            }
            _ => {
                let left = self.expression(left, any, open);
                left.then(self.denoting_nothing(right, &inner))
            }
        }
    }

    /// A fixed point that denotes nothing, such as μα.N·α. Its variable denotes nothing either.
    fn fix_denoting_nothing(&mut self, size: usize, open: &[Open]) -> Expression {
        Expression::fix(|variable| {
            let mut inner = open.to_vec();
            inner.push(Open {
                variable,
                bounds: NOTHING,
                guarded: self.slip(),
            });
            self.denoting_nothing(size - 1, &inner)
        })
    }

    /// An alternative; its parts may have different open fixed points.
    fn alternative(
        &mut self,
        size: usize,
        bounds: Bounds,
        open_left: &[Open],
        open_right: &[Open],
    ) -> Expression {
        let left_size = match self.random.below(3) {
            0 => 1,
            _ => self.random.range(1, size - 2),
        };
        let nullable = bounds.nullable && self.random.once_in(2);
        let first = match bounds.first.count_ones() {
            0 | 1 => 0,
            _ => self.subset(bounds.first),
        };
        let left = Bounds {
            first,
            nullable: nullable || first == 0,
            ..bounds
        };
        let mut right = Bounds {
            first: bounds.first & !left.first,
            nullable: bounds.nullable && !left.nullable,
            ..bounds
        };
        if self.slip() {
            right.first = bounds.first;
        }
        if self.slip() {
            right.nullable = true;
        }
        let left = self.expression(left_size, left, open_left);
        left.or(self.expression(size - 1 - left_size, right, open_right))
    }

    /// A repetition, for bounds that allow a nullable expression.
    fn repetition(&mut self, size: usize, bounds: Bounds, open: &[Open]) -> Expression {
        // What begins the part may also follow the last token.
        let allowed = bounds.first & !bounds.avoid;
        let mut first = self.subset(allowed);
        // Often the part is made so that some variable fits.
        let wanted: Vec<u32> = open
            .iter()
            .map(|open| open.bounds.first)
            .filter(|wanted| wanted & !allowed == 0)
            .collect();
        if !wanted.is_empty() && self.random.once_in(2) {
            first = *self.random.pick(&wanted);
        }
        let mut part = Bounds {
            first,
            nullable: self.slip(),
            avoid: bounds.avoid | first,
        };
        if self.slip() {
            part.avoid = 0;
        }
        if self.random.once_in(self.unfinished) {
            return self.denoting_nothing(size - 1, open).star();
        }
        self.expression(size - 1, part, open).star()
    }

    fn fix(&mut self, size: usize, bounds: Bounds, open: &[Open]) -> Expression {
        // The closer the bounds, the more places the variable fits. In a repetition it must avoid its
        // own first set.
        let mut more = (self.random.next() & self.random.next()) as u32;
        if self.random.once_in(3) {
            more |= bounds.first;
        }
        let bounds = Bounds {
            first: bounds.first,
            nullable: bounds.nullable && !self.random.once_in(3),
            avoid: bounds.avoid | more,
        };
        let several = bounds.nullable || bounds.first.count_ones() > 1;
        Expression::fix(|variable| {
            let mut inner = open.to_vec();
            inner.push(Open {
                variable,
                bounds,
                guarded: self.slip(),
            });
            // Without a part that does not come back to the variable, nothing is denoted.
            if several && size > 4 && !self.random.once_in(8) {
                self.alternative(size - 1, bounds, open, &inner)
            } else {
                self.expression(size - 1, bounds, &inner)
            }
        })
    }

    fn sequence(&mut self, size: usize, bounds: Bounds, open: &[Open]) -> Expression {
        let inner = guarded(open);
        let left_size = match self.random.below(6) {
            0 | 1 => self.random.range(1, size - 2),
            2 => size - 2,
            _ => 1,
        };
        let all = self.all();
        let nullable = bounds.nullable && self.random.once_in(2);
        let nullable = nullable || self.random.once_in(3);
        let mut right = Bounds {
            first: self.subset(if nullable { all & !bounds.avoid } else { all }),
            nullable,
            avoid: bounds.avoid,
        };
        // Often the right part is made so that some variable fits.
        if !inner.is_empty() && self.random.once_in(2) {
            let wanted = self.random.pick(&inner).bounds;
            if !wanted.nullable || wanted.first & bounds.avoid == 0 {
                right.first = wanted.first;
                right.nullable = wanted.nullable;
            }
        }
        let mut left = Bounds {
            first: bounds.first,
            nullable: self.slip(),
            avoid: right.first,
        };
        if right.nullable && !self.slip() {
            left.avoid |= bounds.avoid;
        }
        if self.slip() {
            left.avoid = 0;
        }
        let left = self.expression(left_size, left, open);
        left.then(self.expression(size - 1 - left_size, right, &inner))
    }
}

/// A sheet that passes checking. Some have branches that denote nothing.
pub fn passing_sheet(random: &mut Random) -> Sheet {
    typed_sheet(random, false)
}

/// A sheet that would pass checking but for few nodes, if any.
pub fn nearly_passing_sheet(random: &mut Random) -> Sheet {
    typed_sheet(random, true)
}

/// A sheet that passes checking, in which words and patterns match the same texts. Often it denotes any number of some of
/// the tokens, so that a text is read far and each token counts.
pub fn overlapping_sheet(random: &mut Random) -> Sheet {
    let (builder, mut tokens) = overlapping_rules(random);
    if random.once_in(2) {
        return sheet_of_rules(random, (builder, tokens), false);
    }
    tokens.retain(|_| !random.once_in(3));
    let any = Expression::alternative(tokens.into_iter().map(Expression::token));
    builder.finish(any.star()).expect("there are no variables")
}

/// A sheet that passes checking, with many branches that denote nothing.
pub fn unfinished_sheet(random: &mut Random) -> Sheet {
    sheet_with_unfinished(random, false)
}

/// A sheet with many branches that denote nothing, which would pass checking but for few nodes, if
/// any.
pub fn nearly_unfinished_sheet(random: &mut Random) -> Sheet {
    sheet_with_unfinished(random, true)
}

fn sheet_with_unfinished(random: &mut Random, slips: bool) -> Sheet {
    let (builder, tokens) = rules(random);
    let token = *random.pick(&tokens);
    let size = match random.below(6) {
        0 => NODE_LIMIT,
        1 => random.range(41, NODE_LIMIT),
        _ => random.range(3, 40),
    };
    let expression = expression_within(random, tokens, size, slips, 4);
    let expression = match size {
        NODE_LIMIT => filled_up(expression, token),
        _ => expression,
    };
    builder.finish(expression).expect("every variable is open")
}

/// The expression in 64 nodes: beside it branches that denote nothing, and around it fixed points
/// that no variable names.
fn filled_up(expression: Expression, token: Token) -> Expression {
    let left = NODE_LIMIT - expression_nodes(&expression);
    let branch = token.then(Expression::bottom());
    let branches = (0..left / 4).fold(expression, |other, _| branch.clone().or(other));
    (0..left % 4).fold(branches, |body, _| Expression::fix(|_| body))
}

/// A sheet that passes checking, with one to four tokens of one byte each and up to 64 expression
/// nodes.
pub fn letter_sheet(random: &mut Random) -> Sheet {
    let mut builder = SheetBuilder::new();
    let count = random.range(1, 4);
    let tokens = add_tokens(&mut builder, count);
    for (token, byte) in tokens.iter().zip(b'a'..) {
        builder.rule(*token, Regex::byte(byte));
    }
    let size = match random.below(2) {
        0 => NODE_LIMIT,
        _ => random.range(3, NODE_LIMIT),
    };
    let expression = typed_expression(random, tokens, size, false);
    builder.finish(expression).expect("every variable is open")
}

fn typed_sheet(random: &mut Random, slips: bool) -> Sheet {
    let rules = rules(random);
    sheet_of_rules(random, rules, slips)
}

/// A sheet of these rules; without slips its expression has a type.
fn sheet_of_rules(
    random: &mut Random,
    (builder, tokens): (SheetBuilder, Vec<Token>),
    slips: bool,
) -> Sheet {
    let size = match random.below(4) {
        0 => random.range(1, 8),
        1 => NODE_LIMIT,
        _ => random.range(4, 40),
    };
    let expression = typed_expression(random, tokens, size, slips);
    builder.finish(expression).expect("every variable is open")
}

/// An expression of at most `size` nodes over the tokens; without slips it has a type.
fn typed_expression(
    random: &mut Random,
    tokens: Vec<Token>,
    size: usize,
    slips: bool,
) -> Expression {
    expression_within(random, tokens, size, slips, 20)
}

/// The same, with a branch that denotes nothing in one of so many expressions.
fn expression_within(
    random: &mut Random,
    tokens: Vec<Token>,
    size: usize,
    slips: bool,
    unfinished: usize,
) -> Expression {
    let nullable = random.once_in(3);
    let mut typed = Typed {
        random,
        tokens,
        slips,
        unfinished,
    };
    let bounds = Bounds {
        first: typed.all(),
        nullable,
        avoid: 0,
    };
    typed.expression(size, bounds, &[])
}

/// Both in a row or as alternatives, either of them first.
fn beside(random: &mut Random, one: Regex, other: Regex) -> Regex {
    match random.below(4) {
        0 => one.then(other),
        1 => other.then(one),
        2 => one.or(other),
        _ => other.or(one),
    }
}

/// A regex of this many nodes, 3 at least, and this many classes or few less, 2 at least, without the
/// empty word. Each step puts a star, or a sequence or an alternative with one more leaf, around all that
/// is there.
fn deep_regex(random: &mut Random, nodes: usize, classes: usize) -> Regex {
    // The outermost sequence and its class come last.
    let (mut nodes, mut classes) = (nodes - 3, classes - 2);
    let stars = random.range(2, 60);
    let mut regex = class(random);
    while nodes > 0 {
        let (used, part) = if nodes > 1 && random.below(nodes) < 2 * classes {
            classes -= 1;
            (2, Some(class(random)))
        } else if nodes > 1 && random.once_in(stars) {
            (2, Some(Regex::empty()))
        } else {
            (1, None)
        };
        nodes -= used;
        regex = match part {
            Some(part) => beside(random, regex, part),
            None => regex.star(),
        };
    }
    class(random).then(regex)
}

/// A regex of this many nodes and at most as many classes, with parts of about the same size.
fn wide_regex(random: &mut Random, nodes: usize, classes: usize) -> Regex {
    match nodes {
        1 if classes == 0 => return Regex::empty(),
        1 => return class(random),
        2 => return wide_regex(random, 1, classes).star(),
        _ => {}
    }
    let parts = nodes - 1;
    if random.once_in(5) {
        return wide_regex(random, parts, classes).star();
    }
    let least = (parts / 3).max(1);
    let left = random.range(least, parts - least);
    let left_classes = (classes * left + random.below(parts)) / parts;
    let one = wide_regex(random, left, left_classes);
    let other = wide_regex(random, parts - left, classes - left_classes);
    beside(random, one, other)
}

/// Rules of one class each, and among them one that is as deep as the limits allow, or nearly.
fn deep_rules(random: &mut Random) -> Vec<Regex> {
    let others = random.below(32);
    let classes = match random.below(3) {
        0 => random.range(2, CLASS_LIMIT - others),
        _ => CLASS_LIMIT - others,
    };
    let mut rules: Vec<Regex> = (0..others).map(|_| class(random)).collect();
    let place = random.below(others + 1);
    let deep = deep_regex(random, REGEX_NODE_LIMIT - others, classes);
    rules.insert(place, deep);
    rules
}

/// Rules of about the same size, with as many nodes as the limits allow.
fn wide_rules(random: &mut Random) -> Vec<Regex> {
    let count = match random.below(2) {
        0 => 32,
        _ => random.range(1, 32),
    };
    let share = |limit: usize, rule| limit / count + usize::from(rule < limit % count);
    (0..count)
        .map(|rule| {
            let (nodes, classes) = (share(REGEX_NODE_LIMIT, rule), share(CLASS_LIMIT, rule));
            class(random).then(wide_regex(random, nodes - 2, classes - 1))
        })
        .collect()
}

/// How many nodes an expression has.
fn expression_nodes(expression: &Expression) -> usize {
    match expression {
        Expression::Labelled(_, part) => expression_nodes(part),
        Expression::Fix(_, part) | Expression::Repetition(part) => 1 + expression_nodes(part),
        Expression::Sequence(left, right) | Expression::Alternative(left, right) => {
            1 + expression_nodes(left) + expression_nodes(right)
        }
        Expression::Epsilon
        | Expression::Bottom
        | Expression::Token(_)
        | Expression::Variable(_) => 1,
    }
}

/// A sheet that passes checking, with 256 regex nodes, up to 64 classes and up to 64 expression nodes;
/// its rules are deep or wide.
pub fn large_sheet(random: &mut Random) -> Sheet {
    let mut builder = SheetBuilder::new();
    let token_count = match random.below(2) {
        0 => 24,
        _ => random.range(1, 24),
    };
    let tokens = add_tokens(&mut builder, token_count);
    let regexes = match random.below(2) {
        0 => deep_rules(random),
        _ => wide_rules(random),
    };
    for (rule, regex) in regexes.into_iter().enumerate() {
        match random.below(16) {
            0 => builder.skip(regex),
            _ => builder.rule(tokens[rule % token_count], regex),
        };
    }
    let size = match random.below(2) {
        0 => NODE_LIMIT,
        _ => random.range(4, NODE_LIMIT),
    };
    let body = typed_expression(random, tokens, size, false);
    // Fixed points around it that no variable names, often for all nodes that are left.
    let left = NODE_LIMIT - expression_nodes(&body);
    let around = match random.below(3) {
        0 => left,
        1 => random.below(left + 1),
        _ => 0,
    };
    let expression = (0..around).fold(body, |body, _| Expression::fix(|_| body));
    builder.finish(expression).expect("every variable is open")
}

/// The most sequences that an expression of 64 nodes has.
const MOST_SEQUENCES: usize = 31;

/// A sheet whose productions have long tails: tokens in a row, nested to the left, and often repeated.
pub fn long_tailed_sheet(random: &mut Random) -> Sheet {
    let (builder, tokens) = rules(random);
    let sequences = match random.below(3) {
        0 => MOST_SEQUENCES,
        _ => random.range(1, MOST_SEQUENCES),
    };
    let mut chain = Expression::token(*random.pick(&tokens));
    for _ in 0..sequences {
        chain = chain.then(*random.pick(&tokens));
    }
    // A row of tokens has an empty follow-last set, so it is separable from itself.
    if random.once_in(2) {
        chain = chain.star();
    }
    builder.finish(chain).expect("there are no variables")
}

/// The expression with each repetition written as the fixed point that it stands for.
fn spelled_out(expression: &Expression) -> Expression {
    match expression {
        Expression::Repetition(part) => {
            Expression::fix(|more| Expression::epsilon().or(spelled_out(part).then(more)))
        }
        Expression::Sequence(left, right) => spelled_out(left).then(spelled_out(right)),
        Expression::Alternative(left, right) => spelled_out(left).or(spelled_out(right)),
        Expression::Fix(variable, body) => {
            Expression::Fix(variable.clone(), Box::new(spelled_out(body)))
        }
        Expression::Labelled(label, part) => spelled_out(part).label(label.clone()),
        Expression::Epsilon
        | Expression::Bottom
        | Expression::Token(_)
        | Expression::Variable(_) => expression.clone(),
    }
}

/// A sheet with the same tokens, other regexes and another expression.
fn remade(
    sheet: &Sheet,
    mut regex: impl FnMut(usize, &Regex) -> Regex,
    expression: Expression,
) -> Sheet {
    let mut builder = SheetBuilder::new();
    for name in sheet.tokens() {
        builder.token(name);
    }
    for (index, rule) in sheet.rules().iter().enumerate() {
        let regex = regex(index, &rule.regex);
        match rule.token {
            Some(token) => builder.rule(token, regex),
            None => builder.skip(regex),
        };
    }
    builder.finish(expression).expect("every variable is open")
}

/// A sheet with the same tokens and rules and another expression.
pub fn with_expression(sheet: &Sheet, expression: Expression) -> Sheet {
    remade(sheet, |_, regex| regex.clone(), expression)
}

/// The sheet with each repetition written as the fixed point that it stands for.
pub fn spelled_out_sheet(sheet: &Sheet) -> Sheet {
    with_expression(sheet, spelled_out(sheet.expression()))
}

/// A large sheet of which one regex has a star, or a sequence and a class, too many.
pub fn overfull_sheet(random: &mut Random) -> Sheet {
    let sheet = large_sheet(random);
    let chosen = random.below(sheet.rules().len());
    let more = |index, regex: &Regex| match regex.clone() {
        regex if index != chosen => regex,
        regex if random.once_in(2) => class(random).then(regex),
        regex => regex.star(),
    };
    remade(&sheet, more, sheet.expression().clone())
}

/// An expression of at most `size` nodes with no regard to types.
fn untyped(
    random: &mut Random,
    size: usize,
    tokens: &[Token],
    open: &mut Vec<Expression>,
) -> Expression {
    if size < 3 || random.once_in(10) {
        return match random.below(8) {
            0 => Expression::epsilon(),
            1 if random.once_in(2) => Expression::bottom(),
            2..=4 if !open.is_empty() => random.pick(open).clone(),
            _ => Expression::token(*random.pick(tokens)),
        };
    }
    let left = random.range(1, size - 2);
    let right = size - 1 - left;
    match random.below(6) {
        0 => Expression::fix(|variable| {
            open.push(variable);
            let body = untyped(random, size - 1, tokens, open);
            open.pop();
            body
        }),
        1 => untyped(random, size - 1, tokens, open).star(),
        2 | 3 => untyped(random, left, tokens, open).or(untyped(random, right, tokens, open)),
        _ => untyped(random, left, tokens, open).then(untyped(random, right, tokens, open)),
    }
}

/// A sheet that is well formed but for limits, with no regard to types and empty words.
pub fn untyped_sheet(random: &mut Random) -> Sheet {
    let (mut builder, tokens) = rules(random);
    if random.once_in(6) {
        for _ in 0..random.range(1, 4) {
            let size = random.range(1, 40);
            let regex = match random.below(4) {
                0 => word_regex(random, b""),
                _ => any_regex(random, size),
            };
            builder.rule(*random.pick(&tokens), regex);
        }
    }
    let size = match random.below(6) {
        0 => random.range(60, 300),
        1 => random.range(1, 64),
        _ => random.range(1, 9),
    };
    let expression = untyped(random, size, &tokens, &mut Vec::new());
    builder.finish(expression).expect("every variable is open")
}

/// Numbers that are allowed in many fields, in no order.
pub fn number_soup(random: &mut Random) -> Vec<u8> {
    let mut bytes = Vec::new();
    number::write(&mut bytes, 1);
    for _ in 0..random.below(60) {
        let value = random.below(8) as u64;
        number::write(&mut bytes, value);
    }
    bytes
}

/// A sheet with about as many expression nodes as are allowed.
pub fn long_expression_sheet(random: &mut Random) -> Vec<u8> {
    let mut bytes = vec![1, 1, 1, 1, 1, 97, 97];
    // Each fixed point or repetition in front is one node, each sequence with a token two. A repetition
    // of a repetition is refused, but not before the nodes are counted.
    let nodes = random.range(62, 67);
    let pairs = random.range(0, (nodes - 1) / 2);
    let repetitions = random.below(3);
    let front = (nodes - 1 - 2 * pairs).saturating_sub(repetitions);
    bytes.resize(bytes.len() + front, 5);
    bytes.resize(bytes.len() + nodes - 1 - 2 * pairs - front, 7);
    bytes.extend([3, 2, 0].repeat(pairs));
    bytes.extend([2, 0]);
    bytes
}

/// A sheet with about as many regex nodes or classes as are allowed. In half of them one class has no star:
/// these pass if they keep the limits, and no other does.
pub fn crowded_sheet(random: &mut Random) -> Vec<u8> {
    let mut bytes = vec![1, 1, 1, 1];
    let classes = random.range(60, 68);
    let spare = random.range(120, 136);
    // A sequence of classes and stars: classes - 1 sequences, classes, and spare stars.
    let mut stars: Vec<usize> = (0..classes)
        .map(|index| spare / classes + usize::from(index < spare % classes))
        .collect();
    let bare = random.below(2 * classes);
    if bare < classes {
        stars[(bare + 1) % classes] += stars[bare];
        stars[bare] = 0;
    }
    for (index, count) in stars.into_iter().enumerate() {
        if index + 1 < classes {
            bytes.push(2);
        }
        bytes.resize(bytes.len() + count, 4);
        bytes.extend([1, 97, 97]);
    }
    bytes.extend([2, 0]);
    bytes
}

/// Changes a sheet's or an image's numbers or bytes.
pub fn damage(random: &mut Random, bytes: &[u8]) -> Vec<u8> {
    let mut damaged = bytes.to_vec();
    for _ in 0..random.range(1, 2) {
        damaged = if random.once_in(3) {
            damage_bytes(random, damaged)
        } else {
            damage_numbers(random, &damaged)
        };
    }
    damaged
}

/// The kinds of an image's numbers.
const KINDS: usize = 16;

/// The kind of each of an image's numbers.
fn kinds(image: &Image) -> Vec<usize> {
    let mut kinds = vec![0, 1];
    kinds.resize(2 + image.skips.len(), 2);
    kinds.push(3);
    for _ in &image.positions {
        kinds.extend([4, 5, 6, 7, 8]);
    }
    kinds.extend([9, 10]);
    for row in &image.rows {
        kinds.extend([11, 12]);
        for (_, tail) in &row.productions {
            kinds.extend([13, 14]);
            kinds.resize(kinds.len() + tail.len(), 15);
        }
    }
    kinds
}

/// Changes one number of an image to a value at or near an end of its range; every kind of number is as
/// likely as any other.
pub fn damage_field(random: &mut Random, image: &Image) -> Vec<u8> {
    let mut numbers = image.numbers();
    let kinds = kinds(image);
    assert_eq!(numbers.len(), kinds.len());
    let kind = random.below(KINDS);
    let places: Vec<usize> = (0..kinds.len())
        .filter(|&place| kinds[place] == kind)
        .collect();
    if !places.is_empty() {
        let place = *random.pick(&places);
        let before = numbers[place.saturating_sub(1)];
        let ends = match kind {
            0 => [0, 1, 2],
            1 => [0, 32, 33],
            2 | 7 | 11 => [0, 1, 2],
            3 | 10 => [0, 64, 65],
            4 => [255, 256, numbers[place + 1] + 1],
            5 => [255, 256, before.wrapping_sub(1)],
            6 | 13 => [
                numbers[1],
                numbers[1] - 1,
                random.below(image.skips.len()) as u64,
            ],
            8 | 9 => [
                u64::MAX,
                u64::MAX >> (64 - image.positions.len()),
                (u64::MAX >> (64 - image.positions.len())).wrapping_add(1),
            ],
            12 => [0, 32, 33],
            14 => [0, TAIL_LIMIT as u64, TAIL_LIMIT as u64 + 1],
            _ => [0, image.rows.len() as u64 - 1, image.rows.len() as u64],
        };
        numbers[place] = *random.pick(&ends);
    }
    let mut bytes = Vec::new();
    for value in numbers {
        number::write(&mut bytes, value);
    }
    bytes
}

/// Changes one number, or takes, adds or moves one. A number whose value is changed keeps its width, if that
/// is enough.
fn damage_numbers(random: &mut Random, bytes: &[u8]) -> Vec<u8> {
    let (found, end) = numbers(bytes);
    if found.is_empty() {
        return bytes.to_vec();
    }
    let chosen = random.below(found.len());
    if random.once_in(6) {
        let (place, number) = found[chosen];
        return stretch(random, bytes, place, number.width);
    }
    // Values and widths.
    let mut fields: Vec<(u64, usize)> = found
        .into_iter()
        .map(|(_, number)| (number.value, number.width))
        .collect();
    let (value, _) = fields[chosen];
    match random.below(10) {
        0 => drop(fields.remove(chosen)),
        1 => fields.insert(chosen, (random.below(8) as u64, 1)),
        2 => fields[chosen].0 = random.next() >> random.below(64),
        3 => fields[chosen].0 = value.wrapping_add(1),
        4 => fields[chosen].0 = value.wrapping_sub(1),
        5 => fields[chosen].0 = *random.pick(&[23, 24, 25, 31, 32, 33, 63, 64, 65, 255, 256]),
        6 => fields[chosen].0 = value ^ 1 << random.below(64),
        7 => fields.truncate(chosen),
        8 => {
            let other = random.below(fields.len());
            fields.swap(chosen, other);
        }
        _ => fields[chosen].0 = random.below(8) as u64,
    }
    let mut damaged = Vec::new();
    for (value, width) in fields {
        number::write_padded(&mut damaged, value, width);
    }
    damaged.extend(&bytes[end..]);
    damaged
}

/// Adds groups to the number of this width at a place. Often it has then as many as can be, or one more; the
/// last group is empty or nearly.
fn stretch(random: &mut Random, bytes: &[u8], place: usize, width: usize) -> Vec<u8> {
    let (before, after) = bytes.split_at(place + width);
    let mut stretched = before.to_vec();
    stretched[place + width - 1] |= 0x80;
    let groups = match random.below(3) {
        0 => WIDTH_LIMIT,
        1 => WIDTH_LIMIT + 1,
        _ => random.range(2, 2 * WIDTH_LIMIT),
    };
    stretched.resize(before.len().max(place + groups - 1), 0x80);
    stretched.push(random.below(3) as u8);
    stretched.extend(after);
    stretched
}

/// Changes a byte, or takes or adds some.
pub fn damage_bytes(random: &mut Random, mut bytes: Vec<u8>) -> Vec<u8> {
    let place = random.below(bytes.len() + 1);
    match random.below(6) {
        0 => bytes.truncate(place),
        1 => bytes.insert(place, letter(random)),
        2 => bytes.insert(place, random.next() as u8),
        3 => {
            let more = random.range(1, 5);
            let more = random.bytes(more);
            bytes.extend(more);
        }
        4 if place < bytes.len() => drop(bytes.remove(place)),
        _ if place < bytes.len() => {
            bytes[place] = match random.below(3) {
                0 => letter(random),
                1 => bytes[place] ^ 1 << random.below(8),
                _ => random.next() as u8,
            };
        }
        _ => {}
    }
    bytes
}

/// A tail of this many members.
fn tail(random: &mut Random, length: usize, row_count: usize) -> Vec<usize> {
    (0..length).map(|_| random.below(row_count)).collect()
}

/// A nonterminal with productions for some of the rules that do not skip.
fn row(random: &mut Random, skips: &[bool], row_count: usize) -> Row {
    let mut productions = Vec::new();
    for rule in (0..skips.len()).filter(|&rule| !skips[rule]) {
        let length = match random.below(24) {
            0..=7 => continue,
            8 | 9 => random.range(0, TAIL_LIMIT),
            10 => TAIL_LIMIT,
            _ => random.below(3),
        };
        productions.push((rule, tail(random, length, row_count)));
    }
    Row {
        nullable: random.once_in(2),
        productions,
    }
}

/// The image with some tail as long as a tail may be, or by one shorter or longer.
pub fn stretch_tail(random: &mut Random, image: &Image) -> Image {
    let mut image = image.clone();
    let row_count = image.rows.len();
    let mut productions: Vec<_> = image
        .rows
        .iter_mut()
        .flat_map(|row| &mut row.productions)
        .collect();
    if !productions.is_empty() {
        let chosen = random.below(productions.len());
        let length = random.range(TAIL_LIMIT - 1, TAIL_LIMIT + 1);
        productions[chosen].1 = tail(random, length, row_count);
    }
    image
}

/// A readable image that no sheet need have.
pub fn readable_image(random: &mut Random) -> Image {
    let rules = match random.below(4) {
        0 => random.range(1, 32),
        _ => random.range(1, 5),
    };
    let skips: Vec<bool> = (0..rules).map(|_| random.once_in(4)).collect();
    let position_count = match random.below(4) {
        0 => random.range(1, 64),
        1 => 64,
        _ => random.range(1, 10),
    };
    let all = u64::MAX >> (64 - position_count);
    let set = |random: &mut Random| {
        let mut set = random.next() & all;
        for _ in 0..random.below(5) {
            set &= random.next();
        }
        set
    };
    let mut of_positions: Vec<usize> = (0..position_count).map(|_| random.below(rules)).collect();
    of_positions.sort_unstable();
    let positions = of_positions
        .into_iter()
        .map(|rule| {
            let low = letter(random);
            Position {
                low,
                high: low.max(letter(random)),
                rule,
                last: random.once_in(2),
                follow: set(random),
            }
        })
        .collect();
    let row_count = match random.below(4) {
        0 => random.range(1, 64),
        1 => 1,
        _ => random.range(1, 8),
    };
    let rows = (0..row_count)
        .map(|_| row(random, &skips, row_count))
        .collect();
    Image {
        skips,
        positions,
        first: set(random) | 1,
        rows,
    }
}

/// A word of a rule, by a walk over its positions; nothing if no walk begins.
fn word(random: &mut Random, image: &Image, rule: usize) -> Vec<u8> {
    let own = |set: u64| -> Vec<usize> {
        (0..image.positions.len())
            .filter(|&position| set >> position & 1 == 1)
            .filter(|&position| image.positions[position].rule == rule)
            .collect()
    };
    let mut word = Vec::new();
    let mut next = own(image.first);
    while !next.is_empty() && word.len() < 30 {
        let position = image.positions[*random.pick(&next)];
        let byte = random.range(position.low.into(), position.high.into());
        word.push(byte as u8);
        if position.last && random.once_in(2) {
            break;
        }
        next = own(position.follow);
    }
    word
}

/// What stands after each token of a text: if the image skips a blank, often that, so that no longer match takes
/// the next token too.
fn separator(random: &mut Random, image: &Image) -> &'static [u8] {
    match longest_match(image, b" ") {
        Some((rule, _)) if image.skips[rule] && random.once_in(2) => b" ",
        _ => b"",
    }
}

/// A text of about `size` tokens, or fewer, that is derived from the start.
pub fn derived_text(random: &mut Random, image: &Image, size: usize) -> Vec<u8> {
    derived_until(random, image, size, 12)
}

/// A text of about `size` tokens that is derived from the start; fewer only if it must end.
pub fn long_text(random: &mut Random, image: &Image, size: usize) -> Vec<u8> {
    derived_until(random, image, size, usize::MAX)
}

/// A text of about `size` tokens that is derived from the start. Where it may end, it does once in
/// `ends` times.
fn derived_until(random: &mut Random, image: &Image, size: usize, ends: usize) -> Vec<u8> {
    let mut text = Vec::new();
    let separator = separator(random, image);
    // The first pending nonterminal comes last.
    let mut pending = vec![0];
    let skipping: Vec<usize> = (0..image.skips.len())
        .filter(|&rule| image.skips[rule])
        .collect();
    for taken in 0..3 * size {
        if !skipping.is_empty() && random.once_in(3) {
            let rule = *random.pick(&skipping);
            text.extend(word(random, image, rule));
        }
        // Each choice is the number of pending ones that stay, and a production.
        let mut choices = Vec::new();
        for (stay, &nonterminal) in pending.iter().enumerate().rev() {
            let row: &Row = &image.rows[nonterminal];
            choices.extend(row.productions.iter().map(|production| (stay, production)));
            if !row.nullable {
                break;
            }
        }
        let may_end = pending.iter().all(|&number| image.rows[number].nullable);
        let winding_down = taken >= size;
        if choices.is_empty() || may_end && (winding_down || random.once_in(ends)) {
            break;
        }
        if winding_down {
            let shortest = choices.iter().map(|(_, (_, tail))| tail.len()).min();
            choices.retain(|(_, (_, tail))| Some(tail.len()) == shortest);
        }
        let (stay, (rule, tail)) = *random.pick(&choices);
        pending.truncate(stay);
        pending.extend(tail.iter().rev());
        text.extend(word(random, image, *rule));
        text.extend(separator);
    }
    text
}

/// Words of so many rules in a row, whatever the start derives.
pub fn words(random: &mut Random, image: &Image, count: usize) -> Vec<u8> {
    let rules = image.skips.len();
    (0..count)
        .flat_map(|_| {
            let rule = random.below(rules);
            word(random, image, rule)
        })
        .collect()
}

/// A few letters.
pub fn letters(random: &mut Random) -> Vec<u8> {
    (0..random.below(12)).map(|_| letter(random)).collect()
}

/// A text for an image: derived from the start and often damaged, or letters.
pub fn text(random: &mut Random, image: &Image) -> Vec<u8> {
    if random.once_in(8) {
        return letters(random);
    }
    let size = match random.below(8) {
        0 => random.below(80),
        _ => random.below(10),
    };
    let mut text = derived_text(random, image, size);
    while random.once_in(2) {
        text = damage_bytes(random, text);
    }
    text
}
