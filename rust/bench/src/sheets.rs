//! The sheets whose checking and writing are measured: those of the grammars, and some of the largest
//! within the limits.
//!
//! Nothing is measured here. That these are the slowest sheets is not claimed.

use crate::grammars;
use vinzagew::builder::{Expression, Regex, Sheet, SheetBuilder, Token};

/// A sheet and what checking says of it.
pub struct Case {
    /// What the sheet is of.
    pub name: &'static str,
    /// The sheet.
    pub sheet: Sheet,
    /// The number that checking gives.
    pub number: usize,
}

/// All sheets that are measured.
pub fn all() -> Vec<Case> {
    let grammars = grammars::all().into_iter().map(|grammar| Case {
        name: grammar.name,
        sheet: grammar.sheet,
        number: 0,
    });
    grammars.chain(largest()).collect()
}

/// Sheets with 24 tokens, 32 rules, 64 byte classes, 256 regex nodes and 64 expression nodes.
///
/// The library finds the least types by raising nodes, each again where a type that it goes by has
/// changed, the last of those that are left first: 190 raises in all for the tower, which has the
/// deepest expression, 124 for the chain, 284 for the refused one and 119 for the wide one. The
/// wide one has alternatives side by side, and rules that are all of one size. With each number in
/// 7 bytes it is still within the limit.
fn largest() -> [Case; 5] {
    let wide_sheet = |name| sheet(name, wide_rules, wide, 0);
    [
        sheet("largest, tower", deep_rules, tower, 0),
        sheet("largest, chain", deep_rules, chain, 0),
        wide_sheet("largest, wide"),
        padded(wide_sheet("largest, wide, padded"), 7),
        sheet("largest, refused", deep_rules, refused, 9),
    ]
}

fn padded(case: Case, width: usize) -> Case {
    Case {
        sheet: case.sheet.padded(width).expect("a width"),
        ..case
    }
}

fn sheet(
    name: &'static str,
    rules: fn(&mut SheetBuilder, &[Token]),
    expression: fn(&[Token]) -> Expression,
    number: usize,
) -> Case {
    let mut builder = SheetBuilder::new();
    let tokens: Vec<Token> = (0..24)
        .map(|token| builder.token(format!("t{token}")))
        .collect();
    rules(&mut builder, &tokens);
    let sheet = builder.finish(expression(&tokens)).expect("bound");
    Case {
        name,
        sheet,
        number,
    }
}

/// A byte class whose two numbers have two bytes each.
fn class(low: usize) -> Regex {
    Regex::class(128 + low as u8, 255)
}

/// 31 rules of one class, and one that is as deep as it can be: a class and stars around a class and
/// stars, and so on.
fn deep_rules(builder: &mut SheetBuilder, tokens: &[Token]) {
    for rule in 0..31 {
        builder.rule(tokens[rule % tokens.len()], class(rule));
    }
    let stars = |regex: Regex, count| (0..count).fold(regex, |regex, _| regex.star());
    let deep = (31..63)
        .rev()
        .fold(class(63), |inner, low| class(low).then(stars(inner, 5)));
    builder.rule(tokens[7], deep);
}

/// 32 rules of eight nodes and two classes each.
fn wide_rules(builder: &mut SheetBuilder, tokens: &[Token]) {
    for rule in 0..32 {
        let more = class(2 * rule + 1).optional().optional().star();
        builder.rule(tokens[rule % tokens.len()], class(2 * rule).then(more));
    }
}

/// Fixed points around `t·x ∨ ε`, where x is the outermost. A type goes up through all of them, then back
/// by the variable and up through all of them again.
fn tower(tokens: &[Token]) -> Expression {
    Expression::fix(|outermost| {
        let body = tokens[0].then(outermost).or(Expression::epsilon());
        (0..58).fold(body, |body, _| Expression::fix(|_| body))
    })
}

/// μx.t·(s ∨ μy.x·(s ∨ μz.y·…)): what begins a fixed point is known once it is known of the one
/// around it, which stands before it. By rounds over all nodes, from the last to the first, each
/// would lead one fixed point further. Each may end in s: what never ends has the least type at
/// once.
fn chain(tokens: &[Token]) -> Expression {
    fn link(before: impl Into<Expression>, links: usize, end: Token) -> Expression {
        Expression::fix(|own| {
            let before = before.into();
            match links {
                0 => before.then(end),
                _ => before.then(end.or(link(own, links - 1, end))),
            }
        })
    }
    link(tokens[0], 12, tokens[1])
}

/// 24 alternatives, each with a token of its own.
fn wide(tokens: &[Token]) -> Expression {
    Expression::fix(|own| {
        Expression::alternative(tokens.iter().enumerate().map(|(index, token)| {
            if index % 3 == 0 {
                token.then(own.clone())
            } else {
                Expression::token(*token)
            }
        }))
    })
}

/// μx.(μy.(μz.(… ∨ y) ∨ x))*. That it is nullable goes from each fixed point to the one in it; then what
/// begins it, which the innermost knows once it is nullable, goes back to the outermost; then what follows
/// its last token goes the first way again. It is refused, but not before its types are known.
fn refused(tokens: &[Token]) -> Expression {
    fn link(before: Expression, links: usize, token: Token) -> Expression {
        Expression::fix(|own| {
            let inner = match links {
                0 => two_more(own.then(token)),
                _ => link(own, links - 1, token),
            };
            inner.or(before)
        })
    }
    // Fixed points without a variable, for the nodes that are left.
    fn two_more(body: Expression) -> Expression {
        Expression::fix(|_| Expression::fix(|_| body))
    }
    Expression::fix(|outermost| link(outermost, 18, tokens[0]).star())
}

#[cfg(test)]
mod tests {
    use super::*;
    use crate::common::random::for_case;
    use crate::common::{engines, full_check, full_write, generate, REFERENCE};
    use vinzagew::{IMAGE_BYTES, WORK_BYTES};
    use vinzagew_reference::sheet::{Regex as Read, Sheet as Parts};

    /// How many nodes and how many classes a regex has.
    fn sizes(regex: &Read) -> [usize; 2] {
        let (one, other) = match regex {
            Read::Empty => return [1, 0],
            Read::Class { .. } => return [1, 1],
            Read::Sequence(left, right) | Read::Alternative(left, right) => {
                (sizes(left), sizes(right))
            }
            Read::Star(part) => (sizes(part), [0; 2]),
        };
        [1 + one[0] + other[0], one[1] + other[1]]
    }

    #[test]
    fn the_largest_reach_the_limits() {
        for case in largest() {
            let parts = Parts::read(case.sheet.as_bytes()).expect("readable");
            let sizes: Vec<[usize; 2]> =
                parts.rules.iter().map(|rule| sizes(&rule.regex)).collect();
            let found = [
                parts.tokens as usize,
                parts.rules.len(),
                sizes.iter().map(|[nodes, _]| nodes).sum(),
                sizes.iter().map(|[_, classes]| classes).sum(),
                parts.nodes.len(),
            ];
            assert_eq!(found, [24, 32, 256, 64, 64], "{}", case.name);
        }
    }

    /// Each engine gives what the reference gives, with these lengths of the work area.
    fn agree(sheet: &[u8], works: &[usize], context: &str) {
        for &work in works {
            let verdict = full_check(REFERENCE, sheet, work);
            let needed = full_write(REFERENCE, sheet, work, IMAGE_BYTES).1.len();
            for engine in engines() {
                assert_eq!(full_check(engine, sheet, work), verdict, "{context}");
                for room in [0, needed.saturating_sub(1), needed, needed + 1, IMAGE_BYTES] {
                    assert!(
                        full_write(engine, sheet, work, room)
                            == full_write(REFERENCE, sheet, work, room),
                        "{context}, {}, work {work}, room {room}",
                        engine.name
                    );
                }
            }
        }
    }

    /// The library and the reference agree on all results and all buffers.
    #[test]
    fn library_and_reference_agree() {
        let works = [0, WORK_BYTES - 1, WORK_BYTES, WORK_BYTES + 1, 100_000];
        for case in all() {
            let sheet = case.sheet.as_bytes();
            let [number, _] = full_check(REFERENCE, sheet, WORK_BYTES);
            assert_eq!(number as usize, case.number, "{}", case.name);
            agree(sheet, &works, case.name);
            for seed in 0..200 {
                let damaged = generate::damage(&mut for_case(1, seed), sheet);
                let context = format!("{}, damaged, case {seed}", case.name);
                agree(&damaged, &[WORK_BYTES], &context);
            }
        }
    }
}
