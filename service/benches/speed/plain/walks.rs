//! The walks that build: a rule folded with its literals changed, normal form, and what stands
//! around the chosen quantifier.

use super::back::{Back, Folded, settles};
use super::literals::{Literal, literal};
use super::words::{Word, body, natural};

/// The rule whose root is this node, each literal changed, folded. The right side is put first:
/// where it settles a join, the left one is not looked at.
pub fn fold(
    back: &mut Back,
    table: &[Word],
    node: usize,
    change: &impl Fn(&mut Back, &[Word]) -> Folded,
) -> Folded {
    let body = body(table, node);
    match natural(body[0]) {
        kind @ (0 | 1) => Some(kind == 1),
        kind @ (2 | 3) => {
            let start = back.built;
            let right = fold(back, table, natural(body[1]), change);
            if right.is_some_and(|truth| settles(kind, truth)) {
                return right;
            }
            let middle = back.built;
            let left = fold(back, table, node + 1, change);
            back.join(kind, start, middle, right, left)
        }
        4 => {
            let inner = fold(back, table, node + 1, change);
            back.not(inner)
        }
        kind @ (8 | 9) => {
            let inner = fold(back, table, node + 1, change);
            back.quantifier(kind, natural(body[1]), inner)
        }
        _ => change(back, body),
    }
}

/// The rule as it is, folded.
pub fn same(back: &mut Back, table: &[Word], node: usize) -> Folded {
    fold(back, table, node, &|back, body| back.copy(body))
}

/// Step 1: the rule, or with `plainly` false its opposite, in normal form for x. Both sides of a
/// join are walked, so that every number is looked at (5).
pub fn normal(
    back: &mut Back,
    table: &[Word],
    node: usize,
    plainly: bool,
    x: usize,
) -> Result<Folded, u8> {
    let body = body(table, node);
    match natural(body[0]) {
        kind @ (0 | 1) => Ok(Some((kind == 1) == plainly)),
        kind @ (2 | 3) => {
            let kind = if plainly { kind } else { 5 - kind };
            both(
                back,
                kind,
                |back| normal(back, table, natural(body[1]), plainly, x),
                |back| normal(back, table, node + 1, plainly, x),
            )
        }
        4 => normal(back, table, node + 1, !plainly, x),
        _ => normal_literal(back, literal(body), plainly, x),
    }
}

/// "Not of 0 < T becomes 0 < 1−T. T = 0 becomes 0 < 1−T and 0 < 1+T. Not of T = 0 becomes 0 < −T or
/// 0 < T. Kinds 6 and 7 trade places. A kind 6 or 7 whose x factor is negative has T negated."
fn normal_literal(
    back: &mut Back,
    mut literal: Literal,
    plainly: bool,
    x: usize,
) -> Result<Folded, u8> {
    match literal.kind {
        5 if plainly => within(back, &literal),
        5 => within(back, &literal.negated().plus(1)),
        10 => {
            literal.kind = 5;
            let (kind, more) = if plainly { (2, 1) } else { (3, 0) };
            let (right, left) = (literal.plus(more), literal.negated().plus(more));
            both(
                back,
                kind,
                |back| within(back, &right),
                |back| within(back, &left),
            )
        }
        kind => {
            literal.kind = if plainly { kind } else { 13 - kind };
            let negative = literal.sum[x] < 0;
            within(back, &if negative { literal.negated() } else { literal })
        }
    }
}

/// The literal folded, if its numbers are within the limit.
fn within(back: &mut Back, literal: &Literal) -> Result<Folded, u8> {
    if literal.is_over() {
        return Err(5);
    }
    Ok(back.literal(literal))
}

/// An and or an or of two sides that are both built, the right one first.
fn both(
    back: &mut Back,
    kind: usize,
    right: impl FnOnce(&mut Back) -> Result<Folded, u8>,
    left: impl FnOnce(&mut Back) -> Result<Folded, u8>,
) -> Result<Folded, u8> {
    let start = back.built;
    let right = right(back)?;
    let middle = back.built;
    let left = left(back)?;
    if right.is_some_and(|truth| settles(kind, truth)) {
        back.built = start;
        return Ok(right);
    }
    Ok(back.join(kind, start, middle, right, left))
}

/// The rule whose root is this node, with `new` in the place of the chosen quantifier, folded.
pub fn around(
    back: &mut Back,
    table: &[Word],
    node: usize,
    chosen: usize,
    new: &impl Fn(&mut Back) -> Result<Folded, u8>,
) -> Result<Folded, u8> {
    if node == chosen {
        return new(back);
    }
    let body = body(table, node);
    match natural(body[0]) {
        kind @ (2 | 3) => {
            let child = natural(body[1]);
            let start = back.built;
            let right = if chosen < child {
                same(back, table, child)
            } else {
                around(back, table, child, chosen, new)?
            };
            if right.is_some_and(|truth| settles(kind, truth)) {
                return Ok(right);
            }
            let middle = back.built;
            let left = if chosen < child {
                around(back, table, node + 1, chosen, new)?
            } else {
                same(back, table, node + 1)
            };
            Ok(back.join(kind, start, middle, right, left))
        }
        4 => {
            let inner = around(back, table, node + 1, chosen, new)?;
            Ok(back.not(inner))
        }
        kind => {
            let inner = around(back, table, node + 1, chosen, new)?;
            Ok(back.quantifier(kind, natural(body[1]), inner))
        }
    }
}
