//! One literal: its numbers, what the steps make of them, its truth value.

use super::words::{Word, natural, number};

/// c, then a1 to a6.
pub type Sum = [i64; 7];

/// "c and the a's lie within ±2,147,483,647"; so does a divisor.
const LIMIT: i64 = 2_147_483_647;

#[derive(Clone, Copy)]
pub struct Literal {
    pub kind: usize,
    /// 1 where the kind has none.
    pub divisor: i64,
    pub sum: Sum,
}

/// The literal whose body starts these words.
#[inline(always)]
pub fn literal(body: &[Word]) -> Literal {
    let kind = natural(body[0]);
    let (divisor, sum) = if has_divisor(kind) {
        (i64::from(number(body[1])), &body[2..])
    } else {
        (1, &body[1..])
    };
    let sum: &[Word; 7] = sum.first_chunk().expect("a checked literal is whole");
    Literal {
        kind,
        divisor,
        sum: sum.map(|word| i64::from(number(word))),
    }
}

/// The factor of x in the literal whose body starts these words.
pub fn factor(body: &[Word], x: usize) -> i32 {
    let sum = if has_divisor(natural(body[0])) { 2 } else { 1 };
    number(body[sum + x])
}

pub fn has_divisor(kind: usize) -> bool {
    matches!(kind, 6 | 7)
}

/// "The far-left body has true for 0 < −x+r, false for 0 < x+r."
pub fn far_left(body: &[Word], x: usize) -> Option<bool> {
    let factor = factor(body, x);
    (natural(body[0]) == 5 && factor != 0).then_some(factor < 0)
}

impl Literal {
    /// "A literal whose a's are all zero becomes its truth value. Divisor 1 makes kind 6 true and
    /// kind 7 false."
    #[inline(always)]
    pub fn truth(&self) -> Option<bool> {
        let is_sure = has_divisor(self.kind) && self.divisor == 1;
        if !is_sure && self.sum[1..].iter().any(|&factor| factor != 0) {
            return None;
        }
        let c = self.sum[0];
        Some(match self.kind {
            5 => 0 < c,
            6 => c % self.divisor == 0,
            7 => c % self.divisor != 0,
            _ => c == 0,
        })
    }

    #[inline]
    pub fn is_over(&self) -> bool {
        self.divisor > LIMIT || self.sum.iter().any(|number| number.abs() > LIMIT)
    }

    pub fn negated(self) -> Literal {
        let sum = self.sum.map(|number| -number);
        Literal { sum, ..self }
    }

    /// With a number added to T.
    pub fn plus(mut self, number: i64) -> Literal {
        self.sum[0] += number;
        self
    }
}

/// "Multiply each literal that has x (its divisor too) by D over the size of its factor. Then put 1
/// or −1 for the x factor".
pub fn scaled(body: &[Word], common: i64, x: usize) -> Literal {
    let mut literal = literal(body);
    let factor = i64::from(factor(body, x));
    if factor == 0 {
        return literal;
    }
    let by = common / factor.abs();
    literal.sum = literal.sum.map(|number| number * by);
    literal.sum[x] = factor.signum();
    if has_divisor(literal.kind) {
        literal.divisor *= by;
    }
    literal
}

/// The literal with a sum put in for x, whose factor is 1, −1 or 0. `less_x` is that sum less x, so
/// that x goes.
#[inline(always)]
pub fn at(body: &[Word], x: usize, less_x: &Sum) -> Literal {
    let mut literal = literal(body);
    let terms = literal.sum.iter_mut().zip(less_x);
    match factor(body, x) {
        0 => {}
        1 => terms.for_each(|(number, more)| *number += more),
        _ => terms.for_each(|(number, more)| *number -= more),
    }
    literal
}
