//! Matching.

use super::check::check;
use super::words::{Word, body, is_quantifier, kind, natural, number};
use crate::numbers::Numbers;

const MOST_VALUE: u32 = 500_000_000;

pub fn matches(table: &[u8], values: [i32; 6]) -> Numbers {
    Numbers::matched(matching(table, &values))
}

fn matching(table: &[u8], values: &[i32; 6]) -> Result<bool, u8> {
    let (words, []) = table.as_chunks() else {
        return Err(1);
    };
    let count = check(words)?;
    if (0..count).any(|node| is_quantifier(kind(words, node))) {
        return Err(10);
    }
    if values.iter().any(|v| v.unsigned_abs() > MOST_VALUE) {
        return Err(9);
    }
    Ok(holds(words, 0, values))
}

/// Whether the rule whose root is this node of a checked table holds.
fn holds(words: &[Word], node: usize, values: &[i32; 6]) -> bool {
    let body = body(words, node);
    match natural(body[0]) {
        0 => false,
        1 => true,
        2 => holds(words, node + 1, values) && holds(words, natural(body[1]), values),
        3 => holds(words, node + 1, values) || holds(words, natural(body[1]), values),
        4 => !holds(words, node + 1, values),
        5 => 0 < value(&body[1..], values),
        6 => value(&body[2..], values) % i64::from(number(body[1])) == 0,
        7 => value(&body[2..], values) % i64::from(number(body[1])) != 0,
        _ => value(&body[1..], values) == 0,
    }
}

fn value(sum: &[Word], values: &[i32; 6]) -> i64 {
    let terms = sum[1..7].iter().zip(values);
    let products = terms.map(|(&factor, &value)| i64::from(number(factor)) * i64::from(value));
    i64::from(number(sum[0])) + products.sum::<i64>()
}
