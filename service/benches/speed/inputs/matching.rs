//! The tables that are matched, and the values.

use super::rules::{
    AND, OR, Rule, divides, divides_not, join, nested_left, nested_right, not, positive, some,
    table, zero,
};

pub struct Input {
    pub name: &'static str,
    pub table: Vec<u8>,
    /// The number and the verdict that are due.
    pub due: (u8, u8),
}

pub const VALUES: [i32; 6] = [65, 20, 1000, -3, 12, 7];

/// As many literals, each joined to the rest by a junction, as a table has room for.
const MOST_LITERALS: usize = 1365;

/// One of each shape.
pub fn shapes() -> Vec<Input> {
    let most = literals(MOST_LITERALS, MOST_LITERALS - 1);
    let middle = MOST_LITERALS / 2;
    let mut unknown = most.clone();
    unknown[middle][0][0] = 11;
    let mut quantified = most[1..].to_vec();
    quantified[middle] = some(1, quantified[middle].clone());
    let rows = [
        ("one literal", literal(true), (0, 1)),
        ("a typical rule", typical(), (0, 1)),
        (
            "64 literals, settled early",
            nested_right(OR, literals(64, 0)),
            (0, 1),
        ),
        (
            "64 literals, settled late",
            nested_right(OR, literals(64, 63)),
            (0, 1),
        ),
        (
            "literals joined to the right",
            nested_right(OR, most.clone()),
            (0, 1),
        ),
        ("literals joined to the left", nested_left(OR, most), (0, 1)),
        ("nots over true", nots(8190), (0, 1)),
        (
            "unknown kind in the middle",
            nested_right(OR, unknown),
            (3, 0),
        ),
        (
            "quantifier in the middle",
            nested_right(OR, quantified),
            (10, 0),
        ),
    ];
    rows.map(|(name, rule, due)| input(name, &rule, due)).into()
}

/// Literals joined to the right, in about so many words.
pub fn literals_in(words: usize) -> Input {
    let count = (words + 2) / 12;
    let rule = nested_right(OR, literals(count, count - 1));
    input("match literals", &rule, (0, 1))
}

/// Nots over true, in about so many words.
pub fn nots_in(words: usize) -> Input {
    input("match nots", &nots(words / 4 * 2 - 2), (0, 1))
}

fn input(name: &'static str, rule: &Rule, due: (u8, u8)) -> Input {
    Input {
        name,
        table: table(rule),
        due,
    }
}

/// A comparison with all six settings that holds, or does not.
fn literal(holds: bool) -> Rule {
    let c = if holds { 100 } else { -10_000 };
    positive([c, 1, -2, 3, -4, 5, -6])
}

/// So many literals; one of them holds.
fn literals(count: usize, holds: usize) -> Vec<Rule> {
    (0..count).map(|i| literal(i == holds)).collect()
}

/// 64 divides s1 or s4 is odd, and s2 < s6 + 5 or 3 does not divide s3, and s5 is not 16. No
/// junction is settled by its left side.
fn typical() -> Rule {
    let image = join(
        OR,
        divides(64, [0, 1, 0, 0, 0, 0, 0]),
        divides_not(2, [0, 0, 0, 0, 1, 0, 0]),
    );
    let part = join(
        OR,
        positive([5, 0, -1, 0, 0, 0, 1]),
        divides_not(3, [0, 0, 0, 1, 0, 0, 0]),
    );
    let other = not(zero([-16, 0, 0, 0, 0, 1, 0]));
    nested_right(AND, vec![image, part, other])
}

fn nots(count: usize) -> Rule {
    let mut bodies = vec![vec![4]; count];
    bodies.push(vec![1]);
    bodies
}
