//! Loops over the nodes of a rule in a table: the chosen quantifier, D, P, the lower bounds.

use super::literals::{factor, literal};
use super::words::{Word, body, is_quantifier, kind, natural};
use std::ops::Range;

/// "D or P passes 4,096"
const MOST_MULTIPLE: i64 = 4096;

/// As many bounds as a table has at most.
const MOST_BOUNDS: usize = 1365;

/// The chosen quantifier: its node, its setting, the nodes of its body.
pub struct Chosen {
    pub node: usize,
    pub some: bool,
    pub setting: usize,
    pub nodes: Range<usize>,
}

/// "the one with the greatest node number"
pub fn chosen(table: &[Word]) -> Option<Chosen> {
    let count = natural(table[0]);
    let node = (0..count)
        .rev()
        .find(|&node| is_quantifier(kind(table, node)))?;
    let body = body(table, node);
    Some(Chosen {
        node,
        some: natural(body[0]) == 8,
        setting: natural(body[1]),
        nodes: node + 1..end(table, node + 1),
    })
}

/// The first node after the rule whose root is this one: a rule ends where its last child does.
fn end(table: &[Word], mut node: usize) -> usize {
    loop {
        let body = body(table, node);
        node = match natural(body[0]) {
            2 | 3 => natural(body[1]),
            4 | 8 | 9 => node + 1,
            _ => return node + 1,
        };
    }
}

/// The words from each literal's body on, among these nodes.
pub fn literals(table: &[Word], nodes: Range<usize>) -> impl Iterator<Item = &[Word]> {
    nodes
        .map(|node| body(table, node))
        .filter(|body| matches!(natural(body[0]), 5 | 6 | 7 | 10))
}

/// "D is the least common multiple of the sizes of all nonzero x factors, 1 if none."
pub fn common_factor(table: &[Word], chosen: &Chosen) -> Result<i64, u8> {
    let factors = literals(table, chosen.nodes.clone()).map(|body| factor(body, chosen.setting));
    multiple(
        factors
            .filter(|&factor| factor != 0)
            .map(|factor| i64::from(factor).abs()),
    )
}

/// "P is the least common multiple of the divisors of all divisibility literals in the body, 1 if
/// none."
pub fn period(table: &[Word], chosen: &Chosen) -> Result<i64, u8> {
    multiple(literals(table, chosen.nodes.clone()).map(|body| literal(body).divisor))
}

fn multiple(mut numbers: impl Iterator<Item = i64>) -> Result<i64, u8> {
    numbers.try_fold(1, |least, number| {
        let least = least / gcd(least, number) * number;
        if least > MOST_MULTIPLE {
            Err(7)
        } else {
            Ok(least)
        }
    })
}

fn gcd(mut a: i64, mut b: i64) -> i64 {
    while b != 0 {
        (a, b) = (b, a % b);
    }
    a
}

/// The lower bounds, each as the first node that gives it.
pub struct Bounds {
    nodes: [u16; MOST_BOUNDS],
    count: usize,
}

impl Bounds {
    /// "A literal 0 < x+r gives the bound −r; collect the list of lower bounds, each once, in order
    /// of first place."
    pub fn new(table: &[Word], chosen: &Chosen) -> Bounds {
        let mut bounds = Bounds {
            nodes: [0; MOST_BOUNDS],
            count: 0,
        };
        for node in chosen.nodes.clone() {
            let words = body(table, node);
            if natural(words[0]) != 5 || natural(words[1 + chosen.setting]) != 1 {
                continue;
            }
            let is_known = |known| body(table, known)[1..8] == words[1..8];
            if !bounds.nodes().any(is_known) {
                bounds.nodes[bounds.count] = node as u16;
                bounds.count += 1;
            }
        }
        bounds
    }

    pub fn is_empty(&self) -> bool {
        self.count == 0
    }

    pub fn nodes(&self) -> impl DoubleEndedIterator<Item = usize> {
        self.nodes[..self.count].iter().map(|&node| node.into())
    }
}
