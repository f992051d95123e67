//! Tables: bytes to words, words to trees, and back.

use super::rule::{Literal, Rule, Sum};

/// The greatest size of a number in a table, and of a divisor.
pub const LARGEST: i128 = 2_147_483_647;
pub const MOST_WORDS: usize = 16_384;

/// A node's body; a child is not looked at yet.
enum Body {
    Leaf(Rule),
    And(i128),
    Or(i128),
    Not,
    ForSome(usize),
    ForAll(usize),
}

/// The rule of a table, or the number of its refusal, 1 to 4.
pub fn read(table: &[u8]) -> Result<Rule, u8> {
    let words = words_of(table)?;
    let length = words.len() as i128;
    // "byte length no multiple of 4, no words, over 16,384 words, n below 1, or n+1 over the length"
    if words.is_empty() || words.len() > MOST_WORDS || words[0] < 1 || words[0] + 1 > length {
        return Err(1);
    }
    let count = words[0] as usize;
    // "Body 0 starts at n+1, each next one where the last ends, and the table ends with the last."
    let mut place = count + 1;
    let mut bodies = Vec::new();
    for entry in &words[1..=count] {
        if *entry != place as i128 {
            return Err(2);
        }
        let (body, size) = body_of(&words[place..]).ok_or(3)?;
        bodies.push(body);
        place += size;
    }
    if place != words.len() {
        return Err(2);
    }
    let (rule, next) = tree(&bodies, 0)?;
    if next == count { Ok(rule) } else { Err(4) }
}

fn words_of(table: &[u8]) -> Result<Vec<i128>, u8> {
    if !table.len().is_multiple_of(4) {
        return Err(1);
    }
    let word = |bytes: &[u8]| {
        let unsigned = bytes
            .iter()
            .rev()
            .fold(0, |sum, &byte| sum * 256 + i128::from(byte));
        if unsigned > LARGEST {
            unsigned - 2 * (LARGEST + 1)
        } else {
            unsigned
        }
    };
    Ok(table.chunks(4).map(word).collect())
}

/// The body at the start of the words, with its size; none where it is 3.
fn body_of(words: &[i128]) -> Option<(Body, usize)> {
    let sum = |from: usize| -> Option<Sum> {
        let sum: Sum = words.get(from..from + 7)?.try_into().ok()?;
        sum.iter().all(|a| a.abs() <= LARGEST).then_some(sum)
    };
    let divisor = || words.get(1).copied().filter(|&k| k >= 1);
    let setting = || words.get(1).filter(|v| (1..=6).contains(*v));
    let leaf = |literal| Body::Leaf(Rule::Literal(literal));
    Some(match words.first()? {
        0 => (Body::Leaf(Rule::Constant(false)), 1),
        1 => (Body::Leaf(Rule::Constant(true)), 1),
        2 => (Body::And(*words.get(1)?), 2),
        3 => (Body::Or(*words.get(1)?), 2),
        4 => (Body::Not, 1),
        5 => (leaf(Literal::Positive(sum(1)?)), 8),
        6 => (leaf(Literal::Divides(divisor()?, sum(2)?)), 9),
        7 => (leaf(Literal::DividesNot(divisor()?, sum(2)?)), 9),
        8 => (Body::ForSome(*setting()? as usize), 2),
        9 => (Body::ForAll(*setting()? as usize), 2),
        10 => (leaf(Literal::Zero(sum(1)?)), 8),
        _ => return None,
    })
}

/// The tree whose root is the node with this number, and the number of the first node after it.
///
/// "The only or left child of node i is i+1, the right child is the first node after the left
/// subtree, and the root's subtree is the whole table."
fn tree(bodies: &[Body], node: usize) -> Result<(Rule, usize), u8> {
    let pair = |right_child: i128| {
        let (left, middle) = tree(bodies, node + 1)?;
        if right_child != middle as i128 {
            return Err(4);
        }
        let (right, next) = tree(bodies, middle)?;
        Ok((Box::new(left), Box::new(right), next))
    };
    let only = || tree(bodies, node + 1).map(|(child, next)| (Box::new(child), next));
    match bodies.get(node).ok_or(4)? {
        Body::Leaf(rule) => Ok((rule.clone(), node + 1)),
        Body::And(right) => pair(*right).map(|(l, r, next)| (Rule::And(l, r), next)),
        Body::Or(right) => pair(*right).map(|(l, r, next)| (Rule::Or(l, r), next)),
        Body::Not => only().map(|(child, next)| (Rule::Not(child), next)),
        Body::ForSome(v) => only().map(|(body, next)| (Rule::ForSome(*v, body), next)),
        Body::ForAll(v) => only().map(|(body, next)| (Rule::ForAll(*v, body), next)),
    }
}

/// The words of the rule's table: the count, and each node's entry and body.
pub fn size(rule: &Rule) -> usize {
    fn of_nodes(rule: &Rule) -> usize {
        match rule {
            Rule::Constant(_) => 2,
            Rule::Literal(literal) if literal.divisor().is_some() => 10,
            Rule::Literal(_) => 9,
            Rule::And(left, right) | Rule::Or(left, right) => 3 + of_nodes(left) + of_nodes(right),
            Rule::Not(child) => 2 + of_nodes(child),
            Rule::ForSome(_, body) | Rule::ForAll(_, body) => 3 + of_nodes(body),
        }
    }
    1 + of_nodes(rule)
}

/// The table of a rule whose numbers fit.
pub fn write(rule: &Rule) -> Vec<u8> {
    let mut bodies = Vec::new();
    write_nodes(rule, &mut bodies);
    let mut words = vec![bodies.len() as i128];
    let mut place = bodies.len() + 1;
    for body in &bodies {
        words.push(place as i128);
        place += body.len();
    }
    words.extend(bodies.into_iter().flatten());
    let word = |word: i128| i32::try_from(word).expect("a number that fits");
    words
        .into_iter()
        .flat_map(|w| word(w).to_le_bytes())
        .collect()
}

fn write_nodes(rule: &Rule, bodies: &mut Vec<Vec<i128>>) {
    match rule {
        Rule::Constant(truth) => bodies.push(vec![i128::from(*truth)]),
        Rule::Literal(literal) => {
            let kind = match literal {
                Literal::Positive(_) => 5,
                Literal::Divides(..) => 6,
                Literal::DividesNot(..) => 7,
                Literal::Zero(_) => 10,
            };
            let mut body = vec![kind];
            body.extend(literal.divisor());
            body.extend(literal.sum());
            bodies.push(body);
        }
        Rule::And(left, right) | Rule::Or(left, right) => {
            let node = bodies.len();
            let kind = if matches!(rule, Rule::And(..)) { 2 } else { 3 };
            bodies.push(vec![kind, 0]);
            write_nodes(left, bodies);
            bodies[node][1] = bodies.len() as i128;
            write_nodes(right, bodies);
        }
        Rule::Not(child) => {
            bodies.push(vec![4]);
            write_nodes(child, bodies);
        }
        Rule::ForSome(v, body) | Rule::ForAll(v, body) => {
            let kind = if matches!(rule, Rule::ForSome(..)) {
                8
            } else {
                9
            };
            bodies.push(vec![kind, *v as i128]);
            write_nodes(body, bodies);
        }
    }
}
