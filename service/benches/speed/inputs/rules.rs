//! Rules as the bodies of their nodes in preorder. A right child is counted from the rule's root.

use crate::tables;

pub type Body = Vec<i32>;
pub type Rule = Vec<Body>;

pub const AND: i32 = 2;
pub const OR: i32 = 3;

/// 0 < T.
pub fn positive(sum: [i32; 7]) -> Rule {
    literal(&[5], sum)
}

/// k divides T.
pub fn divides(k: i32, sum: [i32; 7]) -> Rule {
    literal(&[6, k], sum)
}

/// k does not divide T.
pub fn divides_not(k: i32, sum: [i32; 7]) -> Rule {
    literal(&[7, k], sum)
}

/// T = 0.
pub fn zero(sum: [i32; 7]) -> Rule {
    literal(&[10], sum)
}

fn literal(kind: &[i32], sum: [i32; 7]) -> Rule {
    vec![[kind, &sum].concat()]
}

pub fn not(rule: Rule) -> Rule {
    over(vec![4], rule)
}

pub fn some(setting: i32, rule: Rule) -> Rule {
    over(vec![8, setting], rule)
}

pub fn all(setting: i32, rule: Rule) -> Rule {
    over(vec![9, setting], rule)
}

fn over(root: Body, rule: Rule) -> Rule {
    let mut joined = vec![root];
    append(&mut joined, rule);
    joined
}

pub fn join(kind: i32, left: Rule, right: Rule) -> Rule {
    let mut joined = vec![vec![kind, 1 + left.len() as i32]];
    append(&mut joined, left);
    append(&mut joined, right);
    joined
}

fn append(bodies: &mut Vec<Body>, rule: Rule) {
    let before = bodies.len() as i32;
    bodies.extend(rule.into_iter().map(|mut body| {
        if let [AND | OR, right_child] = &mut body[..] {
            *right_child += before;
        }
        body
    }));
}

/// The first rule and (the second and (the third and ..)), or the same with or.
pub fn nested_right(kind: i32, rules: Vec<Rule>) -> Rule {
    let joined = rules.into_iter().rev();
    joined
        .reduce(|right, left| join(kind, left, right))
        .expect("a rule")
}

/// (.. (the first rule and the second) and the third) .., or the same with or.
pub fn nested_left(kind: i32, rules: Vec<Rule>) -> Rule {
    let joined = rules.into_iter();
    joined
        .reduce(|left, right| join(kind, left, right))
        .expect("a rule")
}

pub fn table(rule: &Rule) -> Vec<u8> {
    tables::bytes(&tables::words(rule))
}
