//! Folding: "from the leaves to the root".

use super::rule::{Literal, Rule};

pub fn fold(rule: Rule) -> Rule {
    match rule {
        Rule::Constant(truth) => Rule::Constant(truth),
        Rule::Literal(literal) => match truth_of(&literal) {
            Some(truth) => Rule::Constant(truth),
            None => Rule::Literal(literal),
        },
        // "Not of true is false and the reverse."
        Rule::Not(child) => match fold(*child) {
            Rule::Constant(truth) => Rule::Constant(!truth),
            child => Rule::not(child),
        },
        // "An and with a false side is false, one with a true side is its other side; or is the
        // dual."
        Rule::And(left, right) => match (fold(*left), fold(*right)) {
            (Rule::Constant(false), _) | (_, Rule::Constant(false)) => Rule::Constant(false),
            (Rule::Constant(true), other) | (other, Rule::Constant(true)) => other,
            (left, right) => Rule::and(left, right),
        },
        Rule::Or(left, right) => match (fold(*left), fold(*right)) {
            (Rule::Constant(true), _) | (_, Rule::Constant(true)) => Rule::Constant(true),
            (Rule::Constant(false), other) | (other, Rule::Constant(false)) => other,
            (left, right) => Rule::or(left, right),
        },
        // "Nothing else changes."
        Rule::ForSome(setting, body) => Rule::ForSome(setting, Box::new(fold(*body))),
        Rule::ForAll(setting, body) => Rule::ForAll(setting, Box::new(fold(*body))),
    }
}

/// "A literal whose a's are all zero becomes its truth value. Divisor 1 makes kind 6 true and kind
/// 7 false."
fn truth_of(literal: &Literal) -> Option<bool> {
    let [_, factors @ ..] = literal.sum();
    match literal {
        _ if *factors == [0; 6] => Some(literal.holds(&[0; 6])),
        Literal::Divides(1, _) => Some(true),
        Literal::DividesNot(1, _) => Some(false),
        _ => None,
    }
}
