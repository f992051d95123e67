//! Rules as readable mathematics, without recursion: 8,190 nots may stand above one another.

use super::{Join, Node, Quantifier, Rule, Sum, Test};
use std::fmt::{Display, Formatter, Result};

/// What is still to be written.
enum Piece {
    Text(&'static str),
    /// The rule of the next node.
    Rule(Stands),
}

/// What a rule stands in.
#[derive(Clone, Copy)]
enum Stands {
    /// Nothing, or a quantifier, which reaches to the end.
    Alone,
    /// An and or an or.
    Beside,
    /// A not.
    Under,
}

/// Such as `for some s1, 2·s1 - s2 = 0 and not (0 < s3)`; of a fault, its message.
impl Display for Rule {
    fn fmt(&self, f: &mut Formatter<'_>) -> Result {
        let mut nodes = match &self.0 {
            Ok(tree) => tree.nodes.iter().rev(),
            Err(fault) => return write!(f, "no rule: {fault}"),
        };
        let mut ahead = vec![Piece::Rule(Stands::Alone)];
        while let Some(piece) = ahead.pop() {
            match piece {
                Piece::Text(text) => f.write_str(text)?,
                Piece::Rule(stands) => {
                    if let Some(&node) = nodes.next() {
                        write(node, stands, &mut ahead, f)?;
                    }
                }
            }
        }
        Ok(())
    }
}

/// Writes the start of a node's rule and puts the rest ahead, the last piece first.
fn write(node: Node, stands: Stands, ahead: &mut Vec<Piece>, f: &mut Formatter<'_>) -> Result {
    if in_brackets(node, stands) {
        f.write_str("(")?;
        ahead.push(Piece::Text(")"));
    }
    let sides = |text| {
        [
            Piece::Rule(Stands::Beside),
            Piece::Text(text),
            Piece::Rule(Stands::Beside),
        ]
    };
    match node {
        Node::Constant(value) => return write!(f, "{value}"),
        Node::Literal(test, sum) => return literal(test, &sum, f),
        Node::Join(Join::And, _) => ahead.extend(sides(" and ")),
        Node::Join(Join::Or, _) => ahead.extend(sides(" or ")),
        Node::Not => {
            ahead.push(Piece::Rule(Stands::Under));
            f.write_str("not ")?;
        }
        Node::Quantifier(quantifier, setting) => {
            ahead.push(Piece::Rule(Stands::Alone));
            let which = match quantifier {
                Quantifier::Some => "some",
                Quantifier::All => "all",
            };
            write!(f, "for {which} s{setting}, ")?;
        }
    }
    Ok(())
}

fn in_brackets(node: Node, stands: Stands) -> bool {
    match (node, stands) {
        (_, Stands::Alone) | (Node::Constant(_) | Node::Not, _) => false,
        (Node::Literal(..), Stands::Beside) => false,
        (_, Stands::Beside | Stands::Under) => true,
    }
}

fn literal(test: Test, sum: &Sum, f: &mut Formatter<'_>) -> Result {
    match test {
        Test::Positive => f.write_str("0 < ")?,
        Test::Divides(k) => write!(f, "{k} divides ")?,
        Test::DividesNot(k) => write!(f, "{k} does not divide ")?,
        Test::Zero => {}
    }
    terms(sum, f)?;
    match test {
        Test::Zero => f.write_str(" = 0"),
        _ => Ok(()),
    }
}

/// The terms that are not 0, the constant last.
fn terms([c, factors @ ..]: &Sum, f: &mut Formatter<'_>) -> Result {
    let mut signs = ["-", ""];
    for (setting, &factor) in (1..).zip(factors) {
        if factor == 0 {
            continue;
        }
        f.write_str(signs[usize::from(factor > 0)])?;
        signs = [" - ", " + "];
        match factor.unsigned_abs() {
            1 => write!(f, "s{setting}")?,
            size => write!(f, "{size}·s{setting}")?,
        }
    }
    if *c == 0 && !signs[1].is_empty() {
        return Ok(());
    }
    write!(f, "{}{}", signs[usize::from(*c >= 0)], c.unsigned_abs())
}
