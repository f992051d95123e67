//! Reads the tree of a table, or refuses it by 1 to 4 in the paper's order.

use super::{Join, Node, Quantifier, Sum, Test, Tree};
use crate::{MOST_WORDS, Refusal};

pub(super) fn tree(table: &[u8]) -> Result<Tree, Refusal> {
    let (words, []) = table.as_chunks() else {
        return Err(Refusal::Length);
    };
    let mut nodes = nodes(words)?;
    nodes.reverse();
    one_tree(&nodes).ok_or(Refusal::Tree)?;
    let words = words.len();
    Ok(Tree { nodes, words })
}

/// The nodes in order. A join has the number of nodes that its right child tells for the left side.
fn nodes(words: &[[u8; 4]]) -> Result<Vec<Node>, Refusal> {
    let words: Vec<i32> = words
        .iter()
        .take(MOST_WORDS + 1)
        .map(|&word| i32::from_le_bytes(word))
        .collect();
    let length = words.len();
    let count = match words.first() {
        Some(&n) if 1 <= n && (n as usize) < length && length <= MOST_WORDS => n as usize,
        _ => return Err(Refusal::Length),
    };
    let mut nodes = Vec::with_capacity(count);
    let mut place = count + 1;
    for (number, &entry) in (0..).zip(&words[1..=count]) {
        if usize::try_from(entry) != Ok(place) {
            return Err(Refusal::Contents);
        }
        let node = node(&words[place..], number).ok_or(Refusal::Body)?;
        place += node.width();
        nodes.push(node);
    }
    if place != length {
        return Err(Refusal::Contents);
    }
    Ok(nodes)
}

/// The node of this number, whose body starts the words.
fn node(words: &[i32], number: i32) -> Option<Node> {
    let (&kind, fields) = words.split_first()?;
    // Another right child gives another left side, also where they wrap around.
    let left = || Some(fields.first()?.wrapping_sub(number + 1));
    let node = match kind {
        0 => Node::Constant(false),
        1 => Node::Constant(true),
        2 => Node::Join(Join::And, left()?),
        3 => Node::Join(Join::Or, left()?),
        4 => Node::Not,
        5 => Node::Literal(Test::Positive, sum(fields)?),
        6 => divided(Test::Divides, fields)?,
        7 => divided(Test::DividesNot, fields)?,
        8 => Node::Quantifier(Quantifier::Some, setting(fields)?),
        9 => Node::Quantifier(Quantifier::All, setting(fields)?),
        10 => Node::Literal(Test::Zero, sum(fields)?),
        _ => return None,
    };
    Some(node)
}

fn sum(fields: &[i32]) -> Option<Sum> {
    let sum = *fields.first_chunk()?;
    (!sum.contains(&i32::MIN)).then_some(sum)
}

fn divided(test: fn(i32) -> Test, fields: &[i32]) -> Option<Node> {
    let (&k, fields) = fields.split_first()?;
    let sum = sum(fields)?;
    (k >= 1).then_some(Node::Literal(test(k), sum))
}

fn setting(fields: &[i32]) -> Option<i32> {
    let &setting = fields.first()?;
    (1..=6).contains(&setting).then_some(setting)
}

/// Whether the nodes, the last one first, are those of one tree.
fn one_tree(nodes: &[Node]) -> Option<()> {
    // The sizes of the trees that start behind a node, the nearest one last.
    let mut sizes = Vec::new();
    for &node in nodes {
        let below = match node {
            Node::Constant(_) | Node::Literal(..) => 0,
            Node::Not | Node::Quantifier(..) => sizes.pop()?,
            Node::Join(_, left) => {
                let (found, right) = (sizes.pop()?, sizes.pop()?);
                if found != left {
                    return None;
                }
                left + right
            }
        };
        sizes.push(1 + below);
    }
    (sizes.len() == 1).then_some(())
}
