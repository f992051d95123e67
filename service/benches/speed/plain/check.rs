//! The paper's check of any words: 1, then 2 and 3 node by node, then 4.

use super::words::{MOST_WORDS, Word, body, natural, number};

/// How many nodes there are.
pub fn check(words: &[Word]) -> Result<usize, u8> {
    let count = natural(*words.first().ok_or(1)?);
    if words.len() > MOST_WORDS || count < 1 || count >= words.len() {
        return Err(1);
    }
    let mut place = count + 1;
    for &entry in &words[1..=count] {
        if natural(entry) != place {
            return Err(2);
        }
        place += width(&words[place..]).ok_or(3)?;
    }
    if place != words.len() {
        return Err(2);
    }
    match after_tree(words, count, 0) {
        Some(node) if node == count => Ok(count),
        _ => Err(4),
    }
}

/// How many words the body at the start has; none where its kind or a field is wrong.
fn width(words: &[Word]) -> Option<usize> {
    let (&kind, fields) = words.split_first()?;
    let (fits, width) = match natural(kind) {
        0 | 1 | 4 => (true, 1),
        2 | 3 => (!fields.is_empty(), 2),
        5 | 10 => (is_sum(fields), 8),
        6 | 7 => {
            let (&divisor, sum) = fields.split_first()?;
            (number(divisor) >= 1 && is_sum(sum), 9)
        }
        8 | 9 => ((1..=6).contains(&number(*fields.first()?)), 2),
        _ => return None,
    };
    fits.then_some(width)
}

fn is_sum(words: &[Word]) -> bool {
    words
        .first_chunk::<7>()
        .is_some_and(|sum| sum.iter().all(|&word| number(word) != i32::MIN))
}

/// The first node after the tree whose root is this one.
fn after_tree(words: &[Word], count: usize, node: usize) -> Option<usize> {
    if node == count {
        return None;
    }
    let body = body(words, node);
    match natural(body[0]) {
        2 | 3 => {
            let right = after_tree(words, count, node + 1)?;
            if natural(body[1]) != right {
                return None;
            }
            after_tree(words, count, right)
        }
        4 | 8 | 9 => after_tree(words, count, node + 1),
        _ => Some(node + 1),
    }
}
