//! Tables from the bodies of their nodes.

#![allow(dead_code)] // no test needs all of it

/// The bytes of the table.
pub fn of(bodies: &[Vec<i32>]) -> Vec<u8> {
    bytes(&words(bodies))
}

pub fn words(bodies: &[Vec<i32>]) -> Vec<i32> {
    let count = bodies.len() as i32;
    let mut table = vec![count];
    let mut place = count + 1;
    for body in bodies {
        table.push(place);
        place += body.len() as i32;
    }
    table.extend(bodies.iter().flatten());
    table
}

/// A rule's bodies after others, its right children shifted to where they come to stand.
pub fn append(bodies: &mut Vec<Vec<i32>>, rule: &[Vec<i32>]) {
    let shift = bodies.len() as i32;
    bodies.extend(rule.iter().map(|body| match body[..] {
        [kind @ (2 | 3), right] => vec![kind, right + shift],
        _ => body.clone(),
    }));
}

pub fn bytes(words: &[i32]) -> Vec<u8> {
    words.iter().flat_map(|word| word.to_le_bytes()).collect()
}
