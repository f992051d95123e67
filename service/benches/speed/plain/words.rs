//! The words of lent bytes, and the nodes of a table.

pub type Word = [u8; 4];

/// As many words as a table has at most.
pub const MOST_WORDS: usize = 16_384;

pub fn number(word: Word) -> i32 {
    i32::from_le_bytes(word)
}

/// A kind, a place or a node's number; a number below 0 becomes one that none of them reaches.
pub fn natural(word: Word) -> usize {
    u32::from_le_bytes(word) as usize
}

/// The word of a kind, a place, a node's number or a divisor.
pub fn word(natural: usize) -> Word {
    (natural as u32).to_le_bytes()
}

/// The words from a node's body on, in a checked table.
pub fn body(table: &[Word], node: usize) -> &[Word] {
    &table[natural(table[node + 1])..]
}

pub fn kind(table: &[Word], node: usize) -> usize {
    natural(body(table, node)[0])
}

/// How many words a body of a known kind has.
pub fn width(kind: usize) -> usize {
    const WIDTHS: [usize; 11] = [1, 1, 2, 2, 1, 8, 9, 9, 2, 2, 8];
    WIDTHS[kind]
}

pub fn is_quantifier(kind: usize) -> bool {
    matches!(kind, 8 | 9)
}
