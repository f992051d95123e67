//! A rule built from the back of a lent buffer, folded as it is built, and its table.

use super::literals::{Literal, has_divisor, literal};
use super::words::{Word, natural, width, word};

/// How many words and nodes are built.
#[derive(Clone, Copy)]
pub struct Built {
    pub words: usize,
    pub nodes: usize,
}

/// The end of `buffer` holds what is built, each right child as its distance. Past the room words
/// are counted and not written.
pub struct Back<'a> {
    buffer: &'a mut [Word],
    pub built: Built,
}

/// A truth value, of which nothing is put; or none, and the rule stands in front.
pub type Folded = Option<bool>;

impl<'a> Back<'a> {
    pub fn new(buffer: &'a mut [Word]) -> Back<'a> {
        let built = Built { words: 0, nodes: 0 };
        Back { buffer, built }
    }

    fn put<const WIDTH: usize>(&mut self, body: [Word; WIDTH]) -> Folded {
        self.built.words += WIDTH;
        self.built.nodes += 1;
        if let Some(place) = self.buffer.len().checked_sub(self.built.words) {
            self.buffer[place..place + WIDTH].copy_from_slice(&body);
        }
        None
    }

    /// The literal whose body starts these words, as it is.
    pub fn copy(&mut self, body: &[Word]) -> Folded {
        let literal = literal(body);
        if let Some(truth) = literal.truth() {
            return Some(truth);
        }
        const WHOLE: &str = "a checked literal is whole";
        if has_divisor(literal.kind) {
            self.put(*body.first_chunk::<9>().expect(WHOLE))
        } else {
            self.put(*body.first_chunk::<8>().expect(WHOLE))
        }
    }

    #[inline(always)]
    pub fn literal(&mut self, literal: &Literal) -> Folded {
        if let Some(truth) = literal.truth() {
            return Some(truth);
        }
        let kind = word(literal.kind);
        let [c, a1, a2, a3, a4, a5, a6] = literal.sum.map(|n| (n as i32).to_le_bytes());
        if has_divisor(literal.kind) {
            let divisor = word(literal.divisor as usize);
            self.put([kind, divisor, c, a1, a2, a3, a4, a5, a6])
        } else {
            self.put([kind, c, a1, a2, a3, a4, a5, a6])
        }
    }

    /// An and (2) or an or (3) of the two sides that were built since `start`, the right one up to
    /// `middle`; the right one does not settle it.
    pub fn join(
        &mut self,
        kind: usize,
        start: Built,
        middle: Built,
        right: Folded,
        left: Folded,
    ) -> Folded {
        match (left, right) {
            (Some(truth), _) if settles(kind, truth) => {
                self.built = start;
                left
            }
            (Some(_), _) => right,
            (None, Some(_)) => None,
            (None, None) => {
                let distance = self.built.nodes - middle.nodes + 1;
                self.put([word(kind), word(distance)])
            }
        }
    }

    pub fn not(&mut self, inner: Folded) -> Folded {
        match inner {
            Some(truth) => Some(!truth),
            None => self.put([word(4)]),
        }
    }

    pub fn quantifier(&mut self, kind: usize, setting: usize, inner: Folded) -> Folded {
        self.stand(inner);
        self.put([word(kind), word(setting)])
    }

    /// A truth value is put after all where it stands alone or under a quantifier.
    pub fn stand(&mut self, folded: Folded) {
        if let Some(truth) = folded {
            self.put([word(truth.into())]);
        }
    }

    /// The table of what is built, at the start of `table`, whose words are the room.
    pub fn finish(self, table: &mut [Word]) -> Result<(), u8> {
        let Built { words, nodes } = self.built;
        if 1 + nodes + words > table.len() {
            return Err(6);
        }
        let bodies = &self.buffer[self.buffer.len() - words..];
        let (contents, rest) = table.split_at_mut(1 + nodes);
        rest[..words].copy_from_slice(bodies);
        contents[0] = word(nodes);
        let mut place = 0;
        for (node, entry) in contents[1..].iter_mut().enumerate() {
            *entry = word(1 + nodes + place);
            let kind = natural(rest[place]);
            if matches!(kind, 2 | 3) {
                rest[place + 1] = word(natural(rest[place + 1]) + node);
            }
            place += width(kind);
        }
        Ok(())
    }
}

/// "An and with a false side is false"; or is the dual.
pub fn settles(kind: usize, truth: bool) -> bool {
    truth == (kind == 3)
}
