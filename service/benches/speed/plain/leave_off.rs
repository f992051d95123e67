//! The leave-off test.

use super::back::Back;
use super::check::check;
use super::elimination::{leave, lent};
use super::steps::rounds;
use super::walks::same;
use super::words::{Word, body, kind, natural, width, word};
use crate::numbers::Numbers;

pub fn leave_off(table: &[u8], setting: i32, out: &mut [u8], work: &mut [u8]) -> Numbers {
    let result = tested(table, setting, out, work);
    leave(result, out, work)
}

/// Leaves the table of the question's result at the start of `out`.
fn tested(table: &[u8], setting: i32, out: &mut [u8], work: &mut [u8]) -> Result<(), u8> {
    let (rule, []) = table.as_chunks() else {
        return Err(1);
    };
    let nodes = check(rule)?;
    if !(1..=6).contains(&setting) {
        return Err(8);
    }
    let (out, work) = lent(out, work);
    if 2 * rule.len() + 25 > out.len() {
        return Err(6);
    }
    ask(rule, nodes, setting as usize, out);
    let mut back = Back::new(work);
    let folded = same(&mut back, out, 0);
    back.stand(folded);
    back.finish(out)?;
    rounds(out, work)
}

/// For some of each other setting the and of (for some v, the rule) and (for some v, not the rule).
fn ask(rule: &[Word], nodes: usize, v: usize, out: &mut [Word]) {
    let asked = 9 + 2 * nodes;
    out[0] = word(asked);
    let mut front = Front {
        table: out,
        node: 0,
        place: asked + 1,
    };
    for other in (1..=6).filter(|&other| other != v) {
        front.put(&[word(8), word(other)]);
    }
    front.put(&[word(2), word(7 + nodes)]);
    front.put(&[word(8), word(v)]);
    front.copy(rule, nodes);
    front.put(&[word(8), word(v)]);
    front.put(&[word(4)]);
    front.copy(rule, nodes);
}

/// A table as it is written node by node.
struct Front<'a> {
    table: &'a mut [Word],
    node: usize,
    place: usize,
}

impl Front<'_> {
    fn put(&mut self, body: &[Word]) {
        self.table[self.node + 1] = word(self.place);
        self.table[self.place..][..body.len()].copy_from_slice(body);
        self.node += 1;
        self.place += body.len();
    }

    /// All nodes of a checked rule, its right children that much further on.
    fn copy(&mut self, rule: &[Word], nodes: usize) {
        let first = self.node;
        for node in 0..nodes {
            let (body, kind, place) = (body(rule, node), kind(rule, node), self.place);
            self.put(&body[..width(kind)]);
            if matches!(kind, 2 | 3) {
                self.table[place + 1] = word(first + natural(body[1]));
            }
        }
    }
}
