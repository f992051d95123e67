//! Elimination.

use super::back::Back;
use super::bodies::literals;
use super::check::check;
use super::literals::literal;
use super::steps::rounds;
use super::walks::same;
use super::words::{MOST_WORDS, Word, kind, natural, width};
use crate::numbers::Numbers;

pub fn eliminate(table: &[u8], out: &mut [u8], work: &mut [u8]) -> Numbers {
    let result = eliminated(table, out, work);
    leave(result, out, work)
}

/// Leaves the result's table at the start of `out`.
fn eliminated(table: &[u8], out: &mut [u8], work: &mut [u8]) -> Result<(), u8> {
    let (input, []) = table.as_chunks() else {
        return Err(1);
    };
    check(input)?;
    let (out, work) = lent(out, work);
    let mut back = Back::new(work);
    let folded = same(&mut back, input, 0);
    back.stand(folded);
    back.finish(out)?;
    rounds(out, work)
}

/// The room, in both buffers.
pub fn lent<'a>(out: &'a mut [u8], work: &'a mut [u8]) -> (&'a mut [Word], &'a mut [Word]) {
    let (out, work) = (out.as_chunks_mut().0, work.as_chunks_mut().0);
    let room = out.len().min(work.len()).min(MOST_WORDS);
    (&mut out[..room], &mut work[..room])
}

/// Leaves zeros where they belong, and answers.
pub fn leave(result: Result<(), u8>, out: &mut [u8], work: &mut [u8]) -> Numbers {
    work.fill(0);
    if let Err(number) = result {
        out.fill(0);
        return Numbers::bare(number, 0);
    }
    let answer = answer(out.as_chunks().0);
    out[4 * answer.words as usize..].fill(0);
    answer
}

/// What is answered of the result whose table starts these words.
fn answer(table: &[Word]) -> Numbers {
    let nodes = natural(table[0]);
    let verdict = match kind(table, 0) {
        0 => 2,
        1 => 1,
        _ => 3,
    };
    let occurring = |set: u8, sum: &[i64]| {
        (0..6).fold(set, |set, bit| set | u8::from(sum[bit + 1] != 0) << bit)
    };
    Numbers {
        number: 0,
        verdict,
        words: (natural(table[nodes]) + width(kind(table, nodes - 1))) as u32,
        settings: literals(table, 0..nodes).fold(0, |set, body| occurring(set, &literal(body).sum)),
    }
}
