//! The three calls once more, written from the paper alone and not from the library: trees, and
//! whole numbers of 128 bits. What is quoted is the paper's.

#![allow(dead_code)] // no test makes every call

mod elimination;
mod folding;
mod leave_off;
mod matching;
mod rule;
mod steps;
mod table;

use crate::numbers::Numbers;
use elimination::{Elimination, TOO_LONG};
use rule::Rule;
use std::panic::resume_unwind;
use std::thread::{Builder, scope};

/// Does what uses this implementation, which walks trees without a thought for the stack.
pub fn on_a_large_stack(run: impl FnOnce() + Send) {
    scope(|s| {
        let thread = Builder::new().stack_size(256 << 20).spawn_scoped(s, run);
        let ended = thread.expect("a thread").join();
        ended.unwrap_or_else(|failure| resume_unwind(failure));
    });
}

pub fn matches(table: &[u8], values: [i32; 6]) -> Numbers {
    let values = values.map(i128::from);
    Numbers::matched(table::read(table).and_then(|rule| matching::matching(&rule, &values)))
}

pub fn eliminate(table: &[u8], out: &mut [u8], work: &mut [u8]) -> Numbers {
    in_buffers(out, work, |room| {
        eliminated(table, &mut Elimination::with_room(room))
    })
}

pub fn leave_off(table: &[u8], setting: i32, out: &mut [u8], work: &mut [u8]) -> Numbers {
    in_buffers(out, work, |room| {
        left_off(table, setting, &mut Elimination::with_room(room))
    })
}

/// How a call ends that is lent the greatest room.
pub struct Trial {
    pub number: u8,
    /// The words of its largest step table: with less room it ends with 6.
    pub room: usize,
}

/// None where a disjunction would have more literals than that.
pub fn try_elimination(table: &[u8], most_literals: usize) -> Option<Trial> {
    trial(most_literals, |elimination| eliminated(table, elimination))
}

/// The same for the leave-off test.
pub fn try_leave_off(table: &[u8], setting: i32, most_literals: usize) -> Option<Trial> {
    trial(most_literals, |elimination| {
        left_off(table, setting, elimination)
    })
}

fn trial(
    most_literals: usize,
    call: impl FnOnce(&mut Elimination) -> Result<Rule, u8>,
) -> Option<Trial> {
    let mut elimination = Elimination {
        most_literals,
        ..Elimination::with_room(table::MOST_WORDS)
    };
    let number = call(&mut elimination).err().unwrap_or(0);
    let room = elimination.greatest;
    (number != TOO_LONG).then_some(Trial { number, room })
}

fn eliminated(table: &[u8], elimination: &mut Elimination) -> Result<Rule, u8> {
    elimination.eliminate(table::read(table)?)
}

/// The question "is the first table given to elimination and must fit the room before folding (6)".
fn left_off(table: &[u8], setting: i32, elimination: &mut Elimination) -> Result<Rule, u8> {
    let question = leave_off::question(table::read(table)?, setting)?;
    elimination.fits(table::size(&question))?;
    elimination.eliminate(question)
}

/// "An answered call leaves the table at the start of the output buffer, zeros after it, and zeros
/// in the whole work buffer; a refused one leaves zeros in both."
fn in_buffers(
    out: &mut [u8],
    work: &mut [u8],
    call: impl FnOnce(usize) -> Result<Rule, u8>,
) -> Numbers {
    // "The room is the shorter of the two lent lengths in whole words, at most 16,384; odd bytes at
    // a buffer's end are zeroed with the rest."
    let room = (out.len().min(work.len()) / 4).min(table::MOST_WORDS);
    out.fill(0);
    work.fill(0);
    // "A refusal has zeros in all three."
    let mut answer = Numbers {
        number: 0,
        verdict: 0,
        words: 0,
        settings: 0,
    };
    match call(room) {
        Err(refusal) => answer.number = refusal,
        Ok(rule) => {
            let table = table::write(&rule);
            out[..table.len()].copy_from_slice(&table);
            answer.verdict = match rule {
                Rule::Constant(true) => 1,
                Rule::Constant(false) => 2,
                _ => 3,
            };
            answer.words = (table.len() / 4) as u32;
            answer.settings = rule.settings();
        }
    }
    answer
}
