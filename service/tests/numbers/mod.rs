//! The library's calls, answering with the paper's four numbers.

#![allow(dead_code)] // no test makes every call

use service::{Line, Refusal, Verdict};

/// An answer: its number, the verdict, the words of the result and the set of settings.
#[derive(Clone, Copy, Debug, PartialEq, Eq)]
pub struct Numbers {
    pub number: u8,
    pub verdict: u8,
    pub words: u32,
    pub settings: u8,
}

impl Numbers {
    /// An answer without words and settings.
    pub fn bare(number: u8, verdict: u8) -> Numbers {
        Numbers {
            number,
            verdict,
            words: 0,
            settings: 0,
        }
    }

    /// "A refusal has zeros in all three."
    fn refused(refusal: Refusal) -> Numbers {
        Numbers::bare(refusal.number(), 0)
    }

    /// Matching "answers its number with verdict 1 or 2 (0 when refused)".
    pub fn matched(result: Result<bool, u8>) -> Numbers {
        match result {
            Ok(true) => Numbers::bare(0, 1),
            Ok(false) => Numbers::bare(0, 2),
            Err(number) => Numbers::bare(number, 0),
        }
    }
}

pub fn matches(table: &[u8], values: [i32; 6]) -> Numbers {
    Numbers::matched(service::matches(table, values).map_err(|refusal| refusal.number()))
}

pub fn eliminate(table: &[u8], out: &mut [u8], work: &mut [u8]) -> Numbers {
    match service::eliminate(table, out, work) {
        Ok(answer) => Numbers {
            number: 0,
            verdict: match answer.verdict {
                Verdict::True => 1,
                Verdict::False => 2,
                Verdict::Open => 3,
            },
            words: answer.words as u32,
            settings: answer.settings.bits(),
        },
        Err(refusal) => Numbers::refused(refusal),
    }
}

pub fn leave_off(table: &[u8], setting: i32, out: &mut [u8], work: &mut [u8]) -> Numbers {
    // A line of this type was answered in three words, without a setting.
    let answered = |verdict| Numbers {
        words: 3,
        ..Numbers::bare(0, verdict)
    };
    match service::leave_off(table, setting, out, work) {
        Ok(Line::Matters) => answered(1),
        Ok(Line::MayBeLeftOff) => answered(2),
        Err(refusal) => Numbers::refused(refusal),
    }
}
