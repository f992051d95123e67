//! Answers, and how each is taken out of its 64 bits.
//!
//! Bits 0-7 are the number, 8-9 the verdict, 10-15 the settings, 32-63 the words. Bits 16-31 have
//! room for the place of a refusal, which no call gives yet: they are zero. Bits that the call never
//! answers are [`Refusal::Unknown`], so that what is answered here has all of the library's answer.

use crate::{Refusal, Settings};
use std::fmt::{Display, Formatter};

/// What the folded result of elimination is.
#[derive(Clone, Copy, Debug, PartialEq, Eq, Hash)]
pub enum Verdict {
    /// A bare true: the rule holds at every choice.
    True,
    /// A bare false: the rule holds at no choice.
    False,
    /// Neither. The result may still hold everywhere or nowhere.
    Open,
}

/// What elimination answers of the table that it leaves.
#[derive(Clone, Copy, Debug, PartialEq, Eq, Hash)]
#[non_exhaustive]
pub struct Answer {
    /// Whether the result is a bare true or false.
    pub verdict: Verdict,
    /// The words of the result.
    pub words: usize,
    /// The settings that occur in the result.
    pub settings: Settings,
}

impl Answer {
    /// The bytes of the result, at the start of the output buffer.
    #[must_use]
    pub fn bytes(&self) -> usize {
        self.words.saturating_mul(4)
    }
}

/// What the leave-off test answers of a line.
#[derive(Clone, Copy, Debug, PartialEq, Eq, Hash)]
pub enum Line {
    /// Verdict 1: two choices that differ in this line alone are treated differently.
    Matters,
    /// Verdict 2: no two choices that differ in this line alone are treated differently.
    MayBeLeftOff,
}

impl Display for Line {
    fn fmt(&self, f: &mut Formatter<'_>) -> std::fmt::Result {
        f.write_str(match self {
            Line::Matters => "matters",
            Line::MayBeLeftOff => "may be left off",
        })
    }
}

const TRUE: u64 = 1 << 8;
const FALSE: u64 = 2 << 8;
const OPEN: u64 = 3 << 8;

pub(crate) fn eliminated(packed: u64) -> Result<Answer, Refusal> {
    const SETTINGS: u64 = 0b11_1111 << 10;
    const WORDS: u64 = 0xffff_ffff << 32;
    let verdict = match packed & !(SETTINGS | WORDS) {
        TRUE => Verdict::True,
        FALSE => Verdict::False,
        OPEN => Verdict::Open,
        _ => return Err(Refusal::unpack(packed)),
    };
    Ok(Answer {
        verdict,
        words: (packed >> 32) as usize,
        settings: Settings::from_bits((packed >> 10) as u8),
    })
}

/// The question is closed, so its answer is a bare true or false: three words without a setting.
pub(crate) fn tested(packed: u64) -> Result<Line, Refusal> {
    const THREE_WORDS: u64 = 3 << 32;
    const MATTERS: u64 = THREE_WORDS | TRUE;
    const MAY_BE_LEFT_OFF: u64 = THREE_WORDS | FALSE;
    match packed {
        MATTERS => Ok(Line::Matters),
        MAY_BE_LEFT_OFF => Ok(Line::MayBeLeftOff),
        _ => Err(Refusal::unpack(packed)),
    }
}

/// Matching makes no table: no words, no settings.
pub(crate) fn matched(packed: u64) -> Result<bool, Refusal> {
    match packed {
        TRUE => Ok(true),
        FALSE => Ok(false),
        _ => Err(Refusal::unpack(packed)),
    }
}

#[cfg(test)]
mod tests {
    use super::{Answer, Line, Verdict, eliminated, matched, tested};
    use crate::{Refusal, Settings};

    fn pack(number: u64, verdict: u64, settings: u64, place: u64, words: u64) -> u64 {
        number | verdict << 8 | settings << 10 | place << 16 | words << 32
    }

    #[test]
    fn each_part_of_an_answer_is_unpacked() {
        let verdicts = [Verdict::True, Verdict::False, Verdict::Open];
        for (number, verdict) in (1..).zip(verdicts) {
            for (settings, words) in [(0, 3), (0b10, 11), (0b11_1111, 16_384)] {
                let answer = Answer {
                    verdict,
                    words,
                    settings: Settings::from_bits(settings),
                };
                let packed = pack(0, number, settings.into(), 0, words as u64);
                assert_eq!(eliminated(packed), Ok(answer));
            }
        }
        assert_eq!(tested(pack(0, 1, 0, 0, 3)), Ok(Line::Matters));
        assert_eq!(tested(pack(0, 2, 0, 0, 3)), Ok(Line::MayBeLeftOff));
        assert_eq!(matched(pack(0, 1, 0, 0, 0)), Ok(true));
        assert_eq!(matched(pack(0, 2, 0, 0, 0)), Ok(false));
    }

    #[test]
    fn every_refusal_is_unpacked() {
        for refusal in Refusal::ALL {
            let packed = refusal.number().into();
            assert_eq!(eliminated(packed), Err(refusal));
            assert_eq!(tested(packed), Err(refusal));
            assert_eq!(matched(packed), Err(refusal));
        }
    }

    #[test]
    fn what_a_call_never_answers_is_unknown() {
        let never = [
            pack(0, 0, 0, 0, 0),
            pack(11, 0, 0, 0, 0),
            pack(6, 1, 0, 0, 0),
            pack(6, 0, 0, 1, 0),
            pack(0, 1, 0, 1, 3),
            u64::MAX,
        ];
        for packed in never {
            let unknown = Some(Refusal::Unknown(packed));
            assert_eq!(eliminated(packed).err(), unknown);
            assert_eq!(tested(packed).err(), unknown);
            assert_eq!(matched(packed).err(), unknown);
        }
        for packed in [
            pack(0, 3, 0, 0, 3),
            pack(0, 2, 1, 0, 3),
            pack(0, 2, 0, 0, 4),
        ] {
            assert_eq!(tested(packed), Err(Refusal::Unknown(packed)));
            assert_eq!(matched(packed), Err(Refusal::Unknown(packed)));
        }
    }
}
