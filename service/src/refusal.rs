//! Refusals: why a call did not answer, and what to change.

use std::error::Error;
use std::fmt::{Display, Formatter, Result};

/// Why a call did not answer, by the paper's numbers.
///
/// A later version of the library may refuse by further numbers, so a `match` needs a last arm.
///
/// ```
/// use service::Refusal;
///
/// let refusal = service::matches(&[1, 2, 3], [0; 6]).unwrap_err();
/// assert_eq!(refusal, Refusal::Length);
/// assert_eq!(refusal.number(), 1);
/// assert!(refusal.to_string().starts_with("refused by 1: byte length no multiple of 4"));
/// assert!(refusal.remedy().starts_with("send whole words of four bytes"));
/// ```
#[derive(Clone, Copy, Debug, PartialEq, Eq, Hash)]
#[non_exhaustive]
pub enum Refusal {
    /// 1: byte length no multiple of 4, no words, over 16,384 words, n below 1, or n+1 over the
    /// length.
    Length,
    /// 2: a contents entry is not the right place, or the table does not end with the last body.
    Contents,
    /// 3: unknown kind, a body past the end, or a field outside its range.
    Body,
    /// 4: nodes do not form the preorder tree.
    Tree,
    /// 5: a literal number passes ±2,147,483,647, or a divisor passes 2,147,483,647.
    Number,
    /// 6: a step table needs more than the room.
    Room,
    /// 7: the common factor D or the period P passes 4,096.
    Multiple,
    /// 8: the leave-off setting is not 1 to 6.
    Setting,
    /// 9: a matched value is outside ±500,000,000.
    Value,
    /// 10: matching was given a quantifier.
    Quantifier,
    /// The 64 bits of an answer that this version's library never gives, as is proved of it. They
    /// are met where the archive of another version is linked.
    Unknown(u64),
}

impl Refusal {
    /// The refusals of the paper, 1 to 10.
    pub const ALL: [Refusal; 10] = [
        Refusal::Length,
        Refusal::Contents,
        Refusal::Body,
        Refusal::Tree,
        Refusal::Number,
        Refusal::Room,
        Refusal::Multiple,
        Refusal::Setting,
        Refusal::Value,
        Refusal::Quantifier,
    ];

    /// The refusal in the 64 bits of an answer: its number, and zeros above it.
    pub(crate) fn unpack(packed: u64) -> Refusal {
        let mut known = Refusal::ALL.into_iter();
        known
            .find(|refusal| u64::from(refusal.number()) == packed)
            .unwrap_or(Refusal::Unknown(packed))
    }

    /// The paper's number.
    #[must_use]
    pub fn number(self) -> u8 {
        self.row().0
    }

    /// What is wrong, in the paper's words.
    #[must_use]
    pub fn meaning(self) -> &'static str {
        self.row().1
    }

    /// What to change.
    #[must_use]
    pub fn remedy(self) -> &'static str {
        self.row().2
    }

    /// Whether a limit of the steps was met (5 to 7): the rule is well formed, and is not decided.
    #[must_use]
    pub fn is_limit(self) -> bool {
        matches!(self, Refusal::Number | Refusal::Room | Refusal::Multiple)
    }

    /// Number, meaning and remedy.
    fn row(self) -> (u8, &'static str, &'static str) {
        match self {
            Refusal::Length => (
                1,
                "byte length no multiple of 4, no words, over 16,384 words, n below 1, \
                 or n+1 over the length",
                "send whole words of four bytes, at most 16,384: the node count n, n entries, \
                 n bodies",
            ),
            Refusal::Contents => (
                2,
                "a contents entry is not the right place, or the table does not end with the \
                 last body",
                "write the contents from the lengths of the bodies: body 0 starts at n+1, each \
                 next one where the last ends",
            ),
            Refusal::Body => (
                3,
                "unknown kind, a body past the end, or a field outside its range",
                "keep to kinds 0 to 10 with all their fields, settings 1 to 6, divisors from 1, \
                 and numbers within ±2,147,483,647",
            ),
            Refusal::Tree => (
                4,
                "nodes do not form the preorder tree",
                "write the nodes in preorder: a right child is the first node after the left \
                 subtree",
            ),
            Refusal::Number => (
                5,
                "a literal number passes ±2,147,483,647, or a divisor passes 2,147,483,647",
                "make the numbers, factors and divisors of the rule smaller",
            ),
            Refusal::Room => (
                6,
                "a step table needs more than the room",
                "make the rule shorter or its factors and divisors smaller; where the buffers \
                 are short, lend up to 65,536 bytes each",
            ),
            Refusal::Multiple => (
                7,
                "the common factor D or the period P passes 4,096",
                "make the factors and divisors smaller or more alike: D and P are their least \
                 common multiples",
            ),
            Refusal::Setting => (
                8,
                "the leave-off setting is not 1 to 6",
                "name a line by its number, 1 to 6",
            ),
            Refusal::Value => (
                9,
                "a matched value is outside ±500,000,000",
                "match values within ±500,000,000",
            ),
            Refusal::Quantifier => (
                10,
                "matching was given a quantifier",
                "eliminate first, and match the result",
            ),
            Refusal::Unknown(packed) => (
                packed as u8,
                "an answer that this version of the library never gives",
                "build the service and the library's archive from one version",
            ),
        }
    }
}

impl Display for Refusal {
    fn fmt(&self, f: &mut Formatter<'_>) -> Result {
        write!(f, "refused by {}: {}", self.number(), self.meaning())
    }
}

impl Error for Refusal {}

#[cfg(test)]
mod tests {
    use super::Refusal;

    #[test]
    fn all_are_in_order_and_unpacked_by_number() {
        for (number, refusal) in (1..).zip(Refusal::ALL) {
            assert_eq!(refusal.number(), number);
            assert_eq!(Refusal::unpack(u64::from(number)), refusal);
        }
    }

    #[test]
    fn what_the_library_never_gives_is_unknown() {
        for packed in [0, 11, 255, 1 << 8 | 1, 1 << 16 | 3, 1 << 32 | 6, u64::MAX] {
            let refusal = Refusal::unpack(packed);
            assert_eq!(refusal, Refusal::Unknown(packed));
            assert_eq!(refusal.number(), packed as u8);
        }
    }
}
