//! The store's three calls on rule tables, as safe functions over byte slices.
//!
//! A key is a form of up to six settings, s1 to s6. A rule says of a form whether it is treated one
//! way or the other: sums of settings compared with zero or tested for even division, joined by and,
//! or, not, for some, for all. It travels as a table of signed 32-bit words, here as little-endian
//! bytes; [`Rule`] makes tables and reads them.
//!
//! | Call | Takes | Answers |
//! |---|---|---|
//! | [`eliminate`] | a table | an equivalent table without quantifiers |
//! | [`leave_off`] | a table and a setting | whether that line of the form matters |
//! | [`matches()`] | a quantifier-free table and six values | whether the rule holds there |
//!
//! The work is done by a proved library; this crate lends it the bytes and takes its answer apart.
//! No call has a precondition: any bytes, numbers and buffers get an answer or a [`Refusal`]. No
//! call panics or allocates, and none keeps anything, so that many threads may call at once. The
//! deepest tables need [`STACK_BYTES`] of stack.
//!
//! ```
//! use service::{Line, MOST_BYTES, Rule};
//!
//! // s1 is the level; s3 >= 0 or s3 < 2·s1 holds wherever 0 < s1.
//! let rule = Rule::and(
//!     Rule::positive(0, &[1]),
//!     Rule::or(Rule::positive(1, &[0, 0, 1]), Rule::positive(0, &[2, 0, -1])),
//! );
//! let table = rule.to_table()?;
//! let (mut out, mut work) = (vec![0; MOST_BYTES], vec![0; MOST_BYTES]);
//! assert_eq!(service::leave_off(&table, 1, &mut out, &mut work)?, Line::Matters);
//! assert_eq!(service::leave_off(&table, 3, &mut out, &mut work)?, Line::MayBeLeftOff);
//! assert!(service::matches(&table, [2, 0, -7, 0, 0, 0])?);
//! # Ok::<(), Box<dyn std::error::Error>>(())
//! ```

mod answer;
mod ffi;
mod refusal;
mod rule;
mod settings;

pub use answer::{Answer, Line, Verdict};
pub use refusal::Refusal;
pub use rule::{Fault, Rule};
pub use settings::Settings;

/// The most words of a table, and of the room.
pub const MOST_WORDS: usize = 16_384;

/// The most bytes of a table. A buffer of so many is the longest that a call makes use of: what is
/// behind them is only zeroed.
pub const MOST_BYTES: usize = 4 * MOST_WORDS;

/// The stack on which any call answers any table; Rust's threads have as much by default.
///
/// Elimination needs the most, 1,110,016 bytes for 3,276 ands, the thread's own part included;
/// matching needs 372,736 for them. `cargo run --release --example stack` measures it. The rest is
/// a margin.
///
/// ```
/// use service::{Rule, STACK_BYTES};
///
/// let nots = (0..8_190).fold(Rule::truth(true), |rule, _| Rule::not(rule));
/// let table = nots.to_table()?;
/// let thread = std::thread::Builder::new().stack_size(STACK_BYTES);
/// let answer = thread.spawn(move || service::matches(&table, [0; 6]))?.join();
/// assert_eq!(answer.ok(), Some(Ok(true)));
/// # Ok::<(), Box<dyn std::error::Error>>(())
/// ```
pub const STACK_BYTES: usize = 2 << 20;

/// Elimination: gives an equivalent table without quantifiers, in lent memory.
///
/// Precondition: none. The room is the shorter of the two lent lengths in whole words, at most
/// 16,384.
///
/// Postcondition, answered: the table of the result is at the start of `out`, with zeros after it.
/// It has no quantifier, names only settings that are free in the rule, and holds at exactly the
/// choices at which the rule holds. The verdict says whether it is a bare true or false; words and
/// settings are those of the result. `work` is zeros.
///
/// # Errors
///
/// The first of these that is due. `out` and `work` are then zeros.
///
/// | No. | Given when |
/// |---|---|
/// | 1 | byte length no multiple of 4, no words, over 16,384 words, n below 1, or n+1 over the length |
/// | 2, 3 | for each node in order: its contents entry is not the right place (2); unknown kind, a body past the end, or a field outside its range (3) |
/// | 2 | the table does not end with the last body |
/// | 4 | nodes do not form the preorder tree |
/// | 5, 6, 7 | as the steps meet them: a literal number passes ±2,147,483,647 or a divisor 2,147,483,647 (5); a step table, folded, needs more than the room (6); the common factor D or the period P passes 4,096 (7) |
///
/// ```
/// use service::{Rule, Verdict};
///
/// // for some s1, 2·s1 = s2
/// let table = Rule::some(1, Rule::zero(0, &[2, -1])).to_table()?;
/// let (mut out, mut work) = ([0; 152], [0; 152]);
/// let answer = service::eliminate(&table, &mut out, &mut work)?;
/// assert_eq!(answer.verdict, Verdict::Open);
/// assert_eq!(answer.words, 11);
/// assert!(answer.settings.iter().eq([2]));
/// let result = Rule::from_table(&out[..answer.bytes()])?;
/// assert_eq!(result.to_string(), "2 divides s2");
/// # Ok::<(), Box<dyn std::error::Error>>(())
/// ```
pub fn eliminate(table: &[u8], out: &mut [u8], work: &mut [u8]) -> Result<Answer, Refusal> {
    answer::eliminated(ffi::eliminate(table, out, work))
}

/// The leave-off test: says whether a line of the form matters to a rule.
///
/// The question is: for some of each other setting, in rising order from the outside, the and of
/// (for some v, F) and (for some v, not F), where F is the rule and v the setting. Elimination
/// answers it.
///
/// Precondition: none. The room is the shorter of the two lent lengths in whole words, at most
/// 16,384.
///
/// Postcondition, answered: [`Line::Matters`] exactly when there are two choices that differ in this
/// setting alone, of which the rule holds at one and not at the other; [`Line::MayBeLeftOff`]
/// exactly when there are none. It speaks of this line alone, with all others kept. The table of the
/// answer, a bare true where the line matters and a bare false where it does not, is at the start of
/// `out`, with zeros after it. `work` is zeros.
///
/// # Errors
///
/// The first of these that is due. `out` and `work` are then zeros.
///
/// | No. | Given when |
/// |---|---|
/// | 1 to 4 | the table is malformed, as for [`eliminate`] |
/// | 8 | the setting is not 1 to 6 |
/// | 6 | the question, before folding, needs more than the room |
/// | 5, 6, 7 | as the steps meet them, as for [`eliminate`] |
///
/// ```
/// use service::{Line, MOST_BYTES, Refusal, Rule};
///
/// let table = Rule::positive(0, &[1]).to_table()?; // 0 < s1
/// let (mut out, mut work) = (vec![0; MOST_BYTES], vec![0; MOST_BYTES]);
/// let mut test = |setting| service::leave_off(&table, setting, &mut out, &mut work);
/// assert_eq!(test(1), Ok(Line::Matters));
/// assert_eq!(test(2), Ok(Line::MayBeLeftOff));
/// assert_eq!(test(7), Err(Refusal::Setting));
/// # Ok::<(), service::Fault>(())
/// ```
pub fn leave_off(
    table: &[u8],
    setting: i32,
    out: &mut [u8],
    work: &mut [u8],
) -> Result<Line, Refusal> {
    answer::tested(ffi::leave_off(table, setting, out, work))
}

/// Matching: says whether a quantifier-free table holds at six values, s1 first.
///
/// Precondition: none.
///
/// Postcondition, answered: true exactly when the rule holds at the values.
///
/// # Errors
///
/// The first of these that is due.
///
/// | No. | Given when |
/// |---|---|
/// | 1 to 4 | the table is malformed, as for [`eliminate`] |
/// | 10 | there is a quantifier |
/// | 9 | a value is outside ±500,000,000 |
///
/// ```
/// use service::{Refusal, Rule};
///
/// let table = Rule::positive(-3, &[1]).to_table()?; // 0 < s1 - 3
/// assert_eq!(service::matches(&table, [4, 0, 0, 0, 0, 0]), Ok(true));
/// assert_eq!(service::matches(&table, [3, 0, 0, 0, 0, 0]), Ok(false));
/// assert_eq!(service::matches(&table, [i32::MAX; 6]), Err(Refusal::Value));
/// # Ok::<(), service::Fault>(())
/// ```
pub fn matches(table: &[u8], values: [i32; 6]) -> Result<bool, Refusal> {
    answer::matched(ffi::matching(table, values))
}

/// The example of the README runs with the tests.
#[cfg(doctest)]
#[doc = include_str!("../../README.md")]
struct Readme;
