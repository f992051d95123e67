//! The calls in plain Rust, as a yardstick: on lent slices, in i64, without a heap, with the
//! library's order and its early exits.

mod back;
mod bodies;
mod check;
mod elimination;
mod leave_off;
mod literals;
mod matching;
mod steps;
mod walks;
mod words;

pub use elimination::eliminate;
pub use leave_off::leave_off;
pub use matching::matches;
