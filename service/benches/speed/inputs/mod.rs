//! What is measured.

pub mod elimination;
pub mod matching;
mod rules;
