//! Writes the shipped tables: rules as they are written in Rust, as files of bytes.

use service::{Fault, Rule};
use std::error::Error;
use std::fs;

const FOLDER: &str = concat!(env!("CARGO_MANIFEST_DIR"), "/tables");

/// The rules by the names of their files.
pub fn rules() -> [(&'static str, Rule); 3] {
    [
        ("optimisation-level", optimisation_level()),
        ("memory-for-each-core", memory_for_each_core()),
        ("large-divisor", large_divisor()),
    ]
}

/// The optimised image is built when the level s1 is above 0 and there is memory s4 for twice the
/// cores s2. An old clause names the warnings s3: they are not below 0, or below twice the level.
fn optimisation_level() -> Rule {
    let above_zero = Rule::positive(0, &[1]);
    let warnings = Rule::or(
        Rule::positive(1, &[0, 0, 1]),
        Rule::positive(0, &[2, 0, -1]),
    );
    let memory = Rule::positive(1, &[0, -2, 0, 1]);
    Rule::and(Rule::and(above_zero, warnings), memory)
}

/// The level s1 is above 0, and there is memory s3 for 64 times the cores s2.
fn memory_for_each_core() -> Rule {
    Rule::and(Rule::positive(0, &[1]), Rule::positive(1, &[0, -64, 1]))
}

/// 4097 divides s2, and 0 < s1.
fn large_divisor() -> Rule {
    Rule::and(Rule::divides(4097, 0, &[0, 1]), Rule::positive(0, &[1]))
}

/// The path and the bytes of each table.
pub fn tables() -> Result<Vec<(String, Vec<u8>)>, Fault> {
    let tables = rules().into_iter().map(|(name, rule)| {
        let path = format!("{FOLDER}/{name}.table");
        Ok((path, rule.to_table()?))
    });
    tables.collect()
}

fn main() -> Result<(), Box<dyn Error>> {
    for (path, table) in tables()? {
        fs::write(&path, table)?;
    }
    Ok(())
}
