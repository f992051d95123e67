//! A key store in the small, in memory: what it gives when a line is left off the key.

use service::{Line, MOST_BYTES, Refusal, leave_off, matches};
use std::collections::HashMap;

pub const OPTIMISATION_LEVEL: &[u8] = include_bytes!("../tables/optimisation-level.table");

/// The values of s1 to s6.
pub type Form = [i32; 6];

#[derive(Clone, Copy, Debug, PartialEq, Eq)]
pub enum Image {
    Optimised,
    Debug,
}

/// Builds the image that a form asks for: the optimised one where the rule holds.
pub fn build(rule: &[u8], form: Form) -> Result<Image, Refusal> {
    Ok(match matches(rule, form)? {
        true => Image::Optimised,
        false => Image::Debug,
    })
}

/// Images by key. A key has the values of the lines that are kept.
pub struct Store<'a> {
    rule: &'a [u8],
    kept: [bool; 6],
    images: HashMap<[Option<i32>; 6], Image>,
}

impl<'a> Store<'a> {
    pub fn new(rule: &'a [u8], kept: [bool; 6]) -> Store<'a> {
        let images = HashMap::new();
        Store { rule, kept, images }
    }

    /// The image under the form's key; it is built for the first form that has this key.
    pub fn image(&mut self, form: Form) -> Result<Image, Refusal> {
        let mut key = form.map(Some);
        for (line, kept) in key.iter_mut().zip(self.kept) {
            *line = line.filter(|_| kept);
        }
        if let Some(&image) = self.images.get(&key) {
            return Ok(image);
        }
        let image = build(self.rule, form)?;
        self.images.insert(key, image);
        Ok(image)
    }
}

/// What the leave-off test says of each line, alone.
pub fn lines(rule: &[u8]) -> Result<[Line; 6], Refusal> {
    let (mut out, mut work) = (vec![0; MOST_BYTES], vec![0; MOST_BYTES]);
    let mut lines = [Line::Matters; 6];
    for (setting, line) in (1..).zip(&mut lines) {
        *line = leave_off(rule, setting, &mut out, &mut work)?;
    }
    Ok(lines)
}

/// The second store leaves three lines off. The test speaks of each line alone: that they may go
/// together is not proved, and tests/key_store.rs tries it.
fn main() -> Result<(), Refusal> {
    let rule = OPTIMISATION_LEVEL;
    let [debug_run, optimised_run] = [[0, 2, 5, 8, 0, 0], [2, 2, 5, 8, 0, 0]];
    println!("{:32}{:12}level 2", "the key has", "level 0");
    let rows = [
        ("all lines", [true; 6]),
        (
            "the lines that matter",
            lines(rule)?.map(|line| line == Line::Matters),
        ),
        (
            "all lines but the level",
            [false, true, true, true, true, true],
        ),
    ];
    for (name, kept) in rows {
        let mut store = Store::new(rule, kept);
        let images = [store.image(debug_run)?, store.image(optimised_run)?];
        let [first, second] = images.map(|image| format!("{image:?}"));
        println!("{name:32}{first:12}{second}");
    }
    Ok(())
}
