//! Measures the stack that each call needs: the least that a thread must have for the deepest
//! tables, its own part included. Too little ends the process, so each try is one.

use service::{Fault, MOST_BYTES, Rule, eliminate, leave_off, matches};
use std::env;
use std::error::Error;
use std::process::{Command, Stdio};
use std::thread::Builder;

const PAGE: usize = 4096;
/// The pages at which the search starts.
const ENOUGH: usize = 4096;

type Call = fn(&[u8]);
type Leaf = fn() -> Rule;
type Level = fn(Rule) -> Rule;

/// The calls, with the words of their longest tables. The leave-off test is there twice: it checks a
/// table of any length, but has no room for the question of a long one.
const CALLS: [(&str, usize, Call); 4] = [
    ("matching", 16_384, |table| {
        let _ = matches(table, [0; 6]);
    }),
    ("elimination", 16_384, |table| {
        let (mut out, mut work) = (vec![0; MOST_BYTES], vec![0; MOST_BYTES]);
        let _ = eliminate(table, &mut out, &mut work);
    }),
    ("leave-off test", 16_384, test),
    ("with its question", 8_180, test),
];

fn test(table: &[u8]) {
    let (mut out, mut work) = (vec![0; MOST_BYTES], vec![0; MOST_BYTES]);
    let _ = leave_off(table, 1, &mut out, &mut work);
}

/// The ways down: the words of a level, and the level around what is below it.
const LEVELS: [(&str, usize, Level); 10] = [
    ("not", 2, Rule::not),
    ("for some", 3, |below| Rule::some(1, below)),
    ("and true", 5, |below| Rule::and(below, truth())),
    ("true and", 5, |below| Rule::and(truth(), below)),
    ("not, and true", 7, |below| {
        Rule::not(Rule::and(below, truth()))
    }),
    ("for some, and true", 8, |below| {
        Rule::some(1, Rule::and(below, truth()))
    }),
    ("and open", 12, |below| Rule::and(below, open())),
    ("open and", 12, |below| Rule::and(open(), below)),
    ("not, or open", 14, |below| {
        Rule::not(Rule::or(below, open()))
    }),
    ("not, open or", 14, |below| {
        Rule::not(Rule::or(open(), below))
    }),
];

/// What is at the bottom of a way down, and what is around the whole.
const ENDS: [(&str, Leaf, Level); 4] = [
    ("true", truth, |rule| rule),
    ("a literal", literal, |rule| rule),
    ("a literal, in a for-some", literal, |rule| {
        Rule::some(1, rule)
    }),
    ("a for-some", || Rule::some(1, literal()), |rule| rule),
];

fn truth() -> Rule {
    Rule::truth(true)
}

fn literal() -> Rule {
    Rule::positive(0, &[1])
}

/// A literal without s1, which no step takes away.
fn open() -> Rule {
    Rule::positive(0, &[0, 1])
}

/// The deepest table of at most so many words.
fn table(most: usize, level: usize, end: usize) -> Result<Vec<u8>, Fault> {
    let (_, words, level) = LEVELS[level];
    let (_, bottom, around) = ENDS[end];
    let ends = around(bottom()).to_table()?.len() / 4;
    let levels = (most - ends) / words;
    around((0..levels).fold(bottom(), |rule, _| level(rule))).to_table()
}

/// Whether the call returns with so many pages of stack, in a process of this program.
fn returns(call: usize, level: usize, end: usize, pages: usize) -> Result<bool, Box<dyn Error>> {
    let numbers = [call, level, end, pages].map(|number| number.to_string());
    let mut process = Command::new(env::current_exe()?);
    let status = process.args(numbers).stderr(Stdio::null()).status()?;
    Ok(status.success())
}

/// What the process does.
fn run(call: usize, level: usize, end: usize, pages: usize) -> Result<(), Box<dyn Error>> {
    let (_, most, call) = CALLS[call];
    let table = table(most, level, end)?;
    let thread = Builder::new().stack_size(pages * PAGE);
    let done = thread.spawn(move || call(&table))?.join();
    done.map_err(|_| "a panic".into())
}

/// The least pages with which the call returns, if they are more than these.
fn least(call: usize, level: usize, end: usize, known: usize) -> Result<usize, Box<dyn Error>> {
    if returns(call, level, end, known)? {
        return Ok(known);
    }
    let (mut too_few, mut enough) = (known, ENOUGH);
    while enough - too_few > 1 {
        let pages = usize::midpoint(too_few, enough);
        match returns(call, level, end, pages)? {
            true => enough = pages,
            false => too_few = pages,
        }
    }
    Ok(enough)
}

fn main() -> Result<(), Box<dyn Error>> {
    let arguments = env::args().skip(1).map(|text| text.parse());
    if let [call, level, end, pages] = arguments.collect::<Result<Vec<usize>, _>>()?[..] {
        return run(call, level, end, pages);
    }
    for (call, (name, ..)) in CALLS.iter().enumerate() {
        let (mut most, mut deepest) = (1, String::new());
        for (level, (way, ..)) in LEVELS.iter().enumerate() {
            for (end, (bottom, ..)) in ENDS.iter().enumerate() {
                let pages = least(call, level, end, most)?;
                if pages > most {
                    (most, deepest) = (pages, format!("{way} .. over {bottom}"));
                }
            }
        }
        println!("{name:20}{:>10} bytes: {deepest}", most * PAGE);
    }
    Ok(())
}
