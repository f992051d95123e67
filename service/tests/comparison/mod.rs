//! Calls of the library held against the independent implementation, and their outcomes counted.

#![allow(dead_code)] // matching lends no buffers

use crate::numbers::Numbers;
use crate::random::Random;
use std::io::Write;

/// An answer by its verdict, a refusal by its number.
const OUTCOMES: [&str; 13] = [
    "true", "false", "open", "1", "2", "3", "4", "5", "6", "7", "8", "9", "10",
];

/// The outcomes of the cases of one source.
#[derive(Default)]
pub struct Count {
    outcomes: [u32; OUTCOMES.len()],
    /// Rules that were passed over since they would take too long.
    pub passed_over: u32,
}

impl Count {
    pub fn cases(&self) -> u32 {
        self.outcomes.iter().sum()
    }

    fn of(&self, outcome: &str) -> u32 {
        let at = OUTCOMES.iter().position(|&known| known == outcome);
        self.outcomes[at.expect("a known outcome")]
    }

    /// Takes what a call answered and left behind, and what it should; the line is the call as a test
    /// line has it.
    pub fn compare<Left: PartialEq>(
        &mut self,
        line: impl FnOnce() -> String,
        (answer, left): (Numbers, Left),
        (expected, left_expected): (Numbers, Left),
    ) {
        assert!(
            answer == expected && left == left_expected,
            "{} =>\nanswered {answer:?}\nexpected {expected:?}\nwith the same left behind: {}",
            line(),
            left == left_expected
        );
        let at = match (expected.number, expected.verdict) {
            (0, verdict) => verdict - 1,
            (number, _) => number + 2,
        };
        self.outcomes[usize::from(at)] += 1;
    }
}

/// The answer of a call that is lent copies of these buffers, and what it leaves in them.
pub fn lend(
    [out, work]: [&[u8]; 2],
    call: impl FnOnce(&mut [u8], &mut [u8]) -> Numbers,
) -> (Numbers, [Vec<u8>; 2]) {
    let (mut out, mut work) = (out.to_vec(), work.to_vec());
    (call(&mut out, &mut work), [out, work])
}

/// The lengths in bytes of two buffers that lend a room around this one: either may be longer, and
/// have odd bytes at its end.
pub fn lengths_around(random: &mut Random, room: usize) -> [usize; 2] {
    let room = match random.below(10) {
        0..2 => room.saturating_sub(1),
        2..8 => room,
        8 => room + 1 + random.below(3),
        _ => random.below(room + 1),
    };
    // Where a rule needs more than the greatest room, no longer buffer helps.
    let room = room.min(16_390);
    let longer = if random.one_in(2) {
        0
    } else {
        random.below(50)
    };
    let mut lengths = [
        4 * room + random.below(4),
        4 * room + random.below(4) + longer,
    ];
    if random.one_in(2) {
        lengths.reverse();
    }
    lengths
}

/// A table in a test line.
pub fn hex(table: &[u8]) -> String {
    if table.is_empty() {
        return "-".to_string();
    }
    table.iter().map(|byte| format!("{byte:02x}")).collect()
}

pub type Source = fn(&mut Random, &mut Count);

/// Runs the sources of cases, each with its own seed, and prints their counts. There must be so many
/// cases, and each of these outcomes a hundred times.
pub fn run(sources: &[(&str, Source)], least: u32, expected: &[&str]) {
    let rows: Vec<(&str, Count)> = (1..)
        .zip(sources)
        .map(|(seed, (name, source))| {
            let mut count = Count::default();
            source(&mut Random(seed), &mut count);
            (*name, count)
        })
        .collect();
    print(&rows);
    let all = sum(&rows);
    assert!(all.cases() >= least, "{} cases", all.cases());
    for outcome in expected {
        assert!(all.of(outcome) >= 100, "{outcome} is too rare");
    }
}

pub fn sum(rows: &[(&str, Count)]) -> Count {
    let mut all = Count::default();
    for (_, count) in rows {
        for (sum, count) in all.outcomes.iter_mut().zip(count.outcomes) {
            *sum += count;
        }
        all.passed_over += count.passed_over;
    }
    all
}

/// Prints a row for each count, with the outcomes that were met, and one for all.
pub fn print(rows: &[(&str, Count)]) {
    let all = sum(rows);
    let met = OUTCOMES.into_iter().filter(|outcome| all.of(outcome) > 0);
    let met: Vec<&str> = met.collect();
    let row = |name: &str, count: &Count| {
        let counts = met
            .iter()
            .map(|outcome| format!("{:>8}", count.of(outcome)));
        let counts: String = counts.collect();
        let (cases, passed_over) = (count.cases(), count.passed_over);
        format!("{name:26}{cases:>8}{counts}{passed_over:>13}\n")
    };
    let mut report = format!("\n{:26}{:>8}", "", "cases");
    report.extend(met.iter().map(|outcome| format!("{outcome:>8}")));
    report += "  passed over\n";
    report.extend(rows.iter().map(|(name, count)| row(name, count)));
    report += &row("all", &all);
    // Past the harness, which shows what a test prints only when it fails.
    write!(std::io::stdout(), "{report}").expect("standard output");
}
