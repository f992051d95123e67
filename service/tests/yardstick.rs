//! The benchmark's plain Rust against the library: the worked lines by every byte, and random rules
//! in random rooms. The seed and with it the rules are fixed.

mod comparison;
mod lines;
mod numbers;
#[path = "../benches/speed/plain/mod.rs"]
mod plain;
mod random;
mod tables;

use comparison::{Count, hex, lend};
use lines::{Call, lines};
use numbers::Numbers;
use random::{FEW, LARGE, Random, SMALL};

type Eliminate = fn(&[u8], &mut [u8], &mut [u8]) -> Numbers;

#[test]
fn the_plain_version_leaves_every_byte_of_every_line() {
    let texts = [
        include_str!("vectors/elim.txt"),
        include_str!("vectors/leave.txt"),
    ];
    for (at, line) in texts.into_iter().flat_map(lines) {
        let buffers = [line.out_length, line.work_length].map(|length| vec![0xaa; length]);
        let call = |out: &mut [u8], work: &mut [u8]| match line.call {
            Call::Test(setting) => plain::leave_off(&line.table, setting, out, work),
            _ => plain::eliminate(&line.table, out, work),
        };
        let (answer, [out, work]) = lend([&buffers[0], &buffers[1]], call);
        assert_eq!(answer, line.answer, "line {at}");
        assert!(line.out.holds(&out), "line {at}: the output");
        assert!(line.work.holds(&work), "line {at}: the work buffer");
    }
}

#[test]
fn the_plain_version_matches_every_line() {
    for (at, line) in lines(include_str!("vectors/match.txt")) {
        let Call::Match(values) = line.call else {
            panic!("line {at} is no line of matching");
        };
        assert_eq!(
            plain::matches(&line.table, values),
            line.answer,
            "line {at}"
        );
    }
}

/// The bytes of a buffer, mostly of many words.
fn length(random: &mut Random) -> usize {
    match random.below(4) {
        0 => random.below(400),
        1 => random.below(4_000),
        _ => 65_530 + random.below(12),
    }
}

fn compare(random: &mut Random, count: &mut Count, table: &[u8]) {
    let lengths = [length(random), length(random)];
    let buffers = lengths.map(|length| random.bytes(length));
    let [out, work] = &buffers;
    let [plain, library] = [plain::eliminate as Eliminate, numbers::eliminate]
        .map(|eliminate| lend([out, work], |out, work| eliminate(table, out, work)));
    let line = || format!("elim {} {} {}", hex(table), out.len(), work.len());
    count.compare(line, plain, library);
}

fn rules(random: &mut Random, count: &mut Count) {
    for _ in 0..2_500 {
        for style in [&SMALL, &FEW, &LARGE] {
            let (leaves, quantifiers) = (1 + random.below(6), 1 + random.below(2));
            let rule = random.rule(style, leaves, quantifiers);
            compare(random, count, &tables::of(&rule));
        }
    }
}

fn damaged(random: &mut Random, count: &mut Count) {
    for _ in 0..5_000 {
        let leaves = 1 + random.below(6);
        let mut words = tables::words(&random.rule(&SMALL, leaves, 1));
        random.damage(&mut words);
        compare(random, count, &tables::bytes(&words));
    }
}

#[test]
fn the_plain_version_and_the_library_agree() {
    let expected = ["true", "false", "open", "1", "2", "3", "4", "5", "6", "7"];
    comparison::run(&[("rules", rules), ("damaged", damaged)], 10_000, &expected);
}
