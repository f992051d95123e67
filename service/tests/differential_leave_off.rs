//! The leave-off test held against the independent implementation, by the answer and by every byte
//! of both buffers, and against pairs of choices that tell. The seeds and with them the cases are
//! fixed.

mod comparison;
mod independent;
mod numbers;
mod random;
mod tables;

use comparison::{Count, hex, lend, lengths_around};
use random::{LARGE, LONG, MAX, MIN, Random, SMALL, Style, small_trees};
use std::io::Write;

/// The most literals that the disjuncts of one step 3 may have: the question nests six quantifiers.
const MOST_LITERALS: usize = 10_000;

fn compare(
    random: &mut Random,
    count: &mut Count,
    (table, setting): (&[u8], i32),
    [out, work]: [usize; 2],
) {
    let line = || format!("leave {} {out} {work} {setting}", hex(table));
    let (out, work) = (random.bytes(out), random.bytes(work));
    let answer = lend([&out, &work], |out, work| {
        numbers::leave_off(table, setting, out, work)
    });
    let expected = lend([&out, &work], |out, work| {
        independent::leave_off(table, setting, out, work)
    });
    count.compare(line, answer, expected);
}

/// The test in so many rooms around what it needs.
fn compare_around(
    random: &mut Random,
    count: &mut Count,
    (table, setting): (&[u8], i32),
    rooms: usize,
) {
    let Some(trial) = independent::try_leave_off(table, setting, MOST_LITERALS) else {
        count.passed_over += 1;
        return;
    };
    for _ in 0..rooms {
        let lengths = lengths_around(random, trial.room);
        compare(random, count, (table, setting), lengths);
    }
}

/// A few settings. The greater they are, the sooner the question's quantifiers bind them, and the
/// fewer of the others repeat a divisor's period.
fn settings(random: &mut Random) -> Vec<i32> {
    match random.below(4) {
        0 => random.settings(),
        1 => vec![6],
        2 => vec![5, 6],
        _ => vec![4, 5, 6],
    }
}

/// Mostly one of the rule's settings.
fn setting(random: &mut Random, settings: &[i32]) -> i32 {
    match random.below(16) {
        0 => random.pick(&[0, 7, -1, 8, MIN, MAX]),
        1..4 => random.within(1, 6),
        _ => random.pick(settings),
    }
}

fn compare_a_rule(random: &mut Random, count: &mut Count, style: &Style, most_quantifiers: usize) {
    let settings = settings(random);
    let leaves = 1 + random.below(4);
    let quantifiers = random.below(most_quantifiers + 1);
    let table = tables::of(&random.rule_over(&settings, style, leaves, quantifiers));
    let setting = setting(random, &settings);
    compare_around(random, count, (&table, setting), 3);
}

fn no_quantifier(random: &mut Random, count: &mut Count) {
    (0..9_000).for_each(|_| compare_a_rule(random, count, &SMALL, 0));
}

fn quantifiers(random: &mut Random, count: &mut Count) {
    (0..4_000).for_each(|_| compare_a_rule(random, count, &SMALL, 2));
}

fn large_numbers(random: &mut Random, count: &mut Count) {
    (0..5_000).for_each(|_| compare_a_rule(random, count, &LARGE, 1));
}

fn factors_and_periods_around_the_most(random: &mut Random, count: &mut Count) {
    for _ in 0..500 {
        let table = tables::of(&random.rule_over(&[6], &LONG, 1, 0));
        compare_around(random, count, (&table, 6), 2);
    }
}

fn every_length(random: &mut Random, count: &mut Count) {
    for _ in 0..12 {
        let table = tables::of(&random.rule_over(&[5, 6], &SMALL, 1, 0));
        match independent::try_leave_off(&table, 6, MOST_LITERALS) {
            Some(trial) if trial.room < 150 => {
                let enough = 4 * (trial.room + 2);
                for length in 0..enough {
                    compare(random, count, (&table, 6), [length, enough]);
                    compare(random, count, (&table, 6), [enough, length]);
                }
            }
            _ => count.passed_over += 1,
        }
    }
}

fn no_buffer_and_large_ones(random: &mut Random, count: &mut Count) {
    let lengths = [0, 1, 3, 4, 65_535, 65_536, 65_537, 65_540, 70_003, 1 << 18];
    for _ in 0..5 {
        let table = tables::of(&random.rule_over(&[5, 6], &SMALL, 1, 0));
        if independent::try_leave_off(&table, 6, MOST_LITERALS).is_none() {
            count.passed_over += 1;
            continue;
        }
        for out in lengths {
            for work in lengths {
                compare(random, count, (&table, 6), [out, work]);
            }
        }
    }
}

fn damaged_at_each_word(random: &mut Random, count: &mut Count) {
    for _ in 0..12 {
        let leaves = 1 + random.below(2);
        let words = tables::words(&random.rule_over(&[5, 6], &SMALL, leaves, 1));
        for at in 0..words.len() {
            for word in random.faults(&words, at) {
                let mut words = words.clone();
                words[at] = word;
                let setting = setting(random, &[5, 6]);
                compare_around(random, count, (&tables::bytes(&words), setting), 1);
            }
        }
    }
}

fn damaged_in_places(random: &mut Random, count: &mut Count) {
    for _ in 0..5_000 {
        let mut words = tables::words(&random.rule_over(&[5, 6], &SMALL, 2, 1));
        random.damage(&mut words);
        let setting = setting(random, &[5, 6]);
        compare_around(random, count, (&tables::bytes(&words), setting), 1);
    }
}

fn four_nodes(random: &mut Random, count: &mut Count) {
    for table in small_trees(random, 4) {
        let setting = setting(random, &[1]);
        compare_around(random, count, (&table, setting), 1);
    }
}

/// Questions about as long as the greatest room.
fn longest(random: &mut Random, count: &mut Count) {
    for _ in 0..60 {
        let leaves = 676 + random.below(10);
        let mut bodies = Vec::new();
        // Constants: what is not folded must fit, and what is folded is short.
        let mut leaf = |random: &mut Random, bodies: &mut Vec<Vec<i32>>| {
            bodies.push(vec![5, random.within(-9, 9), 0, 0, 0, 0, 0, 0]);
        };
        random.halved(leaves, &mut leaf, &mut bodies);
        let setting = random.within(1, 6);
        compare_around(random, count, (&tables::of(&bodies), setting), 2);
    }
}

#[test]
fn the_library_and_the_independent_implementation_agree() {
    let sources: [(&str, comparison::Source); 10] = [
        ("no quantifier", no_quantifier),
        ("up to two quantifiers", quantifiers),
        ("large numbers", large_numbers),
        ("D and P around 4,096", factors_and_periods_around_the_most),
        ("every length", every_length),
        ("no and large buffers", no_buffer_and_large_ones),
        ("damaged at each word", damaged_at_each_word),
        ("damaged in places", damaged_in_places),
        ("four nodes at most", four_nodes),
        ("longest", longest),
    ];
    let outcomes = ["true", "false", "1", "2", "3", "4", "5", "6", "7", "8"];
    independent::on_a_large_stack(|| comparison::run(&sources, 50_000, &outcomes));
}

/// Lends 16,384 words.
fn verdict(table: &[u8], setting: i32) -> (u8, u8) {
    let (mut out, mut work) = (vec![0xaa; 65_536], vec![0xaa; 65_536]);
    let answer = numbers::leave_off(table, setting, &mut out, &mut work);
    (answer.number, answer.verdict)
}

/// Whether two choices that differ in this setting alone tell the rule apart, among the values −3 to
/// 3 of these settings.
fn has_pair(table: &[u8], settings: &[i32], setting: i32) -> bool {
    let holds = |choice: &[i32; 6]| numbers::matches(table, *choice).verdict == 1;
    let mut choices = vec![[0; 6]];
    for &other in settings.iter().filter(|&&other| other != setting) {
        let wider = choices.iter().flat_map(|choice| {
            (-3..=3).map(|value| {
                let mut choice = *choice;
                choice[other as usize - 1] = value;
                choice
            })
        });
        choices = wider.collect();
    }
    choices.iter().any(|choice| {
        let mut truths = (-3..=3).map(|value| {
            let mut choice = *choice;
            choice[setting as usize - 1] = value;
            holds(&choice)
        });
        let first = truths.next();
        truths.any(|truth| Some(truth) != first)
    })
}

/// Sampling proves that a line matters, and never that it does not.
#[test]
fn a_line_with_a_pair_that_tells_matters() {
    let mut random = Random(200);
    let (mut matters, mut refused, mut matters_unseen, mut does_not) = (0, 0, 0, 0);
    independent::on_a_large_stack(|| {
        for _ in 0..3_000 {
            let settings: &[i32] = [&[6][..], &[5, 6], &[4, 5, 6]][random.below(3)];
            let leaves = 1 + random.below(3);
            let table = tables::of(&random.rule_over(settings, &SMALL, leaves, 0));
            let setting = random.pick(settings);
            if independent::try_leave_off(&table, setting, MOST_LITERALS).is_none() {
                continue;
            }
            let pair = has_pair(&table, settings, setting);
            match (pair, verdict(&table, setting)) {
                (true, (0, 1)) => matters += 1,
                (false, (0, 1)) => matters_unseen += 1,
                (false, (0, 2)) => does_not += 1,
                (_, (5..=7, 0)) => refused += 1,
                (_, answer) => panic!("leave {} {setting}: {answer:?}", hex(&table)),
            }
        }
    });
    writeln!(
        std::io::stdout(),
        "{matters} lines matter by a pair, {matters_unseen} without one among the values, \
         {does_not} do not, {refused} refused"
    )
    .expect("standard output");
    assert!(matters >= 1_000 && matters_unseen >= 100 && does_not >= 100);
}

#[test]
fn a_period_over_the_most_is_7() {
    // 4097 divides s1
    let table = tables::of(&[vec![6, 4_097, 0, 1, 0, 0, 0, 0, 0]]);
    assert_eq!(verdict(&table, 1), (7, 0));
}

/// 8 divides 5·s1 − 4·s3 + 6. A divisor sets the period of each quantifier around it, and so the
/// question passes the room for every line.
#[test]
fn a_foreign_divisor_sets_the_period() {
    let table = tables::of(&[vec![6, 8, 6, 5, 0, -4, 0, 0, 0]]);
    for setting in 1..=6 {
        assert_eq!(verdict(&table, setting), (6, 0), "s{setting}");
    }
}
