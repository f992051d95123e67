//! Elimination held against the independent implementation, by the answer and by every byte of both
//! buffers. The seeds and with them the cases are fixed.

mod comparison;
mod independent;
mod numbers;
mod random;
mod tables;

use comparison::{Count, hex, lend, lengths_around};
use random::{FEW, LARGE, LONG, MAX, Random, SMALL, Style, small_trees};
use std::thread::scope;

/// The most literals that the disjuncts of one step 3 may have: period times bounds times literals
/// grow fast, above all where quantifiers nest.
const MOST_LITERALS: usize = 10_000;

fn compare(random: &mut Random, count: &mut Count, table: &[u8], [out, work]: [usize; 2]) {
    let line = || format!("elim {} {out} {work}", hex(table));
    let (out, work) = (random.bytes(out), random.bytes(work));
    let answer = lend([&out, &work], |out, work| {
        numbers::eliminate(table, out, work)
    });
    let expected = lend([&out, &work], |out, work| {
        independent::eliminate(table, out, work)
    });
    count.compare(line, answer, expected);
}

/// The table in so many rooms around what it needs.
fn compare_around(random: &mut Random, count: &mut Count, table: &[u8], rooms: usize) {
    let Some(trial) = independent::try_elimination(table, MOST_LITERALS) else {
        count.passed_over += 1;
        return;
    };
    for _ in 0..rooms {
        let lengths = lengths_around(random, trial.room);
        compare(random, count, table, lengths);
    }
}

fn compare_a_rule(
    random: &mut Random,
    count: &mut Count,
    style: &Style,
    [fewest, most]: [usize; 2],
) {
    let quantifiers = fewest + random.below(most - fewest + 1);
    let leaves = 1 + random.below(6 - quantifiers);
    let bodies = random.rule(style, leaves, quantifiers);
    compare_around(random, count, &tables::of(&bodies), 3);
}

fn no_quantifier(random: &mut Random, count: &mut Count) {
    (0..2_000).for_each(|_| compare_a_rule(random, count, &SMALL, [0, 0]));
}

fn one_quantifier(random: &mut Random, count: &mut Count) {
    (0..30_000).for_each(|_| compare_a_rule(random, count, &SMALL, [1, 1]));
}

fn more_quantifiers(random: &mut Random, count: &mut Count) {
    (0..20_000).for_each(|_| compare_a_rule(random, count, &SMALL, [2, 3]));
}

fn repeated_bounds(random: &mut Random, count: &mut Count) {
    for _ in 0..6_000 {
        let leaves = 3 + random.below(3);
        let table = tables::of(&random.rule_over(&[2, 5], &FEW, leaves, 1));
        compare_around(random, count, &table, 3);
    }
}

fn large_numbers(random: &mut Random, count: &mut Count) {
    (0..25_000).for_each(|_| compare_a_rule(random, count, &LARGE, [1, 2]));
}

/// A rule with one of its numbers as far from zero as it may be, and one further.
fn numbers_at_their_edge(random: &mut Random, count: &mut Count) {
    for _ in 0..30_000 {
        let leaves = 2 + random.below(2);
        let mut bodies = random.rule(&SMALL, leaves, 1);
        let node = random.below(bodies.len());
        let size = bodies[node].len();
        if size < 8 {
            continue; // no literal
        }
        let field = 1 + random.below(size - 1);
        let is_divisor = size == 9 && field == 1;
        let mut table_with = |number: i32| {
            bodies[node][field] = number;
            tables::of(&bodies)
        };
        let is_5 = |table: &[u8]| {
            let trial = independent::try_elimination(table, MOST_LITERALS);
            trial.is_some_and(|trial| trial.number == 5)
        };
        let mut near = 1;
        let mut far = if is_divisor {
            MAX
        } else {
            random.pick(&[MAX, -MAX])
        };
        if is_5(&table_with(near)) || !is_5(&table_with(far)) {
            continue;
        }
        while near.abs_diff(far) > 1 {
            let middle = near.midpoint(far);
            if is_5(&table_with(middle)) {
                far = middle;
            } else {
                near = middle;
            }
        }
        for number in [near, far] {
            compare_around(random, count, &table_with(number), 3);
        }
    }
}

fn factors_and_periods_around_the_most(random: &mut Random, count: &mut Count) {
    for _ in 0..3_000 {
        let leaves = 1 + random.below(2);
        let bodies = random.rule(&LONG, leaves, 1);
        compare_around(random, count, &tables::of(&bodies), 2);
    }
}

/// One side has open disjuncts that need more than the room, and the other one a true disjunct,
/// often a late one.
fn true_behind_open(random: &mut Random, count: &mut Count) {
    for _ in 0..3_000 {
        let (k, c) = (random.within(2, 60), random.within(-9, 9));
        let mut open = match random.below(3) {
            0 => vec![vec![6, k, c, 1, 1, 0, 0, 0, 0]],
            1 => vec![vec![5, c, -1, 1, 0, 0, 0, 0]],
            _ => vec![
                vec![2, 2],
                vec![7, k, 0, 1, 0, 0, 0, 0, 0],
                vec![6, k, c, 1, 1, 0, 0, 0, 0],
            ],
        };
        let mut sometimes_true = match random.below(3) {
            0 => vec![vec![5, random.within(-9, 9), 1, 0, 0, 0, 0, 0]],
            1 => vec![vec![6, k, random.within(-9, 9), 1, 0, 0, 0, 0, 0]],
            _ => vec![vec![10, random.within(-9, 9), 1, 0, 0, 0, 0, 0]],
        };
        if random.one_in(3) {
            std::mem::swap(&mut open, &mut sometimes_true);
        }
        let mut bodies = match random.below(3) {
            0 => vec![vec![9, 1], vec![4]],
            _ => vec![vec![8, 1]],
        };
        let or = bodies.len();
        bodies.push(vec![3, (or + 1 + open.len()) as i32]);
        tables::append(&mut bodies, &open);
        tables::append(&mut bodies, &sometimes_true);
        compare_around(random, count, &tables::of(&bodies), 3);
    }
}

fn every_length(random: &mut Random, count: &mut Count) {
    for _ in 0..60 {
        let leaves = 1 + random.below(3);
        let table = tables::of(&random.rule(&SMALL, leaves, 1));
        match independent::try_elimination(&table, MOST_LITERALS) {
            Some(trial) if trial.room < 150 => {
                let enough = 4 * (trial.room + 2);
                for length in 0..enough {
                    compare(random, count, &table, [length, enough]);
                    compare(random, count, &table, [enough, length]);
                }
            }
            _ => count.passed_over += 1,
        }
    }
}

fn no_buffer_and_large_ones(random: &mut Random, count: &mut Count) {
    let lengths = [0, 1, 3, 4, 65_535, 65_536, 65_537, 65_540, 70_003, 1 << 18];
    for _ in 0..20 {
        let leaves = 1 + random.below(3);
        let table = tables::of(&random.rule(&SMALL, leaves, 1));
        if independent::try_elimination(&table, MOST_LITERALS).is_none() {
            count.passed_over += 1;
            continue;
        }
        for out in lengths {
            for work in lengths {
                compare(random, count, &table, [out, work]);
            }
        }
    }
}

fn damaged_at_each_word(random: &mut Random, count: &mut Count) {
    for _ in 0..40 {
        let leaves = 1 + random.below(3);
        let quantifiers = random.below(3);
        let words = tables::words(&random.rule(&SMALL, leaves, quantifiers));
        for at in 0..words.len() {
            for word in random.faults(&words, at) {
                let mut words = words.clone();
                words[at] = word;
                compare_around(random, count, &tables::bytes(&words), 1);
            }
        }
    }
}

fn damaged_in_places(random: &mut Random, count: &mut Count) {
    for _ in 0..20_000 {
        let mut words = tables::words(&random.rule(&SMALL, 3, 1));
        random.damage(&mut words);
        compare_around(random, count, &tables::bytes(&words), 1);
    }
}

fn cut_and_lengthened(random: &mut Random, count: &mut Count) {
    for _ in 0..30 {
        let mut table = tables::of(&random.rule(&SMALL, 2, 1));
        for length in 0..=table.len() {
            compare_around(random, count, &table[..length], 1);
            compare_around(random, count, &table[length..], 1);
        }
        for _ in 0..12 {
            table.push(random.pick(&[0, 0, 1, 4, 255]) as u8);
            compare_around(random, count, &table, 1);
        }
    }
}

fn four_nodes(random: &mut Random, count: &mut Count) {
    for table in small_trees(random, 4) {
        compare_around(random, count, &table, 1);
    }
}

/// Tables about as long as a table may be, with a quantifier inside or in front.
fn longest(random: &mut Random, count: &mut Count) {
    for _ in 0..150 {
        let inside = random.one_in(2);
        let mut bodies = match inside {
            true => Vec::new(),
            false => vec![vec![random.pick(&[8, 9]), 6]],
        };
        let leaves = 1_340 + random.below(27);
        let mut left = random.below(leaves);
        let mut leaf = |random: &mut Random, bodies: &mut Vec<Vec<i32>>| {
            match (left, inside) {
                (0, true) => tables::append(bodies, &random.rule(&SMALL, 2, 1)),
                // It has the setting that is bound in front.
                (0, false) => bodies.push(vec![5, 0, 1, 0, 0, 0, 0, random.within(-1, 1)]),
                _ => bodies.push(vec![5, random.within(-9, 9), 1, 1, 0, 0, 0, 0]),
            }
            left = left.wrapping_sub(1);
        };
        random.halved(leaves, &mut leaf, &mut bodies);
        compare_around(random, count, &tables::of(&bodies), 2);
    }
}

#[test]
fn the_library_and_the_independent_implementation_agree() {
    let sources: [(&str, comparison::Source); 15] = [
        ("no quantifier", no_quantifier),
        ("one quantifier", one_quantifier),
        ("two and three quantifiers", more_quantifiers),
        ("repeated bounds", repeated_bounds),
        ("large numbers", large_numbers),
        ("numbers at their edge", numbers_at_their_edge),
        ("D and P around 4,096", factors_and_periods_around_the_most),
        ("true behind open", true_behind_open),
        ("every length", every_length),
        ("no and large buffers", no_buffer_and_large_ones),
        ("damaged at each word", damaged_at_each_word),
        ("damaged in places", damaged_in_places),
        ("cut and lengthened", cut_and_lengthened),
        ("four nodes at most", four_nodes),
        ("longest", longest),
    ];
    let outcomes = ["true", "false", "open", "1", "2", "3", "4", "5", "6", "7"];
    independent::on_a_large_stack(|| comparison::run(&sources, 200_000, &outcomes));
}

#[test]
fn eight_threads_at_once_agree_with_single_calls() {
    let mut random = Random(100);
    let mut calls = Vec::new();
    independent::on_a_large_stack(|| {
        while calls.len() < 4_000 {
            let style = if random.one_in(4) { LARGE } else { SMALL };
            let table = tables::of(&random.rule(&style, 3, 2));
            if let Some(trial) = independent::try_elimination(&table, MOST_LITERALS) {
                let lengths = lengths_around(&mut random, trial.room);
                calls.push((table, lengths.map(|length| random.bytes(length))));
            }
        }
    });
    let answer = |(table, [out, work]): &(Vec<u8>, [Vec<u8>; 2])| {
        lend([out, work], |out, work| {
            numbers::eliminate(table, out, work)
        })
    };
    let single: Vec<_> = calls.iter().map(answer).collect();
    // Each thread makes all the calls, and starts elsewhere.
    let all_from = |start: usize| {
        let mut count = Count::default();
        for at in (start..calls.len()).chain(0..start) {
            let (table, [out, work]) = &calls[at];
            let line = || format!("elim {} {} {}", hex(table), out.len(), work.len());
            count.compare(line, answer(&calls[at]), single[at].clone());
        }
        ("each thread", count)
    };
    let counts = scope(|s| {
        let threads = [0, 1, 2, 3, 4, 5, 6, 7].map(|i| s.spawn(move || all_from(500 * i)));
        threads.map(|thread| thread.join().expect("a thread whose calls agree"))
    });
    comparison::print(&[("eight threads", comparison::sum(&counts))]);
}
