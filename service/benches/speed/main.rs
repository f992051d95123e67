//! Times the library beside plain Rust, on the same tables in one run, in nanoseconds for a call.
//! With the argument `slow` also rules that take plain Rust minutes, with the library alone.
//!
//! The buffers of elimination are lent as the call before left them: they are not cleared in
//! between. The zeros that a call leaves in them are part of the call, and of its time.

mod inputs;
#[path = "../../tests/numbers/mod.rs"]
mod numbers;
mod plain;
mod report;
#[path = "../../tests/tables/mod.rs"]
mod tables;
mod timing;

use inputs::{elimination, matching};
use numbers::Numbers;
use report::Row;
use std::hint::black_box;

fn main() {
    let slow = std::env::args().any(|argument| argument == "slow");
    let sections = [
        (
            "elimination: the paper's examples",
            eliminated(elimination::examples()),
        ),
        (
            "elimination: larger rules",
            eliminated(elimination::rules()),
        ),
        ("leave-off test", tested(elimination::tests())),
        ("matching", matched(matching::shapes())),
    ];
    for (what, rows) in &sections {
        report::print(what, "ns", rows);
        report::print_mean("geometric mean", rows.iter());
    }
    println!();
    report::print_mean(
        "geometric mean of all",
        sections.iter().flat_map(|(_, rows)| rows),
    );
    report::print("by length", "ns/word", &by_length());
    if slow {
        print_slow(elimination::slow());
    }
}

fn eliminated(inputs: Vec<elimination::Input>) -> Vec<Row> {
    inputs.iter().map(eliminate).collect()
}

fn eliminate(input: &elimination::Input) -> Row {
    let table = &input.table;
    compare(
        input,
        |out, work| numbers::eliminate(black_box(table), out, work),
        |out, work| plain::eliminate(black_box(table), out, work),
    )
}

fn tested(inputs: Vec<(i32, elimination::Input)>) -> Vec<Row> {
    inputs
        .iter()
        .map(|(setting, input)| test(*setting, input))
        .collect()
}

fn test(setting: i32, input: &elimination::Input) -> Row {
    let table = &input.table;
    compare(
        input,
        |out, work| numbers::leave_off(black_box(table), setting, out, work),
        |out, work| plain::leave_off(black_box(table), setting, out, work),
    )
}

fn compare(
    elimination::Input {
        name,
        table,
        room,
        due,
    }: &elimination::Input,
    library: impl Fn(&mut [u8], &mut [u8]) -> Numbers,
    plain: impl Fn(&mut [u8], &mut [u8]) -> Numbers,
) -> Row {
    let mut buffers = [0xaa, 0xaa].map(|byte| [vec![byte; 4 * room], vec![byte; 4 * room]]);
    let [[out, work], [plain_out, plain_work]] = &mut buffers;
    let (answer, first) = timing::once(|| library(out, work));
    let (plain_answer, plain_first) = timing::once(|| plain(plain_out, plain_work));
    assert_eq!(answer, plain_answer, "{name}");
    assert!(
        out == plain_out && work == plain_work,
        "{name}: the buffers"
    );
    assert_eq!(
        (answer.number, answer.verdict, answer.words),
        *due,
        "{name}"
    );
    let times = timing::least(
        [first, plain_first],
        || library(out, work),
        || plain(plain_out, plain_work),
    );
    Row {
        name,
        words: table.len() / 4,
        times,
    }
}

/// The library alone, once.
fn print_slow(inputs: Vec<elimination::Input>) {
    println!("\nelimination: rules that take plain Rust minutes, the library alone");
    for input in inputs {
        let [mut out, mut work] = [vec![0xaa; 4 * input.room], vec![0xaa; 4 * input.room]];
        let (answer, time) = timing::once(|| numbers::eliminate(&input.table, &mut out, &mut work));
        let answered = (answer.number, answer.verdict, answer.words);
        assert_eq!(answered, input.due, "{}", input.name);
        println!("{:37}{:>5.2} s", input.name, time / 1e9);
    }
}

fn matched(inputs: Vec<matching::Input>) -> Vec<Row> {
    inputs.iter().map(match_at_values).collect()
}

fn match_at_values(input: &matching::Input) -> Row {
    let matching::Input { name, table, due } = input;
    let library = || numbers::matches(black_box(table), black_box(matching::VALUES));
    let plain = || plain::matches(black_box(table), black_box(matching::VALUES));
    let [(answer, first), (plain_answer, plain_first)] =
        [timing::once(library), timing::once(plain)];
    assert_eq!(answer, plain_answer, "{name}");
    assert_eq!((answer.number, answer.verdict), *due, "{name}");
    let times = timing::least([first, plain_first], library, plain);
    Row {
        name,
        words: table.len() / 4,
        times,
    }
}

/// Whether the time is linear in the words.
fn by_length() -> Vec<Row> {
    let lengths = [1000, 2000, 4000, 8000, 16_000];
    let mut rows = eliminated(lengths.map(elimination::unquantified_in).into());
    rows.extend(matched(lengths.map(matching::literals_in).into()));
    rows.extend(matched(lengths.map(matching::nots_in).into()));
    rows.into_iter().map(Row::for_a_word).collect()
}
