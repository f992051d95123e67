//! The program, run on standard input. What it prints is compared with what the call answers, laid
//! out here as the paper says.

mod lines;
mod numbers;
mod tables;

use numbers::{Numbers, eliminate};
use std::io::{ErrorKind, Write};
use std::path::Path;
use std::process::{ChildStdin, Command, Stdio};
use std::sync::OnceLock;
use std::thread::sleep;
use std::time::Duration;

const CRATE: &str = concat!(env!("CARGO_MANIFEST_DIR"), "/../crates/eliminate");
const PROGRAM: &str = concat!(
    env!("CARGO_MANIFEST_DIR"),
    "/../crates/eliminate/out/eliminate"
);
const MOST_BYTES: usize = 65_536;

const FIRST_EXAMPLE: &[u8] = include_bytes!("../../crates/eliminate/stdin");
const ELIMINATION: &str = include_str!("vectors/elim.txt");

/// The built program. `rt run` proves and builds it where a source has changed since it last did.
fn program() -> &'static Path {
    static BUILT: OnceLock<()> = OnceLock::new();
    BUILT.get_or_init(|| {
        let run = Command::new("rt")
            .arg("run")
            .stdin(Stdio::null())
            .current_dir(CRATE)
            .output()
            .expect("`rt`, Rattle's toolchain, on the PATH");
        let said = String::from_utf8_lossy(&run.stderr);
        assert!(run.status.success(), "`rt run` failed in {CRATE}\n{said}");
    });
    Path::new(PROGRAM)
}

/// What the program prints, its input written by `feed`.
fn run_fed(feed: impl FnOnce(&mut ChildStdin)) -> String {
    let mut child = Command::new(program())
        .stdin(Stdio::piped())
        .stdout(Stdio::piped())
        .spawn()
        .expect("the program starts");
    feed(&mut child.stdin.take().expect("its standard input"));
    let run = child.wait_with_output().expect("the program ends");
    assert!(run.status.success(), "{}", run.status);
    String::from_utf8(run.stdout).expect("text")
}

fn run(input: &[u8]) -> String {
    run_fed(|stdin| match stdin.write_all(input) {
        // It reads no more than it takes to refuse.
        Err(e) if e.kind() == ErrorKind::BrokenPipe => {}
        written => written.expect("the program reads"),
    })
}

/// The call, lent what the program lends: its answer and the output buffer.
fn call(table: &[u8]) -> (Numbers, Vec<u8>) {
    let (mut out, mut work) = (vec![0; MOST_BYTES], vec![0; MOST_BYTES]);
    let answer = eliminate(table, &mut out, &mut work);
    (answer, out)
}

/// The answer's line and, on success, a line for each node, found by its entry.
fn laid_out(answer: Numbers, out: &[u8]) -> String {
    let mut text = format!(
        "{} {} {} {}\n",
        answer.number, answer.verdict, answer.words, answer.settings
    );
    if answer.number != 0 {
        return text;
    }
    let words: Vec<i32> = out[..4 * answer.words as usize]
        .chunks_exact(4)
        .map(|word| i32::from_le_bytes(word.try_into().expect("four bytes")))
        .collect();
    let mut places: Vec<usize> = words[1..=words[0] as usize]
        .iter()
        .map(|&place| place as usize)
        .collect();
    places.push(words.len());
    for (node, ends) in places.windows(2).enumerate() {
        let body = words[ends[0]..ends[1]].iter().map(i32::to_string);
        let numbers: Vec<String> = std::iter::once(node.to_string()).chain(body).collect();
        text += &(numbers.join(" ") + "\n");
    }
    text
}

fn expected(table: &[u8]) -> String {
    let (answer, out) = call(table);
    laid_out(answer, &out)
}

fn table(bodies: &[Vec<i32>]) -> Vec<u8> {
    tables::bytes(&tables::words(bodies))
}

/// Nots over 0 < s1 that fill every word a table may have.
fn longest_table() -> Vec<u8> {
    let mut bodies = vec![vec![4]; 8_187];
    bodies.push(vec![5, 0, 1, 0, 0, 0, 0, 0]);
    let table = table(&bodies);
    assert_eq!(table.len(), MOST_BYTES);
    table
}

#[test]
fn the_first_example_is_printed() {
    let printed = run(FIRST_EXAMPLE);
    assert_eq!(printed, "0 3 11 2\n0 6 2 0 0 1 0 0 0 0\n");
    assert_eq!(printed, expected(FIRST_EXAMPLE));
}

#[test]
fn a_refusal_is_one_line() {
    let too_large = table(&[vec![8, 1], vec![6, 4_097, 0, 1, 0, 0, 0, 0, 0]]);
    assert_eq!(run(&too_large), "7 0 0 0\n");
}

#[test]
fn bytes_that_are_no_words_are_refused() {
    assert_eq!(run(&[]), "1 0 0 0\n");
    for odd in [1, 2, 3] {
        assert_eq!(run(&FIRST_EXAMPLE[..odd]), "1 0 0 0\n");
        let longer = [FIRST_EXAMPLE, &[0; 3][..odd]].concat();
        assert_eq!(run(&longer), "1 0 0 0\n");
    }
}

#[test]
fn a_table_has_at_most_65_536_bytes() {
    let mut input = longest_table();
    let printed = run(&input);
    assert!(printed.starts_with("0 3 16384 1\n0 4\n1 4\n"));
    assert!(printed.ends_with("\n8186 4\n8187 5 0 1 0 0 0 0 0\n"));
    assert_eq!(printed, expected(&input));
    for length in [65_537, 65_538, 65_540, 131_072, 1_000_000] {
        input.resize(length, 0);
        assert_eq!(run(&input), "1 0 0 0\n", "{length} bytes");
    }
}

#[test]
fn the_input_may_arrive_in_small_pieces() {
    let slowly = |input: &[u8], size: usize, pause: Duration| {
        run_fed(|stdin| {
            for piece in input.chunks(size) {
                stdin.write_all(piece).expect("the program reads");
                stdin.flush().expect("the program reads");
                sleep(pause);
            }
        })
    };
    let pause = Duration::from_millis(2);
    for size in [1, 3, 7] {
        assert_eq!(
            slowly(FIRST_EXAMPLE, size, pause),
            expected(FIRST_EXAMPLE),
            "{size} bytes at a time"
        );
    }
    let longest = longest_table();
    for size in [1_001, 5_003] {
        assert_eq!(slowly(&longest, size, pause), expected(&longest));
    }
}

#[test]
fn the_largest_numbers_are_printed() {
    let literal = vec![5, i32::MAX, -i32::MAX, 0, -1, 10, -10, i32::MAX];
    assert_eq!(
        run(&table(&[literal])),
        "0 3 10 61\n0 5 2147483647 -2147483647 0 -1 10 -10 2147483647\n"
    );
    // As many of them as a table has room for.
    let joins = 1_364;
    let literal = [5].into_iter().chain([-i32::MAX; 7]).collect::<Vec<_>>();
    let mut bodies: Vec<_> = (0..joins)
        .flat_map(|i| [vec![3, 2 * i + 2], literal.clone()])
        .collect();
    bodies.push(literal);
    let table = table(&bodies);
    assert_eq!(table.len(), 4 * 16_378);
    let printed = run(&table);
    assert!(printed.starts_with("0 3 16378 63\n"));
    assert_eq!(printed, expected(&table));
}

#[test]
fn every_worked_table_is_printed() {
    let lines = lines::lines(ELIMINATION);
    let mut as_worked = 0;
    for (at, line) in lines {
        assert_eq!(line.call, lines::Call::Eliminate, "line {at}");
        let (answer, out) = call(&line.table);
        assert_eq!(run(&line.table), laid_out(answer, &out), "line {at}");
        if (line.out_length, line.work_length) == (MOST_BYTES, MOST_BYTES) {
            assert_eq!(answer, line.answer, "line {at}");
            assert!(line.out.holds(&out), "line {at}");
            as_worked += 1;
        }
    }
    assert_eq!(as_worked, 67, "lines that lend what the program lends");
}
