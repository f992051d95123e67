//! The worked lines, through the library and through the independent implementation.

mod independent;
mod lines;
mod numbers;

use lines::{Buffer, Call, Line, line, lines};
use numbers::Numbers;

const MATCHING: &str = include_str!("vectors/match.txt");
const ELIMINATION: &str = include_str!("vectors/elim.txt");
const LEAVE_OFF: &str = include_str!("vectors/leave.txt");

/// Answers the lines of matching, which lend no buffers.
fn answer_matching(matches: fn(&[u8], [i32; 6]) -> Numbers) {
    let lines = lines(MATCHING);
    assert_eq!(lines.len(), 58);
    for (at, line) in lines {
        let Call::Match(values) = line.call else {
            panic!("line {at}: another call");
        };
        assert_eq!((line.out_length, line.work_length), (0, 0), "line {at}");
        assert_eq!(matches(&line.table, values), line.answer, "line {at}");
    }
}

/// Answers the lines of elimination, by every byte of both buffers.
fn answer_elimination(eliminate: fn(&[u8], &mut [u8], &mut [u8]) -> Numbers) {
    let lines = lines(ELIMINATION);
    assert_eq!(lines.len(), 106);
    for (at, line) in lines {
        assert_eq!(line.call, Call::Eliminate, "line {at}");
        leave(at, &line, |out, work| eliminate(&line.table, out, work));
    }
}

/// Answers the lines of the leave-off test, by every byte of both buffers.
fn answer_leave_off(leave_off: fn(&[u8], i32, &mut [u8], &mut [u8]) -> Numbers) {
    let lines = lines(LEAVE_OFF);
    assert_eq!(lines.len(), 66);
    for (at, line) in lines {
        let Call::Test(setting) = line.call else {
            panic!("line {at}: another call");
        };
        leave(at, &line, |out, work| {
            leave_off(&line.table, setting, out, work)
        });
    }
}

fn leave(at: usize, line: &Line, call: impl FnOnce(&mut [u8], &mut [u8]) -> Numbers) {
    let (mut out, mut work) = (vec![0xaa; line.out_length], vec![0xaa; line.work_length]);
    assert_eq!(call(&mut out, &mut work), line.answer, "line {at}");
    assert!(line.out.holds(&out), "line {at}: the output");
    assert!(line.work.holds(&work), "line {at}: the work buffer");
}

#[test]
fn the_library_answers_every_line() {
    answer_matching(numbers::matches);
    answer_elimination(numbers::eliminate);
    answer_leave_off(numbers::leave_off);
}

#[test]
fn the_independent_implementation_answers_every_line() {
    let answer = || {
        answer_matching(independent::matches);
        answer_elimination(independent::eliminate);
        answer_leave_off(independent::leave_off);
    };
    independent::on_a_large_stack(answer);
}

#[test]
fn the_three_calls_are_read() {
    let none = || Buffer::Bytes(Vec::new());
    let answer = |number, verdict, words, settings| Numbers {
        number,
        verdict,
        words,
        settings,
    };
    let read = [
        (
            "elim 0100000002000000ff 3 70000 => 0 3 11 2 | 00a0ff fnv:00000000000000ff:70000",
            Line {
                call: Call::Eliminate,
                table: vec![1, 0, 0, 0, 2, 0, 0, 0, 255],
                out_length: 3,
                work_length: 70_000,
                answer: answer(0, 3, 11, 2),
                out: Buffer::Bytes(vec![0, 0xa0, 0xff]),
                work: Buffer::Hash {
                    fnv: 255,
                    length: 70_000,
                },
            },
        ),
        (
            "leave - 1 0 -2147483648 => 1 0 0 0 | 00 -",
            Line {
                call: Call::Test(i32::MIN),
                table: Vec::new(),
                out_length: 1,
                work_length: 0,
                answer: answer(1, 0, 0, 0),
                out: Buffer::Bytes(vec![0]),
                work: none(),
            },
        ),
        (
            "match 01 0 0 1 -2 3 -4 5 2147483647 => 9 0 0 0 | - -",
            Line {
                call: Call::Match([1, -2, 3, -4, 5, i32::MAX]),
                table: vec![1],
                out_length: 0,
                work_length: 0,
                answer: answer(9, 0, 0, 0),
                out: none(),
                work: none(),
            },
        ),
    ];
    for (text, expected) in read {
        assert_eq!(line(text), Some(expected), "{text}");
    }
}

#[test]
fn a_slip_in_a_line_is_no_line() {
    let slips = [
        "match 01 0 0 1 2 3 4 5 => 9 0 0 0 | - -",
        "match 01 0 0 1 2 3 4 5 6 7 => 9 0 0 0 | - -",
        "match 01 0 0 1 2 3 4 5 2147483648 => 9 0 0 0 | - -",
        "match 0 0 0 1 2 3 4 5 6 => 9 0 0 0 | - -",
        "match +1 0 0 1 2 3 4 5 6 => 9 0 0 0 | - -",
        "match 01 0 0 1 2 3 4 5 6 => 9 0 0 | - -",
        "match 01 0 0 1 2 3 4 5 6 => 9 0 0 0 0 | - -",
        "match 01 0 0 1 2 3 4 5 6 => 9 0 0 0 | -",
        "match 01 0 0 1 2 3 4 5 6 => 9 0 0 0",
        "match 01 0 0 1 2 3 4 5 6",
        "leave - 1 0 => 1 0 0 0 | 00 -",
        "elim - 1 0 2 => 1 0 0 0 | 00 -",
        "elim - 1 => 1 0 0 0 | 00 -",
        "elim - 1 0 => 1 0 0 0 | fnv:0 -",
        "take - 1 0 => 1 0 0 0 | 00 -",
    ];
    for text in slips {
        assert_eq!(line(text), None, "{text}");
    }
}
