//! The deepest tables, on the stack that the service asks for, and many threads at once.

mod independent;
mod numbers;
mod tables;

use numbers::{Numbers, eliminate, matches};
use service::STACK_BYTES;
use std::thread::{Builder, scope};

const LITERAL: [i32; 8] = [5, 0, 1, 0, 0, 0, 0, 0];

struct Case {
    name: &'static str,
    table: Vec<u8>,
    values: [i32; 6],
    number: u8,
    verdict: u8,
}

fn case(
    name: &'static str,
    bodies: &[Vec<i32>],
    s1: i32,
    words: usize,
    (number, verdict): (u8, u8),
) -> Case {
    let table = tables::of(bodies);
    assert_eq!(table.len(), 4 * words, "{name}");
    Case {
        name,
        table,
        values: [s1, 0, 0, 0, 0, 0],
        number,
        verdict,
    }
}

fn nots(count: usize, leaf: &[i32]) -> Vec<Vec<i32>> {
    let mut bodies = vec![vec![4]; count];
    bodies.push(leaf.to_vec());
    bodies
}

/// Junctions down the left side; the leaves are true but for the deepest.
fn left_comb(kind: i32, count: i32, deepest: i32) -> Vec<Vec<i32>> {
    let mut bodies: Vec<_> = (0..count).map(|i| vec![kind, 2 * count - i]).collect();
    bodies.push(vec![deepest]);
    bodies.resize(2 * count as usize + 1, vec![1]);
    bodies
}

/// Junctions down the right side, likewise.
fn right_comb(kind: i32, count: i32, deepest: i32) -> Vec<Vec<i32>> {
    let mut bodies: Vec<_> = (0..count)
        .flat_map(|i| [vec![kind, 2 * i + 2], vec![1]])
        .collect();
    bodies.push(vec![deepest]);
    bodies
}

fn cases() -> Vec<Case> {
    let mut crossed = left_comb(2, 3276, 1);
    crossed[0][1] += 1;
    let mut hidden = nots(8189, &[8, 6]);
    hidden.push(vec![1]);
    vec![
        case("nots over true", &nots(8190, &[1]), 0, 16_383, (0, 1)),
        case("nots over false", &nots(8189, &[0]), 0, 16_381, (0, 1)),
        case(
            "nots over a literal that holds",
            &nots(8187, &LITERAL),
            1,
            16_384,
            (0, 2),
        ),
        case(
            "nots over a literal that does not",
            &nots(8187, &LITERAL),
            0,
            16_384,
            (0, 1),
        ),
        case("one not too many", &nots(8188, &LITERAL), 0, 16_386, (1, 0)),
        case("nots over nothing", &nots(8190, &[4]), 0, 16_383, (4, 0)),
        case(
            "nots over a quantifier",
            &hidden,
            500_000_001,
            16_384,
            (10, 0),
        ),
        case(
            "a value outside",
            &nots(8190, &[1]),
            500_000_001,
            16_383,
            (9, 0),
        ),
        case(
            "ands down the left, true",
            &left_comb(2, 3276, 1),
            0,
            16_383,
            (0, 1),
        ),
        case(
            "ands down the left, false",
            &left_comb(2, 3276, 0),
            0,
            16_383,
            (0, 2),
        ),
        case(
            "ors down the left",
            &left_comb(3, 3276, 0),
            0,
            16_383,
            (0, 1),
        ),
        case(
            "the outermost right child wrong",
            &crossed,
            0,
            16_383,
            (4, 0),
        ),
        case(
            "ands down the right, true",
            &right_comb(2, 3276, 1),
            0,
            16_383,
            (0, 1),
        ),
        case(
            "ands down the right, false",
            &right_comb(2, 3276, 0),
            0,
            16_383,
            (0, 2),
        ),
    ]
}

fn check(cases: &[Case], matches: fn(&[u8], [i32; 6]) -> Numbers) {
    for Case {
        name,
        table,
        values,
        number,
        verdict,
    } in cases
    {
        let expected = Numbers {
            number: *number,
            verdict: *verdict,
            words: 0,
            settings: 0,
        };
        assert_eq!(matches(table, *values), expected, "{name}");
    }
}

#[test]
fn the_deepest_tables_need_no_more_stack_than_is_said() {
    let cases = cases();
    scope(|s| {
        Builder::new()
            .stack_size(STACK_BYTES)
            .spawn_scoped(s, || check(&cases, matches))
            .unwrap();
    });
}

#[test]
fn eight_threads_at_once_are_answered_alike() {
    let cases = cases();
    scope(|s| {
        for _ in 0..8 {
            let many = || (0..20).for_each(|_| check(&cases, matches));
            Builder::new()
                .stack_size(STACK_BYTES)
                .spawn_scoped(s, many)
                .unwrap();
        }
    });
}

/// A quantifier of kind 8 or 9 over setting 1, in front.
fn bound(kind: i32, body: Vec<Vec<i32>>) -> Vec<Vec<i32>> {
    let mut bodies = vec![vec![kind, 1]];
    bodies.extend(body);
    bodies
}

/// Ands down the left side over a for-some that is true; the other sides are open.
fn ands_over_a_quantifier(count: i32) -> Vec<Vec<i32>> {
    let mut bodies: Vec<_> = (0..count).map(|i| vec![2, 2 * count + 1 - i]).collect();
    bodies.extend(bound(8, vec![LITERAL.to_vec()]));
    bodies.resize(2 * count as usize + 2, vec![5, 0, 0, 1, 0, 0, 0, 0]);
    bodies
}

/// A rule for elimination, the words of its table, and the verdict and the words of its result.
struct Elimination(&'static str, Vec<Vec<i32>>, usize, u8, u32);

/// The deepest rules.
fn eliminations() -> Vec<Elimination> {
    let quantifiers = [vec![vec![8, 1]; 5460], vec![vec![1]]].concat();
    let under = bound(8, nots(8185, &LITERAL));
    let over = [vec![vec![4]; 8185], bound(8, vec![LITERAL.to_vec()])].concat();
    let ands = ands_over_a_quantifier(1300);
    vec![
        Elimination("nots over true", nots(8190, &[1]), 16_383, 1, 3),
        Elimination(
            "nots over a literal",
            nots(8187, &LITERAL),
            16_384,
            3,
            16_384,
        ),
        Elimination("nots under a for-some", under, 16_383, 1, 3),
        Elimination("nots over a for-some", over, 16_383, 2, 3),
        Elimination("quantifiers over true", quantifiers, 16_383, 1, 3),
        Elimination("ands down the left", left_comb(2, 3276, 0), 16_383, 2, 3),
        Elimination("ands down the right", right_comb(2, 3276, 1), 16_383, 1, 3),
        Elimination("ands over a for-some", ands, 15_613, 3, 15_598),
    ]
}

fn check_eliminations(eliminate: fn(&[u8], &mut [u8], &mut [u8]) -> Numbers) {
    for Elimination(name, bodies, words, verdict, words_left) in eliminations() {
        let table = tables::of(&bodies);
        assert_eq!(table.len(), 4 * words, "{name}");
        let (mut out, mut work) = (vec![0xaa; 65_536], vec![0xaa; 65_536]);
        let answer = eliminate(&table, &mut out, &mut work);
        let left = (answer.number, answer.verdict, answer.words);
        assert_eq!(left, (0, verdict, words_left), "{name}");
        assert!(work.iter().all(|&byte| byte == 0), "{name}");
    }
}

#[test]
fn elimination_of_the_deepest_tables_needs_no_more_stack_than_is_said() {
    Builder::new()
        .stack_size(STACK_BYTES)
        .spawn(|| check_eliminations(eliminate))
        .unwrap()
        .join()
        .unwrap();
}

#[test]
fn the_independent_implementation_agrees() {
    independent::on_a_large_stack(|| {
        check(&cases(), independent::matches);
        check_eliminations(independent::eliminate);
    });
}
