//! The tables that are eliminated, each with its room.

use super::rules::{
    AND, OR, Rule, all, divides, divides_not, join, nested_right, not, positive, some, table, zero,
};

pub struct Input {
    pub name: &'static str,
    pub table: Vec<u8>,
    /// The words of each lent buffer.
    pub room: usize,
    /// The number, the verdict and the words that are due.
    pub due: (u8, u8, u32),
}

const MOST: usize = 16_384;

/// Enough for every step of the paper's small examples. With as much as a table may have, most of
/// the time would go to the zeros that a call leaves.
const SMALL: usize = 64;

/// As many literals, each joined to the rest by a junction, as a table has room for.
const MOST_LITERALS: usize = 1365;

/// As many bounds as stand in a table beside a literal that sets the period. Step 3 looks at
/// P · (bounds + 1) · literals, and no other table with one quantifier has it look at more.
const MOST_BOUNDS: i32 = 1364;

fn input(name: &'static str, rule: &Rule, room: usize, due: (u8, u8, u32)) -> Input {
    Input {
        name,
        table: table(rule),
        room,
        due,
    }
}

/// The paper's examples; x is s1, y is s2, z is s3.
pub fn examples() -> Vec<Input> {
    const TRUE: (u8, u8, u32) = (0, 1, 3);
    const FALSE: (u8, u8, u32) = (0, 2, 3);
    let even = || divides(2, x(0));
    let below_or_above = join(
        OR,
        positive([9, -3, 0, 0, 0, 0, 0]),
        positive([-13, 7, 0, 0, 0, 0, 0]),
    );
    let between = join(AND, positive(x(0)), positive([3, -1, 0, 0, 0, 0, 0]));
    let foreign = join(AND, divides(4097, [0, 0, 1, 0, 0, 0, 0]), positive(x(0)));
    let some = |body| some(1, body);
    let rows = [
        ("2x = y", some(zero([0, 2, -1, 0, 0, 0, 0])), (0, 3, 11)),
        (
            "(3x+1 < 10 or 7x-6 > 7) and 2|x",
            some(join(AND, below_or_above, even())),
            TRUE,
        ),
        (
            "not 2|x and 4|x",
            some(join(AND, divides_not(2, x(0)), divides(4, x(0)))),
            FALSE,
        ),
        (
            "0 < x and 0 < 3-x and 2|x",
            some(join(AND, between, even())),
            TRUE,
        ),
        ("for all x, 0 < x", all(1, positive(x(0))), FALSE),
        ("4096|x", some(divides(4096, x(0))), TRUE),
        ("4097|x", some(divides(4097, x(0))), (7, 0, 0)),
        (
            "not 0 < x-2147483646",
            some(not(positive(x(-2_147_483_646)))),
            TRUE,
        ),
        (
            "not 0 < x-2147483647",
            some(not(positive(x(-2_147_483_647)))),
            (5, 0, 0),
        ),
        ("true", vec![vec![1]], TRUE),
        ("4097|y and 0 < x", some(foreign), (7, 0, 0)),
    ];
    let mut inputs: Vec<_> = rows
        .map(|(name, rule, due)| input(name, &rule, SMALL, due))
        .into();
    inputs.push(Input {
        name: "no words",
        table: Vec::new(),
        room: SMALL,
        due: (1, 0, 0),
    });
    inputs
}

/// Larger rules, in the most room.
pub fn rules() -> Vec<Input> {
    let first = some(1, zero([0, 2, -1, 0, 0, 0, 0]));
    let rows = [
        ("2x = y, in all the room", first, (0, 3, 11)),
        (
            "three literals, 120 disjuncts",
            three_literals(),
            (0, 3, 4558),
        ),
        ("two quantifiers", two_quantifiers(), (0, 3, 182)),
        ("three quantifiers", three_quantifiers(), (0, 3, 198)),
        ("closed, 10 bounds, P 4095", closed(10), (0, 2, 3)),
        ("closed, 100 bounds, P 4095", closed(100), (0, 2, 3)),
        ("open, 50 bounds, P 4096", open(50), (6, 0, 0)),
        ("no quantifier", unquantified(MOST_LITERALS), (0, 3, 16_384)),
    ];
    rows.map(|(name, rule, due)| input(name, &rule, MOST, due))
        .into()
}

/// Lines of rules, with the setting that is tested, in the most room.
pub fn tests() -> Vec<(i32, Input)> {
    const MATTERS: (u8, u8, u32) = (0, 1, 3);
    const MAY_GO: (u8, u8, u32) = (0, 2, 3);
    let first = || positive(x(0));
    let rows = [
        (1, "s1 of 0 < s1", first(), MATTERS),
        (2, "s2 of 0 < s1", first(), MAY_GO),
        (1, "s1 of the optimisation level", optimisation(), MATTERS),
        (3, "s3 of the optimisation level", optimisation(), MAY_GO),
        (2, "s2 of 64 times the cores", memory(), (6, 0, 0)),
    ];
    rows.map(|(setting, name, rule, due)| (setting, input(name, &rule, MOST, due)))
        .into()
}

/// (0 < s1 and (0 < s3 + 1 or 0 < 2·s1 - s3)) and 0 < -2·s2 + s4 + 1.
fn optimisation() -> Rule {
    let either = join(
        OR,
        positive([1, 0, 0, 1, 0, 0, 0]),
        positive([0, 2, 0, -1, 0, 0, 0]),
    );
    let level = join(AND, positive(x(0)), either);
    join(AND, level, positive([1, 0, -2, 0, 1, 0, 0]))
}

/// 0 < s1 and 0 < -64·s2 + s3 + 1.
fn memory() -> Rule {
    join(AND, positive(x(0)), positive([1, 0, -64, 1, 0, 0, 0]))
}

/// Rules that take plain Rust minutes.
pub fn slow() -> Vec<Input> {
    let rows = [
        ("open, 200 bounds, P 4096", open(200)),
        ("open, 1300 bounds, P 4096", open(1300)),
        ("the slowest: 1364 bounds", open(MOST_BOUNDS)),
    ];
    rows.map(|(name, rule)| input(name, &rule, MOST, (6, 0, 0)))
        .into()
}

/// Literals without a quantifier, in about so many words.
pub fn unquantified_in(words: usize) -> Input {
    let rule = unquantified((words - 4) / 12);
    let words = 4 + (words - 4) / 12 * 12;
    input("no quantifier", &rule, MOST, (0, 3, words as u32))
}

/// c + x.
fn x(c: i32) -> [i32; 7] {
    [c, 1, 0, 0, 0, 0, 0]
}

/// 0 < 3x+1−y, 0 < z+6−2x, 4 divides 5x+1.
fn three_literals() -> Rule {
    let bounds = join(
        AND,
        positive([1, 3, -1, 0, 0, 0, 0]),
        positive([6, -2, 0, 1, 0, 0, 0]),
    );
    some(1, join(AND, bounds, divides(4, [1, 5, 0, 0, 0, 0, 0])))
}

/// Some number of coins of 2 and of 3 comes to s3.
fn two_quantifiers() -> Rule {
    let coins = vec![
        zero([0, 2, 3, -1, 0, 0, 0]),
        positive([1, 1, 0, 0, 0, 0, 0]),
        positive([1, 0, 1, 0, 0, 0, 0]),
    ];
    some(1, some(2, nested_right(AND, coins)))
}

/// Between s4 and s5 stand three numbers in order, the middle one even.
fn three_quantifiers() -> Rule {
    let order = vec![
        positive([0, 1, 0, 0, -1, 0, 0]),
        positive([0, -1, 1, 0, 0, 0, 0]),
        positive([0, 0, -1, 1, 0, 0, 0]),
        positive([0, 0, 0, -1, 0, 1, 0]),
        divides(2, [0, 0, 1, 0, 0, 0, 0]),
    ];
    some(1, some(2, some(3, nested_right(AND, order))))
}

/// 63 divides x and x+1, which no x allows, 65 divides x, and so many bounds: 1 to `bounds`. The
/// bounds are looked at first and mostly hold.
fn closed(bounds: i32) -> Rule {
    let mut parts = vec![divides(63, x(0)), divides(65, x(0)), divides(63, x(1))];
    parts.extend((1..=bounds).map(|bound| positive(x(-bound))));
    some(1, nested_right(AND, parts))
}

/// 4096 divides x+y, and so many bounds, no two of which compare.
fn open(bounds: i32) -> Rule {
    let mut parts = vec![divides(4096, [0, 1, 1, 0, 0, 0, 0])];
    parts.extend((1..=bounds).map(|bound| positive([bound, 1, 0, bound, 0, 0, 0])));
    some(1, nested_right(AND, parts))
}

/// So many literals, six of them with a divisor.
fn unquantified(count: usize) -> Rule {
    let sum = [100, 1, -2, 3, -4, 5, -6];
    let mut literals = vec![positive(sum); count - 6];
    literals.resize(count, divides(7, sum));
    nested_right(OR, literals)
}
