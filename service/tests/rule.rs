//! Rules written in Rust: their tables, read back, refused as the library refuses, and as text.

#[allow(dead_code)] // the buffers of a line are not looked at here
mod lines;
mod numbers;
mod tables;

use service::{Fault, MOST_BYTES, Refusal, Rule};
use std::thread::Builder;

const VECTORS: [&str; 2] = [
    include_str!("vectors/elim.txt"),
    include_str!("vectors/match.txt"),
];

/// SplitMix64.
struct Random(u64);

impl Random {
    fn below(&mut self, end: u64) -> u64 {
        self.0 = self.0.wrapping_add(0x9e37_79b9_7f4a_7c15);
        let mut z = self.0;
        z = (z ^ (z >> 30)).wrapping_mul(0xbf58_476d_1ce4_e5b9);
        z = (z ^ (z >> 27)).wrapping_mul(0x94d0_49bb_1331_11eb);
        (z ^ (z >> 31)) % end
    }

    fn number(&mut self) -> i32 {
        match self.below(4) {
            0 => 0,
            1 => self.below(19) as i32 - 9,
            2 => [i32::MAX, -i32::MAX][self.below(2) as usize],
            _ => (self.below((1 << 32) - 1) as i64 - i64::from(i32::MAX)) as i32,
        }
    }

    /// A literal; its body goes to the bodies.
    fn literal(&mut self, bodies: &mut Vec<Vec<i32>>) -> Rule {
        let factors: Vec<i32> = (0..self.below(7)).map(|_| self.number()).collect();
        let (c, k) = (self.number(), self.number().max(1));
        let (rule, mut body) = match self.below(4) {
            0 => (Rule::positive(c, &factors), vec![5]),
            1 => (Rule::divides(k, c, &factors), vec![6, k]),
            2 => (Rule::divides_not(k, c, &factors), vec![7, k]),
            _ => (Rule::zero(c, &factors), vec![10]),
        };
        body.push(c);
        body.extend((0..6).map(|at| factors.get(at).unwrap_or(&0)));
        bodies.push(body);
        rule
    }

    /// A rule of so many nodes; their bodies go to the bodies.
    fn rule(&mut self, size: u64, bodies: &mut Vec<Vec<i32>>) -> Rule {
        if size == 1 {
            return match self.below(4) {
                0 => {
                    let value = self.below(2);
                    bodies.push(vec![value as i32]);
                    Rule::truth(value == 1)
                }
                _ => self.literal(bodies),
            };
        }
        if size == 2 || self.below(3) == 0 {
            let setting = 1 + self.below(6) as i32;
            type Around = fn(i32, Rule) -> Rule;
            let (body, around): (_, Around) = match self.below(3) {
                0 => (vec![4], |_, rule| Rule::not(rule)),
                1 => (vec![8, setting], Rule::some),
                _ => (vec![9, setting], Rule::all),
            };
            bodies.push(body);
            return around(setting, self.rule(size - 1, bodies));
        }
        let (kind, join): (_, fn(Rule, Rule) -> Rule) = match self.below(2) {
            0 => (2, Rule::and),
            _ => (3, Rule::or),
        };
        let root = bodies.len();
        bodies.push(Vec::new());
        let left_size = 1 + self.below(size - 2);
        let left = self.rule(left_size, bodies);
        bodies[root] = vec![kind, bodies.len() as i32];
        join(left, self.rule(size - 1 - left_size, bodies))
    }
}

#[test]
fn every_kind_is_written_as_the_paper_says() {
    let all = Rule::all(6, Rule::not(Rule::divides_not(3, -1, &[0, 2])));
    let some = Rule::some(1, Rule::or(Rule::truth(false), Rule::zero(7, &[])));
    let literals = Rule::and(
        Rule::positive(1, &[2, 3, 4, 5, 6, 7]),
        Rule::divides(9, 8, &[1]),
    );
    let rule = Rule::and(Rule::or(all, some), Rule::and(Rule::truth(true), literals));
    let bodies = [
        vec![2, 9],
        vec![3, 5],
        vec![9, 6],
        vec![4],
        vec![7, 3, -1, 0, 2, 0, 0, 0, 0],
        vec![8, 1],
        vec![3, 8],
        vec![0],
        vec![10, 7, 0, 0, 0, 0, 0, 0],
        vec![2, 11],
        vec![1],
        vec![2, 13],
        vec![5, 1, 2, 3, 4, 5, 6, 7],
        vec![6, 9, 8, 1, 0, 0, 0, 0, 0],
    ];
    let table = tables::bytes(&tables::words(&bodies));
    assert_eq!(rule.to_table(), Ok(table));
}

#[test]
fn a_rule_is_written_and_read_back() {
    let mut random = Random(1);
    for round in 0..20_000 {
        let (size, mut bodies) = (1 + random.below(24), Vec::new());
        let rule = random.rule(size, &mut bodies);
        let table = tables::bytes(&tables::words(&bodies));
        assert_eq!(rule.to_table().as_ref(), Ok(&table), "{round}: {rule}");
        assert_eq!(Rule::from_table(&table), Ok(rule), "{round}");
    }
}

/// Compares reading with the library's check of the bytes.
fn refused_alike(table: &[u8]) -> bool {
    let number = numbers::matches(table, [0; 6]).number;
    let read = Rule::from_table(table);
    match read {
        Ok(ref rule) => {
            assert!(matches!(number, 0 | 10), "{number} for {rule}");
            assert_eq!(rule.to_table().as_deref(), Ok(table));
        }
        Err(refusal) => assert_eq!(refusal.number(), number, "{table:?}"),
    }
    read.is_err()
}

#[test]
fn reading_refuses_what_the_library_refuses_by_the_same_number() {
    for text in VECTORS {
        for (_, line) in lines::lines(text) {
            refused_alike(&line.table);
        }
    }
    let mut random = Random(2);
    let mut refused = 0;
    for _ in 0..2_000 {
        let (size, mut bodies) = (1 + random.below(12), Vec::new());
        let _ = random.rule(size, &mut bodies);
        let words = tables::words(&bodies);
        for at in 0..words.len() {
            let near = words[at].wrapping_add(random.below(5) as i32 - 2);
            let edge = [i32::MIN, i32::MAX, 0, 7, 11][random.below(5) as usize];
            for word in [near, edge] {
                let mut words = words.clone();
                words[at] = word;
                refused += u32::from(refused_alike(&tables::bytes(&words)));
            }
        }
        let table = tables::bytes(&words);
        let length = random.below(table.len() as u64) as usize;
        refused += u32::from(refused_alike(&table[..length]));
        let longer = [&table[..], &table[length / 4 * 4..]].concat();
        refused += u32::from(refused_alike(&longer));
    }
    assert!(refused > 50_000, "{refused} tables were refused");
    for length in [0, MOST_BYTES - 4, MOST_BYTES, MOST_BYTES + 4, 1 << 20] {
        assert!(refused_alike(&vec![1; length]));
    }
}

fn nots(count: usize, rule: Rule) -> Rule {
    (0..count).fold(rule, |rule, _| Rule::not(rule))
}

#[test]
fn what_has_no_table_is_a_fault() {
    let literal = || Rule::positive(0, &[1]);
    let faults = [
        (Rule::some(0, literal()), Fault::Setting(0)),
        (Rule::all(7, literal()), Fault::Setting(7)),
        (Rule::some(i32::MIN, literal()), Fault::Setting(i32::MIN)),
        (Rule::divides(0, 0, &[1]), Fault::Divisor(0)),
        (Rule::divides_not(-2, 0, &[1]), Fault::Divisor(-2)),
        (Rule::positive(i32::MIN, &[1]), Fault::Number(i32::MIN)),
        (Rule::zero(0, &[1, i32::MIN]), Fault::Number(i32::MIN)),
        (Rule::zero(0, &[0; 7]), Fault::Factors(7)),
        (nots(8_191, Rule::truth(true)), Fault::Words),
    ];
    for (rule, fault) in faults {
        let around = Rule::and(literal(), Rule::not(Rule::some(1, rule.clone())));
        for rule in [rule, around] {
            assert_eq!(rule.to_table(), Err(fault));
            assert_eq!(rule.to_string(), format!("no rule: {fault}"));
        }
    }
}

#[test]
fn a_table_has_at_most_16_384_words() {
    let literal = || Rule::positive(0, &[1]);
    let words = |rule: Rule| rule.to_table().map(|table| table.len() / 4);
    assert_eq!(words(nots(8_187, literal())), Ok(16_384));
    assert_eq!(words(nots(8_188, literal())), Err(Fault::Words));
    let comb = |count| (0..count).fold(literal(), |rule, _| Rule::and(rule, Rule::truth(true)));
    assert_eq!(words(comb(3_274)), Ok(16_380));
    assert_eq!(words(comb(3_275)), Err(Fault::Words));
    // Twice as long each time, and no memory for what has no table.
    let doubled = (0..60).fold(literal(), |rule, _| Rule::or(rule.clone(), rule));
    assert_eq!(words(doubled), Err(Fault::Words));
}

#[test]
fn rules_are_text() {
    let (x, y) = (|| Rule::positive(0, &[1]), || Rule::zero(-3, &[0, -1]));
    let texts = [
        (Rule::truth(true), "true"),
        (x(), "0 < s1"),
        (y(), "-s2 - 3 = 0"),
        (
            Rule::positive(5, &[-2, 1, 0, 0, 0, -7]),
            "0 < -2·s1 + s2 - 7·s6 + 5",
        ),
        (Rule::divides(4, -i32::MAX, &[]), "4 divides -2147483647"),
        (
            Rule::divides_not(4, 0, &[0, 0, 3]),
            "4 does not divide 3·s3",
        ),
        (Rule::zero(0, &[]), "0 = 0"),
        (Rule::and(x(), Rule::truth(false)), "0 < s1 and false"),
        (
            Rule::and(Rule::or(x(), y()), Rule::or(y(), x())),
            "(0 < s1 or -s2 - 3 = 0) and (-s2 - 3 = 0 or 0 < s1)",
        ),
        (
            Rule::not(Rule::not(Rule::and(x(), Rule::not(y())))),
            "not not (0 < s1 and not (-s2 - 3 = 0))",
        ),
        (
            Rule::some(1, Rule::all(6, Rule::or(x(), Rule::some(2, y())))),
            "for some s1, for all s6, 0 < s1 or (for some s2, -s2 - 3 = 0)",
        ),
    ];
    for (rule, text) in texts {
        assert_eq!(rule.to_string(), text);
    }
}

#[test]
fn the_deepest_rules_need_little_stack() {
    let run = || {
        let rule = nots(8_190, Rule::truth(true));
        let mut table = rule.to_table().unwrap();
        assert_eq!(Rule::from_table(&table), Ok(rule.clone()));
        assert_eq!(rule.to_string(), "not ".repeat(8_190) + "true");
        let last = table.len() - 4;
        table[last] = 4;
        assert_eq!(Rule::from_table(&table), Err(Refusal::Tree));
    };
    let thread = Builder::new().stack_size(64 << 10).spawn(run).unwrap();
    thread.join().unwrap();
}
