//! Matching held against the independent implementation, on tables good and bad. The seeds and with
//! them the cases are fixed.

mod comparison;
mod independent;
mod numbers;
mod random;
mod tables;

use comparison::{Count, hex};
use random::{MAX, MIN, Random, lists, small_trees};

const VALUE: i32 = 500_000_000;

fn compare(count: &mut Count, table: &[u8], values: [i32; 6]) {
    let line = || {
        let values = values.map(|value| value.to_string()).join(" ");
        format!("match {} 0 0 {values}", hex(table))
    };
    let answer = numbers::matches(table, values);
    let expected = independent::matches(table, values);
    count.compare(line, (answer, ()), (expected, ()));
}

impl Random {
    fn value(&mut self) -> i32 {
        match self.below(4) {
            0 => self.pick(&[VALUE, -VALUE, VALUE - 1, 1 - VALUE]),
            1 => self.within(-VALUE, VALUE),
            _ => self.within(-12, 12),
        }
    }

    fn values(&mut self) -> [i32; 6] {
        let ends = self.one_in(6);
        let mut values = [0; 6].map(|_| match ends {
            true => self.pick(&[VALUE, -VALUE]),
            false => self.value(),
        });
        if self.one_in(5) {
            let outside = [VALUE + 1, -VALUE - 1, MAX, -MAX, MIN, 1 << 30];
            values[self.below(6)] = self.pick(&outside);
        }
        values
    }

    fn factor(&mut self) -> i32 {
        match self.below(6) {
            0..3 => 0,
            3 => self.within(-9, 9),
            4 => self.pick(&[1, -1, MAX, -MAX, MAX - 1, 1 - MAX]),
            _ => self.within(-MAX, MAX),
        }
    }

    fn divisor(&mut self) -> i32 {
        match self.below(4) {
            0 => self.pick(&[1, 2, 4096, 4097, VALUE, 1 << 30, MAX - 1, MAX]),
            1 => self.within(1, MAX),
            _ => self.within(1, 12),
        }
    }

    /// A literal, mostly one whose sum is near an edge of its truth at the values.
    fn literal(&mut self, values: &[i32; 6]) -> Vec<i32> {
        let kind = self.pick(&[5, 6, 7, 10]);
        let k = if kind == 6 || kind == 7 {
            self.divisor()
        } else {
            1
        };
        // With values at their ends the sum is then as far from 0 as a sum can be.
        let ends = self.one_in(8);
        let sign = self.pick(&[-1, 1]);
        let factors = values.map(|value| {
            if ends {
                MAX * sign * value.signum()
            } else {
                self.factor()
            }
        });
        let terms = factors
            .iter()
            .zip(values)
            .map(|(&a, &s)| i64::from(a) * i64::from(s));
        let sum: i128 = terms.map(i128::from).sum();
        let near = i128::from(k) * i128::from(self.within(-3, 3)) + i128::from(self.within(-1, 1));
        let fit = match i32::try_from(near - sum) {
            Ok(c) if c != MIN => c,
            // Out of reach, but a divisor needs only the rest.
            _ => ((near - sum) % i128::from(k)) as i32,
        };
        let c = match self.below(6) {
            0 => self.pick(&[0, 1, -1, MAX, -MAX]),
            _ => fit,
        };
        let mut body = vec![kind];
        if kind == 6 || kind == 7 {
            body.push(k);
        }
        body.push(c);
        body.extend(factors);
        body
    }

    /// The bodies of a tree of so many nodes, after those that stand there.
    fn tree(
        &mut self,
        size: usize,
        quantified: bool,
        values: &[i32; 6],
        bodies: &mut Vec<Vec<i32>>,
    ) {
        if size == 1 {
            let leaf = match self.below(8) {
                0 => vec![self.pick(&[0, 1])],
                _ => self.literal(values),
            };
            bodies.push(leaf);
        } else if size == 2 || self.one_in(3) {
            let quantifier = quantified && self.one_in(2);
            bodies.push(if quantifier {
                vec![self.pick(&[8, 9]), self.within(1, 6)]
            } else {
                vec![4]
            });
            self.tree(size - 1, quantified, values, bodies);
        } else {
            let root = bodies.len();
            bodies.push(vec![self.pick(&[2, 3]), 0]);
            let left = 1 + self.below(size - 2);
            self.tree(left, quantified, values, bodies);
            bodies[root][1] = bodies.len() as i32;
            self.tree(size - 1 - left, quantified, values, bodies);
        }
    }

    /// The words of a valid table; with a quantifier somewhere, or with none.
    fn table(&mut self, most: usize, values: &[i32; 6]) -> Vec<i32> {
        let mut bodies = Vec::new();
        let size = 1 + self.below(most);
        let quantified = self.one_in(5);
        self.tree(size, quantified, values, &mut bodies);
        tables::words(&bodies)
    }
}

fn valid(random: &mut Random, count: &mut Count) {
    for _ in 0..30_000 {
        let values = random.values();
        let table = tables::bytes(&random.table(16, &values));
        compare(count, &table, values);
        compare(count, &table, random.values());
    }
    for _ in 0..200 {
        let values = random.values();
        compare(count, &tables::bytes(&random.table(1_000, &values)), values);
    }
}

fn damaged_at_each_word(random: &mut Random, count: &mut Count) {
    for _ in 0..200 {
        let values = random.values();
        let words = random.table(12, &values);
        for at in 0..words.len() {
            for word in random.faults(&words, at) {
                let mut words = words.clone();
                words[at] = word;
                compare(count, &tables::bytes(&words), values);
            }
        }
    }
}

fn damaged_in_places(random: &mut Random, count: &mut Count) {
    for _ in 0..30_000 {
        let values = random.values();
        let mut words = random.table(12, &values);
        random.damage(&mut words);
        compare(count, &tables::bytes(&words), values);
    }
}

fn cut_and_lengthened(random: &mut Random, count: &mut Count) {
    for _ in 0..150 {
        let values = random.values();
        let mut table = tables::bytes(&random.table(8, &values));
        for length in 0..=table.len() {
            compare(count, &table[..length], values);
            compare(count, &table[length..], values);
        }
        for _ in 0..12 {
            table.push(random.pick(&[0, 0, 1, 4, 255]) as u8);
            compare(count, &table, values);
        }
    }
}

/// Every table of up to four small words.
fn small_words(random: &mut Random, count: &mut Count) {
    let words: Vec<i32> = (-1..=11).collect();
    for table in lists(&words, 4) {
        compare(count, &tables::bytes(&table), random.values());
    }
}

fn five_nodes(random: &mut Random, count: &mut Count) {
    for table in small_trees(random, 5) {
        compare(count, &table, random.values());
    }
}

fn noise(random: &mut Random, count: &mut Count) {
    for _ in 0..20_000 {
        let length = random.below(80);
        let table: Vec<u8> = (0..length).map(|_| random.next() as u8).collect();
        compare(count, &table, random.values());
        let words: Vec<i32> = (0..length / 4).map(|_| random.within(-1, 14)).collect();
        compare(count, &tables::bytes(&words), random.values());
    }
}

/// Tables as long as a table may be, and longer.
fn longest(random: &mut Random, count: &mut Count) {
    for _ in 0..20 {
        let values = random.values();
        let mut bodies = vec![vec![4]; 3];
        // Each literal of eight words.
        let mut leaf = |random: &mut Random, bodies: &mut Vec<Vec<i32>>| {
            let mut body = random.literal(&values);
            while body.len() != 8 {
                body = random.literal(&values);
            }
            bodies.push(body);
        };
        random.halved(1_365, &mut leaf, &mut bodies);
        let words = tables::words(&bodies);
        assert_eq!(words.len(), 16_384);
        compare(count, &tables::bytes(&words), values);
        for _ in 0..50 {
            let at = random.below(words.len());
            let mut words = words.clone();
            let new = random.faults(&words, at);
            words[at] = random.pick(&new);
            compare(count, &tables::bytes(&words), values);
        }
        // Nothing else is wrong with these: one word too many, then two.
        let mut divided = bodies.clone();
        let last = divided.last_mut().expect("a literal");
        last[0] = 6;
        last.insert(1, 2);
        bodies.insert(0, vec![4]);
        for body in &mut bodies {
            if let [2 | 3, right] = &mut body[..] {
                *right += 1;
            }
        }
        for (bodies, length) in [(divided, 16_385), (bodies, 16_386)] {
            let words = tables::words(&bodies);
            assert_eq!(words.len(), length);
            compare(count, &tables::bytes(&words), values);
        }
    }
    compare(count, &vec![0; 1 << 20], random.values());
}

#[test]
fn the_library_and_the_independent_implementation_agree() {
    let sources: [(&str, comparison::Source); 8] = [
        ("valid", valid),
        ("damaged at each word", damaged_at_each_word),
        ("damaged in places", damaged_in_places),
        ("cut and lengthened", cut_and_lengthened),
        ("small words", small_words),
        ("five nodes at most", five_nodes),
        ("noise", noise),
        ("longest", longest),
    ];
    let outcomes = ["true", "false", "1", "2", "3", "4", "9", "10"];
    comparison::run(&sources, 100_000, &outcomes);
}
