//! Random numbers from a seed, and rules and faults made of them.

#![allow(dead_code)] // no test makes every kind

use crate::tables;

pub const MAX: i32 = i32::MAX;
pub const MIN: i32 = i32::MIN;

/// SplitMix64.
pub struct Random(pub u64);

impl Random {
    pub fn next(&mut self) -> u64 {
        self.0 = self.0.wrapping_add(0x9e37_79b9_7f4a_7c15);
        let mut z = self.0;
        z = (z ^ (z >> 30)).wrapping_mul(0xbf58_476d_1ce4_e5b9);
        z = (z ^ (z >> 27)).wrapping_mul(0x94d0_49bb_1331_11eb);
        z ^ (z >> 31)
    }

    pub fn below(&mut self, end: usize) -> usize {
        (self.next() % end as u64) as usize
    }

    pub fn within(&mut self, low: i32, high: i32) -> i32 {
        let count = i64::from(high) - i64::from(low) + 1;
        (i64::from(low) + (self.next() % count as u64) as i64) as i32
    }

    pub fn one_in(&mut self, count: usize) -> bool {
        self.below(count) == 0
    }

    pub fn pick(&mut self, from: &[i32]) -> i32 {
        from[self.below(from.len())]
    }

    /// What a lent buffer may hold before the call.
    pub fn bytes(&mut self, length: usize) -> Vec<u8> {
        if self.one_in(2) {
            return vec![0xaa; length];
        }
        let words = (0..length.div_ceil(8)).flat_map(|_| self.next().to_le_bytes());
        words.take(length).collect()
    }

    /// Junctions that halve so many leaves, after the bodies that stand there.
    pub fn halved(
        &mut self,
        leaves: usize,
        leaf: &mut dyn FnMut(&mut Random, &mut Vec<Vec<i32>>),
        bodies: &mut Vec<Vec<i32>>,
    ) {
        if leaves == 1 {
            return leaf(self, bodies);
        }
        let root = bodies.len();
        bodies.push(vec![self.pick(&[2, 3]), 0]);
        self.halved(leaves / 2, leaf, bodies);
        bodies[root][1] = bodies.len() as i32;
        self.halved(leaves - leaves / 2, leaf, bodies);
    }
}

/// Where the numbers of a rule are taken from.
pub struct Style {
    pub factor: fn(&mut Random) -> i32,
    pub constant: fn(&mut Random) -> i32,
    pub divisor: fn(&mut Random) -> i32,
}

/// So small that rules with several quantifiers stay short.
pub const SMALL: Style = Style {
    factor: |random| match random.below(8) {
        0 => 0,
        1..6 => random.pick(&[1, -1]),
        6 => random.within(-3, 3),
        _ => random.within(-7, 7),
    },
    constant: |random| match random.below(2) {
        0 => random.within(-2, 2),
        _ => random.within(-9, 9),
    },
    divisor: |random| random.within(1, 5),
};

/// So few that bounds and whole literals repeat.
pub const FEW: Style = Style {
    factor: |random| random.pick(&[1, 1, 1, -1, 2]),
    constant: |random| random.within(-1, 1),
    divisor: |random| random.within(1, 3),
};

/// Near what a number or a divisor may be at most, or near a part of it that a step multiplies.
pub const LARGE: Style = Style {
    factor: |random| match random.below(8) {
        0 => large(random),
        1 => 0,
        2..7 => random.pick(&[1, -1]),
        _ => random.within(-6, 6),
    },
    constant: |random| match random.below(4) {
        0 => random.within(-9, 9),
        _ => large(random),
    },
    divisor: |random| match random.below(6) {
        0 => large(random).abs(),
        1 => random.within(4_090, 4_100),
        _ => random.within(1, 3),
    },
};

/// Around 4,096 for D and for P.
pub const LONG: Style = Style {
    factor: |random| match random.below(6) {
        0 => random.pick(&[4_095, 4_096, 4_097, -4_096, 2_048, 64, -64, 63, 1_365]),
        1 => random.within(-3, 3),
        2 => 0,
        _ => random.pick(&[1, -1]),
    },
    constant: |random| random.within(-9, 9),
    divisor: |random| match random.below(3) {
        0 => random.pick(&[4_095, 4_096, 4_097, 2_048, 1_365, 64, 65, 63]),
        1 => random.within(4_080, 4_100),
        _ => random.pick(&[1, 2, 3, 4, 64]),
    },
};

fn large(random: &mut Random) -> i32 {
    let part = MAX / random.pick(&[1, 1, 2, 2, 3, 4, 5, 6, 7, 12]);
    let near = part.saturating_add(random.within(-4, 4));
    near * random.pick(&[1, -1])
}

impl Random {
    /// A few settings, some of them perhaps twice.
    pub fn settings(&mut self) -> Vec<i32> {
        let count = 1 + self.below(3);
        (0..count).map(|_| self.within(1, 6)).collect()
    }

    /// The bodies of a rule over a few settings, with so many leaves and so many quantifiers.
    pub fn rule(&mut self, style: &Style, leaves: usize, quantifiers: usize) -> Vec<Vec<i32>> {
        let settings = self.settings();
        self.rule_over(&settings, style, leaves, quantifiers)
    }

    /// Literals have these settings alone; a quantifier may have another one.
    pub fn rule_over(
        &mut self,
        settings: &[i32],
        style: &Style,
        leaves: usize,
        quantifiers: usize,
    ) -> Vec<Vec<i32>> {
        let mut bodies = Vec::new();
        self.subrule(style, settings, leaves, quantifiers, &mut bodies);
        bodies
    }

    fn subrule(
        &mut self,
        style: &Style,
        settings: &[i32],
        leaves: usize,
        quantifiers: usize,
        bodies: &mut Vec<Vec<i32>>,
    ) {
        if quantifiers > 0 && (leaves == 1 || self.one_in(2)) {
            let setting = match self.below(8) {
                0 => self.within(1, 6),
                _ => self.pick(settings),
            };
            bodies.push(vec![self.pick(&[8, 8, 9]), setting]);
            self.subrule(style, settings, leaves, quantifiers - 1, bodies);
        } else if self.one_in(6) {
            bodies.push(vec![4]);
            self.subrule(style, settings, leaves, quantifiers, bodies);
        } else if leaves == 1 {
            let leaf = self.leaf(style, settings);
            bodies.push(leaf);
        } else {
            let left = 1 + self.below(leaves - 1);
            let quantifiers_left = self.below(quantifiers + 1);
            let root = bodies.len();
            bodies.push(vec![self.pick(&[2, 3]), 0]);
            self.subrule(style, settings, left, quantifiers_left, bodies);
            bodies[root][1] = bodies.len() as i32;
            let quantifiers = quantifiers - quantifiers_left;
            self.subrule(style, settings, leaves - left, quantifiers, bodies);
        }
    }

    fn leaf(&mut self, style: &Style, settings: &[i32]) -> Vec<i32> {
        if self.one_in(16) {
            return vec![self.pick(&[0, 1])];
        }
        let kind = self.pick(&[5, 5, 5, 6, 7, 10]);
        let mut body = vec![kind];
        if kind == 6 || kind == 7 {
            body.push((style.divisor)(self));
        }
        body.push((style.constant)(self));
        let mut factors = [0; 6];
        for &setting in settings {
            if !self.one_in(4) {
                factors[setting as usize - 1] = (style.factor)(self);
            }
        }
        body.extend(factors);
        body
    }

    /// What might be taken for right at a word of a table.
    pub fn faults(&mut self, words: &[i32], at: usize) -> Vec<i32> {
        let (count, length) = (words[0], words.len() as i32);
        let mut new = vec![MIN, -MAX, 16_384, 500_000_000];
        for word in [words[at], count, length, MAX] {
            new.extend([-1, 0, 1].map(|step| word.wrapping_add(step)));
        }
        new.extend([words[at].wrapping_neg(), words[at].wrapping_add(1 << 16)]);
        new.extend([at.saturating_sub(1), (at + 1).min(words.len() - 1)].map(|next| words[next]));
        new.extend(-1..=11);
        new.push(self.next() as i32);
        new.sort_unstable();
        new.dedup();
        new.retain(|&word| word != words[at]);
        new
    }

    /// Several faults at once: which comes first decides the number.
    pub fn damage(&mut self, words: &mut Vec<i32>) {
        for _ in 0..2 + self.below(2) {
            let at = self.below(words.len());
            let new = self.faults(words, at);
            words[at] = self.pick(&new);
        }
        match self.below(4) {
            0 => words.truncate(self.below(words.len())),
            1 => words.extend_from_within(self.below(words.len())..),
            _ => {}
        }
    }
}

/// Every list of up to so many of the items.
pub fn lists<T: Clone>(items: &[T], most: usize) -> Vec<Vec<T>> {
    let mut all = vec![Vec::new()];
    let mut start = 0;
    for _ in 0..most {
        let end = all.len();
        for at in start..end {
            for item in items {
                let mut longer = all[at].clone();
                longer.push(item.clone());
                all.push(longer);
            }
        }
        start = end;
    }
    all
}

/// Tables of so many nodes at most, in every order and with every right child: all the ways to be
/// no tree.
pub fn small_trees(random: &mut Random, most: usize) -> Vec<Vec<u8>> {
    let mut bodies = vec![vec![1], vec![4], vec![8, 1]];
    bodies.extend((0..=most as i32).map(|right| vec![2, right]));
    let mut trees = lists(&bodies, most);
    for body in trees.iter_mut().flatten() {
        // True or false, and or or, for some or for all: which of the two is left to chance.
        body[0] ^= i32::from(body[0] != 4 && random.one_in(2));
    }
    trees.iter().map(|bodies| tables::of(bodies)).collect()
}
