//! Rules as trees.

/// "T is c + a1·s1 + .. + a6·s6": c and a1 to a6, so that place v has the factor of setting v.
pub type Sum = [i128; 7];

#[derive(Clone)]
pub enum Literal {
    Positive(Sum),
    Divides(i128, Sum),
    DividesNot(i128, Sum),
    Zero(Sum),
}

#[derive(Clone)]
pub enum Rule {
    Constant(bool),
    Literal(Literal),
    And(Box<Rule>, Box<Rule>),
    Or(Box<Rule>, Box<Rule>),
    Not(Box<Rule>),
    ForSome(usize, Box<Rule>),
    ForAll(usize, Box<Rule>),
}

impl Literal {
    pub fn sum(&self) -> &Sum {
        let (Literal::Positive(sum)
        | Literal::Divides(_, sum)
        | Literal::DividesNot(_, sum)
        | Literal::Zero(sum)) = self;
        sum
    }

    pub fn divisor(&self) -> Option<i128> {
        match self {
            Literal::Divides(k, _) | Literal::DividesNot(k, _) => Some(*k),
            Literal::Positive(_) | Literal::Zero(_) => None,
        }
    }

    /// A literal of the same kind with another divisor, if it has one, and another sum.
    pub fn with(&self, divisor: impl Fn(i128) -> i128, sum: Sum) -> Literal {
        match self {
            Literal::Positive(_) => Literal::Positive(sum),
            Literal::Divides(k, _) => Literal::Divides(divisor(*k), sum),
            Literal::DividesNot(k, _) => Literal::DividesNot(divisor(*k), sum),
            Literal::Zero(_) => Literal::Zero(sum),
        }
    }

    /// "k divides T when T is k times some integer, so 4 does not divide −6 and every k divides 0."
    pub fn holds(&self, values: &[i128; 6]) -> bool {
        let [c, factors @ ..] = self.sum();
        let terms = factors.iter().zip(values).map(|(a, s)| a * s);
        let sum = c + terms.sum::<i128>();
        match self {
            Literal::Positive(_) => 0 < sum,
            Literal::Divides(k, _) => sum % k == 0,
            Literal::DividesNot(k, _) => sum % k != 0,
            Literal::Zero(_) => sum == 0,
        }
    }
}

impl Rule {
    pub fn and(left: Rule, right: Rule) -> Rule {
        Rule::And(Box::new(left), Box::new(right))
    }

    pub fn or(left: Rule, right: Rule) -> Rule {
        Rule::Or(Box::new(left), Box::new(right))
    }

    pub fn not(child: Rule) -> Rule {
        Rule::Not(Box::new(child))
    }

    pub fn for_some(setting: usize, body: Rule) -> Rule {
        Rule::ForSome(setting, Box::new(body))
    }

    /// The literals in the order of their nodes.
    pub fn literals(&self) -> Vec<&Literal> {
        fn collect<'a>(rule: &'a Rule, found: &mut Vec<&'a Literal>) {
            match rule {
                Rule::Constant(_) => {}
                Rule::Literal(literal) => found.push(literal),
                Rule::And(left, right) | Rule::Or(left, right) => {
                    collect(left, found);
                    collect(right, found);
                }
                Rule::Not(child) | Rule::ForSome(_, child) | Rule::ForAll(_, child) => {
                    collect(child, found);
                }
            }
        }
        let mut found = Vec::new();
        collect(self, &mut found);
        found
    }

    /// The same rule with something else for each literal.
    pub fn with_literals(&self, other: &dyn Fn(&Literal) -> Rule) -> Rule {
        let with = |child: &Rule| Box::new(child.with_literals(other));
        match self {
            Rule::Constant(truth) => Rule::Constant(*truth),
            Rule::Literal(literal) => other(literal),
            Rule::And(left, right) => Rule::And(with(left), with(right)),
            Rule::Or(left, right) => Rule::Or(with(left), with(right)),
            Rule::Not(child) => Rule::Not(with(child)),
            Rule::ForSome(setting, body) => Rule::ForSome(*setting, with(body)),
            Rule::ForAll(setting, body) => Rule::ForAll(*setting, with(body)),
        }
    }

    pub fn has_quantifier(&self) -> bool {
        match self {
            Rule::Constant(_) | Rule::Literal(_) => false,
            Rule::And(left, right) | Rule::Or(left, right) => {
                left.has_quantifier() || right.has_quantifier()
            }
            Rule::Not(child) => child.has_quantifier(),
            Rule::ForSome(..) | Rule::ForAll(..) => true,
        }
    }

    /// "The one with the greatest node number; its body has none."
    pub fn last_quantifier(&mut self) -> Option<&mut Rule> {
        if let Rule::ForSome(_, body) | Rule::ForAll(_, body) = &*self
            && !body.has_quantifier()
        {
            return Some(self);
        }
        match self {
            Rule::Constant(_) | Rule::Literal(_) => None,
            Rule::And(left, right) | Rule::Or(left, right) => {
                right.last_quantifier().or_else(|| left.last_quantifier())
            }
            Rule::Not(child) | Rule::ForSome(_, child) | Rule::ForAll(_, child) => {
                child.last_quantifier()
            }
        }
    }

    /// "A setting occurs where some literal has a nonzero factor for it"; bit v−1 stands for
    /// setting v.
    pub fn settings(&self) -> u8 {
        let occurs = |v: usize| self.literals().iter().any(|literal| literal.sum()[v] != 0);
        (1..=6).map(|v| u8::from(occurs(v)) << (v - 1)).sum()
    }
}
