//! Rules written in Rust: makes tables of them, and reads tables back.

mod reading;
mod text;

use crate::{MOST_WORDS, Refusal};
use std::error::Error;
use std::fmt::{Display, Formatter};

/// A rule, built from the leaves to the root.
///
/// A sum c + a1·s1 + .. + a6·s6 is given as c and up to six factors, a1 first; those left out are 0.
/// What has no table is a [`Fault`], which goes with the rule until [`Rule::to_table`] tells it; so
/// every table that is made is well formed. Two rules are equal when their tables are.
///
/// ```
/// use service::Rule;
///
/// // For some s1, 2·s1 = s2.
/// let rule = Rule::some(1, Rule::zero(0, &[2, -1]));
/// let words = [2, 3, 5, 8, 1, 10, 0, 2, -1, 0, 0, 0, 0];
/// let table: Vec<u8> = words.into_iter().flat_map(i32::to_le_bytes).collect();
/// assert_eq!(rule.to_table()?, table);
/// assert_eq!(Rule::from_table(&table), Ok(rule));
/// # Ok::<(), service::Fault>(())
/// ```
#[derive(Clone, Debug, PartialEq, Eq)]
pub struct Rule(Result<Tree, Fault>);

/// Why a rule that was written has no table.
#[derive(Clone, Copy, Debug, PartialEq, Eq, Hash)]
#[non_exhaustive]
pub enum Fault {
    /// A quantifier's setting is not 1 to 6.
    Setting(i32),
    /// A divisor is below 1.
    Divisor(i32),
    /// A constant or a factor is below −2,147,483,647.
    Number(i32),
    /// A sum has more than six factors: so many.
    Factors(usize),
    /// The table would have over 16,384 words.
    Words,
}

impl Display for Fault {
    fn fmt(&self, f: &mut Formatter<'_>) -> std::fmt::Result {
        match self {
            Fault::Setting(setting) => write!(f, "setting {setting} is not 1 to 6"),
            Fault::Divisor(divisor) => write!(f, "divisor {divisor} is below 1"),
            Fault::Number(number) => write!(f, "{number} is below -2,147,483,647"),
            Fault::Factors(count) => write!(f, "{count} factors for six settings"),
            Fault::Words => f.write_str("a table of over 16,384 words"),
        }
    }
}

impl Error for Fault {}

/// The nodes of a rule with the words of its table.
#[derive(Clone, Debug, PartialEq, Eq)]
struct Tree {
    /// In preorder from the last to the root, so that what is put around a rule goes to the end.
    nodes: Vec<Node>,
    words: usize,
}

#[derive(Clone, Copy, Debug, PartialEq, Eq)]
enum Node {
    Constant(bool),
    /// With the number of nodes of its left side.
    Join(Join, i32),
    Not,
    Literal(Test, Sum),
    Quantifier(Quantifier, i32),
}

#[derive(Clone, Copy, Debug, PartialEq, Eq)]
enum Join {
    And,
    Or,
}

#[derive(Clone, Copy, Debug, PartialEq, Eq)]
enum Test {
    Positive,
    Divides(i32),
    DividesNot(i32),
    Zero,
}

#[derive(Clone, Copy, Debug, PartialEq, Eq)]
enum Quantifier {
    Some,
    All,
}

/// c, and a1 to a6.
type Sum = [i32; 7];

impl Rule {
    /// True or false (kinds 1 and 0).
    #[must_use]
    pub fn truth(value: bool) -> Rule {
        Rule(Ok(Tree::leaf(Node::Constant(value))))
    }

    /// Both rules hold (kind 2).
    #[must_use]
    pub fn and(left: Rule, right: Rule) -> Rule {
        Rule::join(Join::And, left, right)
    }

    /// One of the rules holds, or both (kind 3).
    #[must_use]
    pub fn or(left: Rule, right: Rule) -> Rule {
        Rule::join(Join::Or, left, right)
    }

    /// The rule does not hold (kind 4).
    #[must_use]
    #[expect(clippy::should_implement_trait, reason = "named as and and or are")]
    pub fn not(rule: Rule) -> Rule {
        rule.under(Node::Not)
    }

    /// 0 < T (kind 5).
    #[must_use]
    pub fn positive(c: i32, factors: &[i32]) -> Rule {
        Rule::literal(Test::Positive, c, factors)
    }

    /// k divides T (kind 6).
    #[must_use]
    pub fn divides(k: i32, c: i32, factors: &[i32]) -> Rule {
        Rule::literal(Test::Divides(k), c, factors)
    }

    /// k does not divide T (kind 7).
    #[must_use]
    pub fn divides_not(k: i32, c: i32, factors: &[i32]) -> Rule {
        Rule::literal(Test::DividesNot(k), c, factors)
    }

    /// T = 0 (kind 10).
    #[must_use]
    pub fn zero(c: i32, factors: &[i32]) -> Rule {
        Rule::literal(Test::Zero, c, factors)
    }

    /// For some value of the setting, the rule holds (kind 8).
    #[must_use]
    pub fn some(setting: i32, rule: Rule) -> Rule {
        rule.bound(Quantifier::Some, setting)
    }

    /// For all values of the setting, the rule holds (kind 9).
    #[must_use]
    pub fn all(setting: i32, rule: Rule) -> Rule {
        rule.bound(Quantifier::All, setting)
    }

    /// The rule of a table.
    ///
    /// # Errors
    ///
    /// Refuses what the calls refuse by 1 to 4, by the same number.
    pub fn from_table(table: &[u8]) -> Result<Rule, Refusal> {
        reading::tree(table).map(|tree| Rule(Ok(tree)))
    }

    /// The table of the rule, well formed.
    ///
    /// # Errors
    ///
    /// A fault of what the rule was built from.
    pub fn to_table(&self) -> Result<Vec<u8>, Fault> {
        let tree = self.0.as_ref().map_err(|&fault| fault)?;
        let count = tree.nodes.len();
        let mut words = Vec::with_capacity(tree.words);
        words.push(count as i32);
        let mut place = count + 1;
        for node in tree.nodes.iter().rev() {
            words.push(place as i32);
            place += node.width();
        }
        for (number, node) in (0..).zip(tree.nodes.iter().rev()) {
            node.write(number, &mut words);
        }
        Ok(words.into_iter().flat_map(i32::to_le_bytes).collect())
    }

    fn literal(test: Test, c: i32, factors: &[i32]) -> Rule {
        Rule(literal(test, c, factors).map(Tree::leaf))
    }

    fn join(join: Join, left: Rule, right: Rule) -> Rule {
        Rule(left.0.and_then(|left| right.0?.beside(left, join)))
    }

    fn bound(self, quantifier: Quantifier, setting: i32) -> Rule {
        match setting {
            1..=6 => self.under(Node::Quantifier(quantifier, setting)),
            _ => Rule(self.0.and(Err(Fault::Setting(setting)))),
        }
    }

    fn under(self, node: Node) -> Rule {
        Rule(self.0.and_then(|tree| tree.under(node)))
    }
}

impl Tree {
    fn leaf(node: Node) -> Tree {
        Tree {
            words: 2 + node.width(),
            nodes: vec![node],
        }
    }

    /// This tree with a new root.
    fn under(mut self, root: Node) -> Result<Tree, Fault> {
        self.words += 1 + root.width();
        self.nodes.push(root);
        if self.words > MOST_WORDS {
            return Err(Fault::Words);
        }
        Ok(self)
    }

    /// This tree as the right side of a join.
    fn beside(mut self, left: Tree, join: Join) -> Result<Tree, Fault> {
        let root = Node::Join(join, left.nodes.len() as i32);
        self.words += left.words - 1;
        self.nodes.extend(left.nodes);
        self.under(root)
    }
}

impl Node {
    /// The words of its body.
    fn width(self) -> usize {
        match self {
            Node::Constant(_) | Node::Not => 1,
            Node::Join(..) | Node::Quantifier(..) => 2,
            Node::Literal(Test::Positive | Test::Zero, _) => 8,
            Node::Literal(Test::Divides(_) | Test::DividesNot(_), _) => 9,
        }
    }

    /// Adds its body, as that of the node of this number.
    fn write(self, number: i32, words: &mut Vec<i32>) {
        match self {
            Node::Constant(value) => words.push(value.into()),
            Node::Join(Join::And, left) => words.extend([2, number + 1 + left]),
            Node::Join(Join::Or, left) => words.extend([3, number + 1 + left]),
            Node::Not => words.push(4),
            Node::Literal(test, sum) => {
                match test {
                    Test::Positive => words.push(5),
                    Test::Divides(k) => words.extend([6, k]),
                    Test::DividesNot(k) => words.extend([7, k]),
                    Test::Zero => words.push(10),
                }
                words.extend(sum);
            }
            Node::Quantifier(Quantifier::Some, setting) => words.extend([8, setting]),
            Node::Quantifier(Quantifier::All, setting) => words.extend([9, setting]),
        }
    }
}

fn literal(test: Test, c: i32, factors: &[i32]) -> Result<Node, Fault> {
    if let Test::Divides(k @ ..1) | Test::DividesNot(k @ ..1) = test {
        return Err(Fault::Divisor(k));
    }
    let mut sum = [0; 7];
    sum[0] = c;
    let given = sum[1..].get_mut(..factors.len());
    given
        .ok_or(Fault::Factors(factors.len()))?
        .copy_from_slice(factors);
    if sum.contains(&i32::MIN) {
        return Err(Fault::Number(i32::MIN));
    }
    Ok(Node::Literal(test, sum))
}
