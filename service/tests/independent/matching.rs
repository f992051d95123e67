//! Matching: whether a rule holds at six values.

use super::rule::Rule;

const LARGEST_VALUE: i128 = 500_000_000;

/// "For matching 10, then 9."
pub fn matching(rule: &Rule, values: &[i128; 6]) -> Result<bool, u8> {
    if rule.has_quantifier() {
        return Err(10);
    }
    if values.iter().any(|value| value.abs() > LARGEST_VALUE) {
        return Err(9);
    }
    Ok(holds(rule, values))
}

fn holds(rule: &Rule, values: &[i128; 6]) -> bool {
    match rule {
        Rule::Constant(truth) => *truth,
        Rule::Literal(literal) => literal.holds(values),
        Rule::And(left, right) => holds(left, values) && holds(right, values),
        Rule::Or(left, right) => holds(left, values) || holds(right, values),
        Rule::Not(child) => !holds(child, values),
        Rule::ForSome(..) | Rule::ForAll(..) => {
            unreachable!("a rule with a quantifier was refused")
        }
    }
}
