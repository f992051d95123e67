//! The question of the leave-off test.

use super::rule::Rule;

/// "For some of each other setting, in rising order from the outside, the and of (for some v, F)
/// and (for some v, not F)."
pub fn question(rule: Rule, setting: i32) -> Result<Rule, u8> {
    if !(1..=6).contains(&setting) {
        return Err(8);
    }
    let v = setting as usize;
    let some = Rule::for_some(v, rule.clone());
    let some_not = Rule::for_some(v, Rule::not(rule));
    let others = (1..=6).rev().filter(|&other| other != v);
    Ok(others.fold(Rule::and(some, some_not), |inner, other| {
        Rule::for_some(other, inner)
    }))
}
