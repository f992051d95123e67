//! The numbered steps, each on the body of the chosen for-some; x is the setting that it binds.

use super::folding::fold;
use super::rule::{Literal, Rule, Sum};
use super::table::LARGEST;

/// What D and P may be at most.
const MOST: i128 = 4_096;

fn negated(sum: Sum) -> Sum {
    sum.map(|a| -a)
}

fn plus_one(mut sum: Sum) -> Sum {
    sum[0] += 1;
    sum
}

fn positive(sum: Sum) -> Rule {
    Rule::Literal(Literal::Positive(sum))
}

/// "A for-all is first replaced by not, for some, not."
pub fn without_for_all(x: usize, body: Rule) -> Rule {
    Rule::not(Rule::for_some(x, Rule::not(body)))
}

/// Step 1. "In that body push every not down to the literals, by De Morgan. Two nots cancel."
pub fn normal_form(x: usize, body: Rule) -> Rule {
    match body {
        Rule::And(left, right) => Rule::and(normal_form(x, *left), normal_form(x, *right)),
        Rule::Or(left, right) => Rule::or(normal_form(x, *left), normal_form(x, *right)),
        Rule::Not(child) => normal_form_of_not(x, *child),
        Rule::Constant(truth) => Rule::Constant(truth),
        Rule::Literal(literal) => match literal {
            // "T = 0 becomes 0 < 1−T and 0 < 1+T."
            Literal::Zero(t) => Rule::and(positive(plus_one(negated(t))), positive(plus_one(t))),
            Literal::Positive(t) => positive(t),
            Literal::Divides(k, t) => Rule::Literal(Literal::Divides(k, turned(x, t))),
            Literal::DividesNot(k, t) => Rule::Literal(Literal::DividesNot(k, turned(x, t))),
        },
        Rule::ForSome(..) | Rule::ForAll(..) => unreachable!("the chosen body has no quantifier"),
    }
}

fn normal_form_of_not(x: usize, child: Rule) -> Rule {
    let not = |child: Rule| normal_form_of_not(x, child);
    match child {
        Rule::And(left, right) => Rule::or(not(*left), not(*right)),
        Rule::Or(left, right) => Rule::and(not(*left), not(*right)),
        Rule::Not(child) => normal_form(x, *child),
        Rule::Constant(truth) => Rule::Constant(!truth),
        Rule::Literal(literal) => match literal {
            // "Not of 0 < T becomes 0 < 1−T."
            Literal::Positive(t) => positive(plus_one(negated(t))),
            // "Not of T = 0 becomes 0 < −T or 0 < T."
            Literal::Zero(t) => Rule::or(positive(negated(t)), positive(t)),
            // "Kinds 6 and 7 trade places."
            Literal::Divides(k, t) => Rule::Literal(Literal::DividesNot(k, turned(x, t))),
            Literal::DividesNot(k, t) => Rule::Literal(Literal::Divides(k, turned(x, t))),
        },
        Rule::ForSome(..) | Rule::ForAll(..) => unreachable!("the chosen body has no quantifier"),
    }
}

/// "A kind 6 or 7 whose x factor is negative has T negated."
fn turned(x: usize, sum: Sum) -> Sum {
    if sum[x] < 0 { negated(sum) } else { sum }
}

/// "D is the least common multiple of the sizes of all nonzero x factors, 1 if none."
pub fn common_factor(x: usize, body: &Rule) -> Result<i128, u8> {
    let literals = body.literals();
    let sizes = literals.iter().map(|literal| literal.sum()[x].abs());
    least_common_multiple(sizes.filter(|&size| size != 0))
}

/// "P is the least common multiple of the divisors of all divisibility literals in the body, 1 if
/// none."
pub fn period(body: &Rule) -> Result<i128, u8> {
    let literals = body.literals();
    least_common_multiple(literals.iter().filter_map(|literal| literal.divisor()))
}

/// "D over 4,096 is refused (7)", and so is P. One more number never makes the multiple less.
fn least_common_multiple(numbers: impl Iterator<Item = i128>) -> Result<i128, u8> {
    let mut multiple = 1;
    for number in numbers {
        multiple *= number / greatest_common_divisor(multiple, number);
        if multiple > MOST {
            return Err(7);
        }
    }
    Ok(multiple)
}

fn greatest_common_divisor(a: i128, b: i128) -> i128 {
    if b == 0 {
        a
    } else {
        greatest_common_divisor(b, a % b)
    }
}

/// Step 2. "Multiply each literal that has x (its divisor too) by D over the size of its factor.
/// Then put 1 or −1 for the x factor, and join D divides x to the body by an and, on the right."
pub fn with_common_factor(x: usize, body: &Rule, factor: i128) -> Rule {
    let body = body.with_literals(&|literal| {
        let sum = literal.sum();
        if sum[x] == 0 {
            return Rule::Literal(literal.clone());
        }
        let times = factor / sum[x].abs();
        let mut scaled = sum.map(|a| a * times);
        scaled[x] = sum[x].signum();
        Rule::Literal(literal.with(|k| k * times, scaled))
    });
    let mut just_x = [0; 7];
    just_x[x] = 1;
    Rule::and(body, Rule::Literal(Literal::Divides(factor, just_x)))
}

/// "A literal 0 < x+r gives the bound −r; collect the list of lower bounds, each once, in order of
/// first place."
pub fn lower_bounds(x: usize, body: &Rule) -> Vec<Sum> {
    let mut bounds = Vec::new();
    for literal in body.literals() {
        if let Literal::Positive(sum) = literal
            && sum[x] == 1
        {
            let mut r = *sum;
            r[x] = 0;
            let bound = negated(r);
            if !bounds.contains(&bound) {
                bounds.push(bound);
            }
        }
    }
    bounds
}

/// "The far-left body has true for 0 < −x+r, false for 0 < x+r."
fn far_left(x: usize, body: &Rule) -> Rule {
    body.with_literals(&|literal| match literal {
        Literal::Positive(sum) if sum[x] != 0 => Rule::Constant(sum[x] < 0),
        _ => Rule::Literal(literal.clone()),
    })
}

/// The body at x = value, a sum without x.
fn at(x: usize, body: &Rule, value: &Sum) -> Rule {
    body.with_literals(&|literal| {
        let sum = literal.sum();
        let mut other: Sum = std::array::from_fn(|v| sum[v] + sum[x] * value[v]);
        other[x] = 0;
        Rule::Literal(literal.with(|k| k, other))
    })
}

/// Step 3. "Disjuncts: the far-left body at x = j for j = 1 to P; then for each j = 1 to P, for each
/// bound b in list order, the full body at x = b+j. Join them by or, nested to the right."
pub fn disjunction(x: usize, body: &Rule, period: i128) -> Result<Rule, u8> {
    let far_left = far_left(x, body);
    let bounds = lower_bounds(x, body);
    let mut disjuncts = Vec::new();
    for j in 1..=period {
        disjuncts.push(folded_disjunct(at(x, &far_left, &[j, 0, 0, 0, 0, 0, 0]))?);
    }
    for j in 1..=period {
        for bound in &bounds {
            let mut value = *bound;
            value[0] += j;
            disjuncts.push(folded_disjunct(at(x, body, &value))?);
        }
    }
    let last = disjuncts.pop().expect("P is at least 1");
    let joined = disjuncts
        .into_iter()
        .rfold(last, |rest, disjunct| Rule::or(disjunct, rest));
    Ok(joined)
}

/// "In step 3 the numbers of every disjunct literal count before folding, those that folding
/// removes included." Each disjunct is folded at once, or the whole would be too large.
fn folded_disjunct(disjunct: Rule) -> Result<Rule, u8> {
    check_numbers(&disjunct)?;
    Ok(fold(disjunct))
}

/// "A literal number passes ±2,147,483,647, or a divisor passes 2,147,483,647": 5.
pub fn check_numbers(rule: &Rule) -> Result<(), u8> {
    let fits = |number: &i128| number.abs() <= LARGEST;
    let literal_fits = |literal: &&Literal| {
        literal.sum().iter().all(fits) && literal.divisor().is_none_or(|k| fits(&k))
    };
    if rule.literals().iter().all(literal_fits) {
        Ok(())
    } else {
        Err(5)
    }
}
