//! Elimination: a step table after the other, until no quantifier remains.

use super::folding::fold;
use super::rule::Rule;
use super::{steps, table};
use std::mem;

pub struct Elimination {
    /// In words.
    pub room: usize,
    /// The words of the largest step table so far, one that did not fit included.
    pub greatest: usize,
    /// The most literals that the disjuncts of one step 3 may have. The paper sets no such limit;
    /// the tests do, where a case is not worth its time.
    pub most_literals: usize,
}

/// Not a number of the paper: `most_literals` was passed.
pub const TOO_LONG: u8 = u8::MAX;

impl Elimination {
    pub fn with_room(room: usize) -> Elimination {
        Elimination {
            room,
            greatest: 0,
            most_literals: usize::MAX,
        }
    }

    /// "The input, folded, is the first step table, and each numbered step below gives one more.
    /// While a quantifier remains, take the one with the greatest node number."
    pub fn eliminate(&mut self, rule: Rule) -> Result<Rule, u8> {
        let mut table = self.step_table(rule)?;
        while let Some(chosen) = table.last_quantifier() {
            table = match chosen {
                Rule::ForAll(..) => {
                    self.step(table, |x, body| Ok(steps::without_for_all(x, body)))?
                }
                _ => self.numbered_steps(table)?,
            };
        }
        Ok(table)
    }

    /// "D over 4,096 is refused (7) after step 1; P over 4,096 (7) after step 2."
    fn numbered_steps(&mut self, table: Rule) -> Result<Rule, u8> {
        let table = self.step(table, |x, body| {
            Ok(Rule::for_some(x, steps::normal_form(x, body)))
        })?;
        let table = self.step(table, |x, body| {
            let factor = steps::common_factor(x, &body)?;
            Ok(Rule::for_some(
                x,
                steps::with_common_factor(x, &body, factor),
            ))
        })?;
        let most_literals = self.most_literals;
        self.step(table, |x, body| {
            let period = steps::period(&body)?;
            let bounds = steps::lower_bounds(x, &body).len();
            let disjuncts = period as usize * (1 + bounds);
            if disjuncts * body.literals().len() > most_literals {
                return Err(TOO_LONG);
            }
            steps::disjunction(x, &body, period)
        })
    }

    /// The step table in which this stands for the chosen quantifier with its body.
    fn step(
        &mut self,
        mut table: Rule,
        replacement: impl FnOnce(usize, Rule) -> Result<Rule, u8>,
    ) -> Result<Rule, u8> {
        let chosen = table.last_quantifier().expect("a quantifier remains");
        match mem::replace(chosen, Rule::Constant(false)) {
            Rule::ForSome(x, body) | Rule::ForAll(x, body) => *chosen = replacement(x, *body)?,
            _ => unreachable!("a quantifier was chosen"),
        }
        self.step_table(table)
    }

    /// "Per step table, numbers come first (5), then size after folding (6)."
    fn step_table(&mut self, rule: Rule) -> Result<Rule, u8> {
        steps::check_numbers(&rule)?;
        let rule = fold(rule);
        self.fits(table::size(&rule))?;
        Ok(rule)
    }

    pub fn fits(&mut self, words: usize) -> Result<(), u8> {
        self.greatest = self.greatest.max(words);
        if words > self.room { Err(6) } else { Ok(()) }
    }
}
