//! The steps, each with its limits in the stated order.

use super::back::{Back, Built, Folded};
use super::bodies::{Bounds, Chosen, chosen, common_factor, literals, period};
use super::literals::{Literal, Sum, at, far_left, literal, scaled};
use super::walks::{around, fold, normal, same};
use super::words::{Word, body};

const SOME: usize = 8;

/// "While a quantifier remains": a round of steps for each. Both slices are the room.
pub fn rounds(table: &mut [Word], work: &mut [Word]) -> Result<(), u8> {
    while let Some(at) = chosen(table) {
        if !at.some {
            for_all(table, work, &at)?;
        }
        for step in [normal_form, common, disjunction] {
            let at = chosen(table).expect("a quantifier goes in step 3 alone");
            step(table, work, &at)?;
        }
    }
    Ok(())
}

/// The table with `new` in the place of the chosen quantifier, in the last one's place.
fn rebuild(
    table: &mut [Word],
    work: &mut [Word],
    chosen: &Chosen,
    new: impl Fn(&[Word], &mut Back) -> Result<Folded, u8>,
) -> Result<(), u8> {
    let mut back = Back::new(work);
    let folded = around(&mut back, table, 0, chosen.node, &|back| new(table, back))?;
    back.stand(folded);
    back.finish(table)
}

/// "A for-all is first replaced by not, for some, not: a step table of its own."
fn for_all(table: &mut [Word], work: &mut [Word], chosen: &Chosen) -> Result<(), u8> {
    rebuild(table, work, chosen, |table, back| {
        let inner = same(back, table, chosen.nodes.start);
        let opposite = back.not(inner);
        let some = back.quantifier(SOME, chosen.setting, opposite);
        Ok(back.not(some))
    })
}

/// 1. Normal form.
fn normal_form(table: &mut [Word], work: &mut [Word], chosen: &Chosen) -> Result<(), u8> {
    rebuild(table, work, chosen, |table, back| {
        let inner = normal(back, table, chosen.nodes.start, true, chosen.setting)?;
        Ok(back.quantifier(SOME, chosen.setting, inner))
    })
}

/// 2. Common factor. With D = 1 the table stays as it is.
fn common(table: &mut [Word], work: &mut [Word], chosen: &Chosen) -> Result<(), u8> {
    let x = chosen.setting;
    let factor = common_factor(table, chosen)?;
    if factor == 1 {
        return Ok(());
    }
    if literals(table, chosen.nodes.clone()).any(|body| scaled(body, factor, x).is_over()) {
        return Err(5);
    }
    rebuild(table, work, chosen, |table, back| {
        let start = back.built;
        let right = back.literal(&divides(factor, x));
        let middle = back.built;
        let scale = |back: &mut Back, body: &[Word]| back.literal(&scaled(body, factor, x));
        let left = fold(back, table, chosen.nodes.start, &scale);
        let both = back.join(2, start, middle, right, left);
        Ok(back.quantifier(SOME, x, both))
    })
}

/// D divides x.
fn divides(divisor: i64, x: usize) -> Literal {
    let mut sum = [0; 7];
    sum[x] = 1;
    Literal {
        kind: 6,
        divisor,
        sum,
    }
}

/// 3. Disjunction.
fn disjunction(table: &mut [Word], work: &mut [Word], chosen: &Chosen) -> Result<(), u8> {
    let period = period(table, chosen)?;
    let bounds = Bounds::new(table, chosen);
    if is_over(table, chosen, period, &bounds) {
        return Err(5);
    }
    rebuild(table, work, chosen, |table, back| {
        Ok(disjuncts(table, back, chosen, period, &bounds))
    })
}

/// "the numbers of every disjunct literal count before folding": a number is linear in j, so those
/// at j = 1 and at j = P tell.
fn is_over(table: &[Word], chosen: &Chosen, period: i64, bounds: &Bounds) -> bool {
    let x = chosen.setting;
    let literals = || literals(table, chosen.nodes.clone());
    let is_over_at = |less_x: Sum| literals().any(|body| at(body, x, &less_x).is_over());
    let is_far_over_at = |less_x: Sum| {
        let mut left = literals().filter(|body| far_left(body, x).is_none());
        left.any(|body| at(body, x, &less_x).is_over())
    };
    let ends = [1, period];
    ends.iter().any(|&j| is_far_over_at(numeral_less(x, j)))
        || bounds.nodes().any(|node| {
            let bound = bound_less(table, node);
            ends.iter().any(|&j| is_over_at(above(bound, j)))
        })
}

/// The far-left bodies and the full ones, "nested to the right": the last is put first. A true one
/// ends the work.
fn disjuncts(
    table: &[Word],
    back: &mut Back,
    chosen: &Chosen,
    period: i64,
    bounds: &Bounds,
) -> Folded {
    let start = back.built;
    let full = full_bodies(table, back, chosen, period, bounds);
    if full == Some(true) {
        return full;
    }
    far_bodies(table, back, chosen, period, start, full)
}

fn full_bodies(
    table: &[Word],
    back: &mut Back,
    chosen: &Chosen,
    period: i64,
    bounds: &Bounds,
) -> Folded {
    let (body, x) = (chosen.nodes.start, chosen.setting);
    let start = back.built;
    let mut others = Some(false);
    if bounds.is_empty() {
        return others;
    }
    for j in (1..=period).rev() {
        for node in bounds.nodes().rev() {
            let less_x = above(bound_less(table, node), j);
            let full = |back: &mut Back, body: &[Word]| back.literal(&at(body, x, &less_x));
            others = or(back, start, others, |back| fold(back, table, body, &full));
            if others == Some(true) {
                return others;
            }
        }
    }
    others
}

/// In front of the full bodies, which were built since `start`.
fn far_bodies(
    table: &[Word],
    back: &mut Back,
    chosen: &Chosen,
    period: i64,
    start: Built,
    full: Folded,
) -> Folded {
    let (body, x) = (chosen.nodes.start, chosen.setting);
    let mut others = full;
    for j in (1..=period).rev() {
        let less_x = numeral_less(x, j);
        let far = |back: &mut Back, body: &[Word]| {
            far_left(body, x).or_else(|| back.literal(&at(body, x, &less_x)))
        };
        others = or(back, start, others, |back| fold(back, table, body, &far));
        if others == Some(true) {
            return others;
        }
    }
    others
}

/// One more disjunct, in front of the others.
fn or(
    back: &mut Back,
    start: Built,
    others: Folded,
    disjunct: impl FnOnce(&mut Back) -> Folded,
) -> Folded {
    let middle = back.built;
    let one = disjunct(back);
    back.join(3, start, middle, others, one)
}

/// j − x.
fn numeral_less(x: usize, j: i64) -> Sum {
    let mut sum = [0; 7];
    sum[0] = j;
    sum[x] = -1;
    sum
}

/// b − x, where 0 < x+r gives b = −r: the opposite of its sum.
fn bound_less(table: &[Word], node: usize) -> Sum {
    literal(body(table, node)).negated().sum
}

/// With j added.
fn above(mut sum: Sum, j: i64) -> Sum {
    sum[0] += j;
    sum
}
