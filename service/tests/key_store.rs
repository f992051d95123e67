//! The key store in the small: what leaving a line off the key does to the images that are given.

#[allow(dead_code)] // its main is not run here
#[path = "../examples/key_store.rs"]
mod key_store;

use key_store::{Form, Image, OPTIMISATION_LEVEL, Store, build, lines};
use service::Line;

/// Every form with these values.
fn forms() -> Vec<Form> {
    let values = -2..=3;
    let count = values.clone().count();
    (0..count.pow(6))
        .map(|mut number| {
            [0; 6].map(|_| {
                let value = values.start() + (number % count) as i32;
                number /= count;
                value
            })
        })
        .collect()
}

/// The first form that a store with these lines gives another image than is built for it. The forms
/// come in rising and in falling order, since the first one with a key decides its image.
fn wrong(kept: [bool; 6], forms: &[Form]) -> Option<Form> {
    let orders: [Vec<Form>; 2] = [forms.to_vec(), forms.iter().rev().copied().collect()];
    orders.into_iter().find_map(|forms| {
        let mut store = Store::new(OPTIMISATION_LEVEL, kept);
        forms
            .into_iter()
            .find(|&form| store.image(form) != build(OPTIMISATION_LEVEL, form))
    })
}

#[test]
fn a_line_alone_may_be_left_off_exactly_where_the_test_says_so() {
    let forms = forms();
    assert_eq!(wrong([true; 6], &forms), None);
    for (at, line) in lines(OPTIMISATION_LEVEL).unwrap().into_iter().enumerate() {
        let mut kept = [true; 6];
        kept[at] = false;
        let wrong = wrong(kept, &forms);
        assert_eq!(
            wrong.is_some(),
            line == Line::Matters,
            "s{}: {wrong:?}",
            at + 1
        );
    }
}

/// Shown by trying: the test speaks of each line alone.
#[test]
fn the_lines_that_matter_give_every_tried_form_its_image() {
    let kept = lines(OPTIMISATION_LEVEL)
        .unwrap()
        .map(|line| line == Line::Matters);
    assert_eq!(kept, [true, true, false, true, false, false]);
    assert_eq!(wrong(kept, &forms()), None);
}

#[test]
fn without_the_level_an_optimised_run_is_given_a_debug_image() {
    let mut store = Store::new(OPTIMISATION_LEVEL, [false, true, true, true, true, true]);
    let [debug_run, optimised_run] = [0, 2].map(|level| [level, 2, 5, 8, 0, 0]);
    assert_eq!(store.image(debug_run), Ok(Image::Debug));
    assert_eq!(
        build(OPTIMISATION_LEVEL, optimised_run),
        Ok(Image::Optimised)
    );
    assert_eq!(store.image(optimised_run), Ok(Image::Debug));
}
