//! Nanoseconds for a call: the least of many runs, the sides taking turns, so that what slows the
//! machine for a while slows both.

use std::hint::black_box;
use std::time::{Duration, Instant};

const RUNS: usize = 60;
/// A run is as many calls as take so long.
const RUN: Duration = Duration::from_millis(2);
/// No new run of both sides once so long is spent on them.
const MOST: Duration = Duration::from_secs(4);

/// One call, with its nanoseconds.
pub fn once<T>(call: impl FnOnce() -> T) -> (T, f64) {
    let start = Instant::now();
    let answer = call();
    (answer, nanoseconds(start.elapsed()))
}

/// The nanoseconds of a call of each side; `first` has those of a first call.
pub fn least<T>(
    first: [f64; 2],
    mut library: impl FnMut() -> T,
    mut plain: impl FnMut() -> T,
) -> [f64; 2] {
    let start = Instant::now();
    let [mut library_least, mut plain_least] = first;
    if library_least + plain_least > nanoseconds(MOST) {
        return first;
    }
    let (library_calls, plain_calls) = (calls_in_a_run(&mut library), calls_in_a_run(&mut plain));
    for _ in 0..RUNS {
        library_least = library_least.min(run(&mut library, library_calls));
        plain_least = plain_least.min(run(&mut plain, plain_calls));
        if start.elapsed() > MOST {
            break;
        }
    }
    [library_least, plain_least]
}

/// Finding out warms up.
fn calls_in_a_run<T>(call: &mut impl FnMut() -> T) -> u32 {
    let mut calls = 1;
    while run(call, calls) * f64::from(calls) < nanoseconds(RUN) {
        calls *= 2;
    }
    calls
}

/// The nanoseconds of a call, of so many.
fn run<T>(call: &mut impl FnMut() -> T, calls: u32) -> f64 {
    let start = Instant::now();
    for _ in 0..calls {
        black_box(call());
    }
    nanoseconds(start.elapsed()) / f64::from(calls)
}

fn nanoseconds(time: Duration) -> f64 {
    time.as_secs_f64() * 1e9
}
