//! One driver for both sides: a warm-up, then the median of single calls, each timed by itself.

use std::hint::black_box;
use std::time::{Duration, Instant};

const LEAST_CALLS: usize = 11;
const MOST_CALLS: usize = 2001;
const LEAST_TIME: Duration = Duration::from_millis(300);
const WARM_UP: usize = 3;

/// How many calls of a tiny entry share one reading of the clock.
const TINY: usize = 1000;

/// The median in microseconds. Neither what `prepare` does nor dropping what `run` gives is inside the time.
pub fn median<S, T>(mut prepare: impl FnMut() -> S, mut run: impl FnMut(S) -> T) -> f64 {
    let mut one = || {
        let state = prepare();
        let start = Instant::now();
        let answer = black_box(run(black_box(state)));
        let time = start.elapsed();
        drop(answer);
        time
    };
    for _ in 0..WARM_UP {
        one();
    }
    let start = Instant::now();
    let mut times = Vec::new();
    while times.len() < LEAST_CALLS || (start.elapsed() < LEAST_TIME && times.len() < MOST_CALLS) {
        times.push(one());
    }
    times.sort();
    times[times.len() / 2].as_secs_f64() * 1e6
}

/// The median of a call that is shorter than a reading of the clock.
pub fn median_of_tiny<T>(mut run: impl FnMut() -> T) -> f64 {
    let all = median(
        || (),
        |()| {
            for _ in 0..TINY {
                black_box(run());
            }
        },
    );
    all / TINY as f64
}
