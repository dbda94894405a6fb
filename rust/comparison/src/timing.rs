//! Times of calls on the same state.
use std::time::{Duration, Instant};

const ROUNDS: usize = 9;

/// The least time in milliseconds of several rounds of each call, taken in turn, each over a fresh copy.
pub fn least<T: Clone>(start: &T, calls: &mut [&mut dyn FnMut(&mut T)]) -> Vec<f64> {
    least_of(ROUNDS, start, calls)
}

/// The same of so many rounds: short calls need more.
pub fn least_of<T: Clone>(
    rounds: usize,
    start: &T,
    calls: &mut [&mut dyn FnMut(&mut T)],
) -> Vec<f64> {
    let mut times = vec![Duration::MAX; calls.len()];
    for _ in 0..rounds {
        for (call, time) in calls.iter_mut().zip(&mut times) {
            let mut state = start.clone();
            let began = Instant::now();
            call(&mut state);
            *time = began.elapsed().min(*time);
            std::hint::black_box(&state);
        }
    }
    times.iter().map(|time| time.as_secs_f64() * 1e3).collect()
}
