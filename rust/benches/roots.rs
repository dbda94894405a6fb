//! Nanoseconds per call of each float tool, beside the processor's: a figure, not a test.
//! Run by `cargo bench --offline --bench roots`.
use std::hint::black_box;
use std::time::Instant;

const CALLS: usize = 4_000_000;

/// Nanoseconds per call over a list of arguments, the least of three rounds.
fn time<A: Copy, R>(arguments: &[A], call: impl Fn(A) -> R) -> f64 {
    let round = || {
        let began = Instant::now();
        for turn in 0..CALLS {
            black_box(call(black_box(arguments[turn % arguments.len()])));
        }
        began.elapsed().as_nanos() as f64 / CALLS as f64
    };
    (0..3).map(|_| round()).fold(f64::INFINITY, f64::min)
}

fn line(name: &str, ours: f64, processor: f64) {
    println!("{name:<20}{ours:>8.1} ns{processor:>8.1} ns on the processor");
}

fn main() {
    // positive values of every binade
    let wide: Vec<f64> = (0..4096u64)
        .map(|i| {
            f64::from_bits((i.wrapping_mul(0x9e37_79b9_7f4a_7c15)) >> 1 & !(1 << 62) | 1 << 61)
        })
        .collect();
    let short: Vec<f32> = (0..4096u32)
        .map(|i| f32::from_bits(i.wrapping_mul(0x9e37_79b9) >> 1 & 0x7eff_ffff))
        .collect();
    line(
        "sqrt_f32",
        time(&short, paqelzim::sqrt_f32),
        time(&short, f32::sqrt),
    );
    line(
        "sqrt_f64",
        time(&wide, paqelzim::sqrt_f64),
        time(&wide, f64::sqrt),
    );
    line(
        "narrow_f64_to_f32",
        time(&wide, paqelzim::narrow_f64_to_f32),
        time(&wide, |x| x as f32),
    );
    line(
        "hypot_f32",
        time(&short, |x| paqelzim::hypot_f32(x, 1.5)),
        time(&short, |x| (x as f64 * x as f64 + 2.25f64).sqrt() as f32),
    );
}
