//! The float tools against the processor's own roots and casts, bit for bit; every NaN equals every NaN.
//! Each runs on more than 50 million patterns. With `PAQELZIM_ALL_F32=1` in the environment the root of
//! f32 runs on all 2^32.
use paqelzim::{hypot_f32, narrow_f64_to_f32, sqrt_f32, sqrt_f64};

/// Patterns of each dense sample.
const SAMPLES: u64 = 52_000_000;

/// A well mixed number for each index (splitmix64).
fn mixed(index: u64) -> u64 {
    let mut z = index.wrapping_add(1).wrapping_mul(0x9e37_79b9_7f4a_7c15);
    z = (z ^ (z >> 30)).wrapping_mul(0xbf58_476d_1ce4_e5b9);
    z = (z ^ (z >> 27)).wrapping_mul(0x94d0_49bb_1331_11eb);
    z ^ (z >> 31)
}

/// Calls `check` at every index below `count`, over the machine's processors.
fn over(count: u64, check: impl Fn(u64) + Sync) {
    let threads = std::thread::available_parallelism().map_or(1, |n| n.get() as u64);
    std::thread::scope(|scope| {
        for thread in 0..threads {
            let check = &check;
            scope.spawn(move || (thread..count).step_by(threads as usize).for_each(check));
        }
    });
}

fn same_f32(got: f32, wanted: f32) -> bool {
    got.to_bits() == wanted.to_bits() || got.is_nan() && wanted.is_nan()
}

fn same_f64(got: f64, wanted: f64) -> bool {
    got.to_bits() == wanted.to_bits() || got.is_nan() && wanted.is_nan()
}

fn root_f32(bits: u32) {
    let x = f32::from_bits(bits);
    let (got, wanted) = (sqrt_f32(x), x.sqrt());
    assert!(
        same_f32(got, wanted),
        "root of {bits:08x} is {:08x}, not {:08x}",
        wanted.to_bits(),
        got.to_bits()
    );
}

fn root_f64(bits: u64) {
    let x = f64::from_bits(bits);
    let (got, wanted) = (sqrt_f64(x), x.sqrt());
    assert!(
        same_f64(got, wanted),
        "root of {bits:016x} is {:016x}, not {:016x}",
        wanted.to_bits(),
        got.to_bits()
    );
}

fn narrowed(bits: u64) {
    let x = f64::from_bits(bits);
    let (got, wanted) = (narrow_f64_to_f32(x), x as f32);
    assert!(
        same_f32(got, wanted),
        "{bits:016x} narrows to {:08x}, not {:08x}",
        wanted.to_bits(),
        got.to_bits()
    );
}

fn hypotenuse(a: u32, b: u32) {
    let (x, y) = (f32::from_bits(a), f32::from_bits(b));
    let (wide_x, wide_y) = (x as f64, y as f64);
    let wanted = (wide_x * wide_x + wide_y * wide_y).sqrt() as f32;
    let got = hypot_f32(x, y);
    assert!(
        same_f32(got, wanted),
        "hypot of {a:08x} and {b:08x} is {:08x}, not {:08x}",
        wanted.to_bits(),
        got.to_bits()
    );
}

/// Fractions at the ends and in the middle of a binade of `digits` binary places.
fn fractions(digits: u32) -> Vec<u64> {
    let (half, all) = (1 << (digits - 1), (1 << digits) - 1);
    let mut list = vec![half - 1, half, half + 1];
    for near in 0..8 {
        list.extend([near, all - near]);
    }
    list.extend((0..digits).map(|place| 1 << place));
    list
}

/// The boundaries of every binade of both signs, subnormals, infinities and NaNs among them.
fn f32_boundaries() -> Vec<u32> {
    let mut list = Vec::new();
    for field in 0..=255u32 {
        for fraction in fractions(23) {
            let bits = field << 23 | fraction as u32;
            list.extend([bits, bits | 1 << 31]);
        }
    }
    list
}

fn f64_boundaries() -> Vec<u64> {
    let mut list = Vec::new();
    for field in 0..=2047u64 {
        for fraction in fractions(52) {
            let bits = field << 52 | fraction;
            list.extend([bits, bits | 1 << 63]);
        }
    }
    list
}

/// A value halfway between two neighbouring f32s, the overflow boundary among them, or next to it.
fn near_tie(index: u64) -> u64 {
    let random = mixed(index);
    let low = (random % 0x7f80_0000) as u32;
    let high = if low == 0x7f7f_ffff {
        2f64.powi(128)
    } else {
        f32::from_bits(low + 1) as f64
    };
    let middle = (f32::from_bits(low) as f64 + high) * 0.5;
    let beside = (random >> 33) % 3;
    (middle.to_bits() + beside - 1) | (random >> 32 & 1) << 63
}

/// A pattern whose value lies in f32's range or just outside it.
fn in_f32_range(index: u64) -> u64 {
    let random = mixed(index);
    let field = 1023 - 152 + (random >> 53) % 283;
    field << 52 | random & 0x800f_ffff_ffff_ffff
}

/// The square of a number of up to 26 digits, exact in f64, or a neighbour of it.
fn near_square(index: u64) -> u64 {
    let random = mixed(index);
    let root = (random & 0x3ff_ffff) as f64;
    (root * root)
        .to_bits()
        .wrapping_add((random >> 32) % 3)
        .wrapping_sub(1)
}

#[test]
fn roots_of_f32() {
    f32_boundaries().into_iter().for_each(root_f32);
    if std::env::var("PAQELZIM_ALL_F32").is_ok_and(|v| v == "1") {
        over(1 << 32, |index| root_f32(index as u32));
    } else {
        // every 79th pattern: 54 million, all binades alike
        over((1 << 32) / 79 + 1, |index| root_f32((index * 79) as u32));
    }
}

#[test]
fn roots_of_f64() {
    f64_boundaries().into_iter().for_each(root_f64);
    over(SAMPLES, |index| match index % 4 {
        0 => root_f64(near_square(index)),
        1 => root_f64(mixed(index) >> 12),
        _ => root_f64(mixed(index) & !(1 << 63)),
    });
    over(100_000, |index| root_f64(mixed(index) | 1 << 63));
}

#[test]
fn narrowing() {
    f64_boundaries().into_iter().for_each(narrowed);
    // the overflow boundary: the largest f32, the tie above it, and their neighbours
    for bits in [0x47ef_ffff_e000_0000u64, 0x47ef_ffff_f000_0000] {
        (bits - 2..=bits + 2).for_each(narrowed);
    }
    over(SAMPLES, |index| match index % 4 {
        0 => narrowed(mixed(index)),
        1 => narrowed(in_f32_range(index)),
        _ => narrowed(near_tie(index)),
    });
}

#[test]
fn hypotenuses() {
    let few: Vec<u32> = f32_boundaries().into_iter().step_by(29).collect();
    for &a in &few {
        few.iter().for_each(|&b| hypotenuse(a, b));
    }
    over(SAMPLES, |index| {
        let random = mixed(index);
        let (a, b) = (random as u32, (random >> 32) as u32);
        if index % 2 == 0 {
            hypotenuse(a, b);
        } else {
            // the same binade, or a neighbour
            hypotenuse(a, (b & 0x80ff_ffff) | (a & 0x7f00_0000));
        }
    });
}

/// The nearest value to the root of the two squares is 3fa8521b (docs/DIFFERENCES.md): the rule's root in f64 falls on the
/// middle between the two.
#[test]
fn hypot_is_the_rule_s_and_not_the_nearest() {
    let [a, b] = [0x3fa5_cb59, 0x3e68_6d89].map(f32::from_bits);
    assert_eq!(hypot_f32(a, b).to_bits(), 0x3fa8_521a);
}

#[test]
fn every_class_of_nan() {
    // quiet and signalling, both signs, each payload digit alone, all of them, none but the lowest
    for payload in fractions(23).into_iter().filter(|&p| p != 0) {
        for sign in [0, 1u32 << 31] {
            let x = f32::from_bits(sign | 0x7f80_0000 | payload as u32);
            assert!(sqrt_f32(x).is_nan());
            assert!(hypot_f32(x, 1.0).is_nan());
            assert!(hypot_f32(f32::INFINITY, x).is_nan());
        }
    }
    for payload in fractions(52).into_iter().filter(|&p| p != 0) {
        for sign in [0, 1u64 << 63] {
            let x = f64::from_bits(sign | 0x7ff0_0000_0000_0000 | payload);
            assert!(sqrt_f64(x).is_nan());
            assert!(narrow_f64_to_f32(x).is_nan());
        }
    }
}

#[test]
fn marked_examples() {
    assert_eq!(sqrt_f32(2.0).to_bits(), 0x3fb5_04f3);
    assert_eq!(sqrt_f32(f32::from_bits(1)).to_bits(), 0x1a35_04f3);
    assert_eq!(sqrt_f32(-0.0).to_bits(), 0x8000_0000);
    assert_eq!(sqrt_f64(-0.0).to_bits(), 1 << 63);
    assert!(sqrt_f32(-1.0).is_nan());
    assert!(sqrt_f64(-f64::INFINITY).is_nan());
}
