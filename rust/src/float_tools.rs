//! Square root, narrowing and hypot, total on every bit pattern.

mod ffi {
    extern "C" {
        pub fn paqelzim_sqrt_f32(x: f32) -> f32;
        pub fn paqelzim_sqrt_f64(x: f64) -> f64;
        pub fn paqelzim_narrow_f64_to_f32(x: f64) -> f32;
        pub fn paqelzim_hypot_f32(a: f32, b: f32) -> f32;
    }
}

/// IEEE 754-2019 squareRoot, nearest even. The root of −0 is −0, of a negative NaN.
///
/// ```
/// assert_eq!(paqelzim::sqrt_f32(2.0).to_bits(), 0x3fb504f3);
/// assert!(paqelzim::sqrt_f32(-1.0).is_nan());
/// ```
pub fn sqrt_f32(x: f32) -> f32 {
    // SAFETY: numbers in, a number out, for every pattern.
    unsafe { ffi::paqelzim_sqrt_f32(x) }
}

/// IEEE 754-2019 squareRoot, nearest even. The root of −0 is −0, of a negative NaN.
///
/// ```
/// assert_eq!(paqelzim::sqrt_f64(2.0), 2f64.sqrt());
/// assert_eq!(paqelzim::sqrt_f64(-0.0).to_bits(), (-0f64).to_bits());
/// ```
pub fn sqrt_f64(x: f64) -> f64 {
    // SAFETY: as for `sqrt_f32`.
    unsafe { ffi::paqelzim_sqrt_f64(x) }
}

/// The nearest `f32`, ties to even: subnormal results and overflow to infinity included.
///
/// ```
/// assert_eq!(paqelzim::narrow_f64_to_f32(0.1), 0.1f32);
/// assert_eq!(paqelzim::narrow_f64_to_f32(1e300), f32::INFINITY);
/// ```
pub fn narrow_f64_to_f32(x: f64) -> f32 {
    // SAFETY: as for `sqrt_f32`.
    unsafe { ffi::paqelzim_narrow_f64_to_f32(x) }
}

/// Both widened, a·a + b·b in `f64`, its root, narrowed: each step rounds to nearest even.
///
/// ```
/// assert_eq!(paqelzim::hypot_f32(3.0, 4.0), 5.0);
/// ```
pub fn hypot_f32(a: f32, b: f32) -> f32 {
    // SAFETY: as for `sqrt_f32`.
    unsafe { ffi::paqelzim_hypot_f32(a, b) }
}
