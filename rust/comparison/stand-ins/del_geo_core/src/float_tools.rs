//! The float tool that stands in for the C library's, "in the reference too".

/// Both widened, a·a + b·b in f64, root, narrowed.
pub fn hypot(a: f32, b: f32) -> f32 {
    let (a, b) = (f64::from(a), f64::from(b));
    (a * a + b * b).sqrt() as f32
}
