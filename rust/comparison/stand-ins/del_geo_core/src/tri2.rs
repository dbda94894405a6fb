//! Corner weights.

/// cross2(a, b, c) = (bx−ax)(cy−ay) − (by−ay)(cx−ax)
pub(crate) fn cross2(a: &[f32; 2], b: &[f32; 2], c: &[f32; 2]) -> f32 {
    (b[0] - a[0]) * (c[1] - a[1]) - (b[1] - a[1]) * (c[0] - a[0])
}

/// a0 = cross2(q,p1,p2), a1 = cross2(q,p2,p0), a2 = cross2(q,p0,p1), s their sum: three weights a/s, or none
/// when s is 0 or not finite.
pub fn barycentric_coords(
    p0: &[f32; 2],
    p1: &[f32; 2],
    p2: &[f32; 2],
    q: &[f32; 2],
) -> Option<(f32, f32, f32)> {
    let a0 = cross2(q, p1, p2);
    let a1 = cross2(q, p2, p0);
    let a2 = cross2(q, p0, p1);
    let s = a0 + a1 + a2;
    if s == 0.0 || !s.is_finite() {
        return None;
    }
    Some((a0 / s, a1 / s, a2 / s))
}

/// The same with s, the doubled signed area (02, Point 8). It stands apart, so that the listed scan is timed with what it had.
pub fn barycentric_coords_and_area(
    p0: &[f32; 2],
    p1: &[f32; 2],
    p2: &[f32; 2],
    q: &[f32; 2],
) -> Option<(f32, f32, f32, f32)> {
    let s = cross2(q, p1, p2) + cross2(q, p2, p0) + cross2(q, p0, p1);
    barycentric_coords(p0, p1, p2, q).map(|(b0, b1, b2)| (b0, b1, b2, s))
}
