//! A ray and the plane of a triangle.
use crate::vec3::{cross, dot, sub};
use num_traits::Float;

/// n = (p1−p0)×(p2−p0), t = (p0−o)·n / d·n, q = o + t·d; weights ((p1−q)×(p2−q))·n / n·n, then p2,p0, then p0,p1.
pub fn intersection_plane_of_tri3_against_line<T: Float>(
    p0: &[T; 3],
    p1: &[T; 3],
    p2: &[T; 3],
    o: &[T; 3],
    d: &[T; 3],
) -> ([T; 3], [T; 3]) {
    let n = cross(&sub(p1, p0), &sub(p2, p0));
    let t = dot(&sub(p0, o), &n) / dot(d, &n);
    let q = [o[0] + t * d[0], o[1] + t * d[1], o[2] + t * d[2]];
    let nn = dot(&n, &n);
    let weight = |a: &[T; 3], b: &[T; 3]| dot(&cross(&sub(a, &q), &sub(b, &q)), &n) / nn;
    (q, [weight(p1, p2), weight(p2, p0), weight(p0, p1)])
}

/// e1, e2 the sides from p0, D = d·(e1×e2), s = p0−o: t = s·(e1×e2)/D, u = −(s·(e2×d))/D, v = −(s·(d×e1))/D;
/// g = (dt(e1×e2) − du(e2×d) − dv(d×e1))/D; shares (1−u−v)g, ug, vg.
#[allow(clippy::too_many_arguments, clippy::type_complexity)]
pub fn intersection_against_line_bwd_wrt_tri<T: Float>(
    p0: &[T; 3],
    p1: &[T; 3],
    p2: &[T; 3],
    o: &[T; 3],
    d: &[T; 3],
    dt: T,
    du: T,
    dv: T,
) -> (T, T, T, [T; 3], [T; 3], [T; 3]) {
    let (e1, e2, s) = (sub(p1, p0), sub(p2, p0), sub(p0, o));
    let (e1e2, e2d, de1) = (cross(&e1, &e2), cross(&e2, d), cross(d, &e1));
    let det = dot(d, &e1e2);
    let t = dot(&s, &e1e2) / det;
    let u = -dot(&s, &e2d) / det;
    let v = -dot(&s, &de1) / det;
    let g: [T; 3] = std::array::from_fn(|k| (dt * e1e2[k] - du * e2d[k] - dv * de1[k]) / det);
    let share = |b: T| [b * g[0], b * g[1], b * g[2]];
    (t, u, v, share(T::one() - u - v), share(u), share(v))
}

/// b0p0 + b1p1 + b2p2
pub fn position_from_barycentric_coords<T: Float>(
    p0: &[T; 3],
    p1: &[T; 3],
    p2: &[T; 3],
    b: &[T; 3],
) -> [T; 3] {
    std::array::from_fn(|k| b[0] * p0[k] + b[1] * p1[k] + b[2] * p2[k])
}

/// n over the f32 root of n·n, and half that root.
pub fn unit_normal_area(p0: &[f32; 3], p1: &[f32; 3], p2: &[f32; 3]) -> ([f32; 3], f32) {
    let n = cross(&sub(p1, p0), &sub(p2, p0));
    let length = dot(&n, &n).sqrt();
    (n.map(|x| x / length), length * 0.5)
}
