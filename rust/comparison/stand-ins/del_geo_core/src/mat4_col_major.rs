//! Projection, and the ray through a pixel.
use num_traits::Float;

/// y_r = m[r]x0 + m[4+r]x1 + m[8+r]x2 + m[12+r]; none when y3 is 0; else y0, y1, y2 over y3, and y3.
pub fn transform_homogeneous<T: Float>(m: &[T; 16], x: &[T; 3]) -> Option<([T; 3], T)> {
    let y = |r: usize| m[r] * x[0] + m[4 + r] * x[1] + m[8 + r] * x[2] + m[12 + r];
    let w = y(3);
    if w == T::zero() {
        return None;
    }
    Some(([y(0) / w, y(1) / w, y(2) / w], w))
}

/// `transform_homogeneous` as a method.
pub trait Mat4ColMajor<T> {
    fn transform_homogeneous(&self, x: &[T; 3]) -> Option<([T; 3], T)>;
}

impl<T: Float> Mat4ColMajor<T> for [T; 16] {
    fn transform_homogeneous(&self, x: &[T; 3]) -> Option<([T; 3], T)> {
        transform_homogeneous(self, x)
    }
}

/// Entry 3k+r = (m[4k+r] − p_r·m[4k+3]) / y3, p the projected point, no zero test.
pub fn jacobian_transform<T: Float>(m: &[T; 16], x: &[T; 3]) -> [T; 9] {
    let y = |r: usize| m[r] * x[0] + m[4 + r] * x[1] + m[8 + r] * x[2] + m[12 + r];
    let w = y(3);
    let p = [y(0) / w, y(1) / w, y(2) / w];
    std::array::from_fn(|entry| {
        let (k, r) = (entry / 3, entry % 3);
        (m[4 * k + r] - p[r] * m[4 * k + 3]) / w
    })
}

/// Pixel (px, py): x = (2px)/w − 1, y = 1 − (2py)/h; the origin is the projection of (x, y, 1), the
/// direction that of (x, y, −1) minus the origin.
pub fn ray_from_transform_ndc2world_and_pixel_coordinates<T: Float>(
    (px, py): (T, T),
    (w, h): &(T, T),
    transform_ndc2world: &[T; 16],
) -> ([T; 3], [T; 3]) {
    let one = T::one();
    let two = one + one;
    let x = (two * px) / *w - one;
    let y = one - (two * py) / *h;
    let (origin, _) = transform_homogeneous(transform_ndc2world, &[x, y, one]).unwrap();
    let (end, _) = transform_homogeneous(transform_ndc2world, &[x, y, -one]).unwrap();
    (origin, crate::vec3::sub(&end, &origin))
}
