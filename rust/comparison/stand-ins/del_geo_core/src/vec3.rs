//! Vectors of three.
use num_traits::Float;

pub fn sub<T: Float>(a: &[T; 3], b: &[T; 3]) -> [T; 3] {
    [a[0] - b[0], a[1] - b[1], a[2] - b[2]]
}

pub fn dot<T: Float>(a: &[T; 3], b: &[T; 3]) -> T {
    a[0] * b[0] + a[1] * b[1] + a[2] * b[2]
}

pub fn cross<T: Float>(a: &[T; 3], b: &[T; 3]) -> [T; 3] {
    [
        a[1] * b[2] - a[2] * b[1],
        a[2] * b[0] - a[0] * b[2],
        a[0] * b[1] - a[1] * b[0],
    ]
}

/// Entry k is j[3k]g0 + j[3k+1]g1 + j[3k+2]g2.
pub fn mult_mat3_col_major<T: Float>(g: &[T; 3], j: &[T; 9]) -> [T; 3] {
    std::array::from_fn(|k| j[3 * k] * g[0] + j[3 * k + 1] * g[1] + j[3 * k + 2] * g[2])
}

pub trait Vec3<T> {
    fn xy(&self) -> [T; 2];
    fn transform_homogeneous(&self, m: &[T; 16]) -> Option<([T; 3], T)>;
    fn add_in_place(&mut self, other: &[T; 3]);
}

impl<T: Float> Vec3<T> for [T; 3] {
    fn xy(&self) -> [T; 2] {
        [self[0], self[1]]
    }

    fn transform_homogeneous(&self, m: &[T; 16]) -> Option<([T; 3], T)> {
        crate::mat4_col_major::transform_homogeneous(m, self)
    }

    /// Entries in turn.
    fn add_in_place(&mut self, other: &[T; 3]) {
        for (sum, &x) in self.iter_mut().zip(other) {
            *sum = *sum + x;
        }
    }
}
