//! Matrices of two rows and three columns.

/// A share (a, b) adds j[3k]a + j[3k+1]b to entry k of its vertex (02, Point 1); here the two stand at 2k and 2k+1.
pub fn vec3_from_mult_transpose_vec2(m: &[f32; 6], g: &[f32; 2]) -> [f32; 3] {
    std::array::from_fn(|k| m[2 * k] * g[0] + m[2 * k + 1] * g[1])
}
