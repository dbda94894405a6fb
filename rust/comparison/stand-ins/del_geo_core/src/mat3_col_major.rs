//! Matrices of three rows and columns.

/// The first two rows: entries 3k and 3k+1.
pub fn to_mat2x3_col_major_xy(m: &[f32; 9]) -> [f32; 6] {
    std::array::from_fn(|entry| m[entry / 2 * 3 + entry % 2])
}
