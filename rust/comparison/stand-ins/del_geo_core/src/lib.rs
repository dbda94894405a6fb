//! What the listed Rust calls of del_geo_core, which is not listed, written from the leaf rules of 01.
//! Sums run left to right, one rounding each.

pub mod edge2;
pub mod float_tools;
pub mod mat2x3_col_major;
pub mod mat3_col_major;
pub mod mat4_col_major;
pub mod tri2;
pub mod tri2_scanline;
pub mod tri3;
pub mod vec2;
pub mod vec3;
