//! Layers as slices: a map of face numbers, a depth and three weights, for each pixel of an image, row by row from the top.
use crate::Refusal;

mod ffi {
    extern "C" {
        pub fn paqelzim_clear(
            pix2tri: *mut u32,
            pix2tri_len: usize,
            pix2depth: *mut f32,
            pix2depth_len: usize,
            pix2weights: *mut f32,
            pix2weights_len: usize,
            img_w: usize,
            img_h: usize,
        ) -> u32;

        pub fn paqelzim_join(
            left_pix2tri: *mut u32,
            left_pix2tri_len: usize,
            left_pix2depth: *mut f32,
            left_pix2depth_len: usize,
            left_pix2weights: *mut f32,
            left_pix2weights_len: usize,
            right_pix2tri: *const u32,
            right_pix2tri_len: usize,
            right_pix2depth: *const f32,
            right_pix2depth_len: usize,
            right_pix2weights: *const f32,
            right_pix2weights_len: usize,
            img_w: usize,
            img_h: usize,
        ) -> u32;
    }
}

/// Clears a layer: depth −infinity, the number 4294967295, called empty, and three zeros, none of them −0, at every pixel.
///
/// Writes: every place of the three slices.
///
/// Questions: [1](Refusal::ImageSize), [4](Refusal::BufferLength): `pix2tri` and `pix2depth` have `img_w * img_h` elements,
/// `pix2weights` three times as many. [`Layer`](crate::Layer) keeps the three together.
///
/// ```
/// let (mut pix2tri, mut pix2depth, mut pix2weights) = ([7; 6], [0.5; 6], [0.5; 18]);
/// paqelzim::clear(&mut pix2tri, &mut pix2depth, &mut pix2weights, 3, 2)?;
/// assert_eq!((pix2tri, pix2depth), ([u32::MAX; 6], [f32::NEG_INFINITY; 6]));
/// assert_eq!(pix2weights.map(f32::to_bits), [0; 18]);
///
/// // A refused call writes nothing. Here the weights are one a pixel.
/// let refused = paqelzim::clear(&mut [7; 6], &mut pix2depth, &mut [0.5; 6], 3, 2);
/// assert_eq!(refused, Err(paqelzim::Refusal::BufferLength));
/// # Ok::<(), paqelzim::Refusal>(())
/// ```
pub fn clear(
    pix2tri: &mut [u32],
    pix2depth: &mut [f32],
    pix2weights: &mut [f32],
    img_w: usize,
    img_h: usize,
) -> Result<(), Refusal> {
    // SAFETY: each pointer comes with its slice's own length, and the call accepts every length.
    Refusal::of_code(unsafe {
        ffi::paqelzim_clear(
            pix2tri.as_mut_ptr(),
            pix2tri.len(),
            pix2depth.as_mut_ptr(),
            pix2depth.len(),
            pix2weights.as_mut_ptr(),
            pix2weights.len(),
            img_w,
            img_h,
        )
    })
}

/// Joins two layers: where the right layer's depth is greater, its depth, number and weights go into the left.
///
/// A NaN is never greater, and nothing is greater than a NaN. Layers of neighbouring runs of a mesh, each cleared and
/// drawn with its run's first number, joined in any bracketing, are the layer of the mesh drawn whole.
///
/// Writes: the left layer, where the right depth is greater. Its other pixels are stored again, with what they held.
///
/// Questions: [1](Refusal::ImageSize), [4](Refusal::BufferLength): both maps and both depths have `img_w * img_h` elements,
/// both weights three times as many.
///
/// ```
/// let (mut left, mut left_depth) = ([0, 1, 2], [0.5, 0.5, f32::NAN]);
/// let mut left_weights = [0.25; 9];
/// let (right, right_depth, right_weights) = ([7, 8, 9], [0.75, 0.5, 1.0], [0.125; 9]);
/// paqelzim::join(
///     &mut left, &mut left_depth, &mut left_weights, &right, &right_depth, &right_weights, 3, 1,
/// )?;
/// assert_eq!(left, [7, 1, 2]); // greater; equal; beside a NaN
/// assert_eq!(left_depth[..2], [0.75, 0.5]);
/// assert_eq!(left_weights[..3], [0.125; 3]); // the weights go with the depth
/// assert_eq!(left_weights[3..], [0.25; 6]);
/// # Ok::<(), paqelzim::Refusal>(())
/// ```
#[allow(clippy::too_many_arguments)]
pub fn join(
    left_pix2tri: &mut [u32],
    left_pix2depth: &mut [f32],
    left_pix2weights: &mut [f32],
    right_pix2tri: &[u32],
    right_pix2depth: &[f32],
    right_pix2weights: &[f32],
    img_w: usize,
    img_h: usize,
) -> Result<(), Refusal> {
    // SAFETY: as in `clear`.
    Refusal::of_code(unsafe {
        ffi::paqelzim_join(
            left_pix2tri.as_mut_ptr(),
            left_pix2tri.len(),
            left_pix2depth.as_mut_ptr(),
            left_pix2depth.len(),
            left_pix2weights.as_mut_ptr(),
            left_pix2weights.len(),
            right_pix2tri.as_ptr(),
            right_pix2tri.len(),
            right_pix2depth.as_ptr(),
            right_pix2depth.len(),
            right_pix2weights.as_ptr(),
            right_pix2weights.len(),
            img_w,
            img_h,
        )
    })
}
