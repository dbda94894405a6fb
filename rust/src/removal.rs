//! What taking faces out of a mesh does to its picture, before it is done.
use crate::Refusal;

mod ffi {
    extern "C" {
        pub fn paqelzim_preview_removal(
            tri2vtx: *const u32,
            tri2vtx_len: usize,
            vtx2xyz: *const f32,
            vtx2xyz_len: usize,
            img_w: usize,
            img_h: usize,
            transform_world2ndc: *const f32,
            removed: *const u8,
            removed_len: usize,
            full_pix2tri: *mut u32,
            full_pix2tri_len: usize,
            full_pix2depth: *mut f32,
            full_pix2depth_len: usize,
            full_pix2weights: *mut f32,
            full_pix2weights_len: usize,
            short_pix2tri: *mut u32,
            short_pix2tri_len: usize,
            short_pix2depth: *mut f32,
            short_pix2depth_len: usize,
            short_pix2weights: *mut f32,
            short_pix2weights_len: usize,
        ) -> RemovalPreview;
    }

    #[repr(C)]
    pub struct RemovalPreview {
        pub code: u32,
        pub emptied: usize,
        pub renamed: usize,
        pub kept: usize,
    }
}

/// What becomes of the pixels of a picture when faces are taken out of its mesh. The counts sum to all its pixels.
#[derive(Clone, Copy, Debug, Default, PartialEq, Eq, Hash)]
pub struct RemovalPreview {
    /// Pixels where a face gives way to none.
    pub emptied: usize,
    /// Pixels where a face gives way to another.
    pub renamed: usize,
    /// Pixels where the face stays, or where there was none.
    pub kept: usize,
}

/// Tells what taking faces out of a mesh does to its picture, before it is done.
///
/// `removed` has a byte for each face: where it is 0 the face stays, where it is anything else the face is taken out. The full
/// scratch layer is cleared and drawn with every face, the short one is cleared and drawn with those that stay, both as by
/// [`pix2tri_by_rasterization`](crate::pix2tri_by_rasterization) with first number 0 and
/// [`Facing::All`](crate::Facing::All); then the pixels of the two are counted.
///
/// In the short layer a face has a new number: how many of those that stay come before it. A pixel is kept where it shows the
/// same face by its new number, and renamed where it shows another, even if the number is the one that the full layer has
/// there. Where no face that is taken out holds a pixel of the full layer, all pixels are kept.
///
/// No shortened list is made. The cost is that of two clears, two drawings and a walk over the pixels.
///
/// Writes: every place of the six scratch slices, which may hold anything before.
///
/// Questions: [1](Refusal::ImageSize), [3](Refusal::MeshSize), [4](Refusal::BufferLength): `removed` has one element for each
/// face, both maps and both depths have `img_w * img_h`, both weights three times as many, [6](Refusal::VertexNumber): of every
/// face, also those that are taken out. [`Layer::preview_removal`](crate::Layer::preview_removal) is the same on layers that
/// keep their slices together.
///
/// ```
/// use paqelzim::{preview_removal, Refusal, RemovalPreview};
/// let identity: [f32; 16] = std::array::from_fn(|i| if i % 5 == 0 { 1. } else { 0. });
/// // Two faces over all of a picture of 2 x 2, the second in front.
/// let tri2vtx = [0, 1, 2, 3, 4, 5];
/// let vtx2xyz = [
///     -1., -1., 0.25, 3., -1., 0.25, -1., 3., 0.25, //
///     -1., -1., 0.5, 3., -1., 0.5, -1., 3., 0.5,
/// ];
/// let (mut full, mut full_depth, mut full_weights) = ([7; 4], [f32::NAN; 4], [f32::NAN; 12]);
/// let (mut short, mut short_depth, mut short_weights) = ([7; 4], [f32::NAN; 4], [f32::NAN; 12]);
/// let mut preview = |removed: &[u8]| {
///     let counts = preview_removal(
///         &tri2vtx, &vtx2xyz, 2, 2, &identity, removed,
///         &mut full, &mut full_depth, &mut full_weights,
///         &mut short, &mut short_depth, &mut short_weights,
///     )?;
///     Ok::<_, Refusal>((counts, full, short, short_depth))
/// };
/// let counts = |emptied, renamed, kept| RemovalPreview { emptied, renamed, kept };
///
/// // Without the hidden face the shown one stays, as number 0.
/// assert_eq!(preview(&[1, 0])?, (counts(0, 0, 4), [1; 4], [0; 4], [0.5; 4]));
/// // Without the shown one, the other is seen. Any number but 0 takes a face out.
/// assert_eq!(preview(&[0, 2])?, (counts(0, 4, 0), [1; 4], [0; 4], [0.25; 4]));
/// // Without both, nothing is.
/// let empty = ([u32::MAX; 4], [f32::NEG_INFINITY; 4]);
/// assert_eq!(preview(&[255, 1])?, (counts(4, 0, 0), [1; 4], empty.0, empty.1));
///
/// // A mark is missing.
/// assert_eq!(preview(&[0]), Err(Refusal::BufferLength));
/// # Ok::<(), Refusal>(())
/// ```
#[allow(clippy::too_many_arguments)]
pub fn preview_removal(
    tri2vtx: &[u32],
    vtx2xyz: &[f32],
    img_w: usize,
    img_h: usize,
    transform_world2ndc: &[f32; 16],
    removed: &[u8],
    full_pix2tri: &mut [u32],
    full_pix2depth: &mut [f32],
    full_pix2weights: &mut [f32],
    short_pix2tri: &mut [u32],
    short_pix2depth: &mut [f32],
    short_pix2weights: &mut [f32],
) -> Result<RemovalPreview, Refusal> {
    // SAFETY: each pointer comes with its slice's own length, and the call accepts every length; the matrix has
    // its sixteen numbers.
    let answer = unsafe {
        ffi::paqelzim_preview_removal(
            tri2vtx.as_ptr(),
            tri2vtx.len(),
            vtx2xyz.as_ptr(),
            vtx2xyz.len(),
            img_w,
            img_h,
            transform_world2ndc.as_ptr(),
            removed.as_ptr(),
            removed.len(),
            full_pix2tri.as_mut_ptr(),
            full_pix2tri.len(),
            full_pix2depth.as_mut_ptr(),
            full_pix2depth.len(),
            full_pix2weights.as_mut_ptr(),
            full_pix2weights.len(),
            short_pix2tri.as_mut_ptr(),
            short_pix2tri.len(),
            short_pix2depth.as_mut_ptr(),
            short_pix2depth.len(),
            short_pix2weights.as_mut_ptr(),
            short_pix2weights.len(),
        )
    };
    let ffi::RemovalPreview {
        code,
        emptied,
        renamed,
        kept,
    } = answer;
    Refusal::of_code(code).map(|()| RemovalPreview {
        emptied,
        renamed,
        kept,
    })
}
