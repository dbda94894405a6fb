//! The label picture: which body each pixel shows, and nothing else of a layer.
use crate::Refusal;

mod ffi {
    extern "C" {
        pub fn paqelzim_label_picture(
            pix2tri: *const u32,
            pix2tri_len: usize,
            tri2body: *const u32,
            tri2body_len: usize,
            img_w: usize,
            img_h: usize,
            pix2body: *mut u32,
            pix2body_len: usize,
        ) -> u32;
    }
}

/// Gives each pixel the number of its body: `tri2body` has one for each face, so that its length is the face count.
///
/// An empty pixel has 4294967295 in the picture as in the map. Nothing forbids a body to have that number too; its pixels then
/// look like empty ones.
///
/// The call is lent neither depths nor weights, and what it cannot see it cannot tell. Two layers, each accepted with a table
/// of its own, that are empty at the same pixels and have the same bodies at all others give the same picture, whatever the
/// numbers of their faces, the lengths of the tables, the depths and the weights. So a mesh without some of the faces that hold
/// no pixel, its table without their entries, drawn in runs and joined, has the label picture of the whole. Nor does a refusal
/// tell what the table holds: it depends on width, height, the lengths and the map.
///
/// Writes: every place of `pix2body`, which may hold anything before.
///
/// Questions: [1](Refusal::ImageSize), [3](Refusal::MeshSize): `tri2body` has at most 1,048,576 elements,
/// [4](Refusal::BufferLength): `pix2tri` and `pix2body` have `img_w * img_h`, [7](Refusal::MapEntry).
/// [`Layer::label_picture`](crate::Layer::label_picture) gives the picture of a layer of its own size.
///
/// ```
/// use paqelzim::{label_picture, Refusal};
/// const EMPTY: u32 = u32::MAX;
/// // Three faces of two bodies: the second is of body 9, the others of body 7.
/// let mut picture = [0; 4];
/// label_picture(&[0, 1, EMPTY, 2], &[7, 9, 7], 2, 2, &mut picture)?;
/// assert_eq!(picture, [7, 9, EMPTY, 7]);
///
/// // Other faces by another table, but the same bodies and the same empty pixel.
/// let mut other = [0; 4];
/// label_picture(&[3, 0, EMPTY, 3], &[9, 5, 5, 7], 2, 2, &mut other)?;
/// assert_eq!(other, picture);
///
/// // A table of two faces has none with the number 2.
/// let refused = label_picture(&[1, 1, EMPTY, 2], &[7, 9], 2, 2, &mut other);
/// assert_eq!(refused, Err(Refusal::MapEntry));
/// assert_eq!(other, picture, "nothing is written");
/// # Ok::<(), Refusal>(())
/// ```
pub fn label_picture(
    pix2tri: &[u32],
    tri2body: &[u32],
    img_w: usize,
    img_h: usize,
    pix2body: &mut [u32],
) -> Result<(), Refusal> {
    // SAFETY: each pointer comes with its slice's own length, and the call accepts every length.
    Refusal::of_code(unsafe {
        ffi::paqelzim_label_picture(
            pix2tri.as_ptr(),
            pix2tri.len(),
            tri2body.as_ptr(),
            tri2body.len(),
            img_w,
            img_h,
            pix2body.as_mut_ptr(),
            pix2body.len(),
        )
    })
}
