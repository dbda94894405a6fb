//! Outline smoothing: values mixed where an outline edge passes between a pixel that shows a face and an empty one, and the
//! gradients that flow back to the ends of the edge.
use crate::Refusal;

mod ffi {
    extern "C" {
        pub fn paqelzim_antialias(
            cedge2vtx: *const u32,
            cedge2vtx_len: usize,
            vtx2xyz: *const f32,
            vtx2xyz_len: usize,
            transform_world2pix: *const f32,
            img_w: usize,
            img_h: usize,
            pix2tri: *const u32,
            pix2tri_len: usize,
            pix2vin: *const f32,
            pix2vin_len: usize,
            pix2vout: *mut f32,
            pix2vout_len: usize,
        ) -> u32;

        pub fn paqelzim_bwd_antialias(
            cedge2vtx: *const u32,
            cedge2vtx_len: usize,
            vtx2xyz: *const f32,
            vtx2xyz_len: usize,
            dldw_vtx2xyz: *mut f32,
            dldw_vtx2xyz_len: usize,
            transform_world2pix: *const f32,
            img_w: usize,
            img_h: usize,
            pix2val: *const f32,
            pix2val_len: usize,
            dldw_pix2val: *const f32,
            dldw_pix2val_len: usize,
            pix2tri: *const u32,
            pix2tri_len: usize,
        ) -> u32;
    }
}

/// Smooths the outline: where an edge of `cedge2vtx`, two vertex numbers, crosses the line between the centres of a pixel that
/// shows a face and of an empty neighbour, the nearer of the two gets a mix of both values.
///
/// Edges go in their order, and each along the pixels that it covers, in rising number: those whose closed square it meets on the
/// picture; one with a coordinate that is NaN covers none. Pixels on the image border are passed over. A covered pixel is paired with two of its neighbours: the left and the right
/// one where the edge goes farther down than across, else the upper and the lower one. Where the edge, ends included, crosses at a
/// share `rc` of the way from the shown centre to the empty one, from 0 up to but not including 1, the shown pixel gets `0.5 + rc`
/// parts of its own value and the rest of the empty one's if `rc` is below 0.5; else the empty pixel gets `rc - 0.5` parts of the
/// shown value and the rest of its own. Of the map only its empty entries count: which faces the others name is all one, and not
/// asked.
///
/// Writes: the places of `pix2vout` of the pixels that a crossing gives a mix; where several do, the last in the order stands. All
/// others keep what they held: for a whole picture, `pix2vout` begins as a copy of `pix2vin`.
///
/// Questions: [1](Refusal::ImageSize), [3](Refusal::MeshSize): `cedge2vtx` is a multiple of 2, for at most 3,145,728 edges, and
/// `vtx2xyz` of 3, for at most 1,048,576 vertices, [4](Refusal::BufferLength): `pix2tri`, `pix2vin` and `pix2vout` have
/// `img_w * img_h` elements, [10](Refusal::EdgeVertex), [8](Refusal::Projection): both ends of each edge.
///
/// ```
/// use paqelzim::{antialias, Refusal};
/// const EMPTY: u32 = u32::MAX;
/// let identity: [f32; 16] = std::array::from_fn(|i| if i % 5 == 0 { 1. } else { 0. });
/// // In pixels: down the middle column, right of its centres at 1.5.
/// let vtx2xyz = [1.75, 0., 0., 1.75, 3., 0.];
/// let pix2tri = [[0, 0, EMPTY]; 3].concat();
/// let pix2vin = [[1., 1., 0.]; 3].concat();
/// let mut pix2vout = pix2vin.clone();
/// antialias(&[0, 1], &vtx2xyz, &identity, 3, 3, &pix2tri, &pix2vin, &mut pix2vout)?;
/// // The middle pixel alone is off the border; the edge crosses a quarter of the way to the right.
/// assert_eq!(pix2vout, [1., 1., 0., 1., 0.75, 0., 1., 1., 0.]);
///
/// let refused = antialias(&[0, 2], &vtx2xyz, &identity, 3, 3, &pix2tri, &pix2vin, &mut pix2vout);
/// assert_eq!(refused, Err(Refusal::EdgeVertex));
/// # Ok::<(), Refusal>(())
/// ```
#[allow(clippy::too_many_arguments)]
pub fn antialias(
    cedge2vtx: &[u32],
    vtx2xyz: &[f32],
    transform_world2pix: &[f32; 16],
    img_w: usize,
    img_h: usize,
    pix2tri: &[u32],
    pix2vin: &[f32],
    pix2vout: &mut [f32],
) -> Result<(), Refusal> {
    // SAFETY: each pointer comes with its slice's own length, and the call accepts every length; the matrix has
    // its sixteen numbers.
    Refusal::of_code(unsafe {
        ffi::paqelzim_antialias(
            cedge2vtx.as_ptr(),
            cedge2vtx.len(),
            vtx2xyz.as_ptr(),
            vtx2xyz.len(),
            transform_world2pix.as_ptr(),
            img_w,
            img_h,
            pix2tri.as_ptr(),
            pix2tri.len(),
            pix2vin.as_ptr(),
            pix2vin.len(),
            pix2vout.as_mut_ptr(),
            pix2vout.len(),
        )
    })
}

/// Goes back through [`antialias`]: adds what each crossing brings the two ends of its edge. `pix2val` is the `pix2vin` of the
/// forward call, `dldw_pix2val` the gradient of its `pix2vout`.
///
/// Each crossing of the forward call is met again, in the same order; one adds though a later one wrote over its pixel, and once
/// for each time that it is met: twice where the edge covers both pixels of the pair. The share of the edge's vertex 0 is added
/// first. The ends may gain gradient though no face that the map names has them.
///
/// Writes: adds to `dldw_vtx2xyz`, at the ends of edges with a crossing. A vertex of no outline edge keeps its gradient.
///
/// Questions: [1](Refusal::ImageSize), [3](Refusal::MeshSize): as in [`antialias`], [4](Refusal::BufferLength): `pix2val`,
/// `dldw_pix2val` and `pix2tri` have `img_w * img_h` elements, `dldw_vtx2xyz` is as long as `vtx2xyz`,
/// [10](Refusal::EdgeVertex), [8](Refusal::Projection): both ends of each edge.
///
/// ```
/// const EMPTY: u32 = u32::MAX;
/// let identity: [f32; 16] = std::array::from_fn(|i| if i % 5 == 0 { 1. } else { 0. });
/// let vtx2xyz = [1.75, 0., 0., 1.75, 3., 0.];
/// let pix2tri = [[0, 0, EMPTY]; 3].concat();
/// let pix2val = [[1., 1., 0.]; 3].concat();
/// let mut dldw_vtx2xyz = [0.; 6];
/// paqelzim::bwd_antialias(
///     &[0, 1], &vtx2xyz, &mut dldw_vtx2xyz, &identity, 3, 3, &pix2val, &[1.; 9], &pix2tri,
/// )?;
/// // The middle pixel gains as much as the edge goes right; half of that is each end's.
/// assert_eq!(dldw_vtx2xyz, [0.5, 0., 0., 0.5, 0., 0.]);
/// # Ok::<(), paqelzim::Refusal>(())
/// ```
#[allow(clippy::too_many_arguments)]
pub fn bwd_antialias(
    cedge2vtx: &[u32],
    vtx2xyz: &[f32],
    dldw_vtx2xyz: &mut [f32],
    transform_world2pix: &[f32; 16],
    img_w: usize,
    img_h: usize,
    pix2val: &[f32],
    dldw_pix2val: &[f32],
    pix2tri: &[u32],
) -> Result<(), Refusal> {
    // SAFETY: as in `antialias`.
    Refusal::of_code(unsafe {
        ffi::paqelzim_bwd_antialias(
            cedge2vtx.as_ptr(),
            cedge2vtx.len(),
            vtx2xyz.as_ptr(),
            vtx2xyz.len(),
            dldw_vtx2xyz.as_mut_ptr(),
            dldw_vtx2xyz.len(),
            transform_world2pix.as_ptr(),
            img_w,
            img_h,
            pix2val.as_ptr(),
            pix2val.len(),
            dldw_pix2val.as_ptr(),
            dldw_pix2val.len(),
            pix2tri.as_ptr(),
            pix2tri.len(),
        )
    })
}
