//! Values at the pixels of a map, and the gradients that flow back.
use crate::Refusal;

mod ffi {
    extern "C" {
        pub fn paqelzim_interpolate(
            img_w: usize,
            img_h: usize,
            pix2tri: *const u32,
            pix2tri_len: usize,
            tri2vtx: *const u32,
            tri2vtx_len: usize,
            vtx2xyz: *const f32,
            vtx2xyz_len: usize,
            num_vdim: usize,
            vtx2val: *const f32,
            vtx2val_len: usize,
            transform_ndc2world: *const f32,
            pix2val: *mut f32,
            pix2val_len: usize,
        ) -> u32;

        pub fn paqelzim_interpolate_bwd(
            img_w: usize,
            img_h: usize,
            pix2tri: *const u32,
            pix2tri_len: usize,
            tri2vtx: *const u32,
            tri2vtx_len: usize,
            vtx2xyz: *const f32,
            vtx2xyz_len: usize,
            num_vdim: usize,
            vtx2val: *const f32,
            vtx2val_len: usize,
            transform_ndc2world: *const f32,
            dldw_pix2val: *const f32,
            dldw_pix2val_len: usize,
            dldw_vtx2xyz: *mut f32,
            dldw_vtx2xyz_len: usize,
            dldw_vtx2val: *mut f32,
            dldw_vtx2val_len: usize,
        ) -> u32;
    }
}

/// Gives each pixel the values of its face's vertices, weighted where the ray through the pixel's centre meets the
/// plane of the face.
///
/// Writes: `pix2val`, at the pixels that are not empty.
///
/// Questions: [1](Refusal::ImageSize), [2](Refusal::Channels), [3](Refusal::MeshSize), [4](Refusal::BufferLength):
/// `pix2tri` has `img_w * img_h` elements, `vtx2val` `num_vdim` for each vertex, `pix2val` `num_vdim` for each pixel,
/// [6](Refusal::VertexNumber), [7](Refusal::MapEntry), [8](Refusal::Projection): both points of the ray of each pixel
/// that is not empty.
///
/// ```
/// let identity: [f32; 16] = std::array::from_fn(|i| if i % 5 == 0 { 1. } else { 0. });
/// let vtx2xyz = [-1., -1., 0.25, 3., -1., 0.25, -1., 3., 0.25];
/// let mut pix2val = [-1.; 4];
/// let map = [0, u32::MAX, 0, 0]; // the second pixel is empty
/// paqelzim::interpolate(
///     2, 2, &map, &[0, 1, 2], &vtx2xyz, 1, &[0., 8., 16.], &identity, &mut pix2val,
/// )?;
/// assert_eq!(pix2val, [7., -1., 3., 5.]);
/// # Ok::<(), paqelzim::Refusal>(())
/// ```
#[allow(clippy::too_many_arguments)]
pub fn interpolate(
    img_w: usize,
    img_h: usize,
    pix2tri: &[u32],
    tri2vtx: &[u32],
    vtx2xyz: &[f32],
    num_vdim: usize,
    vtx2val: &[f32],
    transform_ndc2world: &[f32; 16],
    pix2val: &mut [f32],
) -> Result<(), Refusal> {
    // SAFETY: each pointer comes with its slice's own length, and the call accepts every length; the matrix has
    // its sixteen numbers.
    Refusal::of_code(unsafe {
        ffi::paqelzim_interpolate(
            img_w,
            img_h,
            pix2tri.as_ptr(),
            pix2tri.len(),
            tri2vtx.as_ptr(),
            tri2vtx.len(),
            vtx2xyz.as_ptr(),
            vtx2xyz.len(),
            num_vdim,
            vtx2val.as_ptr(),
            vtx2val.len(),
            transform_ndc2world.as_ptr(),
            pix2val.as_mut_ptr(),
            pix2val.len(),
        )
    })
}

/// Goes back through [`interpolate`]: adds what the gradient `dldw_pix2val` of the pixels' values brings the vertices
/// and their values, pixels in rising number.
///
/// Writes: adds to `dldw_vtx2xyz` and `dldw_vtx2val`, at the corners of the faces that the map names.
///
/// Questions: [1](Refusal::ImageSize), [2](Refusal::Channels), [3](Refusal::MeshSize), [4](Refusal::BufferLength):
/// lengths as in [`interpolate`], `dldw_pix2val` as `pix2val` there, `dldw_vtx2xyz` as `vtx2xyz`, `dldw_vtx2val` as
/// `vtx2val`, [6](Refusal::VertexNumber), [7](Refusal::MapEntry), [8](Refusal::Projection): as in [`interpolate`].
///
/// ```
/// let identity: [f32; 16] = std::array::from_fn(|i| if i % 5 == 0 { 1. } else { 0. });
/// let vtx2xyz = [-1., -1., 0.25, 3., -1., 0.25, -1., 3., 0.25];
/// let (mut dldw_vtx2xyz, mut dldw_vtx2val) = ([0.; 9], [0.; 3]);
/// // The gradient of the last pixel's value alone: its weights are the gradient of the vertices' values.
/// paqelzim::interpolate_bwd(
///     2, 2, &[0; 4], &[0, 1, 2], &vtx2xyz, 1, &[0., 8., 16.], &identity, &[0., 0., 0., 1.],
///     &mut dldw_vtx2xyz, &mut dldw_vtx2val,
/// )?;
/// assert_eq!(dldw_vtx2val, [0.5, 0.375, 0.125]);
/// assert_eq!(dldw_vtx2xyz[0], -1.0); // as the first vertex goes right by 1, the value there falls by 1
/// # Ok::<(), paqelzim::Refusal>(())
/// ```
#[allow(clippy::too_many_arguments)]
pub fn interpolate_bwd(
    img_w: usize,
    img_h: usize,
    pix2tri: &[u32],
    tri2vtx: &[u32],
    vtx2xyz: &[f32],
    num_vdim: usize,
    vtx2val: &[f32],
    transform_ndc2world: &[f32; 16],
    dldw_pix2val: &[f32],
    dldw_vtx2xyz: &mut [f32],
    dldw_vtx2val: &mut [f32],
) -> Result<(), Refusal> {
    // SAFETY: as in `interpolate`.
    Refusal::of_code(unsafe {
        ffi::paqelzim_interpolate_bwd(
            img_w,
            img_h,
            pix2tri.as_ptr(),
            pix2tri.len(),
            tri2vtx.as_ptr(),
            tri2vtx.len(),
            vtx2xyz.as_ptr(),
            vtx2xyz.len(),
            num_vdim,
            vtx2val.as_ptr(),
            vtx2val.len(),
            transform_ndc2world.as_ptr(),
            dldw_pix2val.as_ptr(),
            dldw_pix2val.len(),
            dldw_vtx2xyz.as_mut_ptr(),
            dldw_vtx2xyz.len(),
            dldw_vtx2val.as_mut_ptr(),
            dldw_vtx2val.len(),
        )
    })
}
