//! Edges between neighbouring pixels, and the gradients that flow back through them.
use crate::Refusal;

mod ffi {
    extern "C" {
        pub fn paqelzim_edge_gradient_and_type(
            tri2vtx: *const u32,
            tri2vtx_len: usize,
            vtx2xyz: *const f32,
            vtx2xyz_len: usize,
            transform_world2pix: *const f32,
            img_w: usize,
            img_h: usize,
            pix2tri: *const u32,
            pix2tri_len: usize,
            num_vdim: usize,
            pix2val: *const f32,
            pix2val_len: usize,
            dldw_pix2val: *const f32,
            dldw_pix2val_len: usize,
            hedge2type: *mut u8,
            hedge2type_len: usize,
            hedge2dldr: *mut f32,
            hedge2dldr_len: usize,
            vedge2type: *mut u8,
            vedge2type_len: usize,
            vedge2dldr: *mut f32,
            vedge2dldr_len: usize,
        ) -> u32;

        pub fn paqelzim_bwd(
            tri2vtx: *const u32,
            tri2vtx_len: usize,
            vtx2xyz: *const f32,
            vtx2xyz_len: usize,
            dldw_vtx2xyz: *mut f32,
            dldw_vtx2xyz_len: usize,
            transform_world2pix: *const f32,
            img_w: usize,
            img_h: usize,
            pix2tri: *const u32,
            pix2tri_len: usize,
            num_vdim: usize,
            pix2val: *const f32,
            pix2val_len: usize,
            dldw_pix2val: *const f32,
            dldw_pix2val_len: usize,
        ) -> u32;

        pub fn paqelzim_interpolate_from_edges(
            img_w: usize,
            img_h: usize,
            hedge2vy: *const f32,
            hedge2vy_len: usize,
            vedge2vx: *const f32,
            vedge2vx_len: usize,
            vtx2xy: *const f32,
            vtx2xy_len: usize,
            vtx2velo: *mut f32,
            vtx2velo_len: usize,
        ) -> u32;
    }
}

/// Gives each pair of neighbouring pixels a type and a gradient: the pairs one above the other (`hedge`) and those
/// side by side (`vedge`).
///
/// The type is 0 where the map's entries are equal; else 1 where one centre at least lies inside the other's face, its
/// weights there all at least 0. A face seen edge on has no weights and contains no point; an empty neighbour contains
/// every point. The test is that of [`bwd`], where a pair of type 0 adds nothing, whether or not it accepts. The gradient
/// `dldr` is that of the edge between the two, moved right or down: the sum over the channels of the mean of the two
/// incoming gradients times the difference of the values.
///
/// Writes: every place of the four edge slices.
///
/// Questions: [1](Refusal::ImageSize), [2](Refusal::Channels), [3](Refusal::MeshSize), [4](Refusal::BufferLength):
/// `pix2tri` has `img_w * img_h` elements, `pix2val` and `dldw_pix2val` `num_vdim` for each pixel, the hedge slices
/// `(img_h - 1) * img_w`, the vedge slices `img_h * (img_w - 1)`, [6](Refusal::VertexNumber),
/// [7](Refusal::MapEntry), [8](Refusal::Projection): the corners of both faces of each pair of unequal entries.
///
/// ```
/// let identity: [f32; 16] = std::array::from_fn(|i| if i % 5 == 0 { 1. } else { 0. });
/// let vtx2xyz = [-1., -1., 0.25, 3., -1., 0.25, -1., 3., 0.25];
/// let (mut vedge2type, mut vedge2dldr) = ([9], [9.]);
/// // Two pixels side by side: one of face 0, one empty.
/// paqelzim::edge_gradient_and_type(
///     &[0, 1, 2], &vtx2xyz, &identity, 2, 1, &[0, u32::MAX], 1, &[1., 0.], &[1., 1.],
///     &mut [], &mut [], &mut vedge2type, &mut vedge2dldr,
/// )?;
/// assert_eq!((vedge2type, vedge2dldr), ([1], [1.]));
/// // A floor beside a wall on its edge, seen edge on: neither contains the other's centre.
/// let vtx2xyz = [0., 0., 0., 1., 0., 0., 0., 1., 0., 0., 0., 1.];
/// paqelzim::edge_gradient_and_type(
///     &[0, 1, 2, 0, 1, 3], &vtx2xyz, &identity, 2, 1, &[0, 1], 1, &[1., 0.], &[1., 1.],
///     &mut [], &mut [], &mut vedge2type, &mut vedge2dldr,
/// )?;
/// assert_eq!((vedge2type, vedge2dldr), ([0], [1.]));
/// # Ok::<(), paqelzim::Refusal>(())
/// ```
#[allow(clippy::too_many_arguments)]
pub fn edge_gradient_and_type(
    tri2vtx: &[u32],
    vtx2xyz: &[f32],
    transform_world2pix: &[f32; 16],
    img_w: usize,
    img_h: usize,
    pix2tri: &[u32],
    num_vdim: usize,
    pix2val: &[f32],
    dldw_pix2val: &[f32],
    hedge2type: &mut [u8],
    hedge2dldr: &mut [f32],
    vedge2type: &mut [u8],
    vedge2dldr: &mut [f32],
) -> Result<(), Refusal> {
    // SAFETY: each pointer comes with its slice's own length, and the call accepts every length; the matrix has
    // its sixteen numbers.
    Refusal::of_code(unsafe {
        ffi::paqelzim_edge_gradient_and_type(
            tri2vtx.as_ptr(),
            tri2vtx.len(),
            vtx2xyz.as_ptr(),
            vtx2xyz.len(),
            transform_world2pix.as_ptr(),
            img_w,
            img_h,
            pix2tri.as_ptr(),
            pix2tri.len(),
            num_vdim,
            pix2val.as_ptr(),
            pix2val.len(),
            dldw_pix2val.as_ptr(),
            dldw_pix2val.len(),
            hedge2type.as_mut_ptr(),
            hedge2type.len(),
            hedge2dldr.as_mut_ptr(),
            hedge2dldr.len(),
            vedge2type.as_mut_ptr(),
            vedge2type.len(),
            vedge2dldr.as_mut_ptr(),
            vedge2dldr.len(),
        )
    })
}

/// Goes back through the edges: adds what each edge between pixels of unlike entries brings the vertices.
///
/// The face in front gets the edge's gradient, or both where two faces cross. Pairs go column by column from the left
/// and each from the top, first those one above the other, then those side by side.
///
/// Writes: adds to `dldw_vtx2xyz`, at the corners of faces that the map names.
///
/// Questions: [1](Refusal::ImageSize), [2](Refusal::Channels), [3](Refusal::MeshSize), [4](Refusal::BufferLength):
/// `dldw_vtx2xyz` is as long as `vtx2xyz`, the others as in [`edge_gradient_and_type`], [6](Refusal::VertexNumber),
/// [7](Refusal::MapEntry), [8](Refusal::Projection): as in [`edge_gradient_and_type`], [9](Refusal::Weights): each
/// point that a share is taken from.
///
/// ```
/// let identity: [f32; 16] = std::array::from_fn(|i| if i % 5 == 0 { 1. } else { 0. });
/// let vtx2xyz = [0., 0., 0.25, 1., 0., 0.25, 0., 1., 0.25]; // in pixels: it holds the first centre alone
/// let mut dldw_vtx2xyz = [0.; 9];
/// paqelzim::bwd(
///     &[0, 1, 2], &vtx2xyz, &mut dldw_vtx2xyz, &identity, 2, 1, &[0, u32::MAX], 1, &[1., 0.], &[1., 1.],
/// )?;
/// // The edge's gradient 1 to the right, shared by the weights of the centre (0.5, 0.5).
/// assert_eq!(dldw_vtx2xyz, [0., 0., 0., 0.5, 0., 0., 0.5, 0., 0.]);
/// # Ok::<(), paqelzim::Refusal>(())
/// ```
#[allow(clippy::too_many_arguments)]
pub fn bwd(
    tri2vtx: &[u32],
    vtx2xyz: &[f32],
    dldw_vtx2xyz: &mut [f32],
    transform_world2pix: &[f32; 16],
    img_w: usize,
    img_h: usize,
    pix2tri: &[u32],
    num_vdim: usize,
    pix2val: &[f32],
    dldw_pix2val: &[f32],
) -> Result<(), Refusal> {
    // SAFETY: as in `edge_gradient_and_type`.
    Refusal::of_code(unsafe {
        ffi::paqelzim_bwd(
            tri2vtx.as_ptr(),
            tri2vtx.len(),
            vtx2xyz.as_ptr(),
            vtx2xyz.len(),
            dldw_vtx2xyz.as_mut_ptr(),
            dldw_vtx2xyz.len(),
            transform_world2pix.as_ptr(),
            img_w,
            img_h,
            pix2tri.as_ptr(),
            pix2tri.len(),
            num_vdim,
            pix2val.as_ptr(),
            pix2val.len(),
            dldw_pix2val.as_ptr(),
            dldw_pix2val.len(),
        )
    })
}

/// Gives each point, in pixels, the velocity that lies between the edges of its cell: x from the vedges, y from the
/// hedges.
///
/// Writes: every place of `vtx2velo`.
///
/// Questions: [1](Refusal::ImageSize): width and height from 2, [3](Refusal::MeshSize): `vtx2xy` is a multiple of 2,
/// for at most 1,048,576 points, [4](Refusal::BufferLength): `hedge2vy` has `(img_h - 1) * img_w` elements,
/// `vedge2vx` `img_h * (img_w - 1)`, `vtx2velo` as many as `vtx2xy`.
///
/// ```
/// // 2 x 2 pixels: two hedges between the rows, two vedges between the columns.
/// let mut vtx2velo = [0.; 4];
/// paqelzim::interpolate_from_edges(
///     2, 2, &[1., 3.], &[10., 30.], &[0.5, 0.5, 1., 1.], &mut vtx2velo,
/// )?;
/// assert_eq!(vtx2velo, [10., 1., 20., 2.]);
/// # Ok::<(), paqelzim::Refusal>(())
/// ```
pub fn interpolate_from_edges(
    img_w: usize,
    img_h: usize,
    hedge2vy: &[f32],
    vedge2vx: &[f32],
    vtx2xy: &[f32],
    vtx2velo: &mut [f32],
) -> Result<(), Refusal> {
    // SAFETY: as in `edge_gradient_and_type`.
    Refusal::of_code(unsafe {
        ffi::paqelzim_interpolate_from_edges(
            img_w,
            img_h,
            hedge2vy.as_ptr(),
            hedge2vy.len(),
            vedge2vx.as_ptr(),
            vedge2vx.len(),
            vtx2xy.as_ptr(),
            vtx2xy.len(),
            vtx2velo.as_mut_ptr(),
            vtx2velo.len(),
        )
    })
}
