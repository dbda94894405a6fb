//! Drawing a mesh on a layer, and how much work that is.
use crate::Refusal;

mod ffi {
    extern "C" {
        pub fn paqelzim_pix2tri_by_rasterization(
            pix2tri: *mut u32,
            pix2tri_len: usize,
            pix2depth: *mut f32,
            pix2depth_len: usize,
            pix2weights: *mut f32,
            pix2weights_len: usize,
            tri2vtx: *const u32,
            tri2vtx_len: usize,
            vtx2xyz: *const f32,
            vtx2xyz_len: usize,
            img_w: usize,
            img_h: usize,
            transform_world2ndc: *const f32,
            first: u32,
            facing: u32,
        ) -> u32;

        pub fn paqelzim_drawing_load(
            tri2vtx: *const u32,
            tri2vtx_len: usize,
            vtx2xyz: *const f32,
            vtx2xyz_len: usize,
            img_w: usize,
            img_h: usize,
            transform_world2ndc: *const f32,
        ) -> DrawingLoad;
    }

    #[repr(C)]
    pub struct DrawingLoad {
        pub code: u32,
        pub pieces: u64,
        pub pixels: u64,
    }
}

/// Which pieces a drawing takes. C passes a number: 0 for all faces, any other for front pieces only.
///
/// A face is front where its corners run clockwise on the picture:
///
/// ```text
///      p0                    p0
///     /  \                  /  \
///    /    \                /    \
///  p2 <--- p1             p1 ---> p2
///
///    front                  back
/// ```
///
/// It is asked of each piece at each pixel: the doubled signed area of the piece's corners, as the corner weights at the pixel's
/// centre sum it in pixels, rows running down, is above 0. Where a face is cut and its vertex 1 is taken as the one alone on
/// its side of the near plane, the pieces list their corners turned round, and it is below 0: a cut face faces as it does whole.
///
/// Which faces of a body are front under the usual matrices, where x goes to the right, y up, and z towards the camera:
///
/// | matrix | body wound counter-clockwise, as seen from outside | body wound clockwise |
/// |---|---|---|
/// | the identity, or an orthographic one of positive scales | faces turned away from the camera | faces turned to it |
/// | OpenGL's perspective, whose divisor is −z | faces turned away | faces turned to it |
/// | as in `examples/fit/camera.rs`: the divisor is z, below 0, and the rows of x and y are negated | faces turned away | faces turned to it |
///
/// So a body of the usual winding, which is counter-clockwise, needs two corners of each face exchanged before
/// [`Facing::Front`] shows its outer skin. A matrix that mirrors the picture, with x or y negated but not both, turns front and
/// back round. Which of two front pieces is drawn is still told by the greater depth, and under OpenGL's matrix that is the
/// farther one.
#[derive(Clone, Copy, Debug, Default, PartialEq, Eq, Hash)]
#[repr(u32)]
pub enum Facing {
    /// Every piece, whichever way its corners run.
    #[default]
    All = 0,
    /// Only pieces that are front at the pixel. Another offers it no depth and covers nothing.
    Front = 1,
}

/// Draws the faces of a mesh on a layer, in list order, numbered from `first` on.
///
/// A face brings a pixel a depth where the pixel's centre lies in it, as it is projected by `transform_world2ndc` and
/// clipped at the near plane, and where `facing` takes it: [`Facing`] tells which pieces are front. The depth is written, with
/// the face's number and the weights of its corners there, where it is greater than the stored one: an equal depth or a NaN
/// never is, and a stored NaN stays.
///
/// The weights tell where in the piece the pixel's centre lies: they sum to about 1, and corner k has all of it where weight k
/// is 1. They are those of the picture's plane, in which the depth is linear. A face that is not cut is one piece, with the
/// face's own corners. Of one that the near plane cuts, they are *not* of the face's corners. With l the corner that is alone on
/// its side, p and q the others in rising order, and lp and lq where the edges from l cross the plane:
///
/// | beyond the plane | pieces, each with its corners in order |
/// |---|---|
/// | l alone | (l, lp, lq) |
/// | p and q | (p, q, lp), and then (q, lq, lp) |
///
/// Writes: the three slices, at the pixels to which a face brings a greater depth.
///
/// Questions: [1](Refusal::ImageSize), [3](Refusal::MeshSize), [4](Refusal::BufferLength): `pix2tri` and `pix2depth`
/// have `img_w * img_h` elements, `pix2weights` three times as many, [5](Refusal::FaceNumbers), [6](Refusal::VertexNumber).
/// None depends on the facing. [`Layer::draw`](crate::Layer::draw) is the same on a layer that keeps its slices together.
///
/// ```
/// use paqelzim::Facing;
/// let identity: [f32; 16] = std::array::from_fn(|i| if i % 5 == 0 { 1. } else { 0. });
/// let vtx2xyz = [-1., -1., 0.25, 3., -1., 0.25, -1., 3., 0.25];
/// let (mut pix2tri, mut pix2depth) = ([u32::MAX; 4], [f32::NEG_INFINITY; 4]);
/// let mut pix2weights = [0.; 12];
/// // The same face twice: the second is not greater.
/// paqelzim::pix2tri_by_rasterization(
///     &mut pix2tri, &mut pix2depth, &mut pix2weights,
///     &[0, 1, 2, 1, 2, 0], &vtx2xyz, 2, 2, &identity, 10, Facing::All,
/// )?;
/// assert_eq!((pix2tri, pix2depth), ([10; 4], [0.25; 4]));
/// // Where in the face the first and the last pixel lie: both halfway to corner 0.
/// assert_eq!(pix2weights[..3], [0.5, 0.125, 0.375]);
/// assert_eq!(pix2weights[9..], [0.5, 0.375, 0.125]);
///
/// // There is no vertex 3.
/// let refused = paqelzim::pix2tri_by_rasterization(
///     &mut pix2tri, &mut pix2depth, &mut pix2weights,
///     &[0, 1, 3], &vtx2xyz, 2, 2, &identity, 10, Facing::All,
/// );
/// assert_eq!(refused, Err(paqelzim::Refusal::VertexNumber));
/// # Ok::<(), paqelzim::Refusal>(())
/// ```
///
/// A face that the near plane cuts, on a picture of 2 x 1 pixels:
///
/// ```
/// // A camera that looks along −z, from its near plane at z = −1 on.
/// let camera = [1., 0., 0., 0., 0., 1., 0., 0., 0., 0., -3., -1., 0., 0., -4., 0.];
/// // Vertex 0 alone is beyond the plane, and the edges from there cross it halfway.
/// let vtx2xyz = [-1.5, -1.5, -1.5, 7.5, -0.5, -0.5, -0.5, 7.5, -0.5];
/// let mut layer = paqelzim::Layer::new(2, 1)?;
/// layer.draw(&[1, 2, 0], &vtx2xyz, &camera, 0, paqelzim::Facing::All)?;
/// // Of vertex 0 and the two crossings; of vertices 1, 2 and 0 they would be 1/32, 2/32 and 29/32.
/// assert_eq!(layer.weights()[0], [0.625, 0.125, 0.25]);
/// # Ok::<(), paqelzim::Refusal>(())
/// ```
///
/// A face of each winding:
///
/// ```
/// use paqelzim::Facing;
/// let identity: [f32; 16] = std::array::from_fn(|i| if i % 5 == 0 { 1. } else { 0. });
/// let vtx2xyz = [-1., -1., 0.25, 3., -1., 0.25, -1., 3., 0.25];
/// let (counter_clockwise, clockwise) = ([0, 1, 2], [0, 2, 1]);
/// // The number of the face that holds the first pixel, once both are drawn.
/// let held = |tri2vtx: &[u32], facing| {
///     let mut layer = paqelzim::Layer::new(2, 2)?;
///     layer.draw(tri2vtx, &vtx2xyz, &identity, 0, facing)?;
///     Ok::<u32, paqelzim::Refusal>(layer.map()[0])
/// };
/// let both = [counter_clockwise, clockwise].concat();
/// assert_eq!(held(&both, Facing::All)?, 0);
/// assert_eq!(held(&both, Facing::Front)?, 1);
/// assert_eq!(held(&counter_clockwise, Facing::Front)?, u32::MAX);
/// # Ok::<(), paqelzim::Refusal>(())
/// ```
#[allow(clippy::too_many_arguments)]
pub fn pix2tri_by_rasterization(
    pix2tri: &mut [u32],
    pix2depth: &mut [f32],
    pix2weights: &mut [f32],
    tri2vtx: &[u32],
    vtx2xyz: &[f32],
    img_w: usize,
    img_h: usize,
    transform_world2ndc: &[f32; 16],
    first: u32,
    facing: Facing,
) -> Result<(), Refusal> {
    // SAFETY: each pointer comes with its slice's own length, and the call accepts every length; the matrix has
    // its sixteen numbers.
    Refusal::of_code(unsafe {
        ffi::paqelzim_pix2tri_by_rasterization(
            pix2tri.as_mut_ptr(),
            pix2tri.len(),
            pix2depth.as_mut_ptr(),
            pix2depth.len(),
            pix2weights.as_mut_ptr(),
            pix2weights.len(),
            tri2vtx.as_ptr(),
            tri2vtx.len(),
            vtx2xyz.as_ptr(),
            vtx2xyz.len(),
            img_w,
            img_h,
            transform_world2ndc.as_ptr(),
            first,
            facing as u32,
        )
    })
}

/// How much work it is to draw a mesh.
#[derive(Clone, Copy, Debug, Default, PartialEq, Eq, Hash)]
pub struct DrawingLoad {
    /// The pieces of all faces after clipping: none, one or two for each.
    pub pieces: u64,
    /// The pixels that the scans of these pieces offer, a pixel as often as it is offered.
    pub pixels: u64,
}

/// Tells how much work it is to draw the faces of a mesh, without drawing them and without a layer: the pieces and the
/// scanned pixels of [`pix2tri_by_rasterization`] for the same mesh, size and matrix, with either [`Facing`]: a piece that is not
/// front is clipped and scanned all the same.
///
/// A piece is scanned at the pixels whose centre lies in the closed box of its corners, whether or not it covers them. One
/// with a corner that is not finite in pixels counts as a piece and is offered no pixel. The cost is that of projecting and
/// clipping the faces, however many pixels the pieces are offered.
///
/// Writes: nothing.
///
/// Questions: [1](Refusal::ImageSize), [3](Refusal::MeshSize), [6](Refusal::VertexNumber).
///
/// ```
/// let identity: [f32; 16] = std::array::from_fn(|i| if i % 5 == 0 { 1. } else { 0. });
/// // Over all four pixels of 2 x 2; over the left two; and one with a corner nowhere.
/// let tri2vtx = [0, 1, 2, 0, 3, 2, 0, 1, 4];
/// let vtx2xyz = [
///     -1., -1., 0., 3., -1., 0., -1., 3., 0., 0., -1., 0., f32::NAN, 0., 0.,
/// ];
/// let load = paqelzim::drawing_load(&tri2vtx, &vtx2xyz, 2, 2, &identity)?;
/// assert_eq!((load.pieces, load.pixels), (3, 4 + 2 + 0));
///
/// // There is no vertex 5.
/// let refused = paqelzim::drawing_load(&[0, 1, 5], &vtx2xyz, 2, 2, &identity);
/// assert_eq!(refused, Err(paqelzim::Refusal::VertexNumber));
/// # Ok::<(), paqelzim::Refusal>(())
/// ```
pub fn drawing_load(
    tri2vtx: &[u32],
    vtx2xyz: &[f32],
    img_w: usize,
    img_h: usize,
    transform_world2ndc: &[f32; 16],
) -> Result<DrawingLoad, Refusal> {
    // SAFETY: as above.
    let answer = unsafe {
        ffi::paqelzim_drawing_load(
            tri2vtx.as_ptr(),
            tri2vtx.len(),
            vtx2xyz.as_ptr(),
            vtx2xyz.len(),
            img_w,
            img_h,
            transform_world2ndc.as_ptr(),
        )
    };
    let ffi::DrawingLoad {
        code,
        pieces,
        pixels,
    } = answer;
    Refusal::of_code(code).map(|()| DrawingLoad { pieces, pixels })
}
