//! Mesh drawing, value interpolation and edge gradients: the calls of the library, safe over slices.
//!
//! The archive behind them is proved: each call gives what the definitions in `crates/*/specs` say, for
//! every argument. This package only passes pointers and lengths on, and turns a code into a [`Refusal`].
//!
//! - An image has `img_w * img_h` pixels, row by row from the top. A *layer* is three slices: the map `pix2tri`, the number of
//!   a face or 4294967295 (*empty*) for each pixel, the depths `pix2depth`, and the weights `pix2weights`, three numbers a
//!   pixel. Calls that take a layer take the slices side by side; a [`Layer`] owns all three.
//! - A mesh is two flat slices: `tri2vtx`, three vertex numbers a face, and `vtx2xyz`, three numbers a vertex.
//! - An outline is a slice `cedge2vtx`, two vertex numbers an edge.
//! - A *body* is a number that a table `tri2body` gives each face, and a label picture `pix2body` each pixel.
//! - Values are `num_vdim` numbers a vertex (`vtx2val`) or a pixel (`pix2val`). A name that begins with `dldw_` is the
//!   gradient of what follows.
//! - A matrix has sixteen numbers, column by column. In normal device coordinates x goes to the right, y up, and
//!   the greater depth is in front.
//!
//! A call that can refuse asks its questions in its page's order before it writes anything. The first that is answered
//! no is the [`Refusal`], and then every slice is as it was. Each call's page names its questions and the places
//! that an accepted call writes; every other place keeps its bits. Nothing is stored there, but by [`join`], which stores
//! what it held again. That a NaN keeps its payload is tested and not proved: to the proofs there is one NaN.
//!
//! ```
//! // One face over the whole of a picture of 2 x 2 pixels, drawn and given values.
//! use paqelzim::{Facing, Layer};
//! let identity: [f32; 16] = std::array::from_fn(|i| if i % 5 == 0 { 1. } else { 0. });
//! let tri2vtx = [0, 1, 2];
//! let vtx2xyz = [-1., -1., 0.25, 3., -1., 0.25, -1., 3., 0.25];
//! let mut layer = Layer::new(2, 2)?;
//! layer.draw(&tri2vtx, &vtx2xyz, &identity, 0, Facing::All)?;
//! assert_eq!(layer.map(), [0; 4]);
//! assert_eq!(layer.depths(), [0.25; 4]);
//! assert_eq!(layer.weights()[0], [0.5, 0.125, 0.375]);
//! let mut pix2val = [0.; 4];
//! paqelzim::interpolate(
//!     2, 2, layer.map(), &tri2vtx, &vtx2xyz, 1, &[0., 8., 16.], &identity, &mut pix2val,
//! )?;
//! assert_eq!(pix2val, [7., 9., 3., 5.]);
//! # Ok::<(), paqelzim::Refusal>(())
//! ```

mod drawing;
mod edges;
mod float_tools;
mod labels;
mod layer;
mod layers;
mod outlines;
mod refusal;
mod removal;
mod values;

pub use drawing::{drawing_load, pix2tri_by_rasterization, DrawingLoad, Facing};
pub use edges::{bwd, edge_gradient_and_type, interpolate_from_edges};
pub use float_tools::{hypot_f32, narrow_f64_to_f32, sqrt_f32, sqrt_f64};
pub use labels::label_picture;
pub use layer::Layer;
pub use layers::{clear, join};
pub use outlines::{antialias, bwd_antialias};
pub use refusal::Refusal;
pub use removal::{preview_removal, RemovalPreview};
pub use values::{interpolate, interpolate_bwd};
