//! A layer that owns its slices.
use crate::{
    clear, join, label_picture, pix2tri_by_rasterization, preview_removal, Facing, Refusal,
    RemovalPreview,
};

/// A map of face numbers, a depth and three weights for each pixel of an image, row by row from the top.
///
/// The calls [`clear`], [`pix2tri_by_rasterization`], [`join`] and [`preview_removal`] take these as three slices side by side,
/// which are easy to mix up; a `Layer` owns them, with the image's size, and makes the same calls. Entry p of
/// [`map`](Layer::map), [`depths`](Layer::depths) and [`weights`](Layer::weights) is of the same pixel.
///
/// ```
/// use paqelzim::{Facing, Layer};
/// let identity: [f32; 16] = std::array::from_fn(|i| if i % 5 == 0 { 1. } else { 0. });
/// let vtx2xyz = [
///     -1., -1., 0.25, 3., -1., 0.25, -1., 3., 0.25, // a face over all of the picture
///     -1., -1., 0.5, 1., -1., 0.5, -1., 1., 0.5, // and one over its lower left half, in front
/// ];
/// let tri2vtx = [0, 1, 2, 3, 4, 5];
/// let mut whole = Layer::new(2, 2)?;
/// whole.draw(&tri2vtx, &vtx2xyz, &identity, 0, Facing::All)?;
/// assert_eq!(whole.map(), [1, 0, 1, 1]);
/// assert_eq!(whole.depths(), [0.5, 0.25, 0.5, 0.5]);
/// assert_eq!(whole.weights()[1], [0.25, 0.375, 0.375]); // where in face 0 the second pixel lies
/// assert_eq!(whole.weights()[2], [0.5, 0.25, 0.25]);
///
/// // The same in two runs, each on a layer of its own, joined.
/// let (mut left, mut right) = (Layer::new(2, 2)?, Layer::new(2, 2)?);
/// left.draw(&tri2vtx[..3], &vtx2xyz, &identity, 0, Facing::All)?;
/// right.draw(&tri2vtx[3..], &vtx2xyz, &identity, 1, Facing::All)?;
/// left.join(&right)?;
/// assert_eq!(left, whole);
/// # Ok::<(), paqelzim::Refusal>(())
/// ```
///
/// `==` compares the sizes and every number, 0 and −0 being equal. A `Layer` never holds a NaN, which would not be equal to
/// itself: it begins clear, a NaN is never a greater depth, and where a weight is a NaN so is the depth.
#[derive(Clone, Debug, PartialEq)]
pub struct Layer {
    img_w: usize,
    img_h: usize,
    pix2tri: Vec<u32>,
    pix2depth: Vec<f32>,
    pix2weights: Vec<[f32; 3]>,
}

impl Layer {
    /// A clear layer of that size.
    ///
    /// Question: [1](Refusal::ImageSize). Where it is answered no, nothing is allocated.
    ///
    /// ```
    /// use paqelzim::{Layer, Refusal};
    /// let layer = Layer::new(3, 2)?;
    /// assert_eq!(layer.map(), [u32::MAX; 6]);
    /// assert_eq!(layer.depths(), [f32::NEG_INFINITY; 6]);
    /// assert_eq!(layer.weights(), [[0.; 3]; 6]);
    /// assert_eq!(Layer::new(usize::MAX, 2), Err(Refusal::ImageSize));
    /// # Ok::<(), paqelzim::Refusal>(())
    /// ```
    pub fn new(img_w: usize, img_h: usize) -> Result<Layer, Refusal> {
        // With empty slices the call refuses every size: the lengths are asked after the size.
        if clear(&mut [], &mut [], &mut [], img_w, img_h) == Err(Refusal::ImageSize) {
            return Err(Refusal::ImageSize);
        }
        let pixels = img_w * img_h;
        let mut layer = Layer {
            img_w,
            img_h,
            pix2tri: vec![0; pixels],
            pix2depth: vec![0.; pixels],
            pix2weights: vec![[0.; 3]; pixels],
        };
        layer.clear();
        Ok(layer)
    }

    /// Clears it, by [`clear`]: depth −infinity, the number 4294967295, called empty, and three zeros at every pixel.
    pub fn clear(&mut self) {
        clear(
            &mut self.pix2tri,
            &mut self.pix2depth,
            self.pix2weights.as_flattened_mut(),
            self.img_w,
            self.img_h,
        )
        .expect("the size was accepted, and the slices are of that size");
    }

    /// Draws the faces of a mesh, numbered from `first` on, by [`pix2tri_by_rasterization`].
    ///
    /// Questions: [3](Refusal::MeshSize), [5](Refusal::FaceNumbers), [6](Refusal::VertexNumber). A refused call leaves the
    /// layer as it was.
    ///
    /// ```
    /// use paqelzim::{Facing, Layer, Refusal};
    /// let identity: [f32; 16] = std::array::from_fn(|i| if i % 5 == 0 { 1. } else { 0. });
    /// let vtx2xyz = [-1., -1., 0.25, 3., -1., 0.25, -1., 3., 0.25];
    /// let mut layer = Layer::new(2, 2)?;
    /// layer.draw(&[0, 1, 2], &vtx2xyz, &identity, 10, Facing::All)?;
    /// assert_eq!(layer.map(), [10; 4]);
    /// let before = layer.clone();
    /// let refused = layer.draw(&[0, 1, 3], &vtx2xyz, &identity, 10, Facing::All);
    /// assert_eq!(refused, Err(Refusal::VertexNumber));
    /// assert_eq!(layer, before);
    /// # Ok::<(), paqelzim::Refusal>(())
    /// ```
    pub fn draw(
        &mut self,
        tri2vtx: &[u32],
        vtx2xyz: &[f32],
        transform_world2ndc: &[f32; 16],
        first: u32,
        facing: Facing,
    ) -> Result<(), Refusal> {
        pix2tri_by_rasterization(
            &mut self.pix2tri,
            &mut self.pix2depth,
            self.pix2weights.as_flattened_mut(),
            tri2vtx,
            vtx2xyz,
            self.img_w,
            self.img_h,
            transform_world2ndc,
            first,
            facing,
        )
    }

    /// Takes depth, number and weights from the right layer where its depth is greater, by [`join`].
    ///
    /// Question: [4](Refusal::BufferLength), which is answered no where the two are not of one width and one height, though
    /// they had as many pixels. A refused call leaves the layer as it was.
    ///
    /// ```
    /// use paqelzim::{Layer, Refusal};
    /// let (mut wide, high) = (Layer::new(3, 2)?, Layer::new(2, 3)?);
    /// assert_eq!(wide.join(&high), Err(Refusal::BufferLength));
    /// # Ok::<(), paqelzim::Refusal>(())
    /// ```
    pub fn join(&mut self, right: &Layer) -> Result<(), Refusal> {
        if !self.has_the_size_of(right) {
            return Err(Refusal::BufferLength);
        }
        join(
            &mut self.pix2tri,
            &mut self.pix2depth,
            self.pix2weights.as_flattened_mut(),
            &right.pix2tri,
            &right.pix2depth,
            right.pix2weights.as_flattened(),
            self.img_w,
            self.img_h,
        )
    }

    /// Tells what taking the marked faces out of a mesh does to its picture, by [`preview_removal`]. What the two scratch layers
    /// held is gone: `full` holds afterwards the drawing of all faces, and `short` that of the faces that stay.
    ///
    /// Questions: [3](Refusal::MeshSize), [4](Refusal::BufferLength): there is a mark for each face, and the two layers are of one
    /// width and one height, [6](Refusal::VertexNumber). A refused call leaves both as they were.
    ///
    /// ```
    /// use paqelzim::{Layer, Refusal};
    /// let identity: [f32; 16] = std::array::from_fn(|i| if i % 5 == 0 { 1. } else { 0. });
    /// let vtx2xyz = [
    ///     -1., -1., 0.25, 3., -1., 0.25, -1., 3., 0.25, // a face over all of the picture
    ///     -1., -1., 0.5, 1., -1., 0.5, -1., 1., 0.5, // and one over its lower left half, in front
    /// ];
    /// let (mut full, mut short) = (Layer::new(2, 2)?, Layer::new(2, 2)?);
    /// let mut preview = |removed: &[u8]| {
    ///     let counts = Layer::preview_removal(
    ///         &mut full, &mut short, &[0, 1, 2, 3, 4, 5], &vtx2xyz, &identity, removed,
    ///     )?;
    ///     Ok::<_, Refusal>([counts.emptied, counts.renamed, counts.kept])
    /// };
    /// assert_eq!(preview(&[1, 0])?, [1, 0, 3]);
    /// assert_eq!(preview(&[0, 1])?, [0, 3, 1]);
    /// assert_eq!(full.map(), [1, 0, 1, 1]);
    /// assert_eq!(short.map(), [0; 4]);
    /// # Ok::<(), Refusal>(())
    /// ```
    pub fn preview_removal(
        full: &mut Layer,
        short: &mut Layer,
        tri2vtx: &[u32],
        vtx2xyz: &[f32],
        transform_world2ndc: &[f32; 16],
        removed: &[u8],
    ) -> Result<RemovalPreview, Refusal> {
        // Empty slices have the lengths of no image, and the call asks for them in its order.
        let (pix2tri, pix2depth, pix2weights) = if full.has_the_size_of(short) {
            (
                &mut short.pix2tri[..],
                &mut short.pix2depth[..],
                short.pix2weights.as_flattened_mut(),
            )
        } else {
            Default::default()
        };
        preview_removal(
            tri2vtx,
            vtx2xyz,
            full.img_w,
            full.img_h,
            transform_world2ndc,
            removed,
            &mut full.pix2tri,
            &mut full.pix2depth,
            full.pix2weights.as_flattened_mut(),
            pix2tri,
            pix2depth,
            pix2weights,
        )
    }

    /// The body of each pixel, by [`label_picture`]: `tri2body` has one for each face, and an empty pixel is 4294967295.
    ///
    /// Questions: [3](Refusal::MeshSize), [7](Refusal::MapEntry). Only the map is read: layers that show the same bodies give
    /// the same picture.
    ///
    /// ```
    /// use paqelzim::{Facing, Layer, Refusal};
    /// let identity: [f32; 16] = std::array::from_fn(|i| if i % 5 == 0 { 1. } else { 0. });
    /// let vtx2xyz = [-1., -1., 0.5, 1., -1., 0.5, -1., 1., 0.5];
    /// // A face over the lower left half of the picture, by two numbers: 0 here, 4 there.
    /// let (mut here, mut there) = (Layer::new(2, 2)?, Layer::new(2, 2)?);
    /// here.draw(&[0, 1, 2], &vtx2xyz, &identity, 0, Facing::All)?;
    /// there.draw(&[1, 2, 0], &vtx2xyz, &identity, 4, Facing::All)?;
    /// assert_ne!(here, there);
    /// assert_eq!(here.label_picture(&[7])?, [7, u32::MAX, 7, 7]);
    /// assert_eq!(there.label_picture(&[1, 2, 3, 5, 7])?, here.label_picture(&[7])?);
    /// assert_eq!(there.label_picture(&[7]), Err(Refusal::MapEntry));
    /// # Ok::<(), Refusal>(())
    /// ```
    pub fn label_picture(&self, tri2body: &[u32]) -> Result<Vec<u32>, Refusal> {
        let mut pix2body = vec![0; self.pix2tri.len()];
        label_picture(
            &self.pix2tri,
            tri2body,
            self.img_w,
            self.img_h,
            &mut pix2body,
        )?;
        Ok(pix2body)
    }

    /// The number of the face that each pixel shows, or 4294967295, called empty.
    pub fn map(&self) -> &[u32] {
        &self.pix2tri
    }

    /// The depth of each pixel, −infinity where it is empty.
    pub fn depths(&self) -> &[f32] {
        &self.pix2depth
    }

    /// The three weights of each pixel, over the corners of the piece that it shows: of the face's own, where the near plane
    /// does not cut it. [`pix2tri_by_rasterization`] tells which piece has which corners. Three zeros where it is empty.
    ///
    /// They are three to a pixel here, so that entry p is of pixel p; `as_flattened` gives them as the calls take them.
    pub fn weights(&self) -> &[[f32; 3]] {
        &self.pix2weights
    }

    /// Of the image, in pixels.
    pub fn width(&self) -> usize {
        self.img_w
    }

    /// Of the image, in pixels.
    pub fn height(&self) -> usize {
        self.img_h
    }

    /// Whether both are of one width and one height: the slices of 3 x 2 and of 2 x 3 have the same lengths.
    fn has_the_size_of(&self, other: &Layer) -> bool {
        (self.img_w, self.img_h) == (other.img_w, other.img_h)
    }
}
