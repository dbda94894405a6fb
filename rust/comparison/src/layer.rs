//! The three buffers of a layer, of any lengths, whatever they hold, and the package's calls over them.
use crate::random::Random;
use crate::scene::Scene;
use paqelzim::Refusal;

#[derive(Clone, Debug, Default)]
pub struct Layer {
    pub pix2tri: Vec<u32>,
    pub pix2depth: Vec<f32>,
    /// Three numbers a pixel.
    pub pix2weights: Vec<f32>,
}

/// Number, depth and weights of a pixel.
pub type Cell = (u32, f32, [f32; 3]);

/// What a call leaves: its code, and the bits of the layer that it was lent.
pub type Left = (u32, [Vec<u32>; 3]);

/// Lengths that the weights of so many pixels may not have: one short, one over, one number a pixel, one pixel over, and none.
pub fn wrong_lengths(pixels: usize) -> [usize; 5] {
    let exact = 3 * pixels;
    [exact - 1, exact + 1, pixels, exact + 3, 0]
}

/// One element more, or one less.
pub fn off_by_one<T>(buffer: &mut Vec<T>, longer: bool, more: T) {
    if longer {
        buffer.push(more);
    } else {
        buffer.pop();
    }
}

/// Weights that no drawing left: NaNs, most of them signalling and of any payload, infinities and ordinary numbers.
pub fn any_weights(random: &mut Random, count: usize) -> Vec<f32> {
    let mut any = || match random.below(3) {
        0 => random.hostile(),
        1 => random.signalling(),
        _ => random.between(-1.0, 2.0),
    };
    (0..count).map(|_| any()).collect()
}

pub fn bits(floats: &[f32]) -> Vec<u32> {
    floats.iter().map(|x| x.to_bits()).collect()
}

/// The bits of the map, the depths and the weights of the package's own layer.
pub fn owned_bits(layer: &paqelzim::Layer) -> [Vec<u32>; 3] {
    [
        layer.map().to_vec(),
        bits(layer.depths()),
        bits(layer.weights().as_flattened()),
    ]
}

impl FromIterator<Cell> for Layer {
    fn from_iter<T: IntoIterator<Item = Cell>>(cells: T) -> Self {
        let (pix2tri, (pix2depth, weights)): (_, (_, Vec<[f32; 3]>)) =
            cells.into_iter().map(|(n, d, w)| (n, (d, w))).unzip();
        let pix2weights = weights.into_flattened();
        Layer {
            pix2tri,
            pix2depth,
            pix2weights,
        }
    }
}

impl Layer {
    /// Buffers of these lengths that hold anything. The weights leave the numbers to come as they are.
    pub fn any(random: &mut Random, [numbers, depths, weights]: [usize; 3]) -> Self {
        Layer {
            pix2tri: (0..numbers).map(|_| random.bits() as u32).collect(),
            pix2depth: (0..depths).map(|_| random.hostile()).collect(),
            pix2weights: any_weights(&mut random.beside(), weights),
        }
    }

    /// Of each pixel that all three buffers reach.
    pub fn cells(&self) -> impl Iterator<Item = Cell> + '_ {
        let numbers = self.pix2tri.iter().zip(&self.pix2depth);
        let weights = self.pix2weights.as_chunks::<3>().0;
        numbers.zip(weights).map(|((&n, &d), &w)| (n, d, w))
    }

    /// Of the map, the depths and the weights.
    pub fn lengths(&self) -> [usize; 3] {
        [
            self.pix2tri.len(),
            self.pix2depth.len(),
            self.pix2weights.len(),
        ]
    }

    /// The bits of the map, the depths and the weights.
    pub fn bits(&self) -> [Vec<u32>; 3] {
        [
            self.pix2tri.clone(),
            bits(&self.pix2depth),
            bits(&self.pix2weights),
        ]
    }

    /// What a call left that was lent this layer.
    pub fn left(&self, answer: Result<(), Refusal>) -> Left {
        let code = answer.map_or_else(Refusal::code, |()| 0);
        (code, self.bits())
    }

    pub fn clear(&mut self, img_w: usize, img_h: usize) -> Result<(), Refusal> {
        paqelzim::clear(
            &mut self.pix2tri,
            &mut self.pix2depth,
            &mut self.pix2weights,
            img_w,
            img_h,
        )
    }

    /// Draws faces between the scene's vertices, with the scene's size, matrix and facing.
    pub fn draw(&mut self, scene: &Scene, faces: &[u32], first: u32) -> Result<(), Refusal> {
        paqelzim::pix2tri_by_rasterization(
            &mut self.pix2tri,
            &mut self.pix2depth,
            &mut self.pix2weights,
            faces,
            &scene.vtx2xyz,
            scene.img_w,
            scene.img_h,
            &scene.transform_world2ndc,
            first,
            scene.facing(),
        )
    }

    pub fn join(&mut self, right: &Layer, img_w: usize, img_h: usize) -> Result<(), Refusal> {
        paqelzim::join(
            &mut self.pix2tri,
            &mut self.pix2depth,
            &mut self.pix2weights,
            &right.pix2tri,
            &right.pix2depth,
            &right.pix2weights,
            img_w,
            img_h,
        )
    }
}
