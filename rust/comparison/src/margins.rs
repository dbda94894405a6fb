//! Buffers as they are lent, alone or the three of a layer, with places before and after each, which no call may touch.
use crate::layer::Layer;

const MARGIN: usize = 5;
/// What the places hold; as a float it is a signalling NaN.
const MARK: u32 = 0x7fa1_b2c3;

/// A layer lent so.
pub struct Lent(Layer);

/// A buffer of numbers lent so.
pub struct LentNumbers(Vec<u32>);

fn with_margins<T: Copy>(values: &[T], mark: T) -> Vec<T> {
    let margin = [mark; MARGIN];
    [&margin, values, &margin].concat()
}

fn inside<T>(values: &mut [T]) -> &mut [T] {
    let end = values.len() - MARGIN;
    &mut values[MARGIN..end]
}

/// What a buffer holds, with nothing beside it touched.
fn untouched_beside(mut all: Vec<u32>) -> Vec<u32> {
    let buffer = inside(&mut all).to_vec();
    assert_eq!(all, with_margins(&buffer, MARK), "beside a buffer");
    buffer
}

impl LentNumbers {
    pub fn new(numbers: &[u32]) -> Self {
        LentNumbers(with_margins(numbers, MARK))
    }

    pub fn buffer(&mut self) -> &mut [u32] {
        inside(&mut self.0)
    }

    /// What it holds, with nothing beside it touched.
    pub fn numbers(self) -> Vec<u32> {
        untouched_beside(self.0)
    }
}

impl Lent {
    pub fn new(layer: &Layer) -> Self {
        let mark = f32::from_bits(MARK);
        Lent(Layer {
            pix2tri: with_margins(&layer.pix2tri, MARK),
            pix2depth: with_margins(&layer.pix2depth, mark),
            pix2weights: with_margins(&layer.pix2weights, mark),
        })
    }

    /// Map, depths and weights.
    pub fn buffers(&mut self) -> (&mut [u32], &mut [f32], &mut [f32]) {
        let layer = &mut self.0;
        (
            inside(&mut layer.pix2tri),
            inside(&mut layer.pix2depth),
            inside(&mut layer.pix2weights),
        )
    }

    /// Their bits, with nothing beside them touched.
    pub fn bits(&self) -> [Vec<u32>; 3] {
        self.0.bits().map(untouched_beside)
    }
}
