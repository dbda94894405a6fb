//! Answers that are wrong, made of right ones.
use crate::backward;
use crate::scene::{Numbers, Scene, EMPTY};

/// A number of the answer, and what a fault can make it of: the accumulator before and after, what one pixel alone adds,
/// and what that pixel adds with two corners of its face exchanged.
pub struct Place {
    before: f64,
    after: f64,
    alone: f64,
    exchanged: f64,
}

pub type Fault = fn(&Place) -> f64;

pub const FAULTS: [(&str, Fault); 10] = [
    ("the sign turned", |p| p.before - (p.after - p.before)),
    ("twice as much", |p| p.before + 2.0 * (p.after - p.before)),
    ("half as much", |p| p.before + 0.5 * (p.after - p.before)),
    ("a hundredth more", |p| {
        p.before + 1.01 * (p.after - p.before)
    }),
    ("written, not added", |p| p.after - p.before),
    ("nothing added", |p| p.before),
    ("a pixel missing", |p| p.after - p.alone),
    ("a pixel twice", |p| p.after + p.alone),
    ("a pixel's sign turned", |p| p.after - 2.0 * p.alone),
    ("a pixel's corners exchanged", |p| {
        p.after - p.alone + p.exchanged
    }),
];

/// The library's answer for a scene, for one of its pixels alone, and that with two corners exchanged.
pub struct Answers<'a> {
    scene: &'a Scene,
    after: Numbers<f32>,
    alone: Numbers<f32>,
    exchanged: Numbers<f32>,
}

impl<'a> Answers<'a> {
    /// Nothing where no pixel is covered.
    pub fn of(scene: &'a Scene, seed: usize) -> Option<Self> {
        let covered: Vec<_> = scene.covered().collect();
        if covered.is_empty() {
            return None;
        }
        let (pixel, face) = covered[seed % covered.len()];
        let mut map = vec![EMPTY; scene.pix2tri.len()];
        map[pixel] = scene.pix2tri[pixel];
        let zero = Numbers {
            xyz: vec![0.0; scene.before.xyz.len()],
            val: vec![0.0; scene.before.val.len()],
        };
        let alone = backward(scene, &map, &zero);
        let mut exchanged = alone.clone();
        let (a, b) = (face[seed % 3], face[(seed + 1) % 3]);
        let channels = scene.channels;
        (0..3).for_each(|k| exchanged.xyz.swap(3 * a + k, 3 * b + k));
        (0..channels).for_each(|k| exchanged.val.swap(channels * a + k, channels * b + k));
        Some(Answers {
            scene,
            after: backward(scene, &scene.pix2tri, &scene.before),
            alone,
            exchanged,
        })
    }

    /// The answer with the fault in every number.
    pub fn wrong(&self, fault: Fault) -> Numbers<f32> {
        let each = |list: fn(&Numbers<f32>) -> &[f32]| {
            let number = |i: usize| {
                let place = Place {
                    before: list(&self.scene.before)[i].into(),
                    after: list(&self.after)[i].into(),
                    alone: list(&self.alone)[i].into(),
                    exchanged: list(&self.exchanged)[i].into(),
                };
                fault(&place) as f32
            };
            (0..list(&self.after).len()).map(number).collect()
        };
        Numbers {
            xyz: each(|n| &n.xyz),
            val: each(|n| &n.val),
        }
    }
}
