//! The housing turned over before the camera, its foot open, with and without its inner skin. With all faces that is seen from
//! behind and hides the pins; front pieces only leave out what is turned away, the inside of the outer skin too.
use crate::pose::Pose;
use crate::scene::{Scene, EMPTY};
use paqelzim::{Facing, Refusal};

/// Turned over about its middle, so that the open foot is seen at a slant.
pub const OVER: [f64; 6] = [0.0, -2.3, 3.9, -2.6, 0.25, 0.3];

/// Both drawings of the same faces.
pub struct Skins {
    pub tri2vtx: Vec<u32>,
    pub tri2inner: Vec<bool>,
    pub vtx2xyz: Vec<f32>,
    pub all: Vec<u32>,
    pub front: Vec<u32>,
}

impl Skins {
    pub fn new(scene: &Scene) -> Result<Self, Refusal> {
        let (tri2vtx, tri2inner) = scene.housing.open_and_clockwise();
        let vtx2xyz = Pose::seated().moved(&OVER).placed(&scene.housing.points);
        let map = |facing| Ok(scene.drawn(&tri2vtx, &vtx2xyz, 0, facing)?.map().to_vec());
        let (all, front) = (map(Facing::All)?, map(Facing::Front)?);
        Ok(Skins {
            tri2vtx,
            tri2inner,
            vtx2xyz,
            all,
            front,
        })
    }

    /// The pixels that all faces cover.
    pub fn covered(&self) -> usize {
        self.all.iter().filter(|&&face| face != EMPTY).count()
    }

    /// The pixels that front pieces only change, as the face that all faces show there and what is left: another face, or empty.
    pub fn changed(&self) -> impl Iterator<Item = (u32, u32)> + '_ {
        let pixels = self.all.iter().zip(&self.front);
        let pixels = pixels.map(|(&all, &front)| (all, front));
        pixels.filter(|(all, front)| all != front)
    }

    /// How many of these showed the inner skin, and how many are empty.
    pub fn lost(&self) -> [usize; 2] {
        let of_inner = |&(all, _): &(u32, u32)| self.tri2inner[all as usize];
        let emptied = |&(_, front): &(u32, u32)| front == EMPTY;
        [
            self.changed().filter(of_inner).count(),
            self.changed().filter(emptied).count(),
        ]
    }

    /// Both pictures.
    pub fn values(&self, scene: &Scene) -> Result<[Vec<f32>; 2], Refusal> {
        let values = |map| scene.values(&self.tri2vtx, &self.vtx2xyz, map);
        Ok([values(&self.all)?, values(&self.front)?])
    }
}
