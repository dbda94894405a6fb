//! The outline of the housing's mask, smoothed, and what its difference from the target's says of the vertices.
use crate::housing::Housing;
use crate::pose::{cross, dot, minus, Pose, Vec3};
use crate::scene::{difference, Scene, EMPTY};
use paqelzim::{Facing, Refusal};
use std::collections::BTreeMap;

/// Two vertices, and the faces that meet there.
type Edge = ([u32; 2], Vec<usize>);

/// The edges of the housing and its faces.
struct Edges {
    tri2vtx: Vec<u32>,
    edges: Vec<Edge>,
}

/// What one iteration sees of the outline.
pub struct Smoothed {
    /// 1 where a face is shown, else 0.
    pub mask: Vec<f32>,
    pub smoothed: Vec<f32>,
    pub num_edges: usize,
    /// The root of the mean squared difference from the target's smoothed mask.
    pub residual: f64,
    pub dldw_vtx2xyz: Vec<f32>,
}

/// The scene with its edges, and the target's smoothed mask.
pub struct Outline<'a> {
    scene: &'a Scene,
    edges: Edges,
    target: Vec<f32>,
}

impl Edges {
    /// Sides of blocks have vertices of their own: faces meet where their corners stand at the same points.
    fn new(housing: &Housing) -> Self {
        let (tri2vtx, _) = housing.open_and_clockwise();
        let mut found: BTreeMap<[[u64; 3]; 2], Edge> = BTreeMap::new();
        for (face, &[a, b, c]) in tri2vtx.as_chunks::<3>().0.iter().enumerate() {
            for edge in [[a, b], [b, c], [c, a]] {
                let mut at = edge.map(|v| housing.points[v as usize].map(f64::to_bits));
                at.sort();
                found.entry(at).or_insert((edge, Vec::new())).1.push(face);
            }
        }
        let edges = found.into_values().collect();
        Edges { tri2vtx, edges }
    }

    /// The edges of one face alone, and those where a face turned to the camera meets one turned away.
    fn outline(&self, vtx2xyz: &[f32]) -> Vec<u32> {
        let place = |v: u32| vtx2xyz.as_chunks::<3>().0[v as usize].map(f64::from);
        let faces = self.tri2vtx.as_chunks::<3>().0.iter();
        let front: Vec<bool> = faces.map(|face| is_front(face.map(place))).collect();
        let outer = |faces: &[usize]| {
            faces.len() == 1 || faces.iter().any(|&face| front[face] != front[faces[0]])
        };
        let edges = self.edges.iter().filter(|(_, faces)| outer(faces));
        edges.flat_map(|(edge, _)| *edge).collect()
    }
}

/// Whether the corners run clockwise as seen from the camera, which stands at the origin.
fn is_front([a, b, c]: [Vec3; 3]) -> bool {
    dot(cross(minus(b, a), minus(c, a)), a) > 0.0
}

impl Smoothed {
    /// The pixels that smoothing has changed.
    pub fn mixed(&self) -> impl Iterator<Item = usize> + '_ {
        (0..self.mask.len()).filter(|&p| self.smoothed[p] != self.mask[p])
    }
}

impl<'a> Outline<'a> {
    pub fn new(scene: &'a Scene) -> Result<Self, Refusal> {
        let mut outline = Outline {
            scene,
            edges: Edges::new(&scene.housing),
            target: vec![0.; scene.camera.num_pix()],
        };
        outline.target = outline.seen(&scene.hidden)?.smoothed;
        Ok(outline)
    }

    /// Draws the pose, smooths its mask, and goes back from the difference to the vertices.
    pub fn seen(&self, pose: &Pose) -> Result<Smoothed, Refusal> {
        let housing = &self.scene.housing;
        let vtx2xyz = pose.placed(&housing.points);
        let layer = self
            .scene
            .drawn(&housing.tri2vtx, &vtx2xyz, 0, Facing::All)?;
        let shown = |&face: &u32| if face == EMPTY { 0. } else { 1. };
        let mask: Vec<f32> = layer.map().iter().map(shown).collect();
        let cedge2vtx = self.edges.outline(&vtx2xyz);
        let smoothed = self.smoothed(&cedge2vtx, &vtx2xyz, layer.map(), &mask)?;
        let (residual, dldw_pix2val) = difference(&smoothed, &self.target);
        let mut dldw_vtx2xyz = vec![0.; vtx2xyz.len()];
        paqelzim::bwd_antialias(
            &cedge2vtx,
            &vtx2xyz,
            &mut dldw_vtx2xyz,
            &self.scene.camera.world2pix,
            self.scene.camera.img_w,
            self.scene.camera.img_h,
            &mask,
            &dldw_pix2val,
            layer.map(),
        )?;
        Ok(Smoothed {
            mask,
            smoothed,
            num_edges: cedge2vtx.len() / 2,
            residual,
            dldw_vtx2xyz,
        })
    }

    /// The mask, mixed where an edge of the outline passes between a shown pixel and an empty one.
    fn smoothed(
        &self,
        cedge2vtx: &[u32],
        vtx2xyz: &[f32],
        map: &[u32],
        mask: &[f32],
    ) -> Result<Vec<f32>, Refusal> {
        let mut smoothed = mask.to_vec();
        paqelzim::antialias(
            cedge2vtx,
            vtx2xyz,
            &self.scene.camera.world2pix,
            self.scene.camera.img_w,
            self.scene.camera.img_h,
            map,
            mask,
            &mut smoothed,
        )?;
        Ok(smoothed)
    }
}
