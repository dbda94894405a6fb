//! What deleting faces does to the picture, before it is done.
use crate::scene::{Scene, Seen, EMPTY};
use paqelzim::{Layer, Refusal, RemovalPreview};

/// What becomes of the pixels, and the two drawings that tell it: of all faces, and of those that stay.
pub struct Preview {
    pub counts: RemovalPreview,
    pub full: Layer,
    pub short: Layer,
}

impl Preview {
    pub fn new(scene: &Scene, seen: &Seen, removed: &[u32]) -> Result<Self, Refusal> {
        let tri2vtx = &scene.housing.tri2vtx;
        let mark = |face| u8::from(removed.contains(&face));
        let marks: Vec<u8> = (0..tri2vtx.len() as u32 / 3).map(mark).collect();
        let layer = || Layer::new(scene.camera.img_w, scene.camera.img_h);
        let (mut full, mut short) = (layer()?, layer()?);
        let counts = Layer::preview_removal(
            &mut full,
            &mut short,
            tri2vtx,
            &seen.vtx2xyz,
            &scene.camera.world2ndc,
            &marks,
        )?;
        Ok(Preview {
            counts,
            full,
            short,
        })
    }
}

pub fn told(counts: &RemovalPreview) -> String {
    format!(
        "{} pixels go empty, {} name another face, {} keep theirs",
        counts.emptied, counts.renamed, counts.kept
    )
}

/// The face that holds the most pixels of a map, and how many those are.
pub fn largest(map: &[u32]) -> Option<(u32, usize)> {
    let held = |face| map.iter().filter(|&&entry| entry == face).count();
    let last = map.iter().copied().filter(|&entry| entry != EMPTY).max()?;
    (0..=last)
        .map(|face| (face, held(face)))
        .max_by_key(|f| f.1)
}
