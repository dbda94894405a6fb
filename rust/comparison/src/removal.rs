//! Removals to preview: the meshes of `scene` with any of their faces marked, on scratch layers that hold anything, and with
//! arguments to refuse. What becomes of the pixels is told by the old number of each face that stays.
use crate::layer::{off_by_one, Layer};
use crate::random::Random;
use crate::scene::{scene, Scene, EMPTY};
use paqelzim::{Refusal, RemovalPreview};

/// Bytes that take a face out.
pub const MARKS: [u8; 3] = [1, 2, 255];
/// The lengths that question 4 asks: of the marks and of the six buffers.
pub const LENGTHS: usize = 7;

/// The arguments of one preview.
#[derive(Clone, Debug)]
pub struct Removal {
    /// Its layer is the scratch layer of the full list. First number and facing are no arguments.
    pub scene: Scene,
    pub removed: Vec<u8>,
    pub short: Layer,
}

/// A removal for each seed, now and then with a length that is wrong.
pub fn removal(seed: u64) -> Removal {
    let random = &mut Random::new(seed).beside();
    let removal = any_removal(random, scene(seed));
    if random.percent(10) {
        let (which, longer) = (random.below(LENGTHS), random.percent(50));
        return removal.with_wrong_length(which, longer);
    }
    removal
}

/// Any of the scene's faces marked.
pub fn any_removal(random: &mut Random, mut scene: Scene) -> Removal {
    let lengths = scene.layer.lengths();
    scene.layer = scratch(random, lengths);
    let short = scratch(random, lengths);
    let share = random.one_of(&[0, 10, 50, 90, 100]);
    let mut mark = || {
        if random.percent(share) {
            random.one_of(&MARKS)
        } else {
            0
        }
    };
    Removal {
        removed: (0..scene.tri2vtx.len() / 3).map(|_| mark()).collect(),
        scene,
        short,
    }
}

/// What a layer may hold before: in half of them no depth but signalling NaNs.
fn scratch(random: &mut Random, lengths: [usize; 3]) -> Layer {
    let mut layer = Layer::any(random, lengths);
    if random.percent(50) {
        layer.pix2depth.fill_with(|| random.signalling());
    }
    layer
}

impl Removal {
    /// The same with other marks.
    pub fn marked(&self, mut mark: impl FnMut(u32) -> u8) -> Self {
        let mut removal = self.clone();
        for (face, removed) in (0..).zip(&mut removal.removed) {
            *removed = mark(face);
        }
        removal
    }

    /// The same with one length wrong by one.
    pub fn with_wrong_length(&self, which: usize, longer: bool) -> Self {
        let mut removal = self.clone();
        let (full, short) = (&mut removal.scene.layer, &mut removal.short);
        match which {
            0 => off_by_one(&mut removal.removed, longer, 1),
            1 => off_by_one(&mut full.pix2tri, longer, 7),
            2 => off_by_one(&mut full.pix2depth, longer, 0.5),
            3 => off_by_one(&mut full.pix2weights, longer, 0.5),
            4 => off_by_one(&mut short.pix2tri, longer, 7),
            5 => off_by_one(&mut short.pix2depth, longer, 0.5),
            _ => off_by_one(&mut short.pix2weights, longer, 0.5),
        }
        removal
    }

    /// The package's preview, which leaves its drawings in the scratch layers.
    pub fn preview(&mut self) -> Result<RemovalPreview, Refusal> {
        let (scene, short) = (&mut self.scene, &mut self.short);
        paqelzim::preview_removal(
            &scene.tri2vtx,
            &scene.vtx2xyz,
            scene.img_w,
            scene.img_h,
            &scene.transform_world2ndc,
            &self.removed,
            &mut scene.layer.pix2tri,
            &mut scene.layer.pix2depth,
            &mut scene.layer.pix2weights,
            &mut short.pix2tri,
            &mut short.pix2depth,
            &mut short.pix2weights,
        )
    }

    /// The bits of both scratch layers.
    pub fn bits(&self) -> [[Vec<u32>; 3]; 2] {
        [self.scene.layer.bits(), self.short.bits()]
    }

    /// The old numbers of the faces that stay, in their order: entry n is of the one whose new number is n.
    pub fn staying(&self) -> Vec<u32> {
        let faces = (0..).zip(&self.removed);
        let stay = faces.filter(|(_, &mark)| mark == 0);
        stay.map(|(face, _)| face).collect()
    }

    /// The list of the faces that stay.
    pub fn shortened(&self) -> Vec<u32> {
        list_of(&self.scene.tri2vtx, &self.staying())
    }
}

/// These faces of a list.
pub fn list_of(tri2vtx: &[u32], faces: &[u32]) -> Vec<u32> {
    let corners = tri2vtx.as_chunks::<3>().0;
    let list = faces.iter().flat_map(|&face| corners[face as usize]);
    list.collect()
}

/// What becomes of a pixel.
#[derive(Clone, Copy, Debug, PartialEq, Eq)]
pub enum Fate {
    Emptied,
    Renamed,
    Kept,
}

/// Of a pixel with that entry in the full map and that one in the short map.
pub fn fate(staying: &[u32], full: u32, short: u32) -> Fate {
    let shown = match short {
        EMPTY => EMPTY,
        number => staying[number as usize],
    };
    if shown == full {
        Fate::Kept
    } else if shown == EMPTY {
        Fate::Emptied
    } else {
        Fate::Renamed
    }
}

/// The fates of all pixels.
pub fn counted(staying: &[u32], full: &[u32], short: &[u32]) -> RemovalPreview {
    let mut counts = RemovalPreview::default();
    for (&full, &short) in full.iter().zip(short) {
        *match fate(staying, full, short) {
            Fate::Emptied => &mut counts.emptied,
            Fate::Renamed => &mut counts.renamed,
            Fate::Kept => &mut counts.kept,
        } += 1;
    }
    counts
}
