//! Label pictures to take: of maps that are drawings and of maps that are not, by tables of any bodies, 0 and 4294967295 among
//! them, and with arguments to refuse.
use crate::expected::cleared;
use crate::layer::off_by_one;
use crate::pass::patches;
use crate::random::Random;
use crate::scene::{accepted, Scene, EMPTY, MOST};
use paqelzim::Refusal;

/// The lengths that question 4 asks: of the map and of the picture.
pub const LENGTHS: usize = 2;

/// The arguments of one label picture.
#[derive(Clone, Debug)]
pub struct Labels {
    pub pix2tri: Vec<u32>,
    pub tri2body: Vec<u32>,
    pub img_w: usize,
    pub img_h: usize,
    /// What the picture's buffer holds before.
    pub pix2body: Vec<u32>,
    /// Whether the map was made by drawing a scene.
    pub is_drawn: bool,
}

/// Arguments for each seed, to refuse now and then.
pub fn labels(seed: u64) -> Labels {
    let random = &mut Random::new(seed);
    let mut labels = accepted_labels(random);
    if random.percent(30) {
        for _ in 0..random.within(1, 2) {
            spoil(random, &mut labels);
        }
    }
    labels
}

/// Arguments that every question is answered yes of.
pub fn accepted_labels(random: &mut Random) -> Labels {
    let scene = accepted(random);
    let pixels = scene.img_w * scene.img_h;
    let is_drawn = random.percent(50);
    let (pix2tri, faces) = if is_drawn {
        (drawing(&scene), scene.tri2vtx.len() / 3)
    } else {
        any_map(random, scene.img_w, pixels)
    };
    // now and then there are faces that the map cannot name
    let more = random.one_of(&[0, 0, 0, 1, 5]);
    Labels {
        pix2tri,
        tri2body: table(random, faces + more),
        img_w: scene.img_w,
        img_h: scene.img_h,
        pix2body: (0..pixels).map(|_| random.bits() as u32).collect(),
        is_drawn,
    }
}

fn drawing(scene: &Scene) -> Vec<u32> {
    let mut layer = cleared(scene.img_w * scene.img_h);
    let answer = layer.draw(scene, &scene.tri2vtx, 0);
    answer.expect("the scene is accepted");
    layer.pix2tri
}

/// A map that no drawing left, and its face count.
fn any_map(random: &mut Random, width: usize, pixels: usize) -> (Vec<u32>, usize) {
    let faces = random.one_of(&[0, 1, 2, 3, 7, 12, 40]);
    let map = match (faces, random.below(4)) {
        (0, _) => vec![EMPTY; pixels],
        // no pixel is empty
        (_, 0) => (0..pixels).map(|_| random.below(faces) as u32).collect(),
        _ => patches(random, width, pixels, faces),
    };
    (map, faces)
}

/// So many faces of a few bodies, or each of any.
pub fn table(random: &mut Random, faces: usize) -> Vec<u32> {
    let few: Vec<u32> = (0..random.within(1, 4)).map(|_| body(random)).collect();
    let any = random.percent(30);
    let mut next = || {
        if any {
            body(random)
        } else {
            random.one_of(&few)
        }
    };
    (0..faces).map(|_| next()).collect()
}

/// A body's number: at either end, small, or any.
pub fn body(random: &mut Random) -> u32 {
    match random.below(3) {
        0 => random.one_of(&[0, 1, EMPTY - 1, EMPTY]),
        1 => random.below(10) as u32,
        _ => random.bits() as u32,
    }
}

/// Changes one thing, after which a question is answered no more often than not.
fn spoil(random: &mut Random, labels: &mut Labels) {
    let faces = labels.tri2body.len();
    match random.below(100) {
        // seldom, since it is long
        0 => labels.tri2body.resize(MOST as usize + 1, 0),
        1..=10 => labels.img_w = random.one_of(&[0, 4097, usize::MAX, 1 << 32]),
        11..=20 => labels.img_h = random.one_of(&[0, 4097, usize::MAX, 1 << 32]),
        21..=30 => labels.img_w += 1,
        31..=40 => (labels.img_w, labels.img_h) = (labels.img_h, labels.img_w),
        41..=60 => {
            let (which, longer) = (random.below(LENGTHS), random.percent(50));
            *labels = labels.with_wrong_length(which, longer);
        }
        // the table is one short of what the map may name, or has nothing
        61..=70 => labels
            .tri2body
            .truncate(random.one_of(&[faces.saturating_sub(1), 0])),
        _ if !labels.pix2tri.is_empty() => {
            let at = random.below(labels.pix2tri.len());
            labels.pix2tri[at] = random.one_of(&[faces as u32, faces as u32 + 1, EMPTY - 1]);
        }
        _ => labels.img_w = 0,
    }
}

impl Labels {
    /// The same with one length wrong by one.
    pub fn with_wrong_length(&self, which: usize, longer: bool) -> Self {
        let mut labels = self.clone();
        match which {
            0 => off_by_one(&mut labels.pix2tri, longer, EMPTY),
            _ => off_by_one(&mut labels.pix2body, longer, 7),
        }
        labels
    }

    /// The package's call, into a buffer for the picture.
    pub fn label(&self, pix2body: &mut [u32]) -> Result<(), Refusal> {
        paqelzim::label_picture(
            &self.pix2tri,
            &self.tri2body,
            self.img_w,
            self.img_h,
            pix2body,
        )
    }
}
