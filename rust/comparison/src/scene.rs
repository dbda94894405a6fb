//! Meshes to draw, random and hostile: both signs of `m[11]`, orthographic, clipped, degenerate, repeated, with
//! ties, with NaNs, infinities, subnormals and −0, on images from 1 × 1, and with arguments to refuse.
use crate::layer::{any_weights, Layer};
use crate::random::Random;

pub const EMPTY: u32 = u32::MAX;
pub const MOST: u32 = 1_048_576;
/// Widths and heights at the ends of what question 1 allows, with its answer.
pub const SIZES: [(usize, usize, u32); 6] = [
    (4096, 1, 0),
    (1, 4096, 0),
    (4097, 1, 1),
    (1, 4097, 1),
    (0, 1, 1),
    (1, 0, 1),
];
/// Depths that faces share.
const DEPTHS: [f32; 4] = [0.25, 0.5, -0.5, 0.0];

/// The arguments of one drawing.
#[derive(Clone, Debug)]
pub struct Scene {
    pub layer: Layer,
    pub tri2vtx: Vec<u32>,
    pub vtx2xyz: Vec<f32>,
    pub img_w: usize,
    pub img_h: usize,
    pub transform_world2ndc: [f32; 16],
    pub first: u32,
    /// 0 for all faces, any other number for front pieces only.
    pub facing: u32,
}

impl Scene {
    /// The same drawing with another facing.
    pub fn faced(&self, facing: u32) -> Self {
        let mut scene = self.clone();
        scene.facing = facing;
        scene
    }

    /// The facing as the package takes it.
    pub fn facing(&self) -> paqelzim::Facing {
        match self.facing {
            0 => paqelzim::Facing::All,
            _ => paqelzim::Facing::Front,
        }
    }
}

/// A scene for each seed, of all faces.
pub fn scene(seed: u64) -> Scene {
    let random = &mut Random::new(seed);
    let mut scene = accepted(random);
    if random.percent(20) {
        for _ in 0..random.within(1, 2) {
            spoil(random, &mut scene);
        }
    }
    scene
}

/// A scene that every question is answered yes of.
pub fn accepted(random: &mut Random) -> Scene {
    let size = size(random);
    let vertices = random.within(0, 10);
    let style = random.below(6);
    let vtx2xyz = vertices_of(random, vertices, style, size);
    let count = if vertices == 0 {
        0
    } else {
        random.within(0, 10)
    };
    let tri2vtx = faces(random, vertices, count);
    finished(random, size, tri2vtx, vtx2xyz)
}

/// An accepted scene of some hundred faces on a larger image: sheets of neighbours one behind the other, most of their
/// faces either seen or hidden whole, or faces between any vertices of a style.
pub fn crowded(random: &mut Random) -> Scene {
    let size = (random.within(16, 64), random.within(16, 64));
    if random.percent(60) {
        let (tri2vtx, vtx2xyz) = sheets(random);
        let mut made = finished(random, size, tri2vtx, vtx2xyz);
        if random.percent(70) {
            made.transform_world2ndc = before_sheets(random);
        }
        return made;
    }
    let vertices = random.within(30, 200);
    let style = random.below(6);
    let vtx2xyz = vertices_of(random, vertices, style, size);
    let count = random.within(50, 250);
    let tri2vtx = faces(random, vertices, count);
    finished(random, size, tri2vtx, vtx2xyz)
}

fn vertices_of(random: &mut Random, count: usize, style: usize, size: (usize, usize)) -> Vec<f32> {
    let place = |_| vertex(random, style, size, &DEPTHS);
    (0..count).flat_map(place).collect()
}

/// The rest of a scene: what the layer holds, the first number, the matrix.
fn finished(
    random: &mut Random,
    (img_w, img_h): (usize, usize),
    tri2vtx: Vec<u32>,
    vtx2xyz: Vec<f32>,
) -> Scene {
    let layer = layer(random, img_w * img_h, &DEPTHS);
    let first = first_number(random, tri2vtx.len() / 3);
    Scene {
        layer,
        tri2vtx,
        vtx2xyz,
        img_w,
        img_h,
        transform_world2ndc: matrix(random),
        first,
        facing: 0,
    }
}

/// Two or three sheets, each a square of cells with two faces a cell, crossing one another here and there.
fn sheets(random: &mut Random) -> (Vec<u32>, Vec<f32>) {
    let (mut tri2vtx, mut vtx2xyz) = (Vec::new(), Vec::new());
    for sheet in 0..random.within(2, 3) {
        let cells = random.within(3, 9);
        let from = (vtx2xyz.len() / 3) as u32;
        let rough = random.between(0.0, 0.3);
        for at in 0..(cells + 1) * (cells + 1) {
            let (column, row) = (at % (cells + 1), at / (cells + 1));
            let place = |k: usize| 2.4 * k as f32 / cells as f32 - 1.2;
            let mut near = |x: f32| x + random.between(-rough, rough);
            let z = near(-0.9 - 0.2 * sheet as f32);
            vtx2xyz.extend([near(place(column)), near(place(row)), z]);
        }
        for at in 0..cells * cells {
            let corner = from + (at / cells * (cells + 1) + at % cells) as u32;
            let above = corner + cells as u32 + 1;
            tri2vtx.extend([corner, corner + 1, above, above, corner + 1, above + 1]);
        }
    }
    (tri2vtx, vtx2xyz)
}

/// A matrix under which the sheets are seen: orthographic, or a camera at the origin that looks along −z, the near
/// plane before or among them.
fn before_sheets(random: &mut Random) -> [f32; 16] {
    let mut m: [f32; 16] = std::array::from_fn(|i| if i % 5 == 0 { 0.8 } else { 0.0 });
    let sign = random.one_of(&[0.0, -1.0, 1.0]);
    if sign == 0.0 {
        m[15] = 1.0;
        return m;
    }
    let near = random.between(0.3, 1.0);
    let far = near + random.between(1.0, 4.0);
    m[10] = -(far + near) / (far - near);
    m[14] = -2.0 * far * near / (far - near);
    (m[0], m[5], m[11], m[15]) = (-sign, -sign, sign, 0.0);
    m
}

fn size(random: &mut Random) -> (usize, usize) {
    match random.below(200) {
        0 => random.one_of(&[(4096, 1), (1, 4096), (4096, 2)]),
        1..=20 => random.one_of(&[(1, 1), (1, 2), (2, 1), (2, 2)]),
        21..=40 => (random.within(1, 64), 1),
        41..=60 => (1, random.within(1, 64)),
        61..=70 => (random.within(1, 64), random.within(1, 64)),
        _ => (random.within(1, 12), random.within(1, 12)),
    }
}

fn vertex(random: &mut Random, style: usize, (w, h): (usize, usize), depths: &[f32]) -> [f32; 3] {
    let z = random.one_of(depths);
    match style {
        // on the grid of quarters: degenerate and coplanar faces, ties
        0 => [0; 3].map(|_: i32| random.within(0, 12) as f32 / 4.0 - 1.5),
        // on pixel centres: corners on the closed box's own edge
        1 => {
            let (x, y) = (random.below(w) as f32 + 0.5, random.below(h) as f32 + 0.5);
            [2.0 * x / w as f32 - 1.0, 1.0 - 2.0 * y / h as f32, z]
        }
        // far outside
        2 => {
            [0; 3].map(|_: i32| random.between(-1.0, 1.0) * 10f32.powi(random.within(0, 12) as i32))
        }
        // before and behind a camera that looks along −z
        3 => [
            random.between(-2.0, 2.0),
            random.between(-2.0, 2.0),
            random.between(-3.0, 0.1),
        ],
        4 => [0; 3].map(|_: i32| {
            if random.percent(12) {
                random.hostile()
            } else {
                random.between(-1.5, 1.5)
            }
        }),
        _ => [random.between(-1.5, 1.5), random.between(-1.5, 1.5), z],
    }
}

fn faces(random: &mut Random, vertices: usize, count: usize) -> Vec<u32> {
    let mut list: Vec<u32> = Vec::new();
    for _ in 0..count {
        let repeat = list.len() >= 3 && random.percent(15);
        let face = if repeat {
            let at = random.below(list.len() / 3) * 3;
            let turn = random.below(3);
            [0, 1, 2].map(|corner| list[at + (corner + turn) % 3])
        } else {
            [0; 3].map(|_: i32| random.below(vertices) as u32)
        };
        list.extend(face);
    }
    list
}

fn layer(random: &mut Random, pixels: usize, depths: &[f32]) -> Layer {
    let pix2weights = any_weights(&mut random.beside(), 3 * pixels);
    let style = random.below(4);
    let numbers = (0..pixels).map(|_| {
        if style == 0 {
            EMPTY
        } else {
            random.bits() as u32
        }
    });
    let pix2tri = numbers.collect();
    let depth = |random: &mut Random| match style {
        0 | 1 => f32::NEG_INFINITY,
        2 => random.one_of(depths),
        _ => random.hostile(),
    };
    Layer {
        pix2tri,
        pix2depth: (0..pixels).map(|_| depth(random)).collect(),
        pix2weights,
    }
}

fn first_number(random: &mut Random, faces: usize) -> u32 {
    match random.below(8) {
        0 => MOST - faces as u32,
        1 => random.below(1000) as u32,
        _ => 0,
    }
}

fn matrix(random: &mut Random) -> [f32; 16] {
    let identity: [f32; 16] = std::array::from_fn(|i| if i % 5 == 0 { 1.0 } else { 0.0 });
    match random.below(10) {
        0 | 1 => identity,
        2 => orthographic(random),
        3 | 4 => perspective(random, -1.0),
        5 | 6 => perspective(random, 1.0),
        7 => {
            // depths that are not finite, under a camera whose other rows are sound
            let sign = random.one_of(&[-1.0, 1.0]);
            let mut m = perspective(random, sign);
            m[random.one_of(&[2, 6, 10, 14])] = random.hostile();
            m
        }
        8 => std::array::from_fn(|_| random.between(-1.0, 1.0)),
        _ => {
            let sign = random.one_of(&[-1.0, 0.0, 1.0]);
            let mut m = perspective(random, sign);
            for _ in 0..random.within(1, 3) {
                m[random.below(16)] = random.hostile();
            }
            m
        }
    }
}

fn orthographic(random: &mut Random) -> [f32; 16] {
    let mut m: [f32; 16] = std::array::from_fn(|_| random.between(-1.0, 1.0));
    (m[3], m[7], m[11], m[15]) = (
        0.0,
        0.0,
        random.one_of(&[0.0, -0.0]),
        random.one_of(&[1.0, -2.0]),
    );
    m
}

/// A camera that looks along −z (or +z), with its near plane among the vertices.
fn perspective(random: &mut Random, t11: f32) -> [f32; 16] {
    let mut m = [0.0; 16];
    (m[0], m[5]) = (random.between(0.3, 2.0), random.between(0.3, 2.0));
    let near = random.between(0.1, 1.5);
    let far = near + random.between(0.1, 4.0);
    let toward = if t11 == 0.0 { 1.0 } else { t11 };
    m[10] = toward * (far + near) / (far - near);
    m[14] = toward * 2.0 * far * near / (far - near);
    m[11] = if random.percent(10) {
        t11 * random.one_of(&[2.5, 1e-30, 1e-42])
    } else {
        t11
    };
    if random.percent(20) {
        m[15] = random.between(-0.5, 0.5);
    }
    m
}

/// Breaks one thing, so that a question is answered no.
fn spoil(random: &mut Random, scene: &mut Scene) {
    match random.below(16) {
        0 => scene.img_w = random.one_of(&[0, 4097, usize::MAX, 1 << 32]),
        1 => scene.img_h = random.one_of(&[0, 4097, usize::MAX, 1 << 32]),
        2 => scene.img_w += 1,
        3 => scene.tri2vtx.push(0),
        4 => drop(scene.tri2vtx.pop()),
        5 => scene.vtx2xyz.push(0.0),
        6 => drop(scene.vtx2xyz.pop()),
        7 => scene.layer.pix2tri.push(7),
        8 => drop(scene.layer.pix2tri.pop()),
        9 => scene.layer.pix2depth.push(0.5),
        10 => drop(scene.layer.pix2depth.pop()),
        11 => scene.first = MOST + 1 - (scene.tri2vtx.len() / 3) as u32,
        12 => scene.first = random.one_of(&[u32::MAX, MOST + 1, 1 << 31]),
        13..=14 if !scene.tri2vtx.is_empty() => {
            let at = random.below(scene.tri2vtx.len());
            let vertices = (scene.vtx2xyz.len() / 3) as u32;
            scene.tri2vtx[at] = random.one_of(&[vertices, vertices + 1, u32::MAX]);
        }
        _ => (scene.img_w, scene.img_h) = (scene.img_h, scene.img_w),
    }
}
