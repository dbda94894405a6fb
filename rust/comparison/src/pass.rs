//! Arguments of the passes over a map: meshes with maps that are drawings and maps that are not, one to sixteen
//! channels, projections and weights without an answer, buffers of a wrong length.
use crate::layer::off_by_one;
use crate::random::Random;
use crate::scene::{accepted, crowded, Scene, EMPTY};

/// All that the passes over values and over edges take.
#[derive(Clone, Debug)]
pub struct Pass {
    pub img_w: usize,
    pub img_h: usize,
    pub pix2tri: Vec<u32>,
    pub tri2vtx: Vec<u32>,
    pub vtx2xyz: Vec<f32>,
    pub num_vdim: usize,
    pub vtx2val: Vec<f32>,
    pub pix2val: Vec<f32>,
    pub dldw_pix2val: Vec<f32>,
    pub dldw_vtx2xyz: Vec<f32>,
    pub dldw_vtx2val: Vec<f32>,
    pub hedge2type: Vec<u8>,
    pub hedge2dldr: Vec<f32>,
    pub vedge2type: Vec<u8>,
    pub vedge2dldr: Vec<f32>,
    pub transform_ndc2world: [f32; 16],
    pub transform_world2pix: [f32; 16],
}

/// Arguments for each seed.
pub fn pass(seed: u64) -> Pass {
    let random = &mut Random::new(seed);
    let mut scene = accepted(random);
    if random.percent(25) {
        cover(random, &mut scene);
    }
    let mut made = over(random, scene);
    if random.percent(20) {
        for _ in 0..random.within(1, 2) {
            spoil(random, &mut made);
        }
    }
    made
}

/// Arguments over a larger image and some hundred faces, for each seed.
pub fn crowded_pass(seed: u64) -> Pass {
    let random = &mut Random::new(seed);
    let scene = crowded(random);
    over(random, scene)
}

/// The scene's mesh, a map of it, and the rest.
fn over(random: &mut Random, scene: Scene) -> Pass {
    let mut made = beside_the_map(random, &scene);
    made.pix2tri = map(random, &scene);
    (made.tri2vtx, made.vtx2xyz) = (scene.tri2vtx, scene.vtx2xyz);
    made
}

/// All that a pass over a map of the scene takes, but for the map and the mesh.
pub fn beside_the_map(random: &mut Random, scene: &Scene) -> Pass {
    let (w, h) = (scene.img_w, scene.img_h);
    let num_vdim = if w * h > 1000 {
        1
    } else {
        random.one_of(&[1, 1, 2, 3, 4, 7, 16])
    };
    let (pixels, vertices) = (w * h, scene.vtx2xyz.len() / 3);
    let (hedges, vedges) = ((h - 1) * w, h * (w - 1));
    let hostile = random.one_of(&[0, 0, 0, 5, 30]);
    let mut floats =
        |count: usize| -> Vec<f32> { (0..count).map(|_| number(random, hostile)).collect() };
    Pass {
        img_w: w,
        img_h: h,
        pix2tri: Vec::new(),
        tri2vtx: Vec::new(),
        vtx2xyz: Vec::new(),
        num_vdim,
        vtx2val: floats(vertices * num_vdim),
        pix2val: floats(pixels * num_vdim),
        dldw_pix2val: floats(pixels * num_vdim),
        dldw_vtx2xyz: floats(vertices * 3),
        dldw_vtx2val: floats(vertices * num_vdim),
        hedge2type: vec![7; hedges],
        hedge2dldr: floats(hedges),
        vedge2type: vec![7; vedges],
        vedge2dldr: floats(vedges),
        transform_ndc2world: ndc2world(random),
        transform_world2pix: world2pix(scene),
    }
}

/// Tilted faces that each reach over the whole image, so that they meet in it, turned either way.
fn cover(random: &mut Random, scene: &mut Scene) {
    (scene.tri2vtx, scene.vtx2xyz) = (Vec::new(), Vec::new());
    let faces = random.within(2, 4);
    for face in 0..faces as u32 {
        let turn = random.one_of(&[1.0f32, -1.0]);
        let start = random.between(0.0, 6.0);
        for corner in 0..3u32 {
            let angle = start + turn * corner as f32 * 2.0944;
            let (reach, z) = (random.between(3.0, 8.0), random.between(-2.0, -1.0));
            scene
                .vtx2xyz
                .extend([reach * angle.cos(), reach * angle.sin(), z]);
            scene.tri2vtx.push(3 * face + corner);
        }
    }
    if random.percent(50) {
        scene.transform_world2ndc = identity();
    }
}

fn number(random: &mut Random, hostile: usize) -> f32 {
    if random.percent(hostile) {
        random.hostile()
    } else {
        random.between(-2.0, 2.0)
    }
}

/// What the scene draws, or patches of faces that need not lie there.
fn map(random: &mut Random, scene: &Scene) -> Vec<u32> {
    let faces = scene.tri2vtx.len() / 3;
    let pixels = scene.img_w * scene.img_h;
    if faces == 0 {
        return vec![EMPTY; pixels];
    }
    match random.below(8) {
        0 => vec![random.below(faces) as u32; pixels],
        #[cfg(listed)]
        1..=3 => {
            let clear = Scene {
                layer: crate::expected::cleared(pixels),
                first: 0,
                ..scene.clone()
            };
            crate::reference::drawn(&clear).layer.pix2tri
        }
        _ => patches(random, scene.img_w, pixels, faces),
    }
}

/// Patches of faces, and of empty pixels between them.
pub fn patches(random: &mut Random, width: usize, pixels: usize, faces: usize) -> Vec<u32> {
    let mut map: Vec<u32> = Vec::new();
    for pixel in 0..pixels {
        let entry = match random.below(10) {
            0..=2 if pixel > 0 => map[pixel - 1],
            3..=5 if pixel >= width => map[pixel - width],
            6 => EMPTY,
            _ => random.below(faces) as u32,
        };
        map.push(entry);
    }
    map
}

pub fn identity() -> [f32; 16] {
    std::array::from_fn(|i| if i % 5 == 0 { 1.0 } else { 0.0 })
}

fn ndc2world(random: &mut Random) -> [f32; 16] {
    let mut m = identity();
    match random.below(6) {
        0 | 1 => {}
        2 => m = std::array::from_fn(|_| random.between(-1.0, 1.0)),
        // a divisor that is 0 in one column or row of pixels, or at one of the two depths
        3 => {
            m[15] = 0.0;
            m[random.one_of(&[3, 7])] = 1.0;
        }
        4 => {
            (m[11], m[15]) = (
                random.one_of(&[1.0, -1.0]),
                random.one_of(&[1.0, -1.0, 2.0, 3.5]),
            )
        }
        _ => m[random.below(16)] = random.hostile(),
    }
    m
}

/// The scene's matrix, and then from the cube to pixels.
pub fn world2pix(scene: &Scene) -> [f32; 16] {
    let m = &scene.transform_world2ndc;
    let (w, h) = (scene.img_w as f32 * 0.5, scene.img_h as f32 * 0.5);
    std::array::from_fn(|i| {
        let last = m[i / 4 * 4 + 3];
        match i % 4 {
            0 => (m[i] + last) * w,
            1 => (last - m[i]) * h,
            _ => m[i],
        }
    })
}

/// One element more, or one less.
fn off<T>(random: &mut Random, buffer: &mut Vec<T>, element: T) {
    off_by_one(buffer, random.percent(50), element);
}

/// Breaks one thing, so that a question is answered no.
fn spoil(random: &mut Random, pass: &mut Pass) {
    match random.below(20) {
        0 => pass.img_w = random.one_of(&[0, 4097, usize::MAX, 1 << 32]),
        1 => pass.img_h = random.one_of(&[0, 4097, usize::MAX, 1 << 32]),
        2 => pass.num_vdim = random.one_of(&[0, 17, usize::MAX]),
        3 => pass.num_vdim = pass.num_vdim % 16 + 1,
        4 => off(random, &mut pass.pix2tri, EMPTY),
        5 => off(random, &mut pass.tri2vtx, 0),
        6 => off(random, &mut pass.vtx2xyz, 0.0),
        7 => off(random, &mut pass.vtx2val, 0.0),
        8 => off(random, &mut pass.pix2val, 0.0),
        9 => off(random, &mut pass.dldw_pix2val, 0.0),
        10 => off(random, &mut pass.dldw_vtx2xyz, 0.0),
        11 => off(random, &mut pass.dldw_vtx2val, 0.0),
        12 => off(random, &mut pass.hedge2type, 9),
        13 => off(random, &mut pass.hedge2dldr, 0.0),
        14 => off(random, &mut pass.vedge2type, 9),
        15 => off(random, &mut pass.vedge2dldr, 0.0),
        16 | 17 if !pass.tri2vtx.is_empty() => {
            let at = random.below(pass.tri2vtx.len());
            let vertices = (pass.vtx2xyz.len() / 3) as u32;
            pass.tri2vtx[at] = random.one_of(&[vertices, vertices + 1, EMPTY]);
        }
        _ if !pass.pix2tri.is_empty() => {
            let at = random.below(pass.pix2tri.len());
            let faces = (pass.tri2vtx.len() / 3) as u32;
            pass.pix2tri[at] = random.one_of(&[faces, faces + 1, EMPTY - 1]);
        }
        _ => pass.num_vdim = 0,
    }
}

/// The arguments of `interpolate_from_edges`.
#[derive(Clone, Debug)]
pub struct Velocities {
    pub img_w: usize,
    pub img_h: usize,
    pub hedge2vy: Vec<f32>,
    pub vedge2vx: Vec<f32>,
    pub vtx2xy: Vec<f32>,
    pub vtx2velo: Vec<f32>,
}

pub fn velocities(seed: u64) -> Velocities {
    let random = &mut Random::new(seed);
    let (w, h) = (random.within(1, 9), random.within(1, 9));
    let hostile = random.one_of(&[0, 0, 5, 30]);
    let count = random.within(0, 6) * 2;
    // cells, their corners and beyond the image
    let mut place = |size: usize| match random.below(4) {
        0 => number(random, 60),
        1 => random.within(0, 2 * size + 2) as f32 / 2.0 - 0.5,
        _ => random.between(-1.5, size as f32 + 1.5),
    };
    let vtx2xy = (0..count)
        .map(|i| place(if i % 2 == 0 { w } else { h }))
        .collect();
    let mut floats =
        |count: usize| -> Vec<f32> { (0..count).map(|_| number(random, hostile)).collect() };
    let mut made = Velocities {
        img_w: w,
        img_h: h,
        hedge2vy: floats((h - 1) * w),
        vedge2vx: floats(h * (w - 1)),
        vtx2xy,
        vtx2velo: floats(count),
    };
    if random.percent(15) {
        match random.below(6) {
            0 => made.img_w = random.one_of(&[0, 1, 4097, usize::MAX]),
            1 => made.img_h = random.one_of(&[0, 1, 4097, usize::MAX]),
            2 => off(random, &mut made.hedge2vy, 0.0),
            3 => off(random, &mut made.vedge2vx, 0.0),
            4 => off(random, &mut made.vtx2xy, 0.0),
            _ => off(random, &mut made.vtx2velo, 0.0),
        }
    }
    made
}
