//! Arguments of outline smoothing: outlines of meshes over their drawings, and edges that lie badly (on corners and centres, of one
//! point, NaN, infinite, huge, off the image) over maps that are empty anywhere; and with arguments to refuse.
use crate::cut::perspective;
use crate::expected::cleared;
use crate::layer::off_by_one;
use crate::pass::{identity, patches, world2pix};
use crate::random::Random;
use crate::scene::{accepted, Scene, EMPTY, MOST};
use paqelzim::Refusal;

pub const MOST_EDGES: u32 = 3 * MOST;

/// All that both passes take, and what their buffers hold before.
#[derive(Clone, Debug)]
pub struct Outline {
    pub img_w: usize,
    pub img_h: usize,
    pub cedge2vtx: Vec<u32>,
    pub vtx2xyz: Vec<f32>,
    pub transform_world2pix: [f32; 16],
    pub pix2tri: Vec<u32>,
    /// The values before: `pix2vin` forward, `pix2val` backward.
    pub pix2val: Vec<f32>,
    pub pix2vout: Vec<f32>,
    pub dldw_pix2val: Vec<f32>,
    pub dldw_vtx2xyz: Vec<f32>,
}

/// Arguments for each seed, to refuse now and then.
pub fn outline(seed: u64) -> Outline {
    let random = &mut Random::new(seed);
    let mut made = accepted_outline(random);
    if random.percent(15) {
        for _ in 0..random.within(1, 2) {
            spoil(random, &mut made);
        }
    }
    made
}

/// Arguments that questions 1 to 7 and 10 are answered yes of; a vertex of one in a hundred or so has no projection.
pub fn accepted_outline(random: &mut Random) -> Outline {
    match random.below(100) {
        0..=39 => {
            let scene = bodies(random);
            of_a_mesh(random, scene)
        }
        40..=49 => {
            let scene = accepted(random);
            of_a_mesh(random, scene)
        }
        _ => of_any_edges(random),
    }
}

/// One to three closed bodies before the camera, each a ring of corners with one above and one below, seen at a slant.
fn bodies(random: &mut Random) -> Scene {
    let (mut tri2vtx, mut vtx2xyz) = (Vec::new(), Vec::new());
    for _ in 0..random.within(1, 3) {
        let first = (vtx2xyz.len() / 3) as u32;
        let points = body(random);
        let ring = points.len() as u32 - 2;
        vtx2xyz.extend(points.concat());
        for [from, to] in (0..ring).map(|i| [i, (i + 1) % ring].map(|i| first + 2 + i)) {
            tri2vtx.extend([first, from, to, first + 1, to, from]);
        }
    }
    let (img_w, img_h) = (random.within(5, 24), random.within(5, 24));
    let t11 = random.one_of(&[-1.0, 1.0, 0.0]);
    Scene {
        layer: cleared(img_w * img_h),
        tri2vtx,
        vtx2xyz,
        img_w,
        img_h,
        transform_world2ndc: match t11 {
            0.0 => identity(),
            _ => perspective(t11, 0.25),
        },
        first: 0,
        facing: 0,
    }
}

/// The points of a body: its two ends, then its ring.
fn body(random: &mut Random) -> Vec<[f32; 3]> {
    let centre = [0.8, 0.8, 0.5].map(|reach| random.between(-reach, reach));
    let spans = [(0.2, 1.0), (-0.4, 0.4), (0.0, 6.0)];
    let [reach, slant, start] = spans.map(|(low, high)| random.between(low, high));
    let ends = [[slant, 1.0, slant], [slant, -1.0, -1.0]];
    let ring = random.within(3, 8);
    let round = (0..ring).map(|i| {
        let (sin, cos) = (start + i as f32 * std::f32::consts::TAU / ring as f32).sin_cos();
        [cos, slant * sin, sin]
    });
    let place = |[x, y, z]: [f32; 3]| {
        let [cx, cy, cz] = centre;
        [cx + reach * x, cy + reach * y, cz + reach * z - 2.0]
    };
    ends.into_iter().chain(round).map(place).collect()
}

/// The outline of a mesh over its drawing, or over patches.
fn of_a_mesh(random: &mut Random, scene: Scene) -> Outline {
    let pixels = scene.img_w * scene.img_h;
    let transform = world2pix(&scene);
    let map = match random.percent(70) {
        true => drawing(&scene),
        false => any_map(random, scene.img_w, pixels),
    };
    let edges = outline_edges(&scene.tri2vtx, &scene.vtx2xyz, &transform);
    let size = (scene.img_w, scene.img_h);
    finished(random, size, map, (edges, scene.vtx2xyz), transform)
}

fn drawing(scene: &Scene) -> Vec<u32> {
    let mut layer = cleared(scene.img_w * scene.img_h);
    let answer = layer.draw(scene, &scene.tri2vtx, 0);
    answer.expect("the scene is accepted");
    layer.pix2tri
}

/// The edges of one face alone, and those of one face that runs clockwise on the picture and one that does not.
pub fn outline_edges(tri2vtx: &[u32], vtx2xyz: &[f32], world2pix: &[f32; 16]) -> Vec<u32> {
    let place = |v: u32| {
        let x = &vtx2xyz[3 * v as usize..][..3];
        let y = |r: usize| {
            let m = |k: usize| f64::from(world2pix[4 * k + r]);
            (0..3).map(|k| m(k) * f64::from(x[k])).sum::<f64>() + m(3)
        };
        [y(0) / y(3), y(1) / y(3)]
    };
    let mut facings = std::collections::BTreeMap::<[u32; 2], Vec<bool>>::new();
    for face in tri2vtx.as_chunks::<3>().0 {
        let [a, b, c] = face.map(place);
        let area = (b[0] - a[0]) * (c[1] - a[1]) - (b[1] - a[1]) * (c[0] - a[0]);
        for [v, w] in [[0, 1], [1, 2], [2, 0]].map(|side| side.map(|k: usize| face[k])) {
            facings
                .entry([v.min(w), v.max(w)])
                .or_default()
                .push(area > 0.0);
        }
    }
    let outer = |facing: &[bool]| facing.len() == 1 || facing.iter().any(|f| *f != facing[0]);
    let edges = facings.into_iter().filter(|(_, facing)| outer(facing));
    edges.flat_map(|(edge, _)| edge).collect()
}

/// Edges that lie badly, mostly in pixels as they stand.
fn of_any_edges(random: &mut Random) -> Outline {
    let (w, h) = size(random);
    let vertices = random.within(1, 10);
    let style = random.below(10);
    // so far from the image's sides, so that some outlines meet no border
    let margin = random.one_of(&[0, 0, 1, 2]).min(w.min(h) / 2);
    let count = random.within(0, 8);
    let place = |_| vertex(random, style, [w, h].map(|size| (margin, size - margin)));
    let vtx2xyz = (0..vertices).flat_map(place).collect();
    let cedge2vtx = (0..2 * count)
        .map(|_| random.below(vertices) as u32)
        .collect();
    let map = any_map(random, w, w * h);
    let transform = matrix(random);
    finished(random, (w, h), map, (cedge2vtx, vtx2xyz), transform)
}

fn size(random: &mut Random) -> (usize, usize) {
    match random.below(100) {
        0 => random.one_of(&[(4096, 1), (1, 4096), (4096, 3), (3, 4096)]),
        // no pixel is off the border
        1..=8 => (random.within(1, 2), random.within(1, 12)),
        9..=16 => (random.within(1, 12), random.within(1, 2)),
        17..=22 => (random.within(3, 40), random.within(3, 40)),
        _ => (random.within(3, 10), random.within(3, 10)),
    }
}

/// A coordinate between two whole ones: on a corner, a centre, a quarter, or anywhere; now and then no number, far off, or beyond.
fn coordinate(random: &mut Random, style: usize, (low, high): (usize, usize)) -> f32 {
    let whole = random.within(low, high) as f32;
    match style {
        0 => whole,
        1 => whole + 0.5,
        2 => random.within(4 * low, 4 * high) as f32 / 4.0,
        // almost on a corner or a centre
        3 => {
            let near = whole + random.one_of(&[0.0, 0.5]);
            f32::from_bits(near.to_bits().wrapping_add(random.within(0, 2) as u32))
        }
        4 if random.percent(15) => random.hostile(),
        5 if random.percent(30) => {
            random.between(-1.0, 1.0) * 10f32.powi(random.within(0, 38) as i32)
        }
        6 => random.between(-1.5, 1.5) * high as f32,
        _ => random.between(low as f32, high as f32),
    }
}

/// A vertex in pixels, now and then level with others, below them, or at the same place.
fn vertex(random: &mut Random, style: usize, sides: [(usize, usize); 2]) -> [f32; 3] {
    let [mut x, mut y] = sides.map(|side| coordinate(random, style, side));
    let middle = sides.map(|(low, high)| (low + high) as f32 / 2.0);
    let level = random.below(8);
    if level == 0 || level == 2 {
        x = middle[0];
    }
    if level == 1 || level == 2 {
        y = middle[1];
    }
    [x, y, random.between(0.5, 2.0)]
}

/// Mostly the identity; else sheared, seen in perspective, without a projection at some vertex, or with anything.
fn matrix(random: &mut Random) -> [f32; 16] {
    let mut m = identity();
    match random.below(10) {
        0 => (m[4], m[1]) = (random.between(-0.3, 0.3), random.between(-0.3, 0.3)),
        1 => (m[11], m[15]) = (random.between(0.2, 0.8), random.between(0.2, 0.8)),
        // a divisor that is 0 at whole coordinates
        2 => (m[3], m[15]) = (1.0, -(random.within(0, 4) as f32)),
        3 => m[random.below(16)] = random.hostile(),
        _ => {}
    }
    m
}

/// A map that no drawing left, whatever its entries name: a few of its pixels are empty, many, or all.
fn any_map(random: &mut Random, width: usize, pixels: usize) -> Vec<u32> {
    let empty = random.one_of(&[0, 10, 30, 50, 50, 70, 90, 100]);
    match random.below(4) {
        0 => patches(random, width, pixels, 3),
        // empty on one side of a column
        1 => {
            let (column, left) = (random.below(width + 1), random.percent(50));
            let is_empty = |p: usize| (p % width < column) == left;
            (0..pixels)
                .map(|p| if is_empty(p) { EMPTY } else { 0 })
                .collect()
        }
        _ => {
            let mut entry = || match random.percent(empty) {
                true => EMPTY,
                false => random.one_of(&[0, 1, 7, EMPTY - 1]),
            };
            (0..pixels).map(|_| entry()).collect()
        }
    }
}

/// The rest: values and gradients with numbers of any kind, signalling NaNs among them.
fn finished(
    random: &mut Random,
    (img_w, img_h): (usize, usize),
    pix2tri: Vec<u32>,
    (cedge2vtx, vtx2xyz): (Vec<u32>, Vec<f32>),
    transform_world2pix: [f32; 16],
) -> Outline {
    let hostile = random.one_of(&[0, 0, 0, 5, 30]);
    let mut floats = |count: usize| -> Vec<f32> {
        let mut number = || match random.percent(hostile) {
            true if random.percent(50) => random.signalling(),
            true => random.hostile(),
            false => random.between(-2.0, 2.0),
        };
        (0..count).map(|_| number()).collect()
    };
    let pixels = img_w * img_h;
    Outline {
        pix2val: floats(pixels),
        pix2vout: floats(pixels),
        dldw_pix2val: floats(pixels),
        dldw_vtx2xyz: floats(vtx2xyz.len()),
        img_w,
        img_h,
        cedge2vtx,
        vtx2xyz,
        transform_world2pix,
        pix2tri,
    }
}

/// Changes one thing, after which a question is answered no more often than not.
fn spoil(random: &mut Random, outline: &mut Outline) {
    let vertices = (outline.vtx2xyz.len() / 3) as u32;
    match random.below(12) {
        0 => outline.img_w = random.one_of(&[0, 4097, usize::MAX, 1 << 32]),
        1 => outline.img_h = random.one_of(&[0, 4097, usize::MAX, 1 << 32]),
        2 => (outline.img_w, outline.img_h) = (outline.img_h, outline.img_w),
        3 => off_by_one(&mut outline.cedge2vtx, random.percent(50), 0),
        4 => off_by_one(&mut outline.vtx2xyz, random.percent(50), 0.5),
        5..=7 => {
            let (which, longer) = (random.below(LENGTHS), random.percent(50));
            *outline = outline.with_wrong_length(which, longer);
        }
        _ if !outline.cedge2vtx.is_empty() => {
            let at = random.below(outline.cedge2vtx.len());
            outline.cedge2vtx[at] = random.one_of(&[vertices, vertices + 1, u32::MAX]);
        }
        _ => outline.img_w = 0,
    }
}

/// The lengths that question 4 asks, of one pass or of both: of the map, the values, those written, and the gradients of these and
/// of the vertices.
pub const LENGTHS: usize = 5;

impl Outline {
    /// The same with one length wrong by one.
    pub fn with_wrong_length(&self, which: usize, longer: bool) -> Self {
        let mut outline = self.clone();
        match which {
            0 => off_by_one(&mut outline.pix2tri, longer, EMPTY),
            1 => off_by_one(&mut outline.pix2val, longer, 7.0),
            2 => off_by_one(&mut outline.pix2vout, longer, 7.0),
            3 => off_by_one(&mut outline.dldw_pix2val, longer, 7.0),
            _ => off_by_one(&mut outline.dldw_vtx2xyz, longer, 7.0),
        }
        outline
    }

    /// The package's forward call, into a buffer.
    pub fn antialias(&self, pix2vout: &mut [f32]) -> Result<(), Refusal> {
        paqelzim::antialias(
            &self.cedge2vtx,
            &self.vtx2xyz,
            &self.transform_world2pix,
            self.img_w,
            self.img_h,
            &self.pix2tri,
            &self.pix2val,
            pix2vout,
        )
    }

    /// The package's backward call, into a buffer.
    pub fn bwd_antialias(&self, dldw_vtx2xyz: &mut [f32]) -> Result<(), Refusal> {
        paqelzim::bwd_antialias(
            &self.cedge2vtx,
            &self.vtx2xyz,
            dldw_vtx2xyz,
            &self.transform_world2pix,
            self.img_w,
            self.img_h,
            &self.pix2val,
            &self.dldw_pix2val,
            &self.pix2tri,
        )
    }
}
