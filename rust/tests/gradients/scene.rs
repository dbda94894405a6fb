//! Random meshes before a camera, drawn by the library.
use crate::random::Random;
use crate::rules::{dot, projected, ray, stretch, weights, Point, Ray};
use paqelzim::{Facing, Layer};

pub const EMPTY: u32 = u32::MAX;
/// Pixels that are stretched more are left out: their rays graze their faces, or the faces are thin or far.
pub const MOST_STRETCH: f64 = 40.0;

/// Positions and values of the vertices, or their gradients.
#[derive(Clone)]
pub struct Numbers<T> {
    pub xyz: Vec<T>,
    pub val: Vec<T>,
}

impl Numbers<f32> {
    pub fn widened(&self) -> Numbers<f64> {
        let wide = |list: &[f32]| list.iter().map(|&x| x.into()).collect();
        Numbers {
            xyz: wide(&self.xyz),
            val: wide(&self.val),
        }
    }
}

pub struct Scene {
    pub size: (usize, usize),
    pub channels: usize,
    pub perspective: bool,
    pub tri2vtx: Vec<u32>,
    pub vertices: Numbers<f32>,
    pub ndc2world: [f32; 16],
    pub rays: Vec<Ray>,
    pub pix2tri: Vec<u32>,
    /// How many pixels were drawn and then made empty.
    pub left_out: usize,
    pub dldw_pix2val: Vec<f32>,
    /// What the accumulators hold at the start.
    pub before: Numbers<f32>,
}

impl Random {
    /// Numbers of either sign, from 0.25 to 1 in size.
    fn numbers(&mut self, count: usize) -> Vec<f32> {
        let mut number = || (self.between(0.25, 1.0), self.bits() >> 63 == 0);
        let signed = |(size, plus): (f64, bool)| if plus { size } else { -size } as f32;
        (0..count).map(|_| signed(number())).collect()
    }
}

pub fn diagonal(entries: [f64; 4]) -> [f64; 16] {
    std::array::from_fn(|at| if at % 5 == 0 { entries[at / 5] } else { 0.0 })
}

/// The product of column-major matrices: first `b`, then `a`.
fn product(a: &[f64; 16], b: &[f64; 16]) -> [f64; 16] {
    std::array::from_fn(|at| (0..4).map(|k| a[4 * k + at % 4] * b[at / 4 * 4 + k]).sum())
}

/// A turn by an angle in the plane of two axes.
fn turn(angle: f64, a: usize, b: usize) -> [f64; 16] {
    let mut m = diagonal([1.0; 4]);
    (m[5 * a], m[5 * b]) = (angle.cos(), angle.cos());
    (m[4 * a + b], m[4 * b + a]) = (angle.sin(), -angle.sin());
    m
}

/// From the space of a camera that looks along −z to the cube: orthographic, or in perspective with m[11] of either
/// sign, the near plane at m[11].
fn lens(random: &mut Random) -> [f64; 16] {
    let (x, y) = (random.between(0.6, 1.6), random.between(0.6, 1.6));
    let near = random.between(0.8, 1.2);
    let far = near + random.between(1.0, 3.0);
    let middle = (far + near) / (far - near);
    let mut m = diagonal([x, y, 2.0 / (far - near), 1.0]);
    m[14] = middle;
    let sign = [0.0, 1.0, -1.0][random.within(0, 2)];
    if sign != 0.0 {
        (m[0], m[5], m[11], m[15]) = (-sign * x, -sign * y, sign, 0.0);
        (m[10], m[14]) = (-middle, -2.0 * far * near / (far - near));
    }
    m
}

/// From the world to the cube: the world is moved, turned and tilted before the lens.
fn world2ndc(random: &mut Random) -> [f64; 16] {
    let mut moved = diagonal([1.0; 4]);
    for place in &mut moved[12..15] {
        *place = random.between(-1.0, 1.0);
    }
    let turned = product(&turn(random.between(0.0, 6.3), 0, 1), &moved);
    let tilted = product(&turn(random.between(-0.3, 0.3), 1, 2), &turned);
    product(&lens(random), &tilted)
}

/// Elimination by the greatest pivot, with the identity's columns beside.
fn inverse(m: &[f64; 16]) -> [f64; 16] {
    let mut rows: [[f64; 8]; 4] = std::array::from_fn(|r| {
        std::array::from_fn(|c| match c {
            0..4 => m[4 * c + r],
            _ => f64::from(u8::from(c - 4 == r)),
        })
    });
    for column in 0..4 {
        let size = |r: &usize| rows[*r][column].abs();
        let pivot = (column..4).max_by(|a, b| size(a).total_cmp(&size(b)));
        rows.swap(column, pivot.expect("a row is left"));
        let by = rows[column].map(|x| x / rows[column][column]);
        for (at, row) in rows.iter_mut().enumerate() {
            let times = row[column];
            for (x, y) in row.iter_mut().zip(by) {
                *x = if at == column { y } else { *x - times * y };
            }
        }
    }
    std::array::from_fn(|at| rows[at % 4][4 + at / 4])
}

/// Faces of three unlike vertices each.
fn faces(random: &mut Random, vertices: usize) -> Vec<u32> {
    let mut list = Vec::new();
    for _ in 0..random.within(1, 12) {
        let mut left: Vec<u32> = (0..vertices as u32).collect();
        for _ in 0..3 {
            list.push(left.swap_remove(random.within(0, left.len() - 1)));
        }
    }
    list
}

/// Vertices in and around what the camera sees, whatever it is.
fn places(random: &mut Random, vertices: usize, ndc2world: &[f64; 16]) -> Vec<f32> {
    let mut place = || {
        let mut side = |reach: f64| random.between(-reach, reach);
        projected(ndc2world, [side(1.3), side(1.3), side(0.8)])
    };
    let places = (0..vertices).flat_map(|_| place());
    places.map(|x| x as f32).collect()
}

/// The library's drawing on a clear layer.
fn drawn(size: (usize, usize), tri2vtx: &[u32], xyz: &[f32], world2ndc: &[f32; 16]) -> Vec<u32> {
    let mut layer = Layer::new(size.0, size.1).expect("accepted");
    let answer = layer.draw(tri2vtx, xyz, world2ndc, 0, Facing::All);
    answer.expect("accepted");
    layer.map().to_vec()
}

/// A scene for each seed.
pub fn scene(seed: u64) -> Scene {
    let random = &mut Random(seed << 32);
    let size = (random.within(1, 16), random.within(1, 16));
    let (pixels, vertices, channels) = (size.0 * size.1, random.within(3, 9), random.within(1, 4));
    let matrix = world2ndc(random);
    let back = inverse(&matrix);
    let ndc2world = back.map(|x| x as f32);
    let xyz = places(random, vertices, &back);
    let tri2vtx = faces(random, vertices);
    let mut made = Scene {
        size,
        channels,
        perspective: matrix[11] != 0.0,
        rays: (0..pixels).map(|at| ray(&ndc2world, size, at)).collect(),
        pix2tri: drawn(size, &tri2vtx, &xyz, &matrix.map(|x| x as f32)),
        left_out: 0,
        tri2vtx,
        ndc2world,
        dldw_pix2val: random.numbers(pixels * channels),
        before: Numbers {
            xyz: random.numbers(vertices * 3),
            val: random.numbers(vertices * channels),
        },
        vertices: Numbers {
            xyz,
            val: random.numbers(vertices * channels),
        },
    };
    made.leave_out();
    made
}

pub fn corners(xyz: &[f64], face: [usize; 3]) -> [Point; 3] {
    face.map(|v| [xyz[3 * v], xyz[3 * v + 1], xyz[3 * v + 2]])
}

impl Scene {
    /// The pixels that are not empty, with the vertices of their faces.
    pub fn covered(&self) -> impl Iterator<Item = (usize, [usize; 3])> + '_ {
        let faces = self.tri2vtx.as_chunks::<3>().0;
        let entries = self.pix2tri.iter().enumerate();
        entries
            .filter(|(_, &face)| face != EMPTY)
            .map(|(pixel, &face)| (pixel, faces[face as usize].map(|v| v as usize)))
    }

    /// Makes the pixels empty that are stretched too much.
    fn leave_out(&mut self) {
        let xyz = self.vertices.widened().xyz;
        let stretched = |(pixel, face): &(usize, [usize; 3])| {
            stretch(corners(&xyz, *face), self.rays[*pixel]) > MOST_STRETCH
        };
        let out: Vec<usize> = self.covered().filter(stretched).map(|(p, _)| p).collect();
        self.left_out = out.len();
        for pixel in out {
            self.pix2tri[pixel] = EMPTY;
        }
    }

    /// What the loss multiplies the pixel's values with.
    pub fn incoming(&self, pixel: usize) -> &[f32] {
        &self.dldw_pix2val[pixel * self.channels..][..self.channels]
    }

    /// The values of a face's corners in a channel.
    pub fn values(&self, val: &[f64], face: [usize; 3], channel: usize) -> Point {
        face.map(|v| val[v * self.channels + channel])
    }

    /// The loss, from its definition.
    pub fn loss(&self, at: &Numbers<f64>) -> f64 {
        let mut sum = 0.0;
        for (pixel, face) in self.covered() {
            let weights = weights(corners(&at.xyz, face), self.rays[pixel]);
            for (channel, &incoming) in self.incoming(pixel).iter().enumerate() {
                let value = dot(weights, self.values(&at.val, face, channel));
                sum += f64::from(incoming) * value;
            }
        }
        sum
    }
}
