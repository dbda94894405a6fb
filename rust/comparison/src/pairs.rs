//! Pairs of neighbouring pixels as `bwd` finds them: which cross, and which have a face without weights, worked out from
//! the documents' words alone.
use crate::pass::Pass;
use crate::scene::EMPTY;

type Point = [f32; 2];

/// The first two numbers of the projection, which question 8 has made sure of.
fn projected(m: &[f32; 16], x: &[f32]) -> Point {
    let y = |r: usize| m[r] * x[0] + m[4 + r] * x[1] + m[8 + r] * x[2] + m[12 + r];
    [y(0) / y(3), y(1) / y(3)]
}

/// The corner weights: none where their sum is 0 or not finite.
fn weights([p0, p1, p2]: [Point; 3], q: Point) -> Option<[f32; 3]> {
    let twice_the_area =
        |b: Point, c: Point| (b[0] - q[0]) * (c[1] - q[1]) - (b[1] - q[1]) * (c[0] - q[0]);
    let areas = [
        twice_the_area(p1, p2),
        twice_the_area(p2, p0),
        twice_the_area(p0, p1),
    ];
    let sum = areas[0] + areas[1] + areas[2];
    (sum != 0.0 && sum.is_finite()).then(|| areas.map(|area| area / sum))
}

/// A pair's two pixels: the upper or left one first.
pub type Pair = [usize; 2];

/// Whether the map has unlike entries at a pair's two pixels.
pub fn unlike(pass: &Pass, [first, second]: Pair) -> bool {
    pass.pix2tri[first] != pass.pix2tri[second]
}

/// The weights of a pixel's centre in the face that another names: nothing where that one is empty.
fn weights_in(pass: &Pass, pixel: usize, other: usize) -> Option<Option<[f32; 3]>> {
    let face = pass.pix2tri[other];
    if face == EMPTY {
        return None;
    }
    let named = &pass.tri2vtx[3 * face as usize..][..3];
    let corner = |k: usize| {
        let vertex = &pass.vtx2xyz[3 * named[k] as usize..];
        projected(&pass.transform_world2pix, vertex)
    };
    let centre = [
        (pixel % pass.img_w) as f32 + 0.5,
        (pixel / pass.img_w) as f32 + 0.5,
    ];
    Some(weights([0, 1, 2].map(corner), centre))
}

/// The weights of each centre in the other pixel's face, first the first one's.
fn both_weights(pass: &Pass, [first, second]: Pair) -> [Option<Option<[f32; 3]>>; 2] {
    [
        weights_in(pass, first, second),
        weights_in(pass, second, first),
    ]
}

/// The test of both edge passes: none means outside.
fn is_inside(weights: Option<[f32; 3]>) -> bool {
    weights.is_some_and(|b| b.iter().all(|&b| b >= 0.0))
}

/// Whether each centre is inside the other pixel's face; nothing where that pixel is empty.
fn both_inside(pass: &Pass, pair: Pair) -> [Option<bool>; 2] {
    both_weights(pass, pair).map(|weights| weights.map(is_inside))
}

/// Whether the pixels name unlike faces, none is empty, and each face contains the other pixel's centre.
fn crosses(pass: &Pass, pair: Pair) -> bool {
    unlike(pass, pair) && both_inside(pass, pair) == [Some(true); 2]
}

/// 1 where the entries are unlike and a centre is inside, an empty neighbour containing each; else 0.
pub fn edge_type(pass: &Pass, pair: Pair) -> u8 {
    let inside = both_inside(pass, pair).map(|inside| inside.unwrap_or(true));
    u8::from(unlike(pass, pair) && inside != [false; 2])
}

/// Whether a face of the pair has no weights at the other pixel's centre.
pub fn without_weights(pass: &Pass, pair: Pair) -> bool {
    both_weights(pass, pair).contains(&Some(None))
}

/// Each pixel with the one below it, in the order of the hedges.
pub fn hedges(pass: &Pass) -> impl Iterator<Item = Pair> {
    let (w, pixels) = (pass.img_w, pass.pix2tri.len());
    (w..pixels).map(move |below| [below - w, below])
}

/// Each pixel with the one to its right, in the order of the vedges.
pub fn vedges(pass: &Pass) -> impl Iterator<Item = Pair> {
    let (w, pixels) = (pass.img_w, pass.pix2tri.len());
    (0..pixels)
        .filter(move |pixel| pixel % w + 1 < w)
        .map(|pixel| [pixel, pixel + 1])
}

fn pairs(pass: &Pass) -> impl Iterator<Item = Pair> {
    hedges(pass).chain(vedges(pass))
}

/// The vertices of the second face, the lower or the right one, of each pair that crosses.
pub fn second_corners(pass: &Pass) -> Vec<bool> {
    let mut named = vec![false; pass.vtx2xyz.len() / 3];
    for [_, second] in pairs(pass).filter(|&pair| crosses(pass, pair)) {
        let face = 3 * pass.pix2tri[second] as usize;
        pass.tri2vtx[face..face + 3]
            .iter()
            .for_each(|&v| named[v as usize] = true);
    }
    named
}

/// How many pairs name unlike entries, and how many of those cross.
pub fn unlike_and_crossing(pass: &Pass) -> [usize; 2] {
    [
        pairs(pass).filter(|&pair| unlike(pass, pair)).count(),
        pairs(pass).filter(|&pair| crosses(pass, pair)).count(),
    ]
}
