//! The crossings of outline edges with the lines between neighbouring centres, and the pixels that an edge covers, from the words of
//! 02, Point 1, alone.
use crate::outlines::Outline;
use crate::scene::EMPTY;

pub type Point = [f32; 2];

/// (bx−ax)(cy−ay) − (by−ay)(cx−ax)
fn cross2(a: Point, b: Point, c: Point) -> f32 {
    (b[0] - a[0]) * (c[1] - a[1]) - (b[1] - a[1]) * (c[0] - a[0])
}

/// Whether an edge covers the pixel of that column and row: no loop is shared with the stand-in, which walks along the edge.
pub fn covers([q0, q1]: [Point; 2], ix: usize, iy: usize) -> bool {
    if [q0, q1].concat().iter().any(|x| x.is_nan()) {
        return false;
    }
    let (left, top) = (ix as f32, iy as f32);
    let corners = [
        [left, top],
        [left + 1.0, top],
        [left, top + 1.0],
        [left + 1.0, top + 1.0],
    ];
    let meets = |k: usize, from: f32| q0[k].min(q1[k]) <= from + 1.0 && from <= q0[k].max(q1[k]);
    let areas = corners.map(|corner| cross2(q0, q1, corner));
    let one_side = areas.iter().all(|&a| a > 0.0) || areas.iter().all(|&a| a < 0.0);
    meets(0, left) && meets(1, top) && !one_side
}

/// The covered pixels in rising number, one after the other asked.
pub fn covered((w, h): (usize, usize), ends: [Point; 2]) -> Vec<usize> {
    let pixels = 0..w * h;
    pixels.filter(|p| covers(ends, p % w, p / w)).collect()
}

pub fn on_border((w, h): (usize, usize), pixel: usize) -> bool {
    let (ix, iy) = (pixel % w, pixel / w);
    ix == 0 || iy == 0 || ix + 1 == w || iy + 1 == h
}

/// The two ends in pixels, which question 8 has made sure of.
pub fn ends(outline: &Outline, edge: &[u32]) -> [Point; 2] {
    let m = &outline.transform_world2pix;
    [edge[0], edge[1]].map(|v| {
        let x = &outline.vtx2xyz[3 * v as usize..];
        let y = |r: usize| m[r] * x[0] + m[4 + r] * x[1] + m[8 + r] * x[2] + m[12 + r];
        [y(0) / y(3), y(1) / y(3)]
    })
}

/// The edge's number, the pixel of the map and the empty one beside it, and where between the two centres the edge crosses.
#[derive(Clone, Copy, Debug, PartialEq)]
pub struct Crossing {
    pub edge: usize,
    pub shown: usize,
    pub empty: usize,
    pub rc: f32,
    pub re: f32,
}

impl Crossing {
    /// The pixel that the crossing writes: the nearer one.
    pub fn written(&self) -> usize {
        if self.rc < 0.5 {
            self.shown
        } else {
            self.empty
        }
    }
}

/// rc and re, or none.
fn meeting(c0: Point, c1: Point, [q0, q1]: [Point; 2]) -> Option<(f32, f32)> {
    let minus = |a: Point, b: Point| [a[0] - b[0], a[1] - b[1]];
    let cross = |a: Point, b: Point| a[0] * b[1] - a[1] * b[0];
    let (u, v) = (minus(c1, c0), minus(q0, q1));
    let d = cross(u, v);
    let (rc, re) = (cross(minus(q1, c0), v) / d, cross(minus(q1, c0), u) / d);
    let meets = (0.0..1.0).contains(&rc) && (0.0..=1.0).contains(&re);
    (d != 0.0 && !d.is_nan() && meets).then_some((rc, re))
}

/// The crossings of accepted arguments, in the order in which they are written.
pub fn crossings(outline: &Outline) -> Vec<Crossing> {
    let (w, h) = (outline.img_w, outline.img_h);
    let mut found = Vec::new();
    for (edge, named) in outline.cedge2vtx.chunks(2).enumerate() {
        let ends = ends(outline, named);
        let [across, down] = [0, 1].map(|k| (ends[1][k] - ends[0][k]).abs());
        let step = if across < down { 1 } else { w };
        let inner = |p: &usize| !on_border((w, h), *p);
        for p in covered((w, h), ends).into_iter().filter(inner) {
            let pairs = [(p, p - step), (p - step, p), (p, p + step), (p + step, p)];
            let centre = |p: usize| [(p % w) as f32 + 0.5, (p / w) as f32 + 0.5];
            for (shown, empty) in pairs {
                if outline.pix2tri[shown] == EMPTY || outline.pix2tri[empty] != EMPTY {
                    continue;
                }
                if let Some((rc, re)) = meeting(centre(shown), centre(empty), ends) {
                    found.push(Crossing {
                        edge,
                        shown,
                        empty,
                        rc,
                        re,
                    });
                }
            }
        }
    }
    found
}
