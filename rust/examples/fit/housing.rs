//! The mesh of a small connector housing, in millimetres: a tub with a rim and a key, a label plate and eight pins.
use crate::pose::Vec3;
use std::ops::Range;

pub const CHANNELS: usize = 3;

/// The bodies: tub, rim and key are one.
pub const HOUSING: u32 = 0;
pub const PINS: u32 = 1;
pub const LABEL: u32 = 2;

pub struct Housing {
    pub tri2vtx: Vec<u32>,
    /// The body of each face.
    pub tri2body: Vec<u32>,
    pub points: Vec<Vec3>,
    /// A colour for each vertex: plastic or metal, as the lamp falls on it.
    pub vtx2val: Vec<f32>,
    /// The corners of the underside, which tell how the housing sits.
    pub foot: [Vec3; 4],
    /// Of each side, whether it is at its block's high end.
    side2high: Vec<bool>,
    /// The sides of the inner skin, which look into their block.
    inner: Range<usize>,
}

/// A side of a block: across which axis, and whether at its high end.
type Side = (usize, bool);

const WALLS: [Side; 4] = [(0, false), (0, true), (1, false), (1, true)];
const BOTTOM: Side = (2, false);
const TOP: Side = (2, true);
const HEIGHT: f64 = 9.0;

/// Of each body: blue plastic, metal, orange plastic.
const BODY2COLOUR: [Vec3; 3] = [[0.25, 0.55, 0.75], [0.95, 0.90, 0.60], [0.90, 0.55, 0.20]];

impl Housing {
    pub fn new() -> Self {
        let mut housing = Housing {
            tri2vtx: Vec::new(),
            tri2body: Vec::new(),
            points: Vec::new(),
            vtx2val: Vec::new(),
            foot: [[-11., -6.], [11., -6.], [-11., 6.], [11., 6.]].map(|[x, y]| [x, y, 0.]),
            side2high: Vec::new(),
            inner: 0..0,
        };
        let tub = [WALLS[0], WALLS[1], WALLS[2], WALLS[3], BOTTOM];
        housing.block([-11., -6., 0.], [11., 6., HEIGHT], &tub, HOUSING);
        housing.block([-9.5, -4.5, 2.], [9.5, 4.5, HEIGHT], &tub, HOUSING);
        housing.inner = tub.len()..2 * tub.len();
        for (low, high) in [
            ([-11., -6.], [-9.5, 6.]),
            ([9.5, -6.], [11., 6.]),
            ([-9.5, -6.], [9.5, -4.5]),
            ([-9.5, 4.5], [9.5, 6.]),
        ] {
            let [low, high] = [low, high].map(|[x, y]| [x, y, HEIGHT]);
            housing.block(low, high, &[TOP], HOUSING);
        }
        let outer = [WALLS[0], WALLS[1], WALLS[2], BOTTOM, TOP];
        housing.block([5., -7.5, 0.], [8., -6., HEIGHT], &outer, HOUSING);
        housing.block([-6., -7.5, 3.], [-2., -6., 6.5], &outer, LABEL);
        let upper = [WALLS[0], WALLS[1], WALLS[2], WALLS[3], TOP];
        for i in 0..8 {
            let (x, y) = (4.5 * f64::from(i % 4) - 6.75, 3.0 * f64::from(i / 4) - 1.5);
            housing.block([x - 0.6, y - 0.6, 2.], [x + 0.6, y + 0.6, 7.], &upper, PINS);
        }
        housing
    }

    /// The faces for a drawing of front pieces, and which are of the inner skin: every one clockwise as seen from outside the plastic,
    /// so that it is front where that side shows, and those of the foot left out.
    pub fn open_and_clockwise(&self) -> (Vec<u32>, Vec<bool>) {
        let on_foot = |v: &u32| self.foot.contains(&self.points[*v as usize]);
        let (mut tri2vtx, mut tri2inner) = (Vec::new(), Vec::new());
        for (number, &[a, b, c]) in self.tri2vtx.as_chunks::<3>().0.iter().enumerate() {
            if [a, b, c].iter().all(on_foot) {
                continue;
            }
            let side = number / 2;
            let is_inner = self.inner.contains(&side);
            // a side is listed counter-clockwise as seen from its axis's high end
            let clockwise = self.side2high[side] == is_inner;
            tri2vtx.extend(if clockwise { [a, b, c] } else { [a, c, b] });
            tri2inner.push(is_inner);
        }
        (tri2vtx, tri2inner)
    }

    /// Sides of the block between two corners, each with four vertices of its own and two faces.
    fn block(&mut self, low: Vec3, high: Vec3, sides: &[Side], body: u32) {
        let colour = BODY2COLOUR[body as usize];
        for &(axis, at_high) in sides {
            self.side2high.push(at_high);
            let first = self.points.len() as u32;
            let (u, v) = ((axis + 1) % 3, (axis + 2) % 3);
            for (on_u, on_v) in [(low, low), (high, low), (high, high), (low, high)] {
                let mut p = if at_high { high } else { low };
                p[u] = on_u[u];
                p[v] = on_v[v];
                self.points.push(p);
                let light = lit((axis, at_high), p);
                self.vtx2val.extend(colour.map(|c| (c * light) as f32));
            }
            for corners in [[0, 1, 2], [0, 2, 3]] {
                self.tri2vtx.extend(corners.map(|c| first + c));
                self.tri2body.push(body);
            }
        }
    }
}

/// The lamp's share on a side: by the way it stands, and darker towards the foot.
fn lit(side: Side, p: Vec3) -> f64 {
    let facing = match side {
        (0, false) => 0.45,
        (0, true) => 0.70,
        (1, false) => 0.60,
        (1, true) => 0.50,
        BOTTOM => 0.35,
        _ => 1.0,
    };
    facing * (0.7 + 0.3 * p[2] / HEIGHT)
}
