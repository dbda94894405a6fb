//! How the housing sits: a turn and a shift, and what gradients at its vertices say of them.

pub type Vec3 = [f64; 3];

/// The bench stands before the camera, leaning away from it, so that heights show in the picture.
const BENCH_AT: Vec3 = [0.0, -1.0, -60.0];
const BENCH_LEAN: f64 = -0.95;

/// A turn about the bench's origin, its columns, then a shift, in millimetres.
#[derive(Clone, Debug, PartialEq)]
pub struct Pose {
    turn: [Vec3; 3],
    shift: Vec3,
}

impl Pose {
    /// Seated as drawn: no turn and no shift.
    pub fn seated() -> Self {
        Pose {
            turn: [[1., 0., 0.], [0., 1., 0.], [0., 0., 1.]],
            shift: [0.; 3],
        }
    }

    /// Turned by the last three numbers, an axis times radians, and shifted by the first three.
    pub fn moved(&self, step: &[f64; 6]) -> Self {
        let by: Vec3 = [step[3], step[4], step[5]];
        Pose {
            turn: self.turn.map(|column| turned(column, by)),
            shift: std::array::from_fn(|k| self.shift[k] + step[k]),
        }
    }

    /// Where a point of the housing stands on the bench.
    pub fn on_bench(&self, p: Vec3) -> Vec3 {
        std::array::from_fn(|k| {
            self.turn[0][k] * p[0] + self.turn[1][k] * p[1] + self.turn[2][k] * p[2] + self.shift[k]
        })
    }

    /// The vertices before the camera, as the calls take them.
    pub fn placed(&self, points: &[Vec3]) -> Vec<f32> {
        points
            .iter()
            .flat_map(|&p| {
                let q = turned(self.on_bench(p), [BENCH_LEAN, 0., 0.]);
                [0, 1, 2].map(|k| (q[k] + BENCH_AT[k]) as f32)
            })
            .collect()
    }

    /// The gradient of the six numbers of `moved` at no step, from that of the placed vertices.
    pub fn gradient(&self, points: &[Vec3], dldw_vtx2xyz: &[f32]) -> [f64; 6] {
        let mut sum = [0.; 6];
        for (&p, g) in points.iter().zip(dldw_vtx2xyz.chunks(3)) {
            let g = turned([0, 1, 2].map(|k| f64::from(g[k])), [-BENCH_LEAN, 0., 0.]);
            let arm = minus(self.on_bench(p), self.shift);
            let torque = cross(arm, g);
            for k in 0..3 {
                sum[k] += g[k];
                sum[3 + k] += torque[k];
            }
        }
        sum
    }

    /// The greatest distance between where the two poses put one of the points.
    pub fn apart(&self, other: &Pose, points: &[Vec3]) -> f64 {
        let apart = points.iter().map(|&p| {
            let d = minus(self.on_bench(p), other.on_bench(p));
            dot(d, d).sqrt()
        });
        apart.fold(0.0, f64::max)
    }
}

/// `p` turned about the axis `by`, through its length in radians (Rodrigues' formula).
fn turned(p: Vec3, by: Vec3) -> Vec3 {
    let angle = dot(by, by).sqrt();
    if angle == 0.0 {
        return p;
    }
    let axis = by.map(|x| x / angle);
    let (sin, cos) = angle.sin_cos();
    let side = cross(axis, p);
    let along = dot(axis, p) * (1.0 - cos);
    std::array::from_fn(|k| p[k] * cos + side[k] * sin + axis[k] * along)
}

pub fn dot(a: Vec3, b: Vec3) -> f64 {
    a[0] * b[0] + a[1] * b[1] + a[2] * b[2]
}

pub fn minus(a: Vec3, b: Vec3) -> Vec3 {
    std::array::from_fn(|k| a[k] - b[k])
}

pub fn cross(a: Vec3, b: Vec3) -> Vec3 {
    [
        a[1] * b[2] - a[2] * b[1],
        a[2] * b[0] - a[0] * b[2],
        a[0] * b[1] - a[1] * b[0],
    ]
}
