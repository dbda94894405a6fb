//! Faces that the near plane cuts, and the camera before them, by their geometry in f64 alone.
use crate::random::Random;

pub type Vec3 = [f64; 3];

pub fn minus(a: Vec3, b: Vec3) -> Vec3 {
    std::array::from_fn(|k| a[k] - b[k])
}

pub fn cross(a: Vec3, b: Vec3) -> Vec3 {
    [
        a[1] * b[2] - a[2] * b[1],
        a[2] * b[0] - a[0] * b[2],
        a[0] * b[1] - a[1] * b[0],
    ]
}

pub fn dot(a: Vec3, b: Vec3) -> f64 {
    a[0] * b[0] + a[1] * b[1] + a[2] * b[2]
}

/// A camera at the origin that looks along −z from `near` on, x to the right and y up, whose divisor is t11·z: OpenGL's with −1, that
/// of the fit with 1. Depth is t11 at `near`.
pub fn perspective(t11: f32, near: f32) -> [f32; 16] {
    let (focal, far) = (1.5, 8.0);
    let mut matrix = [0.0; 16];
    (matrix[0], matrix[5], matrix[11]) = (-t11 * focal, -t11 * focal, t11);
    matrix[10] = -(far + near) / (far - near);
    matrix[14] = -2.0 * far * near / (far - near);
    matrix
}

/// The lone corner, whether it is beyond the near plane, and whether the face runs clockwise.
pub type Cut = (usize, bool, bool);

/// A face with one corner alone on its side of the near plane, which is at 1, and none close to that; or nothing where it is seen almost
/// edge on.
pub fn cut_face(random: &mut Random) -> Option<(Cut, [Vec3; 3])> {
    let (lone, beyond) = (random.below(3), random.percent(50));
    let corners: [Vec3; 3] = std::array::from_fn(|k| {
        let z = if (k == lone) == beyond {
            random.between(1.3, 3.0)
        } else {
            random.between(0.3, 0.8)
        };
        [
            random.between(-1.0, 1.0) * z,
            random.between(-1.0, 1.0) * z,
            -z,
        ]
        .map(f64::from)
    });
    let seen = corners.map(|[x, y, z]| [x / -z, y / -z, 0.0]);
    let area = cross(minus(seen[1], seen[0]), minus(seen[2], seen[0]))[2];
    (area.abs() > 0.2).then_some(((lone, beyond, area < 0.0), corners))
}
