//! "Ray and plane" of 01, forward, in f64.

pub type Point = [f64; 3];

pub fn minus(a: Point, b: Point) -> Point {
    [a[0] - b[0], a[1] - b[1], a[2] - b[2]]
}

pub fn dot(a: Point, b: Point) -> f64 {
    a[0] * b[0] + a[1] * b[1] + a[2] * b[2]
}

fn cross(a: Point, b: Point) -> Point {
    [
        a[1] * b[2] - a[2] * b[1],
        a[2] * b[0] - a[0] * b[2],
        a[0] * b[1] - a[1] * b[0],
    ]
}

fn length(a: Point) -> f64 {
    dot(a, a).sqrt()
}

/// y_r = m[r]x0 + m[4+r]x1 + m[8+r]x2 + m[12+r]; y0, y1, y2 over y3.
pub fn projected(m: &[f64; 16], x: Point) -> Point {
    let y = |r: usize| m[r] * x[0] + m[4 + r] * x[1] + m[8 + r] * x[2] + m[12 + r];
    [y(0) / y(3), y(1) / y(3), y(2) / y(3)]
}

#[derive(Clone, Copy)]
pub struct Ray {
    origin: Point,
    direction: Point,
}

/// The ray through the centre of a pixel: from the projection of (x, y, 1) to that of (x, y, −1).
pub fn ray(ndc2world: &[f32; 16], (img_w, img_h): (usize, usize), pixel: usize) -> Ray {
    let m = ndc2world.map(f64::from);
    let (px, py) = ((pixel % img_w) as f64 + 0.5, (pixel / img_w) as f64 + 0.5);
    let (w, h) = (img_w as f64, img_h as f64);
    let (x, y) = (2.0 * px / w - 1.0, 1.0 - 2.0 * py / h);
    let origin = projected(&m, [x, y, 1.0]);
    let direction = minus(projected(&m, [x, y, -1.0]), origin);
    Ray { origin, direction }
}

/// The weights of the point where the ray meets the plane of the corners.
pub fn weights([p0, p1, p2]: [Point; 3], ray: Ray) -> Point {
    let (o, d) = (ray.origin, ray.direction);
    let n = cross(minus(p1, p0), minus(p2, p0));
    let t = dot(minus(p0, o), n) / dot(d, n);
    let q = [o[0] + t * d[0], o[1] + t * d[1], o[2] + t * d[2]];
    let weight = |a: Point, b: Point| dot(cross(minus(a, q), minus(b, q)), n) / dot(n, n);
    [weight(p1, p2), weight(p2, p0), weight(p0, p1)]
}

/// How much the meeting of a ray and a face magnifies an error of their numbers: 1 where two equal sides at a right
/// angle are met head on, from no farther than the sides are long.
pub fn stretch([p0, p1, p2]: [Point; 3], ray: Ray) -> f64 {
    let (e1, e2) = (minus(p1, p0), minus(p2, p0));
    let away = length(minus(p0, ray.origin));
    let reach = length(e1).max(length(e2)).max(away);
    reach * reach * length(ray.direction) / dot(ray.direction, cross(e1, e2)).abs()
}
