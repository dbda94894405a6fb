//! Edges in the picture, from the words of 02, Point 1: the pixels that one covers, and its crossing with the line between two
//! centres.
use crate::tri2::cross2;
use crate::vec2::{cross, sub};

/// The first and the last i from 0 and below `size` whose closed span from i to i + 1 meets that from `low` to `high`.
fn spans(low: f32, high: f32, size: usize) -> (i32, i32) {
    // exact in f64 wherever it decides; a cast holds what is beyond an i32 at its ends
    let first = (f64::from(low) - 1.0).ceil() as i32;
    let last = f64::from(high).floor() as i32;
    (first.max(0), last.min(size as i32 - 1))
}

/// An edge and the row of pixels that is looked at.
struct Row<'a> {
    q0: &'a [f32; 2],
    q1: &'a [f32; 2],
    iy: i32,
}

/// Where a pixel of a row lies: before those that the edge covers, among them, or past them.
#[derive(PartialEq)]
enum Side {
    Before,
    Covered,
    Past,
}

impl Row<'_> {
    /// cross2 at the corners to the left of a pixel of this number, the upper and the lower one.
    fn corners(&self, ix: i32) -> [f32; 2] {
        [self.iy, self.iy + 1].map(|y| cross2(self.q0, self.q1, &[ix as f32, y as f32]))
    }

    /// Along a row cross2 falls where the edge runs down and rises where it runs up, rounding included, so that pixels with all
    /// corners above 0 lie on one side of the covered ones and those with all below 0 on the other. A NaN at a corner is neither.
    fn side(&self, ix: i32) -> Side {
        let ([a, b], [c, d]) = (self.corners(ix), self.corners(ix + 1));
        let above = a > 0.0 && b > 0.0 && c > 0.0 && d > 0.0;
        let below = a < 0.0 && b < 0.0 && c < 0.0 && d < 0.0;
        let falls = self.q0[1] < self.q1[1];
        match (above, below) {
            (false, false) => Side::Covered,
            (above, _) if above == falls => Side::Before,
            _ => Side::Past,
        }
    }

    /// The covered pixels among those from `low` to `high`, the first and the last: sought from a guess on. Of none, the last comes
    /// before the first.
    fn covered(&self, low: i32, high: i32, guess: [f64; 2]) -> (i32, i32) {
        let [from, to] = guess.map(|x| (x.floor() as i32).clamp(low, high));
        let mut first = from.min(to);
        while first > low && self.side(first - 1) != Side::Before {
            first -= 1;
        }
        while first <= high && self.side(first) == Side::Before {
            first += 1;
        }
        let mut last = from.max(to).max(first - 1);
        while last < high && self.side(last + 1) != Side::Past {
            last += 1;
        }
        while last >= first && self.side(last) == Side::Past {
            last -= 1;
        }
        (first, last)
    }
}

/// The pixels of the image that an edge covers, in rising number: its box meets the pixel's closed square, and cross2 at the four
/// corners is neither all above nor all below 0; none when a coordinate is NaN. Of pixels with iy from `rows` and ix from `columns`.
fn covered_pixels(
    width: usize,
    columns: [usize; 2],
    rows: [usize; 2],
    q0: &[f32; 2],
    q1: &[f32; 2],
) -> Vec<usize> {
    let mut list = Vec::new();
    if [q0, q1].iter().any(|q| q[0].is_nan() || q[1].is_nan()) {
        return list;
    }
    let span = |k: usize, [from, to]: [usize; 2]| {
        let (first, last) = spans(q0[k].min(q1[k]), q0[k].max(q1[k]), to);
        (first.max(from as i32), last)
    };
    let ((low, high), (top, bottom)) = (span(0, columns), span(1, rows));
    if high < low {
        return list;
    }
    let [ax, ay, bx, by] = [q0[0], q0[1], q1[0], q1[1]].map(f64::from);
    let slope = (bx - ax) / (by - ay);
    for iy in top..=bottom {
        let guess = [iy, iy + 1].map(|y| ax + (f64::from(y) - ay) * slope);
        let (first, last) = Row { q0, q1, iy }.covered(low, high, guess);
        list.extend((first..=last).map(|ix| iy as usize * width + ix as usize));
    }
    list
}

/// All of them.
pub fn overlapping_pixels_dda(
    (width, height): (usize, usize),
    q0: &[f32; 2],
    q1: &[f32; 2],
) -> Vec<usize> {
    covered_pixels(width, [0, width], [0, height], q0, q1)
}

/// Those that are not on the image border: "pixels on the image border are passed over".
pub fn overlapping_inner_pixels(
    (width, height): (usize, usize),
    q0: &[f32; 2],
    q1: &[f32; 2],
) -> Vec<usize> {
    covered_pixels(width, [1, width - 1], [1, height - 1], q0, q1)
}

/// With u = c1−c0, v = q0−q1, d = u×v: rc = (q1−c0)×v / d, re = (q1−c0)×u / d. None when d is 0 or NaN, when rc is not in [0,1), or
/// when re is not in [0,1].
pub fn intersection_edge2(
    c0: &[f32; 2],
    c1: &[f32; 2],
    q1: &[f32; 2],
    q0: &[f32; 2],
) -> Option<(f32, f32)> {
    let (u, v, s) = (sub(c1, c0), sub(q0, q1), sub(q1, c0));
    let d = cross(&u, &v);
    if d == 0.0 || d.is_nan() {
        return None;
    }
    let (rc, re) = (cross(&s, &v) / d, cross(&s, &u) / d);
    ((0.0..1.0).contains(&rc) && (0.0..=1.0).contains(&re)).then_some((rc, re))
}

/// g = dldr(v_y, −v_x)/d; (1−re)g to q1 and re·g to q0. What c0 and c1 get nothing says, and the caller drops it: NaNs, which would
/// show. Nor does anything say what re's own gradient brings, which is always 0.
#[allow(clippy::type_complexity)]
pub fn dldw_intersection_edge2(
    c0: &[f32; 2],
    c1: &[f32; 2],
    q1: &[f32; 2],
    q0: &[f32; 2],
    dldr: f32,
    dldre: f32,
) -> ([f32; 2], [f32; 2], [f32; 2], [f32; 2]) {
    assert_eq!(dldre, 0.0);
    let (u, v, s) = (sub(c1, c0), sub(q0, q1), sub(q1, c0));
    let d = cross(&u, &v);
    let re = cross(&s, &u) / d;
    let g = [dldr * v[1] / d, dldr * -v[0] / d];
    let unsaid = [f32::NAN; 2];
    (unsaid, unsaid, g.map(|g| (1.0 - re) * g), g.map(|g| re * g))
}
