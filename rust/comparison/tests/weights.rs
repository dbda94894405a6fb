//! Where in its piece a pixel lies, by the geometry of the face alone: weighted by the stored weights, the corners of the piece on the
//! picture give the pixel's centre, and their depths its depth. The pieces of a face that the near plane cuts are worked out here in
//! f64, with their corners in the order that the header tells.
use comparison::cut::{cut_face, perspective, Cut, Vec3};
use comparison::random::Random;
use comparison::scene::EMPTY;
use paqelzim::{Facing, Layer};
use std::collections::BTreeMap;

const SIDE: usize = 48;
/// How far a centre may be off, in pixels, and a depth.
const CLOSE: f64 = 0.01;

/// A point on the picture, in pixels, with its depth.
fn seen(matrix: &[f32; 16], [x, y, z]: Vec3) -> Vec3 {
    let m = matrix.map(f64::from);
    let row = |k: usize| m[k] * x + m[4 + k] * y + m[8 + k] * z + m[12 + k];
    let (half, divisor) = (0.5 * SIDE as f64, row(3));
    [
        half * (1.0 + row(0) / divisor),
        half * (1.0 - row(1) / divisor),
        row(2) / divisor,
    ]
}

/// Where the edge between two corners crosses the near plane, at z = −1.
fn crossing(a: Vec3, b: Vec3) -> Vec3 {
    let along = (-1.0 - a[2]) / (b[2] - a[2]);
    std::array::from_fn(|k| a[k] + along * (b[k] - a[k]))
}

/// The pieces of a face with that corner alone on its side of the plane.
fn pieces((lone, beyond, _): Cut, corners: [Vec3; 3]) -> Vec<[Vec3; 3]> {
    let mut others = (0..3).filter(|&k| k != lone).map(|k| corners[k]);
    let mut next = || others.next().expect("two others");
    let (l, p, q) = (corners[lone], next(), next());
    let (lp, lq) = (crossing(l, p), crossing(l, q));
    if beyond {
        vec![[l, lp, lq]]
    } else {
        vec![[p, q, lp], [q, lq, lp]]
    }
}

/// Whether the corners, so weighted, are at the place, and the weights sum to 1.
fn fits(corners: &[Vec3; 3], weights: [f32; 3], place: Vec3) -> bool {
    let weights = weights.map(f64::from);
    let sum = |k: usize| (0..3).map(|at| weights[at] * corners[at][k]).sum::<f64>();
    let close = |k: usize| (sum(k) - place[k]).abs() < CLOSE;
    (0..3).all(close) && (weights.iter().sum::<f64>() - 1.0).abs() < 1e-5
}

/// The centre and depth of each pixel that is not empty, and its weights.
fn covered(layer: &Layer) -> impl Iterator<Item = (Vec3, [f32; 3])> + '_ {
    let shown = (0..SIDE * SIDE).filter(|&p| layer.map()[p] != EMPTY);
    shown.map(|p| {
        let (x, y) = ((p % SIDE) as f64 + 0.5, (p / SIDE) as f64 + 0.5);
        ([x, y, layer.depths()[p].into()], layer.weights()[p])
    })
}

/// A face alone on a clear layer.
fn drawn(corners: &[Vec3; 3], matrix: &[f32; 16]) -> Layer {
    let xyz: Vec<f32> = corners.as_flattened().iter().map(|&x| x as f32).collect();
    let mut layer = Layer::new(SIDE, SIDE).expect("accepted");
    let answer = layer.draw(&[0, 1, 2], &xyz, matrix, 0, Facing::All);
    answer.expect("accepted");
    layer
}

#[test]
fn of_a_whole_face_they_are_over_its_own_corners() {
    let identity = std::array::from_fn(|i| if i % 5 == 0 { 1.0 } else { 0.0 });
    let mut pixels = 0;
    for seed in 0..2_000 {
        let random = &mut Random::new(seed);
        let mut corner = |_| {
            let mut side = || f64::from(random.between(-1.5, 1.5));
            [side(), side(), side() - 3.0]
        };
        let corners = [0; 3].map(&mut corner);
        let (t11, near) = (random.one_of(&[-1.0, 1.0]), 0.5);
        for matrix in [identity, perspective(t11, near)] {
            let on_picture = corners.map(|corner| seen(&matrix, corner));
            for (place, weights) in covered(&drawn(&corners, &matrix)) {
                assert!(fits(&on_picture, weights, place), "seed {seed}: {place:?}");
                pixels += 1;
            }
        }
    }
    println!("{pixels} pixels");
    assert!(pixels > 500_000);
}

/// Which corner is alone, whether it is beyond the plane, and which piece it is.
type Kind = (usize, bool, usize);

#[test]
fn of_a_face_that_is_cut_they_are_over_the_piece_s_corners() {
    let mut met: BTreeMap<Kind, usize> = BTreeMap::new();
    let mut by_the_face = 0;
    for seed in 0..6_000 {
        let random = &mut Random::new(seed);
        let Some((cut, corners)) = cut_face(random) else {
            continue;
        };
        let matrix = perspective(random.one_of(&[-1.0, 1.0]), 1.0);
        let on_picture = |piece: [Vec3; 3]| piece.map(|corner| seen(&matrix, corner));
        let own = on_picture(corners);
        let pieces: Vec<_> = pieces(cut, corners).into_iter().map(on_picture).collect();
        for (place, weights) in covered(&drawn(&corners, &matrix)) {
            let piece = pieces.iter().position(|piece| fits(piece, weights, place));
            let piece = piece.unwrap_or_else(|| panic!("seed {seed}: {place:?}"));
            *met.entry((cut.0, cut.1, piece)).or_insert(0) += 1;
            by_the_face += usize::from(fits(&own, weights, place));
        }
    }
    println!("{met:?}; {by_the_face} by the face's corners too");
    assert!(met.len() == 9 && met.values().all(|&pixels| pixels > 10_000));
    assert!(by_the_face < 1_000);
}
