//! Which way round is front, by the geometry of the mesh alone: of closed bodies under the usual matrices and their mirror images,
//! and of faces that the near plane cuts.
use comparison::cut::{cross, cut_face, dot, minus, perspective, Cut, Vec3};
use comparison::random::Random;
use comparison::scene::EMPTY;
use paqelzim::{Facing, Layer};
use std::collections::BTreeMap;

const SIDE: usize = 48;

/// The faces on a clear layer.
fn drawn(tri2vtx: &[u32], vtx2xyz: &[Vec3], matrix: &[f32; 16], facing: Facing) -> Layer {
    let mut layer = Layer::new(SIDE, SIDE).expect("accepted");
    let xyz: Vec<f32> = vtx2xyz.as_flattened().iter().map(|&x| x as f32).collect();
    let answer = layer.draw(tri2vtx, &xyz, matrix, 0, facing);
    answer.expect("accepted");
    layer
}

/// Its map.
fn map(tri2vtx: &[u32], vtx2xyz: &[Vec3], matrix: &[f32; 16], facing: Facing) -> Vec<u32> {
    drawn(tri2vtx, vtx2xyz, matrix, facing).map().to_vec()
}

/// A cube, turned any way and moved, its twelve faces counter-clockwise as seen from outside.
fn cube(random: &mut Random, centre: Vec3) -> (Vec<u32>, Vec<Vec3>) {
    let mut any = || [(); 3].map(|()| f64::from(random.between(-1.0, 1.0)));
    let (u, v) = (any(), any());
    let unit = |a: Vec3| a.map(|x| 0.5 * x / dot(a, a).sqrt());
    let (x, z) = (unit(u), unit(cross(u, v)));
    let y = unit(cross(z, x));
    let corner = |k: usize| -> Vec3 {
        let side = |bit: usize| if k & bit == 0 { -1.0 } else { 1.0 };
        std::array::from_fn(|i| centre[i] + side(1) * x[i] + side(2) * y[i] + side(4) * z[i])
    };
    let corners: Vec<Vec3> = (0..8).map(corner).collect();
    let sides = [
        [0, 2, 3, 1],
        [4, 5, 7, 6],
        [0, 1, 5, 4],
        [2, 6, 7, 3],
        [0, 4, 6, 2],
        [1, 3, 7, 5],
    ];
    let faces = sides.iter().flat_map(|&[a, b, c, d]| [a, b, c, a, c, d]);
    (faces.collect(), corners)
}

/// Two corners of each face exchanged.
fn turned_round(tri2vtx: &[u32]) -> Vec<u32> {
    let faces = tri2vtx.as_chunks::<3>().0.iter();
    faces.flat_map(|&[a, b, c]| [a, c, b]).collect()
}

/// A matrix and where its camera stands; none stands at the far end of z.
type View = ([f32; 16], Option<Vec3>);

/// Where a cube is seen whole.
fn place(camera: Option<Vec3>) -> Vec3 {
    camera.map_or([0.0; 3], |_| [0.1, -0.2, -3.0])
}

/// The identity, OpenGL's perspective, the fit's.
fn views() -> [View; 3] {
    let identity = std::array::from_fn(|i| if i % 5 == 0 { 1.0 } else { 0.0 });
    let origin = Some([0.0; 3]);
    [
        (identity, None),
        (perspective(-1.0, 0.5), origin),
        (perspective(1.0, 0.5), origin),
    ]
}

/// The matrix with rows negated.
fn negated(matrix: &[f32; 16], rows: &[usize]) -> [f32; 16] {
    std::array::from_fn(|i| {
        if rows.contains(&(i % 4)) {
            -matrix[i]
        } else {
            matrix[i]
        }
    })
}

/// Whether the outer side of a face that is counter-clockwise as seen from outside is turned to the camera.
fn is_seen(corners: [Vec3; 3], camera: Option<Vec3>) -> bool {
    let outward = cross(minus(corners[1], corners[0]), minus(corners[2], corners[0]));
    match camera {
        Some(camera) => dot(outward, minus(camera, corners[0])) > 0.0,
        None => outward[2] > 0.0,
    }
}

/// A cube before a camera: under the matrix, front pieces of the clockwise faces are all turned to the camera, and those of the
/// counter-clockwise ones away from it; the other way round where the matrix mirrors. Tells the pixels that were held, and those
/// that only all faces cover.
fn sides(seed: u64, (matrix, camera): &View, mirrored: bool) -> (usize, usize) {
    let (counter_clockwise, corners) = cube(&mut Random::new(seed), place(*camera));
    let clockwise = turned_round(&counter_clockwise);
    let covered = |map: &[u32]| map.iter().filter(|&&entry| entry != EMPTY).count();
    let mut sums = (0, 0);
    for (faces, is_clockwise) in [(&counter_clockwise, false), (&clockwise, true)] {
        let front = map(faces, &corners, matrix, Facing::Front);
        for &held in front.iter().filter(|&&entry| entry != EMPTY) {
            let face = counter_clockwise.as_chunks::<3>().0[held as usize];
            let seen = is_seen(face.map(|v| corners[v as usize]), *camera);
            assert_eq!(seen, is_clockwise != mirrored, "seed {seed}, {matrix:?}");
        }
        let all = map(faces, &corners, matrix, Facing::All);
        sums.0 += covered(&front);
        sums.1 += covered(&all) - covered(&front);
    }
    sums
}

#[test]
fn of_closed_bodies_one_winding_shows_the_near_side_and_the_other_the_far_one() {
    let (mut held, mut apart) = (0, 0);
    let mirrors = [
        (&[][..], false),
        (&[0], true),
        (&[1], true),
        (&[0, 1], false),
    ];
    for (matrix, camera) in views() {
        for (rows, mirrored) in mirrors {
            let view = (negated(&matrix, rows), camera);
            for seed in 0..200 {
                let sums = sides(seed, &view, mirrored);
                (held, apart) = (held + sums.0, apart + sums.1);
            }
        }
    }
    println!("{held} pixels held by front pieces, {apart} by others alone");
    // a centre just off the outline is taken by one face's weights, which may be −1e-5, and not by its neighbour's
    assert!(held > 1_000_000 && apart < 50);
}

/// Under OpenGL's matrix the greater depth is the farther.
#[test]
fn all_faces_show_the_near_side_but_under_opengl_s_matrix_the_far_one() {
    let (mut held, mut apart) = (0, 0);
    for (at, (matrix, camera)) in views().into_iter().enumerate() {
        for seed in 0..200 {
            let (counter_clockwise, corners) = cube(&mut Random::new(seed), place(camera));
            let shown = match at {
                1 => counter_clockwise,
                _ => turned_round(&counter_clockwise),
            };
            let all = map(&shown, &corners, &matrix, Facing::All);
            let front = map(&shown, &corners, &matrix, Facing::Front);
            held += front.iter().filter(|&&entry| entry != EMPTY).count();
            apart += all.iter().zip(&front).filter(|(a, b)| a != b).count();
        }
    }
    println!("{held} pixels held, {apart} not by the side that all faces show");
    assert!(held > 200_000 && apart < 50);
}

/// In how many pieces the face is drawn.
fn pieces(corners: &[Vec3; 3], matrix: &[f32; 16]) -> u64 {
    let xyz: Vec<f32> = corners.as_flattened().iter().map(|&x| x as f32).collect();
    let load = paqelzim::drawing_load(&[0, 1, 2], &xyz, SIDE, SIDE, matrix);
    load.expect("accepted").pieces
}

#[test]
fn a_face_that_is_cut_faces_as_it_does_whole() {
    let mut met: BTreeMap<Cut, usize> = BTreeMap::new();
    let clear = Layer::new(SIDE, SIDE).expect("accepted");
    for seed in 0..6_000 {
        let random = &mut Random::new(seed);
        let Some((cut, corners)) = cut_face(random) else {
            continue;
        };
        let matrix = perspective(random.one_of(&[-1.0, 1.0]), 1.0);
        assert_eq!(pieces(&corners, &matrix), if cut.1 { 1 } else { 2 });
        let all = drawn(&[0, 1, 2], &corners, &matrix, Facing::All);
        let front = drawn(&[0, 1, 2], &corners, &matrix, Facing::Front);
        let wanted = if cut.2 { &all } else { &clear };
        assert_eq!(&front, wanted, "{cut:?}, seed {seed}");
        if all.map().contains(&0) {
            *met.entry(cut).or_insert(0) += 1;
        }
    }
    println!("{met:?}");
    assert!(
        met.len() == 12 && met.values().all(|&faces| faces > 100),
        "{met:?}"
    );
}
