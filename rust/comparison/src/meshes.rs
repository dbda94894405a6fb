//! Meshes whose drawing and labelling are timed, on clear layers of a square image.
use crate::expected::cleared;
use crate::random::Random;
use crate::scene::Scene;

/// A camera that looks along −z, with every face of the meshes below before it.
fn camera() -> [f32; 16] {
    let (near, far) = (0.5, 10.0);
    let mut m = [0.0; 16];
    (m[0], m[5], m[11]) = (1.0, 1.0, -1.0);
    m[10] = -(far + near) / (far - near);
    m[14] = -2.0 * far * near / (far - near);
    m
}

/// A scene of `side` × `side` pixels with `count` faces, each with corners somewhere on the image plane, which spans −1 to 1.
fn scene(side: usize, count: usize, corners: impl Fn(&mut Random) -> [[f32; 2]; 3]) -> Scene {
    let random = &mut Random::new(count as u64);
    let mut vtx2xyz = Vec::new();
    for _ in 0..count {
        for corner in corners(random) {
            let distance = random.between(1.0, 4.0);
            let [x, y] = corner.map(|c| c * distance);
            vtx2xyz.extend([x, y, -distance]);
        }
    }
    Scene {
        layer: cleared(side * side),
        tri2vtx: (0..3 * count as u32).collect(),
        vtx2xyz,
        img_w: side,
        img_h: side,
        transform_world2ndc: camera(),
        first: 0,
        facing: 0,
    }
}

/// `count` faces of about `extent` pixels a side, somewhere on the image or, moved by `away`, beside it.
pub fn mesh(count: usize, side: usize, extent: (f32, f32), away: f32) -> Scene {
    scene(side, count, |random| {
        let centre = [away, 0.0].map(|c| c + random.between(-1.0, 1.0));
        let reach = random.between(extent.0, extent.1) / side as f32;
        [(); 3].map(|()| centre.map(|c| c + random.between(-reach, reach)))
    })
}

/// `count` faces right across the image and a few pixels wide.
pub fn slivers(count: usize, side: usize) -> Scene {
    scene(side, count, |random| {
        let from = [random.between(-1.0, 1.0), random.between(-1.0, 1.0)];
        let to = [random.between(-1.0, 1.0), random.between(-1.0, 1.0)];
        let width = 6.0 / side as f32;
        let beside = to.map(|c| c + random.between(-width, width));
        [from, to, beside]
    })
}

/// A closed mesh of 2 · `around` · `down` faces, seen from outside, `zoom` times as large as it would be.
pub fn ball(around: usize, down: usize, side: usize, zoom: f32) -> Scene {
    let mut scene = scene(side, 0, |_| unreachable!("it has faces of its own"));
    (scene.transform_world2ndc[0], scene.transform_world2ndc[5]) = (zoom, zoom);
    for j in 0..=down {
        let (sin, cos) = (std::f32::consts::PI * j as f32 / down as f32).sin_cos();
        for i in 0..around {
            let (x, y) = (std::f32::consts::TAU * i as f32 / around as f32).sin_cos();
            scene.vtx2xyz.extend([sin * x, cos, sin * y - 2.0]);
        }
    }
    for (j, i) in (0..down).flat_map(|j| (0..around).map(move |i| (j, i))) {
        let next = (i + 1) % around;
        let corner = |j: usize, i: usize| (j * around + i) as u32;
        let (a, b) = (corner(j, i), corner(j, next));
        let (c, d) = (corner(j + 1, i), corner(j + 1, next));
        scene.tri2vtx.extend([a, c, b, b, c, d]);
    }
    scene
}
