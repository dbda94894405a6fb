//! The load call: refusals beside 01's questions, and both counts beside those of the listed Rust and its scan, whatever the
//! facing, which the call does not take: a piece that is not front is cut and scanned like any other.
use comparison::expected::load_code;
use comparison::scene::{scene, Scene, MOST};
use paqelzim::{drawing_load, DrawingLoad};

const SCENES: u64 = 100_000;

/// What the call answers, as C sees it.
#[repr(C)]
#[derive(Debug, PartialEq)]
struct Answer {
    code: u32,
    pieces: u64,
    pixels: u64,
}

extern "C" {
    fn paqelzim_drawing_load(
        tri2vtx: *const u32,
        tri2vtx_len: usize,
        vtx2xyz: *const f32,
        vtx2xyz_len: usize,
        img_w: usize,
        img_h: usize,
        transform_world2ndc: *const f32,
    ) -> Answer;
}

/// The answer as C sees it, which the package's is held to.
fn loaded(scene: &Scene) -> Answer {
    // SAFETY: each pointer comes with its slice's own length; the matrix has its sixteen numbers.
    let answer = unsafe {
        paqelzim_drawing_load(
            scene.tri2vtx.as_ptr(),
            scene.tri2vtx.len(),
            scene.vtx2xyz.as_ptr(),
            scene.vtx2xyz.len(),
            scene.img_w,
            scene.img_h,
            scene.transform_world2ndc.as_ptr(),
        )
    };
    let packaged = drawing_load(
        &scene.tri2vtx,
        &scene.vtx2xyz,
        scene.img_w,
        scene.img_h,
        &scene.transform_world2ndc,
    );
    let Answer {
        code,
        pieces,
        pixels,
    } = answer;
    let same = match packaged {
        Ok(load) => code == 0 && load == (DrawingLoad { pieces, pixels }),
        Err(refusal) => code == refusal.code(),
    };
    assert!(same, "{answer:?} and {packaged:?}");
    answer
}

fn refused(code: u32) -> Answer {
    Answer {
        code,
        pieces: 0,
        pixels: 0,
    }
}

#[test]
fn every_refusal_is_the_first_no_with_no_load() {
    let mut seen = [0; 10];
    for seed in 0..SCENES {
        let scene = scene(seed);
        let (wanted, answer) = (load_code(&scene), loaded(&scene));
        assert_eq!(answer.code, wanted, "scene {seed}");
        if wanted != 0 {
            assert_eq!(answer, refused(wanted), "scene {seed}");
        }
        seen[wanted as usize] += 1;
    }
    println!("codes: {seen:?}");
    for question in [1, 3, 6] {
        assert!(seen[question] > 100, "question {question}: {seen:?}");
    }
}

#[cfg(listed)]
mod listed {
    use super::{load_code, loaded, Answer, SCENES};
    use comparison::random::Random;
    use comparison::reference::{self, Way};
    use comparison::scene::{crowded, scene, Scene, EMPTY};
    use std::collections::BTreeMap;

    /// Scenes of larger images and some hundred faces.
    const CROWDED: u64 = 2_000;

    /// How the closed box of a face that is not cut lies to the image.
    #[derive(Clone, Copy, Debug, PartialEq, Eq, PartialOrd, Ord)]
    enum Place {
        NaN,
        Infinite,
        Off,
        Partly,
        Within,
        /// A corner in a column and a row of centres.
        OnCentre,
    }

    /// The places of the faces that are drawn whole, as worked out here.
    fn places(scene: &Scene) -> Vec<Place> {
        let (w, h) = (scene.img_w as f32, scene.img_h as f32);
        let whole = |way: &Way| matches!(way, Way::Unclipped | Way::Whole);
        let faces = scene.tri2vtx.as_chunks::<3>().0.iter();
        let drawn = faces
            .zip(reference::ways(scene))
            .filter(|(_, way)| whole(way));
        let corners = drawn.map(|(face, _)| face.map(|v| corner(scene, v)));
        let place = |p: [[f32; 2]; 3]| {
            let all = p.as_flattened();
            let outside = |k: usize, size: f32| {
                let (below, above) = (|q: &[f32; 2]| q[k] < 0.5, |q: &[f32; 2]| q[k] > size - 0.5);
                let off = p.iter().all(below) || p.iter().all(above);
                let partly = p.iter().any(|q| below(q) || above(q));
                (off, partly)
            };
            let (columns, rows) = (outside(0, w), outside(1, h));
            if all.iter().any(|x| x.is_nan()) {
                Place::NaN
            } else if all.iter().any(|x| x.is_infinite()) {
                Place::Infinite
            } else if columns.0 || rows.0 {
                Place::Off
            } else if columns.1 || rows.1 {
                Place::Partly
            } else if p.iter().any(|q| q.iter().all(|x| x.fract() == 0.5)) {
                Place::OnCentre
            } else {
                Place::Within
            }
        };
        corners.map(place).collect()
    }

    /// A vertex in pixels.
    fn corner(scene: &Scene, v: u32) -> [f32; 2] {
        let xyz = &scene.vtx2xyz.as_chunks::<3>().0[v as usize];
        let m = &scene.transform_world2ndc;
        let (p, _) = del_geo_core::mat4_col_major::transform_homogeneous(m, xyz).unwrap();
        let (w, h) = (scene.img_w as f32, scene.img_h as f32);
        [(p[0] + 1.0) * 0.5 * w, (1.0 - p[1]) * 0.5 * h]
    }

    /// Both counts beside the listed Rust's, which are those of front pieces too; and no more pixels covered than were offered.
    fn is_counted_as_listed(scene: &Scene) -> (u64, u64) {
        let (pieces, pixels) = reference::load(scene);
        let wanted = Answer {
            code: 0,
            pieces,
            pixels,
        };
        assert_eq!(loaded(scene), wanted, "{scene:?}");
        let front = &scene.faced(1);
        assert_eq!(reference::load(front), (pieces, pixels), "{front:?}");
        let covered = [front, scene].map(covered);
        assert!(
            covered[0] <= covered[1] && covered[1] <= pixels,
            "{scene:?}"
        );
        (pieces, pixels)
    }

    /// The pixels that the mesh covers, drawn by the library on a clear layer with the scene's facing.
    fn covered(scene: &Scene) -> u64 {
        let mut layer = paqelzim::Layer::new(scene.img_w, scene.img_h).expect("accepted");
        let (xyz, matrix) = (&scene.vtx2xyz, &scene.transform_world2ndc);
        layer
            .draw(&scene.tri2vtx, xyz, matrix, 0, scene.facing())
            .expect("what has a load can be drawn");
        layer.map().iter().filter(|&&entry| entry != EMPTY).count() as u64
    }

    #[test]
    fn both_counts_are_the_listed_rust_s() {
        let (mut ways, mut met) = (BTreeMap::new(), BTreeMap::new());
        let (mut scenes, mut pieces, mut pixels) = (0, 0, 0);
        for scene in (0..SCENES).map(scene).filter(|s| load_code(s) == 0) {
            let load = is_counted_as_listed(&scene);
            (scenes, pieces, pixels) = (scenes + 1, pieces + load.0, pixels + load.1);
            for way in reference::ways(&scene) {
                *ways.entry(way).or_insert(0) += 1;
            }
            for place in places(&scene) {
                *met.entry(place).or_insert(0) += 1;
            }
        }
        println!("{scenes} scenes, {pieces} pieces, {pixels} pixels; {ways:?}; {met:?}");
        assert!(scenes >= 50_000);
        let corners = [0, 1, 2];
        let all = [
            Way::Unprojectable,
            Way::Behind,
            Way::Unclipped,
            Way::Whole,
            Way::None,
        ];
        let cut = corners.map(Way::One).into_iter();
        let cut = cut.chain(corners.map(|c| Way::Two(c, 2)));
        for way in all.into_iter().chain(cut) {
            let count = ways.get(&way).copied().unwrap_or(0);
            assert!(count > 50, "the way {way:?} was hardly met: {count}");
        }
        use Place::*;
        for place in [NaN, Infinite, Off, Partly, Within, OnCentre] {
            let count = met.get(&place).copied().unwrap_or(0);
            assert!(count > 50, "{place:?} was hardly met: {count}");
        }
    }

    #[test]
    fn so_are_those_of_crowded_scenes() {
        let mut pixels = 0;
        for seed in 0..CROWDED {
            pixels += is_counted_as_listed(&crowded(&mut Random::new(seed))).1;
        }
        println!("{pixels} pixels offered");
        assert!(pixels > 1_000_000);
    }
}

/// The most that can be counted: as many faces as there may be, each cut in two pieces over the whole of the largest image.
#[test]
fn the_greatest_load() {
    let mut scene = scene(1);
    (scene.img_w, scene.img_h) = (4096, 4096);
    // a camera that looks along −z; one corner lies before its near plane
    scene.transform_world2ndc = [
        1., 0., 0., 0., 0., 1., 0., 0., 0., 0., -3., -1., 0., 0., -4., 0.,
    ];
    scene.vtx2xyz = vec![-900., -900., -3., 900., -900., -3., 0., 900., -0.5];
    scene.tri2vtx = vec![0, 1, 2];
    let one = loaded(&scene);
    assert_eq!(
        (one.code, one.pieces, one.pixels),
        (0, 2, 2 * 4096 * 4096),
        "one face"
    );
    scene.tri2vtx = [0, 1, 2].repeat(MOST as usize);
    let all = loaded(&scene);
    let count = u64::from(MOST);
    let wanted = (0, count * one.pieces, count * one.pixels);
    assert_eq!((all.code, all.pieces, all.pixels), wanted, "all faces");
    scene.tri2vtx.extend([0, 1, 2]);
    assert_eq!(loaded(&scene), refused(3), "one face more");
}

#[test]
fn widths_and_heights_to_4096() {
    for (w, h, wanted) in [(4096, 4096, 0), (4097, 1, 1), (1, 4097, 1), (0, 1, 1)] {
        let mut scene = scene(1);
        (scene.img_w, scene.img_h) = (w, h);
        scene.tri2vtx.clear();
        scene.vtx2xyz.clear();
        assert_eq!(loaded(&scene), refused(wanted), "{w} × {h}, no faces");
    }
}
