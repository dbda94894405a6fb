//! The drawing call: refusals, and every number of the three lent buffers, beside the questions of 01 and, where its
//! source is found, the listed Rust, bit for bit on 200,000 scenes: of all faces beside the file as it is listed and the one that
//! keeps the weights, and of front pieces beside the one in which each candidate is asked how it faces, and which keeps them too.
use comparison::expected::draw_code;
use comparison::layer::{any_weights, wrong_lengths, Left};
use comparison::margins::Lent;
use comparison::random::Random;
use comparison::scene::{scene, Scene, MOST, SIZES};

const SCENES: u64 = 200_000;
/// Scenes of larger images and some hundred faces.
#[cfg(listed)]
const CROWDED: u64 = 2_000;

extern "C" {
    fn paqelzim_pix2tri_by_rasterization(
        pix2tri: *mut u32,
        pix2tri_len: usize,
        pix2depth: *mut f32,
        pix2depth_len: usize,
        pix2weights: *mut f32,
        pix2weights_len: usize,
        tri2vtx: *const u32,
        tri2vtx_len: usize,
        vtx2xyz: *const f32,
        vtx2xyz_len: usize,
        img_w: usize,
        img_h: usize,
        transform_world2ndc: *const f32,
        first: u32,
        facing: u32,
    ) -> u32;
}

/// The code of the call as C makes it, with any facing.
fn called(scene: &Scene, numbers: &mut [u32], depths: &mut [f32], weights: &mut [f32]) -> u32 {
    // SAFETY: each pointer comes with its slice's own length; the matrix has its sixteen numbers.
    unsafe {
        paqelzim_pix2tri_by_rasterization(
            numbers.as_mut_ptr(),
            numbers.len(),
            depths.as_mut_ptr(),
            depths.len(),
            weights.as_mut_ptr(),
            weights.len(),
            scene.tri2vtx.as_ptr(),
            scene.tri2vtx.len(),
            scene.vtx2xyz.as_ptr(),
            scene.vtx2xyz.len(),
            scene.img_w,
            scene.img_h,
            scene.transform_world2ndc.as_ptr(),
            scene.first,
            scene.facing,
        )
    }
}

/// The package's drawing.
fn packaged(scene: &Scene) -> Left {
    let mut layer = scene.layer.clone();
    let answer = layer.draw(scene, &scene.tri2vtx, scene.first);
    layer.left(answer)
}

/// The drawing as C makes it, which the package's is held to.
fn drawn(scene: &Scene) -> Left {
    let mut lent = Lent::new(&scene.layer);
    let (numbers, depths, weights) = lent.buffers();
    let code = called(scene, numbers, depths, weights);
    let answer = (code, lent.bits());
    assert_eq!(packaged(scene), answer, "the package's {scene:?}");
    answer
}

/// The call changes nothing and answers that code.
fn leaves_all(scene: &Scene, code: u32) {
    assert_eq!(drawn(scene), (code, scene.layer.bits()), "{scene:?}");
}

/// With every facing: no question asks for it.
#[test]
fn every_refusal_is_the_first_no_and_writes_nothing() {
    let mut seen = [0; 10];
    for (seed, facing) in (0..SCENES).zip([0, 1, u32::MAX, 0x8000_0000].into_iter().cycle()) {
        let scene = scene(seed).faced(facing);
        let wanted = draw_code(&scene);
        seen[wanted as usize] += 1;
        if wanted == 0 {
            assert_eq!(drawn(&scene).0, 0, "scene {seed}");
            continue;
        }
        for facing in [0, 1, u32::MAX] {
            leaves_all(&scene.faced(facing), wanted);
        }
    }
    for question in [1, 3, 4, 5, 6] {
        assert!(
            seen[question] > 100,
            "question {question} was hardly met: {seen:?}"
        );
    }
}

/// Of scenes that are accepted with three weights a pixel, and of those that another question refuses.
#[test]
fn weights_of_another_length_are_refused_with_4_after_1_and_3() {
    let mut seen = [0; 10];
    for seed in 0..SCENES / 10 {
        let mut scene = scene(seed).faced((seed % 2) as u32);
        for length in wrong_lengths(scene.layer.pix2weights.len() / 3) {
            scene.layer.pix2weights = any_weights(&mut Random::new(seed), length);
            let wanted = draw_code(&scene);
            seen[wanted as usize] += 1;
            leaves_all(&scene, wanted);
        }
    }
    println!("codes: {seen:?}");
    assert!(seen[1] > 500 && seen[3] > 500 && seen[4] > 80_000);
    assert_eq!(seen[1] + seen[3] + seen[4], 5 * SCENES / 10);
}

#[cfg(listed)]
mod all {
    use super::{drawn, leaves_all, CROWDED, SCENES};
    use comparison::expected::draw_code;
    use comparison::layer::{bits, Cell, Layer};
    use comparison::random::Random;
    use comparison::reference::{self, Way};
    use comparison::scene::{crowded, scene, Scene, EMPTY};
    use std::collections::BTreeMap;

    const CORNERS: [usize; 3] = [0, 1, 2];

    /// What was met.
    #[derive(Debug, Default)]
    struct Seen {
        scenes: usize,
        faces: BTreeMap<Way, u64>,
        /// Pixels that were written, by the way of their face through the drawing.
        written: BTreeMap<Way, u64>,
        /// Pixels that kept a signalling NaN for a depth, or one among their weights.
        kept_depths: usize,
        kept_weights: usize,
    }

    impl Seen {
        /// A scene, and the face that was written at each pixel.
        fn met(&mut self, scene: &Scene, written: &[u32]) {
            let ways: Vec<Way> = reference::ways(scene).collect();
            for &way in &ways {
                *self.faces.entry(way).or_insert(0) += 1;
            }
            for (&face, cell) in written.iter().zip(scene.layer.cells()) {
                match face {
                    EMPTY => self.met_kept(cell),
                    face => *self.written.entry(ways[face as usize]).or_insert(0) += 1,
                }
            }
            self.scenes += 1;
        }

        fn met_kept(&mut self, (_, depth, weights): Cell) {
            let signalling = |x: &f32| x.is_nan() && x.to_bits() & 0x0040_0000 == 0;
            self.kept_depths += usize::from(signalling(&depth));
            self.kept_weights += usize::from(weights.iter().any(signalling));
        }

        /// Each way was met so often, and so many pixels were written of each that is drawn.
        fn has_each_way(&self, faces: u64, pixels: u64) {
            println!("{self:?}");
            let cut = CORNERS.map(Way::One).into_iter();
            let cut = cut.chain(CORNERS.map(|corner| Way::Two(corner, 2)));
            let drawn: Vec<Way> = [Way::Unclipped, Way::Whole]
                .into_iter()
                .chain(cut)
                .collect();
            let least = |counts: &BTreeMap<Way, u64>, ways: &[Way], least: u64| {
                for way in ways {
                    let met = counts.get(way).copied().unwrap_or(0);
                    assert!(met > least, "the way {way:?} was hardly met: {met}");
                }
            };
            least(&self.faces, &drawn, faces);
            least(&self.written, &drawn, pixels);
            let others = [Way::Unprojectable, Way::Behind, Way::None];
            least(&self.faces, &others, faces);
        }
    }

    /// No weight that is written is a NaN: the depth would have been one, which is never greater.
    fn has_numbers_for_weights(layer: &Layer, written: &[u32]) -> bool {
        let mut cells = written.iter().zip(layer.cells());
        cells.all(|(&face, cell)| face == EMPTY || cell.2.iter().all(|b| !b.is_nan()))
    }

    /// Over the drawing itself, with other weights, nothing is written, as every depth that is greatest is equal; nor is it
    /// over NaNs, as nothing is greater.
    fn keeps_equal_depths_and_nans(scene: &Scene, layer: Layer, seed: u64) {
        let mut again = Scene {
            layer,
            first: 0,
            ..scene.clone()
        };
        again.layer.pix2weights = scene.layer.pix2weights.clone();
        leaves_all(&again, 0);
        let random = &mut Random::new(seed);
        again.layer.pix2depth.fill_with(|| random.signalling());
        leaves_all(&again, 0);
    }

    /// Beside the listed Rust that keeps the weights, which draws map and depths as the listed file does.
    fn is_drawn_as_listed(scene: &Scene, seed: u64, seen: &mut Seen) {
        let reference::Drawn { layer, written } = reference::drawn(scene);
        let (numbers, depths) = reference::drawn_as_listed(scene);
        let listed = [numbers, bits(&depths), bits(&layer.pix2weights)];
        assert_eq!(layer.bits(), listed, "with the weights kept: {scene:?}");
        assert_eq!(drawn(scene), (0, listed), "{scene:?}");
        assert!(has_numbers_for_weights(&layer, &written), "{scene:?}");
        seen.met(scene, &written);
        keeps_equal_depths_and_nans(scene, layer, seed);
    }

    #[test]
    fn every_scene_is_drawn_as_the_listed_rust_draws_it() {
        let mut seen = Seen::default();
        for seed in 0..SCENES {
            let scene = scene(seed);
            if draw_code(&scene) == 0 {
                is_drawn_as_listed(&scene, seed, &mut seen);
            }
        }
        seen.has_each_way(50, 1_000);
        assert!(seen.scenes > 150_000);
        assert!(seen.kept_depths > 100_000 && seen.kept_weights > 1_000_000);
        // a NaN among the scores sends a face with no valid corner into two pieces
        let nowhere = |&corner: &usize| seen.faces.contains_key(&Way::Two(corner, 0));
        assert!(CORNERS.iter().any(nowhere));
    }

    #[test]
    fn so_are_crowded_scenes() {
        let mut seen = Seen::default();
        for seed in 0..CROWDED {
            is_drawn_as_listed(&crowded(&mut Random::new(seed)), seed, &mut seen);
        }
        seen.has_each_way(50, 1_000);
    }
}

#[cfg(listed)]
mod front {
    use super::{drawn, SCENES};
    use comparison::expected::draw_code;
    use comparison::random::Random;
    use comparison::reference::{self, Branch, Candidates};
    use comparison::scene::{crowded, scene, Scene};

    /// Numbers that ask for front pieces.
    const FRONT: [u32; 2] = [1, u32::MAX];

    /// What was met.
    #[derive(Default)]
    struct Seen {
        scenes: usize,
        /// Scenes with a pixel that a front face holds, and another would hold among all faces.
        hidden: usize,
        /// Scenes with a pixel that is drawn with all faces alone.
        emptied: usize,
        candidates: Candidates,
    }

    impl Seen {
        fn met(&mut self, scene: &Scene, all: &[u32], front: &[u32]) {
            let pixels = || scene.layer.pix2tri.iter().zip(all).zip(front);
            let hidden = |((old, all), front): ((&u32, &u32), &u32)| front != old && front != all;
            let emptied = |((old, all), front): ((&u32, &u32), &u32)| front == old && front != all;
            self.scenes += 1;
            self.hidden += usize::from(pixels().any(hidden));
            self.emptied += usize::from(pixels().any(emptied));
        }

        /// Every branch with candidates of both orientations: above 0 those that count, but for the branches whose pieces
        /// are turned round.
        fn has_each_branch(&self, least: u64) {
            println!(
                "{} scenes: a face before a front one in {}, pixels left out in {}",
                self.scenes, self.hidden, self.emptied
            );
            for branch in Branch::ALL {
                let of = |above, counts| {
                    self.candidates
                        .get(&(branch, above, counts))
                        .copied()
                        .unwrap_or(0)
                };
                let above = !branch.turned();
                println!(
                    "{branch:?}: {} candidates count, {} are left out",
                    of(above, true),
                    of(!above, false)
                );
                assert!(
                    of(above, true) > least && of(!above, false) > least,
                    "{branch:?} was hardly met"
                );
                assert_eq!(
                    of(above, false) + of(!above, true),
                    0,
                    "{branch:?} the other way round"
                );
            }
        }
    }

    /// Beside the file that asks each candidate, with either number; and with 0 that file is the one that asks none.
    fn is_drawn_as_asked(scene: &Scene, seen: &mut Seen) {
        let (front, candidates) = reference::drawn_facing(&scene.faced(1));
        for facing in FRONT {
            let ours = drawn(&scene.faced(facing));
            assert_eq!(ours, (0, front.layer.bits()), "with {facing}: {scene:?}");
        }
        let all = reference::drawn_facing(scene).0.layer;
        let listed = reference::drawn(scene).layer;
        assert_eq!(all.bits(), listed.bits(), "all of {scene:?}");
        seen.met(scene, &all.pix2tri, &front.layer.pix2tri);
        for (met, count) in candidates {
            *seen.candidates.entry(met).or_insert(0) += count;
        }
    }

    #[test]
    fn pieces_are_drawn_as_the_listed_rust_draws_those_that_face() {
        let mut seen = Seen::default();
        for scene in (0..SCENES).map(scene).filter(|scene| draw_code(scene) == 0) {
            is_drawn_as_asked(&scene, &mut seen);
        }
        seen.has_each_branch(500);
        assert!(seen.scenes > 150_000 && seen.hidden > 4_000 && seen.emptied > 10_000);
    }

    #[test]
    fn so_are_those_of_crowded_scenes() {
        let mut seen = Seen::default();
        for seed in 0..super::CROWDED {
            is_drawn_as_asked(&crowded(&mut Random::new(seed)), &mut seen);
        }
        seen.has_each_branch(500);
        assert!(seen.hidden > 500);
    }
}

/// Each bit alone, and all of them.
#[test]
fn every_number_but_0_asks_for_front_pieces() {
    let mut other = 0;
    for scene in (0..500).map(scene) {
        let (all, front) = (drawn(&scene), drawn(&scene.faced(1)));
        for facing in (1..32).map(|bit| 1 << bit).chain([3, u32::MAX]) {
            assert_eq!(drawn(&scene.faced(facing)), front, "{facing}: {scene:?}");
        }
        other += usize::from(all != front);
    }
    assert!(other > 20, "front pieces are all there is: {other}");
}

#[test]
fn widths_and_heights_to_4096() {
    for (w, h, wanted) in SIZES {
        let mut scene = scene(1);
        (scene.img_w, scene.img_h, scene.first) = (w, h, 0);
        scene.layer = std::iter::repeat_n((3, 0.5, [0.25; 3]), w * h).collect();
        scene.tri2vtx.clear();
        scene.vtx2xyz.clear();
        assert_eq!(drawn(&scene).0, wanted, "{w} × {h}");
    }
}

#[test]
fn counts_to_1048576() {
    let mut scene = scene(1);
    (scene.img_w, scene.img_h, scene.first) = (1, 1, 0);
    scene.layer = [(3, 0.5, [0.25; 3])].into_iter().collect();
    scene.tri2vtx.clear();
    scene.vtx2xyz = vec![0.0; 3 * MOST as usize];
    assert_eq!(drawn(&scene).0, 0, "as many vertices");
    scene.vtx2xyz.extend([0.0; 3]);
    assert_eq!(drawn(&scene).0, 3, "one vertex more");
    scene.vtx2xyz.truncate(9);
    scene.tri2vtx = vec![0; 3 * MOST as usize];
    assert_eq!(drawn(&scene).0, 0, "as many faces");
    scene.first = 1;
    assert_eq!(drawn(&scene).0, 5, "as many faces, numbered from 1");
    scene.tri2vtx.extend([0; 3]);
    assert_eq!(drawn(&scene).0, 3, "one face more");
}
