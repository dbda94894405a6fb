//! Clearing and joining beside 01's and 02's words, with every length by one and NaN payloads kept, and the package's own `Layer`.
use comparison::expected::{clear_code, cleared, join_code, joined};
use comparison::layer::{any_weights, owned_bits, wrong_lengths, Layer, Left};
use comparison::random::Random;
use comparison::scene::{scene, Scene};
use paqelzim::Refusal;

const CASES: u64 = 20_000;

/// A size, refused now and then.
fn size(random: &mut Random) -> (usize, usize) {
    let mut side = || match random.below(30) {
        0 => random.one_of(&[0, 4097, usize::MAX]),
        _ => random.within(1, 9),
    };
    (side(), side())
}

/// The length of a buffer that should have so many, wrong by one now and then.
fn length(random: &mut Random, exact: usize) -> usize {
    match random.below(30) {
        0 => exact + 1,
        1 => exact.saturating_sub(1),
        _ => exact,
    }
}

/// A layer for that size that holds anything.
fn layer(random: &mut Random, (w, h): (usize, usize)) -> Layer {
    let pixels = w.wrapping_mul(h) % 100;
    let lengths = [pixels, pixels, 3 * pixels].map(|exact| length(random, exact));
    Layer::any(random, lengths)
}

fn cleared_by_call(layer: &Layer, (w, h): (usize, usize)) -> Left {
    let mut new = layer.clone();
    let answer = new.clear(w, h);
    new.left(answer)
}

fn joined_by_call(layer: &Layer, right: &Layer, (w, h): (usize, usize)) -> Left {
    let mut new = layer.clone();
    let answer = new.join(right, w, h);
    new.left(answer)
}

/// What a call must leave: that layer where it is accepted, else what it was lent.
fn wanted(code: u32, accepted: impl FnOnce() -> Layer, lent: &Layer) -> Left {
    let bits = match code {
        0 => accepted().bits(),
        _ => lent.bits(),
    };
    (code, bits)
}

#[test]
fn clearing() {
    let mut seen = [0; 5];
    for seed in 0..CASES {
        let random = &mut Random::new(seed);
        let size = size(random);
        let lent = layer(random, size);
        let code = clear_code(&lent, size.0, size.1);
        let pixels = lent.pix2tri.len();
        assert_eq!(
            cleared_by_call(&lent, size),
            wanted(code, || cleared(pixels), &lent),
            "{size:?}, {lent:?}"
        );
        seen[code as usize] += 1;
    }
    println!("codes: {seen:?}");
    assert!(seen[0] > 10_000 && seen[1] > 100 && seen[4] > 100);
}

/// Of the joined pixels, how many took the right cell, how many had equal depths, a NaN on the left, a NaN on the right.
fn kinds(lent: &Layer, right: &Layer, seen: &mut [usize; 4]) {
    for (l, r) in lent.pix2depth.iter().zip(&right.pix2depth) {
        let met = [r > l, r == l, l.is_nan(), r.is_nan()];
        for (seen, met) in seen.iter_mut().zip(met) {
            *seen += usize::from(met);
        }
    }
}

#[test]
fn joining() {
    let (mut seen, mut pixels) = ([0; 5], [0; 4]);
    for seed in 0..CASES {
        let random = &mut Random::new(seed);
        let size = size(random);
        let (lent, right) = (layer(random, size), layer(random, size));
        let code = join_code([&lent, &right], size.0, size.1);
        assert_eq!(
            joined_by_call(&lent, &right, size),
            wanted(code, || joined(&lent, &right), &lent),
            "{size:?}, {lent:?}, {right:?}"
        );
        seen[code as usize] += 1;
        if code == 0 {
            kinds(&lent, &right, &mut pixels);
        }
    }
    println!("codes: {seen:?}; pixels greater, equal, beside a NaN: {pixels:?}");
    assert!(seen[0] > 10_000 && seen[1] > 100 && seen[4] > 100);
    assert!(pixels.iter().all(|&pixels| pixels > 8_000));
}

/// The other buffers as they should be, of each size up to 9: in the layer that is cleared, and on either side of a join.
#[test]
fn weights_of_another_length_are_refused() {
    let mut refused = 0;
    for (w, h) in (1..=9).flat_map(|w| (1..=9).map(move |h| (w, h))) {
        let random = &mut Random::new((10 * w + h) as u64);
        let (pixels, size) = (w * h, (w, h));
        let exact = Layer::any(random, [pixels, pixels, 3 * pixels]);
        for length in wrong_lengths(pixels) {
            let mut wrong = exact.clone();
            wrong.pix2weights = any_weights(random, length);
            let kept = (4, wrong.bits());
            let left = [
                cleared_by_call(&wrong, size),
                joined_by_call(&wrong, &exact, size),
                joined_by_call(&exact, &wrong, size),
            ];
            let wanted = [kept.clone(), kept, (4, exact.bits())];
            assert_eq!(left, wanted, "{size:?}, {length}");
            refused += left.len();
        }
    }
    println!("{refused} calls refused");
}

/// A layer of the package's own, and the slices of one.
struct Both {
    owned: paqelzim::Layer,
    slices: Layer,
}

impl Both {
    fn are_alike(&self, scene: &Scene) {
        let owned = &self.owned;
        assert_eq!(owned_bits(owned), self.slices.bits(), "{scene:?}");
        assert_eq!((owned.width(), owned.height()), (scene.img_w, scene.img_h));
    }

    /// Clear, and then drawn with these faces of the scene; or the refusal of its size.
    fn drawn(scene: &Scene, faces: &[u32]) -> Result<Self, Refusal> {
        let (w, h) = (scene.img_w, scene.img_h);
        let mut both = Both {
            owned: paqelzim::Layer::new(w, h)?,
            slices: cleared(w * h),
        };
        both.are_alike(scene);
        let (xyz, matrix) = (&scene.vtx2xyz, &scene.transform_world2ndc);
        let (first, facing) = (scene.first, scene.facing());
        let answer = both.slices.draw(scene, faces, first);
        let owned = both.owned.draw(faces, xyz, matrix, first, facing);
        assert_eq!(owned, answer, "{scene:?}");
        both.are_alike(scene);
        Ok(both)
    }
}

/// Drawn, some with a mesh that is refused, joined and cleared again.
#[test]
fn an_owned_layer_is_its_three_slices() {
    let (mut layers, mut sizes, mut other) = (0, 0, 0);
    for scene in (0..CASES).map(|seed| scene(seed).faced((seed % 2) as u32)) {
        let (w, h) = (scene.img_w, scene.img_h);
        let cut = scene.tri2vtx.len() / 6 * 3;
        let halves = [&scene.tri2vtx[..cut], &scene.tri2vtx[cut..]];
        let [Ok(mut left), Ok(right)] = halves.map(|faces| Both::drawn(&scene, faces)) else {
            assert_eq!(clear_code(&cleared(0), w, h), 1, "{scene:?}");
            sizes += 1;
            continue;
        };
        left.owned.join(&right.owned).expect("of one size");
        let joined = joined(&left.slices, &right.slices);
        other += usize::from(joined.bits() != left.slices.bits());
        left.slices = joined;
        left.are_alike(&scene);
        left.owned.clear();
        left.slices = cleared(w * h);
        left.are_alike(&scene);
        layers += 1;
    }
    println!("{layers} pairs of layers, {other} changed by the join; {sizes} sizes refused");
    assert!(layers > 15_000 && other > 1_500 && sizes > 500);
}
