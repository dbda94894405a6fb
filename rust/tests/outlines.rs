//! `bwd_antialias` beside central differences of a loss: the sum over pixels of `dldw_pix2val` times the smoothed values. The loss
//! is worked out in f64 from 02's words (Point 1), read here once more and shared with nothing. The map is held fixed: empty on one
//! side of an edge that stays in one half of one column of pixels, or of one row, so that no crossing comes, goes or is met twice.
//!
//! An error is |got − wanted| over a scale: the accumulator's start, and the magnitudes of all that the crossings bring, before
//! anything cancels.
use paqelzim::{antialias, bwd_antialias};
use random::Random;

mod random;

const SCENES: u64 = 5_000;
const BOUND: f64 = 2e-5;
const STEP: f64 = 1.0 / 65536.0;
const EMPTY: u32 = u32::MAX;

impl Random {
    fn floats(&mut self, count: usize) -> Vec<f32> {
        (0..count).map(|_| self.between(-1.0, 1.0) as f32).collect()
    }
}

struct Scene {
    img_w: usize,
    img_h: usize,
    world2pix: [f32; 16],
    vtx2xyz: Vec<f32>,
    pix2tri: Vec<u32>,
    pix2val: Vec<f32>,
    dldw_pix2val: Vec<f32>,
    /// What the accumulators hold at the start.
    before: Vec<f32>,
    /// The shown and the empty pixel of each crossing.
    pairs: Vec<[usize; 2]>,
}

/// A camera at no particular place; every divisor is near 1.
fn matrix(random: &mut Random) -> [f64; 16] {
    std::array::from_fn(|i| match i {
        15 => 1.0,
        i if i % 4 == 3 => random.between(-0.05, 0.05),
        // wide enough a view, and neither axis along the other
        0 | 5 => random.between(3.0, 6.0),
        _ => random.between(-1.0, 1.0),
    })
}

/// A point that the matrix takes to a place in pixels, at any depth.
fn seen_at(random: &mut Random, m: &[f64; 16], [px, py]: [f64; 2]) -> [f64; 3] {
    let z = random.between(-1.0, 1.0);
    let row = |r: usize, p: f64| {
        let entry = |k: usize| m[4 * k + r] - p * m[4 * k + 3];
        (entry(0), entry(1), -(entry(2) * z + entry(3)))
    };
    let ((a, b, e), (c, d, f)) = (row(0, px), row(1, py));
    let determinant = a * d - b * c;
    let [x, y] = [e * d - b * f, a * f - e * c].map(|x| x / determinant);
    [x, y, z]
}

fn projected(m: &[f32; 16], x: &[f64]) -> [f64; 2] {
    let m = m.map(f64::from);
    let y = |r: usize| m[r] * x[0] + m[4 + r] * x[1] + m[8 + r] * x[2] + m[12 + r];
    [y(0) / y(3), y(1) / y(3)]
}

/// The line of pixels that the edge runs along: across it lie the pairs, along it the edge.
struct Strip {
    size: [usize; 2],
    across: usize,
    along: usize,
    line: usize,
    /// Where in it the edge stays: from 0.05 to 0.45, or from 0.55 to 0.95.
    second_half: bool,
    shown_first: bool,
}

impl Strip {
    fn new(random: &mut Random) -> Self {
        let size = [random.within(4, 16), random.within(4, 16)];
        let (across, along) = [(0, 1), (1, 0)][random.within(0, 1)];
        Strip {
            size,
            across,
            along,
            line: random.within(1, size[across] - 2),
            second_half: random.within(0, 1) == 0,
            shown_first: random.within(0, 1) == 0,
        }
    }

    /// An end of the edge, so far along.
    fn end(&self, random: &mut Random, at: f64) -> [f64; 2] {
        let half = if self.second_half { 0.5 } else { 0.0 };
        let mut place = [at; 2];
        place[self.across] = self.line as f64 + half + random.between(0.05, 0.45);
        place
    }

    /// The first line whose centres are on the edge's far side.
    fn far(&self) -> usize {
        self.line + usize::from(self.second_half)
    }

    fn is_shown(&self, p: usize) -> bool {
        let [w, _] = self.size;
        ([p % w, p / w][self.across] < self.far()) == self.shown_first
    }

    /// The pixels on both sides of the edge, so far along, the shown one first.
    fn pair(&self, k: usize) -> [usize; 2] {
        let steps = [1, self.size[0]];
        let at = |line: usize| line * steps[self.across] + k * steps[self.along];
        let mut pair = [at(self.far() - 1), at(self.far())];
        pair.sort_by_key(|&p| !self.is_shown(p));
        pair
    }
}

/// A scene for each seed.
fn scene(seed: u64) -> Scene {
    let random = &mut Random(seed << 32);
    let strip = Strip::new(random);
    let matrix = matrix(random);
    let length = strip.size[strip.along];
    let ends = [0.25, length as f64 - 0.25].map(|at| strip.end(random, at));
    let points = ends.map(|place| seen_at(random, &matrix, place));
    let pixels = strip.size[0] * strip.size[1];
    let entry = |p: usize| if strip.is_shown(p) { 0 } else { EMPTY };
    Scene {
        img_w: strip.size[0],
        img_h: strip.size[1],
        world2pix: matrix.map(|x| x as f32),
        vtx2xyz: points.as_flattened().iter().map(|&x| x as f32).collect(),
        pix2tri: (0..pixels).map(entry).collect(),
        pix2val: random.floats(pixels),
        dldw_pix2val: random.floats(pixels),
        before: random.floats(6),
        pairs: (1..length - 1).map(|k| strip.pair(k)).collect(),
    }
}

impl Scene {
    /// What a crossing writes, and where.
    fn smoothed(&self, [shown, empty]: [usize; 2], vtx2xyz: &[f64]) -> (usize, f64) {
        let minus = |a: [f64; 2], b: [f64; 2]| [a[0] - b[0], a[1] - b[1]];
        let cross = |a: [f64; 2], b: [f64; 2]| a[0] * b[1] - a[1] * b[0];
        let q0 = projected(&self.world2pix, &vtx2xyz[..3]);
        let q1 = projected(&self.world2pix, &vtx2xyz[3..]);
        let centre = |p: usize| [p % self.img_w, p / self.img_w].map(|i| i as f64 + 0.5);
        let (u, v) = (minus(centre(empty), centre(shown)), minus(q0, q1));
        let rc = cross(minus(q1, centre(shown)), v) / cross(u, v);
        let (at, part) = match rc {
            0.0..0.5 => (shown, 0.5 + rc),
            0.5..1.0 => (empty, rc - 0.5),
            _ => panic!("no crossing: {rc}"),
        };
        let [inner, outer] = [shown, empty].map(|p| f64::from(self.pix2val[p]));
        (at, part * inner + (1.0 - part) * outer)
    }

    /// What each crossing adds to the loss.
    fn losses(&self, vtx2xyz: &[f64]) -> Vec<f64> {
        let loss = |&pair: &[usize; 2]| {
            let (at, value) = self.smoothed(pair, vtx2xyz);
            f64::from(self.dldw_pix2val[at]) * value
        };
        self.pairs.iter().map(loss).collect()
    }

    /// The central difference of each crossing's loss by one of the six coordinates.
    fn differences(&self, k: usize) -> Vec<f64> {
        let moved = |step: f64| {
            let mut at: Vec<f64> = self.vtx2xyz.iter().map(|&x| x.into()).collect();
            at[k] += step;
            self.losses(&at)
        };
        let pairs = moved(STEP).into_iter().zip(moved(-STEP));
        pairs
            .map(|(above, below)| (above - below) / (2.0 * STEP))
            .collect()
    }

    /// The accumulators after the library's backward pass.
    fn backward(&self) -> Vec<f32> {
        let mut sums = self.before.clone();
        bwd_antialias(
            &[0, 1],
            &self.vtx2xyz,
            &mut sums,
            &self.world2pix,
            self.img_w,
            self.img_h,
            &self.pix2val,
            &self.dldw_pix2val,
            &self.pix2tri,
        )
        .expect("accepted");
        sums
    }
}

/// The library writes what the loss is made of, and nothing else.
#[test]
fn values_are_those_of_the_loss() {
    let mut worst = 0f64;
    for scene in (0..SCENES).map(scene) {
        let mut smoothed = scene.pix2val.clone();
        antialias(
            &[0, 1],
            &scene.vtx2xyz,
            &scene.world2pix,
            scene.img_w,
            scene.img_h,
            &scene.pix2tri,
            &scene.pix2val,
            &mut smoothed,
        )
        .expect("accepted");
        let at: Vec<f64> = scene.vtx2xyz.iter().map(|&x| x.into()).collect();
        let mut wanted: Vec<f64> = scene.pix2val.iter().map(|&x| x.into()).collect();
        for &pair in &scene.pairs {
            let (at, value) = scene.smoothed(pair, &at);
            wanted[at] = value;
        }
        for (&got, wanted) in smoothed.iter().zip(wanted) {
            worst = worst.max((f64::from(got) - wanted).abs());
        }
    }
    println!("worst error of a smoothed value: {worst:.1e}");
    assert!(worst < BOUND);
}

/// The greatest error of what the accumulators have more than at the start.
fn error(scene: &Scene, after: &[f64]) -> f64 {
    let differences: Vec<Vec<f64>> = (0..6).map(|k| scene.differences(k)).collect();
    let size = |list: &Vec<f64>| list.iter().map(|x| x.abs()).sum::<f64>();
    let scale = 1.0 + differences.iter().map(size).fold(0.0, f64::max);
    let errors = differences.iter().enumerate().map(|(k, wanted)| {
        let got = after[k] - f64::from(scene.before[k]);
        (got - wanted.iter().sum::<f64>()).abs() / scale
    });
    errors.fold(0.0, f64::max)
}

type Wrong = fn(before: &[f64], after: &[f64]) -> Vec<f64>;

const WRONG: [(&str, Wrong); 5] = [
    ("nothing added", |before, _| before.to_vec()),
    ("twice as much", |before, after| {
        let sums = before.iter().zip(after);
        sums.map(|(b, a)| 2.0 * a - b).collect()
    }),
    ("the sign turned", |before, after| {
        let sums = before.iter().zip(after);
        sums.map(|(b, a)| 2.0 * b - a).collect()
    }),
    ("written, not added", |before, after| {
        let sums = before.iter().zip(after);
        sums.map(|(b, a)| a - b).collect()
    }),
    ("the ends exchanged", |before, after| {
        let other = |k: usize| (k + 3) % 6;
        (0..6)
            .map(|k| before[k] + after[other(k)] - before[other(k)])
            .collect()
    }),
];

#[test]
fn gradients_are_those_of_the_loss() {
    let (mut worst, mut crossings, mut reported) = (0f64, 0, [0; WRONG.len()]);
    let wide = |list: &[f32]| -> Vec<f64> { list.iter().map(|&x| x.into()).collect() };
    for scene in (0..SCENES).map(scene) {
        crossings += scene.pairs.len();
        let (before, after) = (wide(&scene.before), wide(&scene.backward()));
        worst = worst.max(error(&scene, &after));
        for ((_, wrong), reported) in WRONG.iter().zip(&mut reported) {
            *reported += u64::from(error(&scene, &wrong(&before, &after)) > BOUND);
        }
    }
    println!("{crossings} crossings; worst relative error {worst:.1e}, bound {BOUND:.1e}");
    assert!(worst < BOUND && crossings > 30_000);
    for ((name, _), reported) in WRONG.iter().zip(reported) {
        println!("{name}: reported {reported} times of {SCENES}");
        assert!(reported * 1000 >= SCENES * 999, "{name}");
    }
}
