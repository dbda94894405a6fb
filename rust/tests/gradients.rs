//! `interpolate_bwd` beside central differences of a loss: the sum over pixels and channels of `dldw_pix2val` times
//! `pix2val`. The loss is worked out in f64 from 01's words ("Ray and plane"; a pixel's value is the sum of its weights
//! times the vertex values), read here once more and shared with nothing. The map is the library's own drawing and is
//! held fixed; the accumulators do not start at zero.
//!
//! An error is |got − wanted| over a scale: the accumulator's start, and the magnitudes of all that the pixels which name
//! the vertex can bring it, before anything cancels (`scales`). A rounding in f32 is at most 2^-24 of its result. A
//! pixel's amounts come from some sixty roundings in a row, whose errors add up like √60 when their signs are by chance,
//! and which the meeting of ray and face magnifies by `stretch`, held to `MOST_STRETCH`. Hence `BOUND`.
use paqelzim::{interpolate, interpolate_bwd};

#[path = "gradients/faults.rs"]
mod faults;
mod random;
#[path = "gradients/rules.rs"]
mod rules;
#[path = "gradients/scene.rs"]
mod scene;

use faults::{Answers, FAULTS};
use rules::{dot, minus, ray, weights, Point, Ray};
use scene::{corners, diagonal, scene, Numbers, Scene, MOST_STRETCH};

const SCENES: u64 = 2_000;
/// Scenes on which steps are compared and wrong answers are tried.
const TRIED: u64 = 300;
/// The greatest error that passes: 1.9e-5.
const BOUND: f64 = 8.0 * MOST_STRETCH / (1 << 24) as f64;
/// The longer of the two steps of a difference.
const STEP: f64 = 1.0 / 4096.0;

/// The central difference of the loss by the number that `place` finds, by a step and by half of it, and from both the
/// one whose error is of the fourth order in the step (Richardson).
fn difference(
    scene: &Scene,
    step: f64,
    at: &mut Numbers<f64>,
    place: impl Fn(&mut Numbers<f64>) -> &mut f64,
) -> f64 {
    let start = *place(at);
    let mut central = |step: f64| {
        *place(at) = start + step;
        let above = scene.loss(at);
        *place(at) = start - step;
        let below = scene.loss(at);
        *place(at) = start;
        (above - below) / (2.0 * step)
    };
    let (whole, half) = (central(step), central(step * 0.5));
    (4.0 * half - whole) / 3.0
}

/// The gradient of the loss by every coordinate and every value.
fn differences(scene: &Scene, step: f64) -> Numbers<f64> {
    let at = &mut scene.vertices.widened();
    let (coordinates, values) = (0..at.xyz.len(), 0..at.val.len());
    Numbers {
        xyz: coordinates
            .map(|i| difference(scene, step, at, |n| &mut n.xyz[i]))
            .collect(),
        val: values
            .map(|i| difference(scene, step, at, |n| &mut n.val[i]))
            .collect(),
    }
}

/// The greatest change of a pixel's weight by a coordinate of its face.
fn slope(corners: [Point; 3], ray: Ray) -> f64 {
    let mut greatest = 0f64;
    for at in 0..9 {
        let moved = |step: f64| {
            let mut moved = corners;
            moved[at / 3][at % 3] += step;
            weights(moved, ray)
        };
        let change = minus(moved(STEP), moved(-STEP)).map(|x| x.abs() / (2.0 * STEP));
        greatest = change.into_iter().fold(greatest, f64::max);
    }
    greatest
}

fn magnitude(numbers: Point) -> f64 {
    numbers.iter().map(|x| x.abs()).sum()
}

/// The scale of each number's error.
fn scales(scene: &Scene) -> Numbers<f64> {
    let at = scene.vertices.widened();
    let mut scales = scene.before.widened();
    for scale in scales.xyz.iter_mut().chain(&mut scales.val) {
        *scale = scale.abs();
    }
    for (pixel, face) in scene.covered() {
        let slope = slope(corners(&at.xyz, face), scene.rays[pixel]);
        for (channel, incoming) in scene.incoming(pixel).iter().enumerate() {
            let incoming = f64::from(incoming.abs());
            let strength = incoming * slope * magnitude(scene.values(&at.val, face, channel));
            for v in face {
                (0..3).for_each(|k| scales.xyz[3 * v + k] += strength);
                scales.val[v * scene.channels + channel] += incoming;
            }
        }
    }
    scales
}

/// The greatest of the errors; infinite where one is a NaN.
fn greatest(got: &[f64], wanted: &[f64], scales: &[f64]) -> f64 {
    assert!(got.len() == wanted.len() && wanted.len() == scales.len());
    let errors = (0..got.len()).map(|i| (got[i] - wanted[i]).abs() / scales[i]);
    errors.fold(0.0, |most, error| match error.partial_cmp(&most) {
        Some(std::cmp::Ordering::Greater) => error,
        Some(_) => most,
        None => f64::INFINITY,
    })
}

/// What the library must add to the accumulators, and the scale of each number.
struct Wanted {
    added: Numbers<f64>,
    scales: Numbers<f64>,
}

impl Wanted {
    fn of(scene: &Scene, step: f64) -> Self {
        Wanted {
            added: differences(scene, step),
            scales: scales(scene),
        }
    }

    /// The greatest errors of the coordinates' gradients and of the values'.
    fn errors(&self, added: &Numbers<f64>) -> [f64; 2] {
        [
            greatest(&added.xyz, &self.added.xyz, &self.scales.xyz),
            greatest(&added.val, &self.added.val, &self.scales.val),
        ]
    }
}

/// The accumulators after the library's backward pass over the map.
fn backward(scene: &Scene, map: &[u32], before: &Numbers<f32>) -> Numbers<f32> {
    let mut after = before.clone();
    interpolate_bwd(
        scene.size.0,
        scene.size.1,
        map,
        &scene.tri2vtx,
        &scene.vertices.xyz,
        scene.channels,
        &scene.vertices.val,
        &scene.ndc2world,
        &scene.dldw_pix2val,
        &mut after.xyz,
        &mut after.val,
    )
    .expect("accepted");
    after
}

/// What the accumulators have more than at the start.
fn added(scene: &Scene, after: &Numbers<f32>) -> Numbers<f64> {
    let (after, before) = (after.widened(), scene.before.widened());
    let minus = |a: &[f64], b: &[f64]| a.iter().zip(b).map(|(a, b)| a - b).collect();
    Numbers {
        xyz: minus(&after.xyz, &before.xyz),
        val: minus(&after.val, &before.val),
    }
}

/// The greatest error of the library's own pixel values: the loss is made of what `interpolate` gives.
fn error_of_pixels(scene: &Scene) -> f64 {
    let mut pix2val = vec![0.0; scene.dldw_pix2val.len()];
    interpolate(
        scene.size.0,
        scene.size.1,
        &scene.pix2tri,
        &scene.tri2vtx,
        &scene.vertices.xyz,
        scene.channels,
        &scene.vertices.val,
        &scene.ndc2world,
        &mut pix2val,
    )
    .expect("accepted");
    let at = scene.vertices.widened();
    let (mut got, mut wanted, mut scales) = (Vec::new(), Vec::new(), Vec::new());
    for (pixel, face) in scene.covered() {
        let weights = weights(corners(&at.xyz, face), scene.rays[pixel]);
        for channel in 0..scene.channels {
            let values = scene.values(&at.val, face, channel);
            got.push(pix2val[pixel * scene.channels + channel].into());
            wanted.push(dot(weights, values));
            scales.push(magnitude(values));
        }
    }
    greatest(&got, &wanted, &scales)
}

/// What was compared, and what was left out.
#[derive(Debug, Default)]
struct Counts {
    scenes: usize,
    in_perspective: usize,
    without_a_pixel: usize,
    pixels: usize,
    pixels_left_out: usize,
    coordinates: usize,
    values: usize,
    /// Numbers of vertices that no pixel names, which keep their bits.
    untouched: usize,
}

/// Whether each vertex is a corner of a face that the map names.
fn named(scene: &Scene) -> Vec<bool> {
    let mut named = vec![false; scene.before.xyz.len() / 3];
    for (_, face) in scene.covered() {
        face.into_iter().for_each(|v| named[v] = true);
    }
    named
}

impl Counts {
    /// False where no pixel is left.
    fn add(&mut self, scene: &Scene) -> bool {
        self.pixels += scene.covered().count();
        self.pixels_left_out += scene.left_out;
        let named = named(scene);
        let vertices = named.iter().filter(|&&named| named).count();
        if vertices == 0 {
            self.without_a_pixel += 1;
            return false;
        }
        self.scenes += 1;
        self.in_perspective += usize::from(scene.perspective);
        self.coordinates += 3 * vertices;
        self.values += scene.channels * vertices;
        self.untouched += (3 + scene.channels) * (named.len() - vertices);
        true
    }
}

/// The numbers of a vertex that no pixel names have the bits that they had.
fn others_are_kept(scene: &Scene, after: &Numbers<f32>) {
    let named = named(scene);
    let kept = |after: &[f32], before: &[f32], each: usize| {
        let mut numbers = after.iter().zip(before).enumerate();
        numbers.all(|(i, (a, b))| named[i / each] || a.to_bits() == b.to_bits())
    };
    assert!(kept(&after.xyz, &scene.before.xyz, 3));
    assert!(kept(&after.val, &scene.before.val, scene.channels));
}

#[test]
fn this_reading_has_the_marked_example() {
    let identity = diagonal([1.0; 4]).map(|x| x as f32);
    let corners = [[-1.0, -1.0, 0.25], [3.0, -1.0, 0.25], [-1.0, 3.0, 0.25]];
    let weights = weights(corners, ray(&identity, (2, 2), 0));
    assert_eq!(dot(weights, [0.0, 8.0, 16.0]), 7.0);
}

#[test]
fn gradients_are_those_of_the_loss() {
    let (mut counts, mut worst, mut of_pixels) = (Counts::default(), [0f64; 2], 0f64);
    for scene in (0..SCENES).map(scene) {
        if !counts.add(&scene) {
            continue;
        }
        let after = backward(&scene, &scene.pix2tri, &scene.before);
        others_are_kept(&scene, &after);
        let errors = Wanted::of(&scene, STEP).errors(&added(&scene, &after));
        worst = [worst[0].max(errors[0]), worst[1].max(errors[1])];
        of_pixels = of_pixels.max(error_of_pixels(&scene));
    }
    println!("{counts:?}");
    println!(
        "worst relative error: coordinates {:.1e}, values {:.1e}, and pixels {of_pixels:.1e}; bound {BOUND:.1e}",
        worst[0], worst[1]
    );
    assert!(worst[0] < BOUND && worst[1] < BOUND && of_pixels < BOUND);
    assert!(counts.scenes > 1_800 && counts.in_perspective > 1_000 && counts.pixels > 40_000);
    assert!(counts.coordinates > 25_000 && counts.values > 20_000 && counts.untouched > 10_000);
    assert!(counts.pixels_left_out < counts.pixels / 100);
}

/// The differences by a step and by half of it. At the step that is used they are alike to less than a thousandth of the
/// bound; a longer one shows its truncation, a shorter one the rounding of f64.
#[test]
fn the_step_is_neither_long_nor_short() {
    let scenes: Vec<Scene> = (0..TRIED).map(scene).collect();
    let change = |step: f64| {
        let change = |scene| Wanted::of(scene, step).errors(&differences(scene, step * 0.5));
        scenes.iter().flat_map(change).fold(0.0, f64::max)
    };
    let [long, used, short] = [STEP * 64.0, STEP, STEP / 4194304.0].map(change);
    println!(
        "change by half a step: {long:.1e} at 2^-6, {used:.1e} at 2^-12, {short:.1e} at 2^-34"
    );
    assert!(used < BOUND / 1000.0 && long > BOUND && short > BOUND);
}

/// Each fault, in the coordinates' gradients and in the values', is reported in every scene, but for a pixel whose two
/// exchanged corners happen to have almost equal shares.
#[test]
fn wrong_answers_are_reported() {
    let (mut tried, mut caught) = (0, [[0; 2]; FAULTS.len()]);
    for seed in 0..TRIED {
        let scene = scene(seed);
        let Some(answers) = Answers::of(&scene, seed as usize) else {
            continue;
        };
        tried += 1;
        let wanted = Wanted::of(&scene, STEP);
        for ((_, fault), caught) in FAULTS.iter().zip(&mut caught) {
            let errors = wanted.errors(&added(&scene, &answers.wrong(*fault)));
            *caught = [0, 1].map(|k| caught[k] + usize::from(errors[k] > BOUND));
        }
    }
    assert!(tried > 250);
    for ((name, _), caught) in FAULTS.iter().zip(caught) {
        println!("{name}: reported {caught:?} times of {tried}");
        let least = if name.contains("exchanged") {
            tried * 99 / 100
        } else {
            tried
        };
        assert!(caught.iter().all(|&times| times >= least), "{name}");
    }
}
