//! Demand 3, executed: faces that hold no pixel are taken out, the rest is cut into runs, each run's layer is cleared
//! and drawn, and neighbours are joined in any bracketing, refused calls among them. What remains has the bits of the full
//! drawing's depths and weights and, renumbered, its map; its label picture, by the table without the faces that were taken
//! out, is the same; and every pass over it gives the same code and the same bits. So it is with front pieces only, where the
//! whole drawing and all runs have that facing.
use comparison::expected::cleared;
use comparison::labels::table;
use comparison::layer::{bits, wrong_lengths, Layer};
use comparison::pass::{beside_the_map, Pass};
use comparison::random::Random;
use comparison::removal::list_of;
use comparison::scene::{accepted, crowded, Scene, EMPTY};
use paqelzim::Refusal;
use std::collections::BTreeSet;

const CASES: u64 = 20_000;
const CROWDED: u64 = 5_000;

/// A layer that holds anything.
fn garbage(random: &mut Random, pixels: usize) -> Layer {
    Layer::any(random, [pixels, pixels, 3 * pixels])
}

/// A call that is refused for its weights alone: those of one layer are too few or too many, and are kept too.
fn refused_for_weights(
    random: &mut Random,
    layer: &mut Layer,
    scene: &Scene,
) -> Result<(), Refusal> {
    let (w, h) = (scene.img_w, scene.img_h);
    let length = random.one_of(&wrong_lengths(w * h));
    let wrong = Layer::any(random, [w * h, w * h, length]);
    if random.percent(25) {
        return layer.join(&wrong, w, h);
    }
    let own = std::mem::replace(&mut layer.pix2weights, wrong.pix2weights.clone());
    let answer = match random.below(3) {
        0 => layer.clear(w, h),
        1 => layer.draw(scene, &scene.tri2vtx, 0),
        _ => layer.join(&garbage(random, w * h), w, h),
    };
    let lent = std::mem::replace(&mut layer.pix2weights, own);
    assert_eq!(bits(&lent), bits(&wrong.pix2weights), "written: {answer:?}");
    answer
}

/// A call that is refused, of any kind, on some layer; false where that layer is gone.
fn refused(random: &mut Random, layers: &mut [Option<Layer>], scene: &Scene) -> bool {
    let at = random.below(layers.len());
    let Some(layer) = &mut layers[at] else {
        return false;
    };
    let (w, h) = (scene.img_w, scene.img_h);
    let scene = &scene.faced(random.one_of(&[0, 1]));
    let kind = random.below(5);
    let beside = &mut random.beside();
    let answer = match kind {
        _ if beside.percent(40) => refused_for_weights(beside, layer, scene),
        0 => layer.clear(w + 1, h),
        1 => layer.clear(4097, h),
        2 => layer.draw(scene, &[0, 0], 0),
        3 => layer.draw(scene, &[0, 0, scene.vtx2xyz.len() as u32], 0),
        _ => layer.join(&cleared(0), w, h),
    };
    answer.expect_err("a refused call");
    true
}

/// A run's first number and its faces.
type Run = (usize, Vec<u32>);

/// The runs of the kept faces: any cut, empty runs too.
fn runs(random: &mut Random, kept: &[u32], cuts: usize) -> Vec<Run> {
    let faces = kept.len() / 3;
    let mut cuts: Vec<usize> = (0..random.within(0, cuts))
        .map(|_| random.within(0, faces))
        .collect();
    cuts.extend([0, faces]);
    cuts.sort();
    let run = |w: &[usize]| (w[0], kept[3 * w[0]..3 * w[1]].to_vec());
    cuts.windows(2).map(run).collect()
}

/// Clears and draws every run's layer and joins neighbours until one remains, in any sequence.
fn assembled(random: &mut Random, scene: &Scene, runs: &[Run], seen: &mut Seen) -> Layer {
    let (w, h) = (scene.img_w, scene.img_h);
    let mut layers: Vec<Option<Layer>> =
        runs.iter().map(|_| Some(garbage(random, w * h))).collect();
    // 0 as it was, 1 cleared, 2 drawn or joined, 3 gone into its left neighbour
    let mut state = vec![0; runs.len()];
    while state.iter().filter(|&&s| s != 3).count() > 1 || state[0] != 2 {
        if random.percent(20) {
            seen.refused_calls += usize::from(refused(random, &mut layers, scene));
        }
        let at = random.below(runs.len());
        match state[at] {
            0 => layers[at].as_mut().unwrap().clear(w, h).expect("accepted"),
            1 => {
                let (first, faces) = &runs[at];
                let layer = layers[at].as_mut().unwrap();
                layer.draw(scene, faces, *first as u32).expect("accepted");
            }
            2 => {
                let next = (at + 1..runs.len()).find(|&i| state[i] != 3);
                if let Some(next) = next.filter(|&i| state[i] == 2) {
                    let right = layers[next].take().unwrap();
                    let left = layers[at].as_mut().unwrap();
                    left.join(&right, w, h).expect("accepted");
                    state[next] = 3;
                }
                continue;
            }
            _ => continue,
        }
        state[at] += 1;
    }
    layers[0].take().unwrap()
}

/// Code and written buffers of a pass, as bits.
type Outcome = (Result<(), Refusal>, Vec<Vec<u32>>);

fn edge_types(pass: &Pass) -> Outcome {
    let p = &mut pass.clone();
    let answer = paqelzim::edge_gradient_and_type(
        &p.tri2vtx,
        &p.vtx2xyz,
        &p.transform_world2pix,
        p.img_w,
        p.img_h,
        &p.pix2tri,
        p.num_vdim,
        &p.pix2val,
        &p.dldw_pix2val,
        &mut p.hedge2type,
        &mut p.hedge2dldr,
        &mut p.vedge2type,
        &mut p.vedge2dldr,
    );
    let types = |types: &[u8]| types.iter().map(|&t| t.into()).collect::<Vec<u32>>();
    let left = vec![
        types(&p.hedge2type),
        types(&p.vedge2type),
        bits(&p.hedge2dldr),
        bits(&p.vedge2dldr),
    ];
    (answer, left)
}

fn edges_backward(pass: &Pass) -> Outcome {
    let mut dldw_vtx2xyz = pass.dldw_vtx2xyz.clone();
    let answer = paqelzim::bwd(
        &pass.tri2vtx,
        &pass.vtx2xyz,
        &mut dldw_vtx2xyz,
        &pass.transform_world2pix,
        pass.img_w,
        pass.img_h,
        &pass.pix2tri,
        pass.num_vdim,
        &pass.pix2val,
        &pass.dldw_pix2val,
    );
    (answer, vec![bits(&dldw_vtx2xyz)])
}

fn values(pass: &Pass) -> Outcome {
    let mut pix2val = pass.pix2val.clone();
    let answer = paqelzim::interpolate(
        pass.img_w,
        pass.img_h,
        &pass.pix2tri,
        &pass.tri2vtx,
        &pass.vtx2xyz,
        pass.num_vdim,
        &pass.vtx2val,
        &pass.transform_ndc2world,
        &mut pix2val,
    );
    (answer, vec![bits(&pix2val)])
}

fn values_backward(pass: &Pass) -> Outcome {
    let mut dldw_vtx2xyz = pass.dldw_vtx2xyz.clone();
    let mut dldw_vtx2val = pass.dldw_vtx2val.clone();
    let answer = paqelzim::interpolate_bwd(
        pass.img_w,
        pass.img_h,
        &pass.pix2tri,
        &pass.tri2vtx,
        &pass.vtx2xyz,
        pass.num_vdim,
        &pass.vtx2val,
        &pass.transform_ndc2world,
        &pass.dldw_pix2val,
        &mut dldw_vtx2xyz,
        &mut dldw_vtx2val,
    );
    (answer, vec![bits(&dldw_vtx2xyz), bits(&dldw_vtx2val)])
}

const PASSES: [fn(&Pass) -> Outcome; 4] = [values, values_backward, edge_types, edges_backward];

/// What was met.
#[derive(Debug, Default)]
struct Seen {
    /// Of the case that runs.
    seed: u64,
    cases: usize,
    runs: usize,
    /// Calls among the clears, draws and joins of a sequence.
    refused_calls: usize,
    faces: usize,
    removed: usize,
    pixels: usize,
    covered: usize,
    /// Drawings that are another with all faces.
    other_with_all: usize,
    /// Label pictures of thinned lists whose map is another, and the bodies seen in them.
    relabelled: usize,
    bodies: usize,
    /// Of each pass, how often it was accepted with a covered pixel, and how often refused.
    accepted: [usize; 4],
    refused: [usize; 4],
}

/// The full drawing.
fn drawn_whole(random: &mut Random, scene: &Scene) -> Layer {
    let mut full = garbage(random, scene.img_w * scene.img_h);
    full.clear(scene.img_w, scene.img_h).expect("accepted");
    full.draw(scene, &scene.tri2vtx, 0).expect("accepted");
    full
}

/// Takes out none, some or all of the faces that hold no pixel: the numbers of the kept ones, and the map renumbered.
fn thinned(random: &mut Random, scene: &Scene, full: &Layer) -> (Vec<u32>, Vec<u32>) {
    let share = random.one_of(&[0, 50, 100]);
    let stays = |face: &u32| full.pix2tri.contains(face) || !random.percent(share);
    let faces = scene.tri2vtx.len() as u32 / 3;
    let staying: Vec<u32> = (0..faces).filter(stays).collect();
    let renumber = |&entry: &u32| match entry {
        EMPTY => EMPTY,
        face => staying.iter().filter(|&&before| before < face).count() as u32,
    };
    let renumbered = full.pix2tri.iter().map(renumber).collect();
    (staying, renumbered)
}

/// The label pictures of the full drawing, and of the last layer by the table of the faces that stay.
fn labels_are_alike(scene: &Scene, [full, last]: [&Layer; 2], staying: &[u32], seen: &mut Seen) {
    let random = &mut Random::new(seen.seed).beside();
    let tri2body = table(random, scene.tri2vtx.len() / 3);
    let thinned: Vec<u32> = staying.iter().map(|&n| tri2body[n as usize]).collect();
    let mut picture = |layer: &Layer, tri2body: &[u32]| {
        let mut pix2body: Vec<u32> = full.pix2tri.iter().map(|_| random.bits() as u32).collect();
        let (w, h) = (scene.img_w, scene.img_h);
        paqelzim::label_picture(&layer.pix2tri, tri2body, w, h, &mut pix2body).expect("accepted");
        pix2body
    };
    let whole = picture(full, &tri2body);
    assert_eq!(
        picture(last, &thinned),
        whole,
        "labels of seed {}",
        seen.seed
    );
    seen.relabelled += usize::from(full.pix2tri != last.pix2tri);
    let bodies: BTreeSet<u32> = whole.into_iter().filter(|&body| body != EMPTY).collect();
    seen.bodies += bodies.len();
}

/// The passes over the full drawing, and over the thinned list and its map.
fn passes_are_alike(pass: &mut Pass, full: [Vec<u32>; 2], thin: [Vec<u32>; 2], seen: &mut Seen) {
    let shown = full[1].iter().any(|&entry| entry != EMPTY);
    [pass.tri2vtx, pass.pix2tri] = full;
    let whole = PASSES.map(|call| call(pass));
    [pass.tri2vtx, pass.pix2tri] = thin;
    let same = PASSES.map(|call| call(pass));
    assert_eq!(same, whole, "passes of seed {}", seen.seed);
    for (at, (answer, _)) in whole.iter().enumerate() {
        seen.accepted[at] += usize::from(answer.is_ok() && shown);
        seen.refused[at] += usize::from(answer.is_err());
    }
}

/// The mesh's vertices, or as many others; now and then a matrix under which no corner has a projection.
fn vary(random: &mut Random, pass: &mut Pass) {
    if random.percent(30) {
        let hostile = random.one_of(&[0, 0, 10]);
        for x in &mut pass.vtx2xyz {
            *x = if random.percent(hostile) {
                random.hostile()
            } else {
                random.between(-1.0, 1.0)
            };
        }
    }
    if random.percent(10) {
        for at in [3, 7, 11, 15] {
            pass.transform_world2pix[at] = 0.0;
        }
    }
}

/// One sequence of calls over the scene, cut at `cuts` places at most, and all passes over what remains.
fn case(random: &mut Random, scene: &Scene, cuts: usize, seen: &mut Seen) {
    let full = drawn_whole(random, scene);
    let (staying, renumbered) = thinned(random, scene, &full);
    let kept = list_of(&scene.tri2vtx, &staying);
    let runs = runs(random, &kept, cuts);
    let last = assembled(random, scene, &runs, seen);
    let seed = seen.seed;
    assert_eq!(last.pix2tri, renumbered, "map of seed {seed}");
    let floats = |layer: &Layer| [bits(&layer.pix2depth), bits(&layer.pix2weights)];
    let (got, wanted) = (floats(&last), floats(&full));
    assert_eq!(got, wanted, "depths and weights of seed {seed}");
    labels_are_alike(scene, [&full, &last], &staying, seen);
    seen.cases += 1;
    seen.runs += runs.len();
    seen.faces += scene.tri2vtx.len() / 3;
    seen.removed += (scene.tri2vtx.len() - kept.len()) / 3;
    seen.pixels += renumbered.len();
    seen.covered += renumbered.iter().filter(|&&entry| entry != EMPTY).count();
    let all = drawn_whole(random, &scene.faced(0));
    seen.other_with_all += usize::from(all.pix2tri != full.pix2tri);
    let mut pass = beside_the_map(random, scene);
    pass.vtx2xyz = scene.vtx2xyz.clone();
    vary(random, &mut pass);
    let whole = [scene.tri2vtx.clone(), full.pix2tri];
    passes_are_alike(&mut pass, whole, [kept, last.pix2tri], seen);
}

/// Small pictures with that facing.
fn small(facing: u32) -> Seen {
    let mut seen = Seen::default();
    for seed in 0..CASES {
        let random = &mut Random::new(seed);
        let scene = accepted(random).faced(facing);
        // larger images come below, with more faces
        if scene.img_w * scene.img_h <= 400 {
            seen.seed = seed;
            case(random, &scene, 4, &mut seen);
        }
    }
    println!("{seen:?}");
    assert!(seen.cases > 18_000 && seen.refused_calls > 30_000);
    assert!(seen.relabelled > 500 && seen.bodies > 2_000);
    seen
}

#[test]
fn thinned_cut_and_joined_the_picture_and_its_passes_are_the_same() {
    let seen = small(0);
    assert!(seen.removed > 30_000 && seen.covered > 40_000);
    assert!(seen.accepted.iter().all(|&times| times > 2_000));
    assert!(seen.refused.iter().all(|&times| times > 200));
    assert_eq!(seen.other_with_all, 0);
}

#[test]
fn so_are_those_of_front_pieces() {
    let seen = small(1);
    assert!(seen.removed > 30_000 && seen.covered > 20_000);
    assert!(seen.accepted.iter().all(|&times| times > 1_000));
    assert!(seen.refused.iter().all(|&times| times > 100));
    assert!(seen.other_with_all > 1_500);
}

/// Pictures of some hundred faces with that facing.
fn crowds(facing: u32) -> Seen {
    let mut seen = Seen::default();
    for seed in CASES..CASES + CROWDED {
        let random = &mut Random::new(seed);
        let scene = crowded(random).faced(facing);
        seen.seed = seed;
        case(random, &scene, 12, &mut seen);
    }
    println!("{seen:?}");
    assert!(seen.runs > 30_000 && seen.refused_calls > 15_000);
    assert!(seen.relabelled > 1_500 && seen.bodies > 10_000);
    assert!(seen.refused.iter().all(|&times| times > 300));
    seen
}

#[test]
fn so_are_crowded_pictures() {
    let seen = crowds(0);
    assert!(seen.removed > 250_000 && seen.covered > 4_000_000);
    assert!(seen.accepted.iter().all(|&times| times > 3_000));
}

#[test]
fn so_are_crowded_pictures_of_front_pieces() {
    let seen = crowds(1);
    assert!(seen.removed > 250_000 && seen.covered > 1_000_000);
    assert!(seen.accepted.iter().all(|&times| times > 2_000));
    assert!(seen.other_with_all > 2_000);
}
