//! Reads how a connector housing sits, by fitting its mesh to a picture; then tells what deleting faces would do to the picture,
//! and fits again with faces deleted that would not be missed and with the mesh cut, drawn in runs and joined, and holds every
//! number of every iteration to the same bits. It also shows where in its face each pixel lies, which of the bodies it shows,
//! and the housing with and without its inner skin; and it fits by the smoothed outline of the mask alone.
//!
//! `cargo run --release --offline --example fit -- FOLDER` writes the pictures there (`target/fit` where none is named).
#[path = "fit/camera.rs"]
mod camera;
#[path = "fit/housing.rs"]
mod housing;
#[path = "fit/outline.rs"]
mod outline;
#[path = "fit/pictures.rs"]
mod pictures;
#[path = "fit/png.rs"]
mod png;
#[path = "fit/pose.rs"]
mod pose;
#[path = "fit/removal.rs"]
mod removal;
#[path = "fit/scene.rs"]
mod scene;
#[path = "fit/skins.rs"]
mod skins;

use housing::{CHANNELS, HOUSING, LABEL, PINS};
use outline::{Outline, Smoothed};
use paqelzim::RemovalPreview;
use pose::Pose;
use removal::Preview;
use scene::{Scene, Seen, Way};
use skins::Skins;
use std::path::{Path, PathBuf};

type Failure = Box<dyn std::error::Error>;

const ITERATIONS: usize = 160;
const HIDDEN: [f64; 6] = [0.9, -0.7, 0.8, 0.05, -0.06, 0.10];
const START: [f64; 6] = [-1.2, 1.1, -0.6, -0.04, 0.05, -0.12];

/// What each iteration saw, and its seating error in millimetres.
type Record = Vec<(Seen, f64)>;

fn main() -> Result<(), Failure> {
    let folder = PathBuf::from(std::env::args().nth(1).unwrap_or("target/fit".into()));
    let scene = Scene::new(Pose::seated().moved(&HIDDEN))?;
    let num_tri = scene.housing.tri2vtx.len() / 3;
    let (img_w, img_h) = (scene.camera.img_w, scene.camera.img_h);
    println!("a housing of {num_tri} faces, a picture of {img_w} x {img_h}, {CHANNELS} channels");
    let load = scene.load(&Pose::seated().moved(&START))?;
    println!(
        "to draw it at the start: {} pieces, offered {} pixels\n",
        load.pieces, load.pixels
    );
    let whole = whole_fit(&scene)?;
    let (before, after) = (&whole[0], &whole[ITERATIONS]);
    println!(
        "\nseating error {:.3} mm before, {:.3} mm after",
        before.1, after.1
    );
    println!("{}", told_labels(&after.0.pix2body));
    std::fs::create_dir_all(&folder)?;
    pictures::write(&folder, &scene, &before.0, &after.0)?;
    show_skins(&folder, &scene)?;
    show_outline(&folder, &scene)?;
    println!("pictures in {}\n", folder.display());
    let ways = other_ways(&scene, &whole);
    println!("what deleting faces would do to the picture:");
    preview_deletions(&scene, &ways, &whole)?;
    println!("the same fit in other ways, each iteration held to the bits of the one above:");
    for way in ways {
        let numbers = same_bits(&scene, &way, &whole)?;
        println!("{way}: {numbers} numbers, all the same");
    }
    Ok(())
}

/// How many pixels of a label picture show each body.
fn told_labels(pix2body: &[u32]) -> String {
    let [housing, pins, label] =
        [HOUSING, PINS, LABEL].map(|body| pix2body.iter().filter(|&&b| b == body).count());
    format!(
        "the label screen sees the housing on {housing} pixels, its pins on {pins}, its label on {label}"
    )
}

/// The thin-walled housing with and without its inner skin, one more picture.
fn show_skins(folder: &Path, scene: &Scene) -> Result<(), Failure> {
    let skins = Skins::new(scene)?;
    let (changed, [inner, emptied]) = (skins.changed().count(), skins.lost());
    println!(
        "turned over, its foot open: front pieces only change {changed} of {} pixels, {inner} of which showed the\n\
         inner skin from behind; {emptied} of them are then empty, and the others name another face",
        skins.covered()
    );
    pictures::write_skins(folder, scene, &skins)
}

/// The fit by the outline alone, and one more picture: the fitted mask before and after smoothing.
fn show_outline(folder: &Path, scene: &Scene) -> Result<(), Failure> {
    println!("\nfitted by the smoothed outline of the mask alone, from the same start:");
    println!("iteration  residual  seating error");
    let outlines = outline_fit(scene)?;
    let (before, after) = (&outlines[0], &outlines[ITERATIONS]);
    println!(
        "the outline's residual is {:.5} before, {:.5} after; it has {} edges, which mix {} pixels",
        before.0.residual,
        after.0.residual,
        after.0.num_edges,
        after.0.mixed().count()
    );
    pictures::write_smoothing(folder, scene, &after.0)
}

fn whole_fit(scene: &Scene) -> Result<Record, Failure> {
    let mut record = Record::new();
    println!("iteration  residual  seating error");
    fit(scene, &Way::default(), |iteration, now, error| {
        if iteration % 10 == 0 {
            println!("{iteration:9}  {:8.5}  {error:10.3} mm", now.residual);
        }
        record.push((now, error));
        Ok(())
    })?;
    Ok(record)
}

/// One face deleted that held no pixel in any iteration; all such faces; the mesh cut in runs; and both.
fn other_ways(scene: &Scene, whole: &Record) -> [Way; 4] {
    let num_tri = scene.housing.tri2vtx.len() as u32 / 3;
    let holds = |n: &u32| whole.iter().any(|(now, _)| now.layer.map().contains(n));
    let unseen: Vec<u32> = (0..num_tri).filter(|n| !holds(n)).collect();
    let ways = [
        (&unseen[..1], false),
        (&unseen, false),
        (&[], true),
        (&unseen, true),
    ];
    ways.map(|(removed, in_runs)| Way {
        removed: removed.to_vec(),
        in_runs,
    })
}

/// Previews the deletions of these ways in the pictures of all iterations, and fails where one would change a pixel; then, in the
/// fitted picture, the deletion of the face that holds the most pixels.
fn preview_deletions(scene: &Scene, ways: &[Way], whole: &Record) -> Result<(), Failure> {
    for way in ways.iter().filter(|way| !way.in_runs) {
        let counts = previewed(scene, way, whole)?;
        let deleted = way.removed.len();
        println!(
            "faces deleted {deleted:2}, over all iterations: {}",
            removal::told(&counts)
        );
        if counts.emptied + counts.renamed > 0 {
            return Err(format!("{way}: a pixel would change").into());
        }
    }
    let fitted = &whole[ITERATIONS].0;
    let (face, held) = removal::largest(fitted.layer.map()).ok_or("nothing is seen")?;
    let counts = Preview::new(scene, fitted, &[face])?.counts;
    println!(
        "face {face} deleted, the largest of the fitted picture: {}\n",
        removal::told(&counts)
    );
    if counts.emptied + counts.renamed != held {
        return Err("other pixels would change than those that show it".into());
    }
    Ok(())
}

/// The sum over all iterations, each drawn as the fit has drawn it, and no deeper without the faces.
fn previewed(scene: &Scene, way: &Way, whole: &Record) -> Result<RemovalPreview, Failure> {
    let mut sum = RemovalPreview::default();
    for (iteration, (seen, _)) in whole.iter().enumerate() {
        let preview = Preview::new(scene, seen, &way.removed)?;
        if preview.full != seen.layer || preview.short.depths() != seen.layer.depths() {
            return Err(format!("{way}: iteration {iteration} is previewed otherwise").into());
        }
        sum.emptied += preview.counts.emptied;
        sum.renamed += preview.counts.renamed;
        sum.kept += preview.counts.kept;
    }
    Ok(sum)
}

/// Fits in another way, and fails at the first iteration with a number that is not the whole drawing's.
fn same_bits(scene: &Scene, way: &Way, whole: &Record) -> Result<usize, Failure> {
    let mut numbers = 0;
    fit(scene, way, |iteration, now, error| {
        let compared = now.compared(&whole[iteration].0, way);
        numbers += compared.map_err(|what| format!("{way}: iteration {iteration}: {what}"))?;
        if error.to_bits() != whole[iteration].1.to_bits() {
            return Err(format!("{way}: iteration {iteration}: the poses differ").into());
        }
        Ok(())
    })?;
    Ok(numbers)
}

/// Fits by the smoothed outline of the mask alone, which knows nothing of colours.
fn outline_fit(scene: &Scene) -> Result<Vec<(Smoothed, f64)>, Failure> {
    let outline = Outline::new(scene)?;
    let mut record = Vec::new();
    descend(|iteration, pose| {
        let now = outline.seen(pose)?;
        let error = pose.apart(&scene.hidden, &scene.housing.foot);
        if iteration % 40 == 0 {
            println!("{iteration:9}  {:8.5}  {error:10.3} mm", now.residual);
        }
        let gradient = pose.gradient(&scene.housing.points, &now.dldw_vtx2xyz);
        record.push((now, error));
        Ok(gradient)
    })?;
    Ok(record)
}

/// Fits by the whole picture, and shows what each iteration sees, with the greatest distance of a corner of the foot from where it
/// is in the hidden pose.
fn fit(
    scene: &Scene,
    way: &Way,
    mut shown: impl FnMut(usize, Seen, f64) -> Result<(), Failure>,
) -> Result<(), Failure> {
    descend(|iteration, pose| {
        let error = pose.apart(&scene.hidden, &scene.housing.foot);
        let now = scene.seen(pose, way, iteration)?;
        let gradient = pose.gradient(&scene.housing.points, &now.dldw_vtx2xyz);
        shown(iteration, now, error)?;
        Ok(gradient)
    })
}

/// Goes from the start down the gradient of each iteration, by steps that Adam's rule sizes.
fn descend(
    mut gradient: impl FnMut(usize, &Pose) -> Result<[f64; 6], Failure>,
) -> Result<(), Failure> {
    let mut pose = Pose::seated().moved(&START);
    let mut adam = Adam::default();
    for iteration in 0..=ITERATIONS {
        let gradient = gradient(iteration, &pose)?;
        let left = 1.0 - iteration as f64 / ITERATIONS as f64;
        pose = pose.moved(&adam.step(&gradient, 0.25 * left * left + 0.002));
    }
    Ok(())
}

/// Running means of the gradient and of its square.
#[derive(Default)]
struct Adam {
    mean: [f64; 6],
    square: [f64; 6],
    steps: i32,
}

impl Adam {
    /// A step against the gradient, about `size` millimetres long in each of the six directions.
    fn step(&mut self, gradient: &[f64; 6], size: f64) -> [f64; 6] {
        self.steps += 1;
        std::array::from_fn(|k| {
            // A turn is measured by how far it moves a point 10 mm off.
            let arm = if k < 3 { 1.0 } else { 10.0 };
            let g = gradient[k] / arm;
            self.mean[k] += 0.2 * (g - self.mean[k]);
            self.square[k] += 0.05 * (g * g - self.square[k]);
            let mean = self.mean[k] / (1.0 - 0.8f64.powi(self.steps));
            let square = self.square[k] / (1.0 - 0.95f64.powi(self.steps));
            -size * mean / (square.sqrt() + 1e-12) / arm
        })
    }
}

#[cfg(test)]
mod tests {
    use super::*;

    fn scene() -> Scene {
        Scene::new(Pose::seated().moved(&HIDDEN)).expect("the target is drawn")
    }

    /// The fit ends seated, and every other way has its bits at every iteration.
    #[test]
    fn story() {
        let scene = scene();
        let whole = whole_fit(&scene).expect("every call is accepted");
        assert!(whole[0].1 > 5.0 && whole[ITERATIONS].1 < 0.05);
        let ways = other_ways(&scene, &whole);
        preview_deletions(&scene, &ways, &whole).expect("no deletion changes a pixel");
        for way in ways {
            let numbers = same_bits(&scene, &way, &whole).expect("the same bits");
            assert!(numbers > 28_000_000);
        }
    }

    /// The fit by the outline alone ends seated too. Smoothing mixes pixels beside the mask's edge and no other, and most of those.
    #[test]
    fn outline_story() {
        let scene = scene();
        let outlines = outline_fit(&scene).expect("every call is accepted");
        let (before, after) = (&outlines[0], &outlines[ITERATIONS]);
        assert!(before.1 > 5.0 && after.1 < 0.05);
        assert!(before.0.residual > 0.1 && after.0.residual < 0.01);
        let img_w = scene.camera.img_w;
        for (seen, _) in &outlines {
            let mask = &seen.mask;
            let beside = |p: usize| [p - 1, p + 1, p - img_w, p + img_w];
            let at_edge = |p: usize| beside(p).iter().any(|&other| mask[other] != mask[p]);
            assert!(seen.mixed().all(at_edge));
            let inner = (img_w + 1..mask.len() - img_w - 1).filter(|&p| at_edge(p));
            assert!(3 * seen.mixed().count() > inner.count());
        }
    }

    /// The body of a face by where its corners lie: the pins stand in the tub, away from its walls, and the label plate is before
    /// the front wall, left of the key.
    fn body_by_its_place(housing: &housing::Housing, face: u32) -> u32 {
        let corners = housing.tri2vtx.as_chunks::<3>().0[face as usize];
        let all = |holds: fn(pose::Vec3) -> bool| {
            let mut points = corners.iter().map(|&v| housing.points[v as usize]);
            points.all(holds)
        };
        if all(|[x, y, _]| x.abs() < 9.0 && y.abs() < 4.0) {
            PINS
        } else if all(|[x, y, _]| x < 0.0 && y <= -6.0) {
            LABEL
        } else {
            HOUSING
        }
    }

    /// A label is that of the block whose face the map names, turned over too.
    #[test]
    fn labels_by_the_blocks() {
        let scene = scene();
        let mut pixels = [0; 3];
        for step in [START, HIDDEN, skins::OVER] {
            let pose = Pose::seated().moved(&step);
            let seen = scene.seen(&pose, &Way::default(), 0).expect("accepted");
            assert_eq!(seen.pix2body.len(), scene.camera.num_pix());
            for (&face, &body) in seen.layer.map().iter().zip(&seen.pix2body) {
                if face == scene::EMPTY {
                    assert_eq!(body, scene::EMPTY);
                } else {
                    assert_eq!(body, body_by_its_place(&scene.housing, face), "face {face}");
                    pixels[body as usize] += 1;
                }
            }
        }
        assert!(pixels.iter().all(|&pixels| pixels > 500), "{pixels:?}");
    }

    /// Whether a face of the open housing is turned to the camera, which stands at the origin: clockwise as seen from outside.
    fn is_turned_to_the_camera(skins: &Skins, face: u32) -> bool {
        let corners = skins.tri2vtx.as_chunks::<3>().0[face as usize].map(|v| {
            let xyz = skins.vtx2xyz.as_chunks::<3>().0[v as usize];
            xyz.map(f64::from)
        });
        let sides = [corners[1], corners[2]].map(|p| pose::minus(p, corners[0]));
        let inward = pose::cross(sides[0], sides[1]);
        (0..3).map(|k| inward[k] * corners[0][k]).sum::<f64>() > 0.0
    }

    /// Front pieces leave out what is turned away, and nothing else changes.
    #[test]
    fn skins_by_their_geometry() {
        let skins = Skins::new(&scene()).expect("accepted");
        let held = |map: &[u32]| {
            map.iter()
                .copied()
                .filter(|&face| face != u32::MAX)
                .collect::<Vec<_>>()
        };
        let seen = |face: &u32| is_turned_to_the_camera(&skins, *face);
        assert!(held(&skins.front).iter().all(seen));
        let behind = held(&skins.all).iter().filter(|face| !seen(face)).count();
        assert_eq!(skins.changed().count(), behind);
        let [inner, emptied] = skins.lost();
        assert!(inner > 1_000 && emptied > 1_000 && behind > emptied && skins.covered() > behind);
    }

    /// A face that holds pixels is missed when it is taken out.
    #[test]
    fn story_can_fail() {
        let scene = scene();
        let pose = Pose::seated().moved(&START);
        let whole = scene.seen(&pose, &Way::default(), 0).expect("accepted");
        let shown = whole.layer.map().iter().find(|&&n| n != u32::MAX);
        let way = Way {
            removed: vec![*shown.expect("a pixel is covered")],
            in_runs: false,
        };
        let other = scene.seen(&pose, &way, 0).expect("accepted");
        assert!(other.compared(&whole, &way).is_err());
    }

    /// Of each face alone, and of it with all that follow: what the preview tells is what deleting them then does.
    #[test]
    fn previews_by_deleting() {
        let scene = scene();
        let pose = Pose::seated().moved(&START);
        let whole = scene.seen(&pose, &Way::default(), 0).expect("accepted");
        let num_tri = scene.housing.tri2vtx.len() as u32 / 3;
        let sets = (0..num_tri).flat_map(|face| [vec![face], (face..num_tri).collect()]);
        let mut sums = [0; 2];
        for removed in sets {
            let preview = Preview::new(&scene, &whole, &removed).expect("accepted");
            let way = Way {
                removed,
                in_runs: false,
            };
            let deleted = scene.seen(&pose, &way, 0).expect("accepted");
            assert_eq!(preview.full, whole.layer);
            assert_eq!(preview.short, deleted.layer);
            let maps = whole.layer.map().iter().zip(deleted.layer.map());
            let of_removed = maps.filter(|(before, _)| way.removed.contains(before));
            let (emptied, renamed): (Vec<_>, Vec<_>) =
                of_removed.partition(|(_, &after)| after == u32::MAX);
            let counts = [preview.counts.emptied, preview.counts.renamed];
            assert_eq!(counts, [emptied.len(), renamed.len()], "{:?}", way.removed);
            let missed = deleted.compared(&whole, &way).is_err();
            assert_eq!(missed, counts != [0, 0], "{:?}", way.removed);
            sums = [sums[0] + counts[0], sums[1] + counts[1]];
        }
        assert!(sums.iter().all(|&pixels| pixels > 1_000), "{sums:?}");
    }
}
