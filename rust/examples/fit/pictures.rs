//! The pictures that the example writes, each pixel shown as a square of several.
use crate::housing::CHANNELS;
use crate::outline::Smoothed;
use crate::png;
use crate::scene::{Scene, Seen, BACKGROUND, EMPTY};
use crate::skins::Skins;
use paqelzim::Layer;
use std::error::Error;
use std::path::Path;

const SQUARE: usize = 4;

/// How the label screen shows each body.
const BODY2SHOWN: [[f32; CHANNELS]; 3] =
    [[0.05, 0.22, 0.42], [0.95, 0.80, 0.25], [0.80, 0.10, 0.08]];

/// Target, start, fitted, the start's edge gradients, and of the fitted picture the weights and the labels.
pub fn write(
    folder: &Path,
    scene: &Scene,
    before: &Seen,
    after: &Seen,
) -> Result<(), Box<dyn Error>> {
    let (edges, weights) = (edges(scene, before)?, weights(&after.layer));
    let labels = labels(&after.pix2body, &BODY2SHOWN);
    for (name, values) in [
        ("target", &scene.target),
        ("start", &before.pix2val),
        ("fitted", &after.pix2val),
        ("edge-gradients", &edges),
        ("weights", &weights),
        ("labels", &labels),
    ] {
        let img_w = scene.camera.img_w;
        let rgb = squares(img_w, &coloured(values));
        png::write(&folder.join(format!("{name}.png")), SQUARE * img_w, &rgb)?;
    }
    Ok(())
}

/// All faces to the left, front pieces only to the right.
pub fn write_skins(folder: &Path, scene: &Scene, skins: &Skins) -> Result<(), Box<dyn Error>> {
    let [all, front] = skins.values(scene)?;
    write_beside(&folder.join("facing.png"), scene.camera.img_w, &all, &front)?;
    Ok(())
}

/// The mask before smoothing to the left, after to the right.
pub fn write_smoothing(
    folder: &Path,
    scene: &Scene,
    seen: &Smoothed,
) -> Result<(), Box<dyn Error>> {
    let [before, after] = [&seen.mask, &seen.smoothed].map(|mask| grey(mask));
    write_beside(
        &folder.join("smoothing.png"),
        scene.camera.img_w,
        &before,
        &after,
    )?;
    Ok(())
}

/// Two pictures side by side.
fn write_beside(path: &Path, img_w: usize, left: &[f32], right: &[f32]) -> std::io::Result<()> {
    let rows = left
        .chunks(CHANNELS * img_w)
        .zip(right.chunks(CHANNELS * img_w));
    let values: Vec<f32> = rows
        .flat_map(|(left, right)| [left, right].concat())
        .collect();
    let rgb = squares(2 * img_w, &coloured(&values));
    png::write(path, 2 * SQUARE * img_w, &rgb)
}

/// From the background to white.
fn grey(mask: &[f32]) -> Vec<f32> {
    let colour = |&share: &f32| BACKGROUND.map(|dark| share + (1. - share) * dark);
    mask.iter().flat_map(colour).collect()
}

/// Where in its face each pixel lies, as red, green and blue: the nearer to the first, second or third corner, the purer. The
/// near plane cuts none of these faces, so the weights are of their own corners.
fn weights(layer: &Layer) -> Vec<f32> {
    let pixels = layer.map().iter().zip(layer.weights());
    let colour = |(&face, &weights)| if face == EMPTY { BACKGROUND } else { weights };
    pixels.flat_map(colour).collect()
}

/// A colour for each body, from the label picture alone; what has none there, as an empty pixel, is shown as the background.
fn labels(pix2body: &[u32], body2shown: &[[f32; CHANNELS]]) -> Vec<f32> {
    let colour = |&body: &u32| body2shown.get(body as usize).unwrap_or(&BACKGROUND);
    pix2body.iter().flat_map(colour).copied().collect()
}

/// Bytes, with the screen's own brightness curve.
fn coloured(values: &[f32]) -> Vec<u8> {
    let byte = |v: &f32| (255.0 * v.clamp(0.0, 1.0).powf(1.0 / 2.2)).round() as u8;
    values.iter().map(byte).collect()
}

/// Each pixel repeated to a square.
fn squares(img_w: usize, rgb: &[u8]) -> Vec<u8> {
    let wide = |row: &[u8]| -> Vec<u8> {
        row.chunks(3)
            .flat_map(|pixel| pixel.repeat(SQUARE))
            .collect()
    };
    rgb.chunks(3 * img_w)
        .flat_map(|row| wide(row).repeat(SQUARE))
        .collect()
}

/// The picture darkened, and on it the pixels beside an edge of type 1, where the test of `bwd` has a centre inside: a face
/// seen edge on has none. Red where the residual rises as the edge goes right or down, blue where it falls.
fn edges(scene: &Scene, seen: &Seen) -> Result<Vec<f32>, Box<dyn Error>> {
    let (img_w, img_h) = (scene.camera.img_w, scene.camera.img_h);
    let (num_h, num_v) = ((img_h - 1) * img_w, img_h * (img_w - 1));
    let (mut hedge2type, mut hedge2dldr) = (vec![0; num_h], vec![0.; num_h]);
    let (mut vedge2type, mut vedge2dldr) = (vec![0; num_v], vec![0.; num_v]);
    paqelzim::edge_gradient_and_type(
        &scene.housing.tri2vtx,
        &seen.vtx2xyz,
        &scene.camera.world2pix,
        img_w,
        img_h,
        seen.layer.map(),
        CHANNELS,
        &seen.pix2val,
        &seen.dldw_pix2val,
        &mut hedge2type,
        &mut hedge2dldr,
        &mut vedge2type,
        &mut vedge2dldr,
    )?;
    let mut pix2dldr = vec![0f32; img_w * img_h];
    for (i, dldr) in hedge2dldr
        .iter()
        .enumerate()
        .filter(|&(i, _)| hedge2type[i] == 1)
    {
        pix2dldr[i] += dldr;
        pix2dldr[i + img_w] += dldr;
    }
    for (i, dldr) in vedge2dldr
        .iter()
        .enumerate()
        .filter(|&(i, _)| vedge2type[i] == 1)
    {
        let pixel = i / (img_w - 1) * img_w + i % (img_w - 1);
        pix2dldr[pixel] += dldr;
        pix2dldr[pixel + 1] += dldr;
    }
    Ok(tinted(&seen.pix2val, &pix2dldr))
}

fn tinted(pix2val: &[f32], pix2dldr: &[f32]) -> Vec<f32> {
    let greatest = pix2dldr
        .iter()
        .fold(f32::MIN_POSITIVE, |m, d| m.max(d.abs()));
    let mut values: Vec<f32> = pix2val.iter().map(|v| 0.15 * v).collect();
    for (pixel, dldr) in values.chunks_mut(CHANNELS).zip(pix2dldr) {
        let share = (dldr.abs() / greatest).sqrt();
        pixel[if *dldr > 0.0 { 0 } else { 2 }] += share;
    }
    values
}
