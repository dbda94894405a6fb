//! The questions of 01 and of outline smoothing (02, Point 1), clearing and joining, of the layer that 02 gives weights (Point 9),
//! and the label picture (Point 10), read into Rust a second time.
use crate::labels::Labels;
use crate::layer::{Cell, Layer};
use crate::outlines::{Outline, MOST_EDGES};
use crate::pass::{Pass, Velocities};
use crate::removal::Removal;
use crate::scene::{Scene, EMPTY, MOST};
use del_geo_core::mat4_col_major::transform_homogeneous;

fn size_is_asked(img_w: usize, img_h: usize) -> bool {
    (1..=4096).contains(&img_w) && (1..=4096).contains(&img_h)
}

fn mesh_is_whole(tri2vtx: &[u32], vtx2xyz: &[f32]) -> bool {
    let whole = |length: usize| length % 3 == 0 && length / 3 <= MOST as usize;
    whole(tri2vtx.len()) && whole(vtx2xyz.len())
}

fn faces_name_vertices(tri2vtx: &[u32], vtx2xyz: &[f32]) -> bool {
    let vertices = vtx2xyz.len() / 3;
    tri2vtx.iter().all(|&v| (v as usize) < vertices)
}

fn map_names_faces(pix2tri: &[u32], faces: usize) -> bool {
    let named = |&entry: &u32| entry == EMPTY || (entry as usize) < faces;
    pix2tri.iter().all(named)
}

/// The first question answered no, or 0.
fn first_no(answers: &[(u32, &dyn Fn() -> bool)]) -> u32 {
    answers
        .iter()
        .find(|(_, yes)| !yes())
        .map_or(0, |(number, _)| *number)
}

fn layer_is_exact(layer: &Layer, img_w: usize, img_h: usize) -> bool {
    let pixels = img_w * img_h;
    layer.lengths() == [pixels, pixels, 3 * pixels]
}

pub fn clear_code(layer: &Layer, img_w: usize, img_h: usize) -> u32 {
    first_no(&[
        (1, &|| size_is_asked(img_w, img_h)),
        (4, &|| layer_is_exact(layer, img_w, img_h)),
    ])
}

pub fn join_code([left, right]: [&Layer; 2], img_w: usize, img_h: usize) -> u32 {
    first_no(&[
        (1, &|| size_is_asked(img_w, img_h)),
        (4, &|| layer_is_exact(left, img_w, img_h)),
        (4, &|| layer_is_exact(right, img_w, img_h)),
    ])
}

pub fn draw_code(scene: &Scene) -> u32 {
    let (w, h) = (scene.img_w, scene.img_h);
    let faces = scene.tri2vtx.len() / 3;
    first_no(&[
        (1, &|| size_is_asked(w, h)),
        (3, &|| mesh_is_whole(&scene.tri2vtx, &scene.vtx2xyz)),
        (4, &|| layer_is_exact(&scene.layer, w, h)),
        (5, &|| scene.first as usize + faces <= MOST as usize),
        (6, &|| faces_name_vertices(&scene.tri2vtx, &scene.vtx2xyz)),
    ])
}

pub fn load_code(scene: &Scene) -> u32 {
    first_no(&[
        (1, &|| size_is_asked(scene.img_w, scene.img_h)),
        (3, &|| mesh_is_whole(&scene.tri2vtx, &scene.vtx2xyz)),
        (6, &|| faces_name_vertices(&scene.tri2vtx, &scene.vtx2xyz)),
    ])
}

pub fn preview_code(removal: &Removal) -> u32 {
    let scene = &removal.scene;
    let (w, h) = (scene.img_w, scene.img_h);
    first_no(&[
        (1, &|| size_is_asked(w, h)),
        (3, &|| mesh_is_whole(&scene.tri2vtx, &scene.vtx2xyz)),
        (4, &|| 3 * removal.removed.len() == scene.tri2vtx.len()),
        (4, &|| layer_is_exact(&scene.layer, w, h)),
        (4, &|| layer_is_exact(&removal.short, w, h)),
        (6, &|| faces_name_vertices(&scene.tri2vtx, &scene.vtx2xyz)),
    ])
}

pub fn label_code(labels: &Labels) -> u32 {
    let pixels = || labels.img_w * labels.img_h;
    let faces = labels.tri2body.len();
    first_no(&[
        (1, &|| size_is_asked(labels.img_w, labels.img_h)),
        (3, &|| faces <= MOST as usize),
        (4, &|| labels.pix2tri.len() == pixels()),
        (4, &|| labels.pix2body.len() == pixels()),
        (7, &|| map_names_faces(&labels.pix2tri, faces)),
    ])
}

/// The questions of a pass: with the lengths that 4 asks, and with 8.
fn pass_code(pass: &Pass, exact: &dyn Fn() -> bool, projected: &dyn Fn() -> bool) -> u32 {
    let faces = pass.tri2vtx.len() / 3;
    first_no(&[
        (1, &|| size_is_asked(pass.img_w, pass.img_h)),
        (2, &|| (1..=16).contains(&pass.num_vdim)),
        (3, &|| mesh_is_whole(&pass.tri2vtx, &pass.vtx2xyz)),
        (4, &|| {
            pass.pix2tri.len() == pass.img_w * pass.img_h && exact()
        }),
        (6, &|| faces_name_vertices(&pass.tri2vtx, &pass.vtx2xyz)),
        (7, &|| map_names_faces(&pass.pix2tri, faces)),
        (8, projected),
    ])
}

/// Whether both ray points of every pixel that is not empty have an answer.
fn rays_are_there(pass: &Pass) -> bool {
    let (w, h) = (pass.img_w as f32, pass.img_h as f32);
    let there = |x: f32, y: f32, z: f32| {
        transform_homogeneous(&pass.transform_ndc2world, &[x, y, z]).is_some()
    };
    (0..pass.pix2tri.len())
        .filter(|&pixel| pass.pix2tri[pixel] != EMPTY)
        .all(|pixel| {
            let (px, py) = (pixel % pass.img_w, pixel / pass.img_w);
            let x = 2.0 * (px as f32 + 0.5) / w - 1.0;
            let y = 1.0 - 2.0 * (py as f32 + 0.5) / h;
            there(x, y, 1.0) && there(x, y, -1.0)
        })
}

/// The pairs of neighbouring pixels, one above the other and side by side, whose entries differ.
fn unequal_pairs(pass: &Pass) -> impl Iterator<Item = [u32; 2]> + '_ {
    let (w, map) = (pass.img_w, &pass.pix2tri);
    (0..map.len())
        .flat_map(move |pixel| {
            let below = (pixel + w < map.len()).then(|| [map[pixel], map[pixel + w]]);
            let beside = (pixel % w + 1 < w).then(|| [map[pixel], map[pixel + 1]]);
            [below, beside]
        })
        .flatten()
        .filter(|[a, b]| a != b)
}

/// Whether the corners of both faces of each unequal pair have a projection.
fn corners_are_there(pass: &Pass) -> bool {
    let vertices = pass.vtx2xyz.as_chunks::<3>().0;
    let there = |v: &u32| {
        transform_homogeneous(&pass.transform_world2pix, &vertices[*v as usize]).is_some()
    };
    let faces = pass.tri2vtx.as_chunks::<3>().0;
    let named = unequal_pairs(pass)
        .flatten()
        .filter(|&entry| entry != EMPTY);
    named
        .into_iter()
        .all(|face| faces[face as usize].iter().all(there))
}

pub fn interpolate_code(pass: &Pass) -> u32 {
    let vertices = pass.vtx2xyz.len() / 3;
    let exact = || {
        pass.vtx2val.len() == vertices * pass.num_vdim
            && pass.pix2val.len() == pass.pix2tri.len() * pass.num_vdim
    };
    pass_code(pass, &exact, &|| rays_are_there(pass))
}

pub fn interpolate_bwd_code(pass: &Pass) -> u32 {
    let vertices = pass.vtx2xyz.len() / 3;
    let exact = || {
        pass.vtx2val.len() == vertices * pass.num_vdim
            && pass.dldw_pix2val.len() == pass.pix2tri.len() * pass.num_vdim
            && pass.dldw_vtx2xyz.len() == pass.vtx2xyz.len()
            && pass.dldw_vtx2val.len() == vertices * pass.num_vdim
    };
    pass_code(pass, &exact, &|| rays_are_there(pass))
}

pub fn edge_gradient_and_type_code(pass: &Pass) -> u32 {
    let (w, h) = (pass.img_w, pass.img_h);
    let exact = || {
        pass.pix2val.len() == w * h * pass.num_vdim
            && pass.dldw_pix2val.len() == w * h * pass.num_vdim
            && pass.hedge2type.len() == (h - 1) * w
            && pass.hedge2dldr.len() == (h - 1) * w
            && pass.vedge2type.len() == h * (w - 1)
            && pass.vedge2dldr.len() == h * (w - 1)
    };
    pass_code(pass, &exact, &|| corners_are_there(pass))
}

/// Questions 1 to 8. Of 9 the listed Rust itself is asked: it is no exactly where that would panic.
pub fn bwd_code_to_8(pass: &Pass) -> u32 {
    let exact = || {
        pass.dldw_vtx2xyz.len() == pass.vtx2xyz.len()
            && pass.pix2val.len() == pass.pix2tri.len() * pass.num_vdim
            && pass.dldw_pix2val.len() == pass.pix2tri.len() * pass.num_vdim
    };
    pass_code(pass, &exact, &|| corners_are_there(pass))
}

pub fn interpolate_from_edges_code(v: &Velocities) -> u32 {
    let (w, h) = (v.img_w, v.img_h);
    first_no(&[
        (1, &|| size_is_asked(w, h) && w > 1 && h > 1),
        (3, &|| {
            v.vtx2xy.len() % 2 == 0 && v.vtx2xy.len() / 2 <= MOST as usize
        }),
        (4, &|| {
            v.hedge2vy.len() == (h - 1) * w
                && v.vedge2vx.len() == h * (w - 1)
                && v.vtx2velo.len() == v.vtx2xy.len()
        }),
    ])
}

/// The questions of outline smoothing, with the lengths that 4 asks.
fn outline_code(outline: &Outline, exact: &dyn Fn(usize) -> bool) -> u32 {
    let edges = &outline.cedge2vtx;
    let vertices = outline.vtx2xyz.as_chunks::<3>().0;
    let m = &outline.transform_world2pix;
    let there = |v: &u32| transform_homogeneous(m, &vertices[*v as usize]).is_some();
    first_no(&[
        (1, &|| size_is_asked(outline.img_w, outline.img_h)),
        (3, &|| {
            edges.len() % 2 == 0 && edges.len() / 2 <= MOST_EDGES as usize
        }),
        (3, &|| mesh_is_whole(&[], &outline.vtx2xyz)),
        (4, &|| exact(outline.img_w * outline.img_h)),
        (10, &|| faces_name_vertices(edges, &outline.vtx2xyz)),
        (8, &|| edges.iter().all(there)),
    ])
}

pub fn antialias_code(outline: &Outline) -> u32 {
    outline_code(outline, &|pixels| {
        outline.pix2tri.len() == pixels
            && outline.pix2val.len() == pixels
            && outline.pix2vout.len() == pixels
    })
}

pub fn bwd_antialias_code(outline: &Outline) -> u32 {
    outline_code(outline, &|pixels| {
        outline.pix2val.len() == pixels
            && outline.dldw_pix2val.len() == pixels
            && outline.pix2tri.len() == pixels
            && outline.dldw_vtx2xyz.len() == outline.vtx2xyz.len()
    })
}

/// A clear layer of so many pixels.
pub fn cleared(pixels: usize) -> Layer {
    let clear: Cell = (EMPTY, f32::NEG_INFINITY, [0.0; 3]);
    std::iter::repeat_n(clear, pixels).collect()
}

/// The right cell where its depth is greater, else the left one.
pub fn joined(left: &Layer, right: &Layer) -> Layer {
    let join = |(left, right): (Cell, Cell)| if right.1 > left.1 { right } else { left };
    left.cells().zip(right.cells()).map(join).collect()
}

/// The body of each pixel by its entry in the table, or empty.
pub fn labelled(labels: &Labels) -> Vec<u32> {
    let body = |&entry: &u32| match entry {
        EMPTY => EMPTY,
        face => labels.tri2body[face as usize],
    };
    labels.pix2tri.iter().map(body).collect()
}
