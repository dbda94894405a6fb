//! The listed calls, over flat slices; the drawing with a first number, and with weights beside the depths.
use crate::expected::cleared;
use crate::layer::Layer;
use crate::outlines::Outline;
use crate::pass::{Pass, Velocities};
use crate::removal::Removal;
use crate::scene::{Scene, EMPTY};
use std::cell::{Cell, RefCell};
use std::collections::BTreeMap;
use std::panic::{catch_unwind, AssertUnwindSafe};
use std::sync::Once;

/// The corners of a piece in normalised coordinates.
pub type Piece = [[f32; 3]; 3];

thread_local! {
    static QUIET: Cell<bool> = const { Cell::new(false) };
    /// The pieces that the counting file has met.
    static PIECES: RefCell<Vec<Piece>> = const { RefCell::new(Vec::new()) };
    /// The pixels that its scans have offered.
    static PIXELS: Cell<u64> = const { Cell::new(0) };
    /// The weights of the layer on which a file draws that keeps them.
    static WEIGHTS: RefCell<Vec<f32>> = const { RefCell::new(Vec::new()) };
    /// What the facing file asks its candidates, and those that it has asked.
    static FACING: Cell<u32> = const { Cell::new(0) };
    static CANDIDATES: RefCell<Candidates> = const { RefCell::new(Candidates::new()) };
}

/// The branch of the listed drawing that a piece comes from. One that is cut has a corner alone on its side of the near plane.
#[derive(Clone, Copy, Debug, PartialEq, Eq, PartialOrd, Ord)]
pub enum Branch {
    Whole,
    One(usize),
    Two(usize),
}

impl Branch {
    pub const ALL: [Branch; 7] = [
        Branch::Whole,
        Branch::One(0),
        Branch::One(1),
        Branch::One(2),
        Branch::Two(0),
        Branch::Two(1),
        Branch::Two(2),
    ];

    /// Whether its pieces list their corners turned round, as (1, 0, 2) is.
    pub fn turned(self) -> bool {
        matches!(self, Branch::One(1) | Branch::Two(1))
    }
}

/// Candidates by branch, whether s was above 0, and whether they counted.
pub type Candidates = BTreeMap<(Branch, bool, bool), u64>;

/// Whether a candidate of the facing file counts: a piece that has weights at a pixel, none of them too low.
pub fn faces(branch: Branch, s: f32) -> bool {
    let front = if branch.turned() { s < 0.0 } else { s > 0.0 };
    let counts = FACING.get() == 0 || front;
    let met = (branch, s > 0.0, counts);
    CANDIDATES.with_borrow_mut(|candidates| *candidates.entry(met).or_insert(0) += 1);
    counts
}

/// The counting file draws a piece.
pub fn piece(ndc: Piece) {
    PIECES.with_borrow_mut(|pieces| pieces.push(ndc));
}

/// Its scan has offered a pixel of the image.
pub fn pixel() {
    PIXELS.set(PIXELS.get() + 1);
}

/// A depth was written: the weights of its candidate go beside it.
pub fn weights(pixel: usize, candidate: [f32; 3]) {
    WEIGHTS.with_borrow_mut(|weights| weights.as_chunks_mut::<3>().0[pixel] = candidate);
}

/// What a listed call leaves, or nothing where it panics, without a word.
fn unless_it_panics<T>(call: impl FnOnce() -> T) -> Option<T> {
    static HOOK: Once = Once::new();
    HOOK.call_once(|| {
        let loud = std::panic::take_hook();
        std::panic::set_hook(Box::new(move |info| {
            if !QUIET.get() {
                loud(info);
            }
        }));
    });
    QUIET.set(true);
    let answer = catch_unwind(AssertUnwindSafe(call)).ok();
    QUIET.set(false);
    answer
}

/// `pix2val` afterwards.
pub fn interpolate(pass: &Pass) -> Option<Vec<f32>> {
    unless_it_panics(|| {
        let mut pix2val = pass.pix2val.clone();
        crate::pix2tri::interpolate(
            (pass.img_w, pass.img_h),
            &pass.pix2tri,
            pass.tri2vtx.as_chunks::<3>().0,
            pass.vtx2xyz.as_chunks::<3>().0,
            pass.num_vdim,
            &pass.vtx2val,
            &pass.transform_ndc2world,
            &mut pix2val,
        );
        pix2val
    })
}

/// `dldw_vtx2xyz` and `dldw_vtx2val` afterwards.
pub fn interpolate_bwd(pass: &Pass) -> Option<[Vec<f32>; 2]> {
    unless_it_panics(|| {
        let mut dldw_vtx2xyz = pass.dldw_vtx2xyz.clone();
        let mut dldw_vtx2val = pass.dldw_vtx2val.clone();
        crate::pix2tri::interpolate_bwd(
            (pass.img_w, pass.img_h),
            &pass.pix2tri,
            pass.tri2vtx.as_chunks::<3>().0,
            pass.vtx2xyz.as_chunks::<3>().0,
            pass.num_vdim,
            &pass.vtx2val,
            &pass.transform_ndc2world,
            &pass.dldw_pix2val,
            dldw_vtx2xyz.as_chunks_mut::<3>().0,
            &mut dldw_vtx2val,
        );
        [dldw_vtx2xyz, dldw_vtx2val]
    })
}

/// `edge_gradient_and_type` of the unchanged file, or of the one that is changed where the documents decide otherwise.
type EdgeTypes = fn(
    &[[u32; 3]],
    &[[f32; 3]],
    &[f32; 16],
    (usize, usize),
    &[u32],
    usize,
    &[f32],
    &[f32],
    &mut [u8],
    &mut [f32],
    &mut [u8],
    &mut [f32],
);

/// What the type call leaves: `hedge2type` and `vedge2type`, `hedge2dldr` and `vedge2dldr`.
pub type Typed = ([Vec<u8>; 2], [Vec<f32>; 2]);

fn edge_types_by(edge_types: EdgeTypes, pass: &Pass) -> Option<Typed> {
    unless_it_panics(|| {
        let mut types = [pass.hedge2type.clone(), pass.vedge2type.clone()];
        let mut dldrs = [pass.hedge2dldr.clone(), pass.vedge2dldr.clone()];
        let ([hedge2type, vedge2type], [hedge2dldr, vedge2dldr]) = (&mut types, &mut dldrs);
        edge_types(
            pass.tri2vtx.as_chunks::<3>().0,
            pass.vtx2xyz.as_chunks::<3>().0,
            &pass.transform_world2pix,
            (pass.img_w, pass.img_h),
            &pass.pix2tri,
            pass.num_vdim,
            &pass.pix2val,
            &pass.dldw_pix2val,
            hedge2type,
            hedge2dldr,
            vedge2type,
            vedge2dldr,
        );
        (types, dldrs)
    })
}

/// Types and `dldr` afterwards, by the inside test of `bwd`.
pub fn edge_gradient_and_type(pass: &Pass) -> Option<Typed> {
    edge_types_by(crate::edgegrad_by_the_rules::edge_gradient_and_type, pass)
}

/// The same by the file as it is listed.
pub fn edge_gradient_and_type_as_listed(pass: &Pass) -> Option<Typed> {
    edge_types_by(crate::edgegrad::edge_gradient_and_type, pass)
}

/// `bwd` of the unchanged file, or of the changed one.
type Bwd = fn(
    &[[u32; 3]],
    &[[f32; 3]],
    &mut [[f32; 3]],
    &[f32; 16],
    (usize, usize),
    &[u32],
    usize,
    &[f32],
    &[f32],
);

fn bwd_by(bwd: Bwd, pass: &Pass) -> Option<Vec<f32>> {
    unless_it_panics(|| {
        let mut dldw_vtx2xyz = pass.dldw_vtx2xyz.clone();
        bwd(
            pass.tri2vtx.as_chunks::<3>().0,
            pass.vtx2xyz.as_chunks::<3>().0,
            dldw_vtx2xyz.as_chunks_mut::<3>().0,
            &pass.transform_world2pix,
            (pass.img_w, pass.img_h),
            &pass.pix2tri,
            pass.num_vdim,
            &pass.pix2val,
            &pass.dldw_pix2val,
        );
        dldw_vtx2xyz
    })
}

/// `dldw_vtx2xyz` afterwards, each share's point from its own triangle, and hypot by 01's rule.
pub fn bwd(pass: &Pass) -> Option<Vec<f32>> {
    bwd_by(crate::edgegrad_by_the_rules::bwd, pass)
}

/// The same by the file as it is listed.
pub fn bwd_as_listed(pass: &Pass) -> Option<Vec<f32>> {
    bwd_by(crate::edgegrad::bwd, pass)
}

/// `vtx2velo` afterwards.
pub fn interpolate_from_edges(v: &Velocities) -> Option<Vec<f32>> {
    unless_it_panics(|| {
        let mut vtx2velo = v.vtx2velo.clone();
        crate::edgegrad::interpolate_from_edges(
            (v.img_w, v.img_h),
            &v.hedge2vy,
            &v.vedge2vx,
            v.vtx2xy.as_chunks::<2>().0,
            vtx2velo.as_chunks_mut::<2>().0,
        );
        vtx2velo
    })
}

/// `antialias` of the unchanged file, or of the one that passes the image border over.
type Antialias =
    fn(&[[u32; 2]], &[[f32; 3]], &[f32; 16], (usize, usize), &[u32], &[f32], &mut [f32]);

fn antialias_by(antialias: Antialias, outline: &Outline) -> Option<Vec<f32>> {
    unless_it_panics(|| {
        let mut pix2vout = outline.pix2vout.clone();
        antialias(
            outline.cedge2vtx.as_chunks::<2>().0,
            outline.vtx2xyz.as_chunks::<3>().0,
            &outline.transform_world2pix,
            (outline.img_w, outline.img_h),
            &outline.pix2tri,
            &outline.pix2val,
            &mut pix2vout,
        );
        pix2vout
    })
}

/// `pix2vout` afterwards.
pub fn antialias(outline: &Outline) -> Option<Vec<f32>> {
    antialias_by(crate::antialias_by_the_rules::antialias, outline)
}

/// The same by the file as it is listed.
pub fn antialias_as_listed(outline: &Outline) -> Option<Vec<f32>> {
    antialias_by(crate::antialias::antialias, outline)
}

/// `bwd_antialias` of either file.
type BwdAntialias = fn(
    &[[u32; 2]],
    &[[f32; 3]],
    &mut [[f32; 3]],
    &[f32; 16],
    (usize, usize),
    &[f32],
    &[f32],
    &[u32],
);

fn bwd_antialias_by(bwd_antialias: BwdAntialias, outline: &Outline) -> Option<Vec<f32>> {
    unless_it_panics(|| {
        let mut dldw_vtx2xyz = outline.dldw_vtx2xyz.clone();
        bwd_antialias(
            outline.cedge2vtx.as_chunks::<2>().0,
            outline.vtx2xyz.as_chunks::<3>().0,
            dldw_vtx2xyz.as_chunks_mut::<3>().0,
            &outline.transform_world2pix,
            (outline.img_w, outline.img_h),
            &outline.pix2val,
            &outline.dldw_pix2val,
            &outline.pix2tri,
        );
        dldw_vtx2xyz
    })
}

/// `dldw_vtx2xyz` afterwards.
pub fn bwd_antialias(outline: &Outline) -> Option<Vec<f32>> {
    bwd_antialias_by(crate::antialias_by_the_rules::bwd_antialias, outline)
}

/// The same by the file as it is listed.
pub fn bwd_antialias_as_listed(outline: &Outline) -> Option<Vec<f32>> {
    bwd_antialias_by(crate::antialias::bwd_antialias, outline)
}

/// `pix2tri_by_rasterization` of one of the files.
type Draw = fn(&mut [u32], &mut [f32], &[[u32; 3]], &[[f32; 3]], (usize, usize), &[f32; 16]);

/// What a file leaves of a layer on which it draws the scene's mesh. Of the file as it is listed, the weights are those from
/// before.
fn drawn_on(mut layer: Layer, draw: Draw, scene: &Scene) -> Layer {
    PIECES.take();
    PIXELS.set(0);
    CANDIDATES.take();
    FACING.set(scene.facing);
    WEIGHTS.set(layer.pix2weights);
    del_geo_core::tri2_scanline::of_image(scene.img_w, scene.img_h);
    draw(
        &mut layer.pix2tri,
        &mut layer.pix2depth,
        scene.tri2vtx.as_chunks::<3>().0,
        scene.vtx2xyz.as_chunks::<3>().0,
        (scene.img_w, scene.img_h),
        &scene.transform_world2ndc,
    );
    layer.pix2weights = WEIGHTS.take();
    layer
}

/// The layer of a scene once it is drawn, and the face that was written at each pixel, from 0 on, or empty where none was.
pub struct Drawn {
    pub layer: Layer,
    pub written: Vec<u32>,
}

/// A file numbers faces from 0 and never reads the map, so it draws on an empty one: what is no longer empty was written.
fn drawn_by(draw: Draw, scene: &Scene) -> Drawn {
    let mut layer = scene.layer.clone();
    let before = std::mem::replace(&mut layer.pix2tri, vec![EMPTY; scene.img_w * scene.img_h]);
    let mut layer = drawn_on(layer, draw, scene);
    let number = |(&old, &new): (&u32, &u32)| if new == EMPTY { old } else { new + scene.first };
    let numbers = before.iter().zip(&layer.pix2tri).map(number).collect();
    let written = std::mem::replace(&mut layer.pix2tri, numbers);
    Drawn { layer, written }
}

/// An accepted scene drawn by the listed Rust with the weights kept, of all faces.
pub fn drawn(scene: &Scene) -> Drawn {
    assert_eq!(scene.facing, 0, "the listed Rust has no facing");
    drawn_by(
        crate::pix2tri_counting::pix2tri_by_rasterization::<u32>,
        scene,
    )
}

/// The full list of an accepted removal and the shortened one drawn so, each on a clear layer and numbered from 0.
pub fn drawn_twice(removal: &Removal) -> [Layer; 2] {
    let scene = &removal.scene;
    [scene.tri2vtx.clone(), removal.shortened()].map(|tri2vtx| {
        let alone = Scene {
            layer: cleared(scene.img_w * scene.img_h),
            tri2vtx,
            vtx2xyz: scene.vtx2xyz.clone(),
            first: 0,
            ..*scene
        };
        drawn(&alone).layer
    })
}

/// The same by the file as it is listed, which has no weights: map and depths.
pub fn drawn_as_listed(scene: &Scene) -> (Vec<u32>, Vec<f32>) {
    assert_eq!(scene.facing, 0, "the listed Rust has no facing");
    let layer = drawn_by(crate::pix2tri::pix2tri_by_rasterization::<u32>, scene).layer;
    (layer.pix2tri, layer.pix2depth)
}

/// The same with the scene's facing, by the file that asks for it; and the candidates that it has asked.
pub fn drawn_facing(scene: &Scene) -> (Drawn, Candidates) {
    let drawn = drawn_by(
        crate::pix2tri_facing::pix2tri_by_rasterization::<u32>,
        scene,
    );
    (drawn, CANDIDATES.take())
}

/// The pieces of the listed Rust while it draws an accepted mesh, and how many pixels they are offered. Of front pieces, those
/// of the file that asks for them.
fn counted(scene: &Scene) -> (Vec<Piece>, u64) {
    let draw: Draw = match scene.facing {
        0 => crate::pix2tri_counting::pix2tri_by_rasterization::<u32>,
        _ => crate::pix2tri_facing::pix2tri_by_rasterization::<u32>,
    };
    drawn_on(cleared(scene.img_w * scene.img_h), draw, scene);
    (PIECES.take(), PIXELS.get())
}

/// The number of the pieces and of the scanned pixels.
pub fn load(scene: &Scene) -> (u64, u64) {
    let (pieces, pixels) = counted(scene);
    (pieces.len() as u64, pixels)
}

/// The pieces, in the order in which they are drawn.
pub fn pieces(scene: &Scene) -> Vec<Piece> {
    counted(scene).0
}

/// The listed scan of one piece on a layer; how many pixels of the image it offers.
pub fn scan(layer: &mut Layer, img_shape: (usize, usize), number: u32, ndc: Piece) -> u64 {
    PIXELS.set(0);
    WEIGHTS.set(std::mem::take(&mut layer.pix2weights));
    del_geo_core::tri2_scanline::of_image(img_shape.0, img_shape.1);
    let (pix2tri, pix2depth) = (&mut layer.pix2tri, &mut layer.pix2depth);
    crate::pix2tri_counting::rasterize_projected_tri(pix2tri, pix2depth, img_shape, number, ndc);
    layer.pix2weights = WEIGHTS.take();
    PIXELS.get()
}

/// Which way a face goes through the listed drawing.
#[derive(Clone, Copy, Debug, PartialEq, Eq, PartialOrd, Ord)]
pub enum Way {
    Unprojectable,
    Behind,
    Unclipped,
    Whole,
    None,
    /// One valid corner, and which.
    One(usize),
    /// Else two pieces, by which corner they leave out; how many corners are valid.
    Two(usize, usize),
}

/// The way of each face of an accepted scene.
pub fn ways(scene: &Scene) -> impl Iterator<Item = Way> + '_ {
    let m = &scene.transform_world2ndc;
    let vertices = scene.vtx2xyz.as_chunks::<3>().0;
    let project =
        |v: u32| del_geo_core::mat4_col_major::transform_homogeneous(m, &vertices[v as usize]);
    let faces = scene.tri2vtx.as_chunks::<3>().0.iter();
    faces.map(move |face| {
        let [Some((p0, w0)), Some((p1, w1)), Some((p2, w2))] = face.map(project) else {
            return Way::Unprojectable;
        };
        let t11 = m[11];
        if t11 != 0.0 && [w0, w1, w2].iter().any(|w| w * t11 >= 0.0) {
            return Way::Behind;
        }
        if t11 == 0.0 {
            return Way::Unclipped;
        }
        let c = [(p0, w0), (p1, w1), (p2, w2)].map(|(p, w)| w * (p[2] - t11));
        let valid = c.iter().filter(|&&c| c >= 0.0).count();
        if valid == 3 {
            Way::Whole
        } else if c.iter().all(|&c| c < 0.0) {
            Way::None
        } else if valid == 1 {
            Way::One(c.iter().position(|&c| c >= 0.0).unwrap())
        } else {
            Way::Two(c[..2].iter().position(|&c| c < 0.0).unwrap_or(2), valid)
        }
    })
}
