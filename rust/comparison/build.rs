//! Finds the listed Rust, in the folder that `DEL_MSH_SRC` names or in `../shared/docs/src` beside the
//! repository, and has it compiled unchanged from there. Where it is not found, the comparison is left out.
//! Of edgegrad.rs and of antialias.rs a second module has the places changed that 01 and 02 decide otherwise
//! (docs/DIFFERENCES.md), and of pix2tri.rs one that also keeps its pieces, counts the pixels of the image that its scans offer (02,
//! Point 6), has its scan of one piece public (02, Point 7), and keeps the weights of each depth that it writes (02, Point 9). A
//! third of pix2tri.rs does so too and asks each candidate how it faces (02, Point 8).
use std::path::{Path, PathBuf};

/// How often a place stands in a file, as listed and as changed.
type Change = (usize, &'static str, &'static str);

/// What the documents decide otherwise.
const CHANGES: [Change; 4] = [
    // an intersection's second point, which is listed with the first triangle's corners
    (
        1,
        "let xyz1 = tri0.world_pos_from_barycentric_coord(&b1);",
        "let xyz1 = tri1.world_pos_from_barycentric_coord(&b1);",
    ),
    // hypot, which is listed as the C library's
    (
        1,
        "n0[axis].hypot(n0[2])",
        "del_geo_core::float_tools::hypot(n0[axis], n0[2])",
    ),
    (
        1,
        "n1[axis].hypot(n1[2])",
        "del_geo_core::float_tools::hypot(n1[axis], n1[2])",
    ),
    // the inside test of the type call, of both centres in both of its loops: that of `bwd` (02, Point 4)
    (
        4,
        "fn_inside(fn_barycentric_pix(",
        "std::convert::identity(inside_by_bwd(",
    ),
];

/// The image border, whose pixels 02, Point 1 passes over: at some of them the file's index leaves the image. Both passes are given
/// the covered pixels without it. That an edge through the second centre is no crossing (rc = 1) needs no change, as the stand-in's
/// intersection follows 02 there.
const INNER: [Change; 1] = [(
    2,
    "del_geo_core::edge2::overlapping_pixels_dda(",
    "del_geo_core::edge2::overlapping_inner_pixels(",
)];

/// A piece kept where its drawing begins, a pixel of the image counted where the scan has offered it, and the scan of one piece,
/// which is private in the file, made public.
const COUNTS: [Change; 3] = [
    (
        1,
        "let (width, height) = img_shape;",
        "crate::reference::piece(ndc); let (width, height) = img_shape;",
    ),
    (
        1,
        "let i_pix = iy as usize * width + ix as usize;",
        "crate::reference::pixel(); let i_pix = iy as usize * width + ix as usize;",
    ),
    (
        1,
        "fn rasterize_projected_tri<Index>(",
        "pub fn rasterize_projected_tri<Index>(",
    ),
];

/// The weights kept beside the depth, where one is written; the file has them at hand and drops them.
const WEIGHTS: [Change; 1] = [(
    1,
    "pix2depth[i_pix] = depth;",
    "pix2depth[i_pix] = depth; crate::reference::weights(i_pix, [b0, b1, b2]);",
)];

/// A candidate asked how it faces, which the file does not ask: the weights give the doubled area with them, and a piece tells its
/// scan the branch that it comes from.
const FACING: [Change; 8] = [
    (
        1,
        "    ndc: [[f32; 3]; 3],\n) where",
        "    ndc: [[f32; 3]; 3],\n    branch: crate::reference::Branch,\n) where",
    ),
    (1, "let Some((b0, b1, b2)) =", "let Some((b0, b1, b2, s)) ="),
    (
        1,
        "del_geo_core::tri2::barycentric_coords(",
        "del_geo_core::tri2::barycentric_coords_and_area(",
    ),
    // after the weights' own test, before the depth
    (
        1,
        "let depth = b0 * ndc[0][2]",
        "if !crate::reference::faces(branch, s) { continue; } let depth = b0 * ndc[0][2]",
    ),
    // with clipping and without
    (
        2,
        "i_tri_val, [ndc0, ndc1, ndc2]);",
        "i_tri_val, [ndc0, ndc1, ndc2], crate::reference::Branch::Whole);",
    ),
    (
        1,
        "[ndc_a, ndc_ab, ndc_ac],",
        "[ndc_a, ndc_ab, ndc_ac], crate::reference::Branch::One(ia),",
    ),
    (
        1,
        "[ndc_a, ndc_b, ndc_ac],",
        "[ndc_a, ndc_b, ndc_ac], crate::reference::Branch::Two(ic),",
    ),
    (
        1,
        "[ndc_b, ndc_bc, ndc_ac],",
        "[ndc_b, ndc_bc, ndc_ac], crate::reference::Branch::Two(ic),",
    ),
];

/// The test of `bwd` with the arguments of the type call's.
const INSIDE_BY_BWD: &str = "
fn inside_by_bwd(
    tri2vtx: &[[u32; 3]],
    vtx2xyz: &[[f32; 3]],
    pixcntr: &[f32; 2],
    itri: u32,
    transform_world2pix: &[f32; 16],
) -> bool {
    Tri::new(itri, tri2vtx, vtx2xyz, transform_world2pix).is_none_or(|tri| tri.is_inside(pixcntr))
}
";

fn module(name: &str, file: &Path) -> String {
    format!("#[allow(warnings, clippy::all)]\n#[path = {file:?}]\npub mod {name};\n")
}

/// The file with each change made as often as it stands there.
fn with(changes: &[Change], mut file: String) -> String {
    for &(times, listed, changed) in changes {
        assert_eq!(file.matches(listed).count(), times, "{listed}: {times}");
        file = file.replace(listed, changed);
    }
    file
}

/// The file by the rules: neither the C library's hypot nor the type call's own test is called any more.
fn by_the_rules(file: String) -> String {
    let file = with(&CHANGES, file);
    assert!(!file.contains(".hypot("), "another hypot is listed");
    let tests = file.matches("fn_inside(").count();
    assert_eq!(tests, 1, "the type call's own test is left without a call");
    file + INSIDE_BY_BWD
}

fn main() {
    println!("cargo:rerun-if-env-changed=DEL_MSH_SRC");
    println!("cargo:rustc-check-cfg=cfg(listed)");
    let package = std::env::var("CARGO_MANIFEST_DIR").expect("cargo names the package's folder");
    let out = std::env::var("OUT_DIR").expect("cargo names a folder for what is made");
    let out = Path::new(&out);
    let folder = match std::env::var("DEL_MSH_SRC") {
        Ok(named) => PathBuf::from(named),
        Err(_) => Path::new(&package).join("../../../shared/docs/src"),
    };
    let folder = folder.join("del-msh-cpu/src");
    println!("cargo:rerun-if-changed={}", folder.display());
    let Ok(folder) = folder.canonicalize() else {
        return;
    };
    println!("cargo:rustc-cfg=listed");
    let [pix2tri, edgegrad, antialias] =
        ["pix2tri.rs", "edgegrad.rs", "antialias.rs"].map(|name| folder.join(name));
    let read = |file: &Path| std::fs::read_to_string(file).expect("the file is listed");
    let write = |name: &str, file: String| {
        let path = out.join(name);
        std::fs::write(&path, file).expect("a changed file is written");
        path
    };
    let rules = write("edgegrad_by_the_rules.rs", by_the_rules(read(&edgegrad)));
    let inner = write("antialias_by_the_rules.rs", with(&INNER, read(&antialias)));
    let counts = with(&WEIGHTS, with(&COUNTS, read(&pix2tri)));
    let faces = write("pix2tri_facing.rs", with(&FACING, counts.clone()));
    let counting = write("pix2tri_counting.rs", counts);
    let modules = [
        module("pix2tri", &pix2tri),
        module("pix2tri_counting", &counting),
        module("pix2tri_facing", &faces),
        module("edgegrad", &edgegrad),
        module("edgegrad_by_the_rules", &rules),
        module("antialias", &antialias),
        module("antialias_by_the_rules", &inner),
    ];
    std::fs::write(out.join("listed.rs"), modules.concat()).expect("the modules are written");
}
