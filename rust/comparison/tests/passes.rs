//! The passes over a map: refusals beside the questions of 01, and every number of the written buffers beside the
//! listed Rust where its source is found. Bits are compared; a computed NaN is a NaN, and a place that nothing
//! reaches keeps its bits, payload included.
use comparison::expected::{
    bwd_code_to_8, edge_gradient_and_type_code, interpolate_bwd_code, interpolate_code,
    interpolate_from_edges_code,
};
use comparison::pairs::{edge_type, hedges, unlike, vedges, Pair};
use comparison::pass::{crowded_pass, pass, velocities, Pass, Velocities};
use comparison::scene::{EMPTY, MOST};
use paqelzim::Refusal;

const PASSES: u64 = 30_000;
const CROWDED: u64 = 2_000;

/// The arguments of every test here: small images with all that can be wrong, and larger ones.
fn passes() -> impl Iterator<Item = Pass> {
    (0..PASSES).map(pass).chain((0..CROWDED).map(crowded_pass))
}

fn code(answer: Result<(), Refusal>) -> u32 {
    answer.map_or_else(|refusal| refusal.code(), |()| 0)
}

/// How often each code was answered. Where it is a refusal, nothing was written: each test asserts that too.
#[derive(Default)]
struct Seen([usize; 10]);

impl Seen {
    fn add(&mut self, code: u32) {
        self.0[code as usize] += 1;
    }

    /// Every code that the call can answer was seen, and no other.
    fn is_all_of(&self, codes: &[usize]) {
        println!("codes 0 to 9: {:?}", self.0);
        for (code, &times) in self.0.iter().enumerate() {
            if codes.contains(&code) {
                assert!(times > 50, "{code} was hardly answered: {:?}", self.0);
            } else {
                assert_eq!(times, 0, "{code} is not an answer of this call");
            }
        }
    }
}

fn bits(floats: &[f32]) -> Vec<u32> {
    floats.iter().map(|x| x.to_bits()).collect()
}

/// Equal bits, or two NaNs where the place was computed.
#[cfg(listed)]
fn same(got: &[f32], wanted: &[f32], before: &[f32], computed: impl Fn(usize) -> bool) {
    assert_eq!(got.len(), wanted.len());
    for (at, (&got, &wanted)) in got.iter().zip(wanted).enumerate() {
        if computed(at) {
            let equal = got.to_bits() == wanted.to_bits() || got.is_nan() && wanted.is_nan();
            assert!(equal, "place {at}: {got:?}, not {wanted:?}");
        } else {
            assert_eq!(
                got.to_bits(),
                before[at].to_bits(),
                "place {at} was not to be written"
            );
        }
    }
}

/// Whether a vertex is a corner of a face that the map names.
#[cfg(listed)]
fn shown(pass: &Pass) -> Vec<bool> {
    let mut shown = vec![false; pass.vtx2xyz.len() / 3];
    for &face in pass.pix2tri.iter().filter(|&&entry| entry != EMPTY) {
        for &corner in &pass.tri2vtx.as_chunks::<3>().0[face as usize] {
            shown[corner as usize] = true;
        }
    }
    shown
}

fn interpolate(pass: &Pass) -> (u32, Vec<f32>) {
    let mut pix2val = pass.pix2val.clone();
    let answer = paqelzim::interpolate(
        pass.img_w,
        pass.img_h,
        &pass.pix2tri,
        &pass.tri2vtx,
        &pass.vtx2xyz,
        pass.num_vdim,
        &pass.vtx2val,
        &pass.transform_ndc2world,
        &mut pix2val,
    );
    (code(answer), pix2val)
}

#[test]
fn values() {
    let mut seen = Seen::default();
    for pass in passes() {
        let (code, pix2val) = interpolate(&pass);
        assert_eq!(code, interpolate_code(&pass), "{pass:?}");
        seen.add(code);
        if code != 0 {
            assert_eq!(bits(&pix2val), bits(&pass.pix2val), "{pass:?}");
            continue;
        }
        #[cfg(listed)]
        same(
            &pix2val,
            &comparison::reference::interpolate(&pass).expect("it runs"),
            &pass.pix2val,
            |at| pass.pix2tri[at / pass.num_vdim] != EMPTY,
        );
    }
    seen.is_all_of(&[0, 1, 2, 3, 4, 6, 7, 8]);
}

fn interpolate_bwd(pass: &Pass) -> (u32, [Vec<f32>; 2]) {
    let mut dldw_vtx2xyz = pass.dldw_vtx2xyz.clone();
    let mut dldw_vtx2val = pass.dldw_vtx2val.clone();
    let answer = paqelzim::interpolate_bwd(
        pass.img_w,
        pass.img_h,
        &pass.pix2tri,
        &pass.tri2vtx,
        &pass.vtx2xyz,
        pass.num_vdim,
        &pass.vtx2val,
        &pass.transform_ndc2world,
        &pass.dldw_pix2val,
        &mut dldw_vtx2xyz,
        &mut dldw_vtx2val,
    );
    (code(answer), [dldw_vtx2xyz, dldw_vtx2val])
}

#[test]
fn values_backward() {
    let mut seen = Seen::default();
    for pass in passes() {
        let (code, [xyz, val]) = interpolate_bwd(&pass);
        assert_eq!(code, interpolate_bwd_code(&pass), "{pass:?}");
        seen.add(code);
        if code != 0 {
            assert_eq!(bits(&xyz), bits(&pass.dldw_vtx2xyz), "{pass:?}");
            assert_eq!(bits(&val), bits(&pass.dldw_vtx2val), "{pass:?}");
            continue;
        }
        #[cfg(listed)]
        {
            let [wanted_xyz, wanted_val] =
                comparison::reference::interpolate_bwd(&pass).expect("it runs");
            let shown = shown(&pass);
            same(&xyz, &wanted_xyz, &pass.dldw_vtx2xyz, |at| shown[at / 3]);
            same(&val, &wanted_val, &pass.dldw_vtx2val, |at| {
                shown[at / pass.num_vdim]
            });
        }
    }
    seen.is_all_of(&[0, 1, 2, 3, 4, 6, 7, 8]);
}

fn edges(pass: &Pass) -> (u32, Pass) {
    let mut left = pass.clone();
    let answer = paqelzim::edge_gradient_and_type(
        &pass.tri2vtx,
        &pass.vtx2xyz,
        &pass.transform_world2pix,
        pass.img_w,
        pass.img_h,
        &pass.pix2tri,
        pass.num_vdim,
        &pass.pix2val,
        &pass.dldw_pix2val,
        &mut left.hedge2type,
        &mut left.hedge2dldr,
        &mut left.vedge2type,
        &mut left.vedge2dldr,
    );
    (code(answer), left)
}

#[test]
fn edge_types() {
    let mut seen = Seen::default();
    for pass in passes() {
        let (code, left) = edges(&pass);
        assert_eq!(code, edge_gradient_and_type_code(&pass), "{pass:?}");
        seen.add(code);
        if code != 0 {
            assert_eq!(left.hedge2type, pass.hedge2type, "{pass:?}");
            assert_eq!(left.vedge2type, pass.vedge2type, "{pass:?}");
            assert_eq!(bits(&left.hedge2dldr), bits(&pass.hedge2dldr), "{pass:?}");
            assert_eq!(bits(&left.vedge2dldr), bits(&pass.vedge2dldr), "{pass:?}");
            continue;
        }
        #[cfg(listed)]
        {
            let (types, dldrs) =
                comparison::reference::edge_gradient_and_type(&pass).expect("it runs");
            assert_eq!([left.hedge2type, left.vedge2type], types, "{pass:?}");
            same(&left.hedge2dldr, &dldrs[0], &pass.hedge2dldr, |_| true);
            same(&left.vedge2dldr, &dldrs[1], &pass.vedge2dldr, |_| true);
        }
    }
    seen.is_all_of(&[0, 1, 2, 3, 4, 6, 7, 8]);
}

/// Each pair's type is what 02's words make it, whether or not `bwd` accepts; where every type is 0, `bwd` adds nothing.
#[test]
fn types_by_the_test_of_bwd() {
    let (mut ones, mut refused, mut quiet) = (0, 0, 0);
    for pass in passes() {
        let (code, left) = edges(&pass);
        if code != 0 {
            continue;
        }
        let types = [left.hedge2type, left.vedge2type].concat();
        let pairs: Vec<Pair> = hedges(&pass).chain(vedges(&pass)).collect();
        let wanted = pairs.iter().map(|&pair| edge_type(&pass, pair));
        assert_eq!(types, wanted.collect::<Vec<_>>(), "{pass:?}");
        ones += types.iter().filter(|&&edge_type| edge_type == 1).count();
        let (code, xyz) = bwd(&pass);
        refused += usize::from(code == 9);
        if !types.contains(&1) && pairs.iter().any(|&pair| unlike(&pass, pair)) {
            assert_ne!(code, 9, "there is no share to ask it of: {pass:?}");
            assert_eq!(bits(&xyz), bits(&pass.dldw_vtx2xyz), "{pass:?}");
            quiet += usize::from(code == 0);
        }
    }
    println!("{ones} pairs of type 1; bwd refuses {refused} scenes with 9; {quiet} have unequal pairs, all of type 0");
    assert!(ones > 10_000 && refused > 1_000 && quiet > 20);
}

/// The unchanged file gives another type only at pairs where a face has no weights: 1, and ours is 0.
#[cfg(listed)]
#[test]
fn the_listed_types_differ_only_without_weights() {
    let (mut unweighed, mut other) = (0, 0);
    for pass in passes() {
        let (code, left) = edges(&pass);
        if code != 0 {
            continue;
        }
        let ours = [left.hedge2type, left.vedge2type].concat();
        let (types, dldrs) =
            comparison::reference::edge_gradient_and_type_as_listed(&pass).expect("it runs too");
        same(&left.hedge2dldr, &dldrs[0], &pass.hedge2dldr, |_| true);
        same(&left.vedge2dldr, &dldrs[1], &pass.vedge2dldr, |_| true);
        let pairs = hedges(&pass).chain(vedges(&pass));
        for (pair, (ours, listed)) in pairs.zip(ours.into_iter().zip(types.concat())) {
            let none = unlike(&pass, pair) && comparison::pairs::without_weights(&pass, pair);
            assert!(ours == listed || none, "{pair:?} of {pass:?}");
            assert!(ours == listed || [ours, listed] == [0, 1], "{pair:?}");
            unweighed += usize::from(none);
            other += usize::from(ours != listed);
        }
    }
    println!("{unweighed} unequal pairs have a face without weights, {other} of them another type");
    assert!(other > 500 && unweighed > other);
}

/// Two pixels side by side of faces 0 and 1, one channel, values 1 and 0, incoming 1 and 1, by the identity.
#[cfg(listed)]
fn side_by_side(tri2vtx: &[u32], vertices: &[[i16; 3]]) -> Pass {
    Pass {
        img_w: 2,
        img_h: 1,
        pix2tri: vec![0, 1],
        tri2vtx: tri2vtx.to_vec(),
        vtx2xyz: vertices.concat().iter().map(|&x| x.into()).collect(),
        num_vdim: 1,
        pix2val: vec![1.0, 0.0],
        dldw_pix2val: vec![1.0, 1.0],
        dldw_vtx2xyz: vec![0.5; 3 * vertices.len()],
        hedge2type: vec![],
        hedge2dldr: vec![],
        vedge2type: vec![7],
        vedge2dldr: vec![7.0],
        transform_world2pix: std::array::from_fn(|at| f32::from(u8::from(at % 5 == 0))),
        ..pass(0)
    }
}

/// The smallest scene in which the listed type is another (docs/DIFFERENCES.md): a floor, and on its edge a wall, seen
/// edge on, beside it in the map. No centre is inside: type 0, and `bwd` adds nothing.
#[cfg(listed)]
#[test]
fn a_face_seen_edge_on_is_no_edge() {
    let pass = side_by_side(
        &[0, 1, 2, 0, 1, 3],
        &[[0, 0, 0], [1, 0, 0], [0, 1, 0], [0, 0, 1]],
    );
    let (code, left) = edges(&pass);
    assert_eq!(
        (code, left.vedge2type, left.vedge2dldr),
        (0, vec![0], vec![1.0])
    );
    let (types, dldrs) =
        comparison::reference::edge_gradient_and_type_as_listed(&pass).expect("accepted");
    assert_eq!(
        (types, dldrs),
        ([vec![], vec![1]], [vec![], vec![1.0]]),
        "the listed type is 1"
    );
    assert_eq!(bwd(&pass), (0, pass.dldw_vtx2xyz.clone()));
    let listed = comparison::reference::bwd_as_listed(&pass);
    assert_eq!(listed, Some(pass.dldw_vtx2xyz), "nor does the listed bwd");
}

fn bwd(pass: &Pass) -> (u32, Vec<f32>) {
    let mut dldw_vtx2xyz = pass.dldw_vtx2xyz.clone();
    let answer = paqelzim::bwd(
        &pass.tri2vtx,
        &pass.vtx2xyz,
        &mut dldw_vtx2xyz,
        &pass.transform_world2pix,
        pass.img_w,
        pass.img_h,
        &pass.pix2tri,
        pass.num_vdim,
        &pass.pix2val,
        &pass.dldw_pix2val,
    );
    (code(answer), dldw_vtx2xyz)
}

/// Where the questions to 8 are answered yes, the code is 0 or 9, and `edges_backward` asks which.
#[test]
fn edges_backward_refused() {
    let mut seen = Seen::default();
    for pass in passes() {
        let (code, xyz) = bwd(&pass);
        let to_8 = bwd_code_to_8(&pass);
        assert_eq!(if code == 9 { 0 } else { code }, to_8, "{pass:?}");
        if code != 0 {
            assert_eq!(bits(&xyz), bits(&pass.dldw_vtx2xyz), "{pass:?}");
        }
        seen.add(code);
    }
    seen.is_all_of(&[0, 1, 2, 3, 4, 6, 7, 8, 9]);
}

/// Beside the listed file, changed where the documents decide otherwise; question 9 is asked of that file itself, and is no
/// exactly where it would panic.
#[cfg(listed)]
#[test]
fn edges_backward() {
    let (mut accepted, mut ninth) = (0, 0);
    for pass in passes().filter(|p| bwd_code_to_8(p) == 0) {
        let (code, xyz) = bwd(&pass);
        let Some(wanted) = comparison::reference::bwd(&pass) else {
            assert_eq!(code, 9, "{pass:?}");
            ninth += 1;
            continue;
        };
        assert_eq!(code, 0, "{pass:?}");
        let shown = shown(&pass);
        same(&xyz, &wanted, &pass.dldw_vtx2xyz, |at| shown[at / 3]);
        accepted += 1;
    }
    println!("{accepted} accepted, {ninth} refused with 9");
    assert!(accepted > 10_000 && ninth > 1_000);
}

/// The unchanged file gives other bits only at corners of the second face of a pair that crosses: where no pair does, its
/// bits are ours.
#[cfg(listed)]
#[test]
fn the_listed_file_differs_only_where_faces_cross() {
    let (mut crossed, mut uncrossed, mut unlike) = (0, 0, 0);
    for pass in passes().filter(|p| bwd_code_to_8(p) == 0) {
        let (code, ours) = bwd(&pass);
        if code != 0 {
            continue;
        }
        let listed = comparison::reference::bwd_as_listed(&pass).expect("it runs too");
        let second = comparison::pairs::second_corners(&pass);
        let mut differs = false;
        for (at, (ours, listed)) in ours.iter().zip(&listed).enumerate() {
            let equal = ours.to_bits() == listed.to_bits() || ours.is_nan() && listed.is_nan();
            assert!(equal || second[at / 3], "place {at}: {ours:?}, {listed:?}");
            differs |= !equal;
        }
        let crosses = second.contains(&true);
        crossed += usize::from(crosses);
        uncrossed += usize::from(!crosses);
        unlike += usize::from(differs);
    }
    println!("faces cross in {crossed} scenes, in {unlike} of them with other bits; in {uncrossed} none cross");
    assert!(unlike > 500 && crossed > unlike && uncrossed > 10_000);
}

/// The smallest scene in which the listed file and 01 differ (docs/DIFFERENCES.md): two faces that cross beside one
/// pair, in perspective, so that a share depends on the point it is taken from.
#[cfg(listed)]
#[test]
fn each_share_from_its_own_triangle() {
    let mut pass = side_by_side(
        &[0, 1, 2, 3, 4, 5],
        &[
            [-1, -1, 0],
            [10, -2, 4],
            [-1, 5, 0],
            [-2, -2, 4],
            [5, -1, 0],
            [-2, 10, 4],
        ],
    );
    pass.transform_world2pix[11] = 0.25;
    let (code, got) = bwd(&pass);
    assert_eq!(code, 0);
    let wanted = comparison::reference::bwd(&pass).expect("accepted");
    let listed = comparison::reference::bwd_as_listed(&pass).expect("accepted");
    assert_eq!(bits(&got), bits(&wanted));
    assert_eq!(
        bits(&got[..9]),
        bits(&listed[..9]),
        "the first share is the same"
    );
    assert_ne!(bits(&got[9..]), bits(&listed[9..]), "the second is not");
}

fn from_edges(v: &Velocities) -> (u32, Vec<f32>) {
    let mut vtx2velo = v.vtx2velo.clone();
    let answer = paqelzim::interpolate_from_edges(
        v.img_w,
        v.img_h,
        &v.hedge2vy,
        &v.vedge2vx,
        &v.vtx2xy,
        &mut vtx2velo,
    );
    (code(answer), vtx2velo)
}

#[test]
fn velocities_from_edges() {
    let mut seen = Seen::default();
    for v in (0..PASSES).map(velocities) {
        let (code, vtx2velo) = from_edges(&v);
        assert_eq!(code, interpolate_from_edges_code(&v), "{v:?}");
        seen.add(code);
        if code != 0 {
            assert_eq!(bits(&vtx2velo), bits(&v.vtx2velo), "{v:?}");
            continue;
        }
        #[cfg(listed)]
        same(
            &vtx2velo,
            &comparison::reference::interpolate_from_edges(&v).expect("it runs"),
            &v.vtx2velo,
            |_| true,
        );
    }
    seen.is_all_of(&[0, 1, 3, 4]);
}

/// Arguments of that many vertices and faces, over one empty pixel.
fn of_counts(vertices: usize, faces: usize) -> Pass {
    let transform = std::array::from_fn(|at| f32::from(u8::from(at % 5 == 0)));
    Pass {
        img_w: 1,
        img_h: 1,
        pix2tri: vec![EMPTY],
        tri2vtx: vec![0; 3 * faces],
        vtx2xyz: vec![0.5; 3 * vertices],
        num_vdim: 1,
        vtx2val: vec![0.5; vertices],
        pix2val: vec![0.5],
        dldw_pix2val: vec![0.5],
        dldw_vtx2xyz: vec![0.5; 3 * vertices],
        dldw_vtx2val: vec![0.5; vertices],
        hedge2type: Vec::new(),
        hedge2dldr: Vec::new(),
        vedge2type: Vec::new(),
        vedge2dldr: Vec::new(),
        transform_ndc2world: transform,
        transform_world2pix: transform,
    }
}

#[test]
fn counts_to_1048576() {
    let most = MOST as usize;
    for (vertices, faces, wanted) in [
        (most, 0, 0),
        (most + 1, 0, 3),
        (3, most, 0),
        (3, most + 1, 3),
    ] {
        let pass = of_counts(vertices, faces);
        let values = [interpolate(&pass).0, interpolate_bwd(&pass).0];
        let edges = [edges(&pass).0, bwd(&pass).0];
        assert_eq!([values, edges], [[wanted; 2]; 2], "{vertices}, {faces}");
    }
    for (points, wanted) in [(most, 0), (most + 1, 3)] {
        let velocities = Velocities {
            img_w: 2,
            img_h: 2,
            hedge2vy: vec![0.5; 2],
            vedge2vx: vec![0.5; 2],
            vtx2xy: vec![0.5; 2 * points],
            vtx2velo: vec![0.5; 2 * points],
        };
        assert_eq!(from_edges(&velocities).0, wanted, "{points}");
    }
}
