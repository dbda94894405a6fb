//! Outline smoothing and its backward pass beside the listed Rust's, on one thread in one run: figures, not a test. The covered
//! pixels are not in the listed files; the stand-in walks along each edge from a guess, and its list is tested beside the definition
//! (tests/smoothing.rs). Run by `cargo bench --offline -p comparison --bench smoothing`.
#[cfg(not(listed))]
fn main() {
    println!("the listed Rust was not found");
}

#[cfg(listed)]
fn main() {
    listed::main();
}

#[cfg(listed)]
mod listed {
    use comparison::expected::cleared;
    use comparison::outlines::{outline_edges, Outline};
    use comparison::pass::{identity, world2pix};
    use comparison::random::Random;
    use comparison::reference::drawn;
    use comparison::scene::{Scene, EMPTY};
    use comparison::timing::least_of;
    use del_geo_core::edge2::overlapping_inner_pixels;
    use del_geo_core::vec3::Vec3;

    const ROUNDS: usize = 100;

    type Mesh = (Vec<u32>, Vec<f32>);

    /// A closed mesh of balls in rows and columns, side by side.
    fn balls(rows: usize, around: usize, down: usize) -> Mesh {
        let (mut tri2vtx, mut vtx2xyz) = (Vec::new(), Vec::new());
        let place = |k: usize| (2 * k + 1) as f32 / rows as f32 - 1.0;
        for (row, column) in (0..rows).flat_map(|row| (0..rows).map(move |column| (row, column))) {
            let first = (vtx2xyz.len() / 3) as u32;
            let (faces, points) = ball(around, down);
            tri2vtx.extend(faces.iter().map(|v| first + v));
            for [x, y, z] in points.as_chunks::<3>().0 {
                let [x, y, z] = [x, y, z].map(|x| 0.9 / rows as f32 * x);
                vtx2xyz.extend([place(column) + x, place(row) + y, z]);
            }
        }
        (tri2vtx, vtx2xyz)
    }

    /// Two poles, with `down` bands of faces between them. Its axis leans, so that no band is seen edge on.
    fn ball(around: usize, down: usize) -> Mesh {
        let leaning = |x: f32, y: f32, z: f32| [x, 0.8 * y - 0.6 * z, 0.6 * y + 0.8 * z];
        let mut points = vec![leaning(0.0, 1.0, 0.0), leaning(0.0, -1.0, 0.0)];
        for (j, i) in (1..down).flat_map(|j| (0..around).map(move |i| (j, i))) {
            let (sin, cos) = (std::f32::consts::PI * j as f32 / down as f32).sin_cos();
            let (x, z) = (std::f32::consts::TAU * i as f32 / around as f32).sin_cos();
            points.push(leaning(sin * x, cos, sin * z));
        }
        let corner = |j: usize, i: usize| (2 + (j - 1) * around + i % around) as u32;
        let mut tri2vtx = Vec::new();
        for i in 0..around {
            tri2vtx.extend([0, corner(1, i), corner(1, i + 1)]);
            for j in 1..down - 1 {
                let (a, b) = (corner(j, i), corner(j, i + 1));
                let (c, d) = (corner(j + 1, i), corner(j + 1, i + 1));
                tri2vtx.extend([a, c, b, b, c, d]);
            }
            tri2vtx.extend([1, corner(down - 1, i + 1), corner(down - 1, i)]);
        }
        (tri2vtx, points.concat())
    }

    /// 1 where the map shows a face, with gradients of any kind.
    fn of_map(scene: Scene, pix2tri: Vec<u32>, cedge2vtx: Vec<u32>) -> Outline {
        let random = &mut Random::new(1);
        let value = |&entry: &u32| if entry == EMPTY { 0.0 } else { 1.0 };
        let pix2val: Vec<f32> = pix2tri.iter().map(value).collect();
        let mut gradient = || random.between(-1.0, 1.0);
        Outline {
            img_w: scene.img_w,
            img_h: scene.img_h,
            cedge2vtx,
            transform_world2pix: world2pix(&scene),
            dldw_pix2val: pix2val.iter().map(|_| gradient()).collect(),
            pix2vout: pix2val.clone(),
            pix2val,
            dldw_vtx2xyz: vec![0.0; scene.vtx2xyz.len()],
            vtx2xyz: scene.vtx2xyz,
            pix2tri,
        }
    }

    fn scene(side: usize, (tri2vtx, vtx2xyz): Mesh) -> Scene {
        Scene {
            layer: cleared(side * side),
            tri2vtx,
            vtx2xyz,
            img_w: side,
            img_h: side,
            transform_world2ndc: identity(),
            first: 0,
            facing: 0,
        }
    }

    /// The outline of a closed mesh.
    fn of_a_closed_mesh() -> Outline {
        let scene = scene(1024, balls(10, 64, 32));
        let edges = outline_edges(&scene.tri2vtx, &scene.vtx2xyz, &world2pix(&scene));
        assert_eq!(edges.len(), 2 * 10_000);
        let map = drawn(&scene).layer.pix2tri;
        of_map(scene, map, edges)
    }

    /// One edge from corner to corner, the map empty above it.
    fn of_a_diagonal() -> Outline {
        let side = 4096;
        let ends = vec![-1.0, 1.0, 0.0, 1.0, -0.9999, 0.0];
        let map = (0..side * side).map(|p| if p % side > p / side { EMPTY } else { 0 });
        of_map(scene(side, (Vec::new(), ends)), map.collect(), vec![0, 1])
    }

    /// How many pixels the edges cover, and how many places the forward pass writes.
    fn told(outline: &Outline) -> String {
        let end = |v: u32| {
            let vertex = outline.vtx2xyz.as_chunks::<3>().0[v as usize];
            let projected = vertex.transform_homogeneous(&outline.transform_world2pix);
            projected.expect("a projection").0.xy()
        };
        let size = (outline.img_w, outline.img_h);
        let edges = outline.cedge2vtx.as_chunks::<2>().0.iter();
        let walk =
            |edge: &[u32; 2]| overlapping_inner_pixels(size, &end(edge[0]), &end(edge[1])).len();
        let covered: usize = edges.map(walk).sum();
        let mut written = outline.clone();
        written.pix2vout.fill(7.0);
        forward(&mut written);
        let written = written.pix2vout.iter().filter(|&&x| x != 7.0).count();
        format!("{covered} pixels covered, {written} written")
    }

    fn forward(o: &mut Outline) {
        let mut out = std::mem::take(&mut o.pix2vout);
        o.antialias(&mut out).unwrap();
        o.pix2vout = out;
    }

    fn backward(o: &mut Outline) {
        let mut sums = std::mem::take(&mut o.dldw_vtx2xyz);
        o.bwd_antialias(&mut sums).unwrap();
        o.dldw_vtx2xyz = sums;
    }

    fn listed_forward(o: &mut Outline) {
        comparison::antialias_by_the_rules::antialias(
            o.cedge2vtx.as_chunks::<2>().0,
            o.vtx2xyz.as_chunks::<3>().0,
            &o.transform_world2pix,
            (o.img_w, o.img_h),
            &o.pix2tri,
            &o.pix2val,
            &mut o.pix2vout,
        );
    }

    fn listed_backward(o: &mut Outline) {
        comparison::antialias_by_the_rules::bwd_antialias(
            o.cedge2vtx.as_chunks::<2>().0,
            o.vtx2xyz.as_chunks::<3>().0,
            o.dldw_vtx2xyz.as_chunks_mut::<3>().0,
            &o.transform_world2pix,
            (o.img_w, o.img_h),
            &o.pix2val,
            &o.dldw_pix2val,
            &o.pix2tri,
        );
    }

    type Call = fn(&mut Outline);

    fn beside(name: &str, rounds: usize, outline: &Outline, [mut ours, mut listed]: [Call; 2]) {
        let times = least_of(rounds, outline, &mut [&mut ours, &mut listed]);
        let ratio = times[0] / times[1];
        println!(
            "{name:<40}{:>8.3} ms, listed {:>8.3} ms, ratio {ratio:.2}",
            times[0], times[1]
        );
    }

    fn both(name: &str, rounds: usize, outline: &Outline) {
        println!("{name}: {}", told(outline));
        beside("antialias", rounds, outline, [forward, listed_forward]);
        beside(
            "bwd_antialias",
            rounds,
            outline,
            [backward, listed_backward],
        );
    }

    pub fn main() {
        both("10,000 edges at 1,024 × 1,024", ROUNDS, &of_a_closed_mesh());
        both("a diagonal of 4,096 × 4,096", 9, &of_a_diagonal());
    }
}
