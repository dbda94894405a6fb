//! The passes over a drawn map beside the listed Rust's, on one thread in one run: figures, not a test. Run by
//! `cargo bench --offline -p comparison --bench passes`.
#[cfg(not(listed))]
fn main() {
    println!("the listed Rust was not found");
}

#[cfg(listed)]
fn main() {
    listed::main();
}

#[cfg(listed)]
mod listed {
    use comparison::expected::cleared;
    use comparison::pairs::unlike_and_crossing;
    use comparison::pass::Pass;
    use comparison::random::Random;
    use comparison::reference;
    use comparison::scene::Scene;
    use comparison::timing::least;

    const SIDE: usize = 512;
    const CHANNELS: usize = 3;

    fn identity() -> [f32; 16] {
        std::array::from_fn(|i| if i % 5 == 0 { 1.0 } else { 0.0 })
    }

    /// From the cube to pixels.
    fn to_pixels() -> [f32; 16] {
        let half = SIDE as f32 * 0.5;
        let mut m = identity();
        (m[0], m[5], m[12], m[13]) = (half, -half, half, half);
        m
    }

    /// Faces and vertices.
    type Mesh = (Vec<u32>, Vec<f32>);

    /// So many faces, each by itself, anywhere in the image; its corners lie up to `reach` from its place, and their depths
    /// up to `tilt` from its own.
    fn scattered(count: usize, reach: f32, tilt: f32) -> Mesh {
        let random = &mut Random::new(count as u64);
        let mut vtx2xyz = Vec::new();
        for _ in 0..count {
            let centre = [random.between(-1.0, 1.0), random.between(-1.0, 1.0)];
            let z = random.between(-0.9, 0.9);
            for _ in 0..3 {
                let [x, y] = centre.map(|c| c + random.between(-reach, reach));
                vtx2xyz.extend([x, y, z + random.between(-tilt, tilt)]);
            }
        }
        ((0..3 * count as u32).collect(), vtx2xyz)
    }

    /// A wavy sheet of `cells` by `cells` cells of two faces, neighbours sharing their corners, with a margin around it.
    fn sheet(cells: u32) -> Mesh {
        let corners = cells + 1;
        let mut vtx2xyz = Vec::new();
        for row in 0..corners {
            for column in 0..corners {
                let [x, y] = [column, row].map(|k| 1.8 * k as f32 / cells as f32 - 0.9);
                vtx2xyz.extend([x, y, 0.3 * (7.0 * x).sin() * (5.0 * y).cos()]);
            }
        }
        let mut tri2vtx = Vec::new();
        for row in 0..cells {
            for column in 0..cells {
                let at = row * corners + column;
                tri2vtx.extend([at, at + 1, at + corners + 1]);
                tri2vtx.extend([at, at + corners + 1, at + corners]);
            }
        }
        (tri2vtx, vtx2xyz)
    }

    /// A drawing of the mesh, with values and gradients.
    fn drawn((tri2vtx, vtx2xyz): Mesh) -> Pass {
        let scene = Scene {
            layer: cleared(SIDE * SIDE),
            tri2vtx,
            vtx2xyz,
            img_w: SIDE,
            img_h: SIDE,
            transform_world2ndc: identity(),
            first: 0,
            facing: 0,
        };
        let pix2tri = reference::drawn(&scene).layer.pix2tri;
        let random = &mut Random::new(1);
        let mut floats =
            |n: usize| -> Vec<f32> { (0..n).map(|_| random.between(-1.0, 1.0)).collect() };
        let (pixels, edges) = (SIDE * SIDE * CHANNELS, SIDE * (SIDE - 1));
        let vertices = scene.vtx2xyz.len() / 3;
        Pass {
            img_w: SIDE,
            img_h: SIDE,
            pix2tri,
            tri2vtx: scene.tri2vtx,
            num_vdim: CHANNELS,
            vtx2val: floats(vertices * CHANNELS),
            pix2val: floats(pixels),
            dldw_pix2val: floats(pixels),
            dldw_vtx2xyz: vec![0.0; 3 * vertices],
            dldw_vtx2val: vec![0.0; vertices * CHANNELS],
            vtx2xyz: scene.vtx2xyz,
            hedge2type: vec![0; edges],
            hedge2dldr: vec![0.0; edges],
            vedge2type: vec![0; edges],
            vedge2dldr: vec![0.0; edges],
            transform_ndc2world: identity(),
            transform_world2pix: to_pixels(),
        }
    }

    fn interpolate(p: &mut Pass) {
        paqelzim::interpolate(
            p.img_w,
            p.img_h,
            &p.pix2tri,
            &p.tri2vtx,
            &p.vtx2xyz,
            p.num_vdim,
            &p.vtx2val,
            &p.transform_ndc2world,
            &mut p.pix2val,
        )
        .unwrap();
    }

    fn interpolate_bwd(p: &mut Pass) {
        paqelzim::interpolate_bwd(
            p.img_w,
            p.img_h,
            &p.pix2tri,
            &p.tri2vtx,
            &p.vtx2xyz,
            p.num_vdim,
            &p.vtx2val,
            &p.transform_ndc2world,
            &p.dldw_pix2val,
            &mut p.dldw_vtx2xyz,
            &mut p.dldw_vtx2val,
        )
        .unwrap();
    }

    fn edges(p: &mut Pass) {
        paqelzim::edge_gradient_and_type(
            &p.tri2vtx,
            &p.vtx2xyz,
            &p.transform_world2pix,
            p.img_w,
            p.img_h,
            &p.pix2tri,
            p.num_vdim,
            &p.pix2val,
            &p.dldw_pix2val,
            &mut p.hedge2type,
            &mut p.hedge2dldr,
            &mut p.vedge2type,
            &mut p.vedge2dldr,
        )
        .unwrap();
    }

    fn bwd(p: &mut Pass) {
        paqelzim::bwd(
            &p.tri2vtx,
            &p.vtx2xyz,
            &mut p.dldw_vtx2xyz,
            &p.transform_world2pix,
            p.img_w,
            p.img_h,
            &p.pix2tri,
            p.num_vdim,
            &p.pix2val,
            &p.dldw_pix2val,
        )
        .unwrap();
    }

    /// From the edges' `dldr` at the points `pix2val`, into `dldw_pix2val`.
    fn velocities(p: &mut Pass) {
        paqelzim::interpolate_from_edges(
            p.img_w,
            p.img_h,
            &p.hedge2dldr,
            &p.vedge2dldr,
            &p.pix2val,
            &mut p.dldw_pix2val,
        )
        .unwrap();
    }

    fn beside(name: &str, pass: &Pass, mut ours: fn(&mut Pass), mut listed: fn(&mut Pass)) {
        let times = least(pass, &mut [&mut ours, &mut listed]);
        let ratio = times[0] / times[1];
        println!(
            "{name:<28}{:>8.2} ms, listed {:>8.2} ms, ratio {ratio:.2}",
            times[0], times[1]
        );
    }

    fn listed_interpolate(p: &mut Pass) {
        comparison::pix2tri::interpolate(
            (p.img_w, p.img_h),
            &p.pix2tri,
            p.tri2vtx.as_chunks::<3>().0,
            p.vtx2xyz.as_chunks::<3>().0,
            p.num_vdim,
            &p.vtx2val,
            &p.transform_ndc2world,
            &mut p.pix2val,
        );
    }

    fn listed_interpolate_bwd(p: &mut Pass) {
        comparison::pix2tri::interpolate_bwd(
            (p.img_w, p.img_h),
            &p.pix2tri,
            p.tri2vtx.as_chunks::<3>().0,
            p.vtx2xyz.as_chunks::<3>().0,
            p.num_vdim,
            &p.vtx2val,
            &p.transform_ndc2world,
            &p.dldw_pix2val,
            p.dldw_vtx2xyz.as_chunks_mut::<3>().0,
            &mut p.dldw_vtx2val,
        );
    }

    fn listed_edges(p: &mut Pass) {
        comparison::edgegrad::edge_gradient_and_type(
            p.tri2vtx.as_chunks::<3>().0,
            p.vtx2xyz.as_chunks::<3>().0,
            &p.transform_world2pix,
            (p.img_w, p.img_h),
            &p.pix2tri,
            p.num_vdim,
            &p.pix2val,
            &p.dldw_pix2val,
            &mut p.hedge2type,
            &mut p.hedge2dldr,
            &mut p.vedge2type,
            &mut p.vedge2dldr,
        );
    }

    fn listed_bwd(p: &mut Pass) {
        comparison::edgegrad_by_the_rules::bwd(
            p.tri2vtx.as_chunks::<3>().0,
            p.vtx2xyz.as_chunks::<3>().0,
            p.dldw_vtx2xyz.as_chunks_mut::<3>().0,
            &p.transform_world2pix,
            (p.img_w, p.img_h),
            &p.pix2tri,
            p.num_vdim,
            &p.pix2val,
            &p.dldw_pix2val,
        );
    }

    fn listed_velocities(p: &mut Pass) {
        comparison::edgegrad::interpolate_from_edges(
            (p.img_w, p.img_h),
            &p.hedge2dldr,
            &p.vedge2dldr,
            p.pix2val.as_chunks::<2>().0,
            p.dldw_pix2val.as_chunks_mut::<2>().0,
        );
    }

    /// A velocity on every edge, and a point anywhere in the image for every pixel.
    fn with_points(mut pass: Pass) -> Pass {
        let random = &mut Random::new(2);
        let side = SIDE as f32;
        pass.pix2val = (0..2 * SIDE * SIDE)
            .map(|_| random.between(0.0, side))
            .collect();
        pass.dldw_pix2val = vec![0.0; 2 * SIDE * SIDE];
        edges_filled(&mut pass.hedge2dldr, random);
        edges_filled(&mut pass.vedge2dldr, random);
        pass
    }

    fn edges_filled(edges: &mut [f32], random: &mut Random) {
        edges.fill_with(|| random.between(-1.0, 1.0));
    }

    /// `bwd` over a map, by how many of its pairs of neighbours are unlike and cross.
    fn beside_bwd(name: &str, pass: &Pass) {
        let [unlike, crossing] = unlike_and_crossing(pass);
        beside(name, pass, bwd, listed_bwd);
        println!("{:<28}{crossing} of {unlike} unequal pairs cross", "");
    }

    pub fn main() {
        let pass = drawn(scattered(2_000, 0.1, 0.05));
        beside("interpolate", &pass, interpolate, listed_interpolate);
        beside(
            "interpolate_bwd",
            &pass,
            interpolate_bwd,
            listed_interpolate_bwd,
        );
        beside("edge_gradient_and_type", &pass, edges, listed_edges);
        beside_bwd("bwd", &pass);
        beside_bwd("bwd, faces that cross", &drawn(scattered(2_000, 0.5, 0.9)));
        beside_bwd("bwd, a mesh", &drawn(sheet(45)));
        let points = with_points(drawn(scattered(1, 0.1, 0.05)));
        beside(
            "interpolate_from_edges",
            &points,
            velocities,
            listed_velocities,
        );
    }
}
