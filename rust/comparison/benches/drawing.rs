//! The drawing beside the listed Rust's, which keeps no weights, the load beside the drawing, and the preview of a removal beside
//! two drawings, on one thread in one run: figures, not a test. Run by `cargo bench --offline -p comparison --bench drawing`.
use comparison::layer::Layer;
use comparison::meshes::{ball, mesh, slivers};
use comparison::random::Random;
use comparison::removal::Removal;
use comparison::scene::Scene;
use comparison::timing::least;

fn ours(scene: &mut Scene) {
    let mut layer = std::mem::take(&mut scene.layer);
    layer
        .draw(scene, &scene.tri2vtx, scene.first)
        .expect("the mesh is accepted");
    scene.layer = layer;
}

fn front(scene: &mut Scene) {
    scene.facing = 1;
    ours(scene);
}

fn front_beside_all(name: &str, scene: &Scene) {
    let times = least(scene, &mut [&mut front, &mut ours]);
    let ratio = times[0] / times[1];
    println!(
        "front pieces of {name:<28}{:>8.2} ms, all faces {:>8.2} ms, ratio {ratio:.2}",
        times[0], times[1]
    );
}

#[cfg(listed)]
fn listed(scene: &mut Scene) {
    del_geo_core::tri2_scanline::of_image(scene.img_w, scene.img_h);
    comparison::pix2tri::pix2tri_by_rasterization::<u32>(
        &mut scene.layer.pix2tri,
        &mut scene.layer.pix2depth,
        scene.tri2vtx.as_chunks::<3>().0,
        scene.vtx2xyz.as_chunks::<3>().0,
        (scene.img_w, scene.img_h),
        &scene.transform_world2ndc,
    );
}

#[cfg(listed)]
fn draw(name: &str, scene: &Scene) {
    let (mut first, mut second) = (scene.clone(), scene.clone());
    ours(&mut first);
    listed(&mut second);
    let (first, second) = (first.layer, second.layer);
    assert!(first.pix2tri == second.pix2tri && first.pix2depth == second.pix2depth);
    let times = least(scene, &mut [&mut ours, &mut listed]);
    let ratio = times[0] / times[1];
    println!(
        "{name:<36}{:>8.2} ms, listed {:>8.2} ms, ratio {ratio:.2}",
        times[0], times[1]
    );
}

#[cfg(not(listed))]
fn draw(name: &str, scene: &Scene) {
    let time = least(scene, &mut [&mut ours])[0];
    println!("{name:<36}{time:>8.2} ms; the listed Rust was not found");
}

fn load(scene: &mut Scene) {
    let load = paqelzim::drawing_load(
        &scene.tri2vtx,
        &scene.vtx2xyz,
        scene.img_w,
        scene.img_h,
        &scene.transform_world2ndc,
    );
    std::hint::black_box(load.expect("the mesh is accepted"));
}

fn load_beside_drawing(name: &str, scene: &Scene) {
    let times = least(scene, &mut [&mut load, &mut ours]);
    let ratio = times[0] / times[1];
    println!(
        "load of {name:<36}{:>8.2} ms, drawing {:>8.2} ms, ratio {ratio:.2}",
        times[0], times[1]
    );
}

/// The load of one mesh at two sizes, neither of which has a layer.
fn load_at_two_sizes(count: usize, sides: [usize; 2]) {
    let mut scene = mesh(count, 64, (25.0, 64.0), 0.0);
    scene.layer = Layer::default();
    let mut at = sides.map(|side| {
        move |scene: &mut Scene| {
            (scene.img_w, scene.img_h) = (side, side);
            load(scene);
        }
    });
    let [first, second] = &mut at;
    let times = least(&scene, &mut [first, second]);
    println!(
        "load of {count} large faces{:>8.2} ms at {} × {1}, {:.2} ms at {} × {3}, ratio {:.2}",
        times[0],
        sides[0],
        times[1],
        sides[1],
        times[0] / times[1]
    );
}

fn preview(removal: &mut Removal) {
    let counts = removal.preview().expect("the removal is accepted");
    std::hint::black_box(counts);
}

/// What the preview does, by hand: a clear and a drawing of each list, the shortened one made beforehand.
fn two_drawings(shortened: &[u32], removal: &mut Removal) {
    let scene = &mut removal.scene;
    let mut full = std::mem::take(&mut scene.layer);
    let lists = [
        (&mut full, &scene.tri2vtx[..]),
        (&mut removal.short, shortened),
    ];
    for (layer, list) in lists {
        layer
            .clear(scene.img_w, scene.img_h)
            .expect("the size is accepted");
        layer.draw(scene, list, 0).expect("the mesh is accepted");
    }
    scene.layer = full;
}

fn preview_beside_two_drawings(name: &str, scene: &Scene) {
    let random = &mut Random::new(7);
    let mut removal = Removal {
        scene: scene.clone(),
        removed: vec![0; scene.tri2vtx.len() / 3],
        short: scene.layer.clone(),
    };
    let mut one_in_100 = |_| u8::from(random.percent(1));
    let marks: [(&str, &mut dyn FnMut(u32) -> u8); 4] = [
        ("none", &mut |_| 0),
        ("one in 100", &mut one_in_100),
        ("every second", &mut |face| (face % 2) as u8),
        ("all", &mut |_| 255),
    ];
    for (which, mark) in marks {
        removal = removal.marked(mark);
        let shortened = removal.shortened();
        let mut twice = |removal: &mut Removal| two_drawings(&shortened, removal);
        let (mut one, mut two) = (removal.clone(), removal.clone());
        preview(&mut one);
        twice(&mut two);
        assert!(one.bits() == two.bits(), "the same drawings");
        let times = least(&removal, &mut [&mut preview, &mut twice]);
        let ratio = times[0] / times[1];
        println!(
            "preview of {name:<23}{which:<13}{:>8.2} ms, two drawings {:>8.2} ms, ratio {ratio:.2}",
            times[0], times[1]
        );
    }
}

fn main() {
    let small = mesh(50_000, 512, (3.0, 20.0), 0.0);
    draw("50,000 small faces at 512 × 512", &small);
    let closed = ball(250, 100, 512, 1.0);
    draw("a ball of 50,000 faces at 512 × 512", &closed);
    let large = mesh(100, 2048, (800.0, 2048.0), 0.0);
    draw("100 large faces at 2,048 × 2,048", &large);
    let thin = slivers(1_000, 1024);
    draw("1,000 slivers at 1,024 × 1,024", &thin);
    let tiny = mesh(200_000, 2048, (1.0, 2.0), 0.0);
    draw("200,000 tiny faces at 2,048 × 2,048", &tiny);
    let million = ball(1_000, 500, 2048, 1.0);
    draw("a ball of 1,000,000 faces at 2,048²", &million);
    let beside = mesh(200_000, 512, (3.0, 20.0), 2.5);
    draw("200,000 faces beside the image", &beside);
    let near = ball(500, 200, 512, 20.0);
    draw("200,000 faces, most off the image", &near);
    println!();
    front_beside_all("50,000 small faces", &small);
    front_beside_all("a ball of 50,000 faces", &closed);
    front_beside_all("100 large faces", &large);
    println!();
    load_beside_drawing("50,000 small faces", &small);
    load_beside_drawing("a ball of 1,000,000 tiny faces", &million);
    load_at_two_sizes(100_000, [4096, 64]);
    println!();
    preview_beside_two_drawings("50,000 small faces", &small);
    preview_beside_two_drawings("a ball of 50,000 faces", &closed);
    preview_beside_two_drawings("100 large faces", &large);
    preview_beside_two_drawings("200,000 tiny faces", &tiny);
}
