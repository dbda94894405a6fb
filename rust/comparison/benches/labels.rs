//! The label picture beside two plain loops in Rust, one that asks nothing and one that asks of every entry first, as the call
//! does, on one thread in one run: figures, not a test. Run by `cargo bench --offline -p comparison --bench labels`.
use comparison::labels::Labels;
use comparison::meshes::{ball, mesh};
use comparison::scene::{Scene, EMPTY};
use comparison::timing::least_of;
use std::hint::black_box;

fn ours(labels: &mut Labels) {
    let mut picture = std::mem::take(&mut labels.pix2body);
    let answer = labels.label(&mut picture);
    black_box(answer).expect("the map is accepted");
    labels.pix2body = picture;
}

fn unasked(labels: &mut Labels) {
    for (body, &tri) in labels.pix2body.iter_mut().zip(&labels.pix2tri) {
        *body = if tri == EMPTY {
            EMPTY
        } else {
            labels.tri2body[tri as usize]
        };
    }
}

fn asked(labels: &mut Labels) {
    let faces = labels.tri2body.len();
    let named = |&tri: &u32| tri == EMPTY || (tri as usize) < faces;
    assert!(black_box(labels.pix2tri.iter().all(named)));
    unasked(labels);
}

/// The scene drawn, its faces of a hundred bodies in turn.
fn of(mut scene: Scene) -> Labels {
    let mut layer = std::mem::take(&mut scene.layer);
    let answer = layer.draw(&scene, &scene.tri2vtx, 0);
    answer.expect("the mesh is accepted");
    let faces = scene.tri2vtx.len() as u32 / 3;
    Labels {
        pix2body: vec![0; layer.pix2tri.len()],
        pix2tri: layer.pix2tri,
        tri2body: (0..faces).map(|face| face % 100).collect(),
        img_w: scene.img_w,
        img_h: scene.img_h,
        is_drawn: true,
    }
}

fn beside_plain_loops(name: &str, labels: &Labels) {
    let pictures = [ours, unasked, asked].map(|call| {
        let mut labels = labels.clone();
        call(&mut labels);
        labels.pix2body
    });
    assert!(pictures.iter().all(|picture| *picture == pictures[0]));
    let empty = labels.pix2tri.iter().filter(|&&tri| tri == EMPTY).count();
    let empty = 100 * empty / labels.pix2tri.len();
    // some hundred milliseconds of each
    let rounds = (400_000_000 / labels.pix2tri.len()).clamp(100, 2_000);
    let times = least_of(rounds, labels, &mut [&mut ours, &mut unasked, &mut asked]);
    println!(
        "{name:<36}{empty:>3} % empty {:>8.3} ms, unasked {:>7.3} ms, ratio {:.2}, asked {:>7.3} ms, ratio {:.2}",
        times[0],
        times[1],
        times[0] / times[1],
        times[2],
        times[0] / times[2]
    );
}

fn main() {
    let closed = of(ball(250, 100, 512, 1.0));
    beside_plain_loops("a ball of 50,000 faces at 512 × 512", &closed);
    let small = of(mesh(50_000, 512, (3.0, 20.0), 0.0));
    beside_plain_loops("50,000 small faces at 512 × 512", &small);
    let large = of(mesh(100, 2048, (800.0, 2048.0), 0.0));
    beside_plain_loops("100 large faces at 2,048 × 2,048", &large);
    let mut none = closed;
    none.pix2tri.fill(EMPTY);
    beside_plain_loops("an empty picture of 512 × 512", &none);
}
