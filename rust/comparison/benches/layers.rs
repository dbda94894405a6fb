//! Clearing and joining at 2,048 × 2,048 beside copying the same bytes, 20 a pixel: figures, not a test. Run by
//! `cargo bench --offline -p comparison --bench layers`.
use comparison::layer::Layer;
use comparison::random::Random;
use comparison::timing::least;

const SIDE: usize = 2048;

/// Two layers of one size.
type Layers = [Layer; 2];

fn copied([left, right]: &mut Layers) {
    left.pix2tri.copy_from_slice(&right.pix2tri);
    left.pix2depth.copy_from_slice(&right.pix2depth);
    left.pix2weights.copy_from_slice(&right.pix2weights);
}

fn cleared([left, _]: &mut Layers) {
    left.clear(SIDE, SIDE).unwrap();
}

fn joined([left, right]: &mut Layers) {
    left.join(right, SIDE, SIDE).unwrap();
}

fn beside_copying(name: &str, start: &Layers, mut call: fn(&mut Layers)) {
    let times = least(start, &mut [&mut copied, &mut call]);
    let ratio = times[1] / times[0];
    println!(
        "{name:<12}{:>8.2} ms, copying {:>8.2} ms, ratio {ratio:.2}",
        times[1], times[0]
    );
}

fn main() {
    let random = &mut Random::new(5);
    let mut layer = || -> Layer {
        let cells = (0..(SIDE * SIDE) as u32).map(|number| {
            let depth = random.between(-1.0, 1.0);
            (number, depth, [depth; 3])
        });
        cells.collect()
    };
    let layers: Layers = [layer(), layer()];
    beside_copying("clear", &layers, cleared);
    beside_copying("join", &layers, joined);
}
