//! Writes the cases of crates/stops: `stdin`, pieces to scan, and `stdout`, the layer after each number of visits from none to
//! two more than there are. The visits are worked out here, column by column and each from the top (02, Point 7), by 01's words
//! and the corner weights that the listed Rust calls; their number and the layer after all of them, weights too, are held to the
//! listed scan of the same piece. Before a scan every weight is 0.5. The pieces: shapes in pixels, random ones, and those that the
//! listed near clip makes of faces. Run at the root of the repository by
//! `cargo run --release --offline --manifest-path rust/Cargo.toml -p comparison --example stops`.

#[cfg(not(listed))]
fn main() {
    panic!("the listed Rust was not found: set DEL_MSH_SRC");
}

#[cfg(listed)]
fn main() -> std::io::Result<()> {
    let (mut asked, mut answered) = (String::new(), String::new());
    let cases = pieces::all();
    for (number, &(before, ndc)) in cases.iter().enumerate() {
        let (case, lines) = stops::run(number as u32, before, ndc);
        asked += &case;
        answered += &lines;
    }
    let stops = answered.lines().count();
    println!("{} pieces, {stops} stops", cases.len());
    std::fs::write("crates/stops/stdin", asked)?;
    std::fs::write("crates/stops/stdout", answered)
}

/// Scans, stopped.
#[cfg(listed)]
mod stops {
    use comparison::layer::{bits, Cell, Layer};
    use comparison::reference::{self, Piece};
    use comparison::scene::EMPTY;
    use comparison::stored::{answer_floats, answer_numbers, line};
    use del_geo_core::tri2::barycentric_coords;

    pub const WIDTH: usize = 5;
    pub const HEIGHT: usize = 9;
    const PIXELS: usize = WIDTH * HEIGHT;

    /// What every pixel holds before the scan.
    #[derive(Clone, Copy)]
    pub enum Before {
        Clear,
        /// The depth in the middle of those that the piece brings: half of them change nothing, one by a tie.
        Middle,
        NaN,
    }

    /// What a piece brings a pixel: depth and weights.
    pub type Offer = (f32, [f32; 3]);

    /// A visit: the pixel, and what it is brought, if anything.
    pub type Visit = (usize, Option<Offer>);

    pub fn in_pixels([x, y, _]: [f32; 3]) -> [f32; 2] {
        [
            (x + 1.0) * 0.5 * WIDTH as f32,
            (1.0 - y) * 0.5 * HEIGHT as f32,
        ]
    }

    fn offer(ndc: Piece, centre: [f32; 2]) -> Option<Offer> {
        let [p0, p1, p2] = ndc.map(in_pixels);
        let (b0, b1, b2) = barycentric_coords(&p0, &p1, &p2, &centre)?;
        let dropped = [b0, b1, b2].iter().any(|&b| b < -1e-5);
        let depth = b0 * ndc[0][2] + b1 * ndc[1][2] + b2 * ndc[2][2];
        (!dropped).then_some((depth, [b0, b1, b2]))
    }

    /// All visits of a piece, in order.
    pub fn visits(ndc: Piece) -> Vec<Visit> {
        let corners = ndc.map(in_pixels);
        if corners.as_flattened().iter().any(|x| !x.is_finite()) {
            return Vec::new();
        }
        let spans = |k: usize, q: f32| {
            corners.iter().any(|p| p[k] <= q) && corners.iter().any(|p| q <= p[k])
        };
        let mut list = Vec::new();
        for ix in 0..WIDTH {
            for iy in 0..HEIGHT {
                let centre = [ix as f32 + 0.5, iy as f32 + 0.5];
                if spans(0, centre[0]) && spans(1, centre[1]) {
                    list.push((iy * WIDTH + ix, offer(ndc, centre)));
                }
            }
        }
        list
    }

    fn depth_before(before: Before, visits: &[Visit]) -> f32 {
        let offers = visits.iter().filter_map(|visit| visit.1);
        let mut depths: Vec<f32> = offers.map(|(depth, _)| depth).collect();
        depths.sort_by(f32::total_cmp);
        match before {
            Before::Clear => f32::NEG_INFINITY,
            Before::Middle => depths.get(depths.len() / 2).copied().unwrap_or(0.0),
            Before::NaN => f32::NAN,
        }
    }

    /// The layer, which held that depth everywhere, after visits, one after the other.
    fn after(visits: &[Visit], number: u32, depth: f32) -> Layer {
        let mut cells = vec![(EMPTY, depth, [0.5; 3]); PIXELS];
        for &(pixel, brought) in visits {
            if let Some((z, weights)) = brought.filter(|offer| offer.0 > cells[pixel].1) {
                cells[pixel] = (number, z, weights);
            }
        }
        cells.into_iter().collect()
    }

    fn is_the_listed_scan(visits: &[Visit], number: u32, depth: f32, ndc: Piece) {
        let mut listed = after(&[], number, depth);
        let offered = reference::scan(&mut listed, (WIDTH, HEIGHT), number, ndc);
        assert_eq!(offered, visits.len() as u64, "piece {number}: {ndc:?}");
        let ours = after(visits, number, depth);
        let words = [ours, listed].map(|layer| {
            let depths = answer_floats(&layer.pix2depth);
            (layer.pix2tri, depths, bits(&layer.pix2weights))
        });
        assert_eq!(words[0], words[1], "piece {number}: {ndc:?}");
    }

    /// The line after n visits: of each pixel that was written, which, its map entry, its depth and its three weights. None of
    /// these is a NaN, as the depth was greater than another.
    fn stop(visits: &[Visit], number: u32, depth: f32, n: usize) -> String {
        let layer = after(&visits[..n.min(visits.len())], number, depth);
        let mut words = vec![n as u32];
        let written = |(_, cell): &(usize, Cell)| cell.0 != EMPTY;
        for (pixel, (number, depth, weights)) in layer.cells().enumerate().filter(written) {
            words.extend([pixel as u32, number, depth.to_bits()]);
            words.extend(weights.map(f32::to_bits));
        }
        answer_numbers(&words)
    }

    /// The case of a piece, and the lines of its stops.
    pub fn run(number: u32, before: Before, ndc: Piece) -> (String, String) {
        let visits = visits(ndc);
        let depth = depth_before(before, &visits);
        is_the_listed_scan(&visits, number, depth, ndc);
        let count = visits.len() + 3;
        let corners = ndc.into_iter().flatten().map(f32::to_bits);
        let words = [number, depth.to_bits()].into_iter().chain(corners);
        let case = line(words.chain([count as u32]));
        let lines = (0..count).map(|n| stop(&visits, number, depth, n));
        (case, lines.collect())
    }
}

/// Pieces, with what the layer holds before.
#[cfg(listed)]
mod pieces {
    use super::stops::{in_pixels, visits, Before, HEIGHT, WIDTH};
    use comparison::expected::draw_code;
    use comparison::random::Random;
    use comparison::reference::{self, Piece, Way};
    use comparison::scene::{scene, Scene};
    use Before::{Clear, Middle, NaN};

    const INF: f32 = f32::INFINITY;
    const NAN: f32 = f32::NAN;

    /// Corners in pixels, with depths.
    const SHAPES: [(Before, Piece); 33] = [
        // over the whole image: level, sloping, with the corners turned round
        (Clear, [[-1., -1., 0.5], [12., -1., 0.5], [-1., 21., 0.5]]),
        (Middle, [[-1., -1., 0.5], [12., -1., 0.5], [-1., 21., 0.5]]),
        (NaN, [[-1., -1., 0.2], [12., -1., 0.5], [-1., 21., 0.7]]),
        (Middle, [[-2., -3., -0.5], [-1., 24., 0.5], [14., -2., 0.8]]),
        (Middle, [[14., -2., 0.8], [-1., 24., -0.5], [-2., -3., 0.5]]),
        // within it
        (Clear, [[0.3, 0.2, 0.1], [4.6, 3.1, 0.2], [1.2, 8.7, 0.3]]),
        (Clear, [[4.8, 8.9, 0.5], [0.2, 6.3, -0.5], [3.9, 0.1, 0.0]]),
        (Middle, [[1.1, 2.2, -0.9], [4.1, 7.9, 0.9], [0.4, 6.6, 0.4]]),
        // of one pixel, and of none
        (Clear, [[2.2, 3.2, 0.5], [2.9, 3.4, 0.5], [2.4, 3.9, 0.5]]),
        (Clear, [[2.6, 3.6, 0.5], [2.9, 3.7, 0.5], [2.7, 3.9, 0.5]]),
        // one column, of 9 rows, 8, 4, 5, 3, 2 and the last 3, and one row
        (Clear, [[2.1, -30., 0.1], [2.9, -30., 0.2], [2.5, 40., 0.3]]),
        (Clear, [[3.1, 0.7, 0.1], [3.9, 0.6, 0.2], [3.5, 30., 0.3]]),
        (Clear, [[0.1, 0.9, 0.1], [0.9, 0.9, 0.2], [0.4, 5.4, 0.3]]),
        (Middle, [[4.1, -9., 0.1], [4.9, -8., 0.2], [4.4, 5.4, 0.3]]),
        (Clear, [[1.1, 1.9, 0.1], [1.9, 1.9, 0.2], [1.4, 4.9, 0.3]]),
        (Clear, [[1.1, 6.9, 0.1], [1.9, 6.7, 0.2], [1.4, 8.6, 0.3]]),
        (Clear, [[2.1, 5.6, 0.1], [2.9, 5.7, 0.2], [2.4, 20., 0.3]]),
        (Clear, [[-9., 4.2, 0.1], [-9., 4.9, 0.2], [15., 4.6, 0.3]]),
        // slivers, whose box is the image
        (Clear, [[0.1, 0.2, 0.1], [4.9, 8.8, 0.2], [4.4, 8.9, 0.3]]),
        (Middle, [[4.9, 0.1, 0.1], [4.2, 0.0, 0.2], [0.1, 8.9, 0.3]]),
        // partly outside, at each side
        (Clear, [[-3., 1.2, 0.1], [2.2, 2.8, 0.2], [-1., 7.7, 0.3]]),
        (Middle, [[2.9, 1.2, 0.1], [8.2, 4.8, 0.2], [4., 7.7, 0.3]]),
        (Clear, [[0.3, -4., 0.1], [4.2, -2., 0.2], [2., 4.7, 0.3]]),
        (Clear, [[0.3, 14., 0.1], [4.2, 12., 0.2], [2., 4.7, 0.3]]),
        // outside
        (Clear, [[5.6, 1., 0.1], [9., 2., 0.2], [7., 8., 0.3]]),
        (Clear, [[1., -4., 0.1], [4., -3., 0.2], [2., 0.4, 0.3]]),
        // a slanting line, and corners so far away that there are no weights
        (Clear, [[-2., -2., 0.5], [1., 1., 0.5], [12., 12., 0.5]]),
        (Clear, [[-1e25, 0., 0.], [1e25, 0., 0.], [0., 1e25, 0.]]),
        // corners that are not finite, and depths
        (Clear, [[0.1, 0.2, 0.1], [INF, 0.3, 0.2], [0.4, 8.8, 0.3]]),
        (Clear, [[0.1, 0.2, 0.1], [4.7, NAN, 0.2], [0.4, 8.8, 0.3]]),
        (Clear, [[1.1, 2.2, NAN], [4.1, 2.9, 0.9], [0.4, 6.6, 0.4]]),
        (Clear, [[2.5, 4.5, INF], [4.7, 4.5, 0.2], [2.5, 8.8, 0.3]]),
        (NaN, [[1.1, 2.2, -0.9], [4.1, 2.9, 0.9], [0.4, 6.6, 0.4]]),
    ];

    /// The same with all corners on centres: the edges of the box are, and edges of the piece.
    const CENTRED: [(Before, Piece); 4] = [
        (Clear, [[1.5, 2.5, 0.1], [4.5, 2.5, 0.2], [1.5, 8.5, 0.3]]),
        (Middle, [[2.5, 4.5, 0.1], [4.5, 4.5, 0.2], [2.5, 8.5, 0.3]]),
        // a point and a line, which have no weights
        (Clear, [[2.5, 4.5, 0.5], [2.5, 4.5, 0.5], [2.5, 4.5, 0.5]]),
        (Clear, [[2.5, 2.5, 0.5], [2.5, 8.5, 0.5], [2.5, 4.5, 0.5]]),
    ];

    /// Finite in normalised coordinates, but not in pixels.
    const OVERFLOWING: Piece = [[0.1, 0.2, 0.1], [3e38, 0.3, 0.2], [0.4, -0.8, 0.3]];

    /// The normalised coordinate of a place in pixels: one that gives that place to the bit, where there is one.
    fn normalised(place: f32, size: usize) -> f32 {
        let near = 2.0 * place / size as f32 - 1.0;
        if !near.is_finite() {
            return near;
        }
        let beside = (-4..=4).map(|k| f32::from_bits(near.to_bits().wrapping_add_signed(k)));
        let exact = |x: &f32| (x + 1.0) * 0.5 * size as f32 == place;
        beside.into_iter().find(exact).unwrap_or(near)
    }

    fn of_shape(shape: Piece) -> Piece {
        shape.map(|[x, y, z]| [normalised(x, WIDTH), -normalised(y, HEIGHT), z])
    }

    fn random(random: &mut Random) -> Piece {
        of_shape([0; 3].map(|_: i32| {
            let (x, y) = (random.between(-1.5, 6.5), random.between(-2.0, 11.0));
            [x, y, random.between(-1.0, 1.0)]
        }))
    }

    /// Brings a depth to some pixels, and to so few that the lines stay short.
    fn covers_some(ndc: &Piece) -> bool {
        let covered = visits(*ndc)
            .iter()
            .filter(|visit| visit.1.is_some())
            .count();
        (3..=20).contains(&covered)
    }

    /// The scene with one of its faces alone.
    fn face_of(scene: &Scene, face: usize) -> Scene {
        let tri2vtx = scene.tri2vtx[3 * face..3 * face + 3].to_vec();
        Scene {
            tri2vtx,
            ..scene.clone()
        }
    }

    /// The pieces of so many faces that are cut in that way, each of some pixels.
    fn clipped(way: Way, count: usize) -> Vec<Piece> {
        let scenes = (0..).map(scene).filter(|scene| draw_code(scene) == 0);
        let cut = scenes.flat_map(|scene| {
            let ways: Vec<Way> = reference::ways(&scene).collect();
            let faces = (0..ways.len()).filter(|&face| ways[face] == way);
            let pieces = faces.map(|face| reference::pieces(&face_of(&scene, face)));
            pieces.collect::<Vec<_>>()
        });
        cut.filter(|pieces| pieces.iter().all(covers_some))
            .take(count)
            .flatten()
            .collect()
    }

    pub fn all() -> Vec<(Before, Piece)> {
        let normal = |(before, shape)| (before, of_shape(shape));
        let mut all: Vec<_> = SHAPES.map(normal).to_vec();
        for (before, shape) in CENTRED {
            let ndc = of_shape(shape);
            assert_eq!(ndc.map(in_pixels), shape.map(|[x, y, _]| [x, y]));
            all.push((before, ndc));
        }
        all.push((Clear, OVERFLOWING));
        let seeds = &mut Random::new(7);
        let some = std::iter::repeat_with(|| random(seeds)).filter(covers_some);
        let mut others: Vec<Piece> = some.take(8).collect();
        for corner in 0..3 {
            others.extend(clipped(Way::One(corner), 2));
            others.extend(clipped(Way::Two(corner, 2), 2));
        }
        all.extend([Clear, Middle].into_iter().cycle().zip(others));
        all
    }
}
