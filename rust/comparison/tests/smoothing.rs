//! Outline smoothing and its backward pass: refusals beside the questions of 02, Point 1, and every number of the written buffers
//! beside the listed Rust where its source is found. Bits are compared; a computed NaN is a NaN, and a place that no crossing reaches
//! keeps its bits, payload included. The Rust is the listed file with the image border passed over (build.rs); beside it the file as
//! it stands, which may differ only where an edge covers a pixel of the border. An edge through the second centre (rc = 1) leaves
//! nothing to compare apart: the stand-in's intersection has none there, as 02 has it.
use comparison::crossings::{covered, crossings, ends, on_border, Crossing, Point};
use comparison::expected::{antialias_code, bwd_antialias_code};
use comparison::layer::bits;
use comparison::outlines::{accepted_outline, outline, Outline, MOST_EDGES};
use comparison::random::Random;
use comparison::scene::{EMPTY, MOST, SIZES};
use del_geo_core::edge2::{overlapping_inner_pixels, overlapping_pixels_dda};
use paqelzim::Refusal;

const CASES: u64 = 120_000;

fn outlines() -> impl Iterator<Item = Outline> {
    (0..CASES).map(outline)
}

/// What a call leaves: its code, and the buffer that it was lent.
type Left = (u32, Vec<f32>);

fn left(mut buffer: Vec<f32>, call: impl FnOnce(&mut [f32]) -> Result<(), Refusal>) -> Left {
    let answer = call(&mut buffer);
    (answer.map_or_else(Refusal::code, |()| 0), buffer)
}

fn forward(outline: &Outline) -> Left {
    left(outline.pix2vout.clone(), |out| outline.antialias(out))
}

fn backward(outline: &Outline) -> Left {
    left(outline.dldw_vtx2xyz.clone(), |sums| {
        outline.bwd_antialias(sums)
    })
}

/// How often each code was answered.
#[derive(Default)]
struct Seen([usize; 11]);

impl Seen {
    /// A refusal is the first no, and nothing is written. Whether the call is accepted.
    fn accepts(&mut self, (code, buffer): &Left, wanted: u32, before: &[f32]) -> bool {
        assert_eq!(*code, wanted);
        assert!(wanted == 0 || bits(buffer) == bits(before), "{code}");
        self.0[*code as usize] += 1;
        wanted == 0
    }

    fn is_all_of(&self, codes: &[usize]) {
        println!("codes 0 to 10: {:?}", self.0);
        for (code, &times) in self.0.iter().enumerate() {
            assert_eq!(times > 200, codes.contains(&code), "{code}: {times}");
        }
    }
}

/// Equal bits, or two NaNs where the place was reached.
#[cfg(listed)]
fn same(got: &[f32], wanted: &[f32], reached: impl Fn(usize) -> bool) {
    assert_eq!(got.len(), wanted.len());
    for (at, (got, wanted)) in got.iter().zip(wanted).enumerate() {
        let nans = reached(at) && got.is_nan() && wanted.is_nan();
        assert!(
            nans || got.to_bits() == wanted.to_bits(),
            "place {at}: {got:?}, not {wanted:?}"
        );
    }
}

/// Places that nothing reaches keep their bits.
fn kept(got: &[f32], before: &[f32], reached: impl Fn(usize) -> bool) {
    assert_eq!(got.len(), before.len());
    let mut places = got.iter().zip(before).enumerate();
    assert!(places.all(|(at, (got, before))| reached(at) || got.to_bits() == before.to_bits()));
}

/// Which pixels the crossings write, and how often.
fn writes(outline: &Outline, crossings: &[Crossing]) -> Vec<usize> {
    let mut times = vec![0; outline.pix2tri.len()];
    crossings.iter().for_each(|c| times[c.written()] += 1);
    times
}

/// Which vertices are ends of an edge with a crossing.
fn reached_ends(outline: &Outline, crossings: &[Crossing]) -> Vec<bool> {
    let mut reached = vec![false; outline.vtx2xyz.len() / 3];
    for v in crossings
        .iter()
        .flat_map(|c| &outline.cedge2vtx[2 * c.edge..][..2])
    {
        reached[*v as usize] = true;
    }
    reached
}

/// What was met among accepted arguments.
#[derive(Debug, Default)]
struct Met {
    with_a_crossing: usize,
    across: usize,
    down: usize,
    /// Crossings by which of the two pixels is nearer, and those at the first centre, half way, and at an end of the edge.
    shown_nearer: usize,
    empty_nearer: usize,
    at_the_centre: usize,
    half_way: usize,
    at_an_end: usize,
    /// Pairs that one edge meets from both of their pixels, and pixels that are written again.
    twice: usize,
    again: usize,
    /// Edges of one point, with a NaN, with an infinity, and off the image.
    of_one_point: usize,
    with_a_nan: usize,
    with_an_infinity: usize,
    beside: usize,
}

impl Met {
    fn add(&mut self, outline: &Outline, crossings: &[Crossing]) {
        self.with_a_crossing += usize::from(!crossings.is_empty());
        for c in crossings {
            let is_beside = c.shown.abs_diff(c.empty) == 1;
            *if is_beside {
                &mut self.across
            } else {
                &mut self.down
            } += 1;
            *if c.rc < 0.5 {
                &mut self.shown_nearer
            } else {
                &mut self.empty_nearer
            } += 1;
            self.at_the_centre += usize::from(c.rc == 0.0);
            self.half_way += usize::from(c.rc == 0.5);
            self.at_an_end += usize::from(c.re == 0.0 || c.re == 1.0);
        }
        self.twice += crossings.windows(2).filter(|two| two[0] == two[1]).count();
        self.again += writes(outline, crossings)
            .iter()
            .filter(|&&times| times > 1)
            .count();
        for edge in outline.cedge2vtx.chunks(2) {
            self.edge(outline, ends(outline, edge));
        }
    }

    fn edge(&mut self, outline: &Outline, ends: [Point; 2]) {
        let any = |holds: fn(f32) -> bool| ends.as_flattened().iter().any(|&x| holds(x));
        self.of_one_point += usize::from(ends[0] == ends[1]);
        self.with_a_nan += usize::from(any(f32::is_nan));
        self.with_an_infinity += usize::from(any(f32::is_infinite));
        let size = (outline.img_w, outline.img_h);
        let none = overlapping_pixels_dda(size, &ends[0], &ends[1]).is_empty();
        self.beside += usize::from(none && !any(f32::is_nan));
    }

    fn has_each(&self) {
        println!("{self:#?}");
        let crossings = [self.across, self.down, self.shown_nearer, self.empty_nearer];
        assert!(self.with_a_crossing > 30_000 && crossings.iter().all(|&n| n > 50_000));
        let special = [
            self.at_the_centre,
            self.half_way,
            self.at_an_end,
            self.twice,
            self.again,
        ];
        assert!(special.iter().all(|&n| n > 5_000));
        let edges = [
            self.of_one_point,
            self.with_a_nan,
            self.with_an_infinity,
            self.beside,
        ];
        assert!(edges.iter().all(|&n| n > 2_000));
    }
}

#[test]
fn outlines_are_smoothed_as_by_the_listed_rust() {
    let (mut seen, mut met) = (Seen::default(), Met::default());
    for outline in outlines() {
        let left = forward(&outline);
        if !seen.accepts(&left, antialias_code(&outline), &outline.pix2vout) {
            continue;
        }
        let crossings = crossings(&outline);
        let times = writes(&outline, &crossings);
        kept(&left.1, &outline.pix2vout, |at| times[at] > 0);
        #[cfg(listed)]
        {
            let wanted = comparison::reference::antialias(&outline).expect("it runs");
            same(&left.1, &wanted, |at| times[at] > 0);
        }
        met.add(&outline, &crossings);
    }
    seen.is_all_of(&[0, 1, 3, 4, 8, 10]);
    met.has_each();
}

#[test]
fn gradients_go_back_as_by_the_listed_rust() {
    let (mut seen, mut gained, mut kept_all) = (Seen::default(), 0, 0);
    for outline in outlines() {
        let left = backward(&outline);
        if !seen.accepts(&left, bwd_antialias_code(&outline), &outline.dldw_vtx2xyz) {
            continue;
        }
        let reached = reached_ends(&outline, &crossings(&outline));
        kept(&left.1, &outline.dldw_vtx2xyz, |at| reached[at / 3]);
        #[cfg(listed)]
        {
            let wanted = comparison::reference::bwd_antialias(&outline).expect("it runs");
            same(&left.1, &wanted, |at| reached[at / 3]);
        }
        let gains = bits(&left.1) != bits(&outline.dldw_vtx2xyz);
        *if gains { &mut gained } else { &mut kept_all } += 1;
    }
    println!("{gained} with another gradient afterwards, {kept_all} with none");
    seen.is_all_of(&[0, 1, 3, 4, 8, 10]);
    assert!(gained > 30_000 && kept_all > 30_000);
}

/// Whether an edge covers a pixel of the image border.
#[cfg(listed)]
fn meets_the_border(outline: &Outline) -> bool {
    let size = (outline.img_w, outline.img_h);
    let mut edges = outline.cedge2vtx.chunks(2).map(|edge| ends(outline, edge));
    edges.any(|ends| covered(size, ends).into_iter().any(|p| on_border(size, p)))
}

/// The unchanged file differs only where an edge covers a pixel of the border: there it panics, or takes the neighbour from the
/// other end of a row.
#[cfg(listed)]
#[test]
fn the_listed_file_differs_only_at_the_border() {
    use comparison::reference::{antialias_as_listed, bwd_antialias_as_listed};
    let (mut inner, mut panics, mut others) = (0, [0; 2], [0; 2]);
    for outline in outlines().filter(|o| antialias_code(o) == 0 && bwd_antialias_code(o) == 0) {
        let crossings = crossings(&outline);
        let at_border = meets_the_border(&outline);
        inner += usize::from(!at_border && !crossings.is_empty());
        let listed = [
            antialias_as_listed(&outline),
            bwd_antialias_as_listed(&outline),
        ];
        let ours = [forward(&outline).1, backward(&outline).1];
        for (pass, (ours, listed)) in ours.iter().zip(listed).enumerate() {
            let Some(listed) = listed else {
                assert!(at_border);
                panics[pass] += 1;
                continue;
            };
            let mut places = ours.iter().zip(&listed);
            let equal =
                |(a, b): (&f32, &f32)| a.to_bits() == b.to_bits() || a.is_nan() && b.is_nan();
            if !places.all(equal) {
                assert!(at_border);
                others[pass] += 1;
            }
        }
    }
    println!("{inner} scenes with crossings meet no border; forward and backward, the listed file panics in {panics:?}, and has other bits in {others:?}");
    assert!(inner > 5_000 && panics.iter().all(|&n| n > 1_000));
}

/// Values 1 where a row of the map shows a face and 0 where it does not, on as many rows, by the identity.
fn of_rows(row: &[u32], rows: usize, corners: [Point; 2]) -> Outline {
    let pix2tri = row.repeat(rows);
    let value = |&entry: &u32| if entry == EMPTY { 0.0 } else { 1.0 };
    Outline {
        img_w: row.len(),
        img_h: rows,
        cedge2vtx: vec![0, 1],
        vtx2xyz: corners.iter().flat_map(|&[x, y]| [x, y, 0.5]).collect(),
        transform_world2pix: std::array::from_fn(|i| f32::from(u8::from(i % 5 == 0))),
        pix2val: pix2tri.iter().map(value).collect(),
        pix2vout: vec![7.0; pix2tri.len()],
        dldw_pix2val: vec![1.0; pix2tri.len()],
        dldw_vtx2xyz: vec![0.0; 6],
        pix2tri,
    }
}

/// Down the image at each eighth of a pixel: from the shown centre on, and before the empty one.
#[test]
fn a_crossing_is_from_the_first_centre_to_before_the_second() {
    for eighth in 0..=40 {
        let x = eighth as f32 / 8.0;
        let outline = of_rows(&[0, 0, EMPTY, EMPTY, EMPTY], 3, [[x, 0.0], [x, 3.0]]);
        let mut wanted = outline.pix2vout.clone();
        let rc = x - 1.5;
        if (0.0..0.5).contains(&rc) {
            wanted[6] = 0.5 + rc;
        } else if (0.5..1.0).contains(&rc) {
            wanted[7] = rc - 0.5;
        }
        assert_eq!(forward(&outline), (0, wanted), "{x}");
        // where the edge lies on the line between both pixels it covers both, and the crossing is met twice
        let share = match rc {
            0.5 => 1.0,
            rc if (0.0..1.0).contains(&rc) => 0.5,
            _ => 0.0,
        };
        let wanted = vec![share, 0.0, 0.0, share, 0.0, 0.0];
        assert_eq!(backward(&outline), (0, wanted), "{x}");
    }
}

/// The smallest scenes in which the file as it is listed leaves the image: one pixel, to whose left there is none; and on 2 × 2 the
/// lower left one, whose left neighbour it takes to be the upper right one (docs/DIFFERENCES.md).
#[test]
fn pixels_on_the_border_are_passed_over() {
    let one = of_rows(&[0], 1, [[0.25, 0.0], [0.25, 1.0]]);
    let mut two = of_rows(&[0, 0], 2, [[0.25, 1.25], [0.25, 1.75]]);
    two.pix2tri[1] = EMPTY;
    for outline in [&one, &two] {
        assert_eq!(forward(outline), (0, outline.pix2vout.clone()));
        assert_eq!(backward(outline), (0, outline.dldw_vtx2xyz.clone()));
    }
    #[cfg(listed)]
    {
        use comparison::reference::antialias_as_listed;
        assert_eq!(antialias_as_listed(&one), None, "it panics");
        two.pix2val = vec![0.0, 0.0, 1.0, 1.0];
        let mixed = antialias_as_listed(&two);
        assert_eq!(mixed, Some(vec![7.0, 7.0, 0.75, 7.0]));
    }
}

/// The stand-in walks along an edge and asks few pixels; the list is that of all pixels asked.
fn walks_as_covered(size: (usize, usize), ends: [Point; 2]) -> usize {
    let wanted = covered(size, ends);
    let [q0, q1] = &ends;
    assert_eq!(
        overlapping_pixels_dda(size, q0, q1),
        wanted,
        "{size:?}, {ends:?}"
    );
    let inner: Vec<usize> = wanted
        .iter()
        .copied()
        .filter(|&p| !on_border(size, p))
        .collect();
    assert_eq!(
        overlapping_inner_pixels(size, q0, q1),
        inner,
        "{size:?}, {ends:?}"
    );
    wanted.len()
}

#[test]
fn the_stand_in_walks_the_covered_pixels() {
    let (mut edges, mut pixels) = (0, 0);
    for outline in outlines().filter(|o| antialias_code(o) == 0) {
        for edge in outline.cedge2vtx.chunks(2) {
            edges += 1;
            pixels += walks_as_covered((outline.img_w, outline.img_h), ends(&outline, edge));
        }
    }
    println!("{edges} edges cover {pixels} pixels");
    assert!(edges > 300_000 && pixels > 1_000_000);
    let random = &mut Random::new(1);
    for _ in 0..3_000 {
        let size = (random.within(50, 300), random.within(50, 300));
        let reach = random.one_of(&[1.0, 1.5, 50.0]);
        let low = -0.5 * (reach - 1.0);
        let mut end =
            || [size.0, size.1].map(|s| s as f32 * (low + reach * random.between(0.0, 1.0)));
        walks_as_covered(size, [end(), end()]);
    }
}

/// Of the map only its empty entries count, so that faces without a pixel can go and others be renumbered.
#[test]
fn the_faces_that_a_map_names_are_all_one() {
    for seed in 0..20_000 {
        let one = outline(seed);
        let random = &mut Random::new(seed).beside();
        let mut two = one.clone();
        for entry in two.pix2tri.iter_mut().filter(|entry| **entry != EMPTY) {
            *entry = random.one_of(&[0, 1, 5, MOST, EMPTY - 1]);
        }
        for (one, two) in [
            (forward(&one), forward(&two)),
            (backward(&one), backward(&two)),
        ] {
            assert_eq!((one.0, bits(&one.1)), (two.0, bits(&two.1)), "seed {seed}");
        }
    }
}

/// Which lengths question 4 asks of each pass.
const FORWARD: [usize; 3] = [0, 1, 2];
const BACKWARD: [usize; 4] = [0, 1, 3, 4];

/// Accepted arguments with an edge.
fn with_an_edge(seed: u64) -> Outline {
    let random = &mut Random::new(seed);
    loop {
        let outline = accepted_outline(random);
        if !outline.cedge2vtx.is_empty() && antialias_code(&outline) == 0 {
            return outline;
        }
    }
}

/// Breaks accepted arguments so that a question is answered no: 4 by that length, the others in one of two ways.
fn break_one(outline: &mut Outline, question: u32, which: usize, way: bool) {
    match (question, way) {
        (1, false) => outline.img_w = 0,
        (1, true) => outline.img_h = 4097,
        (3, false) => outline.cedge2vtx.push(0),
        (3, true) => outline.vtx2xyz.push(0.5),
        (4, longer) => *outline = outline.with_wrong_length(which, longer),
        (10, false) => outline.cedge2vtx[0] = MOST,
        (10, true) => outline.cedge2vtx[1] = (outline.vtx2xyz.len() / 3) as u32,
        (_, way) => without_a_projection(outline, way),
    }
}

/// No vertex has a projection, or the first edge's second end has none.
fn without_a_projection(outline: &mut Outline, that_end: bool) {
    let divisor = if that_end { 1.0 } else { 0.0 };
    outline.transform_world2pix = std::array::from_fn(|i| if i == 11 { divisor } else { 0.0 });
    outline.vtx2xyz.fill(1.0);
    outline.vtx2xyz[3 * outline.cedge2vtx[1] as usize + 2] = -0.0;
}

/// The call is refused with that code, or accepted, and a refused one writes nothing.
fn answers((code, buffer): Left, wanted: u32, before: &[f32]) {
    assert_eq!(code, wanted);
    assert!(code == 0 || bits(&buffer) == bits(before));
}

/// Every combination of questions that are answered no: the first of them is told.
#[test]
fn the_questions_are_asked_in_their_order() {
    let questions = [8, 10, 4, 3, 1];
    for seed in 0..300 {
        let accepted = with_an_edge(seed);
        for (no, which) in (1..32).flat_map(|no| (0..5).map(move |which| (no, which))) {
            for way in [false, true] {
                let mut outline = accepted.clone();
                let asked = questions.iter().enumerate();
                let broken: Vec<u32> = asked
                    .filter(|(bit, _)| no >> bit & 1 == 1)
                    .map(|(_, q)| *q)
                    .collect();
                broken
                    .iter()
                    .for_each(|&q| break_one(&mut outline, q, which, way));
                let first = |lengths: &[usize]| {
                    let mut asked = broken
                        .iter()
                        .filter(|&&q| q != 4 || lengths.contains(&which));
                    asked.next_back().copied().unwrap_or(0)
                };
                answers(forward(&outline), first(&FORWARD), &outline.pix2vout);
                // a vertex slice that is longer is longer than its gradients
                answers(backward(&outline), first(&BACKWARD), &outline.dldw_vtx2xyz);
            }
        }
    }
}

/// Each length by one, and none, of the pass that has it; the other pass does not ask.
#[test]
fn a_wrong_length_is_refused_with_4() {
    for seed in 0..5_000 {
        let outline = with_an_edge(seed);
        for (which, longer) in (0..5).flat_map(|which| [(which, false), (which, true)]) {
            let wrong = outline.with_wrong_length(which, longer);
            let code = |lengths: &[usize]| if lengths.contains(&which) { 4 } else { 0 };
            answers(forward(&wrong), code(&FORWARD), &wrong.pix2vout);
            answers(backward(&wrong), code(&BACKWARD), &wrong.dldw_vtx2xyz);
        }
    }
}

#[test]
fn widths_and_heights_to_4096() {
    for (w, h, code) in SIZES {
        let mut outline = of_rows(&[0], 1, [[0.25, 0.0], [0.75, 3.0]]);
        (outline.img_w, outline.img_h) = (w, h);
        outline.pix2tri = vec![0; w * h];
        for buffer in [
            &mut outline.pix2val,
            &mut outline.pix2vout,
            &mut outline.dldw_pix2val,
        ] {
            *buffer = vec![0.5; w * h];
        }
        assert_eq!(
            forward(&outline),
            (code, outline.pix2vout.clone()),
            "{w} × {h}"
        );
        assert_eq!(
            backward(&outline),
            (code, outline.dldw_vtx2xyz.clone()),
            "{w} × {h}"
        );
    }
}

/// The largest image, and one edge from corner to corner.
#[test]
fn a_diagonal_of_4096() {
    let most = 4096.0;
    let mut outline = of_rows(&vec![0; 4096], 4096, [[0.0, 0.0], [most, most - 0.5]]);
    for (pixel, entry) in outline.pix2tri.iter_mut().enumerate() {
        if pixel % 4096 > pixel / 4096 {
            *entry = EMPTY;
            outline.pix2val[pixel] = 0.0;
        }
    }
    let (code, smoothed) = forward(&outline);
    let written = smoothed.iter().filter(|&&x| x != 7.0).count();
    println!("{written} pixels of the diagonal are written");
    assert!(code == 0 && written > 4_000);
    #[cfg(listed)]
    {
        assert!(Some(smoothed) == comparison::reference::antialias(&outline));
        let wanted = comparison::reference::bwd_antialias(&outline).expect("it runs");
        assert_eq!(backward(&outline), (0, wanted));
    }
}

#[test]
fn counts_to_1048576_and_3145728() {
    let vertices = [(MOST, 1, 0), (MOST + 1, 1, 3)];
    let edges = [(3, MOST_EDGES, 0), (3, MOST_EDGES + 1, 3)];
    for (vertices, edges, code) in vertices.into_iter().chain(edges) {
        let mut outline = of_rows(&[0], 1, [[0.25, 0.0], [0.25, 1.0]]);
        outline.vtx2xyz = vec![0.5; 3 * vertices as usize];
        outline.dldw_vtx2xyz = vec![0.5; 3 * vertices as usize];
        outline.cedge2vtx = vec![2; 2 * edges as usize];
        *outline.cedge2vtx.last_mut().expect("an edge") = vertices - 1;
        let codes = [forward(&outline).0, backward(&outline).0];
        assert_eq!(codes, [code; 2], "{vertices}, {edges}");
        *outline.cedge2vtx.last_mut().expect("an edge") = vertices;
        let codes = [forward(&outline).0, backward(&outline).0];
        let code = if code == 0 { 10 } else { code };
        assert_eq!(codes, [code; 2], "{vertices}, {edges}, one vertex on");
    }
}
