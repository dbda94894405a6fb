//! The label picture: refusals beside the questions of 01, and every number of the picture beside the table's own entries;
//! layers that differ in all but their bodies, which it must not tell apart, and layers that differ in the body of one pixel,
//! which it must.
use comparison::expected::{label_code, labelled};
use comparison::labels::{accepted_labels, body, labels, table, Labels, LENGTHS};
use comparison::layer::owned_bits;
use comparison::margins::LentNumbers;
use comparison::random::Random;
use comparison::scene::{EMPTY, MOST, SIZES};
use paqelzim::{Facing, Refusal};

const CASES: u64 = 120_000;
const PAIRS: u64 = 10_000;

/// What a call leaves: its code, and the buffer that it was lent for the picture.
type Left = (u32, Vec<u32>);

fn labelled_by_call(labels: &Labels) -> Left {
    let mut lent = LentNumbers::new(&labels.pix2body);
    let answer = labels.label(lent.buffer());
    let code = answer.map_or_else(Refusal::code, |()| 0);
    (code, lent.numbers())
}

/// What it must leave: the picture where it is accepted, else what it was lent.
fn wanted(labels: &Labels) -> Left {
    match label_code(labels) {
        0 => (0, labelled(labels)),
        code => (code, labels.pix2body.clone()),
    }
}

/// The call is refused with that code, and nothing is written.
fn is_refused(labels: &Labels, code: u32, what: &str) {
    let left = labelled_by_call(labels);
    assert!(left == (code, labels.pix2body.clone()), "{what}: {left:?}");
}

/// The body and the face of each pixel that is not empty.
fn covered<'a>(labels: &'a Labels, picture: &'a [u32]) -> impl Iterator<Item = (u32, u32)> + 'a {
    let pixels = picture.iter().copied().zip(labels.pix2tri.iter().copied());
    pixels.filter(|&(_, entry)| entry != EMPTY)
}

/// What was met among accepted calls.
#[derive(Debug, Default)]
struct Seen {
    of_drawings: usize,
    of_other_maps: usize,
    /// By tables of no entries.
    without_faces: usize,
    all_empty: usize,
    partly_empty: usize,
    none_empty: usize,
    /// Pictures where two faces of one body are seen.
    of_two_faces_alike: usize,
    empty_pixels: usize,
    /// Other pixels, and those of a body with such a number, or of the table's last face.
    pixels: usize,
    of_body_0: usize,
    of_body_empty: usize,
    of_the_last_face: usize,
}

impl Seen {
    fn met(&mut self, labels: &Labels, picture: &[u32]) {
        let faces = labels.tri2body.len();
        *match labels.is_drawn {
            true => &mut self.of_drawings,
            false => &mut self.of_other_maps,
        } += 1;
        self.without_faces += usize::from(faces == 0);
        let covered: Vec<_> = covered(labels, picture).collect();
        let empty = picture.len() - covered.len();
        *match (empty, covered.len()) {
            (_, 0) => &mut self.all_empty,
            (0, _) => &mut self.none_empty,
            _ => &mut self.partly_empty,
        } += 1;
        let alike = |two: &[(u32, u32)]| two[0].0 == two[1].0 && two[0].1 != two[1].1;
        let alike = covered.windows(2).any(alike);
        self.of_two_faces_alike += usize::from(alike);
        self.empty_pixels += empty;
        self.pixels += covered.len();
        let count = |of: &dyn Fn(u32, u32) -> bool| {
            let pixels = covered.iter().filter(|(body, face)| of(*body, *face));
            pixels.count()
        };
        self.of_body_0 += count(&|body, _| body == 0);
        self.of_body_empty += count(&|body, _| body == EMPTY);
        self.of_the_last_face += count(&|_, face| face as usize == faces - 1);
    }

    fn has_each(&self) {
        println!("{self:?}");
        let cases = [
            self.of_drawings,
            self.of_other_maps,
            self.without_faces,
            self.all_empty,
            self.partly_empty,
            self.none_empty,
            self.of_two_faces_alike,
        ];
        assert!(cases.iter().all(|&cases| cases > 3_000));
        let pixels = [
            self.empty_pixels,
            self.pixels,
            self.of_body_0,
            self.of_body_empty,
            self.of_the_last_face,
        ];
        assert!(pixels.iter().all(|&pixels| pixels > 50_000));
    }
}

/// How the first entry that is refused lies to the table's length: just past its end, one further, or just below empty.
fn past_the_table(labels: &Labels) -> Option<usize> {
    let faces = labels.tri2body.len() as u32;
    let past = |&&entry: &&u32| entry >= faces && entry != EMPTY;
    let entry = labels.pix2tri.iter().find(past)?;
    [faces, faces + 1, EMPTY - 1]
        .iter()
        .position(|e| e == entry)
}

#[test]
fn every_picture_is_the_tables_and_every_refusal_the_first_no_which_writes_nothing() {
    let (mut codes, mut past, mut seen) = ([0; 10], [0; 3], Seen::default());
    for (seed, labels) in (0..CASES).map(|seed| (seed, labels(seed))) {
        let (code, left) = labelled_by_call(&labels);
        let (wanted, buffer) = wanted(&labels);
        assert_eq!((code, &left), (wanted, &buffer), "seed {seed}");
        codes[code as usize] += 1;
        match code {
            0 => seen.met(&labels, &left),
            7 => past_the_table(&labels)
                .into_iter()
                .for_each(|how| past[how] += 1),
            _ => {}
        }
    }
    println!("codes: {codes:?}; entries past the table, one further, below empty: {past:?}");
    for question in [1, 3, 4, 7] {
        assert!(codes[question] > 200, "question {question}: {codes:?}");
    }
    assert!(past.iter().all(|&cases| cases > 500));
    assert_eq!(codes.iter().sum::<u64>(), CASES);
    seen.has_each();
}

/// Breaks accepted arguments so that a question is answered no: 4 by that length, the others in one of two ways. No table is
/// long enough for the entry.
fn break_one(labels: &mut Labels, question: u32, which: usize, way: bool) {
    match (question, way) {
        (1, false) => labels.img_w = 0,
        (1, true) => labels.img_h = 4097,
        (3, false) => labels.tri2body = vec![7; MOST as usize + 1],
        (3, true) => labels.tri2body = vec![EMPTY; MOST as usize + 2],
        (4, longer) => *labels = labels.with_wrong_length(which, longer),
        (_, false) => labels.pix2tri[0] = MOST + 2,
        (_, true) => labels.pix2tri[0] = EMPTY - 1,
    }
}

/// Every combination of questions that are answered no: the first of them is told.
#[test]
fn the_questions_are_asked_in_their_order() {
    let questions = [7, 4, 3, 1];
    for seed in 0..40 {
        let labels = accepted_labels(&mut Random::new(seed));
        for (no, which) in (1..16).flat_map(|no| (0..LENGTHS).map(move |which| (no, which))) {
            for way in [false, true] {
                let mut labels = labels.clone();
                let mut first = 0;
                for (bit, question) in questions.into_iter().enumerate() {
                    if no >> bit & 1 == 1 {
                        break_one(&mut labels, question, which, way);
                        first = question;
                    }
                }
                is_refused(&labels, first, "the first no");
            }
        }
    }
}

/// Each length by one, a pixel of three numbers, and none.
#[test]
fn a_wrong_length_is_refused_with_4() {
    for seed in 0..5_000 {
        let labels = accepted_labels(&mut Random::new(seed));
        assert_eq!(labelled_by_call(&labels), wanted(&labels), "seed {seed}");
        let pixels = labels.pix2tri.len();
        for which in 0..LENGTHS {
            for longer in [false, true] {
                is_refused(&labels.with_wrong_length(which, longer), 4, "by one");
            }
        }
        for length in [0, 3 * pixels] {
            let (mut map, mut picture) = (labels.clone(), labels.clone());
            map.pix2tri.resize(length, EMPTY);
            picture.pix2body.resize(length, 7);
            is_refused(&map, 4, "map");
            is_refused(&picture, 4, "picture");
        }
    }
}

/// A picture of one entry, by so many faces with themselves as bodies.
fn of_one_entry(entry: u32, faces: u32, (img_w, img_h): (usize, usize)) -> Labels {
    let pixels = img_w.wrapping_mul(img_h);
    Labels {
        pix2tri: vec![entry; pixels],
        tri2body: (0..faces).collect(),
        img_w,
        img_h,
        pix2body: vec![7; pixels],
        is_drawn: false,
    }
}

#[test]
fn widths_and_heights_to_4096() {
    for (w, h, wanted) in SIZES {
        let labels = of_one_entry(1, 2, (w, h));
        let left = labelled_by_call(&labels);
        let buffer = if wanted == 0 { 1 } else { 7 };
        assert_eq!(left, (wanted, vec![buffer; w * h]), "{w} × {h}");
    }
    let mut largest = of_one_entry(EMPTY, 2, (4096, 4096));
    *largest.pix2tri.last_mut().expect("a pixel") = 1;
    assert!(labelled_by_call(&largest) == wanted(&largest));
    *largest.pix2tri.last_mut().expect("a pixel") = 2;
    let refused = labelled_by_call(&largest);
    assert!(refused == (7, largest.pix2body), "its last entry");
}

/// Maps of one entry but at one pixel, which is shown or refused wherever it lies: several pixels are looked at in one step.
#[test]
fn another_entry_is_met_at_any_pixel() {
    const FACES: u32 = 3;
    let mut codes = [0; 10];
    for (pixels, at) in (1..=130).flat_map(|n| (0..n).map(move |at| (n, at))) {
        for entry in [EMPTY, 0, FACES - 1] {
            let mut labels = of_one_entry(entry, FACES, (pixels, 1));
            for other in [EMPTY, 0, 1, FACES - 1, FACES, EMPTY - 1] {
                labels.pix2tri[at] = other;
                let left = labelled_by_call(&labels);
                assert_eq!(left, wanted(&labels), "{other} at {at} of {pixels}");
                codes[left.0 as usize] += 1;
            }
        }
    }
    println!("codes of one other entry: {codes:?}");
    assert_eq!([codes[0], codes[7]], [102_180, 51_090]);
}

/// A table need not be a multiple of anything; only how long it is is asked.
#[test]
fn tables_to_1048576() {
    let lengths = [0, 1, 2, 3, 4, MOST - 1, MOST, MOST + 1, MOST + 2];
    for faces in lengths {
        let size = (3, 2);
        let too_long = faces > MOST;
        for entry in [0, faces.wrapping_sub(1), faces, EMPTY - 1, EMPTY] {
            let labels = of_one_entry(entry, faces, size);
            let code = match entry {
                _ if too_long => 3,
                EMPTY => 0,
                entry if entry < faces => 0,
                _ => 7,
            };
            let buffer = if code == 0 { entry } else { 7 };
            let left = labelled_by_call(&labels);
            assert_eq!(left, (code, vec![buffer; 6]), "{entry} of {faces}");
        }
    }
}

/// Whatever the table holds, the code is the same.
#[test]
fn the_code_tells_nothing_of_the_tables_entries() {
    let mut codes = [0; 10];
    for (seed, mut labels) in (0..CASES / 2).map(|seed| (seed, labels(seed))) {
        let (code, _) = labelled_by_call(&labels);
        let random = &mut Random::new(seed).beside();
        let faces = labels.tri2body.len();
        let any = table(random, faces);
        let bits = (0..faces).map(|_| random.bits() as u32).collect();
        for other in [vec![0; faces], vec![EMPTY; faces], any, bits] {
            labels.tri2body = other;
            let left = labelled_by_call(&labels);
            assert_eq!(left.0, code, "seed {seed}");
            assert_eq!(left, wanted(&labels), "seed {seed}");
            codes[code as usize] += 1;
        }
    }
    println!("codes by other tables: {codes:?}");
    assert!([0, 1, 3, 4, 7].iter().all(|&code| codes[code] > 200));
}

/// Accepted arguments on a picture that is not too large to be painted pixel by pixel.
fn small_labels(random: &mut Random) -> Labels {
    loop {
        let labels = accepted_labels(random);
        if labels.pix2tri.len() <= 150 {
            return labels;
        }
    }
}

/// The faces in a random order.
fn shuffled(random: &mut Random, faces: usize) -> Vec<u32> {
    let mut order: Vec<u32> = (0..faces as u32).collect();
    for at in (1..faces).rev() {
        order.swap(at, random.below(at + 1));
    }
    order
}

/// The same bodies by other numbers: each face has another place in a longer table, whose other places have any body.
fn renumbered(random: &mut Random, labels: &Labels) -> Labels {
    let faces = labels.tri2body.len();
    let length = faces + random.one_of(&[0, 1, 7, 100]);
    let places = shuffled(random, length);
    let mut other = labels.clone();
    other.tri2body = table(random, length);
    for (face, &body) in labels.tri2body.iter().enumerate() {
        other.tri2body[places[face] as usize] = body;
    }
    for entry in other.pix2tri.iter_mut().filter(|entry| **entry != EMPTY) {
        *entry = places[*entry as usize];
    }
    other
}

/// The same bodies by other faces: of each body that is seen one to three, any of which may hold each of its pixels, so that
/// faces are split and merged.
fn regrouped(random: &mut Random, labels: &Labels) -> Labels {
    let picture = labelled(labels);
    let mut other = labels.clone();
    other.tri2body.clear();
    for (body, _) in covered(labels, &picture) {
        if !other.tri2body.contains(&body) {
            let times = random.within(1, 3);
            other.tri2body.extend(std::iter::repeat_n(body, times));
        }
    }
    let order = shuffled(random, other.tri2body.len());
    other.tri2body = order
        .iter()
        .map(|&at| other.tri2body[at as usize])
        .collect();
    for (entry, body) in other.pix2tri.iter_mut().zip(&picture) {
        if *entry != EMPTY {
            let of_body = |face: &u32| other.tri2body[*face as usize] == *body;
            let faces: Vec<u32> = (0..other.tri2body.len() as u32).filter(of_body).collect();
            *entry = random.one_of(&faces);
        }
    }
    other
}

/// A layer of the package's own with that map, at any depths and weights: about the centre of each pixel, a face of that number.
fn painted(random: &mut Random, labels: &Labels) -> paqelzim::Layer {
    let identity = std::array::from_fn(|i| if i % 5 == 0 { 1.0 } else { 0.0 });
    let (w, h) = (labels.img_w, labels.img_h);
    let mut layer = paqelzim::Layer::new(w, h).expect("accepted");
    for (pixel, &number) in labels.pix2tri.iter().enumerate() {
        if number == EMPTY {
            continue;
        }
        let (column, row) = ((pixel % w) as f32 + 0.5, (pixel / w) as f32 + 0.5);
        let corners = [[-1.0, -1.0], [1.0, -1.0], [0.0, 1.0]].map(|[x, y]: [f32; 2]| {
            let [x, y] = [x, y].map(|to| to * random.between(0.2, 0.45));
            let (x, y) = ((column + x) / w as f32, (row + y) / h as f32);
            [2.0 * x - 1.0, 1.0 - 2.0 * y, random.between(-1.0, 1.0)]
        });
        let corners = corners.as_flattened();
        let answer = layer.draw(&[0, 1, 2], corners, &identity, number, Facing::All);
        answer.expect("accepted");
    }
    assert_eq!(layer.map(), labels.pix2tri, "one pixel each");
    layer
}

/// How many pixels of two layers have another number, another depth, and other weights, bit by bit.
fn unlike(one: &paqelzim::Layer, two: &paqelzim::Layer) -> [usize; 3] {
    let (one, two) = (owned_bits(one), owned_bits(two));
    let count = |which: usize, each: usize| {
        let pixels = one[which].chunks(each).zip(two[which].chunks(each));
        pixels.filter(|(a, b)| a != b).count()
    };
    [count(0, 1), count(1, 1), count(2, 3)]
}

/// What was met among pairs of layers of the same bodies.
#[derive(Debug, Default)]
struct Alike {
    /// Pixels that are not empty, and those with another number, another depth, other weights.
    pixels: usize,
    unlike: [usize; 3],
    /// Second tables that are shorter, as long, longer.
    lengths: [usize; 3],
}

/// The pictures of two layers that hold the same bodies, by their slices and owned.
fn are_alike(random: &mut Random, one: &Labels, two: &Labels, met: &mut Alike) {
    let (code, picture) = labelled_by_call(one);
    assert_eq!(code, 0, "{one:?}");
    assert_eq!(
        labelled_by_call(two),
        (0, picture.clone()),
        "{one:?}, {two:?}"
    );
    let layers = [painted(random, one), painted(random, two)];
    for (layer, labels) in layers.iter().zip([one, two]) {
        let owned = layer.label_picture(&labels.tri2body);
        assert_eq!(owned.as_deref(), Ok(&picture[..]), "{labels:?}");
    }
    met.pixels += covered(one, &picture).count();
    for (met, unlike) in met.unlike.iter_mut().zip(unlike(&layers[0], &layers[1])) {
        *met += unlike;
    }
    let longer = two.tri2body.len().cmp(&one.tri2body.len()) as i8;
    met.lengths[(longer + 1) as usize] += 1;
}

#[test]
fn layers_of_the_same_bodies_give_the_same_picture() {
    let mut met = Alike::default();
    for seed in 0..PAIRS {
        let random = &mut Random::new(seed);
        let one = small_labels(random);
        let mut two = if random.percent(50) {
            renumbered(random, &one)
        } else {
            regrouped(random, &one)
        };
        // nor does it matter what the buffer held
        two.pix2body.fill_with(|| random.bits() as u32);
        are_alike(random, &one, &two, &mut met);
    }
    println!("{met:?}");
    let [numbers, depths, weights] = met.unlike;
    assert!(met.pixels > 100_000 && numbers * 2 > met.pixels);
    assert!(depths.min(weights) * 100 > met.pixels * 99);
    assert!(met.lengths.iter().all(|&cases| cases > 500));
}

/// Another body at one pixel, or none where it had one: what the pixel then shows.
fn changed(random: &mut Random, labels: &Labels, at: usize) -> Labels {
    let mut other = labels.clone();
    if other.pix2tri[at] != EMPTY && random.percent(30) {
        other.pix2tri[at] = EMPTY;
    } else {
        other.pix2tri[at] = other.tri2body.len() as u32;
        other.tri2body.push(body(random));
    }
    other
}

/// Where one pixel shows something else, there alone the pictures differ.
#[test]
fn a_pixel_of_another_body_is_told() {
    let (mut told, mut emptied, mut alike) = (0, 0, 0);
    for seed in 0..PAIRS {
        let random = &mut Random::new(seed);
        let one = small_labels(random);
        let at = random.below(one.pix2tri.len());
        let two = changed(random, &one, at);
        let (first, second) = (labelled_by_call(&one), labelled_by_call(&two));
        assert_eq!([first.0, second.0], [0; 2], "seed {seed}");
        let shown = [labelled(&one)[at], labelled(&two)[at]];
        let pictures = first.1.iter().zip(&second.1);
        let unlike = (0..).zip(pictures).filter(|(_, (a, b))| a != b);
        let unlike: Vec<usize> = unlike.map(|(pixel, _)| pixel).collect();
        if shown[0] == shown[1] {
            assert!(unlike.is_empty(), "seed {seed}");
            alike += 1;
        } else {
            assert_eq!(unlike, [at], "seed {seed}");
            told += 1;
            emptied += usize::from(two.pix2tri[at] == EMPTY);
        }
    }
    println!("{told} told, {emptied} of them emptied; {alike} not, where both look alike");
    assert!(told > 7_000 && emptied > 500 && alike > 100);
}

/// The picture of an owned layer is that of its slices, and so is the refusal of a table.
#[test]
fn owned_layers_are_labelled_as_their_slices() {
    let mut codes = [0; 10];
    for seed in 0..PAIRS {
        let random = &mut Random::new(seed);
        let mut labels = small_labels(random);
        let layer = painted(random, &labels);
        let before = layer.clone();
        match random.below(100) {
            0 => labels.tri2body.resize(MOST as usize + 1, 0),
            1..=30 => drop(labels.tri2body.pop()),
            _ => {}
        }
        let mut picture = vec![7; labels.pix2tri.len()];
        let answer = labels.label(&mut picture);
        codes[answer.map_or_else(Refusal::code, |()| 0) as usize] += 1;
        let wanted = answer.map(|()| picture);
        assert_eq!(layer.label_picture(&labels.tri2body), wanted, "seed {seed}");
        assert_eq!(layer, before, "seed {seed}");
    }
    println!("codes of owned layers: {codes:?}");
    assert!(codes[0] > 5_000 && codes[3] > 50 && codes[7] > 500);
}
