//! The preview of a removal: refusals, the three counts and every number of the two scratch layers, beside the questions of 01 and,
//! where its source is found, the listed Rust, which draws the full list and a shortened one; the pixels are counted by the
//! old number of each face that stays.
use comparison::expected::{cleared, preview_code};
use comparison::layer::{any_weights, owned_bits, wrong_lengths, Layer};
use comparison::margins::Lent;
use comparison::random::Random;
use comparison::removal::{any_removal, removal, Removal, LENGTHS, MARKS};
use comparison::scene::{accepted, scene, MOST, SIZES};
use paqelzim::{Refusal, RemovalPreview};

const SCENES: u64 = 100_000;

/// What the call answers, as C sees it.
#[repr(C)]
#[derive(Clone, Copy, Debug, Default, PartialEq)]
struct Answer {
    code: u32,
    emptied: usize,
    renamed: usize,
    kept: usize,
}

extern "C" {
    fn paqelzim_preview_removal(
        tri2vtx: *const u32,
        tri2vtx_len: usize,
        vtx2xyz: *const f32,
        vtx2xyz_len: usize,
        img_w: usize,
        img_h: usize,
        transform_world2ndc: *const f32,
        removed: *const u8,
        removed_len: usize,
        full_pix2tri: *mut u32,
        full_pix2tri_len: usize,
        full_pix2depth: *mut f32,
        full_pix2depth_len: usize,
        full_pix2weights: *mut f32,
        full_pix2weights_len: usize,
        short_pix2tri: *mut u32,
        short_pix2tri_len: usize,
        short_pix2depth: *mut f32,
        short_pix2depth_len: usize,
        short_pix2weights: *mut f32,
        short_pix2weights_len: usize,
    ) -> Answer;
}

/// The preview as C makes it.
fn called(removal: &Removal, full: &mut Lent, short: &mut Lent) -> Answer {
    let scene = &removal.scene;
    let (full, short) = (full.buffers(), short.buffers());
    // SAFETY: each pointer comes with its slice's own length; the matrix has its sixteen numbers.
    unsafe {
        paqelzim_preview_removal(
            scene.tri2vtx.as_ptr(),
            scene.tri2vtx.len(),
            scene.vtx2xyz.as_ptr(),
            scene.vtx2xyz.len(),
            scene.img_w,
            scene.img_h,
            scene.transform_world2ndc.as_ptr(),
            removal.removed.as_ptr(),
            removal.removed.len(),
            full.0.as_mut_ptr(),
            full.0.len(),
            full.1.as_mut_ptr(),
            full.1.len(),
            full.2.as_mut_ptr(),
            full.2.len(),
            short.0.as_mut_ptr(),
            short.0.len(),
            short.1.as_mut_ptr(),
            short.1.len(),
            short.2.as_mut_ptr(),
            short.2.len(),
        )
    }
}

fn as_c_sees(answer: Result<RemovalPreview, Refusal>) -> Answer {
    let RemovalPreview {
        emptied,
        renamed,
        kept,
    } = answer.unwrap_or_default();
    Answer {
        code: answer.map_or_else(Refusal::code, |_| 0),
        emptied,
        renamed,
        kept,
    }
}

/// What a call leaves: its answer, and the bits of both scratch layers.
type Left = (Answer, [[Vec<u32>; 3]; 2]);

/// The preview as C makes it, which the package's is held to.
fn previewed(removal: &Removal) -> Left {
    let (mut full, mut short) = (Lent::new(&removal.scene.layer), Lent::new(&removal.short));
    let answer = called(removal, &mut full, &mut short);
    let left = (answer, [full.bits(), short.bits()]);
    let mut packaged = removal.clone();
    let answer = as_c_sees(packaged.preview());
    assert_eq!((answer, packaged.bits()), left, "the package's {removal:?}");
    left
}

/// The call is refused with that code: no count, and nothing written.
fn is_refused(removal: &Removal, code: u32) {
    let answer = Answer {
        code,
        ..Answer::default()
    };
    assert_eq!(previewed(removal), (answer, removal.bits()), "{removal:?}");
}

#[test]
fn every_refusal_is_the_first_no_with_no_counts_and_writes_nothing() {
    let mut seen = [0; 10];
    for removal in (0..SCENES).map(removal) {
        let wanted = preview_code(&removal);
        match wanted {
            0 => assert_eq!(previewed(&removal).0.code, 0, "{removal:?}"),
            code => is_refused(&removal, code),
        }
        seen[wanted as usize] += 1;
    }
    println!("codes: {seen:?}");
    for question in [1, 3, 4, 6] {
        assert!(seen[question] > 1_000, "question {question}: {seen:?}");
    }
    assert_eq!(seen.iter().sum::<u64>(), SCENES);
}

/// An accepted removal with a face at least.
fn some_removal(seed: u64) -> Removal {
    let random = &mut Random::new(seed);
    let mut scene = accepted(random);
    while scene.tri2vtx.is_empty() {
        scene = accepted(random);
    }
    any_removal(random, scene)
}

/// Each length by one, and the weights for a number a pixel, a pixel over and none.
#[test]
fn a_wrong_length_is_refused_with_4() {
    for seed in 0..2_000 {
        let removal = some_removal(seed);
        assert_eq!(previewed(&removal).0.code, 0);
        for which in 0..LENGTHS {
            for longer in [false, true] {
                is_refused(&removal.with_wrong_length(which, longer), 4);
            }
        }
        for length in wrong_lengths(removal.short.pix2tri.len()) {
            let weights = any_weights(&mut Random::new(seed), length);
            let (mut full, mut short) = (removal.clone(), removal.clone());
            full.scene.layer.pix2weights = weights.clone();
            short.short.pix2weights = weights;
            is_refused(&full, 4);
            is_refused(&short, 4);
        }
        let mut none = removal.clone();
        none.removed.clear();
        is_refused(&none, 4);
    }
}

/// Breaks an accepted removal so that a question is answered no: 4 by that length, the others in one of two ways.
fn spoil(removal: &mut Removal, question: u32, which: usize, way: bool) {
    let scene = &mut removal.scene;
    match (question, way) {
        (1, false) => scene.img_w = 0,
        (1, true) => scene.img_h = 4097,
        (3, false) => scene.tri2vtx.push(0),
        (3, true) => scene.vtx2xyz.push(0.0),
        (4, longer) => *removal = removal.with_wrong_length(which, longer),
        (_, false) => scene.tri2vtx[0] = scene.vtx2xyz.len() as u32 / 3,
        (_, true) => *scene.tri2vtx.last_mut().expect("a face") = u32::MAX,
    }
}

/// Every combination of questions that are answered no: the first of them is told.
#[test]
fn the_questions_are_asked_in_their_order() {
    let questions = [6, 4, 3, 1];
    for seed in 0..200 {
        let removal = some_removal(seed);
        for (no, which) in (1..16).flat_map(|no| (0..LENGTHS).map(move |which| (no, which))) {
            for way in [false, true] {
                let mut removal = removal.clone();
                let mut first = 0;
                for (bit, question) in questions.into_iter().enumerate() {
                    if no >> bit & 1 == 1 {
                        spoil(&mut removal, question, which, way);
                        first = question;
                    }
                }
                is_refused(&removal, first);
            }
        }
    }
}

/// A face that is taken out is asked for its vertices too.
#[test]
fn a_marked_face_names_vertices_that_are_there() {
    for seed in 0..2_000 {
        let mut removal = some_removal(seed).marked(|_| MARKS[seed as usize % 3]);
        assert_eq!(previewed(&removal).0.code, 0);
        let at = Random::new(seed).below(removal.scene.tri2vtx.len());
        removal.scene.tri2vtx[at] = removal.scene.vtx2xyz.len() as u32 / 3;
        is_refused(&removal, 6);
    }
}

/// The preview on layers that own their slices, and what it leaves.
fn owned(
    removal: &Removal,
    mut layers: [paqelzim::Layer; 2],
) -> (Result<RemovalPreview, Refusal>, [paqelzim::Layer; 2]) {
    let [full, short] = &mut layers;
    let answer = paqelzim::Layer::preview_removal(
        full,
        short,
        &removal.scene.tri2vtx,
        &removal.scene.vtx2xyz,
        &removal.scene.transform_world2ndc,
        &removal.removed,
    );
    (answer, layers)
}

/// Of one size, and of two with as many pixels, which only question 3 comes before.
#[test]
fn owned_layers_are_previewed_as_their_slices() {
    let (mut accepted, mut refused) = (0, 0);
    for mut removal in (0..SCENES / 5).map(removal) {
        let (w, h) = (removal.scene.img_w, removal.scene.img_h);
        let Ok(clear) = paqelzim::Layer::new(w, h) else {
            continue;
        };
        let turned = paqelzim::Layer::new(h, w).expect("accepted");
        let (answer, left) = owned(&removal, [clear.clone(), clear.clone()]);
        let (unlike, unlike_left) = owned(&removal, [clear.clone(), turned.clone()]);
        [removal.scene.layer, removal.short] = [cleared(w * h), cleared(w * h)];
        assert_eq!(answer, removal.preview(), "{removal:?}");
        assert_eq!(left.map(|l| owned_bits(&l)), removal.bits(), "{removal:?}");
        accepted += usize::from(answer.is_ok());
        if w != h {
            let wanted = match answer {
                Err(Refusal::MeshSize) => Refusal::MeshSize,
                _ => Refusal::BufferLength,
            };
            assert_eq!(unlike, Err(wanted), "{removal:?}");
            assert_eq!(unlike_left, [clear, turned], "{removal:?}");
            refused += 1;
        }
    }
    println!("{accepted} accepted, {refused} of two sizes refused");
    assert!(accepted > 15_000 && refused > 15_000);
}

#[cfg(listed)]
mod listed {
    use super::{as_c_sees, previewed, Answer, SCENES};
    use comparison::expected::{cleared, preview_code};
    use comparison::random::Random;
    use comparison::reference;
    use comparison::removal::{any_removal, counted, fate, removal, Fate, Removal, MARKS};
    use comparison::scene::{crowded, EMPTY};
    use std::collections::BTreeMap;

    /// Scenes of larger images and some hundred faces.
    const CROWDED: u64 = 2_000;

    /// What was met.
    #[derive(Debug, Default)]
    struct Seen {
        previews: usize,
        without_faces: usize,
        /// Faces by their mark; and those of sets that hold no pixel.
        marks: BTreeMap<u8, usize>,
        unseen: BTreeMap<u8, usize>,
        emptied: usize,
        renamed: usize,
        /// Renamed pixels whose face gives way to the very next one that stays, which then has the number that would have been
        /// the face's own.
        to_the_next: usize,
        /// Renamed pixels with the same number in both maps, and kept ones with another.
        renamed_by_equal_numbers: usize,
        kept_by_another_number: usize,
        kept: usize,
        empty: usize,
    }

    impl Seen {
        fn met(&mut self, removal: &Removal, full: &[u32], short: &[u32]) {
            self.previews += 1;
            self.without_faces += usize::from(removal.removed.is_empty());
            count(&mut self.marks, removal);
            let staying = removal.staying();
            for (&full, &short) in full.iter().zip(short) {
                match fate(&staying, full, short) {
                    Fate::Emptied => self.emptied += 1,
                    Fate::Renamed => {
                        let before = staying.partition_point(|&other| other < full);
                        self.renamed += 1;
                        self.to_the_next += usize::from(short as usize == before);
                        self.renamed_by_equal_numbers += usize::from(short == full);
                    }
                    Fate::Kept if full == EMPTY => self.empty += 1,
                    Fate::Kept => {
                        self.kept += 1;
                        self.kept_by_another_number += usize::from(short != full);
                    }
                }
            }
        }

        /// Each byte among the marks, each fate of a pixel and each way to count one wrong were met so often.
        fn has_each(&self, faces: usize, pixels: usize) {
            println!("{self:?}");
            let met = |marks: &BTreeMap<u8, usize>, byte| marks.get(&byte).copied() > Some(faces);
            assert!([0, 1, 2, 255].iter().all(|&byte| met(&self.marks, byte)));
            assert!(MARKS.iter().all(|&byte| met(&self.unseen, byte)));
            let counts = [
                self.emptied,
                self.renamed,
                self.to_the_next,
                self.renamed_by_equal_numbers,
                self.kept_by_another_number,
                self.kept,
                self.empty,
            ];
            assert!(counts.iter().all(|&count| count > pixels));
        }
    }

    fn count(marks: &mut BTreeMap<u8, usize>, removal: &Removal) {
        for &mark in &removal.removed {
            *marks.entry(mark).or_insert(0) += 1;
        }
    }

    /// Counts and layers beside the listed Rust's; the answer, and the full map.
    fn is_previewed_as_listed(removal: &Removal, seen: &mut Seen) -> (Answer, Vec<u32>) {
        let [full, short] = reference::drawn_twice(removal);
        let counts = counted(&removal.staying(), &full.pix2tri, &short.pix2tri);
        let answer = as_c_sees(Ok(counts));
        let wanted = (answer, [full.bits(), short.bits()]);
        assert_eq!(previewed(removal), wanted, "{removal:?}");
        let sum = counts.emptied + counts.renamed + counts.kept;
        assert_eq!(sum, removal.scene.img_w * removal.scene.img_h);
        seen.met(removal, &full.pix2tri, &short.pix2tri);
        (answer, full.pix2tri)
    }

    /// With its marks; with those alone of faces that hold no pixel; with all faces marked, and with none.
    fn are_previewed_as_listed(removal: &Removal, seen: &mut Seen) {
        let (_, full) = is_previewed_as_listed(removal, seen);
        let counts = |emptied, kept| Answer {
            emptied,
            kept,
            ..Answer::default()
        };
        let pixels = full.len();
        let unseen = removal.marked(|face| {
            if full.contains(&face) {
                0
            } else {
                removal.removed[face as usize]
            }
        });
        count(&mut seen.unseen, &unseen);
        let (answer, _) = is_previewed_as_listed(&unseen, seen);
        assert_eq!(answer, counts(0, pixels), "{unseen:?}");
        let all = removal.marked(|_| MARKS[seen.previews % 3]);
        let (answer, layers) = previewed(&all);
        let empty = full.iter().filter(|&&entry| entry == EMPTY).count();
        assert_eq!(answer, counts(pixels - empty, empty), "{all:?}");
        assert_eq!(layers[1], cleared(pixels).bits(), "{all:?}");
        let none = removal.marked(|_| 0);
        let (answer, layers) = previewed(&none);
        assert_eq!(answer, counts(0, pixels), "{none:?}");
        assert_eq!(layers[0], layers[1], "{none:?}");
    }

    #[test]
    fn every_removal_is_previewed_as_the_listed_rust_draws_it() {
        let mut seen = Seen::default();
        for removal in (0..SCENES).map(removal).filter(|r| preview_code(r) == 0) {
            are_previewed_as_listed(&removal, &mut seen);
        }
        seen.has_each(10_000, 2_500);
        assert!(seen.previews > 140_000 && seen.without_faces > 10_000);
    }

    #[test]
    fn so_are_those_of_crowded_scenes() {
        let mut seen = Seen::default();
        for seed in 0..CROWDED {
            let random = &mut Random::new(seed);
            let scene = crowded(random);
            are_previewed_as_listed(&any_removal(random, scene), &mut seen);
        }
        seen.has_each(10_000, 1_000);
    }
}

#[test]
fn widths_and_heights_to_4096() {
    for (w, h, wanted) in SIZES {
        let mut removal = any_removal(&mut Random::new(1), scene(1));
        let lent: Layer = std::iter::repeat_n((3, 0.5, [0.25; 3]), w * h).collect();
        (removal.scene.img_w, removal.scene.img_h) = (w, h);
        (removal.scene.layer, removal.short) = (lent.clone(), lent);
        removal.scene.tri2vtx.clear();
        removal.removed.clear();
        let answer = Answer {
            code: wanted,
            kept: if wanted == 0 { w * h } else { 0 },
            ..Answer::default()
        };
        assert_eq!(previewed(&removal).0, answer, "{w} × {h}, no faces");
    }
}

#[test]
fn counts_to_1048576() {
    let mut removal = any_removal(&mut Random::new(1), scene(1));
    (removal.scene.img_w, removal.scene.img_h) = (1, 1);
    let lent: Layer = [(3, 0.5, [0.25; 3])].into_iter().collect();
    (removal.scene.layer, removal.short) = (lent.clone(), lent);
    removal.scene.transform_world2ndc = std::array::from_fn(|i| if i % 5 == 0 { 1.0 } else { 0.0 });
    let place = |depth: f32| [-1., -1., depth, 3., -1., depth, -1., 3., depth];
    // the last face is in front of all others
    removal.scene.vtx2xyz = [place(0.25), place(0.5)].concat();
    removal.scene.tri2vtx = [0, 1, 2].repeat(MOST as usize);
    let last = 3 * (MOST as usize - 1);
    removal.scene.tri2vtx[last..].copy_from_slice(&[3, 4, 5]);
    removal.removed = vec![255; MOST as usize];
    let shown = |removal: &Removal| {
        let (answer, [full, short]) = previewed(removal);
        (answer, full[0][0], short[0][0])
    };
    let answer = |emptied, renamed, kept| Answer {
        code: 0,
        emptied,
        renamed,
        kept,
    };
    let wanted = (answer(1, 0, 0), MOST - 1, u32::MAX);
    assert_eq!(shown(&removal), wanted, "all removed");
    removal.removed[0] = 0;
    let wanted = (answer(0, 1, 0), MOST - 1, 0);
    assert_eq!(shown(&removal), wanted, "all but the first");
    removal.removed.fill(0);
    let wanted = (answer(0, 0, 1), MOST - 1, MOST - 1);
    assert_eq!(shown(&removal), wanted, "none removed");
    removal.removed[0] = 1;
    let wanted = (answer(0, 0, 1), MOST - 1, MOST - 2);
    assert_eq!(shown(&removal), wanted, "the first removed");
    removal.scene.tri2vtx.extend([0, 1, 2]);
    removal.removed.push(0);
    is_refused(&removal, 3);
}
