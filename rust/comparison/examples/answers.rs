//! Writes the stored cases rust/tests/stored/layers, load, removal and labels: `asked`, the arguments of each call, and
//! `answered`, its answer, by the listed Rust with the weights kept where a scene is accepted and by 01's and 02's words
//! (`expected`) elsewhere. A layer is three lines, asked and answered: map, depths and weights, three a pixel. Run at the root of the
//! repository by `cargo run --release --offline --manifest-path rust/Cargo.toml -p comparison --example answers`.
//! A number after `--` gives another count of scenes than 300.

#[cfg(not(listed))]
fn main() {
    panic!("the listed Rust was not found: set DEL_MSH_SRC");
}

#[cfg(listed)]
fn main() -> std::io::Result<()> {
    let count = comparison::stored::count_or(300);
    let mut cases = comparison::stored::Cases::default();
    layers::draws(&mut cases, count);
    layers::clears_and_joins(&mut cases, count / 8);
    layers::with_wrong_weights(&mut cases);
    cases.write("layers")?;
    let mut cases = comparison::stored::Cases::default();
    layers::loads(&mut cases, count / 2);
    cases.write("load")?;
    let mut cases = comparison::stored::Cases::default();
    layers::removals(&mut cases, count * 3 / 10);
    cases.write("removal")?;
    let mut cases = comparison::stored::Cases::default();
    layers::labels_to_take(&mut cases, count / 5);
    cases.write("labels")
}

#[cfg(listed)]
mod layers {
    use comparison::expected::{
        clear_code, cleared, draw_code, join_code, joined, label_code, labelled, load_code,
        preview_code,
    };
    use comparison::labels::{labels, Labels};
    use comparison::layer::{any_weights, wrong_lengths, Layer};
    use comparison::random::Random;
    use comparison::reference;
    use comparison::removal::{counted, removal, Removal};
    use comparison::scene::{scene, Scene, EMPTY};
    use comparison::stored::{answer_floats, answer_numbers, bytes, floats, line, numbers, Cases};
    use paqelzim::RemovalPreview;

    /// The longest slice that is stored.
    const ROOM: usize = 64;
    /// Images beyond this would only make the files long.
    const PIXELS: usize = 30;

    fn asked(layer: &Layer) -> String {
        let weights = floats(&layer.pix2weights);
        [numbers(&layer.pix2tri), floats(&layer.pix2depth), weights].concat()
    }

    fn answered(layer: &Layer) -> [String; 3] {
        [
            answer_numbers(&layer.pix2tri),
            answer_floats(&layer.pix2depth),
            answer_floats(&layer.pix2weights),
        ]
    }

    fn fits(scene: &Scene) -> bool {
        let side = |n: usize| n <= 4097;
        let lengths = [scene.tri2vtx.len(), scene.vtx2xyz.len()];
        side(scene.img_w)
            && side(scene.img_h)
            && scene.layer.pix2tri.len() <= PIXELS
            && scene.layer.pix2depth.len() <= PIXELS
            && lengths.iter().all(|&n| n <= ROOM)
    }

    /// Of eight scenes six that change the layer, one accepted that does not, one refused.
    pub fn draws(cases: &mut Cases, count: usize) {
        let mut left = [count * 6 / 8, count / 8, count / 8];
        for scene in (0..).map(scene).filter(fits) {
            if left == [0; 3] {
                return;
            }
            let after = drawn(&scene);
            let kind = if draw_code(&scene) != 0 {
                2
            } else {
                usize::from(after.pix2tri == scene.layer.pix2tri)
            };
            if left[kind] == 0 {
                continue;
            }
            left[kind] -= 1;
            draw(cases, &scene, &after);
        }
    }

    /// The layer after the call: as it was where that is refused.
    fn drawn(scene: &Scene) -> Layer {
        match draw_code(scene) {
            0 => reference::drawn(scene).layer,
            _ => scene.layer.clone(),
        }
    }

    fn draw(cases: &mut Cases, scene: &Scene, after: &Layer) {
        let asked = [
            asked(&scene.layer),
            numbers(&scene.tri2vtx),
            floats(&scene.vtx2xyz),
            line(scene.transform_world2ndc.map(f32::to_bits)),
            line([scene.first]),
        ];
        let head = [2, scene.img_w as u32, scene.img_h as u32];
        cases.add(&head, &asked, draw_code(scene), &answered(after));
    }

    /// Of six scenes four that are offered a pixel, one accepted that is not, one refused.
    pub fn loads(cases: &mut Cases, count: usize) {
        let mut left = [count * 4 / 6, count / 6, count / 6];
        for scene in (0..).map(scene).filter(fits) {
            if left == [0; 3] {
                return;
            }
            let code = load_code(&scene);
            let (pieces, pixels) = match code {
                0 => reference::load(&scene),
                _ => (0, 0),
            };
            let kind = match code {
                0 => usize::from(pixels == 0),
                _ => 2,
            };
            if left[kind] == 0 {
                continue;
            }
            left[kind] -= 1;
            let asked = [
                numbers(&scene.tri2vtx),
                floats(&scene.vtx2xyz),
                line(scene.transform_world2ndc.map(f32::to_bits)),
            ];
            let word = |n: u64| u32::try_from(n).expect("a word");
            let answered = answer_numbers(&[word(pieces), word(pixels)]);
            let head = [9, scene.img_w as u32, scene.img_h as u32];
            cases.add(&head, &asked, code, &[answered]);
        }
    }

    /// Of six removals two that empty a pixel, two others that rename one, one that does neither, one refused.
    pub fn removals(cases: &mut Cases, count: usize) {
        let mut left = [count / 3, count / 3, count / 6, count / 6];
        for removal in (0..).map(removal).filter(|removal| fits(&removal.scene)) {
            if left == [0; 4] {
                return;
            }
            let code = preview_code(&removal);
            let (counts, after) = previewed(&removal);
            let kind = match (code, counts) {
                (0, RemovalPreview { emptied: 1.., .. }) => 0,
                (0, RemovalPreview { renamed: 1.., .. }) => 1,
                (0, _) => 2,
                _ => 3,
            };
            if left[kind] == 0 {
                continue;
            }
            left[kind] -= 1;
            let scene = &removal.scene;
            let asked = [
                numbers(&scene.tri2vtx),
                floats(&scene.vtx2xyz),
                line(scene.transform_world2ndc.map(f32::to_bits)),
                bytes(&removal.removed),
                asked(&scene.layer),
                asked(&removal.short),
            ];
            let counts = [counts.emptied, counts.renamed, counts.kept].map(|count| count as u32);
            let answered = [&after[0], &after[1]].map(|layer| answered(layer).concat());
            let answered = [answered.concat(), answer_numbers(&counts)];
            let head = [10, scene.img_w as u32, scene.img_h as u32];
            cases.add(&head, &asked, code, &answered);
        }
    }

    /// The counts and both layers after the call: none, and as they were, where that is refused.
    fn previewed(removal: &Removal) -> (RemovalPreview, [Layer; 2]) {
        if preview_code(removal) != 0 {
            let lent = [removal.scene.layer.clone(), removal.short.clone()];
            return (RemovalPreview::default(), lent);
        }
        let drawn = reference::drawn_twice(removal);
        let maps = [&drawn[0].pix2tri, &drawn[1].pix2tri];
        (counted(&removal.staying(), maps[0], maps[1]), drawn)
    }

    /// Of fifteen label pictures five that are empty here and there, three nowhere, one all over, and two refused with each of
    /// 1, 4 and 7. A table that 3 refuses is too long to be stored.
    pub fn labels_to_take(cases: &mut Cases, count: usize) {
        let mut left = [5, 3, 1, 2, 2, 2].map(|share| count * share / 15);
        for labels in (0..).map(labels).filter(labels_fit) {
            if left == [0; 6] {
                return;
            }
            let code = label_code(&labels);
            let picture = match code {
                0 => labelled(&labels),
                _ => labels.pix2body.clone(),
            };
            let empty = labels.pix2tri.iter().filter(|&&entry| entry == EMPTY);
            let kind = match (code, empty.count()) {
                (0, 0) => 1,
                (0, empty) if empty == picture.len() => 2,
                (0, _) => 0,
                (1, _) => 3,
                (4, _) => 4,
                _ => 5,
            };
            if left[kind] == 0 {
                continue;
            }
            left[kind] -= 1;
            let asked = [&labels.pix2tri, &labels.tri2body, &labels.pix2body].map(|s| numbers(s));
            let head = [11, labels.img_w as u32, labels.img_h as u32];
            cases.add(&head, &asked, code, &[answer_numbers(&picture)]);
        }
    }

    fn labels_fit(labels: &Labels) -> bool {
        let sides = [labels.img_w, labels.img_h];
        let pixels = [labels.pix2tri.len(), labels.pix2body.len()];
        sides.iter().all(|&side| side <= 4097)
            && pixels.iter().all(|&n| n <= PIXELS)
            && labels.tri2body.len() <= ROOM
    }

    fn clear(cases: &mut Cases, layer: &Layer, (w, h): (usize, usize)) {
        let code = clear_code(layer, w, h);
        let after = match code {
            0 => cleared(w * h),
            _ => layer.clone(),
        };
        let head = [1, w as u32, h as u32];
        cases.add(&head, &[asked(layer)], code, &answered(&after));
    }

    fn join(cases: &mut Cases, left: &Layer, right: &Layer, (w, h): (usize, usize)) {
        let code = join_code([left, right], w, h);
        let after = match code {
            0 => joined(left, right),
            _ => left.clone(),
        };
        let head = [3, w as u32, h as u32];
        let asked = [asked(left), asked(right)];
        cases.add(&head, &asked, code, &answered(&after));
    }

    /// With maps and depths of a wrong length in one case of four.
    pub fn clears_and_joins(cases: &mut Cases, count: usize) {
        for seed in 0..count as u64 {
            let random = &mut Random::new(seed);
            let (w, h) = (random.within(0, 4), random.within(1, 4));
            let mut length = || match seed % 4 {
                0 => (w * h + random.below(3)).saturating_sub(1),
                _ => w * h,
            };
            let lengths = [[length(), length()], [length(), length()]];
            let [left, right] = lengths.map(|[n, d]| Layer::any(random, [n, d, 3 * w * h]));
            clear(cases, &left, (w, h));
            join(cases, &left, &right, (w, h));
        }
    }

    /// Weights of a wrong length, in a layer that is cleared, drawn on, and joined from either side.
    pub fn with_wrong_weights(cases: &mut Cases) {
        let some = |scene: &Scene| draw_code(scene) == 0 && scene.layer.pix2tri.len() > 1;
        let mut scene = (0..).map(scene).filter(fits).find(some).expect("a scene");
        let size = (scene.img_w, scene.img_h);
        let exact = scene.layer.clone();
        for length in wrong_lengths(exact.pix2tri.len()) {
            let wrong = any_weights(&mut Random::new(length as u64), length);
            scene.layer.pix2weights = wrong;
            clear(cases, &scene.layer, size);
            draw(cases, &scene, &drawn(&scene));
            join(cases, &scene.layer, &exact, size);
            join(cases, &exact, &scene.layer, size);
        }
    }
}
