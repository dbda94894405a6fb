//! Stored cases of every call that can refuse, run again through the archive. Each file `asked` has the arguments of
//! its cases, and `answered` the answers of the listed Rust where they are accepted, and of the questions elsewhere;
//! comparison/examples/answers.rs and pass_answers.rs wrote them. A word is eight hexadecimal digits, a slice its
//! length and its words, and a layer three slices: map, depths and weights. A case begins with its call (1 clear, 2 draw,
//! 3 join, 4 values, 5 values backward, 6 edge types, 7 edges backward, 8 velocities, 9 load, 10 removal, 11 labels, 12 smoothing,
//! 13 smoothing backward), width and height. The answer is the code, then every buffer that the call writes, a line each, and
//! then the load's pieces and pixels, or the pixels that a removal empties, renames and keeps.

use paqelzim::{
    antialias, bwd, bwd_antialias, clear, drawing_load, edge_gradient_and_type, interpolate,
    interpolate_bwd, interpolate_from_edges, join, label_picture, pix2tri_by_rasterization,
    preview_removal, Facing, Refusal,
};

fn words(text: &str) -> Vec<u32> {
    let word = |word| u32::from_str_radix(word, 16).expect("a word of hexadecimal digits");
    text.split_whitespace().map(word).collect()
}

/// The words that are left of a file `asked`.
struct Asked(std::vec::IntoIter<u32>);

impl Asked {
    fn next(&mut self) -> u32 {
        self.0.next().expect("a case is whole")
    }

    fn size(&mut self) -> usize {
        self.next() as usize
    }

    fn numbers(&mut self) -> Vec<u32> {
        (0..self.next()).map(|_| self.next()).collect()
    }

    fn floats(&mut self) -> Vec<f32> {
        self.numbers().into_iter().map(f32::from_bits).collect()
    }

    fn bytes(&mut self) -> Vec<u8> {
        let byte = |word: u32| u8::try_from(word).expect("a byte");
        self.numbers().into_iter().map(byte).collect()
    }

    fn matrix(&mut self) -> [f32; 16] {
        std::array::from_fn(|_| f32::from_bits(self.next()))
    }
}

/// The lines of an answer.
#[derive(Default)]
struct Answer(Vec<Vec<u32>>);

impl Answer {
    fn new(code: Result<(), Refusal>) -> Self {
        Answer(vec![vec![code.map_or_else(Refusal::code, |()| 0)]])
    }

    fn numbers(mut self, values: &[u32]) -> Self {
        self.0.push(values.to_vec());
        self
    }

    fn bytes(mut self, values: &[u8]) -> Self {
        self.0
            .push(values.iter().map(|&byte| byte.into()).collect());
        self
    }

    /// Every NaN is stored as 7fc00000.
    fn floats(mut self, values: &[f32]) -> Self {
        let pattern = |x: &f32| if x.is_nan() { 0x7fc0_0000 } else { x.to_bits() };
        self.0.push(values.iter().map(pattern).collect());
        self
    }
}

/// Calls 1 to 3.
fn on_layers(call: u32, w: usize, h: usize, asked: &mut Asked) -> Answer {
    let (mut map, mut depth, mut weights) = (asked.numbers(), asked.floats(), asked.floats());
    let layer = (&mut map[..], &mut depth[..], &mut weights[..]);
    let code = match call {
        1 => clear(layer.0, layer.1, layer.2, w, h),
        2 => {
            let (tri, xyz, m) = (asked.numbers(), asked.floats(), asked.matrix());
            let (first, all) = (asked.next(), Facing::All);
            pix2tri_by_rasterization(layer.0, layer.1, layer.2, &tri, &xyz, w, h, &m, first, all)
        }
        _ => {
            let right = (asked.numbers(), asked.floats(), asked.floats());
            join(
                layer.0, layer.1, layer.2, &right.0, &right.1, &right.2, w, h,
            )
        }
    };
    Answer::new(code)
        .numbers(&map)
        .floats(&depth)
        .floats(&weights)
}

/// Calls 4 and 5.
fn on_values(call: u32, w: usize, h: usize, asked: &mut Asked) -> Answer {
    let c = asked.size();
    let m = asked.matrix();
    let (map, tri, xyz) = (asked.numbers(), asked.numbers(), asked.floats());
    let val = asked.floats();
    let mut pixels = asked.floats();
    if call == 4 {
        let code = interpolate(w, h, &map, &tri, &xyz, c, &val, &m, &mut pixels);
        return Answer::new(code).floats(&pixels);
    }
    let (mut dxyz, mut dval) = (asked.floats(), asked.floats());
    let code = interpolate_bwd(
        w, h, &map, &tri, &xyz, c, &val, &m, &pixels, &mut dxyz, &mut dval,
    );
    Answer::new(code).floats(&dxyz).floats(&dval)
}

/// Calls 6 and 7.
fn on_edges(call: u32, w: usize, h: usize, asked: &mut Asked) -> Answer {
    let c = asked.size();
    let m = asked.matrix();
    let (map, tri, xyz) = (asked.numbers(), asked.numbers(), asked.floats());
    let (val, dval) = (asked.floats(), asked.floats());
    if call == 7 {
        let mut dxyz = asked.floats();
        let code = bwd(&tri, &xyz, &mut dxyz, &m, w, h, &map, c, &val, &dval);
        return Answer::new(code).floats(&dxyz);
    }
    let (mut htype, mut hdldr) = (asked.bytes(), asked.floats());
    let (mut vtype, mut vdldr) = (asked.bytes(), asked.floats());
    let code = edge_gradient_and_type(
        &tri, &xyz, &m, w, h, &map, c, &val, &dval, &mut htype, &mut hdldr, &mut vtype, &mut vdldr,
    );
    Answer::new(code)
        .bytes(&htype)
        .floats(&hdldr)
        .bytes(&vtype)
        .floats(&vdldr)
}

/// Call 8.
fn on_a_grid(w: usize, h: usize, asked: &mut Asked) -> Answer {
    let (vy, vx, xy) = (asked.floats(), asked.floats(), asked.floats());
    let mut velo = asked.floats();
    let code = interpolate_from_edges(w, h, &vy, &vx, &xy, &mut velo);
    Answer::new(code).floats(&velo)
}

/// Call 9.
fn of_load(w: usize, h: usize, asked: &mut Asked) -> Answer {
    let (tri, xyz, m) = (asked.numbers(), asked.floats(), asked.matrix());
    let load = drawing_load(&tri, &xyz, w, h, &m);
    let counts = load.unwrap_or_default();
    let word = |n: u64| u32::try_from(n).expect("a word");
    Answer::new(load.map(|_| ())).numbers(&[word(counts.pieces), word(counts.pixels)])
}

/// Call 10.
fn of_removal(w: usize, h: usize, asked: &mut Asked) -> Answer {
    let (tri, xyz, m) = (asked.numbers(), asked.floats(), asked.matrix());
    let marks = asked.bytes();
    let (mut f0, mut f1, mut f2) = (asked.numbers(), asked.floats(), asked.floats());
    let (mut s0, mut s1, mut s2) = (asked.numbers(), asked.floats(), asked.floats());
    let preview = preview_removal(
        &tri, &xyz, w, h, &m, &marks, &mut f0, &mut f1, &mut f2, &mut s0, &mut s1, &mut s2,
    );
    let counts = preview.unwrap_or_default();
    let counts = [counts.emptied, counts.renamed, counts.kept].map(|count| count as u32);
    let full = Answer::new(preview.map(|_| ()))
        .numbers(&f0)
        .floats(&f1)
        .floats(&f2);
    full.numbers(&s0).floats(&s1).floats(&s2).numbers(&counts)
}

/// Call 11.
fn of_labels(w: usize, h: usize, asked: &mut Asked) -> Answer {
    let (map, tri2body) = (asked.numbers(), asked.numbers());
    let mut picture = asked.numbers();
    let code = label_picture(&map, &tri2body, w, h, &mut picture);
    Answer::new(code).numbers(&picture)
}

/// Calls 12 and 13.
fn on_outlines(call: u32, w: usize, h: usize, asked: &mut Asked) -> Answer {
    let m = asked.matrix();
    let (edges, xyz, map) = (asked.numbers(), asked.floats(), asked.numbers());
    let (val, mut pixels) = (asked.floats(), asked.floats());
    if call == 12 {
        let code = antialias(&edges, &xyz, &m, w, h, &map, &val, &mut pixels);
        return Answer::new(code).floats(&pixels);
    }
    let mut dxyz = asked.floats();
    let code = bwd_antialias(&edges, &xyz, &mut dxyz, &m, w, h, &val, &pixels, &map);
    Answer::new(code).floats(&dxyz)
}

/// How many cases of each call there are.
type Cases = [usize; 14];

/// Runs every case of a file and compares its answer line by line.
fn replay(asked: &str, answered: &str, cases: Cases) {
    let mut asked = Asked(words(asked).into_iter());
    let mut lines = answered.lines();
    let mut met = Cases::default();
    while let Some(call) = asked.0.next() {
        let (w, h) = (asked.size(), asked.size());
        met[call as usize] += 1;
        let answer = match call {
            1..=3 => on_layers(call, w, h, &mut asked),
            4 | 5 => on_values(call, w, h, &mut asked),
            6 | 7 => on_edges(call, w, h, &mut asked),
            8 => on_a_grid(w, h, &mut asked),
            9 => of_load(w, h, &mut asked),
            10 => of_removal(w, h, &mut asked),
            11 => of_labels(w, h, &mut asked),
            _ => on_outlines(call, w, h, &mut asked),
        };
        for ours in answer.0 {
            let stored = words(lines.next().expect("an answer"));
            assert_eq!(ours, stored, "call {call}, case {}", met[call as usize]);
        }
    }
    assert_eq!(lines.next(), None, "an answer is left over");
    assert_eq!(met, cases, "as many cases of each call as were stored");
}

#[test]
fn layers_as_stored() {
    replay(
        include_str!("stored/layers.asked"),
        include_str!("stored/layers.answered"),
        [0, 42, 304, 47, 0, 0, 0, 0, 0, 0, 0, 0, 0, 0],
    );
}

#[test]
fn passes_as_stored() {
    replay(
        include_str!("stored/passes.asked"),
        include_str!("stored/passes.answered"),
        [0, 0, 0, 0, 80, 80, 80, 80, 80, 0, 0, 0, 0, 0],
    );
}

#[test]
fn load_as_stored() {
    replay(
        include_str!("stored/load.asked"),
        include_str!("stored/load.answered"),
        [0, 0, 0, 0, 0, 0, 0, 0, 0, 150, 0, 0, 0, 0],
    );
}

#[test]
fn removal_as_stored() {
    replay(
        include_str!("stored/removal.asked"),
        include_str!("stored/removal.answered"),
        [0, 0, 0, 0, 0, 0, 0, 0, 0, 0, 90, 0, 0, 0],
    );
}

#[test]
fn labels_as_stored() {
    replay(
        include_str!("stored/labels.asked"),
        include_str!("stored/labels.answered"),
        [0, 0, 0, 0, 0, 0, 0, 0, 0, 0, 0, 60, 0, 0],
    );
}

#[test]
fn outlines_as_stored() {
    replay(
        include_str!("stored/outlines.asked"),
        include_str!("stored/outlines.answered"),
        [0, 0, 0, 0, 0, 0, 0, 0, 0, 0, 0, 0, 40, 40],
    );
}
