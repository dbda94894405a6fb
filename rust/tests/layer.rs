//! The layer that owns its slices: the sizes that it takes, and what a refused call leaves.
use paqelzim::{Facing, Layer, Refusal, RemovalPreview};

const IDENTITY: [f32; 16] = [
    1., 0., 0., 0., 0., 1., 0., 0., 0., 0., 1., 0., 0., 0., 0., 1.,
];
/// A face over all of the picture.
const CORNERS: [f32; 9] = [-1., -1., 0.25, 3., -1., 0.25, -1., 3., 0.25];

fn drawn(img_w: usize, img_h: usize, depth: f32) -> Layer {
    let mut layer = Layer::new(img_w, img_h).expect("accepted");
    let mut corners = CORNERS;
    for vertex in corners.as_chunks_mut::<3>().0 {
        vertex[2] = depth;
    }
    let answer = layer.draw(&[0, 1, 2], &corners, &IDENTITY, 3, Facing::All);
    answer.expect("accepted");
    layer
}

#[test]
fn sizes_from_1_to_4096() {
    for (w, h) in [(1, 1), (4096, 1), (1, 4096)] {
        let layer = Layer::new(w, h).expect("accepted");
        assert_eq!((layer.width(), layer.height()), (w, h));
        let lengths = [
            layer.map().len(),
            layer.depths().len(),
            layer.weights().len(),
        ];
        assert_eq!(lengths, [w * h; 3]);
    }
    // the last of them would not fit in memory
    for (w, h) in [
        (0, 1),
        (1, 0),
        (4097, 1),
        (1, 4097),
        (usize::MAX, usize::MAX),
    ] {
        assert_eq!(Layer::new(w, h), Err(Refusal::ImageSize), "{w} × {h}");
    }
}

#[test]
fn layers_of_two_sizes_are_not_joined() {
    let left = drawn(3, 2, 0.25);
    for (w, h) in [(2, 3), (6, 1), (3, 3), (3, 1), (1, 1)] {
        let mut joined = left.clone();
        let answer = joined.join(&drawn(w, h, 0.5));
        assert_eq!(answer, Err(Refusal::BufferLength), "{w} × {h}");
        assert_eq!(joined, left, "{w} × {h}");
    }
    let mut joined = left.clone();
    joined.join(&drawn(3, 2, 0.5)).expect("of one size");
    assert_eq!(joined, drawn(3, 2, 0.5));
    assert_ne!(joined, left);
}

#[test]
fn a_refused_mesh_leaves_the_layer() {
    let before = drawn(2, 2, -0.5);
    let meshes: [(&[u32], &[f32], u32, Refusal); 4] = [
        (&[0, 1], &CORNERS, 0, Refusal::MeshSize),
        (&[0, 1, 2], &CORNERS[..8], 0, Refusal::MeshSize),
        (&[0, 1, 2], &CORNERS, 1_048_576, Refusal::FaceNumbers),
        (&[0, 1, 2, 0, 1, 3], &CORNERS, 0, Refusal::VertexNumber),
    ];
    for (faces, vertices, first, refusal) in meshes {
        for facing in [Facing::All, Facing::Front] {
            let mut layer = before.clone();
            let answer = layer.draw(faces, vertices, &IDENTITY, first, facing);
            assert_eq!(answer, Err(refusal));
            assert_eq!(layer, before, "{refusal}");
        }
    }
}

/// Of the face twice, at one depth.
fn preview(full: &mut Layer, short: &mut Layer, removed: &[u8]) -> Result<RemovalPreview, Refusal> {
    Layer::preview_removal(
        full,
        short,
        &[0, 1, 2, 0, 1, 2],
        &CORNERS,
        &IDENTITY,
        removed,
    )
}

#[test]
fn removals_are_previewed_on_two_layers_of_one_size() {
    let lent = drawn(3, 2, 0.5);
    for (w, h) in [(2, 3), (6, 1), (3, 3), (3, 1), (1, 1)] {
        let other = drawn(w, h, 0.75);
        for [one, two] in [[&lent, &other], [&other, &lent]] {
            let (mut full, mut short) = (one.clone(), two.clone());
            let answer = preview(&mut full, &mut short, &[1, 0]);
            assert_eq!(answer, Err(Refusal::BufferLength), "{w} × {h}");
            assert_eq!([&full, &short], [one, two], "{w} × {h}");
        }
    }
    let (mut full, mut short) = (lent.clone(), drawn(3, 2, 0.75));
    let refused = preview(&mut full, &mut short, &[1]);
    assert_eq!(refused, Err(Refusal::BufferLength), "a mark is missing");
    assert_eq!([&full, &short], [&lent, &drawn(3, 2, 0.75)]);
    let answer = preview(&mut full, &mut short, &[1, 0]);
    let wanted = RemovalPreview {
        emptied: 0,
        renamed: 6,
        kept: 0,
    };
    assert_eq!(answer, Ok(wanted), "by one that takes its number");
    // both show number 0: the first of two, and the only one
    assert_eq!(full, short);
    assert_eq!(full.map(), [0; 6]);
    assert_eq!(full.depths(), [0.25; 6]);
}

/// The face has number 3. A table that ends before it is refused, and one that is too long, though it begins alike.
#[test]
fn labels_by_tables_that_reach_the_face() {
    let layer = drawn(3, 2, 0.5);
    let mut tri2body = vec![0, 1, 2, 9];
    assert_eq!(layer.label_picture(&tri2body), Ok(vec![9; 6]));
    let answer = layer.label_picture(&tri2body[..3]);
    assert_eq!(answer, Err(Refusal::MapEntry));
    tri2body.resize(1_048_576, 0);
    assert_eq!(layer.label_picture(&tri2body), Ok(vec![9; 6]));
    tri2body.push(0);
    assert_eq!(layer.label_picture(&tri2body), Err(Refusal::MeshSize));
    assert_eq!(layer, drawn(3, 2, 0.5));
    let clear = Layer::new(3, 2).expect("accepted");
    assert_eq!(clear.label_picture(&[]), Ok(vec![u32::MAX; 6]));
}

#[test]
fn clearing_leaves_nothing_of_what_was_drawn() {
    let mut layer = drawn(5, 4, 0.25);
    assert_ne!(layer, Layer::new(5, 4).expect("accepted"));
    layer.clear();
    assert_eq!(layer, Layer::new(5, 4).expect("accepted"));
    let zeros = layer.weights().as_flattened().iter();
    assert!(zeros.map(|x| x.to_bits()).all(|bits| bits == 0), "no −0");
}
