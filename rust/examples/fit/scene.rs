//! The picture that the camera took, and what the library sees of a pose beside it.
use crate::camera::Camera;
use crate::housing::{Housing, CHANNELS};
use crate::pose::Pose;
use paqelzim::{DrawingLoad, Facing, Layer, Refusal};

pub const EMPTY: u32 = u32::MAX;
pub const BACKGROUND: [f32; CHANNELS] = [0.06, 0.07, 0.09];

/// How a mesh is drawn: without some of its faces, and in one go or in runs that are joined.
#[derive(Default)]
pub struct Way {
    /// The numbers of the faces that are taken out, rising.
    pub removed: Vec<u32>,
    pub in_runs: bool,
}

impl std::fmt::Display for Way {
    fn fmt(&self, f: &mut std::fmt::Formatter) -> std::fmt::Result {
        let drawn = if self.in_runs {
            "in runs and joined"
        } else {
            "whole"
        };
        write!(f, "faces deleted {:2}, drawn {drawn}", self.removed.len())
    }
}

impl Way {
    /// A kept face's new number: the count of kept faces before it.
    fn renumbered(&self, number: u32) -> u32 {
        if number == EMPTY {
            return EMPTY;
        }
        number - self.removed.partition_point(|&r| r < number) as u32
    }
}

/// What one iteration sees.
pub struct Seen {
    pub layer: Layer,
    /// What the label screen may see of the layer.
    pub pix2body: Vec<u32>,
    pub pix2val: Vec<f32>,
    pub dldw_pix2val: Vec<f32>,
    pub dldw_vtx2xyz: Vec<f32>,
    pub dldw_vtx2val: Vec<f32>,
    pub vtx2xyz: Vec<f32>,
    /// The root of the mean squared difference from the target.
    pub residual: f64,
}

pub struct Scene {
    pub housing: Housing,
    pub camera: Camera,
    pub hidden: Pose,
    pub target: Vec<f32>,
}

impl Scene {
    /// Takes the target's picture at the hidden pose, by the library itself.
    pub fn new(hidden: Pose) -> Result<Self, Refusal> {
        let camera = Camera::new((160, 120), 16.0, 60.0, 30.0, 120.0);
        let mut scene = Scene {
            housing: Housing::new(),
            target: vec![0.; camera.num_pix() * CHANNELS],
            camera,
            hidden,
        };
        scene.target = scene.seen(&scene.hidden, &Way::default(), 0)?.pix2val;
        Ok(scene)
    }

    /// How much work it is to draw the housing in a pose.
    pub fn load(&self, pose: &Pose) -> Result<DrawingLoad, Refusal> {
        paqelzim::drawing_load(
            &self.housing.tri2vtx,
            &pose.placed(&self.housing.points),
            self.camera.img_w,
            self.camera.img_h,
            &self.camera.world2ndc,
        )
    }

    /// Draws the pose, takes its values, and goes back from their difference to the vertices.
    pub fn seen(&self, pose: &Pose, way: &Way, iteration: usize) -> Result<Seen, Refusal> {
        let (tri2vtx, tri2body) = self.faces(way);
        let vtx2xyz = pose.placed(&self.housing.points);
        let layer = if way.in_runs {
            self.drawn_in_runs(&tri2vtx, &vtx2xyz, iteration)?
        } else {
            self.drawn(&tri2vtx, &vtx2xyz, 0, Facing::All)?
        };
        let pix2val = self.values(&tri2vtx, &vtx2xyz, layer.map())?;
        let (residual, dldw_pix2val) = difference(&pix2val, &self.target);
        let mut seen = Seen {
            pix2body: layer.label_picture(&tri2body)?,
            layer,
            pix2val,
            dldw_pix2val,
            dldw_vtx2xyz: vec![0.; vtx2xyz.len()],
            dldw_vtx2val: vec![0.; self.housing.vtx2val.len()],
            vtx2xyz,
            residual,
        };
        self.go_back(&tri2vtx, &mut seen)?;
        Ok(seen)
    }

    /// The picture: the housing's colours before the background.
    pub fn values(
        &self,
        tri2vtx: &[u32],
        vtx2xyz: &[f32],
        map: &[u32],
    ) -> Result<Vec<f32>, Refusal> {
        let mut pix2val = BACKGROUND.repeat(self.camera.num_pix());
        paqelzim::interpolate(
            self.camera.img_w,
            self.camera.img_h,
            map,
            tri2vtx,
            vtx2xyz,
            CHANNELS,
            &self.housing.vtx2val,
            &self.camera.ndc2world,
            &mut pix2val,
        )?;
        Ok(pix2val)
    }

    /// The gradients at the vertices: what moves inside the faces, then what moves at their edges.
    fn go_back(&self, tri2vtx: &[u32], seen: &mut Seen) -> Result<(), Refusal> {
        let Camera { img_w, img_h, .. } = self.camera;
        paqelzim::interpolate_bwd(
            img_w,
            img_h,
            seen.layer.map(),
            tri2vtx,
            &seen.vtx2xyz,
            CHANNELS,
            &self.housing.vtx2val,
            &self.camera.ndc2world,
            &seen.dldw_pix2val,
            &mut seen.dldw_vtx2xyz,
            &mut seen.dldw_vtx2val,
        )?;
        paqelzim::bwd(
            tri2vtx,
            &seen.vtx2xyz,
            &mut seen.dldw_vtx2xyz,
            &self.camera.world2pix,
            img_w,
            img_h,
            seen.layer.map(),
            CHANNELS,
            &seen.pix2val,
            &seen.dldw_pix2val,
        )
    }

    /// The faces that are not taken out, and the bodies of these.
    fn faces(&self, way: &Way) -> (Vec<u32>, Vec<u32>) {
        let (mut tri2vtx, mut tri2body) = (Vec::new(), Vec::new());
        let faces = self.housing.tri2vtx.chunks(3).zip(&self.housing.tri2body);
        for ((corners, &body), number) in faces.zip(0..) {
            if way.removed.binary_search(&number).is_err() {
                tri2vtx.extend(corners);
                tri2body.push(body);
            }
        }
        (tri2vtx, tri2body)
    }

    /// A clear layer, drawn with faces numbered from `first` on.
    pub fn drawn(
        &self,
        tri2vtx: &[u32],
        vtx2xyz: &[f32],
        first: usize,
        facing: Facing,
    ) -> Result<Layer, Refusal> {
        let mut layer = Layer::new(self.camera.img_w, self.camera.img_h)?;
        let world2ndc = &self.camera.world2ndc;
        layer.draw(tri2vtx, vtx2xyz, world2ndc, first as u32, facing)?;
        Ok(layer)
    }

    /// Three runs, each on a layer of its own, cut and joined otherwise in each iteration.
    fn drawn_in_runs(
        &self,
        tri2vtx: &[u32],
        vtx2xyz: &[f32],
        iteration: usize,
    ) -> Result<Layer, Refusal> {
        let num_tri = tri2vtx.len() / 3;
        let one = 7 * iteration % num_tri;
        let two = one + 11 * iteration % (num_tri - one);
        let run = |from: usize, to: usize| {
            self.drawn(&tri2vtx[3 * from..3 * to], vtx2xyz, from, Facing::All)
        };
        let (mut a, mut b, c) = (run(0, one)?, run(one, two)?, run(two, num_tri)?);
        if iteration % 2 == 0 {
            a.join(&b)?;
            a.join(&c)?;
        } else {
            b.join(&c)?;
            a.join(&b)?;
        }
        Ok(a)
    }
}

/// The residual, and the gradient of half the mean square.
pub fn difference(pix2val: &[f32], target: &[f32]) -> (f64, Vec<f32>) {
    let count = pix2val.len() as f32;
    let difference: Vec<f32> = pix2val.iter().zip(target).map(|(p, t)| p - t).collect();
    let square: f64 = difference
        .iter()
        .map(|&d| f64::from(d) * f64::from(d))
        .sum();
    let residual = (square / f64::from(count)).sqrt();
    (residual, difference.iter().map(|d| d / count).collect())
}

impl Seen {
    /// How many numbers of the whole drawing's were compared, all of the same bits; or which are not.
    pub fn compared(&self, whole: &Seen, way: &Way) -> Result<usize, String> {
        let expected = whole.layer.map().iter().map(|&n| way.renumbered(n));
        if !expected.eq(self.layer.map().iter().copied()) {
            return Err("the maps differ".into());
        }
        if self.pix2body != whole.pix2body {
            return Err("the label pictures differ".into());
        }
        let mut numbers = self.layer.map().len() + self.pix2body.len();
        for ((what, a), (_, b)) in self.floats().into_iter().zip(whole.floats()) {
            if a.len() != b.len() || a.iter().zip(b).any(|(x, y)| x.to_bits() != y.to_bits()) {
                return Err(format!("the {what} differ"));
            }
            numbers += a.len();
        }
        Ok(numbers)
    }

    /// What is compared bit for bit.
    fn floats(&self) -> [(&str, &[f32]); 5] {
        [
            ("depths", self.layer.depths()),
            ("weights", self.layer.weights().as_flattened()),
            ("values", &self.pix2val),
            ("vertex gradients", &self.dldw_vtx2xyz),
            ("value gradients", &self.dldw_vtx2val),
        ]
    }
}
