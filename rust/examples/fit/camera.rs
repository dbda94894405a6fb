//! A pinhole camera. The world's axes are its own: x to the right, y up, and it looks along −z, in millimetres.

/// The matrices that the calls take, sixteen numbers column by column.
pub struct Camera {
    pub img_w: usize,
    pub img_h: usize,
    pub world2ndc: [f32; 16],
    pub ndc2world: [f32; 16],
    pub world2pix: [f32; 16],
}

impl Camera {
    /// Sees `half_width` to each side at `distance`, and from `near` to `far`.
    pub fn new(
        (img_w, img_h): (usize, usize),
        half_width: f64,
        distance: f64,
        near: f64,
        far: f64,
    ) -> Self {
        let (w, h) = (img_w as f64, img_h as f64);
        let fx = distance / half_width;
        let fy = fx * w / h;
        // Depth a + b/z is 1 at near and −1 at far: what is nearer is greater.
        let b = 2.0 / (1.0 / far - 1.0 / near);
        let a = 1.0 + b / near;
        let world2ndc = columns(
            [-fx, 0., 0., 0.],
            [0., -fy, 0., 0.],
            [0., 0., a, 1.],
            [0., 0., b, 0.],
        );
        let ndc2world = columns(
            [-b / fx, 0., 0., 0.],
            [0., -b / fy, 0., 0.],
            [0., 0., 0., 1.],
            [0., 0., b, -a],
        );
        let world2pix = std::array::from_fn(|i| {
            let column = &world2ndc[i / 4 * 4..];
            match i % 4 {
                0 => 0.5 * w * (column[3] + column[0]),
                1 => 0.5 * h * (column[3] - column[1]),
                _ => world2ndc[i],
            }
        });
        Camera {
            img_w,
            img_h,
            world2ndc: narrowed(&world2ndc),
            ndc2world: narrowed(&ndc2world),
            world2pix: narrowed(&world2pix),
        }
    }

    pub fn num_pix(&self) -> usize {
        self.img_w * self.img_h
    }
}

fn columns(c0: [f64; 4], c1: [f64; 4], c2: [f64; 4], c3: [f64; 4]) -> [f64; 16] {
    let columns = [c0, c1, c2, c3];
    std::array::from_fn(|i| columns[i / 4][i % 4])
}

fn narrowed(m: &[f64; 16]) -> [f32; 16] {
    m.map(|x| x as f32)
}
