//! Scan: the pixels of the image whose centre lies in the closed box of the three corners, each once.
use std::cell::Cell;

thread_local! {
    static IMAGE: Cell<[i32; 2]> = const { Cell::new([4096, 4096]) };
}

/// Tells this thread's scans the width and height, which the listed call of `new` does not pass.
pub fn of_image(width: usize, height: usize) {
    IMAGE.set([width as i32, height as i32]);
}

pub struct TriangleScanlineIter {
    first_x: i32,
    last_x: i32,
    last_y: i32,
    x: i32,
    y: i32,
}

/// The first and the last i from 0 and below `size` with low ≤ i + 0.5 ≤ high. The corners are f32, so the sums are exact in f64
/// wherever they decide.
fn centres(low: f32, high: f32, size: i32) -> (i32, i32) {
    let first = (low as f64 - 0.5).ceil() as i32;
    let last = (high as f64 - 0.5).floor() as i32;
    (first.max(0), last.min(size - 1))
}

impl TriangleScanlineIter {
    /// The corners are finite.
    pub fn new(p0: [f32; 2], p1: [f32; 2], p2: [f32; 2]) -> Self {
        let image = IMAGE.get();
        let span = |k: usize| {
            let (low, high) = (p0[k].min(p1[k]).min(p2[k]), p0[k].max(p1[k]).max(p2[k]));
            centres(low, high, image[k])
        };
        let ((first_x, last_x), (first_y, last_y)) = (span(0), span(1));
        // an empty row of columns ends the scan at once
        let y = if first_x <= last_x {
            first_y
        } else {
            last_y + 1
        };
        Self {
            first_x,
            last_x,
            last_y,
            x: first_x,
            y,
        }
    }
}

impl Iterator for TriangleScanlineIter {
    type Item = [i32; 2];

    fn next(&mut self) -> Option<[i32; 2]> {
        if self.last_y < self.y {
            return None;
        }
        let pixel = [self.x, self.y];
        if self.x < self.last_x {
            self.x += 1;
        } else {
            self.x = self.first_x;
            self.y += 1;
        }
        Some(pixel)
    }
}
