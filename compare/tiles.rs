//! Document 01's tiles and regions, and a tile refined by the copy of the Rust.

use crate::call::{Call, CPP_CHROMA};
use crate::original::{eye_sigmas, refine_region, DbsParams, Reads};

/// `[x0, y0, x1, y1]`, of pixels x0 up to below x1 and y0 up to below y1.
pub type Rect = [usize; 4];

/// An image cut into tiles.
#[derive(Clone, Copy)]
pub struct Tiling {
    width: usize,
    height: usize,
    /// Kernel radii, luminance and chrominance.
    radii: [usize; 2],
}

impl Tiling {
    /// Of values within their limits.
    pub fn new(width: u64, height: u64, radii: [u64; 2]) -> Self {
        Self { width: width as usize, height: height as usize, radii: radii.map(|radius| radius as usize) }
    }

    /// Of an image before an eye that are not refused.
    pub fn of(call: &Call) -> Self {
        Self::new(call.width, call.height, radii(&call.params()))
    }

    fn margin(&self) -> usize {
        self.radii[0].max(self.radii[1]) + 1
    }

    fn side(&self) -> usize {
        64.max(2 * self.margin() + 1)
    }

    fn columns(&self) -> usize {
        self.width.div_ceil(self.side())
    }

    pub fn count(&self) -> u64 {
        (self.columns() * self.height.div_ceil(self.side())) as u64
    }

    /// Column and row of a tile that the image has.
    fn place(&self, tile: u64) -> [usize; 2] {
        [tile as usize % self.columns(), tile as usize / self.columns()]
    }

    pub fn phase(&self, tile: u64) -> u64 {
        let [x, y] = self.place(tile);
        (x % 2 + 2 * (y % 2)) as u64
    }

    /// The tiles of a phase by ascending number.
    pub fn of_phase(&self, phase: u64) -> impl Iterator<Item = u64> + '_ {
        (0..self.count()).filter(move |&tile| self.phase(tile) == phase)
    }

    pub fn image(&self) -> Rect {
        [0, 0, self.width, self.height]
    }

    pub fn tile(&self, tile: u64) -> Rect {
        let [x, y] = self.place(tile).map(|at| at * self.side());
        [x, y, (x + self.side()).min(self.width), (y + self.side()).min(self.height)]
    }

    /// The tile widened by the margin, cut at the image.
    pub fn region(&self, tile: u64) -> Rect {
        let ([x0, y0, x1, y1], margin) = (self.tile(tile), self.margin());
        let end = |at: usize, most: usize| (at + margin).min(most);
        [x0.saturating_sub(margin), y0.saturating_sub(margin), end(x1, self.width), end(y1, self.height)]
    }

    /// Where the pixels of the tile's region stand in the image, row by row.
    pub fn places(&self, tile: u64) -> Vec<usize> {
        let [x0, y0, x1, y1] = self.region(tile);
        (y0..y1).flat_map(|y| (x0..x1).map(move |x| y * self.width + x)).collect()
    }

    /// Refines a tile in `window`, whose `cpe` and indices are handed in, and answers how many moves were
    /// accepted and the bits of the change in error. `inks` has 3 values for each ink, `cpp` is the kernel
    /// store; floats are bits.
    pub fn refine(
        &self,
        tile: u64,
        window: Rect,
        [inks, cpp]: [&[u64]; 2],
        pinned: &[u8],
        cpe: &mut [u64],
        indices: &mut Vec<u8>,
    ) -> (u64, u64) {
        let (inks, cpp) = (triples(inks), values(cpp));
        let mask: Vec<bool> = pinned.iter().map(|&byte| byte != 0).collect();
        let kernel = |at: usize, radius: usize| (radius, &cpp[at..at + (2 * radius + 1).pow(2)]);
        let reads = Reads {
            width: self.width,
            height: self.height,
            inks: &inks,
            cpp: [kernel(0, self.radii[0]), kernel(CPP_CHROMA, self.radii[1])],
            pinned: (!mask.is_empty()).then_some(&mask[..]),
        };
        let mut channels = triples(cpe);
        let (accepted, delta) = refine_region(&reads, window, self.tile(tile), &mut channels, indices);
        for (cell, value) in cpe.iter_mut().zip(channels.as_flattened()) {
            *cell = value.to_bits();
        }
        (accepted as u64, delta.to_bits())
    }
}

pub fn area([x0, y0, x1, y1]: Rect) -> usize {
    (x1 - x0) * (y1 - y0)
}

/// Both kernel radii of an eye: twice the larger of 1 and ceil(2.5σ).
pub fn radii(params: &DbsParams) -> [u64; 2] {
    eye_sigmas(params).map(|sigma| 2 * (2.5 * sigma).ceil().max(1.0) as u64)
}

fn values(bits: &[u64]) -> Vec<f64> {
    bits.iter().map(|&bits| f64::from_bits(bits)).collect()
}

fn triples(bits: &[u64]) -> Vec<[f64; 3]> {
    values(bits).chunks_exact(3).map(|c| [c[0], c[1], c[2]]).collect()
}
