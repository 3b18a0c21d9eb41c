//! Document 01's plain walk, on the whole image by the copy of the Rust, phase by phase.

use crate::call::{Buffers, Call};
use crate::expected;
use crate::tiles::Tiling;

pub struct Walk {
    tiling: Tiling,
    pinned: Vec<u8>,
    max_passes: usize,
    /// The image with its kernels and inks; the counts are those of the passes done.
    pub lent: Buffers,
    pub initial_error: u64,
    pub error: f64,
    pub phase: u64,
    /// Moves accepted so far in this pass.
    pub accepted: u64,
    pub ended: bool,
}

impl Walk {
    /// The start: what the copy of the Rust leaves where no pass is allowed.
    pub fn new(call: &Call) -> Self {
        let start = expected::start(call);
        Self {
            tiling: Tiling::of(call),
            pinned: call.pinned.clone(),
            max_passes: call.max_passes as usize,
            lent: start.lent,
            initial_error: start.initial_error,
            error: f64::from_bits(start.initial_error),
            phase: 0,
            accepted: 0,
            ended: call.max_passes == 0,
        }
    }

    pub fn run_phase(&mut self) {
        let Buffers { indices, cpe, cpp, accepted_per_pass, inks } = &mut self.lent;
        for tile in self.tiling.of_phase(self.phase) {
            let image = self.tiling.image();
            let (accepted, delta) = self.tiling.refine(tile, image, [inks, cpp], &self.pinned, cpe, indices);
            self.accepted += accepted;
            self.error += f64::from_bits(delta);
        }
        self.phase = (self.phase + 1) % 4;
        if self.phase == 0 {
            accepted_per_pass.push(self.accepted as u32);
            self.ended = self.accepted == 0 || accepted_per_pass.len() == self.max_passes;
            self.accepted = 0;
        }
    }
}
