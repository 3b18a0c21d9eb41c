//! The copy of the Rust, on one thread.

use crate::image::Image;
use crate::original::{dbs_refine, perceived_error, DbsParams, DbsStats, Kept, SrgbPalette};
use crate::outcome::{Outcome, CPP_CHROMA};

/// What a run answers and keeps, with the refined indices.
pub struct Run {
    stats: DbsStats,
    kept: Kept,
    indices: Vec<u8>,
}

pub fn refine(image: &Image, max_passes: usize) -> Run {
    let mut indices = image.indices.clone();
    let params = params(image, max_passes);
    let pinned: Vec<bool> = image.pinned.iter().map(|&byte| byte != 0).collect();
    let pinned = (!pinned.is_empty()).then_some(pinned.as_slice());
    let (stats, kept) =
        dbs_refine(&image.pixels, image.width, image.height, &palette(image), &mut indices, pinned, &params);
    Run { stats, kept, indices }
}

pub fn measure(image: &Image) -> f64 {
    let (palette, params) = (palette(image), params(image, 0));
    perceived_error(&image.pixels, image.width, image.height, &palette, &image.indices, &params)
}

fn palette(image: &Image) -> SrgbPalette {
    SrgbPalette { colors: image.palette.chunks_exact(3).map(|c| [c[0], c[1], c[2]]).collect() }
}

fn params(image: &Image, max_passes: usize) -> DbsParams {
    DbsParams { ppi: image.ppi, viewing_distance_cm: image.viewing_distance_cm, max_passes: max_passes as u32 }
}

impl Run {
    /// As the library lays it out.
    pub fn outcome(self, image: &Image, max_passes: usize) -> Outcome {
        let mut outcome = Outcome::new(image, max_passes);
        let [luminance, chrominance] = &self.kept.cpp;
        outcome.indices = self.indices;
        outcome.cpe.copy_from_slice(self.kept.cpe.as_flattened());
        outcome.cpp[..luminance.len()].copy_from_slice(luminance);
        outcome.cpp[CPP_CHROMA..][..chrominance.len()].copy_from_slice(chrominance);
        outcome.inks.copy_from_slice(self.kept.inks.as_flattened());
        for (cell, &accepted) in outcome.accepted_per_pass.iter_mut().zip(&self.stats.accepted_per_pass) {
            *cell = accepted as u32;
        }
        outcome.passes = u64::from(self.stats.passes);
        outcome.initial_error = self.stats.initial_error;
        outcome.final_error = self.stats.final_error;
        outcome
    }
}
