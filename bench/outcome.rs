//! What a refinement leaves; for the library also the buffers that it is lent.

use crate::image::Image;

#[derive(Clone)]
pub struct Outcome {
    pub indices: Vec<u8>,
    pub cpe: Vec<f64>,
    pub cpp: Vec<f64>,
    pub inks: Vec<f64>,
    pub accepted_per_pass: Vec<u32>,
    pub passes: u64,
    pub initial_error: f64,
    pub final_error: f64,
}

pub const CPP_LEN: usize = 8450;
pub const CPP_CHROMA: usize = 4225;

impl Outcome {
    /// Cleared buffers; the indices are the start.
    pub fn new(image: &Image, max_passes: usize) -> Self {
        Self {
            indices: image.indices.clone(),
            cpe: vec![0.0; image.pixels.len()],
            cpp: vec![0.0; CPP_LEN],
            inks: vec![0.0; image.palette.len()],
            accepted_per_pass: vec![0; max_passes],
            passes: 0,
            initial_error: 0.0,
            final_error: 0.0,
        }
    }

    /// The first part that differs, floats by their bits.
    pub fn difference(&self, other: &Self) -> Option<&'static str> {
        let same = |a: &[f64], b: &[f64]| a.iter().map(|f| f.to_bits()).eq(b.iter().map(|f| f.to_bits()));
        let errors = |o: &Self| [o.initial_error, o.final_error];
        let parts = [
            ("indices", self.indices == other.indices),
            ("passes", self.passes == other.passes),
            ("accepted_per_pass", self.accepted_per_pass == other.accepted_per_pass),
            ("errors", same(&errors(self), &errors(other))),
            ("cpe", same(&self.cpe, &other.cpe)),
            ("cpp", same(&self.cpp, &other.cpp)),
            ("inks", same(&self.inks, &other.inks)),
        ];
        parts.into_iter().find(|(_, same)| !same).map(|(name, _)| name)
    }
}
