//! What refine, measure and find are given and what they answer. Floats of buffers and answers are bits.

use crate::original::DbsParams;

/// The arguments of `dbs_refine`; `perceived_error` and `dbs_find_move` take those that they have.
#[derive(Clone)]
pub struct Call {
    pub width: u64,
    pub height: u64,
    pub pixels: Vec<u8>,
    pub palette: Vec<u8>,
    pub pinned: Vec<u8>,
    pub ppi: f64,
    pub viewing_distance_cm: f64,
    pub max_passes: u64,
    pub lent: Buffers,
}

/// What refine is lent.
#[derive(Clone)]
pub struct Buffers {
    pub indices: Vec<u8>,
    pub cpe: Vec<u64>,
    pub cpp: Vec<u64>,
    pub accepted_per_pass: Vec<u32>,
    pub inks: Vec<u64>,
}

/// The answer of refine, and what was lent, afterwards.
pub struct Refined {
    pub number: u64,
    pub place: u64,
    pub passes: u64,
    pub initial_error: u64,
    pub final_error: u64,
    pub lent: Buffers,
}

/// The answer of measure.
pub struct Measured {
    pub number: u64,
    pub place: u64,
    pub error: u64,
}

/// The answer of find, and what was lent, afterwards.
pub struct Found {
    pub number: u64,
    pub place: u64,
    pub found: u64,
    pub pixel: u64,
    pub kind: u64,
    pub cost: u64,
    pub lent: Buffers,
}

pub const CPP_LEN: usize = 8450;
pub const CPP_CHROMA: usize = 4225;

impl Call {
    /// The buffers as long as document 01 wants them. A cell holds a pattern of its own, for floats
    /// the bits of a NaN, which no computation leaves.
    pub fn lend(&mut self) {
        let floats =
            |len: usize, name: u64| (0..len as u64).map(|i| 0x7ff4_0000_0000_0000 + (name << 32) + i).collect();
        self.lent.cpe = floats(self.pixels.len(), 1);
        self.lent.cpp = floats(CPP_LEN, 2);
        self.lent.accepted_per_pass = (0..self.max_passes as u32).map(|i| 0xc0de_0000 + i).collect();
        self.lent.inks = floats(self.palette.len(), 3);
    }

    pub fn params(&self) -> DbsParams {
        DbsParams { viewing_distance_cm: self.viewing_distance_cm, ppi: self.ppi, max_passes: self.max_passes as u32 }
    }

    pub fn same_to_measure(&self, other: &Self) -> bool {
        let numbers = |c: &Self| (c.width, c.height, c.ppi, c.viewing_distance_cm);
        numbers(self) == numbers(other)
            && (&self.pixels, &self.palette, &self.lent.indices) == (&other.pixels, &other.palette, &other.lent.indices)
    }

    pub fn same_to_find(&self, other: &Self) -> bool {
        self.same_to_measure(other) && self.pinned == other.pinned
    }
}

impl Buffers {
    /// The first cell that differs, if any does.
    fn difference(&self, expected: &Self) -> Option<String> {
        first("indices", &self.indices, &expected.indices)
            .or_else(|| first("accepted_per_pass", &self.accepted_per_pass, &expected.accepted_per_pass))
            .or_else(|| first("inks", &self.inks, &expected.inks))
            .or_else(|| first("cpp", &self.cpp, &expected.cpp))
            .or_else(|| first("cpe", &self.cpe, &expected.cpe))
    }
}

impl Refined {
    pub fn difference(&self, expected: &Self) -> Option<String> {
        let answer = |r: &Self| [r.number, r.place, r.passes, r.initial_error, r.final_error];
        first("answer", &answer(self), &answer(expected)).or_else(|| self.lent.difference(&expected.lent))
    }
}

impl Measured {
    pub fn difference(&self, expected: &Self) -> Option<String> {
        let answer = |m: &Self| [m.number, m.place, m.error];
        first("answer", &answer(self), &answer(expected))
    }
}

impl Found {
    pub fn difference(&self, expected: &Self) -> Option<String> {
        let answer = |f: &Self| [f.number, f.place, f.found, f.pixel, f.kind, f.cost];
        first("answer", &answer(self), &answer(expected)).or_else(|| self.lent.difference(&expected.lent))
    }
}

/// The first cell that differs, if any does.
pub fn first<T: PartialEq + std::fmt::LowerHex>(name: &str, found: &[T], expected: &[T]) -> Option<String> {
    if found.len() != expected.len() {
        return Some(format!("{} cells of {name}, expected {}", found.len(), expected.len()));
    }
    let (i, (a, b)) = found.iter().zip(expected).enumerate().find(|(_, (a, b))| a != b)?;
    Some(format!("{name} {i}: {a:x}, expected {b:x}"))
}
