//! The static library, called through include/dbs.h.

use crate::call::{Buffers, Call, Found, Measured, Refined};

#[repr(C)]
struct DbsStats {
    number: u64,
    place: u64,
    passes: u64,
    initial_error: f64,
    final_error: f64,
}

#[repr(C)]
struct DbsMeasured {
    number: u64,
    place: u64,
    error: f64,
}

#[repr(C)]
struct DbsFound {
    number: u64,
    place: u64,
    found: u64,
    pixel: u64,
    kind: u64,
    cost: f64,
}

extern "C" {
    fn dbs_refine(
        pixels: *const u8,
        pixels_len: usize,
        width: u64,
        height: u64,
        palette: *const u8,
        palette_len: usize,
        indices: *mut u8,
        indices_len: usize,
        pinned: *const u8,
        pinned_len: usize,
        ppi: f64,
        viewing_distance_cm: f64,
        max_passes: u64,
        cpe: *mut f64,
        cpe_len: usize,
        cpp: *mut f64,
        cpp_len: usize,
        accepted_per_pass: *mut u32,
        accepted_per_pass_len: usize,
        inks: *mut f64,
        inks_len: usize,
    ) -> DbsStats;

    fn perceived_error(
        pixels: *const u8,
        pixels_len: usize,
        width: u64,
        height: u64,
        palette: *const u8,
        palette_len: usize,
        indices: *const u8,
        indices_len: usize,
        ppi: f64,
        viewing_distance_cm: f64,
    ) -> DbsMeasured;

    fn dbs_find_move(
        pixels: *const u8,
        pixels_len: usize,
        width: u64,
        height: u64,
        palette: *const u8,
        palette_len: usize,
        indices: *const u8,
        indices_len: usize,
        pinned: *const u8,
        pinned_len: usize,
        ppi: f64,
        viewing_distance_cm: f64,
        cpe: *mut f64,
        cpe_len: usize,
        cpp: *mut f64,
        cpp_len: usize,
        inks: *mut f64,
        inks_len: usize,
    ) -> DbsFound;
}

pub fn refine(call: &Call) -> Refined {
    let [mut pixels, mut palette, mut pinned] = [&call.pixels, &call.palette, &call.pinned].map(|s| Lent::new(s));
    let mut indices = Lent::new(&call.lent.indices);
    let [mut cpe, mut cpp, mut inks] = [&call.lent.cpe, &call.lent.cpp, &call.lent.inks].map(|s| Lent::new(s));
    let mut accepted_per_pass = Lent::new(&call.lent.accepted_per_pass);
    // Sound: each slice is a live part of a vector of its own; an f64 may have any bits.
    let stats = unsafe {
        dbs_refine(
            pixels.start(),
            pixels.len(),
            call.width,
            call.height,
            palette.start(),
            palette.len(),
            indices.start(),
            indices.len(),
            pinned.start(),
            pinned.len(),
            call.ppi,
            call.viewing_distance_cm,
            call.max_passes,
            cpe.start().cast(),
            cpe.len(),
            cpp.start().cast(),
            cpp.len(),
            accepted_per_pass.start(),
            accepted_per_pass.len(),
            inks.start().cast(),
            inks.len(),
        )
    };
    assert!([pixels, palette, pinned].map(Lent::back) == [&call.pixels[..], &call.palette, &call.pinned]);
    Refined {
        number: stats.number,
        place: stats.place,
        passes: stats.passes,
        initial_error: stats.initial_error.to_bits(),
        final_error: stats.final_error.to_bits(),
        lent: Buffers {
            indices: indices.back(),
            cpe: cpe.back(),
            cpp: cpp.back(),
            accepted_per_pass: accepted_per_pass.back(),
            inks: inks.back(),
        },
    }
}

pub fn measure(call: &Call) -> Measured {
    let slices = [&call.pixels, &call.palette, &call.lent.indices];
    let [mut pixels, mut palette, mut indices] = slices.map(|s| Lent::new(s));
    // Sound: as above.
    let measured = unsafe {
        perceived_error(
            pixels.start(),
            pixels.len(),
            call.width,
            call.height,
            palette.start(),
            palette.len(),
            indices.start(),
            indices.len(),
            call.ppi,
            call.viewing_distance_cm,
        )
    };
    assert!([pixels, palette, indices].map(Lent::back) == slices.map(|s| &s[..]));
    Measured { number: measured.number, place: measured.place, error: measured.error.to_bits() }
}

pub fn find(call: &Call) -> Found {
    let slices = [&call.pixels, &call.palette, &call.lent.indices, &call.pinned];
    let [mut pixels, mut palette, mut indices, mut pinned] = slices.map(|s| Lent::new(s));
    let [mut cpe, mut cpp, mut inks] = [&call.lent.cpe, &call.lent.cpp, &call.lent.inks].map(|s| Lent::new(s));
    // Sound: as above.
    let found = unsafe {
        dbs_find_move(
            pixels.start(),
            pixels.len(),
            call.width,
            call.height,
            palette.start(),
            palette.len(),
            indices.start(),
            indices.len(),
            pinned.start(),
            pinned.len(),
            call.ppi,
            call.viewing_distance_cm,
            cpe.start().cast(),
            cpe.len(),
            cpp.start().cast(),
            cpp.len(),
            inks.start().cast(),
            inks.len(),
        )
    };
    assert!([pixels, palette, indices, pinned].map(Lent::back) == slices.map(|s| &s[..]));
    Found {
        number: found.number,
        place: found.place,
        found: found.found,
        pixel: found.pixel,
        kind: found.kind,
        cost: found.cost.to_bits(),
        lent: Buffers { cpe: cpe.back(), cpp: cpp.back(), inks: inks.back(), ..call.lent.clone() },
    }
}

/// A copy of a slice with cells before and after it that no call may touch. Bytes start unaligned.
pub struct Lent<T>(Vec<T>);

const BESIDE: usize = 5;

impl<T: Copy + PartialEq + From<u8>> Lent<T> {
    pub fn new(cells: &[T]) -> Self {
        let beside = [T::from(0xa5); BESIDE];
        Self([&beside, cells, &beside].concat())
    }

    pub fn start(&mut self) -> *mut T {
        self.0[BESIDE..].as_mut_ptr()
    }

    pub fn len(&self) -> usize {
        self.0.len() - 2 * BESIDE
    }

    pub fn back(self) -> Vec<T> {
        let end = BESIDE + self.len();
        let beside = [&self.0[..BESIDE], &self.0[end..]].concat();
        assert!(beside.iter().all(|&cell| cell == T::from(0xa5)), "written beside a slice");
        self.0[BESIDE..end].to_vec()
    }
}
