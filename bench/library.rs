//! The static library, called through include/dbs.h on buffers that are lent.

use std::ffi::{c_char, c_int, c_void, CString};

use crate::image::Image;
use crate::outcome::Outcome;

#[repr(C)]
pub struct Status {
    pub number: u64,
    pub place: u64,
}

#[repr(C)]
pub struct DbsStats {
    number: u64,
    place: u64,
    passes: u64,
    initial_error: f64,
    final_error: f64,
}

#[repr(C)]
pub struct Measured {
    number: u64,
    place: u64,
    error: f64,
}

#[repr(C)]
pub struct Found {
    number: u64,
    place: u64,
    found: u64,
    pixel: u64,
    kind: u64,
    cost: f64,
}

#[repr(C)]
pub struct Worked {
    pub number: u64,
    pub place: u64,
    pub accepted: u64,
    pub delta: f64,
}

/// The calls, each a member under its C name: those of the library that is linked, or of one that is loaded.
macro_rules! calls {
    ($(fn $name:ident($($argument:ident: $of:ty),* $(,)?) -> $answer:ty;)*) => {
        mod linked {
            use super::*;
            extern "C" { $(pub fn $name($($argument: $of),*) -> $answer;)* }
        }

        #[derive(Clone, Copy)]
        pub struct Library { $(pub $name: unsafe extern "C" fn($($of),*) -> $answer,)* }

        pub const LINKED: Library = Library { $($name: linked::$name,)* };

        impl Library {
            /// Of a shared object, whose calls have to be declared as these are. It stays loaded.
            pub fn load(path: &str) -> Self {
                let object = Object::open(path);
                // Sound: the caller answers for the declarations.
                unsafe { Self { $($name: std::mem::transmute::<*const c_void, _>(object.symbol(stringify!($name))),)* } }
            }
        }
    };
}

#[rustfmt::skip]
calls! {
    fn dbs_refine(
        pixels: *const u8, pixels_len: usize, width: u64, height: u64, palette: *const u8, palette_len: usize,
        indices: *mut u8, indices_len: usize, pinned: *const u8, pinned_len: usize,
        ppi: f64, viewing_distance_cm: f64, max_passes: u64,
        cpe: *mut f64, cpe_len: usize, cpp: *mut f64, cpp_len: usize,
        accepted_per_pass: *mut u32, accepted_per_pass_len: usize, inks: *mut f64, inks_len: usize,
    ) -> DbsStats;
    fn perceived_error(
        pixels: *const u8, pixels_len: usize, width: u64, height: u64, palette: *const u8, palette_len: usize,
        indices: *const u8, indices_len: usize, ppi: f64, viewing_distance_cm: f64,
    ) -> Measured;
    fn dbs_find_move(
        pixels: *const u8, pixels_len: usize, width: u64, height: u64, palette: *const u8, palette_len: usize,
        indices: *const u8, indices_len: usize, pinned: *const u8, pinned_len: usize,
        ppi: f64, viewing_distance_cm: f64, cpe: *mut f64, cpe_len: usize, cpp: *mut f64, cpp_len: usize,
        inks: *mut f64, inks_len: usize,
    ) -> Found;
    fn dbs_open(
        record: *mut u64, record_len: usize, pixels: *const u8, pixels_len: usize, width: u64, height: u64,
        palette: *const u8, palette_len: usize, indices: *const u8, indices_len: usize,
        pinned: *const u8, pinned_len: usize, ppi: f64, viewing_distance_cm: f64, max_passes: u64,
        cpe: *mut f64, cpe_len: usize, cpp: *mut f64, cpp_len: usize,
        accepted_per_pass: *const u32, accepted_per_pass_len: usize, tile_states: *mut u8, tile_states_len: usize,
        deltas: *mut f64, deltas_len: usize, inks: *mut f64, inks_len: usize,
    ) -> Status;
    fn dbs_take(
        record: *const u64, record_len: usize, tile: u64, indices: *const u8, indices_len: usize,
        cpe: *const f64, cpe_len: usize, tile_states: *mut u8, tile_states_len: usize,
        copy_cpe: *mut f64, copy_cpe_len: usize, copy_indices: *mut u8, copy_indices_len: usize,
    ) -> Status;
    fn dbs_work(
        record: *const u64, record_len: usize, tile: u64, pinned: *const u8, pinned_len: usize,
        cpp: *const f64, cpp_len: usize, copy_cpe: *mut f64, copy_cpe_len: usize,
        copy_indices: *mut u8, copy_indices_len: usize, inks: *const f64, inks_len: usize,
    ) -> Worked;
    fn dbs_put_back(
        record: *mut u64, record_len: usize, tile: u64, indices: *mut u8, indices_len: usize,
        cpe: *mut f64, cpe_len: usize, tile_states: *mut u8, tile_states_len: usize,
        deltas: *mut f64, deltas_len: usize, copy_cpe: *const f64, copy_cpe_len: usize,
        copy_indices: *const u8, copy_indices_len: usize, accepted: u64, delta: f64,
    ) -> Status;
    fn dbs_close(
        record: *mut u64, record_len: usize, accepted_per_pass: *mut u32, accepted_per_pass_len: usize,
        tile_states: *mut u8, tile_states_len: usize, deltas: *const f64, deltas_len: usize,
    ) -> Status;
}

/// A shared object, by Linux.
struct Object(*mut c_void);

extern "C" {
    fn dlopen(path: *const c_char, flags: c_int) -> *mut c_void;
    fn dlsym(object: *mut c_void, name: *const c_char) -> *const c_void;
}

impl Object {
    /// Every symbol is bound at once, and is seen by no other object.
    fn open(path: &str) -> Self {
        const RTLD_NOW: c_int = 2;
        let name = CString::new(path).expect("a path");
        // Sound: the name is live and ends with a nought.
        let object = unsafe { dlopen(name.as_ptr(), RTLD_NOW) };
        assert!(!object.is_null(), "{path} is not loaded");
        Self(object)
    }

    fn symbol(&self, name: &str) -> *const c_void {
        let c_name = CString::new(name).expect("a name");
        // Sound: as in open; the object stays loaded.
        let symbol = unsafe { dlsym(self.0, c_name.as_ptr()) };
        assert!(!symbol.is_null(), "no {name} in the library");
        symbol
    }
}

impl Library {
    /// `dbs_refine` on the buffers of `result`, whose indices are the start.
    pub fn refine(&self, image: &Image, max_passes: usize, result: &mut Outcome) {
        // Sound: every slice is live and none overlaps another.
        let stats = unsafe {
            (self.dbs_refine)(
                image.pixels.as_ptr(),
                image.pixels.len(),
                image.width as u64,
                image.height as u64,
                image.palette.as_ptr(),
                image.palette.len(),
                result.indices.as_mut_ptr(),
                result.indices.len(),
                image.pinned.as_ptr(),
                image.pinned.len(),
                image.ppi,
                image.viewing_distance_cm,
                max_passes as u64,
                result.cpe.as_mut_ptr(),
                result.cpe.len(),
                result.cpp.as_mut_ptr(),
                result.cpp.len(),
                result.accepted_per_pass.as_mut_ptr(),
                max_passes,
                result.inks.as_mut_ptr(),
                result.inks.len(),
            )
        };
        assert_eq!((stats.number, stats.place), (0, 0), "dbs_refine refused");
        result.passes = stats.passes;
        result.initial_error = stats.initial_error;
        result.final_error = stats.final_error;
    }

    pub fn measure(&self, image: &Image, indices: &[u8]) -> f64 {
        // Sound: as above.
        let measured = unsafe {
            (self.perceived_error)(
                image.pixels.as_ptr(),
                image.pixels.len(),
                image.width as u64,
                image.height as u64,
                image.palette.as_ptr(),
                image.palette.len(),
                indices.as_ptr(),
                indices.len(),
                image.ppi,
                image.viewing_distance_cm,
            )
        };
        assert_eq!((measured.number, measured.place), (0, 0), "perceived_error refused");
        measured.error
    }

    /// Pixel, kind and cost of what `dbs_find_move` finds from the indices of `lent`, whose other buffers it is lent.
    pub fn find_move(&self, image: &Image, lent: &mut Outcome) -> Option<(u64, u64, f64)> {
        // Sound: as above.
        let found = unsafe {
            (self.dbs_find_move)(
                image.pixels.as_ptr(),
                image.pixels.len(),
                image.width as u64,
                image.height as u64,
                image.palette.as_ptr(),
                image.palette.len(),
                lent.indices.as_ptr(),
                lent.indices.len(),
                image.pinned.as_ptr(),
                image.pinned.len(),
                image.ppi,
                image.viewing_distance_cm,
                lent.cpe.as_mut_ptr(),
                lent.cpe.len(),
                lent.cpp.as_mut_ptr(),
                lent.cpp.len(),
                lent.inks.as_mut_ptr(),
                lent.inks.len(),
            )
        };
        assert_eq!((found.number, found.place), (0, 0), "dbs_find_move refused");
        (found.found == 1).then_some((found.pixel, found.kind, found.cost))
    }
}
