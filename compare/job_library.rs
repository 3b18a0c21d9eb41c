//! The job calls of the static library, called through include/dbs.h.

use crate::call::Call;
use crate::job::{Answer, Job, Kind, TileCopy};
use crate::library::Lent;

#[repr(C)]
struct DbsStatus {
    number: u64,
    place: u64,
}

#[repr(C)]
struct DbsWorked {
    number: u64,
    place: u64,
    accepted: u64,
    delta: f64,
}

extern "C" {
    fn dbs_open(
        record: *mut u64,
        record_len: usize,
        pixels: *const u8,
        pixels_len: usize,
        width: u64,
        height: u64,
        palette: *const u8,
        palette_len: usize,
        indices: *const u8,
        indices_len: usize,
        pinned: *const u8,
        pinned_len: usize,
        ppi: f64,
        viewing_distance_cm: f64,
        max_passes: u64,
        cpe: *mut f64,
        cpe_len: usize,
        cpp: *mut f64,
        cpp_len: usize,
        accepted_per_pass: *const u32,
        accepted_per_pass_len: usize,
        tile_states: *mut u8,
        tile_states_len: usize,
        deltas: *mut f64,
        deltas_len: usize,
        inks: *mut f64,
        inks_len: usize,
    ) -> DbsStatus;

    fn dbs_take(
        record: *const u64,
        record_len: usize,
        tile: u64,
        indices: *const u8,
        indices_len: usize,
        cpe: *const f64,
        cpe_len: usize,
        tile_states: *mut u8,
        tile_states_len: usize,
        copy_cpe: *mut f64,
        copy_cpe_len: usize,
        copy_indices: *mut u8,
        copy_indices_len: usize,
    ) -> DbsStatus;

    fn dbs_work(
        record: *const u64,
        record_len: usize,
        tile: u64,
        pinned: *const u8,
        pinned_len: usize,
        cpp: *const f64,
        cpp_len: usize,
        copy_cpe: *mut f64,
        copy_cpe_len: usize,
        copy_indices: *mut u8,
        copy_indices_len: usize,
        inks: *const f64,
        inks_len: usize,
    ) -> DbsWorked;

    fn dbs_put_back(
        record: *mut u64,
        record_len: usize,
        tile: u64,
        indices: *mut u8,
        indices_len: usize,
        cpe: *mut f64,
        cpe_len: usize,
        tile_states: *mut u8,
        tile_states_len: usize,
        deltas: *mut f64,
        deltas_len: usize,
        copy_cpe: *const f64,
        copy_cpe_len: usize,
        copy_indices: *const u8,
        copy_indices_len: usize,
        accepted: u64,
        delta: f64,
    ) -> DbsStatus;

    fn dbs_recall(
        record: *const u64,
        record_len: usize,
        tile: u64,
        tile_states: *mut u8,
        tile_states_len: usize,
    ) -> DbsStatus;

    fn dbs_close(
        record: *mut u64,
        record_len: usize,
        accepted_per_pass: *mut u32,
        accepted_per_pass_len: usize,
        tile_states: *mut u8,
        tile_states_len: usize,
        deltas: *const f64,
        deltas_len: usize,
    ) -> DbsStatus;
}

pub fn open(call: &Call, job: &mut Job) -> (u64, u64) {
    let [mut pixels, mut palette] = [&call.pixels, &call.palette].map(|s| Lent::new(s));
    let [mut indices, mut pinned, mut tile_states] =
        [&job.lent.indices, &job.pinned, &job.tile_states].map(|s| Lent::new(s));
    let [mut record, mut deltas] = [&job.record, &job.deltas].map(|s| Lent::new(s));
    let [mut cpe, mut cpp, mut inks] = [&job.lent.cpe, &job.lent.cpp, &job.lent.inks].map(|s| Lent::new(s));
    let mut accepted_per_pass = Lent::new(&job.lent.accepted_per_pass);
    // Sound: each slice is a live part of a vector of its own; an f64 may have any bits.
    let status = unsafe {
        dbs_open(
            record.start(),
            record.len(),
            pixels.start(),
            pixels.len(),
            call.width,
            call.height,
            palette.start(),
            palette.len(),
            indices.start(),
            indices.len(),
            pinned.start(),
            pinned.len(),
            call.ppi,
            call.viewing_distance_cm,
            call.max_passes,
            cpe.start().cast(),
            cpe.len(),
            cpp.start().cast(),
            cpp.len(),
            accepted_per_pass.start(),
            accepted_per_pass.len(),
            tile_states.start(),
            tile_states.len(),
            deltas.start().cast(),
            deltas.len(),
            inks.start().cast(),
            inks.len(),
        )
    };
    assert!([pixels, palette].map(Lent::back) == [&call.pixels[..], &call.palette]);
    [job.lent.indices, job.pinned, job.tile_states] = [indices, pinned, tile_states].map(Lent::back);
    [job.record, job.deltas] = [record, deltas].map(Lent::back);
    [job.lent.cpe, job.lent.cpp, job.lent.inks] = [cpe, cpp, inks].map(Lent::back);
    job.lent.accepted_per_pass = accepted_per_pass.back();
    (status.number, status.place)
}

pub fn call(kind: Kind, job: &mut Job, copy: &mut TileCopy) -> Answer {
    let status = match kind {
        Kind::Take => take(job, copy),
        Kind::Work => return work(job, copy),
        Kind::PutBack => put_back(job, copy),
        Kind::Recall => recall(job, copy.tile),
        Kind::Close => close(job),
    };
    Answer { number: status.number, place: status.place, accepted: 0, delta: 0 }
}

fn take(job: &mut Job, copy: &mut TileCopy) -> DbsStatus {
    let [mut record, mut cpe, mut copy_cpe] = [&job.record, &job.lent.cpe, &copy.cpe].map(|s| Lent::new(s));
    let [mut indices, mut tile_states, mut copy_indices] =
        [&job.lent.indices, &job.tile_states, &copy.indices].map(|s| Lent::new(s));
    // Sound: as above.
    let status = unsafe {
        dbs_take(
            record.start(),
            record.len(),
            copy.tile,
            indices.start(),
            indices.len(),
            cpe.start().cast(),
            cpe.len(),
            tile_states.start(),
            tile_states.len(),
            copy_cpe.start().cast(),
            copy_cpe.len(),
            copy_indices.start(),
            copy_indices.len(),
        )
    };
    [job.record, job.lent.cpe, copy.cpe] = [record, cpe, copy_cpe].map(Lent::back);
    [job.lent.indices, job.tile_states, copy.indices] = [indices, tile_states, copy_indices].map(Lent::back);
    status
}

fn work(job: &mut Job, copy: &mut TileCopy) -> Answer {
    let [mut record, mut cpp, mut copy_cpe, mut inks] =
        [&job.record, &job.lent.cpp, &copy.cpe, &job.lent.inks].map(|s| Lent::new(s));
    let [mut pinned, mut copy_indices] = [&job.pinned, &copy.indices].map(|s| Lent::new(s));
    // Sound: as above.
    let worked = unsafe {
        dbs_work(
            record.start(),
            record.len(),
            copy.tile,
            pinned.start(),
            pinned.len(),
            cpp.start().cast(),
            cpp.len(),
            copy_cpe.start().cast(),
            copy_cpe.len(),
            copy_indices.start(),
            copy_indices.len(),
            inks.start().cast(),
            inks.len(),
        )
    };
    [job.record, job.lent.cpp, copy.cpe, job.lent.inks] = [record, cpp, copy_cpe, inks].map(Lent::back);
    [job.pinned, copy.indices] = [pinned, copy_indices].map(Lent::back);
    let DbsWorked { number, place, accepted, delta } = worked;
    Answer { number, place, accepted, delta: delta.to_bits() }
}

fn put_back(job: &mut Job, copy: &mut TileCopy) -> DbsStatus {
    let [mut record, mut cpe, mut deltas, mut copy_cpe] =
        [&job.record, &job.lent.cpe, &job.deltas, &copy.cpe].map(|s| Lent::new(s));
    let [mut indices, mut tile_states, mut copy_indices] =
        [&job.lent.indices, &job.tile_states, &copy.indices].map(|s| Lent::new(s));
    // Sound: as above.
    let status = unsafe {
        dbs_put_back(
            record.start(),
            record.len(),
            copy.tile,
            indices.start(),
            indices.len(),
            cpe.start().cast(),
            cpe.len(),
            tile_states.start(),
            tile_states.len(),
            deltas.start().cast(),
            deltas.len(),
            copy_cpe.start().cast(),
            copy_cpe.len(),
            copy_indices.start(),
            copy_indices.len(),
            copy.accepted,
            f64::from_bits(copy.delta),
        )
    };
    [job.record, job.lent.cpe, job.deltas, copy.cpe] = [record, cpe, deltas, copy_cpe].map(Lent::back);
    [job.lent.indices, job.tile_states, copy.indices] = [indices, tile_states, copy_indices].map(Lent::back);
    status
}

fn recall(job: &mut Job, tile: u64) -> DbsStatus {
    let (mut record, mut tile_states) = (Lent::new(&job.record), Lent::new(&job.tile_states));
    // Sound: as above.
    let status = unsafe { dbs_recall(record.start(), record.len(), tile, tile_states.start(), tile_states.len()) };
    (job.record, job.tile_states) = (record.back(), tile_states.back());
    status
}

fn close(job: &mut Job) -> DbsStatus {
    let [mut record, mut deltas] = [&job.record, &job.deltas].map(|s| Lent::new(s));
    let mut accepted_per_pass = Lent::new(&job.lent.accepted_per_pass);
    let mut tile_states = Lent::new(&job.tile_states);
    // Sound: as above.
    let status = unsafe {
        dbs_close(
            record.start(),
            record.len(),
            accepted_per_pass.start(),
            accepted_per_pass.len(),
            tile_states.start(),
            tile_states.len(),
            deltas.start().cast(),
            deltas.len(),
        )
    };
    [job.record, job.deltas] = [record, deltas].map(Lent::back);
    job.lent.accepted_per_pass = accepted_per_pass.back();
    job.tile_states = tile_states.back();
    status
}
