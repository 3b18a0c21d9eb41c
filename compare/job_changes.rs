//! Changes of what a job call is given, to either side of what document 01 asks.

use crate::job::*;
use crate::random::Random;
use crate::tiles::{area, Tiling};

/// Changes one thing that a call is given beside its record.
pub fn change(r: &mut Random, tiling: &Tiling, job: &mut Job, copy: &mut TileCopy) {
    match r.below(13) {
        0..=2 => change_length(r, job, copy),
        3 => copy.tile = other_tile(r, tiling, copy.tile),
        4 => copy.accepted = other_count(r, tiling, job, copy.tile),
        5 => set_one(r, &mut copy.indices, |r| r.byte()),
        6 => set_one(r, &mut job.tile_states, |r| r.pick(&[0, 1, 2, 3, 255])),
        7 => set_one(r, &mut copy.cpe, wild),
        8 => set_one(r, &mut job.lent.cpe, wild),
        9 => set_one(r, &mut job.deltas, wild),
        10 => set_one(r, &mut job.lent.inks, wild),
        11 => set_one(r, &mut job.pinned, |r| r.pick(&[0, 1, 2, 127, 128, 254, 255])),
        _ => copy.delta = wild(r),
    }
}

/// Changes the length of a record or one of its words.
pub fn change_record(r: &mut Random, record: &mut Vec<u64>) {
    const LIMITS: [u64; 12] = [0, 1, 2, 3, 4, 32, 33, 34, 256, 257, 1000, 1001];
    const LARGE: [u64; 8] = [4095, 4096, 4097, 1 << 16, 1 << 32, 1 << 63, u64::MAX - 1, u64::MAX];
    if r.below(8) == 0 {
        record.resize(r.pick(&[0, 1, 11, 13, 24]), 0);
    }
    let Some(place) = record.len().checked_sub(1).map(|last| r.between(0, last as u64) as usize) else {
        return;
    };
    record[place] = match r.below(6) {
        _ if place == INITIAL_ERROR || place == FINAL_ERROR => wild(r),
        0 | 1 => r.pick(&LIMITS),
        2 => r.pick(&LARGE),
        3 => record[place].wrapping_add(1 << r.below(64)),
        4 => record[place].wrapping_add(1),
        _ => record[place].wrapping_sub(1),
    };
}

/// Bits of any float.
pub fn wild(r: &mut Random) -> u64 {
    const FLOATS: [f64; 12] = [
        0.0,
        -0.0,
        1.0,
        -1e-9,
        5e-324,
        -f64::MIN_POSITIVE,
        f64::MAX,
        f64::MIN,
        f64::INFINITY,
        f64::NEG_INFINITY,
        f64::NAN,
        -f64::NAN,
    ];
    match r.below(4) {
        0 => r.next(),
        1 => nan(r),
        _ => r.pick(&FLOATS).to_bits(),
    }
}

/// Bits of a NaN: quiet or signalling, of either sign, with any payload.
fn nan(r: &mut Random) -> u64 {
    let sign = r.pick(&[0, 1 << 63]);
    let quiet = r.pick(&[0, 1 << 51]);
    let payload = r.pick(&[1, 2, 0xdead_beef, (1 << 51) - 1]);
    0x7ff0_0000_0000_0000 + sign + quiet + payload
}

fn change_length(r: &mut Random, job: &mut Job, copy: &mut TileCopy) {
    match r.below(10) {
        0 => resize(r, &mut job.pinned),
        1 => resize(r, &mut job.tile_states),
        2 => resize(r, &mut job.deltas),
        3 => resize(r, &mut job.lent.indices),
        4 => resize(r, &mut job.lent.cpe),
        5 => resize(r, &mut job.lent.cpp),
        6 => resize(r, &mut job.lent.accepted_per_pass),
        7 => resize(r, &mut job.lent.inks),
        8 => resize(r, &mut copy.cpe),
        _ => resize(r, &mut copy.indices),
    }
}

pub fn resize<T: Clone + From<u8>>(r: &mut Random, cells: &mut Vec<T>) {
    let len = cells.len();
    cells.resize(r.pick(&[0, 1, len.saturating_sub(1), len + 1, len + 3, len / 3, 3 * len]), T::from(0));
}

fn set_one<T>(r: &mut Random, cells: &mut [T], value: fn(&mut Random) -> T) {
    if !cells.is_empty() {
        cells[r.below(cells.len() as u64) as usize] = value(r);
    }
}

fn other_tile(r: &mut Random, tiling: &Tiling, tile: u64) -> u64 {
    let count = tiling.count();
    let any = r.below(count + 1);
    r.pick(&[any, any, tile ^ 1, count, count + 1, tile + (1 << 32), tile + (1 << 63), u64::MAX - tile, u64::MAX])
}

/// A count on either side of the limits of row 12.
fn other_count(r: &mut Random, tiling: &Tiling, job: &Job, tile: u64) -> u64 {
    let pixels = if tile < tiling.count() { area(tiling.tile(tile)) as u64 } else { 0 };
    let accepted = job.record.get(ACCEPTED).copied().unwrap_or(0);
    let left = (area(tiling.image()) as u64).wrapping_sub(accepted);
    let over = accepted.wrapping_neg();
    let limit = r.pick(&[pixels, left, over, 1 << 32, u64::MAX]);
    limit.wrapping_add(r.pick(&[0, 0, 1, u64::MAX]))
}
