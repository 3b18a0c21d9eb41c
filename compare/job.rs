//! What job calls are given and what they answer, and a call of the library held to the documents. Floats of
//! buffers and answers are bits.

use crate::call::{first, Buffers, Call};
use crate::{job_expected, job_library};

/// The record and the buffers of a job.
#[derive(Clone)]
pub struct Job {
    pub record: Vec<u64>,
    pub pinned: Vec<u8>,
    pub tile_states: Vec<u8>,
    pub deltas: Vec<u64>,
    pub lent: Buffers,
}

/// A tile's number and the copy of its region, with the count and delta that work answered.
#[derive(Clone)]
pub struct TileCopy {
    pub tile: u64,
    pub cpe: Vec<u64>,
    pub indices: Vec<u8>,
    pub accepted: u64,
    pub delta: u64,
}

/// A call on an open job.
#[derive(Clone, Copy, Debug, PartialEq)]
pub enum Kind {
    Take,
    Work,
    PutBack,
    Recall,
    Close,
}

/// The answer of a job call; only work answers a count and a delta.
#[derive(Clone, Copy)]
pub struct Answer {
    pub number: u64,
    pub place: u64,
    pub accepted: u64,
    pub delta: u64,
}

pub const RECORD_LEN: usize = 12;

// Places in a record.
pub const PASSES_DONE: usize = 6;
pub const PHASE: usize = 7;
pub const ACCEPTED: usize = 8;
pub const INITIAL_ERROR: usize = 9;
pub const FINAL_ERROR: usize = 10;
pub const FINISHED: usize = 11;

impl Job {
    /// A job still to be opened, with what is lent to refine and as many tiles. As there, each cell holds a
    /// pattern of its own.
    pub fn new(call: &Call, tiles: u64) -> Self {
        Self {
            record: (0..RECORD_LEN as u64).map(|i| 0xc0de_0000_0000_0000 + i).collect(),
            pinned: call.pinned.clone(),
            tile_states: (0..tiles).map(|i| 0x5a ^ i as u8).collect(),
            deltas: (0..tiles).map(|i| 0x7ff4_0004_0000_0000 + i).collect(),
            lent: call.lent.clone(),
        }
    }

    /// The first cell that differs, if any does. Floats too are compared by bits: no call computes one that it
    /// leaves in a job's buffers, but an accepted open, whose floats are numbers.
    pub fn difference(&self, expected: &Self) -> Option<String> {
        let (a, b) = (&self.lent, &expected.lent);
        first("record", &self.record, &expected.record)
            .or_else(|| first("pinned", &self.pinned, &expected.pinned))
            .or_else(|| first("tile_states", &self.tile_states, &expected.tile_states))
            .or_else(|| first("indices", &a.indices, &b.indices))
            .or_else(|| first("accepted_per_pass", &a.accepted_per_pass, &b.accepted_per_pass))
            .or_else(|| first("inks", &a.inks, &b.inks))
            .or_else(|| first("cpp", &a.cpp, &b.cpp))
            .or_else(|| first("deltas", &self.deltas, &expected.deltas))
            .or_else(|| first("cpe", &a.cpe, &b.cpe))
    }
}

/// Opens a job by the library; how this differs from document 01, if it does.
pub fn open(call: &Call, job: &mut Job) -> ((u64, u64), Option<String>) {
    let mut wanted = job.clone();
    let expected = job_expected::open(call, &mut wanted);
    let found = job_library::open(call, job);
    let answer = |(number, place): (u64, u64)| [number, place];
    let difference = first("answer", &answer(found), &answer(expected));
    (found, difference.or_else(|| job.difference(&wanted)))
}

/// Makes a job call by the library; how this differs from the documents, if it does.
pub fn call(kind: Kind, job: &mut Job, copy: &mut TileCopy) -> (Answer, Option<String>) {
    let before = (job.clone(), copy.clone());
    let mut wanted = before.clone();
    let expected = job_expected::call(kind, &mut wanted.0, &mut wanted.1);
    let found = job_library::call(kind, job, copy);
    let answer = |a: &Answer| [a.number, a.place, a.accepted, a.delta];
    let moved = kind == Kind::Work && expected.accepted > 0;
    if moved {
        settle(&before.1.cpe, &copy.cpe, &mut wanted.1.cpe);
    }
    let difference = first("answer", &answer(&found), &answer(&expected))
        .or_else(|| job.difference(&wanted.0))
        .or_else(|| first("copy_indices", &copy.indices, &wanted.1.indices))
        .or_else(|| first("copy_cpe", &copy.cpe, &wanted.1.cpe));
    let case = |d: String| format!("{d}; {kind:?} tile {} of {:?}", copy.tile, before.0.record);
    (found, difference.map(case))
}

/// Where moves were made: no document decides which NaN a sum with a NaN is, so the one found is the one expected.
/// A signalling one that stayed was not added to: no sum is signalling.
fn settle(before: &[u64], found: &[u64], expected: &mut [u64]) {
    for ((&before, &found), expected) in before.iter().zip(found).zip(expected) {
        let stayed = is_signalling(before) && before == *expected;
        if !stayed && is_nan(found) && is_nan(*expected) {
            *expected = found;
        }
    }
}

pub fn is_signalling(bits: u64) -> bool {
    is_nan(bits) && bits & 1 << 51 == 0
}

pub fn is_nan(bits: u64) -> bool {
    f64::from_bits(bits).is_nan()
}
