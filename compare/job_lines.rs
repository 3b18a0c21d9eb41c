//! The lines of replay.txt's job lists, whose head says what stands in them, and what the program that reads
//! them does.

use std::fmt::{Display, Formatter, Result};

use crate::call::{Buffers, Call};
use crate::eyes::{checksum, halves};
use crate::job::*;
use crate::replay::input_words;
use crate::{job_expected, job_library};

/// Who makes the calls.
pub struct Side {
    open: fn(&Call, &mut Job) -> (u64, u64),
    call: fn(Kind, &mut Job, &mut TileCopy) -> Answer,
}

pub const EXPECTED: Side = Side { open: job_expected::open, call: job_expected::call };
pub const LIBRARY: Side = Side { open: job_library::open, call: job_library::call };

// The slices, in the order in which lines name them.
pub const PINNED: usize = 0;
pub const INDICES: usize = 1;
pub const CPE: usize = 2;
pub const CPP: usize = 3;
pub const COUNTS: usize = 4;
pub const INKS: usize = 5;
pub const STATES: usize = 6;
pub const DELTAS: usize = 7;
pub const RECORD: usize = 8;
pub const COPY_CPE: usize = 9;
pub const COPY_INDICES: usize = 10;

pub type Lengths = [usize; 11];

#[derive(Clone)]
pub enum Line {
    Open { call: Call, lengths: Lengths },
    Call { kind: Kind, tile: u64, from: usize, accepted: u64, delta: u64, lengths: Lengths },
    Word { place: usize, value: u64 },
    Index { place: usize, byte: u8 },
}

/// The slices that an open or a call is lent, of which an open's line gives the first two as bytes.
pub fn lent(kind: Option<Kind>) -> &'static [usize] {
    match kind {
        None => &[PINNED, INDICES, CPE, CPP, COUNTS, INKS, STATES, DELTAS, RECORD],
        Some(Kind::Take) => &[INDICES, CPE, STATES, RECORD, COPY_CPE, COPY_INDICES],
        Some(Kind::Work) => &[PINNED, CPP, INKS, RECORD, COPY_CPE, COPY_INDICES],
        Some(Kind::PutBack) => &[INDICES, CPE, STATES, DELTAS, RECORD, COPY_CPE, COPY_INDICES],
        Some(Kind::Recall) => &[STATES, RECORD],
        Some(Kind::Close) => &[COUNTS, STATES, DELTAS, RECORD],
    }
}

/// Those that it may write.
fn written(kind: Option<Kind>) -> &'static [usize] {
    match kind {
        None => &[CPE, CPP, INKS, STATES, DELTAS, RECORD],
        Some(Kind::Take) => &[STATES, COPY_CPE, COPY_INDICES],
        Some(Kind::Work) => &[COPY_CPE, COPY_INDICES],
        Some(Kind::PutBack) => &[INDICES, CPE, STATES, DELTAS, RECORD],
        Some(Kind::Recall) => &[STATES],
        Some(Kind::Close) => &[COUNTS, STATES, RECORD],
    }
}

impl Display for Line {
    fn fmt(&self, f: &mut Formatter) -> Result {
        let words = |slices: &[usize], lengths: &Lengths| -> String {
            slices.iter().map(|&slice| format!(" {}", lengths[slice])).collect()
        };
        match self {
            Self::Open { call, lengths } => write!(f, "open {}{}", input_words(call), words(&lent(None)[2..], lengths)),
            Self::Call { kind, tile, from, accepted, delta, lengths } => {
                let lengths = words(lent(Some(*kind)), lengths);
                match kind {
                    Kind::Take => write!(f, "take {tile} {from}{lengths}"),
                    Kind::Work => write!(f, "work {tile} {from}{lengths}"),
                    Kind::PutBack => write!(f, "put_back {tile} {from} {accepted} {delta:016x}{lengths}"),
                    Kind::Recall => write!(f, "recall {tile}{lengths}"),
                    Kind::Close => write!(f, "close{lengths}"),
                }
            }
            Self::Word { place, value } => write!(f, "word {place} {value:016x}"),
            Self::Index { place, byte } => write!(f, "index {place} {byte}"),
        }
    }
}

/// The program's buffers: a cell is a number, a float its bits.
#[derive(Clone)]
pub struct Room(pub [Vec<u64>; 11]);

impl Room {
    pub fn new() -> Self {
        let float = (-1.0_f64).to_bits();
        Self([
            vec![0xff; 1024],
            vec![0xff; 1024],
            vec![float; 1024],
            vec![float; 8500],
            vec![0xffff_ffff; 1024],
            vec![float; 1024],
            vec![0xff; 64],
            vec![float; 64],
            vec![u64::MAX; 16],
            vec![float; 3072],
            vec![0xff; 1024],
        ])
    }

    /// The answer of a call and its line.
    pub fn make(&mut self, line: &Line, side: &Side) -> Option<(Answer, String)> {
        match line {
            Line::Open { call, lengths } => {
                *self = Self::new();
                put(&mut self.0[PINNED], &call.pinned);
                put(&mut self.0[INDICES], &call.lent.indices);
                let (mut job, _) = self.lend(0, 0, lengths);
                let (number, place) = (side.open)(call, &mut job);
                let copy = TileCopy { tile: 0, cpe: vec![], indices: vec![], accepted: 0, delta: 0 };
                self.take_back(0, job, copy);
                let answer = Answer { number, place, accepted: 0, delta: 0 };
                Some((answer, format!("opened {number} {place}{}", self.sums(None, 0, lengths))))
            }
            Line::Call { kind, tile, from, accepted, delta, lengths } => {
                let (mut job, mut copy) = self.lend(*tile, *from, lengths);
                (copy.accepted, copy.delta) = (*accepted, *delta);
                let answer = (side.call)(*kind, &mut job, &mut copy);
                self.take_back(*from, job, copy);
                let Answer { number, place, accepted, delta } = answer;
                let sums = self.sums(Some(*kind), *from, lengths);
                let text = match kind {
                    Kind::Take => format!("taken {number} {place}{sums}"),
                    Kind::Work => format!("worked {number} {place} {accepted} {delta:016x}{sums}"),
                    Kind::PutBack => format!("back {number} {place}{sums}"),
                    Kind::Recall => format!("recalled {number} {place}{sums}"),
                    Kind::Close => format!("closed {number} {place}{sums}"),
                };
                Some((answer, text))
            }
            Line::Word { place, value } => {
                self.0[RECORD][*place] = *value;
                None
            }
            Line::Index { place, byte } => {
                self.0[COPY_INDICES][*place] = u64::from(*byte);
                None
            }
        }
    }

    fn part(&self, slice: usize, from: usize, lengths: &Lengths) -> &[u64] {
        &self.0[slice][start(slice, from)..][..lengths[slice]]
    }

    fn lend(&self, tile: u64, from: usize, lengths: &Lengths) -> (Job, TileCopy) {
        let cells = |slice| self.part(slice, from, lengths).to_vec();
        let bytes = |slice| cells(slice).into_iter().map(|cell| cell as u8).collect();
        let job = Job {
            record: cells(RECORD),
            pinned: bytes(PINNED),
            tile_states: bytes(STATES),
            deltas: cells(DELTAS),
            lent: Buffers {
                indices: bytes(INDICES),
                cpe: cells(CPE),
                cpp: cells(CPP),
                accepted_per_pass: cells(COUNTS).into_iter().map(|cell| cell as u32).collect(),
                inks: cells(INKS),
            },
        };
        (job, TileCopy { tile, cpe: cells(COPY_CPE), indices: bytes(COPY_INDICES), accepted: 0, delta: 0 })
    }

    fn take_back(&mut self, from: usize, job: Job, copy: TileCopy) {
        let Buffers { indices, cpe, cpp, accepted_per_pass, inks } = &job.lent;
        for (slice, bytes) in [(PINNED, &job.pinned), (STATES, &job.tile_states), (INDICES, indices)] {
            put(&mut self.0[slice], bytes);
        }
        for (slice, words) in [(CPE, cpe), (CPP, cpp), (INKS, inks), (DELTAS, &job.deltas), (RECORD, &job.record)] {
            put(&mut self.0[slice], words);
        }
        put(&mut self.0[COUNTS], accepted_per_pass);
        put(&mut self.0[COPY_CPE][start(COPY_CPE, from)..], &copy.cpe);
        put(&mut self.0[COPY_INDICES][start(COPY_INDICES, from)..], &copy.indices);
    }

    /// Checksums of the slices that a call may write.
    fn sums(&self, kind: Option<Kind>, from: usize, lengths: &Lengths) -> String {
        let sum = |slice: usize| {
            let cells = self.part(slice, from, lengths).iter();
            match slice {
                INDICES | COUNTS | STATES | COPY_INDICES => checksum(cells.copied()),
                _ => checksum(cells.flat_map(|&bits| halves(bits))),
            }
        };
        written(kind).iter().map(|&slice| format!(" {:08x}", sum(slice))).collect()
    }
}

/// Where a slice begins in its buffer: that of a copy `from` pixels on.
fn start(slice: usize, from: usize) -> usize {
    match slice {
        COPY_CPE => 3 * from,
        COPY_INDICES => from,
        _ => 0,
    }
}

fn put<T: Copy + Into<u64>>(cells: &mut [u64], values: &[T]) {
    for (cell, &value) in cells.iter_mut().zip(values) {
        *cell = value.into();
    }
}
