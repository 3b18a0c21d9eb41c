//! The mask in each call that is given one: refine, find, open and work. None, and one of noughts and ones, is
//! accepted. Another byte is refused with 17, at the first of them, after the rows tested before it and before all
//! others. Each case says what is to be answered.

use crate::call::{Buffers, Call, CPP_LEN};
use crate::expected::{self, Asked};
use crate::job::*;
use crate::original::DbsParams;
use crate::plates::plate;
use crate::random::Random;
use crate::refine::{find_one, refine_one};
use crate::tiles::Tiling;
use crate::Section;

/// Number and place.
type Refusal = (u64, u64);

/// Rows that come before 17 in the calls that test them.
const BEFORE: [u64; 6] = [12, 13, 1, 2, 3, 4];

/// Other refusals of refine and open, each with what brings it about. Find does not test 10 and the counts.
const OF_IMAGE: [(Refusal, fn(&mut Call)); 17] = [
    ((1, 0), |c| c.width = 4097),
    ((2, 0), |c| c.pixels.push(0)),
    ((3, 0), |c| c.lent.indices.push(0)),
    ((4, 0), |c| c.pinned.push(0)),
    ((4, 0), |c| c.pinned.push(2)),
    ((5, 0), |c| c.palette.clear()),
    ((5, 0), |c| c.palette.push(0)),
    ((6, 0), |c| c.lent.indices[0] = 255),
    ((7, 0), |c| c.ppi = f64::NAN),
    ((8, 0), |c| c.viewing_distance_cm = 0.0),
    ((9, 0), |c| c.ppi = f64::MIN_POSITIVE),
    ((9, 1), |c| c.ppi = f64::MAX),
    ((10, 0), |c| c.max_passes = 1001),
    ((11, 1), |c| c.lent.cpe.push(0)),
    ((11, 2), |c| c.lent.cpp.push(0)),
    ((11, 3), |c| c.lent.accepted_per_pass.push(0)),
    ((11, 8), |c| c.lent.inks.push(0)),
];

/// Of open alone.
const OF_OPEN: [(Refusal, fn(&mut Job)); 4] = [
    ((12, 0), |job| job.record.truncate(11)),
    ((12, 0), |job| job.record.push(0)),
    ((11, 4), |job| job.tile_states.push(0)),
    ((11, 5), |job| job.deltas.push(0)),
];

/// Of work.
const OF_WORK: [(Refusal, fn(&mut Job, &mut TileCopy)); 10] = [
    ((12, 0), |job, _| job.record.truncate(11)),
    ((12, 0), |job, _| job.record[PHASE] = 4),
    ((13, 0), |_, copy| copy.tile = 99),
    ((4, 0), |job, _| job.pinned.push(0)),
    ((4, 0), |job, _| job.pinned.push(2)),
    ((11, 2), |job, _| job.lent.cpp.push(0)),
    ((11, 6), |_, copy| copy.cpe.push(0)),
    ((11, 7), |_, copy| copy.indices.push(0)),
    ((11, 8), |job, _| job.lent.inks.push(0)),
    ((6, 0), |_, copy| copy.indices[0] = 255),
];

/// What the calls are given but for the mask: a plate, a job opened on it and a copy of each tile.
struct Image<'a> {
    plate: Call,
    job: Job,
    copies: Vec<TileCopy>,
    section: &'a mut Section,
}

pub fn compare() -> Section {
    let mut section = Section::new("answers to masks");
    let mut r = Random(2);
    for (width, height) in [(5, 0), (1, 1), (3, 2), (2, 70), (129, 1)] {
        let params = DbsParams { max_passes: 3, ..DbsParams::default() };
        let plate = plate(&mut r, width, height, 3, params);
        Image::new(plate, &mut section).compare();
    }
    largest(&mut section);
    section
}

/// Work on tile 0 of the largest image, with a mask of noughts and with one whose last byte is 2.
fn largest(section: &mut Section) {
    const PIXELS: usize = 1 << 24;
    // Of radius 2, which leaves a margin of 3.
    let (region, ink) = (67 * 67, vec![0; 3]);
    let lent = Buffers { indices: vec![], cpe: vec![], cpp: vec![0; CPP_LEN], accepted_per_pass: vec![], inks: ink };
    let record = vec![4096, 4096, 1, 2, 2, 1, 0, 0, 0, 0, 0, 0];
    let mut job = Job { record, pinned: vec![0; PIXELS], tile_states: vec![], deltas: vec![], lent };
    let copy = TileCopy { tile: 0, cpe: vec![0; 3 * region], indices: vec![0; region], accepted: 0, delta: 0 };
    work(section, job.clone(), copy.clone(), (0, 0));
    job.pinned[PIXELS - 1] = 2;
    work(section, job, copy, (17, PIXELS as u64 - 1));
}

fn work(section: &mut Section, mut job: Job, mut copy: TileCopy, answer: Refusal) {
    let (found, difference) = call(Kind::Work, &mut job, &mut copy);
    section.check("work", difference);
    section.compare("work", (found.number, found.place), answer);
}

impl<'a> Image<'a> {
    fn new(mut plate: Call, section: &'a mut Section) -> Self {
        plate.lend();
        let tiling = Tiling::of(&plate);
        let mut job = Job::new(&plate, tiling.count());
        let (answer, difference) = open(&plate, &mut job);
        section.check("an open", difference);
        section.compare("an open", answer, (0, 0));
        let copies = (0..tiling.count()).map(|tile| copied(&job, &tiling, tile)).collect();
        Self { plate, job, copies, section }
    }

    fn compare(&mut self) {
        let n = self.plate.lent.indices.len();
        for mask in [vec![], vec![0; n], vec![1; n], noughts_and_ones(n)] {
            self.answers(&mask, (0, 0));
        }
        for (mask, place) in one_wrong(n) {
            self.answers(&mask, (17, place));
        }
        // One byte too long, also where the image has no row.
        self.on_image(&vec![2; n + 1], |_| (), (4, 0));
        if n > 0 {
            self.others_alone(&noughts_and_ones(n));
        }
        for (mask, place) in wrong(n) {
            self.answers(&mask, (17, place));
            self.others_beside(&mask, place);
        }
    }

    /// The other refusals are what they are said to be.
    fn others_alone(&mut self, mask: &[u8]) {
        for (refusal, change) in OF_IMAGE {
            let mut call = self.call(mask);
            change(&mut call);
            self.section.compare("another row of refine", expected::refusal(&call, Asked::Refine), refusal);
            self.open(&call, |_| (), refusal);
        }
        for (refusal, change) in OF_OPEN {
            self.open(&self.call(mask), change, refusal);
        }
        for (refusal, change) in OF_WORK {
            self.work(mask, change, refusal);
        }
    }

    /// A mask whose first wrong byte is at this place, and each of the other refusals.
    fn others_beside(&mut self, mask: &[u8], place: u64) {
        let first = |other: Refusal| if BEFORE.contains(&other.0) { other } else { (17, place) };
        for (other, change) in OF_IMAGE {
            self.on_image(mask, change, first(other));
        }
        for (other, change) in OF_OPEN {
            self.open(&self.call(mask), change, first(other));
        }
        for (other, change) in OF_WORK {
            self.work(mask, change, first(other));
        }
    }

    fn call(&self, mask: &[u8]) -> Call {
        Call { pinned: mask.to_vec(), ..self.plate.clone() }
    }

    /// All four calls.
    fn answers(&mut self, mask: &[u8], answer: Refusal) {
        self.on_image(mask, |_| (), answer);
        self.work(mask, |_, _| (), answer);
    }

    /// Refine, find and open.
    fn on_image(&mut self, mask: &[u8], change: fn(&mut Call), answer: Refusal) {
        let mut call = self.call(mask);
        change(&mut call);
        self.section.check("refine", refine_one(&call));
        self.section.compare("refine", expected::refusal(&call, Asked::Refine), answer);
        self.section.check("find", find_one(&call));
        self.section.compare("find", expected::refusal(&call, Asked::Find), answer);
        self.open(&call, |_| (), answer);
    }

    fn open(&mut self, call: &Call, change: fn(&mut Job), answer: Refusal) {
        let mut job = Job::new(call, self.copies.len() as u64);
        change(&mut job);
        let (found, difference) = open(call, &mut job);
        self.section.check("open", difference);
        self.section.compare("open", found, answer);
    }

    /// On each tile: the mask is the image's, wherever the tile is.
    fn work(&mut self, mask: &[u8], change: fn(&mut Job, &mut TileCopy), answer: Refusal) {
        for copy in &self.copies {
            let (mut job, mut copy) = (Job { pinned: mask.to_vec(), ..self.job.clone() }, copy.clone());
            change(&mut job, &mut copy);
            work(self.section, job, copy, answer);
        }
    }
}

/// A tile's copy as take leaves it.
fn copied(job: &Job, tiling: &Tiling, tile: u64) -> TileCopy {
    let places = tiling.places(tile);
    TileCopy {
        tile,
        cpe: places.iter().flat_map(|&at| job.lent.cpe[3 * at..3 * at + 3].to_vec()).collect(),
        indices: places.iter().map(|&at| job.lent.indices[at]).collect(),
        accepted: 0,
        delta: 0,
    }
}

fn noughts_and_ones(n: usize) -> Vec<u8> {
    (0..n).map(|i| (i % 2) as u8).collect()
}

/// Noughts and ones but for these bytes, and the place of the first.
fn with(n: usize, bytes: &[(usize, u8)]) -> (Vec<u8>, u64) {
    let mut mask = noughts_and_ones(n);
    bytes.iter().for_each(|&(place, byte)| mask[place] = byte);
    (mask, bytes[0].0 as u64)
}

/// 2 at each place, and each byte from 2 on in the middle.
fn one_wrong(n: usize) -> Vec<(Vec<u8>, u64)> {
    let places = (0..n).map(|place| with(n, &[(place, 2)]));
    let bytes = (2..=255).filter(|_| n > 0).map(|byte| with(n, &[(n / 2, byte)]));
    places.chain(bytes).collect()
}

/// A wrong byte at the first place, in the middle and at the last, alone and before another.
fn wrong(n: usize) -> Vec<(Vec<u8>, u64)> {
    if n == 0 {
        return vec![];
    }
    let mut masks = vec![];
    for byte in [2, 127, 128, 254, 255] {
        let other = 255 - byte + 2;
        masks.extend([0, n / 2, n - 1].map(|place| with(n, &[(place, byte)])));
        masks.extend([(0, n / 2), (0, n - 1), (n / 2, n - 1)].map(|(a, b)| with(n, &[(a, byte), (b, other)])));
    }
    masks
}
