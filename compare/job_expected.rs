//! What the documents say of job calls: the first row of document 01's table that holds, or what the call does.
//! Recall is document 02's. Opening and working are the copy of the Rust's.

use crate::call::{Buffers, Call, CPP_LEN};
use crate::expected::{self, Asked};
use crate::job::*;
use crate::tiles::{area, radii, Tiling};

/// What a record that no row 12 refuses says.
struct Record {
    tiling: Tiling,
    pixels: u64,
    inks: u64,
    allowed: u64,
    phase: u64,
    accepted: u64,
    finished: bool,
}

pub fn open(call: &Call, job: &mut Job) -> (u64, u64) {
    let refusal = open_refusal(call, job);
    if refusal != (0, 0) {
        return refusal;
    }
    let mut start = expected::start(&given(call, job));
    std::mem::swap(&mut start.lent.accepted_per_pass, &mut job.lent.accepted_per_pass);
    job.lent = start.lent;
    job.tile_states.fill(0);
    job.deltas.fill(0);
    let [luminance, chrominance] = radii(&call.params());
    let plan = [call.width, call.height, call.palette.len() as u64 / 3, luminance, chrominance, call.max_passes];
    let (done, phase, accepted, error) = (0, 0, 0, start.initial_error);
    job.record = [&plan[..], &[done, phase, accepted, error, error, u64::from(call.max_passes == 0)]].concat();
    (0, 0)
}

/// What refine would be given.
fn given(call: &Call, job: &Job) -> Call {
    Call { pinned: job.pinned.clone(), lent: job.lent.clone(), ..call.clone() }
}

fn open_refusal(call: &Call, job: &Job) -> (u64, u64) {
    if job.record.len() != RECORD_LEN {
        return (12, 0);
    }
    match expected::refusal(&given(call, job), Asked::Refine) {
        // Buffers 4 and 5 come before 8.
        other @ ((0, 0) | (11, 8)) => {
            let tiles = Tiling::of(call).count() as usize;
            if job.tile_states.len() != tiles {
                (11, 4)
            } else if job.deltas.len() != tiles {
                (11, 5)
            } else {
                other
            }
        }
        refusal => refusal,
    }
}

pub fn call(kind: Kind, job: &mut Job, copy: &mut TileCopy) -> Answer {
    let (number, place) = refusal(kind, job, copy);
    let mut answer = Answer { number, place, accepted: 0, delta: 0 };
    if let (0, Some(record)) = (number, Record::read(&job.record)) {
        match kind {
            Kind::Take => take(&record, job, copy),
            Kind::Work => (answer.accepted, answer.delta) = work(&record, job, copy),
            Kind::PutBack => put_back(&record, job, copy),
            Kind::Recall => job.tile_states[copy.tile as usize] = 0,
            Kind::Close => close(&record, job),
        }
    }
    answer
}

impl Record {
    /// Nothing where row 12 refuses the record.
    fn read(words: &[u64]) -> Option<Self> {
        let &[width, height, inks, luminance, chrominance, allowed, done, phase, accepted, _, _, finished] = words
        else {
            return None;
        };
        let within = |low, x, high| low <= x && x <= high;
        let radius = |radius: u64| radius % 2 == 0 && within(2, radius, 32);
        let fits = within(1, width, 4096)
            && within(0, height, 4096)
            && within(1, inks, 256)
            && radius(luminance)
            && radius(chrominance)
            && within(0, allowed, 1000)
            && within(0, done, allowed)
            && within(0, phase, 3)
            && within(0, finished, 1);
        if !fits || finished == 0 && done == allowed || accepted > width * height {
            return None;
        }
        let tiling = Tiling::new(width, height, [luminance, chrominance]);
        let (pixels, finished) = (width * height, finished == 1);
        Some(Self { tiling, pixels, inks, allowed, phase, accepted, finished })
    }
}

/// Number and place of the first row that holds, in the order in which job calls test them, or 0, 0.
pub fn refusal(kind: Kind, job: &Job, copy: &TileCopy) -> (u64, u64) {
    use Kind::{Close, PutBack, Recall, Take, Work};
    let Some(record) = Record::read(&job.record) else {
        return (12, 0);
    };
    let of = |kinds: &[Kind]| kinds.contains(&kind);
    let (n, tiling, tile) = (record.pixels as usize, record.tiling, copy.tile);
    let tiles = tiling.count();
    let has = tile < tiles;
    let [pixels, copied] = if has { [tiling.tile(tile), tiling.region(tile)].map(area) } else { [0, 0] };
    let too_many = copy.accepted > pixels as u64 || copy.accepted > record.pixels - record.accepted;
    let state = |tile: u64| job.tile_states.get(tile as usize).copied().unwrap_or(0);
    let wrong = job.pinned.iter().position(|&byte| byte > 1);
    let unnamed = copy.indices.iter().position(|&index| u64::from(index) >= record.inks);
    let missing = tiling.of_phase(record.phase).find(|&tile| state(tile) < 2);
    let Buffers { indices, cpe, cpp, accepted_per_pass, inks } = &job.lent;
    let rows = [
        (12, 0, of(&[PutBack]) && has && too_many),
        (16, 0, of(&[Take, PutBack, Recall, Close]) && record.finished),
        (13, 0, of(&[Take, PutBack, Recall]) && !(has && tiling.phase(tile) == record.phase)),
        (13, 0, of(&[Work]) && !has),
        (3, 0, of(&[Take, PutBack]) && indices.len() != n),
        (4, 0, of(&[Work]) && job.pinned.len() != 0 && job.pinned.len() != n),
        (17, wrong.unwrap_or(0) as u64, of(&[Work]) && wrong.is_some()),
        (11, 1, of(&[Take, PutBack]) && cpe.len() != 3 * n),
        (11, 2, of(&[Work]) && cpp.len() != CPP_LEN),
        (11, 3, of(&[Close]) && accepted_per_pass.len() as u64 != record.allowed),
        (11, 4, of(&[Take, PutBack, Recall, Close]) && job.tile_states.len() as u64 != tiles),
        (11, 5, of(&[PutBack, Close]) && job.deltas.len() as u64 != tiles),
        (11, 6, of(&[Take, Work, PutBack]) && copy.cpe.len() != 3 * copied),
        (11, 7, of(&[Take, Work, PutBack]) && copy.indices.len() != copied),
        (11, 8, of(&[Work]) && inks.len() as u64 != 3 * record.inks),
        (14, 0, of(&[Take]) && state(tile) != 0),
        (14, 0, of(&[PutBack, Recall]) && state(tile) != 1),
        (6, unnamed.unwrap_or(0) as u64, of(&[Work, PutBack]) && unnamed.is_some()),
        (15, missing.unwrap_or(0), of(&[Close]) && missing.is_some()),
    ];
    rows.into_iter().find(|row| row.2).map_or((0, 0), |(number, place, _)| (number, place))
}

fn take(record: &Record, job: &mut Job, copy: &mut TileCopy) {
    for (i, at) in record.tiling.places(copy.tile).into_iter().enumerate() {
        copy.cpe[3 * i..3 * i + 3].copy_from_slice(&job.lent.cpe[3 * at..3 * at + 3]);
        copy.indices[i] = job.lent.indices[at];
    }
    job.tile_states[copy.tile as usize] = 1;
}

fn work(record: &Record, job: &Job, copy: &mut TileCopy) -> (u64, u64) {
    let region = record.tiling.region(copy.tile);
    let Buffers { cpp, inks, .. } = &job.lent;
    record.tiling.refine(copy.tile, region, [inks, cpp], &job.pinned, &mut copy.cpe, &mut copy.indices)
}

fn put_back(record: &Record, job: &mut Job, copy: &TileCopy) {
    for (i, at) in record.tiling.places(copy.tile).into_iter().enumerate() {
        job.lent.cpe[3 * at..3 * at + 3].copy_from_slice(&copy.cpe[3 * i..3 * i + 3]);
        job.lent.indices[at] = copy.indices[i];
    }
    job.record[ACCEPTED] += copy.accepted;
    job.deltas[copy.tile as usize] = copy.delta;
    job.tile_states[copy.tile as usize] = 2;
}

fn close(record: &Record, job: &mut Job) {
    let mut error = f64::from_bits(job.record[FINAL_ERROR]);
    for tile in record.tiling.of_phase(record.phase) {
        error += f64::from_bits(job.deltas[tile as usize]);
        job.tile_states[tile as usize] = 0;
    }
    job.record[FINAL_ERROR] = word(error, job.record[FINAL_ERROR]);
    if record.phase < 3 {
        job.record[PHASE] += 1;
        return;
    }
    job.lent.accepted_per_pass[job.record[PASSES_DONE] as usize] = record.accepted as u32;
    job.record[PASSES_DONE] += 1;
    job.record[PHASE] = 0;
    job.record[ACCEPTED] = 0;
    job.record[FINISHED] = u64::from(record.accepted == 0 || job.record[PASSES_DONE] == record.allowed);
}

/// The word of a float where another word stood: a NaN keeps its bits, and a new one has those of Rattle's.
fn word(value: f64, before: u64) -> u64 {
    match (value.is_nan(), is_nan(before)) {
        (false, _) => value.to_bits(),
        (true, true) => before,
        (true, false) => 0x7ff8_0000_0000_0000,
    }
}
