//! Job calls on records, floats and buffers that stem from no open, on both sides of every limit: held to
//! document 01's table and, where accepted, to the copy of the Rust.

use std::collections::BTreeMap;
use std::time::Instant;

use crate::call::{Buffers, Call, CPP_CHROMA, CPP_LEN};
use crate::job::*;
use crate::job_changes::{change, change_record, resize, wild};
use crate::random::Random;
use crate::refusals::{changes, plates};
use crate::tiles::{area, Tiling};
use crate::Section;

pub fn compare(seed: u64, scale: f64) -> Section {
    let start = Instant::now();
    let mut section = Section::new("job calls on any record");
    let mut r = Random(seed);
    let mut answers = BTreeMap::new();
    let (mut quiet, mut signalling) = (0, 0);
    opens(&mut r, &mut section);
    states(&mut r, &mut section);
    for i in 0..(125_000.0 * scale) as u64 {
        let kind = r.pick(&[Kind::Take, Kind::Work, Kind::PutBack, Kind::Recall, Kind::Close]);
        let (tiling, mut job, mut copy) = arbitrary(&mut r, kind);
        for _ in 0..r.pick(&[0, 0, 0, 1, 1, 2, 3]) {
            if r.below(2) == 0 {
                change_record(&mut r, &mut job.record);
            } else {
                change(&mut r, &tiling, &mut job, &mut copy);
            }
        }
        let (answer, difference) = call(kind, &mut job, &mut copy);
        *answers.entry((format!("{kind:?}"), answer.number)).or_insert(0) += 1;
        if answer.number == 0 && matches!(kind, Kind::Take | Kind::PutBack) {
            let nans = || copy.cpe.iter().filter(|&&bits| is_nan(bits));
            quiet += nans().filter(|&&bits| !is_signalling(bits)).count();
            signalling += nans().filter(|&&bits| is_signalling(bits)).count();
        }
        section.check(format_args!("call {i}"), difference);
    }
    let answers: Vec<_> = answers.iter().map(|((kind, number), count)| format!("{kind} {number}: {count}")).collect();
    println!("NaNs that take and put back copied: {quiet} quiet, {signalling} signalling");
    println!("answers of job calls on any record by number: {}", answers.join(", "));
    println!("{}: {}, {:.1} s", section.name, section.count, start.elapsed().as_secs_f64());
    section
}

/// Opens on both sides of each limit, with a record, tile states and deltas of several lengths.
fn opens(r: &mut Random, section: &mut Section) {
    let changes = changes();
    for plate in plates(r) {
        let tiles = if plate.width > 0 { Tiling::of(&plate).count() } else { 0 };
        let mut check = |call: &Call, vary: &mut dyn FnMut(&mut Job)| {
            let mut job = Job::new(call, tiles);
            vary(&mut job);
            let (_, difference) = open(call, &mut job);
            section.check("open", difference);
        };
        check(&plate, &mut |_| ());
        for len in [0, 11, 13] {
            check(&plate, &mut |job| job.record.resize(len, 7));
        }
        for _ in 0..8 {
            check(&plate, &mut |job| resize(r, &mut job.tile_states));
            check(&plate, &mut |job| resize(r, &mut job.deltas));
        }
        for change in &changes {
            let mut call = plate.clone();
            (change.make)(&mut call);
            check(&call, &mut |_| ());
            check(&call, &mut |job| {
                for _ in 0..2 {
                    match r.below(4) {
                        0 => resize(r, &mut job.record),
                        1 => resize(r, &mut job.tile_states),
                        2 => resize(r, &mut job.deltas),
                        _ => resize(r, &mut job.lent.inks),
                    }
                }
            });
        }
    }
}

/// Each byte as the state of a tile of this phase, where nothing else speaks against a call on it.
fn states(r: &mut Random, section: &mut Section) {
    for kind in [Kind::Take, Kind::PutBack, Kind::Recall] {
        for byte in 0..=255 {
            let (tiling, mut job, mut copy) = loop {
                let given = arbitrary(r, kind);
                if given.0.count() > 0 {
                    break given;
                }
            };
            (job.record[PASSES_DONE], job.record[FINISHED]) = (0, 0);
            job.record[PHASE] = tiling.phase(copy.tile);
            job.tile_states[copy.tile as usize] = byte;
            let (_, difference) = call(kind, &mut job, &mut copy);
            section.check(format_args!("state {byte}"), difference);
        }
    }
}

/// A record within the limits, often at one of them, and what a call of this kind is given, of the right
/// lengths. Most of these calls are accepted.
fn arbitrary(r: &mut Random, kind: Kind) -> (Tiling, Job, TileCopy) {
    let mostly = |r: &mut Random| r.below(10) > 0;
    let (width, height) = size(r, kind);
    let radii = [(); 2].map(|()| 2 * r.pick(&[1, 1, 2, 3, 6, 15, 16]));
    let tiling = Tiling::new(width, height, radii);
    let (n, tiles) = (area(tiling.image()) as u64, tiling.count());
    let tile = r.below(tiles.max(1));
    let has = tile < tiles;
    let phase = if has && mostly(r) { tiling.phase(tile) } else { r.below(4) };
    let inks = r.pick(&[1, 2, 3, 4, 5, 6, 255, 256]);
    let allowed = r.pick(&[1, 2, 3, 10, 999, 1000]);
    let finished = u64::from(!mostly(r));
    let done = r.pick(&[0, allowed / 2, allowed - 1, allowed - 1 + finished]);
    let [pixels, copied] = if has { [tiling.tile(tile), tiling.region(tile)].map(area) } else { [0, 0] };
    let accepted = r.pick(&[0, 1, n / 2, n.saturating_sub(1), n]).min(n);
    let count = r.pick(&[0, 1, pixels as u64, n - accepted]).min(pixels as u64).min(n - accepted);
    let [luminance, chrominance] = radii;
    let (initial, error) = (wild(r), wild(r));
    let record =
        vec![width, height, inks, luminance, chrominance, allowed, done, phase, accepted, initial, error, finished];
    let on_image = matches!(kind, Kind::Take | Kind::PutBack);
    let length = |given: bool, len: u64| if given { len as usize } else { 0 };
    let mut bytes = |len: usize| (0..len).map(|_| r.byte()).collect::<Vec<_>>();
    let pinned = bytes(length(kind == Kind::Work && n < 1 << 20, n)).into_iter().map(|byte| byte % 2).collect();
    let indices = bytes(length(on_image, n));
    let copy_indices = bytes(copied).into_iter().map(|byte| (u64::from(byte) % inks) as u8).collect();
    let job = Job {
        record,
        pinned: if r.below(3) == 0 { vec![] } else { pinned },
        tile_states: tile_states(r, kind, &tiling, tile, phase),
        deltas: floats(r, length(matches!(kind, Kind::PutBack | Kind::Close), tiles)),
        lent: Buffers {
            indices,
            cpe: floats(r, length(on_image, 3 * n)),
            cpp: if kind == Kind::Work { kernels(r, radii) } else { vec![] },
            accepted_per_pass: (0..length(kind == Kind::Close, allowed)).map(|i| i as u32).collect(),
            inks: floats(r, length(kind == Kind::Work, 3 * inks)),
        },
    };
    let copy = TileCopy { tile, cpe: floats(r, 3 * copied), indices: copy_indices, accepted: count, delta: wild(r) };
    (tiling, job, copy)
}

/// Mostly small; sometimes of several tiles. Work, recall and close are not given the image: theirs is sometimes
/// the largest.
fn size(r: &mut Random, kind: Kind) -> (u64, u64) {
    match r.below(200) {
        0 | 1 if !matches!(kind, Kind::Take | Kind::PutBack) => (4096, 4096),
        0..=2 => (4096, r.between(0, 2)),
        3 => (r.between(1, 2), 4096),
        4..=13 => (r.between(65, 200), r.between(0, 2)),
        14..=23 => (r.between(1, 2), r.between(65, 200)),
        24..=26 => (r.between(65, 135), r.between(65, 135)),
        27..=32 => (r.between(1, 8), 0),
        _ => (r.between(1, 8), r.between(1, 6)),
    }
}

/// States with which this call is mostly accepted, and any others.
fn tile_states(r: &mut Random, kind: Kind, tiling: &Tiling, tile: u64, phase: u64) -> Vec<u8> {
    let all_back = r.below(10) > 0;
    let state = |r: &mut Random, t: u64| match kind {
        Kind::Take if t == tile && r.below(10) > 0 => 0,
        Kind::PutBack | Kind::Recall if t == tile && r.below(10) > 0 => 1,
        Kind::Close if all_back && tiling.phase(t) == phase => r.pick(&[2, 2, 3, 255]),
        _ => r.pick(&[0, 1, 2, 3, 255]),
    };
    (0..tiling.count()).map(|t| state(r, t)).collect()
}

/// Usual values, with none, few or only wild ones among them.
fn floats(r: &mut Random, len: usize) -> Vec<u64> {
    let every = r.pick(&[1, 20, u64::MAX, u64::MAX]);
    let value = |r: &mut Random| if r.below(every) == 0 { wild(r) } else { (200.0 * r.fraction() - 100.0).to_bits() };
    (0..len).map(|_| value(r)).collect()
}

/// A store of kernels that fall off from their centres, with none or few wild values among them.
fn kernels(r: &mut Random, radii: [u64; 2]) -> Vec<u64> {
    let mut store = vec![wild(r); CPP_LEN];
    let every = r.pick(&[30, u64::MAX, u64::MAX]);
    for (start, radius) in [0, CPP_CHROMA].into_iter().zip(radii.map(|radius| radius as i32)) {
        let size = 2 * radius + 1;
        for (i, cell) in (0..size * size).zip(&mut store[start..]) {
            let [x, y] = [i % size - radius, i / size - radius];
            *cell = if r.below(every) == 0 { wild(r) } else { f64::from(1 + x * x + y * y).recip().to_bits() };
        }
    }
    store
}
