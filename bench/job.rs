//! A job of the library, its tiles shared by threads.

use std::sync::{Condvar, Mutex};

use crate::image::Image;
use crate::library::{Library, Status, Worked, LINKED};
use crate::outcome::Outcome;
use crate::times::{processor_time_of, Times};

// Places in a job record.
const LUMINANCE_RADIUS: usize = 3;
const CHROMINANCE_RADIUS: usize = 4;
const PASSES_DONE: usize = 6;
const PHASE: usize = 7;
const INITIAL_ERROR: usize = 9;
const FINAL_ERROR: usize = 10;
const FINISHED: usize = 11;
const RECORD_LEN: usize = 12;

struct Tiling {
    width: usize,
    height: usize,
    margin: usize,
    side: usize,
    columns: usize,
    rows: usize,
}

impl Tiling {
    /// The tiling of an image whose larger kernel radius is this.
    fn new(image: &Image, radius: usize) -> Self {
        let margin = radius + 1;
        let side = (2 * margin + 1).max(64);
        let (columns, rows) = (image.width.div_ceil(side), image.height.div_ceil(side));
        Self { width: image.width, height: image.height, margin, side, columns, rows }
    }

    fn phase(&self, tile: usize) -> usize {
        tile % self.columns % 2 + 2 * (tile / self.columns % 2)
    }

    fn region_pixels(&self, tile: usize) -> usize {
        let length = |i: usize, limit: usize| {
            let (start, end) = (i * self.side, ((i + 1) * self.side).min(limit));
            (end + self.margin).min(limit) - start.saturating_sub(self.margin)
        };
        length(tile % self.columns, self.width) * length(tile / self.columns, self.height)
    }
}

/// Opens the job and returns its record. Tiles have one side up to kernel radius 30 and another at 32: a refusal for
/// the length of the tile states changes nothing, so both are tried.
fn open(
    library: Library,
    image: &Image,
    max_passes: usize,
    result: &mut Outcome,
) -> ([u64; RECORD_LEN], Vec<u8>, Vec<f64>) {
    for radius in [30, 32] {
        let tiling = Tiling::new(image, radius);
        let tiles = tiling.columns * tiling.rows;
        let (mut record, mut tile_states, mut deltas) = ([0; RECORD_LEN], vec![0; tiles], vec![0.0; tiles]);
        // Sound: every slice is live and none overlaps another.
        let status = unsafe {
            (library.dbs_open)(
                record.as_mut_ptr(),
                RECORD_LEN,
                image.pixels.as_ptr(),
                image.pixels.len(),
                image.width as u64,
                image.height as u64,
                image.palette.as_ptr(),
                image.palette.len(),
                result.indices.as_ptr(),
                result.indices.len(),
                image.pinned.as_ptr(),
                image.pinned.len(),
                image.ppi,
                image.viewing_distance_cm,
                max_passes as u64,
                result.cpe.as_mut_ptr(),
                result.cpe.len(),
                result.cpp.as_mut_ptr(),
                result.cpp.len(),
                result.accepted_per_pass.as_ptr(),
                max_passes,
                tile_states.as_mut_ptr(),
                tiles,
                deltas.as_mut_ptr(),
                tiles,
                result.inks.as_mut_ptr(),
                result.inks.len(),
            )
        };
        if (status.number, status.place) != (11, 4) {
            accepted(status, "dbs_open");
            return (record, tile_states, deltas);
        }
    }
    panic!("dbs_open refused both numbers of tiles");
}

fn accepted(status: Status, call: &str) {
    assert_eq!((status.number, status.place), (0, 0), "{call} refused");
}

/// What take, put_back and close change, under one lock.
struct Job<'a> {
    library: Library,
    record: [u64; RECORD_LEN],
    indices: &'a mut [u8],
    cpe: &'a mut [f64],
    accepted_per_pass: &'a mut [u32],
    tile_states: Vec<u8>,
    deltas: Vec<f64>,
    next: usize,
    out: usize,
}

/// What no call changes while workers run.
struct Fixed<'a> {
    library: Library,
    tiling: Tiling,
    pinned: &'a [u8],
    cpp: &'a [f64],
    inks: &'a [f64],
}

/// A worker's own copy of a region.
#[derive(Clone)]
struct Copy {
    cpe: Vec<f64>,
    indices: Vec<u8>,
}

impl Copy {
    /// Room for every region.
    fn new(tiling: &Tiling) -> Self {
        let most = (tiling.side + 2 * tiling.margin).pow(2).min(tiling.width * tiling.height);
        Self { cpe: vec![1.0; 3 * most], indices: vec![1; most] }
    }
}

impl Job<'_> {
    fn next_tile(&mut self, tiling: &Tiling) -> Option<usize> {
        let phase = self.record[PHASE] as usize;
        let tile = (self.next..self.tile_states.len()).find(|&tile| tiling.phase(tile) == phase)?;
        self.next = tile + 1;
        Some(tile)
    }

    fn take(&mut self, tile: usize, pixels: usize, copy: &mut Copy) {
        assert!(3 * pixels <= copy.cpe.len() && pixels <= copy.indices.len());
        // Sound: as above, the copies cut to the region's length.
        let status = unsafe {
            (self.library.dbs_take)(
                self.record.as_ptr(),
                RECORD_LEN,
                tile as u64,
                self.indices.as_ptr(),
                self.indices.len(),
                self.cpe.as_ptr(),
                self.cpe.len(),
                self.tile_states.as_mut_ptr(),
                self.tile_states.len(),
                copy.cpe.as_mut_ptr(),
                3 * pixels,
                copy.indices.as_mut_ptr(),
                pixels,
            )
        };
        accepted(status, "dbs_take");
        self.out += 1;
    }

    fn put_back(&mut self, tile: usize, pixels: usize, copy: &Copy, worked: Worked) {
        assert_eq!((worked.number, worked.place), (0, 0), "dbs_work refused");
        // Sound: as in take.
        let status = unsafe {
            (self.library.dbs_put_back)(
                self.record.as_mut_ptr(),
                RECORD_LEN,
                tile as u64,
                self.indices.as_mut_ptr(),
                self.indices.len(),
                self.cpe.as_mut_ptr(),
                self.cpe.len(),
                self.tile_states.as_mut_ptr(),
                self.tile_states.len(),
                self.deltas.as_mut_ptr(),
                self.deltas.len(),
                copy.cpe.as_ptr(),
                3 * pixels,
                copy.indices.as_ptr(),
                pixels,
                worked.accepted,
                worked.delta,
            )
        };
        accepted(status, "dbs_put_back");
        self.out -= 1;
    }

    fn close(&mut self) {
        // Sound: as above.
        let status = unsafe {
            (self.library.dbs_close)(
                self.record.as_mut_ptr(),
                RECORD_LEN,
                self.accepted_per_pass.as_mut_ptr(),
                self.accepted_per_pass.len(),
                self.tile_states.as_mut_ptr(),
                self.tile_states.len(),
                self.deltas.as_ptr(),
                self.deltas.len(),
            )
        };
        accepted(status, "dbs_close");
        self.next = 0;
    }
}

/// `dbs_work` on a copy. Reads nothing of the job but what is fixed.
fn refine_copy(record: &[u64; RECORD_LEN], tile: usize, pixels: usize, fixed: &Fixed, copy: &mut Copy) -> Worked {
    assert!(3 * pixels <= copy.cpe.len() && pixels <= copy.indices.len());
    // Sound: as in take.
    unsafe {
        (fixed.library.dbs_work)(
            record.as_ptr(),
            RECORD_LEN,
            tile as u64,
            fixed.pinned.as_ptr(),
            fixed.pinned.len(),
            fixed.cpp.as_ptr(),
            fixed.cpp.len(),
            copy.cpe.as_mut_ptr(),
            3 * pixels,
            copy.indices.as_mut_ptr(),
            pixels,
            fixed.inks.as_ptr(),
            fixed.inks.len(),
        )
    }
}

/// Takes tiles until the job is finished.
fn work(job: &Mutex<Job>, closed: &Condvar, fixed: &Fixed, copy: &mut Copy) {
    let mut guard = job.lock().unwrap();
    while guard.record[FINISHED] == 0 {
        if let Some(tile) = guard.next_tile(&fixed.tiling) {
            let pixels = fixed.tiling.region_pixels(tile);
            guard.take(tile, pixels, copy);
            let record = guard.record;
            drop(guard);
            let worked = refine_copy(&record, tile, pixels, fixed, copy);
            guard = job.lock().unwrap();
            guard.put_back(tile, pixels, copy, worked);
        } else if guard.out > 0 {
            guard = closed.wait(guard).unwrap();
        } else {
            guard.close();
            closed.notify_all();
        }
    }
}

/// An open job on the buffers of `result`, whose indices are the start, and what is fixed; with the time of open.
fn opened<'a>(
    library: Library,
    image: &'a Image,
    max_passes: usize,
    result: &'a mut Outcome,
    opens: &mut Times,
) -> (Job<'a>, Fixed<'a>) {
    let (record, tile_states, deltas) = opens.add(|| open(library, image, max_passes, result));
    let tiling = Tiling::new(image, record[LUMINANCE_RADIUS].max(record[CHROMINANCE_RADIUS]) as usize);
    let Outcome { indices, cpe, cpp, inks, accepted_per_pass, .. } = result;
    let job = Job { library, record, indices, cpe, accepted_per_pass, tile_states, deltas, next: 0, out: 0 };
    (job, Fixed { library, tiling, pinned: &image.pinned, cpp, inks })
}

/// A job on the buffers of `result`, whose indices are the start, with the times of open and of everything after it. The
/// workers' copies are allocated between the two.
pub fn refine(
    image: &Image,
    max_passes: usize,
    threads: usize,
    result: &mut Outcome,
    opens: &mut Times,
    works: &mut Times,
) {
    let (job, fixed) = opened(LINKED, image, max_passes, result, opens);
    let mut copies: Vec<Copy> = (0..threads).map(|_| Copy::new(&fixed.tiling)).collect();
    let (job, closed) = (Mutex::new(job), Condvar::new());
    works.add(|| {
        std::thread::scope(|scope| {
            for copy in &mut copies {
                scope.spawn(|| work(&job, &closed, &fixed, copy));
            }
        })
    });
    let record = job.into_inner().unwrap().record;
    tell(&record, result);
}

fn tell(record: &[u64; RECORD_LEN], result: &mut Outcome) {
    result.passes = record[PASSES_DONE];
    result.initial_error = f64::from_bits(record[INITIAL_ERROR]);
    result.final_error = f64::from_bits(record[FINAL_ERROR]);
}

/// A job by one library, on one thread; of each tile the milliseconds in which it is taken, worked and put back, in order.
pub fn tile_times(library: Library, image: &Image, max_passes: usize, result: &mut Outcome) -> Vec<f64> {
    let (mut job, fixed) = opened(library, image, max_passes, result, &mut Times::default());
    let mut copy = Copy::new(&fixed.tiling);
    let mut times = vec![];
    while job.record[FINISHED] == 0 {
        let Some(tile) = job.next_tile(&fixed.tiling) else {
            job.close();
            continue;
        };
        let pixels = fixed.tiling.region_pixels(tile);
        times.push(processor_time_of(|| {
            job.take(tile, pixels, &mut copy);
            let worked = refine_copy(&job.record, tile, pixels, &fixed, &mut copy);
            job.put_back(tile, pixels, &copy, worked);
        }));
    }
    let record = job.record;
    tell(&record, result);
    times
}

/// The milliseconds in which a library opens a job.
pub fn open_time(library: Library, image: &Image, max_passes: usize, result: &mut Outcome) -> Vec<f64> {
    vec![processor_time_of(|| drop(opened(library, image, max_passes, result, &mut Times::default())))]
}

/// The first tile of an open job, to be worked on again and again as it was taken.
pub struct FirstTile<'a> {
    record: [u64; RECORD_LEN],
    pixels: usize,
    fixed: Fixed<'a>,
    taken: Copy,
    copy: Copy,
    /// Number and place that `dbs_work` is to answer.
    answer: (u64, u64),
}

impl<'a> FirstTile<'a> {
    /// Of a job on the buffers of `result`, whose indices are the start.
    pub fn new(image: &'a Image, result: &'a mut Outcome) -> Self {
        let (mut job, fixed) = opened(LINKED, image, 1, result, &mut Times::default());
        let (pixels, mut taken) = (fixed.tiling.region_pixels(0), Copy::new(&fixed.tiling));
        job.take(0, pixels, &mut taken);
        Self { record: job.record, pixels, fixed, copy: taken.clone(), taken, answer: (0, 0) }
    }

    /// With a kernel store that is a value short: `dbs_work` refuses it once the mask is tested, and refines nothing.
    pub fn refused(mut self) -> Self {
        self.fixed.cpp = &self.fixed.cpp[1..];
        self.answer = (11, 2);
        self
    }

    /// The time of `dbs_work` with this mask. The copy is made as it was taken before that.
    pub fn work(&mut self, pinned: &'a [u8], times: &mut Times) {
        self.fixed.pinned = pinned;
        self.copy.cpe.copy_from_slice(&self.taken.cpe);
        self.copy.indices.copy_from_slice(&self.taken.indices);
        let worked = times.add(|| refine_copy(&self.record, 0, self.pixels, &self.fixed, &mut self.copy));
        assert_eq!((worked.number, worked.place), self.answer, "what dbs_work answered");
    }
}
