//! What a mask costs a job. Every `dbs_work` tests the whole mask, however small its tile.

use crate::image::{image, Image, Input};
use crate::job::{self, FirstTile};
use crate::outcome::Outcome;
use crate::times::Times;
use crate::{report, MAX_PASSES, PICTURE};

/// Works on one tile, for each run.
const REPETITIONS: usize = 200;

struct Size {
    width: usize,
    height: usize,
    /// Jobs of each kind, for each run.
    jobs: usize,
    /// Passes that each kind is allowed.
    passes: &'static [usize],
}

/// That of the other tables, with the late passes, in which little but the scan is done; and the largest.
const SIZES: [Size; 2] = [
    Size { width: PICTURE.width, height: PICTURE.height, jobs: 10, passes: &[1, MAX_PASSES] },
    Size { width: 4096, height: 4096, jobs: 1, passes: &[1] },
];

pub fn print(runs: usize) {
    println!(
        "Error-diffused picture, {} per inch, 40 cm, {} inks. Library, one thread, without a mask and with one that pins\n\
         nothing, in turn; what the jobs leave is bit-equal. Processor time: median, least.\n",
        PICTURE.ppi, PICTURE.inks,
    );
    for size in &SIZES {
        let plain = image(Input { width: size.width, height: size.height, ..PICTURE });
        let masked = plain.with_free_mask();
        let (jobs, works) = (runs * size.jobs, runs * REPETITIONS);
        println!("{}x{} pixels; of each {jobs} jobs, {works} works on the first tile:\n", size.width, size.height);
        println!("| part | no mask | mask | mask less no mask | mask / no mask |");
        println!("|---|---|---|---|---|");
        for &passes in size.passes {
            print_jobs(&plain, &masked, passes, jobs);
        }
        print_works(&plain, &masked.pinned, works);
        println!();
    }
}

fn print_jobs(plain: &Image, masked: &Image, passes: usize, jobs: usize) {
    let mut kinds =
        [plain, masked].map(|image| (image, Outcome::new(image, passes), Times::default(), Times::default()));
    for _ in 0..jobs {
        for (image, lent, opens, works) in &mut kinds {
            lent.indices.copy_from_slice(&image.indices);
            job::refine(image, passes, 1, lent, opens, works);
        }
        report(kinds[0].1.difference(&kinds[1].1));
    }
    let [(_, _, plain_opens, plain_works), (_, _, masked_opens, masked_works)] = &kinds;
    print_row(&format!("job, passes: {passes}; open, ms"), 1.0, plain_opens, masked_opens);
    print_row(&format!("job, passes: {passes}; passes, ms"), 1.0, plain_works, masked_works);
}

/// A tile pays for the scan of the mask, for looking at its pins, and for what the scan drives from the cache. A work that
/// is refused for what is tested after the mask pays for the scan alone.
fn print_works(image: &Image, pinned: &[u8], works: usize) {
    let mut lent = Outcome::new(image, 1);
    let mut tile = FirstTile::new(image, &mut lent);
    let [without, with] = work_in_turn(&mut tile, pinned, works);
    print_row("dbs_work on a tile, µs", 1e3, &without, &with);
    let [without, with] = work_in_turn(&mut tile.refused(), pinned, works);
    print_row("dbs_work refused after the test of the mask: the scan alone, µs", 1e3, &without, &with);
}

fn work_in_turn<'a>(tile: &mut FirstTile<'a>, pinned: &'a [u8], works: usize) -> [Times; 2] {
    let mut times = [Times::default(), Times::default()];
    for _ in 0..works {
        tile.work(&[], &mut times[0]);
        tile.work(pinned, &mut times[1]);
    }
    times
}

/// In a unit of which a millisecond has so many.
fn print_row(name: &str, units: f64, without: &Times, with: &Times) {
    let of = |times: &Times| [times.median(), times.least()].map(|time| time.processor * units);
    let cells = |[median, least]: [f64; 2]| format!("{median:.1}, {least:.1}");
    let ([a, b], [median, least]) = ([without, with].map(of), with.ratios(without));
    let more = [b[0] - a[0], b[1] - a[1]];
    println!("| {name} | {} | {} | {} | {median:.3}, {least:.3} |", cells(a), cells(b), cells(more));
}
