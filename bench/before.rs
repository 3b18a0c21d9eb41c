//! The library and one from before it, whose calls are declared as they are now: in one program, in turn, on the same
//! buffers.
//!
//! Where a linker puts code makes one or two hundredths of a pass, though the code is the same. So bench/run makes shared
//! objects of each library with its code moved by several offsets, and what is compared are means over these.

use crate::image::{image, Image, Input};
use crate::job;
use crate::library::Library;
use crate::outcome::Outcome;
use crate::times::processor_time_of;
use crate::{report, settle, MAX_PASSES, PICTURE};

/// In bytes, as bench/run has them.
const OFFSETS: [usize; 4] = [0, 16, 32, 48];

/// A part of a job or one call, on the buffers that it is lent: the milliseconds of processor time of its steps.
type Part = fn(Library, &Image, usize, &mut Outcome) -> Vec<f64>;

pub fn print(runs: usize) {
    let load = |which, offset| Library::load(&format!("target/bench/{which}-{offset}.so"));
    let libraries: Vec<Library> =
        OFFSETS.iter().flat_map(|offset| [load("before", offset), load("after", offset)]).collect();
    println!(
        "Error-diffused picture, {}x{} pixels, 40 cm, {} inks. Both libraries at {} offsets of their code, {runs} runs in\n\
         turn; what they leave is bit-equal. Processor time, the least of all runs for each call or, where passes are told,\n\
         for each tile, then the sum over all tiles: mean over the offsets (from, to).\n",
        PICTURE.width,
        PICTURE.height,
        PICTURE.inks,
        OFFSETS.len(),
    );
    for ppi in [127.0, 40.0, 340.0] {
        let plain = image(Input { ppi, ..PICTURE });
        let masked = plain.with_free_mask();
        let mut lent = Outcome::new(&plain, MAX_PASSES);
        settle(&plain, &mut lent);
        let settled = Image { indices: lent.indices, ..plain.clone() };
        println!("{ppi} per inch:\n");
        println!("| part | before, ms | after, ms | after / before |");
        println!("|---|---|---|---|");
        let parts: [(&str, &Image, usize, Part); 8] = [
            ("job: passes", &plain, MAX_PASSES, job::tile_times),
            ("job, mask: passes", &masked, MAX_PASSES, job::tile_times),
            ("job: open", &plain, MAX_PASSES, job::open_time),
            ("job, mask: open", &masked, MAX_PASSES, job::open_time),
            ("perceived_error", &plain, 0, measure),
            ("dbs_find_move, settled", &settled, 0, find_move),
            ("whole refine", &plain, MAX_PASSES, refine),
            ("whole refine, mask", &masked, MAX_PASSES, refine),
        ];
        for (name, image, passes, part) in parts {
            print_row(name, &least_sums(&libraries, image, passes, runs, part));
        }
        println!();
    }
}

fn refine(library: Library, image: &Image, passes: usize, lent: &mut Outcome) -> Vec<f64> {
    vec![processor_time_of(|| library.refine(image, passes, lent))]
}

fn find_move(library: Library, image: &Image, _: usize, lent: &mut Outcome) -> Vec<f64> {
    vec![processor_time_of(|| assert_eq!(library.find_move(image, lent), None))]
}

fn measure(library: Library, image: &Image, _: usize, lent: &mut Outcome) -> Vec<f64> {
    vec![processor_time_of(|| lent.initial_error = library.measure(image, &lent.indices))]
}

/// Of each library the sum over all steps of the least time that the step took in any run.
fn least_sums(libraries: &[Library], image: &Image, passes: usize, runs: usize, part: Part) -> Vec<f64> {
    let mut least: Vec<Option<Vec<f64>>> = vec![None; libraries.len()];
    let (mut lent, mut expected) = (Outcome::new(image, passes), None);
    for _ in 0..runs {
        for (&library, least) in libraries.iter().zip(&mut least) {
            lent.indices.copy_from_slice(&image.indices);
            let times = part(library, image, passes, &mut lent);
            report(expected.get_or_insert_with(|| lent.clone()).difference(&lent));
            let known = least.get_or_insert_with(|| times.clone());
            known.iter_mut().zip(times).for_each(|(known, time)| *known = known.min(time));
        }
    }
    least.into_iter().flatten().map(|times| times.iter().sum()).collect()
}

/// Of times in the order of the libraries: before and after at each offset.
fn print_row(name: &str, times: &[f64]) {
    let of = |which: usize| {
        let times: Vec<f64> = times.iter().copied().skip(which).step_by(2).collect();
        let mean = times.iter().sum::<f64>() / times.len() as f64;
        let least = times.iter().copied().fold(f64::INFINITY, f64::min);
        let most = times.iter().copied().fold(0.0, f64::max);
        (mean, format!("{mean:.2} ({least:.2}, {most:.2})"))
    };
    let ((before, before_cell), (after, after_cell)) = (of(0), of(1));
    println!("| {name} | {before_cell} | {after_cell} | {:.3} |", after / before);
}
