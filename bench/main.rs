//! The library and the copy of the Rust, measured in one run on the same images; what they leave is compared. Built and
//! run by bench/run.

mod before;
mod image;
mod job;
mod library;
#[path = "../compare/light_table.rs"]
mod light_table;
mod mask;
#[allow(dead_code)]
#[path = "../compare/original.rs"]
mod original;
mod outcome;
mod rust;
mod times;

use std::fs::read_to_string;
use std::process::ExitCode;

use image::{image, Image, Input, Start};
use library::LINKED;
use outcome::Outcome;
use times::Times;

const MAX_PASSES: usize = 10;

/// As many as the library allows.
const MOST_PASSES: usize = 1000;

/// The input of the tables of parts, sizes, passes, a settled picture and a mask.
const PICTURE: Input = Input { start: Start::Diffused, width: 800, height: 480, inks: 7, ppi: 127.0, caption: false, vivid: false };

fn main() -> ExitCode {
    let words: Vec<String> = std::env::args().skip(1).collect();
    let words: Vec<&str> = words.iter().map(String::as_str).collect();
    let (table, rest) = match words.as_slice() {
        [table @ ("--inputs" | "--sizes" | "--passes" | "--settled" | "--mask" | "--before"), rest @ ..] => (*table, rest),
        rest => ("--parts", rest),
    };
    let runs = match rest {
        [] => Some(5),
        ["--runs", runs] => runs.parse().ok().filter(|&runs: &usize| runs > 0),
        _ => None,
    };
    let Some(runs) = runs else {
        eprintln!("usage: bench/run [--inputs | --sizes | --passes | --settled | --mask | --before LIBRARY] [--runs N]");
        return ExitCode::from(2);
    };
    println!("{}", machine());
    match table {
        "--settled" => print_converged(runs),
        "--mask" => mask::print(runs),
        "--before" => before::print(runs),
        _ => print_beside_copy(table, runs),
    }
    println!("{}", machine());
    ExitCode::SUCCESS
}

fn print_beside_copy(table: &str, runs: usize) {
    println!(
        "40 cm, at most {MAX_PASSES} passes, 7 inks where no number is given; {runs} runs, library and copy in turn."
    );
    println!("Library: buffers allocated and cleared once before, lent to every run and not cleared in between.");
    println!("Copy of the Rust: allocates its own in each run, within its time.\n");
    match table {
        "--inputs" => print_inputs(runs),
        "--sizes" => print_sizes(runs),
        "--passes" => print_passes(runs),
        _ => [127.0, 40.0, 340.0].into_iter().for_each(|ppi| print_parts(ppi, runs)),
    }
}

/// Processor, number of cores, load.
fn machine() -> String {
    let processor = read_to_string("/proc/cpuinfo").unwrap_or_default();
    let model = processor.lines().find_map(|line| line.strip_prefix("model name")).unwrap_or("unknown");
    let cores = std::thread::available_parallelism().map_or(0, usize::from);
    let load = read_to_string("/proc/loadavg").unwrap_or_default();
    let load = load.split(' ').next().unwrap_or("unknown");
    format!("Processor {}, {cores} cores, load {load}.", model.trim_start_matches([' ', '\t', ':']))
}

/// Times of the parts of one implementation.
#[derive(Default)]
struct Parts {
    build_up: Times,
    whole: Times,
    measure: Times,
}

/// One run of both on the same image; says what differs. `lent` are the library's buffers.
fn run(image: &Image, lent: &mut Outcome, ours: &mut Parts, rusts: &mut Parts) -> Outcome {
    lent.indices.copy_from_slice(&image.indices);
    ours.build_up.add(|| LINKED.refine(image, 0, lent));
    rusts.build_up.add(|| rust::refine(image, 0));
    ours.whole.add(|| LINKED.refine(image, MAX_PASSES, lent));
    let expected = rusts.whole.add(|| rust::refine(image, MAX_PASSES)).outcome(image, MAX_PASSES);
    report(lent.difference(&expected));
    let found = ours.measure.add(|| LINKED.measure(image, &image.indices));
    let measured = rusts.measure.add(|| rust::measure(image));
    report((found.to_bits() != measured.to_bits()).then_some("perceived error"));
    expected
}

fn report(difference: Option<&str>) {
    if let Some(part) = difference {
        println!("NOT bit-equal: {part}");
        std::process::exit(1);
    }
}

fn print_parts(ppi: f64, runs: usize) {
    let image = image(Input { ppi, ..PICTURE });
    let mut lent = Outcome::new(&image, MAX_PASSES);
    let (mut ours, mut rusts, mut fresh) = (Parts::default(), Parts::default(), Times::default());
    // The copy runs without a mask: it is the same refinement.
    let masked = image.with_free_mask();
    let mut jobs = [(1, &image), (1, &masked), (2, &image), (2, &masked)]
        .map(|(threads, image)| (threads, image, Times::default(), Times::default()));
    let mut passes = 0;
    for _ in 0..runs {
        let expected = run(&image, &mut lent, &mut ours, &mut rusts);
        passes = expected.passes;
        let found = fresh.add(|| {
            let mut outcome = Outcome::new(&image, MAX_PASSES);
            LINKED.refine(&image, MAX_PASSES, &mut outcome);
            outcome
        });
        report(found.difference(&expected));
        for (threads, image, opens, works) in &mut jobs {
            lent.indices.copy_from_slice(&image.indices);
            job::refine(image, MAX_PASSES, *threads, &mut lent, opens, works);
            report(lent.difference(&expected));
        }
    }
    println!(
        "Error-diffused picture, {}x{} pixels, {ppi} per inch, {passes} passes run; medians; all bit-equal:\n",
        image.width, image.height
    );
    println!("| part | library, ms | Rust, ms | ratio | processor time: library, ms | Rust, ms | ratio |");
    println!("|---|---|---|---|---|---|---|");
    let row = |name: &str, ours: &Times, rusts: &Times| {
        let (ours, rusts) = (ours.median(), rusts.median());
        let cells = |ours: f64, rusts: f64| format!("{ours:.0} | {rusts:.0} | {:.2}", ours / rusts);
        println!("| {name} | {} | {} |", cells(ours.clock, rusts.clock), cells(ours.processor, rusts.processor));
    };
    let rust_passes = rusts.whole.less(&rusts.build_up);
    row("build-up (0 passes allowed)", &ours.build_up, &rusts.build_up);
    row("passes (whole less build-up)", &ours.whole.less(&ours.build_up), &rust_passes);
    row("whole refine", &ours.whole, &rusts.whole);
    row("whole refine, buffers allocated within", &fresh, &rusts.whole);
    let [(_, _, opens, unmasked), (_, _, _, masked), ..] = &jobs;
    row("job: open", opens, &rusts.build_up);
    for (threads, image, opens, works) in &jobs {
        let mask = if image.pinned.is_empty() { "" } else { ", mask" };
        row(&format!("job, threads: {threads}{mask}; passes"), works, &rust_passes);
        row(&format!("job, threads: {threads}{mask}; whole"), &opens.plus(works), &rusts.whole);
    }
    row("perceived_error", &ours.measure, &rusts.measure);
    let [median, least] = masked.ratios(unmasked);
    println!("\nJob, threads: 1; passes, processor time, mask / no mask: median {median:.3}, least {least:.3}.\n");
}

fn print_sizes(runs: usize) {
    println!("Error-diffused picture, 127 per inch. Processor time, medians. Each cell: library / Rust.\n");
    println!("| pixels | build-up, ms | passes, ms | whole refine, ms | whole, ns a pixel | perceived_error, ms |");
    println!("|---|---|---|---|---|---|");
    for (width, height) in [(200, 120), (400, 240), (800, 480), (1600, 960)] {
        let image = image(Input { width, height, ..PICTURE });
        let mut lent = Outcome::new(&image, MAX_PASSES);
        let (mut ours, mut rusts) = (Parts::default(), Parts::default());
        for _ in 0..runs {
            run(&image, &mut lent, &mut ours, &mut rusts);
        }
        let cell = |of: fn(&Parts) -> f64| format!("{:.0} / {:.0}", of(&ours), of(&rusts));
        let pixels = (width * height) as f64;
        println!(
            "| {width}x{height} | {} | {} | {} | {:.0} / {:.0} | {} |",
            cell(|p| p.build_up.median().processor),
            cell(|p| p.whole.less(&p.build_up).median().processor),
            cell(|p| p.whole.median().processor),
            ours.whole.median().processor * 1e6 / pixels,
            rusts.whole.median().processor * 1e6 / pixels,
            cell(|p| p.measure.median().processor),
        );
    }
    println!("\nEvery run was bit-equal.");
}

/// Inputs of several kinds: the time of the passes. Those with a caption follow the same without.
fn inputs() -> Vec<Input> {
    let random = Input { start: Start::Random, ..PICTURE };
    let mut inputs = vec![];
    for input in [PICTURE, random] {
        inputs.extend([40.0, 127.0, 340.0].map(|ppi| Input { ppi, ..input }));
    }
    inputs.extend([PICTURE, random].map(|input| Input { caption: true, ..input }));
    inputs.push(Input { vivid: true, ..PICTURE });
    inputs.extend([1000, 1024, 1100, 4096].map(|width| Input { width, height: 240, ..random }));
    for input in [PICTURE, random] {
        inputs.extend([2, 7, 64, 256].map(|inks| Input { width: 400, height: 240, inks, ..input }));
    }
    inputs
}

fn print_inputs(runs: usize) {
    let mut rows: Vec<_> = inputs()
        .into_iter()
        .map(|input| {
            let image = image(input);
            let lent = Outcome::new(&image, MAX_PASSES);
            (input, image, lent, Parts::default(), Parts::default(), 0)
        })
        .collect();
    for _ in 0..runs {
        for (_, image, lent, ours, rusts, passes) in &mut rows {
            *passes = run(image, lent, ours, rusts).passes;
        }
    }
    println!("Passes (whole less build-up), processor time; every run was bit-equal.\n");
    println!("| start | pixels | inks | per inch | passes run | library, ms: median, least | Rust, ms: median, least | ratio: median, least | library, ns a pixel |");
    println!("|---|---|---|---|---|---|---|---|---|");
    let passes_of = |parts: &Parts| parts.whole.less(&parts.build_up);
    for (input, image, _, ours, rusts, passes) in &rows {
        let (ours, rusts) = (passes_of(ours), passes_of(rusts));
        let [ours, rusts] = [ours, rusts].map(|times| [times.median().processor, times.least().processor]);
        println!(
            "| {}{}{} | {}x{} | {} | {} | {passes} | {:.0}, {:.0} | {:.0}, {:.0} | {:.2}, {:.2} | {:.0} |",
            if input.start == Start::Diffused { "error-diffused" } else { "random" },
            if input.caption { ", caption pinned" } else { "" },
            if input.vivid { ", vivid" } else { "" },
            image.width,
            image.height,
            input.inks,
            input.ppi,
            ours[0],
            ours[1],
            rusts[0],
            rusts[1],
            ours[0] / rusts[0],
            ours[1] / rusts[1],
            ours[0] * 1e6 / image.indices.len() as f64,
        );
    }
    println!();
    let of = |wanted: Input| {
        let same = |input: &Input| {
            (input.start, input.width, input.height, input.caption, input.vivid)
                == (wanted.start, wanted.width, wanted.height, wanted.caption, wanted.vivid)
                && (input.inks, input.ppi) == (wanted.inks, wanted.ppi)
        };
        rows.iter().find(|row| same(&row.0)).map(|row| passes_of(&row.3))
    };
    for (name, start) in [("error-diffused", Start::Diffused), ("random", Start::Random)] {
        let plain = Input { start, ..PICTURE };
        if let (Some(masked), Some(plain)) = (of(Input { caption: true, ..plain }), of(plain)) {
            let [median, least] = masked.ratios(&plain);
            println!("Library, caption pinned / no pins, {name}: median {median:.2}, least {least:.2}.");
        }
    }
    println!();
}

fn print_passes(runs: usize) {
    println!(
        "Error-diffused picture, {}x{} pixels, {} per inch, library; processor time, medians.\n",
        PICTURE.width, PICTURE.height, PICTURE.ppi
    );
    println!("| passes | ms | moves of the last pass |");
    println!("|---|---|---|");
    let image = image(PICTURE);
    for passes in 1..=MAX_PASSES {
        let mut lent = Outcome::new(&image, passes);
        let mut times = Times::default();
        for _ in 0..runs {
            lent.indices.copy_from_slice(&image.indices);
            times.add(|| LINKED.refine(&image, passes, &mut lent));
        }
        println!("| {passes} | {:.0} | {} |", times.median().processor, lent.accepted_per_pass[passes - 1]);
    }
    println!();
}

/// Refines the indices of `lent` until no move is left; the passes that it took.
fn settle(image: &Image, lent: &mut Outcome) -> u64 {
    let mut passes = 0;
    while passes == 0 || lent.accepted_per_pass[0] > 0 {
        LINKED.refine(image, lent.accepted_per_pass.len(), lent);
        passes += lent.passes;
    }
    passes
}

/// The search of a picture in which no move is left, against a pass over it.
fn print_converged(runs: usize) {
    let image = image(PICTURE);
    let mut lent = Outcome::new(&image, MOST_PASSES);
    let passes = settle(&image, &mut lent);
    let (mut finds, mut refines) = (Times::default(), Times::default());
    for _ in 0..runs {
        assert_eq!(finds.add(|| LINKED.find_move(&image, &mut lent)), None);
        refines.add(|| LINKED.refine(&image, 1, &mut lent));
        assert_eq!(lent.accepted_per_pass[0], 0);
    }
    println!(
        "Error-diffused picture, {}x{} pixels, {} per inch, 40 cm, 7 inks, settled in {passes} passes.\n\
         Library, both calls on the same buffers; {runs} runs, in turn; processor time.\n",
        image.width, image.height, image.ppi
    );
    println!("| call | median, ms | least, ms |");
    println!("|---|---|---|");
    let [finds, refines] = [finds, refines].map(|times| [times.median(), times.least()].map(|time| time.processor));
    println!("| dbs_find_move, no move found | {:.1} | {:.1} |", finds[0], finds[1]);
    println!("| dbs_refine, 1 pass, no move accepted | {:.1} | {:.1} |", refines[0], refines[1]);
    let faster = if finds[0] <= refines[0] { "dbs_find_move" } else { "dbs_refine" };
    let ratios = [finds[0] / refines[0], finds[1] / refines[1]];
    println!("\nFaster is {faster}. Search / pass: median {:.3}, least {:.3}.\n", ratios[0], ratios[1]);
}
