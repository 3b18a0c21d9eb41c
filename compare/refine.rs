//! Every plate refined, measured and searched by the library and by the copy of the Rust, bit for bit.

use std::time::Instant;

use crate::call::{first, Call, Found};
use crate::expected::{self, Asked};
use crate::plates::Group;
use crate::{library, replay, Section};

pub fn refine(groups: &[Group]) -> Section {
    let mut section = Section::new("plates refined");
    for Group { name, plates } in groups {
        compare(&mut section, name, plates, refine_one);
    }
    section
}

/// Plates that measuring cannot tell apart, as they differ in mask or passes only, count once.
pub fn measure(groups: &[Group]) -> Section {
    let mut section = Section::new("plates measured");
    for Group { name, plates } in groups {
        compare(&mut section, name, &distinct(plates, Call::same_to_measure), measure_one);
    }
    section
}

/// Plates that differ in passes only count once. Every fourth is also searched as up to 1,000 passes of the copy of
/// the Rust leave it, settled, and as it was before the last pass with moves, the first of which may come late.
pub fn find(groups: &[Group]) -> Section {
    let mut section = Section::new("plates searched");
    for Group { name, plates } in groups {
        let plates = distinct(plates, Call::same_to_find);
        compare(&mut section, name, &plates, find_one);
        for (state, left) in [("refined", 0), ("refined but for the last moves", 2)] {
            let refined: Vec<Call> = plates.iter().step_by(4).map(|plate| with_passes_left(plate, left)).collect();
            compare(&mut section, &format!("{name}, {state}"), &refined, find_one);
        }
    }
    section
}

/// The plate as it is so many passes before the copy of the Rust ends.
fn with_passes_left(plate: &Call, left: u64) -> Call {
    let mut plate = Call { max_passes: 1000, ..plate.clone() };
    plate.lend();
    plate.max_passes = expected::refine(&plate).passes.saturating_sub(left);
    plate.lend();
    plate.lent.indices = expected::refine(&plate).lent.indices;
    plate
}

fn distinct(plates: &[Call], same: fn(&Call, &Call) -> bool) -> Vec<Call> {
    let mut plates = plates.to_vec();
    plates.dedup_by(|a, b| same(a, b));
    plates
}

fn compare(section: &mut Section, name: &str, plates: &[Call], difference: fn(&Call) -> Option<String>) {
    let start = Instant::now();
    for (i, plate) in plates.iter().enumerate() {
        let mut plate = plate.clone();
        plate.lend();
        section.check(format_args!("{name}, {i}"), refused(&plate).or_else(|| difference(&plate)));
    }
    println!("{}: {} {name}, {:.1} s", section.name, plates.len(), start.elapsed().as_secs_f64());
}

/// No plate is to be refused: of a refusal both sides say the same, and nothing of the walk is compared.
fn refused(plate: &Call) -> Option<String> {
    let (number, place) = expected::refusal(plate, Asked::Refine);
    (number > 0).then(|| format!("refused with {number}, {place}\n{}", replay::call_line(plate)))
}

pub fn refine_one(call: &Call) -> Option<String> {
    let difference = library::refine(call).difference(&expected::refine(call))?;
    Some(format!("{difference}\n{}", replay::call_line(call)))
}

pub fn measure_one(call: &Call) -> Option<String> {
    let difference = library::measure(call).difference(&expected::measure(call))?;
    Some(format!("{difference}\n{}", replay::call_line(call)))
}

pub fn find_one(call: &Call) -> Option<String> {
    let found = library::find(call);
    let difference = found.difference(&expected::find(call)).or_else(|| apart_from_pass(call, &found))?;
    Some(format!("{difference}\n{}", replay::call_line(call)))
}

/// Where one pass is allowed, refine is refused as find is, and else accepts a move exactly where one is found.
fn apart_from_pass(call: &Call, found: &Found) -> Option<String> {
    let mut call = Call { max_passes: 1, ..call.clone() };
    call.lent.accepted_per_pass = vec![0];
    let pass = library::refine(&call);
    let moved = u64::from(pass.lent.accepted_per_pass[0] > 0);
    first("answer beside a pass", &[found.number, found.place, found.found], &[pass.number, pass.place, moved])
}
