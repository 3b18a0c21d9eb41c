//! The input of document 01's program `plate`, refined and searched by the copy of the Rust and by the library.

use crate::call::{Call, Found, Measured, Refined};
use crate::plates::program_plate;
use crate::{expected, library, Section};

pub fn compare() -> Section {
    let mut section = Section::new("answers of plate");
    answers(&mut section, "the copy", expected::refine, expected::measure);
    answers(&mut section, "the library", library::refine, library::measure);
    moves(&mut section, "the copy", expected::find);
    moves(&mut section, "the library", library::find);
    section
}

fn answers(section: &mut Section, side: &str, refine: fn(&Call) -> Refined, measure: fn(&Call) -> Measured) {
    let mut call = program_plate();
    call.lend();
    let before = f64::from_bits(measure(&call).error);
    let refined = refine(&call);
    call.lent.indices = refined.lent.indices;
    let after = f64::from_bits(measure(&call).error);
    section.compare(format_args!("indices of {side}"), &call.lent.indices[..], &[0, 1]);
    section.compare(format_args!("passes of {side}"), refined.passes, 2);
    section.compare(format_args!("accepted of {side}"), &refined.lent.accepted_per_pass[..2], &[1, 0]);
    // Refining and measuring compute the same error, each with roundings of its own.
    let near = |bits: u64, error: f64| (f64::from_bits(bits) - error).abs() <= 1e-9 * before;
    section.compare(format_args!("initial error of {side}"), near(refined.initial_error, before), true);
    section.compare(format_args!("final error of {side}"), near(refined.final_error, after), true);
}

/// The first move from 1 0 is a swap; from 0 1 there is none.
fn moves(section: &mut Section, side: &str, find: fn(&Call) -> Found) {
    for (start, expected) in [([1, 0], [1, 0, 1, 0xc076_d3c4_c470_7045]), ([0, 1], [0; 4])] {
        let mut call = program_plate();
        call.lend();
        call.lent.indices = start.to_vec();
        let Found { found, pixel, kind, cost, .. } = find(&call);
        section.compare(format_args!("first move of {side} from {start:?}"), [found, pixel, kind, cost], expected);
    }
}
