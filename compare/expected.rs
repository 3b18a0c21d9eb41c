//! What the documents say of an input, and the copy of the Rust where the input is accepted.

use crate::call::{Buffers, Call, Found, Measured, Refined, CPP_CHROMA, CPP_LEN};
use crate::original::{dbs_refine, eye_sigmas, perceived_error, DbsParams, DbsStats, FirstMove, SrgbPalette};

/// What is asked; each is given, and tests, a part of what a call holds.
#[derive(Clone, Copy, PartialEq)]
pub enum Asked {
    Refine,
    Measure,
    Find,
}

pub fn refine(call: &Call) -> Refined {
    let (number, place) = refusal(call, Asked::Refine);
    let mut lent = call.lent.clone();
    if number > 0 {
        return Refined { number, place, passes: 0, initial_error: 0, final_error: 0, lent };
    }
    let (stats, _) = run(call, call.max_passes, &mut lent);
    Refined {
        number,
        place,
        passes: u64::from(stats.passes),
        initial_error: stats.initial_error.to_bits(),
        final_error: stats.final_error.to_bits(),
        lent,
    }
}

/// What the copy of the Rust answers, and its first move.
fn run(call: &Call, max_passes: u64, lent: &mut Buffers) -> (DbsStats, Option<FirstMove>) {
    let pinned: Vec<bool> = call.pinned.iter().map(|&byte| byte != 0).collect();
    let (stats, kept) = dbs_refine(
        &call.pixels,
        call.width as usize,
        call.height as usize,
        &palette(call),
        &mut lent.indices,
        (!pinned.is_empty()).then_some(&pinned[..]),
        &DbsParams { max_passes: max_passes as u32, ..call.params() },
    );
    let put = |cells: &mut [u64], values: &[f64]| {
        for (cell, value) in cells.iter_mut().zip(values) {
            *cell = value.to_bits();
        }
    };
    put(&mut lent.cpe, kept.cpe.as_flattened());
    put(&mut lent.cpp, &kept.cpp[0]);
    put(&mut lent.cpp[CPP_CHROMA..], &kept.cpp[1]);
    put(&mut lent.inks, kept.inks.as_flattened());
    for (cell, &accepted) in lent.accepted_per_pass.iter_mut().zip(&stats.accepted_per_pass) {
        *cell = accepted as u32;
    }
    (stats, kept.first)
}

/// Refine with no pass allowed and no counts: everything up to the walk.
pub fn start(call: &Call) -> Refined {
    let lent = Buffers { accepted_per_pass: vec![], ..call.lent.clone() };
    refine(&Call { max_passes: 0, lent, ..call.clone() })
}

pub fn measure(call: &Call) -> Measured {
    let (number, place) = refusal(call, Asked::Measure);
    if number > 0 {
        return Measured { number, place, error: 0 };
    }
    let (width, height) = (call.width as usize, call.height as usize);
    let error = perceived_error(&call.pixels, width, height, &palette(call), &call.lent.indices, &call.params());
    Measured { number, place, error: error.to_bits() }
}

/// The first move of a pass, and the buffers as they are with no pass allowed.
pub fn find(call: &Call) -> Found {
    let (number, place) = refusal(call, Asked::Find);
    let mut answer = Found { number, place, found: 0, pixel: 0, kind: 0, cost: 0, lent: call.lent.clone() };
    if number == 0 {
        run(call, 0, &mut answer.lent);
        if let (_, Some(first)) = run(call, 1, &mut call.lent.clone()) {
            (answer.found, answer.pixel, answer.kind) = (1, first.pixel as u64, first.kind);
            answer.cost = first.cost.to_bits();
        }
    }
    answer
}

/// Number and place of the first row of document 01's table that holds, or 0, 0. Row 17, a mask byte that is neither
/// 0 nor 1, is document 02's and comes after 4. Measuring is given no mask, no passes and no buffers, finding no
/// passes and no counts.
pub fn refusal(call: &Call, asked: Asked) -> (u64, u64) {
    if call.width < 1 || 4096 < call.width || 4096 < call.height {
        return (1, 0);
    }
    let n = call.width as usize * call.height as usize;
    let inks = call.palette.len() / 3;
    let lent = &call.lent;
    let wrong = call.pinned.iter().position(|&byte| byte > 1);
    let unnamed = lent.indices.iter().position(|&index| usize::from(index) >= inks);
    let usable = |x: f64| x.is_finite() && x > 0.0;
    let [luminance, chrominance] = eye_sigmas(&call.params());
    let (refining, measuring) = (asked == Asked::Refine, asked == Asked::Measure);
    let rows = [
        (2, 0, call.pixels.len() != 3 * n),
        (3, 0, lent.indices.len() != n),
        (4, 0, !measuring && call.pinned.len() != 0 && call.pinned.len() != n),
        (17, wrong.unwrap_or(0) as u64, !measuring && wrong.is_some()),
        (5, 0, call.palette.len() % 3 != 0 || inks < 1 || 256 < inks),
        (6, unnamed.unwrap_or(0) as u64, unnamed.is_some()),
        (7, 0, !usable(call.ppi)),
        (8, 0, !usable(call.viewing_distance_cm)),
        (9, 0, luminance < 0.05),
        (9, 1, 2.5 * chrominance > 16.0),
        (10, 0, refining && call.max_passes > 1000),
        (11, 1, !measuring && lent.cpe.len() != 3 * n),
        (11, 2, !measuring && lent.cpp.len() != CPP_LEN),
        (11, 3, refining && lent.accepted_per_pass.len() as u64 != call.max_passes),
        (11, 8, !measuring && lent.inks.len() != 3 * inks),
    ];
    rows.into_iter().find(|row| row.2).map_or((0, 0), |(number, place, _)| (number, place))
}

fn palette(call: &Call) -> SrgbPalette {
    SrgbPalette { colors: call.palette.chunks_exact(3).map(|c| [c[0], c[1], c[2]]).collect() }
}
