//! Inputs on both sides of every limit of the table of refusals, alone and several at once. Expected is the first of
//! its rows that holds, with every buffer as it was, or what the copy of the Rust answers.

use std::collections::BTreeMap;

use crate::call::{Call, CPP_CHROMA, CPP_LEN};
use crate::expected::{self, Asked};
use crate::eyes::{around, eye};
use crate::original::{eye_sigmas, DbsParams};
use crate::plates::plate;
use crate::random::Random;
use crate::refine::{find_one, measure_one, refine_one};
use crate::Section;

/// A change of a call in what one row of the table is about, to either side of its limit.
pub struct Change {
    row: u64,
    pub make: Box<dyn Fn(&mut Call)>,
}

/// The rows in the order in which they are tested.
const ROWS: [u64; 12] = [1, 2, 3, 4, 17, 5, 6, 7, 8, 9, 10, 11];

pub fn compare(seed: u64, scale: f64) -> Section {
    let mut section = Section::new("refusals and limits");
    let mut answers = BTreeMap::new();
    let mut check = |plate: &Call, changes: &[&Change]| {
        let mut call = plate.clone();
        changes.iter().for_each(|change| (change.make)(&mut call));
        section.check("refine", refine_one(&call));
        *answers.entry(expected::refusal(&call, Asked::Refine).0).or_insert(0) += 1;
        // Finding is given no passes.
        if changes.is_empty() || changes.iter().any(|change| change.row != 10) {
            section.check("find", find_one(&call));
        }
        // Measuring is given no mask, passes or buffers.
        if changes.iter().any(|change| ![4, 17, 10, 11].contains(&change.row)) {
            section.check("measure", measure_one(&call));
        }
    };
    let mut r = Random(seed);
    let plates = plates(&mut r);
    let changes = changes();
    for plate in &plates {
        check(plate, &[]);
        changes.iter().for_each(|change| check(plate, &[change]));
    }
    for (i, change) in changes.iter().enumerate() {
        changes[..i].iter().for_each(|other| check(&plates[0], &[change, other]));
    }
    for _ in 0..(20_000.0 * scale) as usize {
        let rows = &ROWS[r.below(12) as usize..];
        let several: Vec<_> = (0..r.between(3, 8)).map(|_| pick(&mut r, &changes, rows)).collect();
        check(&plates[r.below(4) as usize], &several);
    }
    check(&largest(), &[]);
    check(&largest(), &[&Change { row: 17, make: Box::new(|call| set_pin(call, 2, 2)) }]);
    let answers: Vec<_> = answers.iter().map(|(number, count)| format!("{number}: {count}")).collect();
    println!("answers of refine by number: {}", answers.join(", "));
    section
}

/// Plates to change, with lent buffers: small ones, the first of 6 pixels with a mask, and sizes on
/// both sides of their limits.
pub fn plates(r: &mut Random) -> Vec<Call> {
    let sizes = [(3, 2, 2), (1, 1, 256), (2, 2, 255), (2, 0, 1), (0, 0, 2), (0, 1, 2), (1, 0, 2)];
    let limits = [(4096, 1, 2), (4097, 1, 2), (1, 4096, 2), (1, 4097, 2), (4096, 0, 2), (4097, 0, 2)];
    let params = DbsParams { max_passes: 3, ..DbsParams::default() };
    let mut plates: Vec<_> = sizes.iter().chain(&limits).map(|&(w, h, inks)| plate(r, w, h, inks, params)).collect();
    plates[0].pinned = vec![0, 1, 0, 0, 0, 0];
    plates.iter_mut().for_each(Call::lend);
    plates
}

/// The largest plate, whose field is too long to be lent: the rows before it are passed.
fn largest() -> Call {
    let mut call = plate(&mut Random(0), 1, 1, 1, DbsParams::default());
    (call.width, call.height) = (4096, 4096);
    call.pixels.resize(3 << 24, 0);
    call.lent.indices.resize(1 << 24, 0);
    call.pinned.resize(1 << 24, 0);
    call
}

pub fn changes() -> Vec<Change> {
    const LARGE: [u64; 6] = [1 << 32, (1 << 32) + 1, (1 << 32) + 3, 1 << 63, (1 << 63) + 3, u64::MAX];
    // Of these products 6 pixels remain, or 0 or 1, where it wraps.
    const WRAPPING: [(u64, u64); 6] = [
        (2, (1 << 63) + 3),
        (6, 1 << 63 | 1),
        (3 << 32, 2 << 32),
        (1 << 32, 1 << 32),
        (u64::MAX, u64::MAX),
        (u64::MAX / 2, u64::MAX - 1),
    ];
    const OTHER: [(u64, u64); 9] =
        [(6, 1), (1, 6), (2, 3), (4, 2), (3, 3), (4096, 4096), (4097, 4096), (4096, 4097), (0, u64::MAX)];
    const PINS: [u8; 7] = [0, 1, 2, 127, 128, 254, 255];
    const FLOATS: [f64; 14] = [
        0.0,
        -0.0,
        -1.0,
        -5e-324,
        f64::MIN,
        f64::NAN,
        -f64::NAN,
        f64::from_bits(0x7ff0_0000_0000_0001),
        f64::INFINITY,
        f64::NEG_INFINITY,
        5e-324,
        f64::MIN_POSITIVE,
        f64::MAX,
        1.0,
    ];
    let mut eyes: Vec<_> = [5e-324, 1.0, f64::MAX].iter().flat_map(|&a| [eye(a, 5e-324), eye(a, f64::MAX)]).collect();
    for cm in [1, 10, 40, 250] {
        eyes.extend(around(|e| eye_sigmas(e)[0], 0.05, cm));
        eyes.extend(around(|e| 2.5 * eye_sigmas(e)[1], 16.0, cm));
    }
    let nearby = [-3, -2, -1, 1, 2, 3];
    let mut changes = vec![];
    let mut add = |made: Vec<Change>| changes.extend(made);
    add(each(1, &[0, 1, 2, 4, 4095, 4096, 4097, 8192], |c, width| c.width = width));
    add(each(1, &[0, 1, 3, 4095, 4096, 4097, 8192], |c, height| c.height = height));
    add(each(1, &LARGE, |c, width| c.width = width));
    add(each(1, &LARGE, |c, height| c.height = height));
    add(each(1, &WRAPPING, |c, size| (c.width, c.height) = size));
    add(each(1, &OTHER, |c, size| (c.width, c.height) = size));
    add(each(2, &nearby, |c, by| extend(&mut c.pixels, by)));
    add(each(2, &[0, 6, 54], |c, len| c.pixels.resize(len, 7)));
    add(each(3, &nearby, |c, by| extend(&mut c.lent.indices, by)));
    add(each(3, &[0, 18, 262], |c, len| c.lent.indices.resize(len, 0)));
    add(each(4, &nearby, |c, by| extend(&mut c.pinned, by)));
    add(each(4, &[0, 1, 6, 18, 262], |c, len| c.pinned.resize(len, 1)));
    add(each(4, &[1, 7, 18], |c, len| c.pinned.resize(len, 2)));
    add(each(17, &PINS, |c, byte| set_pin(c, 0, byte)));
    add(each(17, &PINS, |c, byte| set_pin(c, 1, byte)));
    add(each(17, &PINS, |c, byte| set_pin(c, 2, byte)));
    add(each(17, &[(0, 1), (0, 2), (1, 2)], |c, (a, b)| (set_pin(c, a, 3), set_pin(c, b, 255)).1));
    add(each(17, &[0, 1, 2, 255], |c, byte| (set_pin(c, 0, byte), c.pinned.fill(byte)).1));
    add(each(5, &[0, 1, 2, 3, 4, 5, 7, 8, 9, 767, 768, 769, 770, 771, 774, 1536, 196_614], |c, len| {
        c.palette.resize(len, 90)
    }));
    add(each(5, &[3, 768, 771], |c, len| (c.palette.resize(len, 90), c.lent.inks.resize(len, 90)).1));
    add(each(6, &[0, 2, 5], |c, place| name_ink(c, place, 0)));
    add(each(6, &[0, 2, 5], |c, place| name_ink(c, place, 1)));
    add(each(6, &[1, 3, 5], |c, place| name_ink(c, place, 255)));
    add(each(7, &FLOATS, |c, ppi| c.ppi = ppi));
    add(each(8, &FLOATS, |c, cm| c.viewing_distance_cm = cm));
    add(each(9, &eyes, |c, e| (c.ppi, c.viewing_distance_cm) = (e.ppi, e.viewing_distance_cm)));
    add(each(10, &[0, 2, 4, 1000, 1001], |c, passes| c.max_passes = passes));
    add(each(10, &LARGE, |c, passes| c.max_passes = passes));
    add(each(10, &[0, 1, 4, 999, 1000, 1001, 1002], |c, passes| {
        c.max_passes = passes;
        c.lent.accepted_per_pass.resize(passes as usize, 77);
    }));
    add(each(11, &nearby, |c, by| extend(&mut c.lent.cpe, by)));
    add(each(11, &[0, 6, 262], |c, len| c.lent.cpe.resize(len, 77)));
    add(each(11, &nearby, |c, by| extend(&mut c.lent.cpp, by)));
    add(each(11, &[0, CPP_CHROMA, 2 * CPP_LEN], |c, len| c.lent.cpp.resize(len, 77)));
    add(each(11, &nearby, |c, by| extend(&mut c.lent.accepted_per_pass, by)));
    add(each(11, &[0, 1000, 1001], |c, len| c.lent.accepted_per_pass.resize(len, 77)));
    add(each(11, &nearby, |c, by| extend(&mut c.lent.inks, by)));
    add(each(11, &[0, 2, 768], |c, len| c.lent.inks.resize(len, 77)));
    changes
}

/// A change in one of these rows.
fn pick<'a>(r: &mut Random, changes: &'a [Change], rows: &[u64]) -> &'a Change {
    let row = r.pick(rows);
    let of_row: Vec<_> = changes.iter().filter(|change| change.row == row).collect();
    r.pick(&of_row)
}

fn each<T: Copy + 'static>(row: u64, values: &[T], make: fn(&mut Call, T)) -> Vec<Change> {
    values.iter().map(|&value| Change { row, make: Box::new(move |call| make(call, value)) }).collect()
}

fn extend<T: Clone + From<u8>>(cells: &mut Vec<T>, by: isize) {
    cells.resize(cells.len().saturating_add_signed(by), T::from(0));
}

/// Sets the mask's first byte, its middle one or its last, for 0, 1 or 2 halves of the way. Where there was no mask,
/// the other bytes are 0.
fn set_pin(call: &mut Call, halves: usize, byte: u8) {
    if call.pinned.is_empty() {
        call.pinned = vec![0; call.pixels.len() / 3];
    }
    if let Some(last) = call.pinned.len().checked_sub(1) {
        call.pinned[last * halves / 2] = byte;
    }
}

/// The index at a place becomes the number of inks less 1, where it still names one, plus `above`.
fn name_ink(call: &mut Call, place: usize, above: usize) {
    if let Some(index) = call.lent.indices.get_mut(place) {
        *index = (call.palette.len() / 3 + above).saturating_sub(1).min(255) as u8;
    }
}
