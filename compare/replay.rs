//! The list of replay.txt: calls with their answers, for a program that makes them anew.

use crate::call::{Call, Found, Measured, Refined};
use crate::eyes::{around, checksum, eye, halves};
use crate::job_lines::Side;
use crate::original::{eye_sigmas, DbsParams};
use crate::plates::{black_pixels, call, equal_swaps, plate, program_plate, random_eye, reach, smallest, BLACK_WHITE};
use crate::random::Random;
use crate::{expected, job_lines, job_replay, library, Section};

const HEADER: &str = "\
# Calls of refine, measure and find, then of jobs, with their answers, by the documents' table of refusals and
# the copy of the Rust, made with
#   compare/run --replay > compare/replay.txt
# Four lines for a call; words are separated by one space, and none is empty.
#   call WIDTH HEIGHT MAX_PASSES PPI DISTANCE PIXELS PALETTE PINNED INDICES CPE CPP COUNTS INKS
#   refine NUMBER PLACE PASSES INITIAL FINAL INDICES COUNTS CPE CPP COUNTS INKS
#   measure NUMBER PLACE ERROR
#   find NUMBER PLACE FOUND PIXEL KIND COST CPE CPP INKS
# WIDTH, HEIGHT, MAX_PASSES, NUMBER, PLACE, PASSES, FOUND, PIXEL, KIND: decimal. PPI, DISTANCE, INITIAL,
# FINAL, ERROR, COST: the bits of an f64, 16 hexadecimal digits. PIXELS, PALETTE, PINNED, INDICES: bytes of
# 2 hexadecimal digits, or - for none; of refine, the indices afterwards. 16 or more equal bytes one after
# the other are written as one, x, their number and a comma: 01x4224,00 is 4,224 bytes 01 and one byte 00.
# Last in a call: the lengths of the lent buffers, decimal; no slice of a call is longer than 16384. Before
# refine, and again before find, each cell of cpe, cpp and inks holds the bits bff0000000000000 (-1.0), each
# count 4294967295.
# COUNTS of refine, the first: those of the passes run, decimal, joined by commas, or - for none. Its last
# four words and the last three of find are checksums of the buffers afterwards, untouched cells too,
# 8 hexadecimal digits: h = 0; for each cell, of an f64 first the high and then the low 32 bits, h becomes
# (31 h + those 32 bits) mod 4294967291.
#
# Lists of job calls follow. A list begins with an open; each call is given what the lines before it left.
# Two lines for a call, or one that changes a cell before the next call:
#   open WIDTH HEIGHT MAX_PASSES PPI DISTANCE PIXELS PALETTE PINNED INDICES CPE CPP COUNTS INKS STATES DELTAS RECORD
#   opened NUMBER PLACE CPE CPP INKS STATES DELTAS RECORD
#   take TILE FROM INDICES CPE STATES RECORD COPY_CPE COPY_INDICES
#   taken NUMBER PLACE STATES COPY_CPE COPY_INDICES
#   work TILE FROM PINNED CPP INKS RECORD COPY_CPE COPY_INDICES
#   worked NUMBER PLACE ACCEPTED DELTA COPY_CPE COPY_INDICES
#   put_back TILE FROM ACCEPTED DELTA INDICES CPE STATES DELTAS RECORD COPY_CPE COPY_INDICES
#   back NUMBER PLACE INDICES CPE STATES DELTAS RECORD
#   recall TILE STATES RECORD
#   recalled NUMBER PLACE STATES
#   close COUNTS STATES DELTAS RECORD
#   closed NUMBER PLACE COUNTS STATES RECORD
#   word I VALUE
#   index I BYTE
# An open's words up to INDICES are as in a call. In the line of a call, the names of slices stand for their
# lengths, in its answer for the checksums of those that it may write, afterwards; a word of the record counts
# as an f64. TILE, FROM, ACCEPTED, I, BYTE: decimal. DELTA, VALUE: 16 hexadecimal digits.
# A slice is lent from the first cell of its buffer on, but COPY_CPE from cell 3 FROM on and COPY_INDICES from
# cell FROM on, so that each tile that is out has a copy of its own. word sets word I of the record, index
# cell I of the buffer of COPY_INDICES. Before an open, each cell of every buffer is set: floats to -1.0,
# counts to 4294967295, bytes to 255, words of the record to ffffffffffffffff; then PINNED and INDICES are put.
# No slice of a list ends behind cell 1024 of its buffer, but CPP (8500) and COPY_CPE (3072).
";

/// replay.txt against the list made anew, and against what the library answers.
pub fn compare() -> Section {
    let mut section = Section::new("lines of replay.txt");
    let lists = [
        list(expected::refine, expected::measure, expected::find, &job_lines::EXPECTED),
        list(library::refine, library::measure, library::find, &job_lines::LIBRARY),
    ];
    let lines = |text: &'static str| text.lines().filter(|line| !line.starts_with('#')).collect::<Vec<_>>();
    let kept = lines(include_str!("replay.txt"));
    for made in lists {
        let made = lines(made.leak());
        for i in 0..kept.len().max(made.len()) {
            section.compare(format_args!("line {i}"), kept.get(i), made.get(i));
        }
    }
    section
}

/// The text of replay.txt.
pub fn text() -> String {
    HEADER.to_string() + &list(expected::refine, expected::measure, expected::find, &job_lines::EXPECTED)
}

fn list(refine: fn(&Call) -> Refined, measure: fn(&Call) -> Measured, find: fn(&Call) -> Found, jobs: &Side) -> String {
    let mut text = String::new();
    for (title, calls) in groups() {
        text += &format!("# {title}\n");
        for call in &calls {
            text += &format!("{}\n{}\n", call_line(call), refine_line(&refine(call)));
            text += &format!("{}\n{}\n", measure_line(&measure(call)), find_line(&find(call)));
        }
    }
    text + &job_replay::text(jobs)
}

pub fn call_line(call: &Call) -> String {
    let lent = &call.lent;
    let [cpe, cpp, inks] = [&lent.cpe, &lent.cpp, &lent.inks].map(Vec::len);
    format!("call {} {cpe} {cpp} {} {inks}", input_words(call), lent.accepted_per_pass.len())
}

/// The words of a call before the lengths.
pub fn input_words(call: &Call) -> String {
    let [ppi, distance] = [call.ppi, call.viewing_distance_cm].map(f64::to_bits);
    let [pixels, palette, pinned, indices] =
        [&call.pixels, &call.palette, &call.pinned, &call.lent.indices].map(|bytes| hexadecimal(bytes));
    format!(
        "{} {} {} {ppi:016x} {distance:016x} {pixels} {palette} {pinned} {indices}",
        call.width, call.height, call.max_passes
    )
}

fn refine_line(r: &Refined) -> String {
    let counts: Vec<_> = r.lent.accepted_per_pass[..r.passes as usize].iter().map(u32::to_string).collect();
    format!(
        "refine {} {} {} {:016x} {:016x} {} {} {:08x} {:08x} {:08x} {:08x}",
        r.number,
        r.place,
        r.passes,
        r.initial_error,
        r.final_error,
        hexadecimal(&r.lent.indices),
        or_none(counts.join(",")),
        floats(&r.lent.cpe),
        floats(&r.lent.cpp),
        checksum(r.lent.accepted_per_pass.iter().map(|&count| u64::from(count))),
        floats(&r.lent.inks),
    )
}

fn measure_line(m: &Measured) -> String {
    format!("measure {} {} {:016x}", m.number, m.place, m.error)
}

fn find_line(f: &Found) -> String {
    format!(
        "find {} {} {} {} {} {:016x} {:08x} {:08x} {:08x}",
        f.number,
        f.place,
        f.found,
        f.pixel,
        f.kind,
        f.cost,
        floats(&f.lent.cpe),
        floats(&f.lent.cpp),
        floats(&f.lent.inks),
    )
}

fn floats(cells: &[u64]) -> u64 {
    checksum(cells.iter().flat_map(|&bits| halves(bits)))
}

fn hexadecimal(bytes: &[u8]) -> String {
    let written = |equal: &[u8]| match equal.len() {
        0..16 => equal.iter().map(|byte| format!("{byte:02x}")).collect(),
        len => format!("{:02x}x{len},", equal[0]),
    };
    or_none(bytes.chunk_by(|a, b| a == b).map(written).collect())
}

fn or_none(word: String) -> String {
    if word.is_empty() {
        "-".to_string()
    } else {
        word
    }
}

fn groups() -> Vec<(&'static str, Vec<Call>)> {
    let plates = [
        ("The input of program plate, from 1 0 and from 0 1.", program_plates()),
        ("No row; one pixel; one ink.", no_row_one_pixel()),
        ("Pins: none, the first, the second, both; a pinned pixel that would gain.", pins()),
        ("Mask bytes that are neither 0 nor 1: first, in the middle, last, and two of them.", wrong_masks()),
        ("First moves in the order of a pass: in phase 1, 2, 3, then in two tiles or more.", order_of_pass()),
        ("Equal inks.", equal_inks()),
        ("A toggle and a swap of equal cost.", vec![equal_kinds()]),
        ("Equal swaps: neighbour codes 0 and 1, 1 and 2, and so on to 6 and 7.", equal_swaps()),
        ("Gains below and just above 1e-9.", small_gains()),
        ("A gain of exactly 1e-9, as an f64, and of the next f64 above it.", smallest_gains()),
        ("0, 1, 2, 10 and 1,000 passes allowed.", passes()),
        ("The smallest eye, kernel radius 30, 32, and 32 at the limit.", eyes()),
        ("256 inks.", vec![lively(&mut Random(3), 4, 3, 256, allowed(10))]),
        ("Two tiles: sides of 64, then of 67.", tiles()),
        ("Random plates.", random()),
    ];
    let fill = |mut calls: Vec<Call>| {
        for call in &mut calls {
            call.lend();
            let lent = &mut call.lent;
            for cells in [&mut lent.cpe, &mut lent.cpp, &mut lent.inks] {
                cells.fill((-1.0_f64).to_bits());
            }
            lent.accepted_per_pass.fill(u32::MAX);
        }
        calls
    };
    let mut groups: Vec<_> = plates.into_iter().map(|(title, calls)| (title, fill(calls))).collect();
    groups.push(("Refusals.", refusals(&fill(vec![program_plate()])[0])));
    groups
}

pub fn allowed(max_passes: u32) -> DbsParams {
    DbsParams { max_passes, ..DbsParams::default() }
}

fn program_plates() -> Vec<Call> {
    let mut left = program_plate();
    left.lent.indices = vec![0, 1];
    vec![program_plate(), left]
}

fn no_row_one_pixel() -> Vec<Call> {
    let red = [200, 30, 30];
    vec![
        call(4096, 0, &[], &BLACK_WHITE, &[], &[], allowed(2)),
        call(1, 0, &[], &BLACK_WHITE, &[], &[], allowed(0)),
        call(1, 1, &red, &BLACK_WHITE, &[1], &[], allowed(3)),
        call(1, 1, &red, &red, &[0], &[0], allowed(3)),
    ]
}

fn pins() -> Vec<Call> {
    let gains = call(2, 1, &[255; 6], &BLACK_WHITE, &[0, 0], &[1, 0], allowed(10));
    [[0, 0], [1, 0], [0, 1], [1, 1]].map(pinned_pair).into_iter().chain([gains]).collect()
}

/// Two pixels that swap where neither is pinned.
fn pinned_pair(pinned: [u8; 2]) -> Call {
    call(2, 1, &[20, 20, 90, 250, 240, 190], &BLACK_WHITE, &[1, 0], &pinned, allowed(10))
}

fn wrong_masks() -> Vec<Call> {
    let pairs = [[128, 0], [0, 3], [255, 16]].map(pinned_pair);
    let rows = [[2, 0, 1, 0, 1], [0, 1, 254, 1, 0], [1, 1, 1, 1, 255], [0, 127, 0, 0, 2]];
    let rows = rows.map(|pinned| call(5, 1, &[255; 15], &BLACK_WHITE, &[0; 5], &pinned, allowed(10)));
    let tiles = [[0; 128].as_slice(), &[2]].concat();
    let tiles = call(129, 1, &[255; 387], &BLACK_WHITE, &[0; 129], &tiles, allowed(10));
    pairs.into_iter().chain(rows).chain([tiles]).collect()
}

fn order_of_pass() -> Vec<Call> {
    let plate = |width, height, black: &[[u64; 2]]| black_pixels(width, height, black, allowed(10));
    vec![
        plate(65, 1, &[[64, 0]]),
        plate(1, 65, &[[0, 64]]),
        plate(65, 65, &[[64, 64]]),
        plate(65, 2, &[[64, 0], [0, 1]]),
        plate(129, 1, &[[64, 0], [128, 0]]),
        plate(65, 65, &[[64, 0], [0, 64], [64, 64]]),
    ]
}

/// Inks 1 and 2 are equal: of equal costs the first counts.
fn equal_inks() -> Vec<Call> {
    let palette = [BLACK_WHITE, [255, 255, 255, 200, 30, 30]].concat();
    [[0, 0, 0, 0], [2, 0, 1, 3]]
        .map(|start| {
            call(4, 1, &[240, 240, 240, 9, 9, 9, 250, 90, 90, 255, 255, 255], &palette, &start, &[], allowed(10))
        })
        .to_vec()
}

/// The first pixel gains as much by either: the second changes between inks as near to what it should be.
fn equal_kinds() -> Call {
    let eye = DbsParams { max_passes: 10, ..eye(10.0, 40.0) };
    call(2, 1, &[2, 2, 2, 1, 1, 1], &[0, 0, 0, 2, 2, 2], &[0, 1], &[], eye)
}

fn small_gains() -> Vec<Call> {
    let (pink, brown, blue) = ([200, 40, 90], [150, 148, 104], [14, 152, 204]);
    let panel = [25, 30, 33, 232, 232, 232];
    let eye = DbsParams { max_passes: 10, ..reach(1, 0.1) };
    vec![
        call(2, 1, [pink, pink].as_flattened(), &BLACK_WHITE, &[0, 1], &[], allowed(10)),
        call(3, 2, [brown, brown, brown, blue, brown, blue].as_flattened(), &panel, &[1, 0, 1, 0, 0, 0], &[], eye),
    ]
}

/// Found by a search. The first pixel should be about halfway between the inks: what reaches it of the other
/// errors decides. The last two pixels reach it in chrominance alone, in which the inks, greys, differ by roundings.
fn smallest_gains() -> Vec<Call> {
    let first = [[29, 195, 159], [233, 151, 120], [23, 179, 253]];
    let eye = DbsParams { max_passes: 10, ..eye(40.0, 40.0) };
    [[[33, 194, 126], [20, 193, 151]], [[111, 191, 37], [228, 142, 225]]]
        .map(|last| {
            let pixels = [&first[..], &last].concat();
            call(5, 1, pixels.as_flattened(), &[170, 170, 170, 176, 176, 176], &[0; 5], &[], eye)
        })
        .to_vec()
}

/// The first random plate that the copy of the Rust moves in two passes or more.
pub fn lively(r: &mut Random, width: u64, height: u64, inks: u64, params: DbsParams) -> Call {
    loop {
        let mut call = plate(r, width, height, inks, params);
        call.lend();
        let refined = expected::refine(&call);
        if refined.passes > 1 && refined.lent.accepted_per_pass[1] > 0 {
            return call;
        }
    }
}

fn passes() -> Vec<Call> {
    let call = lively(&mut Random(11), 5, 4, 4, allowed(10));
    [0, 1, 2, 10, 1000].map(|max_passes| Call { max_passes, ..call.clone() }).to_vec()
}

fn eyes() -> Vec<Call> {
    let mut r = Random(5);
    [smallest(), reach(15, 1.0), reach(16, 0.5), reach(16, 1.0)]
        .map(|eye| lively(&mut r, 4, 3, 4, DbsParams { max_passes: 10, ..eye }))
        .to_vec()
}

fn tiles() -> Vec<Call> {
    let mut r = Random(9);
    let wide = DbsParams { max_passes: 3, ..reach(16, 1.0) };
    vec![
        lively(&mut r, 70, 3, 2, allowed(4)),
        lively(&mut r, 2, 67, 3, allowed(4)),
        lively(&mut r, 69, 2, 2, wide),
        lively(&mut r, 1, 70, 3, wide),
    ]
}

fn random() -> Vec<Call> {
    let mut r = Random(7);
    (0..14)
        .map(|_| {
            let (width, height, inks) = (r.between(2, 5), r.between(2, 4), r.between(2, 6));
            let eye = random_eye(&mut r);
            lively(&mut r, width, height, inks, DbsParams { max_passes: 10, ..eye })
        })
        .collect()
}

/// Each number and place, and several at once: the one tested first counts.
fn refusals(plate: &Call) -> Vec<Call> {
    let [_, at, above] = around(|e| 2.5 * eye_sigmas(e)[1], 16.0, 10);
    let [below, ..] = around(|e| eye_sigmas(e)[0], 0.05, 10);
    let look = |c: &mut Call, e: DbsParams| (c.ppi, c.viewing_distance_cm) = (e.ppi, e.viewing_distance_cm);
    let changes: [&dyn Fn(&mut Call); 41] = [
        &|c| c.width = 0,
        &|c| c.width = 4097,
        &|c| c.height = 4097,
        &|c| c.height = u64::MAX,
        &|c| (c.width, c.height) = (2, (1 << 63) + 1),
        &|c| c.pixels.push(0),
        &|c| c.lent.indices.truncate(1),
        &|c| c.pinned.push(0),
        &|c| c.palette.truncate(0),
        &|c| c.palette.truncate(5),
        &|c| c.palette.resize(771, 90),
        &|c| c.lent.indices[0] = 2,
        &|c| c.lent.indices[1] = 255,
        &|c| c.ppi = f64::NAN,
        &|c| c.ppi = -0.0,
        &|c| c.viewing_distance_cm = f64::INFINITY,
        &|c| look(c, below),
        &|c| look(c, above),
        &|c| look(c, eye(f64::MAX, f64::MAX)),
        &|c| c.max_passes = 1001,
        &|c| c.max_passes = u64::MAX,
        &|c| c.lent.cpe.truncate(5),
        &|c| c.lent.cpp.truncate(8449),
        &|c| c.lent.accepted_per_pass.push(u32::MAX),
        &|c| c.lent.inks.truncate(0),
        &|c| (c.palette.truncate(2), c.lent.indices.fill(9)).1,
        &|c| (c.lent.indices[1], c.ppi, c.viewing_distance_cm) = (7, 0.0, 0.0),
        &|c| (look(c, at), c.max_passes = 1001, c.lent.cpe.truncate(0)).0,
        &|c| (look(c, below), c.lent.cpe.truncate(5), c.lent.inks.truncate(0)).0,
        &|c| (look(c, above), c.lent.cpp.truncate(8449)).0,
        &|c| (c.lent.cpp.push((-1.0_f64).to_bits()), c.lent.inks.truncate(1)).0,
        &|c| (c.pinned, c.width) = (vec![2, 0], 4097),
        &|c| (c.pinned = vec![2, 0], c.pixels.push(0)).1,
        &|c| (c.pinned = vec![2, 0], c.lent.indices.truncate(1)).1,
        &|c| c.pinned = vec![2, 0, 0],
        &|c| (c.height, c.pixels, c.lent.indices, c.pinned) = (0, vec![], vec![], vec![2]),
        &|c| (c.pinned = vec![0, 2], c.palette.truncate(5)).1,
        &|c| (c.pinned, c.lent.indices[0]) = (vec![0, 2], 255),
        &|c| (c.pinned, c.ppi, c.viewing_distance_cm) = (vec![0, 2], 0.0, 0.0),
        &|c| (c.pinned, c.max_passes) = (vec![0, 2], 1001),
        &|c| (c.pinned = vec![0, 2], c.lent.cpe.truncate(5), c.lent.inks.truncate(0)).0,
    ];
    changes
        .map(|change| {
            let mut call = plate.clone();
            change(&mut call);
            call
        })
        .to_vec()
}
