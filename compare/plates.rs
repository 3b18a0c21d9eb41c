//! The plates that are refined, measured and searched, in groups. Their buffers are still to be lent.

use crate::call::{Buffers, Call};
use crate::eyes::{around, eye};
use crate::original::{eye_sigmas, DbsParams};
use crate::random::Random;

pub struct Group {
    pub name: &'static str,
    pub plates: Vec<Call>,
}

/// All groups; `scale` times as many random plates as by default.
pub fn groups(seed: u64, scale: f64) -> Vec<Group> {
    let many = |count: usize| (count as f64 * scale) as usize;
    let mut r = Random(seed);
    let mut groups = Vec::new();
    let mut group = |name, plates| groups.push(Group { name, plates });
    group("the input of program plate", vec![program_plate()]);
    group("up to 2x2, every mask and start", up_to_2x2());
    group("around tile boundaries", boundaries(&mut r));
    group("widths of 512 and 1,024, pins in a corner, beside edges and anywhere", wide(&mut r));
    group("1 to 256 inks", (1..=256).map(|inks| small(&mut r, inks, 10)).collect());
    group("every blur radius", radii(&mut r));
    group("passes 0, 1, 2, 10, 1000", passes(&mut r, many(100)));
    group("random eyes, no pass", (0..many(10_000)).map(|_| random_eye_plate(&mut r)).collect());
    group("the order of a pass", order_of_pass());
    group("swaps of equal cost", equal_swaps());
    group("few colours, equal costs", (0..many(5000)).map(|_| equal_costs(&mut r)).collect());
    group("random plates", (0..many(30_000)).map(|_| random_plate(&mut r)).collect());
    groups
}

pub const BLACK_WHITE: [u8; 6] = [0, 0, 0, 255, 255, 255];

/// The input of document 01's program `plate`.
pub fn program_plate() -> Call {
    call(2, 1, &BLACK_WHITE, &BLACK_WHITE, &[1, 0], &[], DbsParams::default())
}

/// A call whose buffers but for the indices are still to be lent.
pub fn call(
    width: u64,
    height: u64,
    pixels: &[u8],
    palette: &[u8],
    indices: &[u8],
    pinned: &[u8],
    params: DbsParams,
) -> Call {
    let [pixels, palette, indices, pinned] = [pixels, palette, indices, pinned].map(<[u8]>::to_vec);
    Call {
        width,
        height,
        pixels,
        palette,
        pinned,
        ppi: params.ppi,
        viewing_distance_cm: params.viewing_distance_cm,
        max_passes: u64::from(params.max_passes),
        lent: Buffers { indices, cpe: vec![], cpp: vec![], accepted_per_pass: vec![], inks: vec![] },
    }
}

/// Every plate up to 2×2 with 2 inks: each start, no mask and each mask, each picture of 3 colours.
fn up_to_2x2() -> Vec<Call> {
    const COLOURS: [[u8; 3]; 3] = [[0, 0, 0], [255, 255, 255], [200, 40, 90]];
    let viewed = [
        ([0, 0, 0, 255, 255, 255], DbsParams::default()),
        ([160, 32, 32, 250, 220, 30], DbsParams { max_passes: 10, ..reach(1, 0.5) }),
    ];
    let mut plates = vec![];
    for (width, height) in [(1, 0), (2, 0), (1, 1), (2, 1), (1, 2), (2, 2)] {
        let n = (width * height) as u32;
        for picture in 0..3_usize.pow(n) {
            let pixels: Vec<u8> = (0..n).flat_map(|i| COLOURS[picture / 3_usize.pow(i) % 3]).collect();
            for start in 0..1 << n {
                let indices: Vec<u8> = (0..n).map(|i| start >> i & 1).collect();
                for (palette, params) in viewed {
                    let masks = (0..1 << n).map(|mask: u8| (0..n).map(|i| mask >> i & 1).collect());
                    for pinned in std::iter::once(vec![]).chain(masks) {
                        plates.push(call(width, height, &pixels, &palette, &indices, &pinned, params));
                    }
                }
            }
        }
    }
    plates
}

/// Sizes around the sides of tiles: 64 up to kernel radius 30, 67 at 32.
fn boundaries(r: &mut Random) -> Vec<Call> {
    let common = DbsParams { max_passes: 3, ..DbsParams::default() };
    let wide = DbsParams { max_passes: 2, ..reach(16, 1.0) };
    let mut plates = vec![];
    for (sizes, params) in [([63, 64, 65, 127, 128, 129], common), ([66, 67, 68, 133, 134, 135], wide)] {
        for width in sizes {
            for height in sizes {
                let inks = r.between(2, 7);
                plates.push(plate(r, width, height, inks, params));
            }
            for short in [1, 2, 5] {
                plates.push(plate(r, width, short, 4, params));
                plates.push(plate(r, short, width, 4, params));
            }
        }
    }
    for reach_of in [1, 6, 15, 16] {
        let params = DbsParams { max_passes: 10, ..reach(reach_of, 0.9) };
        for (width, height) in [(4096, 1), (1, 4096), (4096, 0), (1, 0), (1, 1), (1, 64), (1, 65), (1, 200)] {
            plates.push(plate(r, width, height, 3, params));
        }
    }
    plates.push(plate(r, 300, 200, 6, DbsParams { max_passes: 2, ..DbsParams::default() }));
    // Where nearly all is pinned, tiles hardly matter.
    plates.iter_mut().filter(|p| p.pinned.iter().all(|&byte| byte > 0)).for_each(|p| p.pinned.clear());
    plates
}

/// Widths at which the rows of an image share the sets of a cache, and one beside them; with no mask, with a corner
/// pinned, with the pixels beside each edge pinned, with any pixels pinned.
fn wide(r: &mut Random) -> Vec<Call> {
    let mut plates = vec![];
    for (width, height) in [(512, 40), (513, 40), (1024, 20), (1024, 70)] {
        for (whole, passes) in [(2, 3), (6, 2)] {
            let params = DbsParams { max_passes: passes, ..reach(whole, 0.9) };
            let mut open = plate(r, width, height, 7, params);
            open.pinned.clear();
            let pinned = |at: &mut dyn FnMut(u64, u64) -> bool| Call {
                pinned: (0..width * height).map(|i| u8::from(at(i % width, i / width))).collect(),
                ..open.clone()
            };
            plates.push(pinned(&mut |x, y| x + 90 > width && y + 12 > height && (x + y) % 3 > 0));
            plates.push(pinned(&mut |x, y| x == 1 || y == 1 || x + 2 == width || y + 2 == height));
            plates.push(pinned(&mut |_, _| r.below(4) == 0));
            plates.push(open);
        }
    }
    plates
}

/// Each blur radius of either kernel, on plates wider than the kernel's radius.
fn radii(r: &mut Random) -> Vec<Call> {
    let mut plates = vec![];
    for whole in 1..=16 {
        for part in [0.02, 0.4, 0.7, 1.0] {
            let params = DbsParams { max_passes: 10, ..reach(whole, part) };
            let (width, height, inks) = (r.between(20, 40), r.between(1, 40), r.between(2, 8));
            plates.push(plate(r, width, height, inks, params));
        }
    }
    plates
}

fn passes(r: &mut Random, count: usize) -> Vec<Call> {
    let mut plates = vec![];
    for _ in 0..count {
        let mut plate = small(r, 5, 0);
        for max_passes in [0, 1, 2, 10, 1000] {
            plate.max_passes = max_passes;
            plates.push(plate.clone());
        }
    }
    plates
}

fn small(r: &mut Random, inks: u64, max_passes: u32) -> Call {
    let (width, height) = (r.between(1, 12), r.between(1, 9));
    let eye = random_eye(r);
    plate(r, width, height, inks, DbsParams { max_passes, ..eye })
}

fn random_eye_plate(r: &mut Random) -> Call {
    let (width, height, inks) = (r.between(1, 4), r.between(0, 3), r.between(1, 4));
    let eye = random_eye(r);
    plate(r, width, height, inks, eye)
}

/// Black pixels in one tile, in several of one phase and in several phases, so that the first in the order of a
/// pass is often not the first by number. Tiles of side 64, then of 67.
fn order_of_pass() -> Vec<Call> {
    // Of 2x2 tiles, the columns and rows of those with a black pixel.
    const TILES: [&[[u64; 2]]; 9] = [
        &[[0, 0], [1, 0], [0, 1], [1, 1]],
        &[[1, 0], [0, 1], [1, 1]],
        &[[0, 1], [1, 1]],
        &[[1, 0], [1, 1]],
        &[[1, 0], [0, 1]],
        &[[0, 0]],
        &[[1, 0]],
        &[[0, 1]],
        &[[1, 1]],
    ];
    let mut plates = vec![];
    for (side, params) in [(64, DbsParams::default()), (67, DbsParams { max_passes: 10, ..reach(16, 1.0) })] {
        let mut add = |width, height, black: &[[u64; 2]]| plates.push(black_pixels(width, height, black, params));
        add(side + 1, 2, &[[side, 0], [0, 1]]);
        add(side + 1, 2, &[[side - 1, 0], [0, 1]]);
        add(2, side + 1, &[[1, 0], [0, side]]);
        add(2 * side + 1, 1, &[[side, 0], [2 * side, 0]]);
        add(1, 2 * side + 1, &[[0, side], [0, 2 * side]]);
        add(2 * side + 1, side + 1, &[[2 * side, 1], [0, 2], [side, 0], [0, side]]);
        add(3, 3, &[[2, 0], [0, 1], [1, 2]]);
        for tiles in TILES {
            let black: Vec<_> = tiles.iter().map(|tile| tile.map(|at| at * side)).collect();
            add(side + 1, side + 1, &black);
        }
    }
    plates
}

/// A plate that should be white, all pinned but for some pixels that are black: only those can move.
pub fn black_pixels(width: u64, height: u64, black: &[[u64; 2]], params: DbsParams) -> Call {
    let n = (width * height) as usize;
    let (mut indices, mut pinned) = (vec![1; n], vec![1; n]);
    for [x, y] in black {
        let pixel = (y * width + x) as usize;
        (indices[pixel], pinned[pixel]) = (0, 0);
    }
    call(width, height, &vec![255; 3 * n], &BLACK_WHITE, &indices, &pinned, params)
}

/// For each two neighbour codes in turn a plate on which the pixel (1, 1) swaps with either at the same
/// cost. The inks are greys, 1 nearer to 0 than to 2, whose differences are exact, and the eye does not
/// blur. The pixel is 0 and should be 1. A neighbour visited later is 1 and should be 0. One visited
/// earlier is so once it has swapped with a partner: it starts as 2, the partner as 1 and should be 2.
pub fn equal_swaps() -> Vec<Call> {
    const NEIGHBOURS: [(usize, usize); 8] = [(0, 0), (1, 0), (2, 0), (0, 1), (2, 1), (0, 2), (1, 2), (2, 2)];
    const PARTNERS: [(usize, usize); 4] = [(0, 1), (2, 1), (3, 0), (0, 2)];
    const GREYS: [[u8; 3]; 3] = [[188; 3], [216; 3], [255; 3]];
    let plate = |first: usize| {
        let (mut start, mut wanted) = ([0; 12], [0; 12]);
        let mut put = |(x, y), from, to| (start[4 * y + x], wanted[4 * y + x]) = (from, to);
        put((1, 1), 0, 1);
        for code in [first, first + 1] {
            if code < 4 {
                put(NEIGHBOURS[code], 2, 0);
                put(PARTNERS[code], 1, 2);
            } else {
                put(NEIGHBOURS[code], 1, 0);
            }
        }
        let pixels = wanted.map(|ink: usize| GREYS[ink]);
        let params = DbsParams { max_passes: 1, ..smallest() };
        call(4, 3, pixels.as_flattened(), GREYS.as_flattened(), &start, &[], params)
    };
    (0..7).map(plate).collect()
}

/// Few colours before eyes that hardly blur: the costs of several moves are often equal.
fn equal_costs(r: &mut Random) -> Call {
    let eye = r.pick(&[smallest(), reach(1, 0.1), reach(1, 1.0)]);
    let params = DbsParams { max_passes: r.pick(&[1, 2, 10]), ..eye };
    let (width, height, inks) = (r.between(2, 6), r.between(2, 6), r.between(2, 6));
    let mut plate = plate(r, width, height, inks, params);
    let colours: [[u8; 3]; 2] = std::array::from_fn(|_| std::array::from_fn(|_| r.byte()));
    plate.pixels.chunks_exact_mut(3).for_each(|pixel| pixel.copy_from_slice(&r.pick(&colours)));
    plate
}

fn random_plate(r: &mut Random) -> Call {
    let (width, height) = match r.below(100) {
        0 => (r.between(60, 140), r.between(1, 20)),
        1 => (r.between(1, 20), r.between(60, 140)),
        2..=9 => (r.between(1, 40), r.between(0, 40)),
        _ => (r.between(1, 10), r.between(0, 10)),
    };
    let inks = if r.below(10) == 0 { r.between(1, 256) } else { r.between(1, 8) };
    let eye = random_eye(r);
    let max_passes = r.pick(&[0, 1, 2, 3, 5, 10, 10, 1000]);
    plate(r, width, height, inks, DbsParams { max_passes, ..eye })
}

/// An eye whose chrominance 2.5σ lies between the whole number below `whole` and `whole`, at 1.0 as
/// near to it as an f64 of ppi comes.
pub fn reach(whole: u32, part: f64) -> DbsParams {
    let chrominance = |e: &DbsParams| 2.5 * eye_sigmas(e)[1];
    let [_, at, _] = around(chrominance, f64::from(whole), 40);
    // Below 1 the luminance σ must stay above 0.05, chrominance 2.5σ above 0.28.
    let low = (f64::from(whole) - 1.0).max(0.28);
    let wanted = low + (f64::from(whole) - low) * part;
    if part == 1.0 {
        at
    } else {
        eye(at.ppi * wanted / f64::from(whole), at.viewing_distance_cm)
    }
}

/// The eye of luminance σ 0.05 at 10 cm.
pub fn smallest() -> DbsParams {
    let [_, at, _] = around(|e| eye_sigmas(e)[0], 0.05, 10);
    at
}

/// Any blur radius, at a distance of any magnitude.
pub fn random_eye(r: &mut Random) -> DbsParams {
    let sigma = (0.28 + 15.71 * r.fraction() * r.fraction()) / 2.5;
    let viewing_distance_cm = (1.0 + r.fraction()) * 2_f64.powi(r.between(0, 120) as i32 - 60);
    let unit = eye_sigmas(&eye(1.0, 1.0))[1];
    eye(sigma / unit / viewing_distance_cm, viewing_distance_cm)
}

/// A plate of this size and number of inks with random contents of several kinds.
pub fn plate(r: &mut Random, width: u64, height: u64, inks: u64, params: DbsParams) -> Call {
    let n = (width * height) as usize;
    let palette = random_palette(r, inks as usize);
    let ink = |index: u64| -> [u8; 3] { std::array::from_fn(|ch| palette[3 * index as usize + ch]) };
    let flat: [u8; 3] = std::array::from_fn(|_| r.byte());
    let kind = r.below(6);
    let pixels: Vec<[u8; 3]> = (0..n as u64)
        .map(|i| match kind {
            0 => flat,
            1 => [r.byte(); 3],
            2 => ink(r.below(inks)),
            3 => [i % width * 255 / width, i / width * 255 / height, 255 - i * 255 / n as u64].map(|v| v as u8),
            _ => std::array::from_fn(|_| r.byte()),
        })
        .collect();
    let distance = |a: [u8; 3], b: [u8; 3]| a.iter().zip(b).map(|(a, b)| u32::from(a.abs_diff(b)).pow(2)).sum::<u32>();
    let nearest = |pixel| (0..inks).min_by_key(|&index| distance(ink(index), pixel)).expect("an ink");
    let kind = r.below(4);
    let indices: Vec<u8> = (0..n)
        .map(|i| match kind {
            0 => inks - 1,
            1 => nearest(pixels[i]),
            _ => r.below(inks),
        } as u8)
        .collect();
    let mask =
        |r: &mut Random, unpinned: u64| (0..n).map(|_| if r.below(8) < unpinned { 0 } else { r.byte() }).collect();
    // Drawn as any bytes; a pixel is pinned where its byte is not 0.
    let mut pinned: Vec<u8> = match r.below(8) {
        0 => (0..n).map(|_| r.byte() | 1).collect(),
        1 => vec![0; n],
        2 => mask(r, 0),
        3 => mask(r, 4),
        4 | 5 => mask(r, 7),
        _ => vec![],
    };
    pinned.iter_mut().for_each(|byte| *byte = (*byte).min(1));
    call(width, height, pixels.as_flattened(), &palette, &indices, &pinned, params)
}

/// Inks of any colour, of few colours, so that some are equal, greys, or those of a panel.
fn random_palette(r: &mut Random, inks: usize) -> Vec<u8> {
    const PANEL: [[u8; 3]; 7] =
        [[25, 30, 33], [232, 232, 232], [178, 19, 24], [239, 222, 68], [18, 95, 32], [33, 87, 186], [209, 98, 40]];
    let few: [[u8; 3]; 3] = std::array::from_fn(|_| std::array::from_fn(|_| r.byte()));
    let kind = r.below(6);
    (0..inks)
        .flat_map(|index| match kind {
            0 => r.pick(&few),
            1 => [r.byte(); 3],
            2 | 3 => PANEL[index % 7],
            _ => std::array::from_fn(|_| r.byte()),
        })
        .collect()
}
