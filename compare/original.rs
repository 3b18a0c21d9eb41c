// A copy of packages/rust/core/src/dbs.rs, with what it needs of color_space.rs, lab.rs and
// srgb_palette.rs, from OpenDisplay/epaper-dithering 998989b402 (MIT: see NOTICE). Order and names
// are the original's; each comment `stand-in` marks a change that document 01 makes for comparing, each
// `accessor` one that only hands out what was computed. The accessors at the end are not in the original.

// Portions of this file are derived from OpenDithering's `src/dithering/dbs.ts`
// (https://github.com/guysie/opendithering), used under the MIT License:
//
// Copyright (c) 2026 Guy Sie
//
// Permission is hereby granted, free of charge, to any person obtaining a copy
// of this software and associated documentation files (the "Software"), to deal
// in the Software without restriction, including without limitation the rights
// to use, copy, modify, merge, publish, distribute, sublicense, and/or sell
// copies of the Software, and to permit persons to whom the Software is
// furnished to do so, subject to the following conditions:
//
// The above copyright notice and this permission notice shall be included in all
// copies or substantial portions of the Software.
//
// THE SOFTWARE IS PROVIDED "AS IS", WITHOUT WARRANTY OF ANY KIND, EXPRESS OR
// IMPLIED, INCLUDING BUT NOT LIMITED TO THE WARRANTIES OF MERCHANTABILITY,
// FITNESS FOR A PARTICULAR PURPOSE AND NONINFRINGEMENT. IN NO EVENT SHALL THE
// AUTHORS OR COPYRIGHT HOLDERS BE LIABLE FOR ANY CLAIM, DAMAGES OR OTHER
// LIABILITY, WHETHER IN AN ACTION OF CONTRACT, TORT OR OTHERWISE, ARISING FROM,
// OUT OF OR IN CONNECTION WITH THE SOFTWARE OR THE USE OR OTHER DEALINGS IN THE
// SOFTWARE.

//! Colour Direct Binary Search (DBS): iterative refinement of an already-dithered image.
//!
//! Minimises perceived error `E = Σ_ch Σ_m ((p_ch ∗ e_ch)(m))²`, where `e = halftone − target`
//! in YyCxCz and `p_ch` is a per-channel eye-model blur: narrow for luminance, wider for
//! chrominance. YyCxCz is a linear transform of XYZ (linearised CIELAB), so blurring the error
//! averages light the way the eye does — unlike OKLab, which `color_space_lab` uses for
//! per-pixel matching.
//!
//! Each pass visits every pixel (raster order within tiles; tiles run in parallel, see
//! `dbs_refine`) and tries changing it to every other ink and swapping it with each differing
//! 8-neighbour, applying the move with the largest decrease in `E`. Trial cost is O(1) via
//! the cached correlation `c_pe = c_pp ⋆ e`, where `c_pp = p ⋆ p` is the blur's
//! autocorrelation; an accepted move updates `c_pe` over the footprint of `c_pp` only.
//!
//! Eye-model blurs are stored as full 2-D tables and `c_pp` is derived from them generically,
//! so a non-separable model (e.g. the exponential CSF's spatial kernel) can be swapped in.
//!
//! References: Analoui & Allebach (1992); Lieberman & Allebach (1997); Agar & Allebach (2005);
//! Flohr, Kolpatzik et al. (1993, YyCxCz); Kolpatzik & Bouman (1992, CSF constants);
//! Mullen (1985). Ported from OpenDithering's `dbs.ts` by Guy Sie (MIT; see the notice above
//! and `THIRD_PARTY_NOTICES.md`).

use crate::light_table::SRGB_TO_LINEAR_LUT;

// From color_space.rs.

/// sRGB [0–255] → linear [0.0–1.0]. IEC 61966-2-1 piecewise transfer function.
pub fn srgb_channel_to_linear(value: u8) -> f64 {
    f64::from_bits(SRGB_TO_LINEAR_LUT[value as usize]) // stand-in: the light table for `powf`
}

/// `srgb_channel_to_linear` as it stands in the original; the comparison counts where it differs.
pub fn srgb_channel_to_linear_powf(value: u8) -> f64 {
    srgb_fraction_to_linear(value as f64 / 255.0)
}

/// Continuous sRGB fraction [0.0–1.0] → linear [0.0–1.0]. Same gamma curve as
/// `srgb_channel_to_linear` but operates on continuous input — useful when sub-byte
/// precision is needed (e.g. ordered dither perturbs pixels in sRGB-fraction space
/// before the linear conversion).
fn srgb_fraction_to_linear(value: f64) -> f64 {
    if value <= 0.04045 {
        value / 12.92
    } else {
        ((value + 0.055) / 1.055).powf(2.4)
    }
}

// From lab.rs.

/// D65 reference white in XYZ: the row sums of `SRGB_TO_XYZ`, so sRGB white maps to
/// exactly L\* 100, a\* = b\* = 0.
const D65: [f64; 3] = [
    SRGB_TO_XYZ[0][0] + SRGB_TO_XYZ[0][1] + SRGB_TO_XYZ[0][2],
    SRGB_TO_XYZ[1][0] + SRGB_TO_XYZ[1][1] + SRGB_TO_XYZ[1][2],
    SRGB_TO_XYZ[2][0] + SRGB_TO_XYZ[2][1] + SRGB_TO_XYZ[2][2],
];

// Linear sRGB → XYZ (D65), IEC 61966-2-1. The middle row is relative luminance.
const SRGB_TO_XYZ: [[f64; 3]; 3] = [
    [0.412_456_4, 0.357_576_1, 0.180_437_5],
    [0.212_672_9, 0.715_152_2, 0.072_175_0],
    [0.019_333_9, 0.119_192_0, 0.950_304_1],
];

// From srgb_palette.rs.

pub struct SrgbPalette {
    /// sRGB of each entry's appearance, in palette index order.
    pub colors: Vec<[u8; 3]>,
}

// stand-in: document 01's `exp`.
pub fn exp(t: f64) -> f64 {
    let y = t / 1024.0;
    let mut s = 1.0;
    for k in (1..=10).rev() {
        s = 1.0 + (y * s) / f64::from(k);
    }
    for _ in 0..10 {
        s = s * s;
    }
    s
}

// stand-in: document 01's `to_degrees`, a product with the f64 quotient 180 / π.
fn to_degrees(radians: f64) -> f64 {
    radians * (180.0 / std::f64::consts::PI)
}

// From dbs.rs.

// Kolpatzik & Bouman (1992) exponential CSF decay constants, W(f) ∝ exp(−α·f), f in cycles/degree.
// Luminance: Näsänen's α(L) = 1 / (0.525·ln L + 3.91) at L = 11 cd/m² ≈ 0.193.
// Chrominance: fitted to Mullen (1985), α = 0.419 for both opponent channels.
const ALPHA_LUM: f64 = 0.193;
const ALPHA_CHROMA: f64 = 0.419;

/// sRGB bytes → YyCxCz: `Yy = 116·Y/Yn`, `Cx = 500·(X/Xn − Y/Yn)`, `Cz = 200·(Y/Yn − Z/Zn)`.
/// The white point is sRGB white, so (255, 255, 255) maps to zero chroma. Measured palettes
/// are normalised to paper white, which therefore lands at the same point.
fn srgb_to_yycxcz(rgb: [u8; 3]) -> [f64; 3] {
    let lin = rgb.map(srgb_channel_to_linear);
    let [x, y, z] = SRGB_TO_XYZ.map(|row| row[0] * lin[0] + row[1] * lin[1] + row[2] * lin[2]);
    let [xn, yn, zn] = D65;
    [116.0 * y / yn, 500.0 * (x / xn - y / yn), 200.0 * (y / yn - z / zn)]
}

/// Square, centred 2-D table: `data[(dy + r)·size + (dx + r)]` for `|dx|, |dy| ≤ r`.
#[derive(Clone)]
struct Kernel2D {
    radius: usize,
    size: usize,
    data: Vec<f64>,
}

impl Kernel2D {
    #[inline]
    fn at(&self, dx: isize, dy: isize) -> f64 {
        let r = self.radius as isize;
        self.data[((dy + r) * self.size as isize + dx + r) as usize]
    }
}

/// Blur truncation in standard deviations. Update cost grows with the square of the
/// autocorrelation radius (2× the blur radius), so this is the main speed/accuracy knob.
const BLUR_TRUNCATION_SIGMAS: f64 = 2.5;

/// Normalised (unit-sum) sampled Gaussian, truncated at `ceil(BLUR_TRUNCATION_SIGMAS·σ)`.
fn gaussian_blur(sigma: f64) -> Kernel2D {
    let r = (BLUR_TRUNCATION_SIGMAS * sigma).ceil().max(1.0) as usize;
    let size = 2 * r + 1;
    let g: Vec<f64> = (0..size)
        .map(|i| {
            let d = i as f64 - r as f64;
            exp(-(d * d) / (2.0 * sigma * sigma)) // stand-in: `exp`
        })
        .collect();
    let sum: f64 = g.iter().fold(0.0, |s, v| s + v); // stand-in: sum from 0.0
    let data = (0..size * size).map(|i| g[i / size] * g[i % size] / (sum * sum)).collect();
    Kernel2D { radius: r, size, data }
}

/// `c(d) = Σ_u p(u)·p(u + d)`, with twice the radius of `p`.
fn autocorrelate(p: &Kernel2D) -> Kernel2D {
    let pr = p.radius as isize;
    let radius = 2 * p.radius;
    let size = 2 * radius + 1;
    let mut data = vec![0.0; size * size];
    for dy in -(radius as isize)..=radius as isize {
        for dx in -(radius as isize)..=radius as isize {
            let mut s = 0.0;
            for uy in (-pr).max(-pr - dy)..=pr.min(pr - dy) {
                for ux in (-pr).max(-pr - dx)..=pr.min(pr - dx) {
                    s += p.at(ux, uy) * p.at(ux + dx, uy + dy);
                }
            }
            data[(dy + radius as isize) as usize * size + (dx + radius as isize) as usize] = s;
        }
    }
    Kernel2D { radius, size, data }
}

/// Eye-model blur width in pixels for a CSF decay constant at the given viewing geometry.
fn eye_sigma_px(alpha: f64, params: &DbsParams) -> f64 {
    let pixel_deg = to_degrees(2.54 / params.ppi / params.viewing_distance_cm); // stand-in: `to_degrees`
    alpha / (2.0 * std::f64::consts::PI) / pixel_deg
}

/// Which eye-model blur each YyCxCz channel uses: Yy → luminance (0), Cx and Cz → chrominance (1).
const CHANNEL_BLUR: [usize; 3] = [0, 1, 1];

/// Eye-model blurs `[luminance, chrominance]`; index with `CHANNEL_BLUR`.
fn eye_blurs(params: &DbsParams) -> [Kernel2D; 2] {
    if let Err(e) = params.validate() {
        panic!("{e}");
    }
    let lum = gaussian_blur(eye_sigma_px(ALPHA_LUM, params));
    let chroma = gaussian_blur(eye_sigma_px(ALPHA_CHROMA, params));
    [lum, chroma]
}

/// SrgbPalette inks and target pixels in YyCxCz.
fn to_yycxcz(pixels: &[u8], width: usize, height: usize, palette: &SrgbPalette) -> (Vec<[f64; 3]>, Vec<[f64; 3]>) {
    assert_eq!(pixels.len(), width * height * 3, "pixel buffer size mismatch");
    let inks = palette.colors.iter().map(|&c| srgb_to_yycxcz(c)).collect();
    // stand-in: sequential iterator
    let target = pixels.chunks_exact(3).map(|c| srgb_to_yycxcz([c[0], c[1], c[2]])).collect();
    (inks, target)
}

/// `out(m) = Σ_d c(d)·e(m + d)` over the image (e is zero outside it).
fn correlate(e: &[f64], width: usize, height: usize, c: &Kernel2D) -> Vec<f64> {
    let r = c.radius as isize;
    let (w, h) = (width as isize, height as isize);
    let mut out = vec![0.0; e.len()];
    // stand-in: sequential iterator
    out.chunks_mut(width).enumerate().for_each(|(y, row)| {
        let y = y as isize;
        for (x, o) in row.iter_mut().enumerate() {
            let x = x as isize;
            let mut s = 0.0;
            for dy in (-r).max(-y)..=r.min(h - 1 - y) {
                let base = ((y + dy) * w + x) as usize;
                for dx in (-r).max(-x)..=r.min(w - 1 - x) {
                    s += c.at(dx, dy) * e[(base as isize + dx) as usize];
                }
            }
            *o = s;
        }
    });
    out
}

/// 8-neighbourhood offsets `(dx, dy)` tried for swaps.
const NEIGHBOURS: [(isize, isize); 8] =
    [(-1, -1), (0, -1), (1, -1), (-1, 0), (1, 0), (-1, 1), (0, 1), (1, 1)];

/// `(x + dx, y + dy)` if it lies inside a `width × height` image.
fn neighbour(x: usize, y: usize, dx: isize, dy: isize, width: usize, height: usize) -> Option<(usize, usize)> {
    let nx = x.checked_add_signed(dx).filter(|&v| v < width)?;
    let ny = y.checked_add_signed(dy).filter(|&v| v < height)?;
    Some((nx, ny))
}

/// Parameters for DBS refinement.
#[derive(Debug, Clone, Copy, PartialEq)]
pub struct DbsParams {
    /// Distance between viewer and panel, in centimetres.
    pub viewing_distance_cm: f64,
    /// Panel pixel density, in pixels per inch.
    pub ppi: f64,
    /// Upper bound on full-image passes; refinement stops earlier once a pass changes nothing.
    pub max_passes: u32,
}

impl Default for DbsParams {
    /// 40 cm from a ~127 ppi panel (7.3" 800×480), at most 10 passes.
    fn default() -> Self {
        Self { viewing_distance_cm: 40.0, ppi: 127.0, max_passes: 10 }
    }
}

/// A `DbsParams` field outside its valid range (finite and > 0).
#[derive(Debug, Clone, Copy, PartialEq)]
pub struct InvalidDbsParams {
    pub field: &'static str,
    pub value: f64,
}

impl std::fmt::Display for InvalidDbsParams {
    fn fmt(&self, f: &mut std::fmt::Formatter<'_>) -> std::fmt::Result {
        write!(f, "DBS {} must be finite and greater than 0, got {}", self.field, self.value)
    }
}

impl std::error::Error for InvalidDbsParams {}

impl DbsParams {
    /// Check that the viewing geometry is usable. FFI boundaries call this to report a clean
    /// error; `dbs_refine` panics on invalid parameters.
    pub fn validate(&self) -> Result<(), InvalidDbsParams> {
        for (field, value) in [("ppi", self.ppi), ("viewing_distance_cm", self.viewing_distance_cm)] {
            if !(value.is_finite() && value > 0.0) {
                return Err(InvalidDbsParams { field, value });
            }
        }
        Ok(())
    }
}

/// Diagnostics from a `dbs_refine` run.
#[derive(Debug, Clone, PartialEq)]
pub struct DbsStats {
    /// Passes actually run (≤ `max_passes`).
    pub passes: u32,
    /// Number of accepted changes in each pass.
    pub accepted_per_pass: Vec<usize>,
    /// Perceived error of the starting halftone.
    pub initial_error: f64,
    /// Perceived error of the refined halftone.
    pub final_error: f64,
}

/// Calls `f(c_pe(x, y), k(x − mx, y − my))` over the footprint of `k` centred on `(mx, my)`,
/// clipped to the image.
fn sweep(
    cpe: &mut [[f64; 3]],
    width: usize,
    height: usize,
    k: &Kernel2D,
    (mx, my): (usize, usize),
    mut f: impl FnMut(&mut [f64; 3], f64),
) {
    let r = k.radius;
    let (x0, x1) = (mx.saturating_sub(r), (mx + r).min(width - 1));
    // Kernel column of x0 is x0 − mx + r.
    let kx0 = x0 + r - mx;
    for y in my.saturating_sub(r)..=(my + r).min(height - 1) {
        let krow = (y + r - my) * k.size;
        let kernel = &k.data[krow + kx0..=krow + kx0 + (x1 - x0)];
        let row = &mut cpe[y * width + x0..=y * width + x1];
        for (c, &kv) in row.iter_mut().zip(kernel) {
            f(c, kv);
        }
    }
}

/// Read-only state shared by every tile.
struct Shared<'a> {
    width: usize,
    height: usize,
    inks: &'a [[f64; 3]],
    cpp_lum: &'a Kernel2D,
    cpp_chroma: &'a Kernel2D,
    pinned: Option<&'a [bool]>,
}

impl Shared<'_> {
    fn is_pinned(&self, i: usize) -> bool {
        self.pinned.is_some_and(|p| p[i])
    }
}

/// Inclusive-exclusive rectangle `[x0, x1) × [y0, y1)` in image coordinates.
#[derive(Clone, Copy)]
struct Rect {
    x0: usize,
    y0: usize,
    x1: usize,
    y1: usize,
}

impl Rect {
    fn width(&self) -> usize {
        self.x1 - self.x0
    }
}

/// A tile's private working copy of `c_pe` and `indices` over `rect` (the tile plus a margin
/// wide enough to hold every read and write its moves make).
struct Region {
    rect: Rect,
    cpe: Vec<[f64; 3]>,
    indices: Vec<u8>,
    first: Option<FirstMove>, // accessor
}

impl Region {
    fn copy_from(rect: Rect, cpe: &[[f64; 3]], indices: &[u8], width: usize) -> Self {
        let rows = rect.y0..rect.y1;
        let span = |y: usize| y * width + rect.x0..y * width + rect.x1;
        Self {
            rect,
            cpe: rows.clone().flat_map(|y| cpe[span(y)].iter().copied()).collect(),
            indices: rows.flat_map(|y| indices[span(y)].iter().copied()).collect(),
            first: None, // accessor
        }
    }

    fn copy_into(&self, cpe: &mut [[f64; 3]], indices: &mut [u8], width: usize) {
        let w = self.rect.width();
        for (ry, y) in (self.rect.y0..self.rect.y1).enumerate() {
            let span = y * width + self.rect.x0..y * width + self.rect.x1;
            cpe[span.clone()].copy_from_slice(&self.cpe[ry * w..(ry + 1) * w]);
            indices[span].copy_from_slice(&self.indices[ry * w..(ry + 1) * w]);
        }
    }
}

/// One raster pass of DBS over the pixels of `tile`, working in `region`. Returns the number
/// of accepted moves and the summed change in perceived error.
fn refine_tile(sh: &Shared, region: &mut Region, tile: Rect) -> (usize, f64) {
    const EPS: f64 = 1e-9;
    let Region { rect, cpe, indices, first } = region; // accessor: also first
    let (rw, rh) = (rect.width(), rect.y1 - rect.y0);
    let local = |x: usize, y: usize| (y - rect.y0) * rw + (x - rect.x0);
    let cpp = [sh.cpp_lum, sh.cpp_chroma, sh.cpp_chroma];
    let cpp0 = cpp.map(|k| k.at(0, 0));
    let inks = sh.inks;

    // c_pe += a_ch·c_pp_ch(· − m) for every channel. Cx and Cz share the chrominance kernel,
    // so they are updated in a single sweep. The region margin covers the whole footprint, so
    // clipping to the region only ever clips at true image edges.
    let add_kernels = |cpe: &mut [[f64; 3]], (x, y): (usize, usize), a: [f64; 3]| {
        let m = (x - rect.x0, y - rect.y0);
        sweep(cpe, rw, rh, sh.cpp_lum, m, |c, k| c[0] += a[0] * k);
        sweep(cpe, rw, rh, sh.cpp_chroma, m, |c, k| {
            c[1] += a[1] * k;
            c[2] += a[2] * k;
        });
    };

    let (mut accepted, mut delta) = (0, 0.0);
    for y in tile.y0..tile.y1 {
        for x in tile.x0..tile.x1 {
            if sh.is_pinned(y * sh.width + x) {
                continue;
            }
            let m = local(x, y);
            let k = indices[m] as usize;
            let c = cpe[m];

            enum Move { Toggle(usize), Swap { n: usize, nx: usize, ny: usize } }
            let mut best_de = -EPS;
            let mut best = None;

            for j in (0..inks.len()).filter(|&j| j != k) {
                let de: f64 = (0..3)
                    .map(|ch| {
                        let a = inks[j][ch] - inks[k][ch];
                        cpp0[ch] * a * a + 2.0 * a * c[ch]
                    })
                    .fold(0.0, |s, v| s + v); // stand-in: sum from 0.0
                if de < best_de {
                    best_de = de;
                    best = Some(Move::Toggle(j));
                }
            }

            for (dx, dy) in NEIGHBOURS {
                let Some((nx, ny)) = neighbour(x, y, dx, dy, sh.width, sh.height) else { continue };
                let n = local(nx, ny);
                let kn = indices[n] as usize;
                if kn == k || sh.is_pinned(ny * sh.width + nx) {
                    continue;
                }
                // m takes kn (Δ = a), n takes k (Δ = −a).
                let de: f64 = (0..3)
                    .map(|ch| {
                        let a = inks[kn][ch] - inks[k][ch];
                        2.0 * a * a * (cpp0[ch] - cpp[ch].at(dx, dy)) + 2.0 * a * (c[ch] - cpe[n][ch])
                    })
                    .fold(0.0, |s, v| s + v); // stand-in: sum from 0.0
                if de < best_de {
                    best_de = de;
                    best = Some(Move::Swap { n, nx, ny });
                }
            }

            let Some(mv) = best else { continue };
            let kind = matches!(mv, Move::Swap { .. }) as u64; // accessor
            first.get_or_insert(FirstMove { pixel: y * sh.width + x, kind, cost: best_de }); // accessor
            accepted += 1;
            delta += best_de;
            match mv {
                Move::Toggle(j) => {
                    add_kernels(cpe, (x, y), std::array::from_fn(|ch| inks[j][ch] - inks[k][ch]));
                    indices[m] = j as u8;
                }
                Move::Swap { n, nx, ny } => {
                    let kn = indices[n] as usize;
                    let a: [f64; 3] = std::array::from_fn(|ch| inks[kn][ch] - inks[k][ch]);
                    add_kernels(cpe, (x, y), a);
                    add_kernels(cpe, (nx, ny), a.map(|v| -v));
                    indices.swap(m, n);
                }
            }
        }
    }
    (accepted, delta)
}

/// Smallest tile side. Larger tiles amortise the region copies; smaller ones expose more
/// parallelism. The correctness bound (`2·margin + 1`) is enforced separately.
const MIN_TILE: usize = 64;

/// Refine palette `indices` in place to minimise perceived error against `pixels` (sRGB,
/// `width × height × 3`), as seen through `palette` (pass the measured palette).
///
/// `pinned` pixels are never changed or swapped, and their target is taken to be their own
/// ink, so they neither carry error nor pull neighbours to compensate for it.
///
/// Each pass runs in four phases over a 2×2 checkerboard of tiles. A move inside a tile reads
/// within 1 px of it and writes within `margin = R + 1` of it (R = autocorrelation radius), so
/// tiles of one phase — at least one tile side (≥ 2·margin + 1) apart — never touch each
/// other's data and run in parallel on private copies. The result depends only on the fixed
/// tile order, not on thread count or scheduling.
///
/// # Panics
/// Panics if buffer lengths disagree with `width × height`, or on a non-positive `ppi` or
/// viewing distance.
pub fn dbs_refine(
    pixels: &[u8],
    width: usize,
    height: usize,
    palette: &SrgbPalette,
    indices: &mut [u8],
    pinned: Option<&[bool]>,
    params: &DbsParams,
) -> (DbsStats, Kept) { // accessor: also what the original drops
    let n_px = width * height;
    assert_eq!(indices.len(), n_px, "index buffer size mismatch");
    if let Some(p) = pinned {
        assert_eq!(p.len(), n_px, "pinned mask size mismatch");
    }

    let (inks, mut target) = to_yycxcz(pixels, width, height, palette);
    for (i, t) in target.iter_mut().enumerate() {
        if pinned.is_some_and(|p| p[i]) {
            *t = inks[indices[i] as usize];
        }
    }

    let [cpp_lum, cpp_chroma] = eye_blurs(params).map(|p| autocorrelate(&p));
    let cpp = [&cpp_lum, &cpp_chroma, &cpp_chroma];

    // c_pe per pixel, channels interleaved so one footprint sweep touches each cache line once.
    let per_channel: [Vec<f64>; 3] = std::array::from_fn(|ch| {
        let e: Vec<f64> = (0..n_px).map(|i| inks[indices[i] as usize][ch] - target[i][ch]).collect();
        correlate(&e, width, height, cpp[ch])
    });
    let mut cpe: Vec<[f64; 3]> = (0..n_px).map(|i| per_channel.each_ref().map(|c| c[i])).collect();
    let mut err: f64 = (0..3)
        .map(|ch| {
            (0..n_px)
                .map(|i| (inks[indices[i] as usize][ch] - target[i][ch]) * cpe[i][ch])
                .fold(0.0, |s, v| s + v) // stand-in: sum from 0.0
        })
        .fold(0.0, |s, v| s + v); // stand-in: sum from 0.0
    let initial_error = err;

    let sh = Shared { width, height, inks: &inks, cpp_lum: &cpp_lum, cpp_chroma: &cpp_chroma, pinned };
    let margin = cpp_lum.radius.max(cpp_chroma.radius) + 1;
    let side = MIN_TILE.max(2 * margin + 1);
    let tiles = |phase_x: usize, phase_y: usize| {
        let (cols, rows) = (width.div_ceil(side), height.div_ceil(side));
        (0..rows)
            .filter(move |ty| ty % 2 == phase_y)
            .flat_map(move |ty| (0..cols).filter(move |tx| tx % 2 == phase_x).map(move |tx| (tx, ty)))
            .map(|(tx, ty)| Rect {
                x0: tx * side,
                y0: ty * side,
                x1: ((tx + 1) * side).min(width),
                y1: ((ty + 1) * side).min(height),
            })
            .collect::<Vec<_>>()
    };
    let with_margin = |t: Rect| Rect {
        x0: t.x0.saturating_sub(margin),
        y0: t.y0.saturating_sub(margin),
        x1: (t.x1 + margin).min(width),
        y1: (t.y1 + margin).min(height),
    };

    let mut first = None; // accessor
    let mut accepted_per_pass = Vec::new();
    for _ in 0..params.max_passes {
        let mut accepted = 0;
        for (phase_x, phase_y) in [(0, 0), (1, 0), (0, 1), (1, 1)] {
            let results: Vec<_> = tiles(phase_x, phase_y)
                .into_iter() // stand-in: sequential iterator
                .map(|tile| {
                    let mut region = Region::copy_from(with_margin(tile), &cpe, indices, width);
                    let (n, delta) = refine_tile(&sh, &mut region, tile);
                    (region, n, delta)
                })
                .collect();
            // Regions of one phase are disjoint; fold in tile order for a deterministic sum.
            for (region, n, delta) in results {
                region.copy_into(&mut cpe, indices, width);
                first = first.or(region.first); // accessor
                accepted += n;
                err += delta;
            }
        }
        accepted_per_pass.push(accepted);
        if accepted == 0 {
            break;
        }
    }

    let stats = DbsStats {
        passes: accepted_per_pass.len() as u32,
        accepted_per_pass,
        initial_error,
        final_error: err,
    };
    (stats, Kept { cpe, cpp: [cpp_lum.data, cpp_chroma.data], inks, first }) // accessor
}

/// Perceived error `Σ_ch Σ_m ((p_ch ∗ e_ch)(m))²` of `indices` against `pixels`, computed
/// directly by blurring the error over the whole plane (no correlation shortcut). This is the
/// quantity `dbs_refine` minimises; useful for comparing halftones under the eye model.
pub fn perceived_error(
    pixels: &[u8],
    width: usize,
    height: usize,
    palette: &SrgbPalette,
    indices: &[u8],
    params: &DbsParams,
) -> f64 {
    assert_eq!(indices.len(), width * height, "index buffer size mismatch");
    let (inks, target) = to_yycxcz(pixels, width, height, palette);
    let blurs = eye_blurs(params);
    let (w, h) = (width as isize, height as isize);

    (0..3)
        .map(|ch| {
            let p = &blurs[CHANNEL_BLUR[ch]];
            let r = p.radius as isize;
            let e: Vec<f64> = (0..indices.len()).map(|i| inks[indices[i] as usize][ch] - target[i][ch]).collect();
            // The blurred error is non-zero up to r pixels outside the image.
            (-r..h + r)
                .into_iter() // stand-in: sequential iterator
                .map(|oy| {
                    let mut s = 0.0;
                    for ox in -r..w + r {
                        let mut v = 0.0;
                        for y in (oy - r).max(0)..=(oy + r).min(h - 1) {
                            for x in (ox - r).max(0)..=(ox + r).min(w - 1) {
                                v += p.at(ox - x, oy - y) * e[(y * w + x) as usize];
                            }
                        }
                        s += v * v;
                    }
                    s
                })
                .fold(0.0, |s, v| s + v) // stand-in: sum from 0.0
        })
        .fold(0.0, |s, v| s + v) // stand-in: sum from 0.0
}

// Accessors for the comparison.

/// What a run of `dbs_refine` leaves: `c_pe` at its end, the values of `c_pp`, the inks in YyCxCz and its
/// first accepted move.
pub struct Kept {
    pub cpe: Vec<[f64; 3]>,
    pub cpp: [Vec<f64>; 2],
    pub inks: Vec<[f64; 3]>,
    pub first: Option<FirstMove>,
}

/// An accepted move: its pixel, 0 for a toggle or 1 for a swap, and the change in perceived error.
pub struct FirstMove {
    pub pixel: usize,
    pub kind: u64,
    pub cost: f64,
}

/// Blur widths in pixels, `[luminance, chrominance]`.
pub fn eye_sigmas(params: &DbsParams) -> [f64; 2] {
    [ALPHA_LUM, ALPHA_CHROMA].map(|alpha| eye_sigma_px(alpha, params))
}

/// Radius and values of `c_pp`, `[luminance, chrominance]`.
pub fn eye_kernels(params: &DbsParams) -> [(usize, Vec<f64>); 2] {
    eye_blurs(params).map(|p| autocorrelate(&p)).map(|c_pp| (c_pp.radius, c_pp.data))
}

/// Values of the `c_pp` that belongs to samples of a Gaussian, as `gaussian_blur` goes on from them.
pub fn kernel_of_samples(g: &[f64]) -> Vec<f64> {
    let size = g.len();
    let sum = g.iter().fold(0.0, |s, v| s + v);
    let data = (0..size * size).map(|i| g[i / size] * g[i % size] / (sum * sum)).collect();
    autocorrelate(&Kernel2D { radius: size / 2, size, data }).data
}

/// What `refine_tile` reads of an image, `c_pp` as radius and values, `[luminance, chrominance]`.
pub struct Reads<'a> {
    pub width: usize,
    pub height: usize,
    pub inks: &'a [[f64; 3]],
    pub cpp: [(usize, &'a [f64]); 2],
    pub pinned: Option<&'a [bool]>,
}

/// `refine_tile` on `c_pe` and indices of a region; rectangles are `[x0, y0, x1, y1]`.
pub fn refine_region(
    reads: &Reads,
    region: [usize; 4],
    tile: [usize; 4],
    cpe: &mut Vec<[f64; 3]>,
    indices: &mut Vec<u8>,
) -> (usize, f64) {
    let &Reads { width, height, inks, cpp, pinned } = reads;
    let rect = |[x0, y0, x1, y1]: [usize; 4]| Rect { x0, y0, x1, y1 };
    let kernel = |(radius, data): (usize, &[f64])| Kernel2D { radius, size: 2 * radius + 1, data: data.to_vec() };
    let [cpp_lum, cpp_chroma] = &cpp.map(kernel);
    let mut region = Region {
        rect: rect(region),
        cpe: std::mem::take(cpe),
        indices: std::mem::take(indices),
        first: None,
    };
    let answer = refine_tile(&Shared { width, height, inks, cpp_lum, cpp_chroma, pinned }, &mut region, rect(tile));
    (*cpe, *indices) = (region.cpe, region.indices);
    answer
}
