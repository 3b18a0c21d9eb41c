//! The list of eyes.txt: viewing geometries with the radii and a checksum of both kernels, for a
//! program that computes the kernels anew.

use crate::original::{exp, eye_kernels, eye_sigmas, kernel_of_samples, DbsParams};
use crate::Section;

const HEADER: &str = "\
# Eyes with their kernels by the copy of the Rust, made with
#   compare/run --kernels > compare/eyes.txt
# A line holds the bits of ppi and of viewing_distance_cm, 16 hexadecimal digits each; then the
# radii of the luminance and the chrominance kernel and their checksum, 8 hexadecimal digits; or,
# where the eye is refused, number and place.
# Checksum: h = 0; for each value, row by row, luminance first, and of its bits first the high and
# then the low 32, h becomes (31 h + those 32 bits) mod 4294967291.
";

/// eyes.txt against the list made anew.
pub fn compare() -> Section {
    let mut section = Section::new("eyes");
    let made = list();
    let [kept, made] = [include_str!("eyes.txt"), made.as_str()]
        .map(|text| text.lines().filter(|line| !line.starts_with('#')).collect::<Vec<_>>());
    for i in 0..kept.len().max(made.len()) {
        section.compare(format_args!("eye {i}"), kept.get(i), made.get(i));
    }
    section
}

/// The text of eyes.txt.
pub fn list() -> String {
    let luminance = |e: &DbsParams| 2.5 * eye_sigmas(e)[0];
    let chrominance = |e: &DbsParams| 2.5 * eye_sigmas(e)[1];
    let groups = [
        ("The common panel.", vec![eye(127.0, 40.0)]),
        ("Luminance sigma below, at and above 0.05.", around(|e| eye_sigmas(e)[0], 0.05, 10).to_vec()),
        ("Chrominance 2.5 sigma below, at and above 16.", around(chrominance, 16.0, 10).to_vec()),
        (
            "Luminance 2.5 sigma not above and above each of 1 to 7: every blur radius, 1 to 8.",
            (1..=7).flat_map(|whole| step(luminance, whole)).collect(),
        ),
        (
            "Chrominance 2.5 sigma not above and above each of 1 to 15: every blur radius, 1 to 16.",
            (1..=15).flat_map(|whole| step(chrominance, whole)).collect(),
        ),
        (
            "Kernels that `y * (s / k)` in place of `(y * s) / k` in `exp` would change.",
            [24.0, 30.0, 40.0, 50.0, 81.0, 91.984375, 104.34375]
                .map(|ppi| changed_by(|dd, sigma| regrouped_exp(-dd / (2.0 * sigma * sigma)), ppi))
                .to_vec(),
        ),
        (
            "Kernels that `exp` of `-(d * d) / 2.0 / sigma / sigma` would change.",
            [24.0, 127.0, 508.0].map(|ppi| changed_by(|dd, sigma| exp(-dd / 2.0 / sigma / sigma), ppi)).to_vec(),
        ),
        ("Sigma 0 and infinite.", vec![eye(5e-324, 5e-324), eye(f64::MAX, f64::MAX)]),
    ];
    let mut text = HEADER.to_string();
    for (title, eyes) in groups {
        text += &format!("# {title}\n");
        for e in &eyes {
            let (ppi, distance) = (e.ppi.to_bits(), e.viewing_distance_cm.to_bits());
            text += &format!("{ppi:016x} {distance:016x} {}\n", answer(e));
        }
    }
    text
}

/// Radii and checksum of an eye's kernels, or its refusal.
fn answer(e: &DbsParams) -> String {
    let [luminance, chrominance] = eye_sigmas(e);
    if luminance < 0.05 {
        return "9 0".to_string();
    }
    if 2.5 * chrominance > 16.0 {
        return "9 1".to_string();
    }
    let kernels = eye_kernels(e);
    let values = kernels.iter().flat_map(|(_, values)| values);
    let checksum = checksum(values.flat_map(|value| halves(value.to_bits())));
    format!("{} {} {checksum:08x}", kernels[0].0, kernels[1].0)
}

/// The high and the low 32 bits.
pub fn halves(bits: u64) -> [u64; 2] {
    [bits >> 32, bits % (1 << 32)]
}

pub fn checksum(words: impl Iterator<Item = u64>) -> u64 {
    words.fold(0, |h, word| (h * 31 + word) % 4_294_967_291)
}

pub fn eye(ppi: f64, viewing_distance_cm: f64) -> DbsParams {
    DbsParams { viewing_distance_cm, ppi, max_passes: 0 }
}

/// Where `value`, growing with ppi, passes `limit`: the last eye below it, the last not above it and
/// the first above it. The distance is the first of 50 whole ones from `from` cm on at which the
/// second eye is exactly at the limit, or else `from` (luminance 2.5 sigma is never exactly 5).
pub fn around(value: impl Fn(&DbsParams) -> f64, limit: f64, from: u32) -> [DbsParams; 3] {
    let eyes = |cm: u32| {
        let eye = |ppi: u64| eye(f64::from_bits(ppi), f64::from(cm));
        let reached = first(|ppi| value(&eye(ppi)) >= limit);
        let above = first(|ppi| value(&eye(ppi)) > limit);
        [reached - 1, above - 1, above].map(eye)
    };
    (from..from + 50).map(eyes).find(|[_, at, _]| value(at) == limit).unwrap_or_else(|| eyes(from))
}

/// The last eye whose `value` is not above a whole number, and the first whose value is.
fn step(value: impl Fn(&DbsParams) -> f64, whole: u32) -> [DbsParams; 2] {
    let [_, not_above, above] = around(value, f64::from(whole), 10 + 5 * whole);
    [not_above, above]
}

/// The bits of the least f64 above 0 from which on `holds`.
fn first(holds: impl Fn(u64) -> bool) -> u64 {
    let (mut before, mut from) = (0, f64::MAX.to_bits());
    while from - before > 1 {
        let middle = (before + from) / 2;
        if holds(middle) {
            from = middle;
        } else {
            before = middle;
        }
    }
    from
}

/// The first eye at 10 cm, from `ppi` on in steps of 2⁻²⁰, whose kernels change where a Gaussian's
/// samples are computed as `slip(d * d, sigma)`.
fn changed_by(slip: fn(f64, f64) -> f64, ppi: f64) -> DbsParams {
    let slipped = |sigma: f64| {
        let r = (2.5 * sigma).ceil().max(1.0) as i32;
        let g: Vec<f64> = (-r..=r).map(|d| slip(f64::from(d * d), sigma)).collect();
        kernel_of_samples(&g)
    };
    (0..1 << 17)
        .map(|i| eye(ppi + f64::from(i) / 1_048_576.0, 10.0))
        .find(|e| eye_kernels(e).map(|(_, values)| values) != eye_sigmas(e).map(slipped))
        .expect("an eye that the slip changes")
}

/// `exp` with its quotient regrouped.
fn regrouped_exp(t: f64) -> f64 {
    let y = t / 1024.0;
    let s = (1..=10).rev().fold(1.0, |s, k| 1.0 + y * (s / f64::from(k)));
    (0..10).fold(s, |s, _| s * s)
}
