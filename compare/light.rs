//! The light table against the sentences of document 01, in whole numbers only.
//!
//! Every finite f64 from 0 up is a whole number of 2⁻¹⁰⁷⁵, and so is the middle between it and the
//! next one. So how such an x lies to the goal (a quotient, or the L with L⁵ = …) is a comparison of
//! two whole numbers, and a search over the 63 bits finds the nearest.

use std::cmp::Ordering;

use crate::light_table::SRGB_TO_LINEAR_LUT;
use crate::original::srgb_channel_to_linear_powf;
use crate::Section;

pub fn compare() -> Section {
    let mut section = Section::new("light values");
    let (mut bytes, mut largest) = (0, (0, 0));
    for v in 0..=255 {
        let nearest = linear(v);
        section.compare(format_args!("light of {v}"), SRGB_TO_LINEAR_LUT[v as usize], nearest);
        let distance = srgb_channel_to_linear_powf(v).to_bits().abs_diff(nearest);
        bytes += usize::from(distance > 0);
        largest = largest.max((distance, v));
    }
    let (distance, v) = largest;
    println!("powf: {bytes} light values differ, by at most {distance} units in the last place (byte {v})");
    section
}

/// The bits of the f64 that IEC 61966-2-1 gives for a byte.
fn linear(v: u8) -> u64 {
    let v = u64::from(v);
    if v <= 10 {
        let fraction = units(quotient(&integer(v), &integer(255)));
        return quotient(&fraction, &units(quotient(&integer(1292), &integer(100))));
    }
    // x ≤ L where x⁵ · 10761¹² ≤ (40v + 561)¹².
    let goal = &integer(40 * v + 561).power(12) * &integer(1).shifted(5 * UNIT);
    let scale = integer(10761).power(12);
    nearest(|x| (&x.power(5) * &scale).cmp(&goal))
}

/// The f64 nearest to a / b, as bits; a and b may both be counted in units.
fn quotient(a: &Natural, b: &Natural) -> u64 {
    let goal = a.shifted(UNIT);
    nearest(|x| (x * b).cmp(&goal))
}

/// The unit is 2⁻¹⁰⁷⁵, half of the least f64 above 0.
const UNIT: usize = 1075;

/// A finite f64 of at least 0, as significand and power of two in units.
fn parts(bits: u64) -> (u64, usize) {
    let (exponent, fraction) = (bits >> 52, bits % (1 << 52));
    let leading = u64::from(exponent > 0) << 52;
    (leading + fraction, exponent.max(1) as usize)
}

/// A finite f64 of at least 0, in units.
fn units(bits: u64) -> Natural {
    let (significand, power) = parts(bits);
    integer(significand).shifted(power)
}

/// The middle between a finite f64 of at least 0 and the next one, in units.
fn middle(bits: u64) -> Natural {
    let (significand, power) = parts(bits);
    integer(2 * significand + 1).shifted(power - 1)
}

/// The f64 nearest to a goal of at least 0, the even one of two, as bits; `order` is how an x in
/// units lies to the goal.
fn nearest(order: impl Fn(&Natural) -> Ordering) -> u64 {
    let (mut below, mut above) = (0, f64::INFINITY.to_bits());
    while above - below > 1 {
        let x = (below + above) / 2;
        if order(&units(x)).is_le() {
            below = x;
        } else {
            above = x;
        }
    }
    match order(&middle(below)) {
        Ordering::Greater => below,
        Ordering::Equal => below + below % 2,
        Ordering::Less => below + 1,
    }
}

/// A whole number: digits of 32 bits, lowest first, the highest not 0.
struct Natural(Vec<u32>);

fn integer(n: u64) -> Natural {
    Natural(vec![n as u32, (n >> 32) as u32]).trimmed()
}

impl Natural {
    fn trimmed(mut self) -> Self {
        while self.0.last() == Some(&0) {
            self.0.pop();
        }
        self
    }

    /// self · 2ⁿ
    fn shifted(&self, n: usize) -> Self {
        let mut digits = vec![0; n / 32];
        digits.push(1 << (n % 32));
        self * &Natural(digits)
    }

    fn power(&self, n: u32) -> Self {
        (0..n).fold(integer(1), |product, _| &product * self)
    }

    fn cmp(&self, other: &Self) -> Ordering {
        self.0.len().cmp(&other.0.len()).then_with(|| self.0.iter().rev().cmp(other.0.iter().rev()))
    }
}

impl std::ops::Mul for &Natural {
    type Output = Natural;

    fn mul(self, other: Self) -> Natural {
        let mut digits = vec![0; self.0.len() + other.0.len()];
        for (i, &a) in self.0.iter().enumerate() {
            let mut carry = 0;
            for (j, &b) in other.0.iter().enumerate() {
                let t = u64::from(a) * u64::from(b) + u64::from(digits[i + j]) + carry;
                digits[i + j] = t as u32;
                carry = t >> 32;
            }
            digits[i + other.0.len()] = carry as u32;
        }
        Natural(digits).trimmed()
    }
}
