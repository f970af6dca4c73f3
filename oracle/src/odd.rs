//! Numbers that arithmetic goes wrong on: zeros of both signs, the ends of the subnormal and the
//! normal range, infinities, NaN, and the angles that the rules single out.

use crate::rng::Rng;
use std::f64::consts::{FRAC_PI_2, FRAC_PI_4, PI, TAU};

const LARGEST_SUBNORMAL: f64 = f64::from_bits((1 << 52) - 1);
const SMALLEST_SUBNORMAL: f64 = f64::from_bits(1);

/// Sizes; either sign is taken.
const SPECIAL: [f64; 13] = [
    0.0,
    SMALLEST_SUBNORMAL,
    LARGEST_SUBNORMAL,
    f64::MIN_POSITIVE,
    f64::MAX,
    f64::INFINITY,
    f64::NAN,
    1.0,
    PI,
    FRAC_PI_2,
    FRAC_PI_4,
    TAU,
    2.0,
];

const FINITE_ODD: [f64; 10] = [
    0.0,
    0.0,
    SMALLEST_SUBNORMAL,
    LARGEST_SUBNORMAL,
    f64::MIN_POSITIVE,
    1e300,
    1e-300,
    1e150,
    1e-150,
    f64::MAX,
];

/// `steps` f64s further from zero, or nearer if negative.
pub fn nudged(x: f64, steps: i64) -> f64 {
    f64::from_bits(x.to_bits().wrapping_add(steps as u64))
}

/// A special value, now and then its neighbour.
pub fn special(rng: &mut Rng) -> f64 {
    let x = rng.pick(&SPECIAL);
    let x = if rng.once_in(4) && x.is_finite() && x != 0.0 {
        nudged(x, rng.pick(&[-1, 1]))
    } else {
        x
    };
    x * rng.sign()
}

/// Any bit pattern: all exponents are equally likely.
pub fn any_bits(rng: &mut Rng) -> f64 {
    f64::from_bits(rng.next())
}

/// An odd number of either sort.
pub fn odd(rng: &mut Rng) -> f64 {
    if rng.once_in(3) {
        any_bits(rng)
    } else {
        special(rng)
    }
}

/// An odd number that is finite, so that the solve call accepts it.
pub fn finite_odd(rng: &mut Rng) -> f64 {
    if rng.once_in(6) {
        loop {
            let x = any_bits(rng);
            if x.is_finite() {
                return x;
            }
        }
    }
    rng.pick(&FINITE_ODD) * rng.sign()
}

/// Replaces numbers by odd ones: mostly one or two, so that the rest still means something.
pub fn spoil(numbers: &mut [f64], rng: &mut Rng, mut make: impl FnMut(&mut Rng) -> f64) {
    if numbers.is_empty() {
        return;
    }
    match rng.below(10) {
        0 => numbers.iter_mut().for_each(|x| *x = make(rng)),
        1 => {
            for x in numbers.iter_mut() {
                if rng.once_in(2) {
                    *x = make(rng);
                }
            }
        }
        several => {
            for _ in 0..1 + several % 2 {
                let at = rng.below(numbers.len());
                numbers[at] = make(rng);
            }
        }
    }
}
