//! Structured numbers for the scalar and the complex functions.

use super::ordinary;
use crate::{
    functions::{Function, Kind},
    odd::nudged,
    rng::{power_of_two, Rng},
};
use std::f64::consts::{FRAC_PI_2, TAU};

/// `x`, or one of the f64s beside it.
pub fn beside(x: f64, rng: &mut Rng) -> f64 {
    if x == 0.0 || !x.is_finite() {
        return x;
    }
    nudged(x, rng.pick(&[-3, -2, -1, 0, 0, 1, 2, 3]))
}

fn whole(rng: &mut Rng) -> f64 {
    let bound = rng.pick(&[5, 5, 40, 1000, 1_000_000]);
    rng.below(bound) as f64
}

/// Beside a multiple of a quarter turn, beside the middle between two, or of any size.
pub fn angle(rng: &mut Rng) -> f64 {
    let x = match rng.below(5) {
        0 => beside(whole(rng) * FRAC_PI_2, rng),
        1 => beside((whole(rng) + 0.5) * FRAC_PI_2, rng),
        2 => beside(whole(rng) * TAU, rng),
        3 => rng.size(-320.0, 0.0),
        _ => rng.size(0.0, 300.0),
    };
    x * rng.sign()
}

pub fn float(function: &Function, rng: &mut Rng) -> Vec<f64> {
    match function.id {
        2 => vec![square(rng)],
        3 => vec![cube(rng)],
        4..=6 | 8..=11 => vec![angle(rng)],
        7 => arctangent(rng),
        13..=16 => operands(rng),
        _ => ordinary(function, rng),
    }
}

fn square(rng: &mut Rng) -> f64 {
    let root = match rng.below(3) {
        0 => whole(rng),
        1 => 1.0 + rng.unit(),
        _ => nudged(1.0, rng.below(9) as i64 - 4),
    };
    let scale = power_of_two(2 * (rng.below(1000) as i32 - 500));
    let x = beside(root * root * scale, rng);
    if rng.once_in(8) {
        -x
    } else {
        x
    }
}

/// Beside a cube, or beside the cube of a number halfway between two f64s.
fn cube(rng: &mut Rng) -> f64 {
    let root = match rng.below(3) {
        0 => whole(rng),
        1 => 1.0 + rng.unit(),
        _ => nudged(1.0, rng.below(9) as i64 - 4),
    };
    let mut x = root * root * root;
    if rng.once_in(2) {
        x += 1.5 * root * root * (f64::EPSILON / 2.0);
    }
    let scale = power_of_two(3 * (rng.below(680) as i32 - 340));
    beside(x * scale, rng) * rng.sign()
}

fn arctangent(rng: &mut Rng) -> Vec<f64> {
    let size = match rng.below(3) {
        0 => 1.0,
        1 => rng.between(0.5, 2.0),
        _ => rng.size(-300.0, 300.0),
    };
    let ratio = match rng.below(6) {
        0 => beside(0.41421356, rng),
        1 => beside(1.0, rng),
        2 => 0.0,
        3 => rng.size(-320.0, 0.0),
        4 => rng.unit(),
        _ => rng.pick(&[0.5, 0.25, f64::INFINITY]),
    };
    let (mut y, mut x) = (size * ratio * rng.sign(), size * rng.sign());
    if rng.once_in(2) {
        std::mem::swap(&mut y, &mut x);
    }
    vec![y, x]
}

/// Operands whose result cancels, ties, underflows or overflows.
fn operands(rng: &mut Rng) -> Vec<f64> {
    let x = match rng.below(3) {
        0 => rng.between(-2.0, 2.0),
        1 => rng.size(-308.0, 308.0) * rng.sign(),
        _ => whole(rng) * rng.sign(),
    };
    let y = match rng.below(6) {
        0 => beside(-x, rng),
        1 => beside(x, rng),
        2 => x * (f64::EPSILON / 2.0) * rng.sign(),
        3 => rng.size(-20.0, 20.0) * f64::MIN_POSITIVE / x,
        4 => f64::MAX / x,
        _ => rng.size(-308.0, 308.0),
    };
    vec![x, y]
}

/// On an axis, on a diagonal, like the number before it, or of any size.
fn complex_number(before: Option<(f64, f64)>, rng: &mut Rng) -> (f64, f64) {
    let size = match rng.below(3) {
        0 => rng.between(0.1, 2.0),
        1 => whole(rng),
        _ => rng.size(-200.0, 200.0),
    } * rng.sign();
    let zero = rng.pick(&[0.0, -0.0]);
    match (rng.below(7), before) {
        (0, Some((a, b))) => (a, b),
        (1, Some((a, b))) => (a, -b),
        (2, Some((a, b))) => (-a, beside(-b, rng)),
        (3, _) => (zero, size),
        (4, _) => (size, size * rng.sign()),
        (5, _) => (size, size * rng.size(-20.0, 0.0)),
        _ => (size, zero),
    }
}

pub fn complex(function: &Function, rng: &mut Rng) -> Vec<f64> {
    let mut numbers = Vec::with_capacity(4);
    let mut before = None;
    for &kind in function.shape {
        if kind == Kind::Complex {
            let z = complex_number(before, rng);
            before = Some(z);
            numbers.extend([z.0, z.1]);
        } else {
            numbers.push(rng.pick(&[0.0, -0.0, 2.0, -3.0, 0.5, 1e-200, 1e200]));
        }
    }
    numbers
}
