//! Structured vectors, matrices and angles, by an argument's shape alone.

use super::{put_ordinary, rotation, scalars::angle};
use crate::{
    arith::Rules,
    arms::random_axis,
    functions::{Function, Kind},
    linalg::{Matrix3, Vector3},
    rng::Rng,
    subproblems::auxiliary::{hat, rot},
};
use std::f64::consts::{FRAC_PI_2, PI};

/// Vectors along the axes, zero, unit, of whole numbers, of any size; or like the one before.
fn vector(before: Option<[f64; 3]>, rng: &mut Rng) -> [f64; 3] {
    match (rng.below(8), before) {
        (0, Some(v)) => v,
        (1, Some(v)) => v.map(|x| -x),
        (2, Some(v)) => {
            let factor = rng.pick(&[0.0, 2.0, -0.5, 1e-9, 1e150, 1e-150]);
            v.map(|x| x * factor)
        }
        (3, _) => [rng.pick(&[0.0, -0.0]); 3],
        (4, _) => std::array::from_fn(|_| rng.below(7) as f64 - 3.0),
        (5, _) => {
            let size = rng.size(-170.0, 160.0);
            random_axis(rng).map(|x| x * size)
        }
        (6, _) => random_axis(rng),
        _ => axis_along(rng),
    }
}

pub fn axis_along(rng: &mut Rng) -> [f64; 3] {
    let mut v = [rng.pick(&[0.0, -0.0]); 3];
    v[rng.below(3)] = rng.sign();
    v
}

fn matrix(rng: &mut Rng) -> Vec<f64> {
    let made = match rng.below(6) {
        0 => Matrix3::identity(),
        1 => Matrix3::zeros(),
        2 => rot::<Rules>(&Vector3::from(axis_along(rng)), angle(rng)),
        3 => hat(&Vector3::from(vector(None, rng))),
        4 => rotation(rng) * rng.size(-160.0, 160.0),
        _ => rotation(rng),
    };
    made.by_rows().collect()
}

/// By the shape alone: each vector may repeat the one before it.
pub fn shaped(function: &Function, rng: &mut Rng) -> Vec<f64> {
    let mut numbers = Vec::with_capacity(function.arity());
    let mut before = None;
    for &kind in function.shape {
        match kind {
            Kind::Vector | Kind::Axis => {
                let v = vector(before, rng);
                before = Some(v);
                numbers.extend(v);
            }
            Kind::Matrix => numbers.extend(matrix(rng)),
            Kind::Angle => numbers.push(angle(rng)),
            Kind::Angles => numbers.extend((0..6).map(|_| quarter_or_any(rng))),
            Kind::Real => numbers.push(rng.pick(&[0.0, -0.0, 1.0, -1.0, 0.5, 1e-160, 1e160])),
            _ => put_ordinary(kind, &mut numbers, rng),
        }
    }
    numbers
}

fn quarter_or_any(rng: &mut Rng) -> f64 {
    match rng.below(3) {
        0 => (rng.below(9) as f64 - 4.0) * FRAC_PI_2,
        1 => angle(rng),
        _ => rng.between(-PI, PI),
    }
}
