//! Structured arguments for the polynomials, the root solvers, QR and the ellipses.

use super::{scalars::beside, subproblems::solvable};
use crate::{
    arith::{Arith, Rules},
    linalg::Vector3,
    odd::nudged,
    rng::Rng,
};
use std::f64::consts::PI;

pub fn structured(id: u64, rng: &mut Rng) -> Vec<f64> {
    match id {
        0 => cone_arguments(rng),
        4 => coefficients(4, rng),
        5 => coefficients(3, rng),
        6 => coefficients(2, rng),
        7 => triangular_arguments(rng),
        8 => qr_columns(rng),
        9 => ellipses(rng),
        1 => (0..2).map(|_| plain(rng)).collect(),
        2 => (0..3).map(|_| plain(rng)).collect(),
        _ => (0..6).map(|_| plain(rng)).collect(),
    }
}

fn plain(rng: &mut Rng) -> f64 {
    match rng.below(3) {
        0 => rng.below(7) as f64 - 3.0,
        1 => rng.size(-160.0, 160.0) * rng.sign(),
        _ => rng.between(-2.0, 2.0),
    }
}

/// Two cones of a solvable subproblem 5: the arguments of its first call.
fn cone_arguments(rng: &mut Rng) -> Vec<f64> {
    let s = solvable(5, rng);
    let v = |i: usize| Vector3::new(s[3 * i], s[3 * i + 1], s[3 * i + 2]);
    let (p0, p1, k1, k2) = (v(0), v(1), v(4), v(5));
    let p1_s = p0 + k1 * k1.transpose() * p1;
    [p0, k1, p1, p1_s, k2]
        .iter()
        .flat_map(|v| v.iter())
        .collect()
}

/// A leading coefficient around the limit below which the degree falls.
fn small_leading(rng: &mut Rng) -> f64 {
    rng.sign()
        * rng.pick(&[
            1e-12,
            nudged(1e-12, 1),
            nudged(1e-12, -1),
            1e-13,
            2e-12,
            0.0,
        ])
}

/// Coefficients, highest first, mostly real with roots that are known.
fn coefficients(degree: usize, rng: &mut Rng) -> Vec<f64> {
    let mut real = match rng.below(5) {
        0 => (0..=degree).map(|_| plain(rng)).collect(),
        1 => sparse_coefficients(degree, rng),
        _ => expanded(&chosen_roots(degree, rng), rng),
    };
    if rng.once_in(3) {
        // One to all of the leading coefficients, so that every lower degree is reached.
        for c in real.iter_mut().take(1 + rng.below(degree + 1)) {
            *c = small_leading(rng);
        }
    }
    let imaginary = rng.below(6);
    real.iter()
        .flat_map(|&c| {
            let im = match imaginary {
                0 => -0.0,
                1 => rng.between(-1e-12, 1e-12),
                _ => 0.0,
            };
            [c, im]
        })
        .collect()
}

fn sparse_coefficients(degree: usize, rng: &mut Rng) -> Vec<f64> {
    let mut real: Vec<f64> = (0..=degree)
        .map(|_| rng.pick(&[0.0, 0.0, -0.0, 1.0, -1.0, 2.0]))
        .collect();
    real[0] = rng.pick(&[1.0, -1.0, 3.0]);
    real
}

/// Real roots, some of them double, or a pair given as sum and product of its members.
fn chosen_roots(degree: usize, rng: &mut Rng) -> Vec<f64> {
    let mut roots: Vec<f64> = (0..degree)
        .map(|_| match rng.below(3) {
            0 => rng.below(9) as f64 - 4.0,
            1 => rng.between(-1.0, 1.0),
            _ => rng.size(-8.0, 4.0) * rng.sign(),
        })
        .collect();
    for i in 1..degree {
        if rng.once_in(3) {
            roots[i] = beside(roots[i - 1], rng);
        }
    }
    roots
}

/// The coefficients of a multiple of the product of (x - root), now and then with the last two
/// roots replaced by a complex pair.
fn expanded(roots: &[f64], rng: &mut Rng) -> Vec<f64> {
    let mut real = vec![rng.pick(&[1.0, 1.0, -2.0, 1e-6, 1e6])];
    let pairs = rng.once_in(3) && roots.len() >= 2;
    let single = if pairs { &roots[2..] } else { roots };
    for root in single {
        real = times(&real, &[1.0, -root]);
    }
    if pairs {
        let (half, rest) = (roots[0], roots[1]);
        real = times(&real, &[1.0, -2.0 * half, half * half + rest * rest]);
    }
    real
}

fn times(a: &[f64], b: &[f64]) -> Vec<f64> {
    let mut product = vec![0.0; a.len() + b.len() - 1];
    for (i, x) in a.iter().enumerate() {
        for (j, y) in b.iter().enumerate() {
            product[i + j] += x * y;
        }
    }
    product
}

fn triangular_arguments(rng: &mut Rng) -> Vec<f64> {
    let mut numbers: Vec<f64> = (0..6).map(|_| plain(rng)).collect();
    if rng.once_in(2) {
        numbers[1] = 0.0;
    }
    if rng.once_in(3) {
        let at = rng.pick(&[0, 3]);
        numbers[at] = rng.pick(&[0.0, -0.0, 1e-310]);
    }
    numbers
}

/// Two columns of four: zero, parallel, tiny, or with a leading entry of either sign or zero.
fn qr_columns(rng: &mut Rng) -> Vec<f64> {
    let mut columns: Vec<f64> = (0..8).map(|_| rng.between(-1.0, 1.0)).collect();
    match rng.below(8) {
        0 => columns[..4].fill(rng.pick(&[0.0, -0.0])),
        1 => columns[4..].fill(rng.pick(&[0.0, -0.0])),
        2 => {
            let factor = rng.pick(&[1.0, -1.0, 2.0, 0.3]);
            for i in 0..4 {
                columns[4 + i] = columns[i] * factor;
            }
        }
        3 => {
            let size = rng.size(-170.0, 160.0);
            columns.iter_mut().for_each(|x| *x *= size);
        }
        4 => columns[rng.pick(&[0, 5])] = rng.pick(&[0.0, -0.0]),
        5 => {
            // The first column is its leading entry alone.
            columns[1..4].fill(rng.pick(&[0.0, -0.0]));
        }
        6 => {
            for x in columns.iter_mut() {
                *x = rng.below(5) as f64 - 2.0;
            }
        }
        _ => {}
    }
    columns
}

/// Two ellipses with a common point: xm + xn xi is a unit vector for both. Now and then they
/// share an axis, so that x is found by dividing zero by zero.
fn ellipses(rng: &mut Rng) -> Vec<f64> {
    if rng.once_in(6) {
        return ellipses_on_an_axis(rng);
    }
    let mut numbers = Vec::with_capacity(12);
    let xi = [rng.between(-1.0, 1.0), rng.between(-1.0, 1.0)];
    let mut before: Option<[f64; 4]> = None;
    for _ in 0..2 {
        let xn = match (rng.below(5), before) {
            (0, Some(xn)) => xn,
            (1, _) => [1.0, 0.0, 0.0, rng.between(0.2, 1.0)],
            (2, _) => [rng.between(-1.0, 1.0), 0.0, rng.between(-1.0, 1.0), 0.0],
            _ => std::array::from_fn(|_| rng.between(-1.0, 1.0)),
        };
        before = Some(xn);
        let (s, c) = Rules::sin_cos(rng.between(-PI, PI));
        numbers.push(s - (xn[0] * xi[0] + xn[1] * xi[1]));
        numbers.push(c - (xn[2] * xi[0] + xn[3] * xi[1]));
        numbers.extend(xn);
    }
    numbers
}

fn ellipses_on_an_axis(rng: &mut Rng) -> Vec<f64> {
    let mut numbers = Vec::with_capacity(12);
    let mut some = |choices: &[f64]| {
        if rng.once_in(2) {
            rng.pick(choices)
        } else {
            rng.between(0.1, 0.9)
        }
    };
    for _ in 0..2 {
        numbers.extend([0.0, some(&[0.0, 0.5])]);
        numbers.extend([some(&[1.0, 0.5]), 0.0, 0.0, some(&[1.0, -1.0, 0.25])]);
    }
    numbers
}
