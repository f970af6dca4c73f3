//! Structured arguments for the subproblems: mostly such that a solution exists, then changed in
//! one respect.

use super::{scalars::beside, vectors::axis_along};
use crate::{
    arith::Rules,
    arms::random_axis,
    functions::{Function, Kind},
    linalg::Vector3,
    odd::{any_bits, special},
    rng::Rng,
    subproblems::auxiliary::rot,
};
use std::f64::consts::{FRAC_PI_4, PI};

fn some_axis(rng: &mut Rng) -> Vector3 {
    if rng.once_in(3) {
        Vector3::from(axis_along(rng))
    } else {
        Vector3::from(random_axis(rng))
    }
}

fn some_point(rng: &mut Rng) -> Vector3 {
    if rng.once_in(5) {
        Vector3::from(axis_along(rng))
    } else {
        Vector3::from(std::array::from_fn(|_| rng.between(-1.0, 1.0)))
    }
}

fn some_angle(rng: &mut Rng) -> f64 {
    if rng.once_in(4) {
        (rng.below(9) as f64 - 4.0) * FRAC_PI_4
    } else {
        rng.between(-PI, PI)
    }
}

fn flatten(vectors: &[Vector3]) -> Vec<f64> {
    vectors.iter().flat_map(|v| v.iter()).collect()
}

/// An argument list that angles were chosen for, so that there is a solution.
pub fn solvable(id: u64, rng: &mut Rng) -> Vec<f64> {
    let [k1, k2, k3] = std::array::from_fn(|_| some_axis(rng));
    let [p1, p2, p3] = std::array::from_fn(|_| some_point(rng));
    let [t1, t2, t3] = std::array::from_fn(|_| some_angle(rng));
    match id {
        1 | 7 => flatten(&[p1, rot::<Rules>(&k1, t1) * p1, k1]),
        2 => {
            let p2 = rot::<Rules>(&k2, -t2) * (rot::<Rules>(&k1, t1) * p1);
            flatten(&[p1, p2, k1, k2])
        }
        3 | 8 => {
            let mut numbers = flatten(&[p1, p2, k1]);
            numbers.push((rot::<Rules>(&k1, t1) * p1 - p2).norm());
            numbers
        }
        4 | 9 => {
            let mut numbers = flatten(&[k2, p1, k1]);
            numbers.push(k2.dot(&(rot::<Rules>(&k1, t1) * p1)));
            numbers
        }
        5 => {
            let inner = p2 + rot::<Rules>(&k3, t3) * p3;
            let p0 = rot::<Rules>(&k2, t2) * inner - rot::<Rules>(&k1, t1) * p1;
            flatten(&[p0, p1, p2, p3, k1, k2, k3])
        }
        _ => solvable_6(rng, t1, t2),
    }
}

/// As the families call it: axes and directions shared between the two equations.
fn solvable_6(rng: &mut Rng, t1: f64, t2: f64) -> Vec<f64> {
    let (h1, h2) = (some_axis(rng), some_axis(rng));
    let (k1, k2) = (some_axis(rng), some_axis(rng));
    let h = [h1, h2, h1, h2];
    let k = [k1, k2, k1, k2];
    let p: [Vector3; 4] = std::array::from_fn(|_| some_point(rng));
    let part = |i: usize, t: f64| h[i].dot(&(rot::<Rules>(&k[i], t) * p[i]));
    let (d1, d2) = (part(0, t1) + part(1, t2), part(2, t1) + part(3, t2));
    let mut numbers = flatten(&h);
    numbers.extend(flatten(&k));
    numbers.extend(flatten(&p));
    numbers.extend([d1, d2]);
    numbers
}

pub fn structured(function: &Function, rng: &mut Rng) -> Vec<f64> {
    let id = function.id;
    let mut numbers = solvable(id, rng);
    let vectors = numbers.len() / 3;
    match rng.below(9) {
        // A vector becomes like another one, or its negative, or zero.
        0 | 1 => {
            let (to, from) = (3 * rng.below(vectors), 3 * rng.below(vectors));
            let factor = rng.pick(&[1.0, -1.0, 2.0, 0.0, -0.0]);
            for i in 0..3 {
                numbers[to + i] = numbers[from + i] * factor;
            }
        }
        // Around the tolerances of the flags.
        2 => {
            let at = rng.below(numbers.len());
            numbers[at] +=
                rng.pick(&[1e-6, 1e-8, 1e-7, 1e-5, -1e-6, 1e-12]) * rng.between(0.5, 2.0);
        }
        // All lengths in another size.
        3 => {
            let size = rng.pick(&[1e-7, 1e-9, 1e-3, 1e3, 1e-160, 1e150]);
            scale_lengths(function.shape, &mut numbers, size);
        }
        // Small whole numbers everywhere: ties and exact equality.
        4 => numbers
            .iter_mut()
            .for_each(|x| *x = rng.pick(&[0.0, 0.0, 1.0, -1.0, 2.0, -0.0])),
        // The last number alone: a distance that is just reached, or not.
        5 => {
            if let Some(last) = numbers.last_mut() {
                *last = match rng.below(4) {
                    0 => beside(*last, rng),
                    1 => rng.pick(&[0.0, 1.0, -1.0, 2.0, 3.0]),
                    2 => *last * rng.pick(&[1.5, 4.0, -1.0]),
                    _ => special(rng),
                };
            }
        }
        6 if id == 5 => symmetric_5(&mut numbers, rng),
        7 | 8 if id == 5 => numbers = crowded_5(rng),
        _ => {}
    }
    numbers
}

/// Multiplies points and distances but not axes.
fn scale_lengths(shape: &[Kind], numbers: &mut [f64], size: f64) {
    let mut at = 0;
    for kind in shape {
        let range = at..at + kind.words();
        at = range.end;
        if matches!(kind, Kind::Vector | Kind::Length) {
            numbers[range].iter_mut().for_each(|x| *x *= size);
        }
    }
}

/// Both sides of subproblem 5 alike, so that candidates come out equal.
fn symmetric_5(numbers: &mut [f64], rng: &mut Rng) {
    let size = rng.pick(&[1.0, 1e-7]);
    for i in 0..3 {
        numbers[6 + i] = numbers[i] * size;
        numbers[9 + i] = numbers[3 + i] * size;
        numbers[18 + i] = numbers[12 + i];
        numbers[i] *= size;
        numbers[3 + i] *= size;
    }
}

/// Small p0 and p2 beside p1 and p3 of one length: every choice of signs passes the test of
/// subproblem 5, and up to sixteen candidates are found. The short k2 keeps the quartic's leading
/// coefficient above its limit.
fn crowded_5(rng: &mut Rng) -> Vec<f64> {
    let small = rng.size(-8.0, -5.0);
    let length = rng.size(-1.0, 3.0);
    let short = rng.size(-6.0, -2.0);
    let sizes = [small, length, small, length, 1.0, short, 1.0];
    sizes
        .iter()
        .flat_map(|size| random_axis(rng).map(|x| x * size))
        .collect()
}

/// Up to twelve candidates: near each other, equal, with zeros of both signs or with NaN.
pub fn triples(rng: &mut Rng) -> Vec<u64> {
    let count = rng.below(13);
    let style = rng.below(4);
    let pool: Vec<f64> = (0..4).map(|_| rng.between(-PI, PI)).collect();
    let mut words = vec![count as u64];
    for _ in 0..3 * count {
        let x = match style {
            0 => rng.between(-PI, PI),
            1 => rng.pick(&pool),
            2 => beside(rng.pick(&pool), rng),
            _ => match rng.below(6) {
                0 => f64::NAN,
                1 => 0.0,
                2 => -0.0,
                3 => special(rng),
                4 => any_bits(rng),
                _ => rng.pick(&pool),
            },
        };
        words.push(x.to_bits());
    }
    words
}
