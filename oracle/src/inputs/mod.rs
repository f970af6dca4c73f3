//! Arguments for the functions of the table: about a third ordinary numbers, a third with a
//! structure that leads into a rare branch, and a third with odd numbers in a few places.

mod candidates;
mod polynomials;
mod scalars;
mod subproblems;
mod vectors;

pub use candidates::candidates;

use crate::{
    arith::Rules,
    arms::{random_axis, realistic},
    functions::{Function, Group, Kind, JOINT_WORD},
    generate,
    linalg::{Matrix3, Vector3},
    odd::{odd, spoil},
    rng::Rng,
    subproblems::auxiliary::rot,
};
use std::f64::consts::PI;

/// Argument words for one record.
pub fn arguments(function: &Function, rng: &mut Rng) -> Vec<u64> {
    match function.group {
        Group::Families => return family_arguments(function.id, rng),
        Group::Sort => return candidate_words(rng),
        _ if function.shape == [Kind::Triples] => return subproblems::triples(rng),
        _ => {}
    }
    let numbers = match rng.below(3) {
        0 => ordinary(function, rng),
        1 => structured(function, rng),
        _ => hostile(function, rng),
    };
    with_joint(function, bits(&numbers), rng)
}

/// The words with a joint where one is wanted: it is no number like the others.
fn with_joint(function: &Function, mut words: Vec<u64>, rng: &mut Rng) -> Vec<u64> {
    if function.group == Group::Track {
        words[JOINT_WORD] = rng.below(7) as u64;
    }
    words
}

/// Argument words for a timed run: what the function meets in the solvers.
pub fn typical(function: &Function, seed: u64, place: u64, n: Option<u64>) -> Vec<u64> {
    let rng = &mut Rng::of(&[seed, 5, function.id, place]);
    match function.group {
        Group::Families => {
            let (kind, n) = (generate::Kind::Reachable, n.or(Some(200)));
            sample_words(&generate::sample(kind, function.id, seed, place, n))
        }
        Group::Sort => candidate_words(rng),
        _ if function.shape == [Kind::Triples] => subproblems::triples(rng),
        Group::Subproblems => bits(&subproblems::solvable(function.id, rng)),
        Group::Polynomial => bits(&polynomials::structured(function.id, rng)),
        _ => with_joint(function, bits(&ordinary(function, rng)), rng),
    }
}

fn bits(numbers: &[f64]) -> Vec<u64> {
    numbers.iter().map(|x| x.to_bits()).collect()
}

fn hostile(function: &Function, rng: &mut Rng) -> Vec<f64> {
    let mut numbers = if rng.once_in(2) {
        ordinary(function, rng)
    } else {
        structured(function, rng)
    };
    if numbers.len() <= 2 {
        numbers.iter_mut().for_each(|x| *x = odd(rng));
    } else {
        spoil(&mut numbers, rng, odd);
    }
    numbers
}

fn ordinary(function: &Function, rng: &mut Rng) -> Vec<f64> {
    // Random numbers seldom have a solution; half of the subproblems shall have one.
    if function.group == Group::Subproblems && rng.once_in(2) {
        return subproblems::solvable(function.id, rng);
    }
    let mut numbers = Vec::with_capacity(function.arity());
    for &kind in function.shape {
        put_ordinary(kind, &mut numbers, rng);
    }
    numbers
}

fn put_ordinary(kind: Kind, numbers: &mut Vec<f64>, rng: &mut Rng) {
    match kind {
        Kind::Angle => numbers.push(rng.between(-PI, PI)),
        Kind::Angles => numbers.extend((0..6).map(|_| rng.between(-PI, PI))),
        Kind::Length => numbers.push(rng.between(-2.0, 2.0)),
        Kind::Axis => numbers.extend(random_axis(rng)),
        Kind::Matrix if rng.once_in(2) => numbers.extend(rotation(rng).by_rows()),
        Kind::Arm => {
            let family = 1 + rng.below(6) as u64;
            numbers.extend(realistic(family, rng).0);
        }
        _ => {
            let size = rng.pick(&[1.0, 2.0, 10.0]);
            numbers.extend((0..kind.words()).map(|_| rng.between(-size, size)));
        }
    }
}

fn rotation(rng: &mut Rng) -> Matrix3 {
    rot::<Rules>(&Vector3::from(random_axis(rng)), rng.between(-PI, PI))
}

fn structured(function: &Function, rng: &mut Rng) -> Vec<f64> {
    match function.group {
        Group::Float => scalars::float(function, rng),
        Group::Complex => scalars::complex(function, rng),
        Group::Polynomial => polynomials::structured(function.id, rng),
        Group::Subproblems => subproblems::structured(function, rng),
        Group::Linear | Group::Kinematics | Group::Families | Group::Track | Group::Sort => {
            vectors::shaped(function, rng)
        }
    }
}

fn family_arguments(family: u64, rng: &mut Rng) -> Vec<u64> {
    use generate::Kind::*;
    let kind = rng.pick(&[
        Reachable,
        Reachable,
        Unreachable,
        Bent,
        Random,
        Hostile,
        Hostile,
    ]);
    let (seed, place) = (rng.next(), rng.next());
    sample_words(&generate::sample(kind, family, seed, place, None))
}

/// The count, then the triples.
fn candidate_words(rng: &mut Rng) -> Vec<u64> {
    let list = candidates(rng);
    let numbers = list.iter().flat_map(|t| [t.0, t.1, t.2]);
    let count = std::iter::once(list.len() as u64);
    count.chain(numbers.map(f64::to_bits)).collect()
}

fn sample_words(sample: &generate::Sample) -> Vec<u64> {
    let mut words = vec![sample.n];
    words.extend(sample.arm.iter().chain(&sample.pose).map(|x| x.to_bits()));
    words
}
