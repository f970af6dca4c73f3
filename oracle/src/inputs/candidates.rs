//! Lists of candidates for the sorts of subproblem 5.

use super::scalars::beside;
use crate::{
    functions::MOST_CANDIDATES,
    odd::{any_bits, special},
    rng::Rng,
    subproblems::candidates::{compare_triples, Triple},
};
use std::f64::consts::PI;

/// A number of a list: anywhere, one of few, beside one of few, or odd, with NaNs and both zeros.
fn number(style: usize, pool: &[f64], rng: &mut Rng) -> f64 {
    match style {
        0 => rng.between(-PI, PI),
        1 => rng.pick(pool),
        2 => beside(rng.pick(pool), rng),
        _ => match rng.below(8) {
            0 => f64::NAN,
            1 => -f64::NAN,
            2 => 0.0,
            3 => -0.0,
            4 => special(rng),
            5 => any_bits(rng),
            _ => rng.pick(pool),
        },
    }
}

fn exchange(list: &mut [Triple], rng: &mut Rng) {
    let (one, other) = (rng.below(list.len()), rng.below(list.len()));
    list.swap(one, other);
}

/// One triple goes to another place, and those between make room.
fn displace(list: &mut [Triple], rng: &mut Rng) {
    let (one, other) = (rng.below(list.len()), rng.below(list.len()));
    let part = &mut list[one.min(other)..=one.max(other)];
    if one < other {
        part.rotate_left(1);
    } else {
        part.rotate_right(1);
    }
}

/// Up to sixteen candidates, of every length alike: as they come, in order, reversed, or nearly in
/// order or reversed.
pub fn candidates(rng: &mut Rng) -> Vec<Triple> {
    let count = rng.below(MOST_CANDIDATES + 1);
    let style = rng.below(4);
    let pool: Vec<f64> = (0..4).map(|_| rng.between(-PI, PI)).collect();
    let mut list: Vec<Triple> = (0..count)
        .map(|_| {
            let mut next = || number(style, &pool, rng);
            (next(), next(), next())
        })
        .collect();
    let order = rng.below(6);
    if order > 0 {
        list.sort_by(compare_triples);
    }
    if count > 0 {
        match order {
            2 => list.reverse(),
            3 => exchange(&mut list, rng),
            4 => displace(&mut list, rng),
            5 => {
                list.reverse();
                displace(&mut list, rng);
            }
            _ => {}
        }
    }
    list
}
