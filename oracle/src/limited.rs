//! Limits blocks to stand among generated pose blocks: good ones, many of them with ends at the angles
//! of the answers that they are to filter, and bad ones of every sort.

use crate::{
    block::{self, BLOCK_BYTES},
    limits::NUMBERS,
    linalg::Vector6,
    odd::nudged,
    rng::Rng,
};
use std::f64::consts::{PI, TAU};

type Numbers = [f64; NUMBERS];

const TINY: f64 = f64::from_bits(1);

/// The answers that the program has space for.
pub const ROOM: usize = 1024;

/// A limits block for a pose block that has these answers: good more often than not.
pub fn limits_block(answers: &[Vector6], rng: &mut Rng) -> [u8; BLOCK_BYTES] {
    let mut numbers = good(answers, rng);
    let fault = rng.below(24);
    if fault < 2 || rng.once_in(24) {
        cross(&mut numbers, rng);
    }
    if fault == 2 || fault == 3 || rng.once_in(24) {
        make_infinite(&mut numbers, rng);
    }
    let mut bytes = block::make_limits(&numbers);
    if fault == 4 || rng.once_in(24) {
        let (head, behind) = (rng.pick(&[0, 1, 2, 4, 5, 6, 7]), rng.below(8 * 50));
        let at = rng.pick(&[head, 8 * 13, 8 * 62 + 7, 8 * 13 + behind]);
        bytes[at] = 1 << rng.below(8);
        bytes = block::checked(bytes);
    }
    if fault == 5 || rng.once_in(48) {
        let other = 2 + rng.below(254) as u8;
        bytes[3] = rng.pick(&[2, 3, 128, 129, 255, other]);
        bytes = block::checked(bytes);
    }
    if fault == 6 || rng.once_in(48) {
        let (any, front) = (rng.below(BLOCK_BYTES), rng.below(8 * 13));
        let at = rng.pick(&[any, front, 3]);
        bytes[at] ^= 1 << rng.below(8);
    }
    bytes
}

/// A limits block that leaves about as many of a long list's answers as the program has space for:
/// one joint has ends at the angles of two answers, with so many in their order between them.
pub fn crowded(answers: &[Vector6], rng: &mut Rng) -> [u8; BLOCK_BYTES] {
    let mut numbers = every_joint(f64::MAX);
    let joint = rng.below(6);
    let mut angles: Vec<f64> = answers
        .iter()
        .filter(|q| q.iter().all(f64::is_finite))
        .map(|q| q[joint])
        .collect();
    angles.sort_by(f64::total_cmp);
    let stay = ROOM - 2 + rng.below(5);
    if angles.len() >= stay {
        let first = rng.below(angles.len() - stay + 1);
        put(&mut numbers, joint, angles[first], angles[first + stay - 1]);
    }
    block::make_limits(&numbers)
}

/// What stands behind the last pose block: nothing, limits blocks, or one that is cut short.
pub fn ending(answers: &[Vector6], rng: &mut Rng) -> Vec<u8> {
    let (whole, short) = rng.pick(&[(0, 0), (1, 0), (2, 0), (0, 3), (0, 511), (1, 4), (1, 504)]);
    let mut bytes = Vec::new();
    for _ in 0..whole {
        bytes.extend(limits_block(answers, rng));
    }
    bytes.extend(&limits_block(answers, rng)[..short]);
    bytes
}

fn put(numbers: &mut Numbers, joint: usize, low: f64, high: f64) {
    (numbers[2 * joint], numbers[2 * joint + 1]) = (low, high);
}

/// Limits that a call accepts.
pub fn good(answers: &[Vector6], rng: &mut Rng) -> Numbers {
    let mut numbers = wide(rng);
    let some = 1 + rng.below(6);
    match rng.below(10) {
        0 => {}
        1 | 2 => cut(&mut numbers, 1 + rng.below(2), rng),
        3..=5 => end_at_an_answer(&mut numbers, &own_angles(answers, rng), 1 + some / 3, rng),
        6 => surround(&mut numbers, &own_angles(answers, rng), rng),
        7 => {
            let own = own_angles(answers, rng);
            for joint in (0..6).cycle().skip(rng.below(6)).take(some) {
                put(&mut numbers, joint, own[joint], own[joint]);
            }
        }
        8 => end_at_zero(&mut numbers, some, rng),
        _ => {
            for joint in 0..6 {
                let low = rng.between(-PI, PI);
                put(&mut numbers, joint, low, low + rng.size(-3.0, 1.0));
            }
        }
    }
    numbers
}

/// Every joint alike, with nothing or little outside: whole turns, PI itself, the largest numbers, or
/// the stops of a machine.
fn wide(rng: &mut Rng) -> Numbers {
    let stop = rng.between(2.8, 3.2);
    every_joint(rng.pick(&[10.0, TAU, TAU, PI, f64::MAX, stop]))
}

fn every_joint(high: f64) -> Numbers {
    std::array::from_fn(|i| if i % 2 == 0 { -high } else { high })
}

/// One end of some joints anywhere: the answers of a list fall on both sides.
fn cut(numbers: &mut Numbers, joints: usize, rng: &mut Rng) {
    for _ in 0..joints {
        numbers[rng.below(NUMBERS)] = rng.between(-2.5, 2.5);
    }
    order(numbers);
}

/// An end at an answer's own angle, or one step beside it.
fn end_at_an_answer(numbers: &mut Numbers, own: &[f64; 6], joints: usize, rng: &mut Rng) {
    for _ in 0..joints {
        let at = rng.below(NUMBERS);
        numbers[at] = beside(own[at / 2], rng);
    }
    order(numbers);
}

/// Both ends of every joint about an answer, from a few steps to a wide angle away.
fn surround(numbers: &mut Numbers, own: &[f64; 6], rng: &mut Rng) {
    let size = rng.size(-15.0, 0.5);
    for (joint, q) in own.iter().enumerate() {
        put(numbers, joint, q - size, q + size);
    }
}

/// Ends at zeros of either sign.
fn end_at_zero(numbers: &mut Numbers, joints: usize, rng: &mut Rng) {
    for _ in 0..joints {
        let joint = rng.below(6);
        let (low, high) = (0.0 * rng.sign(), 0.0 * rng.sign());
        match rng.below(3) {
            0 => numbers[2 * joint] = low,
            1 => numbers[2 * joint + 1] = high,
            _ => put(numbers, joint, low, high),
        }
    }
}

/// The angles of one answer; any where there is no answer, or for an angle that is not finite.
fn own_angles(answers: &[Vector6], rng: &mut Rng) -> [f64; 6] {
    let some = (!answers.is_empty()).then(|| rng.pick(answers));
    std::array::from_fn(|joint| {
        let other = rng.between(-PI, PI);
        some.map(|q| q[joint])
            .filter(|q| q.is_finite())
            .unwrap_or(other)
    })
}

fn beside(x: f64, rng: &mut Rng) -> f64 {
    match rng.pick(&[0, 0, 0, 1, -1]) {
        step if x != 0.0 => nudged(x, step),
        0 => x,
        step => TINY * step as f64,
    }
}

/// Each joint's lower number first.
fn order(numbers: &mut Numbers) {
    for pair in numbers.chunks_mut(2) {
        if pair[0] > pair[1] {
            pair.swap(0, 1);
        }
    }
}

/// A low above its high, by much or by one step.
pub fn cross(numbers: &mut Numbers, rng: &mut Rng) {
    let joint = rng.below(6);
    let (low, high) = (numbers[2 * joint], numbers[2 * joint + 1]);
    let above = if high > 0.0 { nudged(high, 1) } else { TINY };
    let (low, high) = match rng.below(5) {
        0 if low < high => (high, low),
        1 if above.is_finite() => (above, high),
        2 => (TINY, -0.0),
        3 => (0.0, -TINY),
        _ => (PI, -PI),
    };
    put(numbers, joint, low, high);
}

/// A NaN of some sort or an infinity in one place, or infinities that would admit every angle.
pub fn make_infinite(numbers: &mut Numbers, rng: &mut Rng) {
    let at = rng.below(NUMBERS);
    let bad = [
        f64::NAN,
        -f64::NAN,
        nudged(f64::INFINITY, 1),
        f64::INFINITY,
        f64::NEG_INFINITY,
    ];
    match rng.below(8) {
        0 => *numbers = std::array::from_fn(|i| bad[4 - i % 2]),
        1 => numbers[at] = bad[4 - at % 2],
        2 => *numbers = [rng.pick(&bad); NUMBERS],
        _ => numbers[at] = rng.pick(&bad),
    }
}

#[cfg(test)]
mod tests {
    use super::*;
    use crate::limits::Limits;

    fn some_answers(rng: &mut Rng) -> Vec<Vector6> {
        (0..rng.below(9))
            .map(|_| {
                let mut angles: [f64; 6] = std::array::from_fn(|_| rng.between(-PI, PI));
                angles[rng.below(6)] = rng.pick(&[0.0, -0.0, f64::NAN, f64::INFINITY, PI]);
                Vector6::from(angles)
            })
            .collect()
    }

    #[test]
    fn good_limits_are_accepted_and_bad_ones_refused() {
        for seed in 0..20_000 {
            let rng = &mut Rng::of(&[seed]);
            let answers = some_answers(rng);
            let numbers = good(&answers, rng);
            assert!(Limits::judge(&numbers).is_ok(), "seed {seed}: {numbers:?}");
            let mut crossed = numbers;
            cross(&mut crossed, rng);
            assert!(crossed.iter().all(|x| x.is_finite()));
            assert_eq!(Limits::judge(&crossed), Err(10), "seed {seed}: {crossed:?}");
            let mut infinite = numbers;
            make_infinite(&mut infinite, rng);
            assert_eq!(
                Limits::judge(&infinite),
                Err(10),
                "seed {seed}: {infinite:?}"
            );
        }
    }

    #[test]
    fn every_refusal_comes_often() {
        let mut seen = std::collections::BTreeMap::new();
        for seed in 0..4000 {
            let rng = &mut Rng::of(&[seed]);
            let answers = some_answers(rng);
            let refusal = block::parse_limits(&limits_block(&answers, rng)).err();
            *seen.entry(refusal).or_insert(0) += 1;
        }
        let refusals: Vec<Option<u32>> = seen.keys().copied().collect();
        assert_eq!(refusals, [None, Some(2), Some(3), Some(10)]);
        assert!(seen.values().all(|&count| count > 150), "{seen:?}");
        assert!(seen[&None] > 2000, "{seen:?}");
    }

    /// An answer stays where one of its own angles is an end, and all of a list stay, some or none.
    #[test]
    fn good_limits_keep_all_some_or_none() {
        let (mut all, mut part, mut none, mut at_an_end) = (0, 0, 0, 0);
        for seed in 0..4000 {
            let rng = &mut Rng::of(&[seed]);
            let answers: Vec<Vector6> = (0..8)
                .map(|_| Vector6::from(std::array::from_fn(|_| rng.between(-PI, PI))))
                .collect();
            let numbers = good(&answers, rng);
            let limits = Limits::judge(&numbers).unwrap().unwrap();
            let stay: Vec<_> = answers.iter().filter(|q| limits.admit(q)).collect();
            match stay.len() {
                0 => none += 1,
                8 => all += 1,
                _ => part += 1,
            }
            let is_end = |q: &Vector6| (0..NUMBERS).any(|i| q[i / 2] == numbers[i]);
            at_an_end += stay.iter().any(|q| is_end(q)) as usize;
        }
        let counts = [all, part, none, at_an_end];
        assert!(counts.iter().all(|&count| count > 400), "{counts:?}");
    }

    #[test]
    fn a_crowded_list_has_about_as_many_as_fit() {
        let rng = &mut Rng::of(&[5]);
        let answers: Vec<Vector6> = (0..1400)
            .map(|_| Vector6::from(std::array::from_fn(|_| rng.between(-1.0, 1.0))))
            .collect();
        for _ in 0..50 {
            let numbers = block::parse_limits(&crowded(&answers, rng)).unwrap();
            let limits = Limits::judge(&numbers).unwrap().unwrap();
            let stay = answers.iter().filter(|q| limits.admit(q)).count();
            assert!(stay.abs_diff(ROOM) <= 2, "{stay}");
        }
    }
}
