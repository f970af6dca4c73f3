//! Blocks for comparing a port with this program, made from a seed. Each block depends on the
//! arguments and its place alone.

use crate::{
    arith::Rules,
    arms::{degenerate, random_axis, realistic, Arm},
    block::{self, Request, BLOCK_BYTES},
    inverse_kinematics::auxiliary::Kinematics,
    limited::{self, ROOM},
    linalg::Vector6,
    odd::{finite_odd, nudged, spoil},
    rng::Rng,
    solve::{full_list, pose_numbers, SPHERICAL, TWO_PARALLEL},
};
use std::f64::consts::{FRAC_PI_2, PI};

#[derive(Clone, Copy, Debug, PartialEq, Eq)]
pub enum Kind {
    /// A realistic arm, and the pose that random angles give it.
    Reachable,
    /// The same with its place far away.
    Unreachable,
    /// The same with a rotation that is not orthogonal.
    Bent,
    /// Random numbers for arm and pose.
    Random,
    /// Odd but finite numbers mixed into arm and pose.
    Hostile,
    /// Blocks to refuse.
    Headers,
    /// An arm that leads its solver into double roots or divisions by zero, and the pose that
    /// random angles give it.
    Degenerate,
    /// A realistic arm, and the pose that round angles give it.
    Round,
}

pub const KINDS: [(&str, Kind); 8] = [
    ("reachable", Kind::Reachable),
    ("unreachable", Kind::Unreachable),
    ("bent", Kind::Bent),
    ("random", Kind::Random),
    ("hostile", Kind::Hostile),
    ("headers", Kind::Headers),
    ("degenerate", Kind::Degenerate),
    ("round", Kind::Round),
];

/// One arm and pose.
#[derive(Clone)]
pub struct Sample {
    pub family: u64,
    pub n: u64,
    pub arm: Arm,
    pub arm_name: &'static str,
    pub pose: [f64; 12],
    /// The angles that made the pose, before any change to it.
    pub angles: [f64; 6],
}

impl Sample {
    pub fn request(&self) -> Request {
        Request {
            family: self.family,
            n: self.n,
            arm: self.arm,
            pose: self.pose,
        }
    }
}

/// n for family 6: small ones more often, for they are quick and have rare shapes.
const SAMPLE_COUNTS: [u64; 10] = [1, 1, 1, 2, 2, 7, 7, 7, 200, 400];

fn pick_n(family: u64, n: Option<u64>, rng: &mut Rng) -> u64 {
    let mixed = rng.pick(&SAMPLE_COUNTS);
    match family {
        TWO_PARALLEL => n.unwrap_or(mixed),
        _ => 0,
    }
}

fn generator(kind: Kind, family: u64, seed: u64, place: u64) -> Rng {
    // The kinds that start from a reachable pose share its numbers.
    let stream = match kind {
        Kind::Reachable | Kind::Unreachable | Kind::Bent => 0,
        Kind::Random => 1,
        Kind::Hostile => 2,
        Kind::Headers => 3,
        Kind::Degenerate => 4,
        Kind::Round => 5,
    };
    Rng::of(&[seed, stream, family, place])
}

/// The sample at a place of a generated list.
pub fn sample(kind: Kind, family: u64, seed: u64, place: u64, n: Option<u64>) -> Sample {
    let rng = &mut generator(kind, family, seed, place);
    let mut sample = reachable(family, n, rng);
    match kind {
        Kind::Reachable | Kind::Headers => {}
        Kind::Unreachable => move_away(&mut sample, rng),
        Kind::Bent => bend(&mut sample, rng),
        Kind::Random => randomise(&mut sample, rng),
        Kind::Hostile => make_hostile(&mut sample, rng),
        Kind::Degenerate => {
            (sample.arm, sample.arm_name) = degenerate(family, rng);
            sample.pose = pose_of(&sample.arm, &sample.angles);
        }
        Kind::Round => {
            sample.angles = round_angles(rng);
            sample.pose = pose_of(&sample.arm, &sample.angles);
        }
    }
    sample
}

/// All six whole multiples of 1, 5, 15, 30, 45 or 90 degrees, above -180 and up to 180.
fn round_angles(rng: &mut Rng) -> [f64; 6] {
    let step = rng.pick(&[1, 5, 15, 30, 45, 90]);
    std::array::from_fn(|_| {
        let steps = rng.below(360 / step) + 1;
        ((steps * step) as f64 - 180.0).to_radians()
    })
}

fn reachable(family: u64, n: Option<u64>, rng: &mut Rng) -> Sample {
    let n = pick_n(family, n, rng);
    let (arm, arm_name) = realistic(family, rng);
    let angles = std::array::from_fn(|_| rng.between(-PI, PI));
    Sample {
        family,
        n,
        arm,
        arm_name,
        pose: pose_of(&arm, &angles),
        angles,
    }
}

/// The pose by forward_kinematics under document 01's rules.
fn pose_of(arm: &Arm, angles: &[f64; 6]) -> [f64; 12] {
    let (r, p) = Kinematics::from_arm(arm).forward_kinematics::<Rules>(&Vector6::from(*angles));
    pose_numbers(&r, &p)
}

/// Well outside the arm's reach: the place from 2 to 1,000 reaches out.
fn move_away(sample: &mut Sample, rng: &mut Rng) {
    let reach: f64 = sample.arm[18..].iter().map(|x| x.abs()).sum();
    let far = reach * rng.size(0.3, 3.0);
    for x in &mut sample.pose[9..] {
        *x += far * rng.sign();
    }
}

/// A small or a large bend of the rotation's entries, or one row stretched.
fn bend(sample: &mut Sample, rng: &mut Rng) {
    let size = rng.size(-9.0, 0.0);
    let row = rng.below(3);
    let stretch = rng.once_in(3);
    for (i, x) in sample.pose[..9].iter_mut().enumerate() {
        if stretch {
            if i / 3 == row {
                *x *= 1.0 + size;
            }
        } else {
            *x += rng.between(-size, size);
        }
    }
}

/// No structure at all, in one of three sizes; half of them keep unit axes and a rotation.
fn randomise(sample: &mut Sample, rng: &mut Rng) {
    let size = rng.pick(&[1.0, 10.0, 1000.0]);
    let offsets_only = rng.once_in(2);
    for (i, x) in sample.arm.iter_mut().enumerate() {
        if i >= 18 {
            *x = rng.between(-size, size);
        } else if !offsets_only {
            *x = rng.between(-1.0, 1.0);
        }
    }
    for (i, x) in sample.pose.iter_mut().enumerate() {
        if i >= 9 {
            *x = rng.between(-size, size);
        } else if !offsets_only {
            *x = rng.between(-1.0, 1.0);
        }
    }
}

fn make_hostile(sample: &mut Sample, rng: &mut Rng) {
    match rng.below(7) {
        0 => spoil(&mut sample.arm, rng, finite_odd),
        1 => spoil(&mut sample.pose, rng, finite_odd),
        2 => {
            spoil(&mut sample.arm, rng, finite_odd);
            spoil(&mut sample.pose, rng, finite_odd);
        }
        3 => lose_structure(sample, rng),
        4 => use_plain_numbers(sample, rng),
        5 if sample.family == SPHERICAL && rng.once_in(2) => crowd(sample, rng),
        5 => {
            (sample.arm, sample.arm_name) = degenerate(sample.family, rng);
            sample.pose = pose_of(&sample.arm, &sample.angles);
        }
        _ => {
            // Everything at once in another size, where squares overflow or underflow.
            let size = rng.pick(&[1e-310, 1e-300, 1e-160, 1e-80, 1e80, 1e155, 1e300]);
            let from = rng.pick(&[0, 18]);
            sample.arm[from..].iter_mut().for_each(|x| *x *= size);
            sample.pose[9..].iter_mut().for_each(|x| *x *= size);
        }
    }
}

/// An axis or an offset becomes zero, or like another one, or its negative.
fn lose_structure(sample: &mut Sample, rng: &mut Rng) {
    for _ in 0..1 + rng.below(3) {
        let (first, count) = rng.pick(&[(0, 6), (18, 7)]);
        let to = first + 3 * rng.below(count);
        let from = first + 3 * rng.below(count);
        let factor = rng.pick(&[0.0, -0.0, 1.0, -1.0, 2.0, 1e-9]);
        for i in 0..3 {
            sample.arm[to + i] = sample.arm[from + i] * factor;
        }
    }
}

/// A short second axis, small p1 and p2, and the place as far from the base as the wrist is from
/// the third axis: subproblem 5 then has up to sixteen candidates.
fn crowd(sample: &mut Sample, rng: &mut Rng) {
    let short = rng.size(-6.0, -2.0);
    let small = rng.size(-8.0, -5.0);
    let length = rng.size(-1.0, 3.0);
    let put = |numbers: &mut [f64], size: f64, rng: &mut Rng| {
        for (number, x) in numbers.iter_mut().zip(random_axis(rng)) {
            *number = x * size;
        }
    };
    let (h2, p0) = (3, 18);
    put(&mut sample.arm[h2..], short, rng);
    sample.arm[p0..].fill(0.0);
    put(&mut sample.arm[p0 + 3..], small, rng);
    put(&mut sample.arm[p0 + 6..], small, rng);
    put(&mut sample.arm[p0 + 9..], length, rng);
    put(&mut sample.pose[9..], length, rng);
}

/// Angles of whole quarter turns or small whole numbers, where exact zeros and ties abound.
fn use_plain_numbers(sample: &mut Sample, rng: &mut Rng) {
    if rng.once_in(2) {
        let all = sample.arm.iter_mut().chain(sample.pose.iter_mut());
        for x in all {
            *x = rng.pick(&[0.0, -0.0, 1.0, -1.0, 2.0, 0.5]);
        }
        return;
    }
    sample.angles = std::array::from_fn(|_| rng.pick(&[-1.0, 0.0, 1.0, 2.0]) * FRAC_PI_2);
    sample.pose = pose_of(&sample.arm, &sample.angles);
}

/// The bytes of a generated block. Among the blocks to refuse the last one is short.
pub fn block_bytes(
    kind: Kind,
    family: u64,
    seed: u64,
    place: u64,
    count: u64,
    n: Option<u64>,
) -> Vec<u8> {
    let sample = sample(kind, family, seed, place, n);
    if kind != Kind::Headers {
        return block::make(&sample.request()).to_vec();
    }
    let rng = &mut Rng::of(&[seed, 4, family, place]);
    let bytes = refused_block(&sample, rng);
    if place + 1 == count {
        let length = rng.pick(&[1, 8, 504, 511]);
        return bytes[..length].to_vec();
    }
    bytes.to_vec()
}

/// How often a list that is too long for the program comes again under other limits.
const CROWDED: usize = 8;

/// The same block with limits blocks before it, none to three, and after the last of all; a limits
/// block cut short may end them. A list too long for the program's space comes again under limits
/// that leave about as many answers as fit.
pub fn limited_bytes(
    kind: Kind,
    family: u64,
    seed: u64,
    place: u64,
    count: u64,
    n: Option<u64>,
) -> Vec<u8> {
    let sample = sample(kind, family, seed, place, n);
    let answers = full_list::<Rules>(family, sample.n, &sample.arm, &sample.pose)
        .map_or(Vec::new(), |list| list.angles);
    let pose = block_bytes(kind, family, seed, place, count, n);
    let rng = &mut Rng::of(&[seed, 5, kind as u64, family, place]);

    let mut bytes = Vec::new();
    for _ in 0..rng.pick(&[0, 0, 0, 1, 1, 1, 1, 2, 2, 3]) {
        bytes.extend(limited::limits_block(&answers, rng));
    }
    bytes.extend(&pose);
    if pose.len() < BLOCK_BYTES {
        return bytes;
    }
    if answers.len() > ROOM {
        for _ in 0..CROWDED {
            bytes.extend(limited::crowded(&answers, rng));
            bytes.extend(&pose);
        }
    }
    if place + 1 == count {
        bytes.extend(limited::ending(&answers, rng));
    }
    bytes
}

/// A block that one of the refusals 2, 3, 4, 7 and 8 applies to, now and then several, and now
/// and then none.
pub fn refused_block(sample: &Sample, rng: &mut Rng) -> [u8; BLOCK_BYTES] {
    let mut request = sample.request();
    let fault = rng.below(7);
    match fault {
        0 => request.family = rng.pick(&[0, 7, 8, 9, 127, 128, 255]),
        1 => request.n = wrong_n(request.family, rng),
        2 => spoil_one(&mut request.arm, rng),
        3 => spoil_one(&mut request.pose, rng),
        _ => {}
    }
    let mut bytes = block::make(&request);
    if fault == 4 || rng.once_in(8) {
        let reserved = rng.pick(&[3, 4, 5, 6, 7, 8 * 52, 8 * 57 + 3, 8 * 62 + 7]);
        bytes[reserved] = 1 << rng.below(8);
        bytes = block::checked(bytes);
    }
    if fault == 5 || rng.once_in(8) {
        let at = rng.below(BLOCK_BYTES);
        bytes[at] ^= 1 << rng.below(8);
    }
    bytes
}

pub fn wrong_n(family: u64, rng: &mut Rng) -> u64 {
    if family == TWO_PARALLEL {
        rng.pick(&[0, 401, 402, 512, 32768, 65535])
    } else {
        rng.pick(&[1, 200, 400, 256, 65535])
    }
}

pub fn spoil_one(numbers: &mut [f64], rng: &mut Rng) {
    let at = rng.below(numbers.len());
    let last = rng.pick(&[0, at, numbers.len() - 1]);
    numbers[last] = rng.pick(&[
        f64::NAN,
        -f64::NAN,
        f64::INFINITY,
        f64::NEG_INFINITY,
        nudged(f64::INFINITY, 1),
        f64::MAX,
    ]);
}

#[cfg(test)]
mod tests {
    use super::*;

    #[test]
    fn the_same_arguments_make_the_same_block() {
        for (_, kind) in KINDS {
            let one = block_bytes(kind, 6, 5, 3, 10, None);
            assert_eq!(one, block_bytes(kind, 6, 5, 3, 10, None));
            assert_ne!(one, block_bytes(kind, 6, 5, 4, 10, None));
        }
    }

    #[test]
    fn hostile_numbers_are_finite() {
        for place in 0..2000 {
            let s = sample(Kind::Hostile, 1 + place % 6, 9, place, None);
            let mut all = s.arm.iter().chain(&s.pose);
            assert!(all.all(|x| x.is_finite()), "place {place}");
        }
    }

    /// The limits blocks leave the pose blocks as they are, and every part but the last is whole.
    #[test]
    fn limits_blocks_stand_among_the_same_pose_blocks() {
        let mut most = 0;
        for (_, kind) in KINDS {
            for place in 0..40 {
                let family = 1 + place % 6;
                let alone = block_bytes(kind, family, 3, place, 40, Some(2));
                let bytes = limited_bytes(kind, family, 3, place, 40, Some(2));
                assert_eq!(bytes, limited_bytes(kind, family, 3, place, 40, Some(2)));
                if place < 39 {
                    assert!(bytes.ends_with(&alone) && bytes.len().is_multiple_of(BLOCK_BYTES));
                    most = most.max(bytes.len() / BLOCK_BYTES);
                } else {
                    assert!(bytes.chunks(BLOCK_BYTES).any(|chunk| chunk == alone));
                }
            }
        }
        assert_eq!(most, 4);
    }
}
