//! Arms on a track and poses for them, made from a seed. A six-axis arm of a family has a seventh joint
//! put in, in such a way that locking it at its angle gives the six-axis arm back up to rounding; so every
//! family stands behind every joint.

use crate::{
    arith::Rules,
    arms::{light_whole, random_axis, Arm},
    generate::{sample, Kind, Sample},
    inverse_kinematics::auxiliary::Kinematics,
    linalg::{Matrix3, Vector3, Vector7},
    odd::{finite_odd, spoil},
    rng::Rng,
    solve::{pose_numbers, pose_parts},
    subproblems::auxiliary::rot,
    track::{put_back, TrackArm},
};
use std::f64::consts::{FRAC_PI_2, PI};

/// One arm with its locked joint, and a pose.
#[derive(Clone)]
pub struct Track {
    pub family: u64,
    pub n: u64,
    pub arm: TrackArm,
    pub joint: usize,
    pub angle: f64,
    pub pose: [f64; 12],
    /// The other angles that made the pose, before any change to it.
    pub angles: [f64; 6],
}

impl Track {
    /// The locked joint's own rotation.
    pub fn r_n(&self) -> Matrix3 {
        let axis = Kinematics::from_track_arm(&self.arm).h.column(self.joint);
        rot::<Rules>(&axis, self.angle)
    }
}

/// The family and the joint of a place: every pair of them comes once in 42 places.
pub fn family_and_joint(place: u64) -> (u64, usize) {
    (1 + place % 6, (place / 6 % 7) as usize)
}

/// A realistic arm with any joint locked at any angle of one turn, and the pose that random angles give it.
pub fn reachable(seed: u64, place: u64, n: u64) -> Track {
    let rng = &mut Rng::of(&[seed, 9, place]);
    let (family, joint) = family_and_joint(place);
    let s = sample(Kind::Reachable, family, seed, place, Some(n));
    extended(&s, Kind::Reachable, joint, rng.between(-PI, PI), rng)
}

/// A six-axis arm and pose of some kind, with a seventh joint locked at an angle of any sort.
pub fn of_kind(kind: Kind, seed: u64, place: u64, n: u64, rng: &mut Rng) -> Track {
    let (family, joint) = family_and_joint(place);
    let s = sample(kind, family, seed, place, Some(n));
    let angle = locked_angle(rng);
    extended(&s, kind, joint, angle, rng)
}

/// The sample with a seventh joint. Poses that angles made are made anew, by all seven axes; the others
/// are turned by the locked joint, whose rotation is then taken off again.
fn extended(s: &Sample, kind: Kind, joint: usize, angle: f64, rng: &mut Rng) -> Track {
    let arm = if s.family == 2 && joint == 2 && kind == Kind::Reachable && rng.once_in(2) {
        light_whole()
    } else {
        let axis = locked_axis(&s.arm, joint, rng);
        put_in(
            &s.arm,
            joint,
            angle,
            &axis,
            &offset_behind(&s.arm, &axis, rng),
        )
    };
    let mut track = Track {
        family: s.family,
        n: s.n,
        arm: arm.map(or_largest),
        joint,
        angle,
        pose: s.pose,
        angles: s.angles,
    };
    track.pose = match kind {
        Kind::Reachable | Kind::Round | Kind::Degenerate => {
            pose_of(&track.arm, &put_back(&s.angles.into(), joint, angle))
        }
        _ => {
            let (r, p) = pose_parts(&s.pose);
            pose_numbers(&(r * track.r_n()), &p)
        }
    };
    track.pose = track.pose.map(or_largest);
    track
}

/// Hostile numbers can overflow where the joint is put in; it is the call that shall find them, in what it
/// hands on.
fn or_largest(x: f64) -> f64 {
    if x.is_finite() {
        x
    } else {
        f64::MAX
    }
}

/// The pose by forward_kinematics under document 01's rules.
pub fn pose_of(arm: &TrackArm, angles: &Vector7) -> [f64; 12] {
    let (r, p) = Kinematics::from_track_arm(arm).forward_kinematics::<Rules>(angles);
    pose_numbers(&r, &p)
}

/// The inverse of forward_kinematics_partial: the six-axis arm with an axis put in at `joint` and an
/// offset behind it, and all that follows turned back.
fn put_in(six: &Arm, joint: usize, angle: f64, axis: &Vector3, behind: &Vector3) -> TrackArm {
    let kin = Kinematics::from_arm(six);
    let r = rot::<Rules>(axis, angle);
    let back = r.transpose();
    let column = |i: usize| match i.checked_sub(7) {
        None if i < joint => kin.h.column(i),
        None if i == joint => *axis,
        None => back * kin.h.column(i - 1),
        Some(i) if i < joint => kin.p.column(i),
        Some(i) if i == joint => kin.p.column(i) - r * behind,
        Some(i) if i == joint + 1 => *behind,
        Some(i) => back * kin.p.column(i - 1),
    };
    let columns: [Vector3; 15] = std::array::from_fn(column);
    std::array::from_fn(|n| columns[n / 3][n % 3])
}

/// Any axis, one along x, y or z, the arm's own at that place, or one that is not of length one.
fn locked_axis(six: &Arm, joint: usize, rng: &mut Rng) -> Vector3 {
    let any = Vector3::from(random_axis(rng));
    match rng.below(6) {
        0 => {
            let mut axis = Vector3::zeros();
            axis[rng.below(3)] = rng.sign();
            axis
        }
        1 => Kinematics::from_arm(six).h.column(joint.min(5)),
        2 => any * rng.size(-3.0, 3.0),
        _ => any,
    }
}

/// The offset behind the locked joint: none, along its axis, or any as long as the arm's own.
fn offset_behind(six: &Arm, axis: &Vector3, rng: &mut Rng) -> Vector3 {
    let longest = six[18..].iter().fold(0.0, |most: f64, x| most.max(x.abs()));
    let size = longest * rng.between(-1.0, 1.0);
    match rng.below(5) {
        0 => Vector3::zeros(),
        1 => axis * size,
        _ => Vector3::from(random_axis(rng)) * size,
    }
}

/// Any angle that is finite: mostly one within a turn; zeros of both signs, quarter turns, whole degrees,
/// several turns and very many, and odd numbers.
fn locked_angle(rng: &mut Rng) -> f64 {
    match rng.below(12) {
        0 => 0.0 * rng.sign(),
        1 => (rng.below(9) as f64 - 4.0) * FRAC_PI_2,
        2 => (rng.below(361) as f64 - 180.0).to_radians(),
        3 => rng.size(0.5, 17.0) * rng.sign(),
        4 => finite_odd(rng),
        _ => rng.between(-PI, PI),
    }
}

/// What is done to an arm on a track that no six-axis arm has.
pub fn make_hostile(track: &mut Track, rng: &mut Rng) {
    match rng.below(8) {
        0 => spoil(&mut track.arm, rng, finite_odd),
        1 => spoil(&mut track.pose, rng, finite_odd),
        2 => resize_locked_axis(track, rng),
        _ => overflow(track, rng),
    }
}

/// A locked axis of no length, one whose square vanishes or is barely seen, or one whose square overflows.
fn resize_locked_axis(track: &mut Track, rng: &mut Rng) {
    let size = rng.pick(&[0.0, -0.0, 1e-310, 1e-170, 1e-161, 1e-154, 1e160, 1e300]);
    let any = random_axis(rng);
    for (number, x) in track.arm[3 * track.joint..].iter_mut().zip(any) {
        *number = x * size;
    }
}

/// Numbers near the largest in one column behind the locked joint, or in one row of the rotation, so that
/// one number that is handed on overflows or is just finite.
fn overflow(track: &mut Track, rng: &mut Rng) {
    let (r, joint, row) = (track.r_n(), track.joint, rng.below(3));
    let size = f64::MAX * rng.between(0.55, 1.0);
    // With the signs of a row of r the product of that row is the largest of the three.
    let column = |size: f64| -> [f64; 3] { std::array::from_fn(|i| size.copysign(r[(row, i)])) };
    let put = |numbers: &mut [f64], at: usize, three: [f64; 3]| {
        numbers[3 * at..3 * at + 3].copy_from_slice(&three);
    };
    let offsets = 7;
    match rng.below(4) {
        0 => put(&mut track.pose, rng.below(3), column(size)),
        1 if joint < 6 => {
            let axis = joint + 1 + rng.below(6 - joint);
            put(&mut track.arm, axis, column(size));
        }
        2 if joint < 6 => {
            let offset = joint + 2 + rng.below(6 - joint);
            put(&mut track.arm, offsets + offset, column(size));
        }
        _ => {
            // The sum at the locked joint: both parts are finite.
            put(&mut track.arm, offsets + joint + 1, column(0.5 * size));
            track.arm[3 * (offsets + joint) + row] = f64::MAX * rng.between(0.1, 1.0);
        }
    }
}

#[cfg(test)]
mod tests {
    use super::*;
    use crate::track::Reduced;

    /// The largest difference between two arms' numbers, the offsets' relative to the arm's length.
    fn apart(one: &[f64], other: &[f64]) -> f64 {
        let length: f64 = other[18..].iter().map(|x| x.abs()).sum();
        let sizes = (0..39).map(|i| if i < 18 { 1.0 } else { length });
        let differences = one.iter().zip(other).map(|(a, b)| (a - b).abs());
        differences
            .zip(sizes)
            .map(|(d, size)| d / size)
            .fold(0.0, f64::max)
    }

    #[test]
    fn locking_the_joint_gives_the_six_axis_arm_back() {
        let (mut back, mut exact) = (0, 0);
        for place in 0..840 {
            let (family, joint) = family_and_joint(place);
            let rng = &mut Rng::of(&[33, place]);
            let s = sample(Kind::Reachable, family, 11, place, Some(7));
            let angle = locked_angle(rng);
            let t = extended(&s, Kind::Reachable, joint, angle, rng);
            let reduced = Reduced::new::<Rules>(&t.arm, joint, angle, &t.pose);
            let numbers: Vec<f64> = reduced.kin.numbers().collect();
            if t.arm == light_whole() {
                continue;
            }
            let apart = apart(&numbers, &s.arm);
            assert!(apart < 4e-15, "place {place}: {apart}");
            let handed_on = reduced.pose.iter().zip(s.pose);
            let length: f64 = s.arm[18..].iter().map(|x| x.abs()).sum();
            for (i, (a, b)) in handed_on.enumerate() {
                let size = if i < 9 { 1.0 } else { length };
                assert!((a - b).abs() < 1e-14 * size, "place {place} {i}");
            }
            back += 1;
            exact += (numbers == s.arm) as usize;
        }
        assert!(back > 800 && exact > 50, "{back} {exact}");
    }

    #[test]
    fn a_light_arm_has_family_2_behind_its_third_joint() {
        for angle in [0.0, 0.7, -2.0, PI] {
            let arm = light_whole();
            let reduced = Reduced::new::<Rules>(&arm, 2, angle, &[0.0; 12]);
            let numbers: Vec<f64> = reduced.kin.numbers().collect();
            for zero in [18 + 3, 18 + 12, 18 + 15] {
                assert!(numbers[zero..zero + 3].iter().all(|&x| x == 0.0));
            }
            assert_eq!(numbers[18 + 6..18 + 9], [0.0, 0.0, 0.42]);
        }
        let used = |place: u64| reachable(1, place, 7).arm == light_whole();
        let places = (0..840).filter(|place| family_and_joint(*place) == (2, 2));
        let counted = places.filter(|&place| used(place)).count();
        assert!((5..=15).contains(&counted), "{counted}");
    }

    #[test]
    fn hostile_numbers_are_finite() {
        for place in 0..4200 {
            let rng = &mut Rng::of(&[34, place]);
            let mut t = of_kind(Kind::Hostile, 12, place, 7, rng);
            make_hostile(&mut t, rng);
            let mut all = t.arm.iter().chain(&t.pose).chain([&t.angle]);
            assert!(all.all(|x| x.is_finite()), "place {place}");
        }
    }
}
