//! How far an arm on a track stands from the wanted pose, where its joints are at the angles of an answer.
//!
//! Only unflagged answers are measured. Beside the seven axes stand the six of the reduced arm with the
//! pose that was handed on: what the seven miss by beyond that, locking a joint adds.

use crate::{
    arith::{Arith, Rules},
    differ::{is_singular, Largest},
    inverse_kinematics::auxiliary::Kinematics,
    linalg::{Matrix, Vector6},
    missed::distance,
    recover::TOLERANCE,
    solve::{family_answers, pose_parts},
    track::{put_back, Reduced},
    tracks::{reachable, Track},
};

/// The largest distances of a class of answers from their poses, by place and by rotation.
#[derive(Default, Clone, Copy)]
pub struct Misses {
    pub answers: u64,
    pub place: Largest,
    pub rotation: Largest,
}

impl Misses {
    fn note(&mut self, miss: Miss, pose: u64) {
        self.answers += 1;
        self.place.note(miss.place, pose);
        self.rotation.note(miss.rotation, pose);
    }
}

#[derive(Default, Clone, Copy)]
pub struct Counts {
    pub poses: u64,
    /// Poses that have the angles that made them among their answers.
    pub own: u64,
    pub answers: u64,
    pub flagged: u64,
    /// Unflagged answers with which the six-axis arm itself misses the pose that it was handed.
    pub untrue: u64,
    /// The other unflagged answers: those that are not singular and those that are, by all seven axes and
    /// by the six of the reduced arm.
    pub regular: [Misses; 2],
    pub singular: [Misses; 2],
}

/// The place relative to the sum of the arm's offsets, and the norm of the rotations' difference.
#[derive(Clone, Copy)]
struct Miss {
    place: f64,
    rotation: f64,
}

impl Miss {
    /// Of an arm at angles from a pose. A NaN is as far as can be.
    fn new<const C1: usize, const C2: usize>(
        kin: &Kinematics<C1, C2>,
        angles: &Matrix<C1, 1>,
        pose: &[f64; 12],
    ) -> Self {
        let length: f64 = (0..C2).map(|i| kin.p.column(i).norm()).sum();
        let ((r, p), (wanted_r, wanted_p)) =
            (kin.forward_kinematics::<Rules>(angles), pose_parts(pose));
        let or_infinite = |x: f64| if x.is_nan() { f64::INFINITY } else { x };
        Miss {
            place: or_infinite((p - wanted_p).norm() / length),
            rotation: or_infinite((r - wanted_r).norm()),
        }
    }
}

impl Counts {
    fn look<A: Arith>(&mut self, track: &Track, pose: u64) {
        let whole = Kinematics::from_track_arm(&track.arm);
        let reduced = Reduced::new::<A>(&track.arm, track.joint, track.angle, &track.pose);
        let kin = &reduced.kin;
        let list = family_answers::<A>(track.family, track.n as usize, kin, &reduced.pose);
        let found = |six: &Vector6| distance(six, &track.angles) <= TOLERANCE;
        self.poses += 1;
        self.own += list.angles.iter().any(found) as u64;
        for (six, flag) in list.iter() {
            self.answers += 1;
            if flag {
                self.flagged += 1;
                continue;
            }
            let seven = put_back(&six, track.joint, track.angle);
            let by_six = Miss::new(kin, &six, &reduced.pose);
            if by_six.place > TOLERANCE || by_six.rotation > TOLERANCE {
                self.untrue += 1;
                continue;
            }
            let class = if is_singular(kin, &six) {
                &mut self.singular
            } else {
                &mut self.regular
            };
            class[0].note(Miss::new(&whole, &seven, &track.pose), pose);
            class[1].note(by_six, pose);
        }
    }
}

/// Over reachable poses, the six families taking turns, and every joint locked in each; by family.
pub fn track_miss<A: Arith>(seed: u64, count: u64, n: u64) -> [Counts; 6] {
    let mut counts = [Counts::default(); 6];
    for pose in 0..count {
        let track = reachable(seed, pose, n);
        counts[track.family as usize - 1].look::<A>(&track, pose);
    }
    counts
}

#[cfg(test)]
mod tests {
    use super::*;

    /// Every family has answers that make their pose, by seven axes as by six.
    #[test]
    fn seven_axes_miss_by_as_little_as_six() {
        for counts in track_miss::<Rules>(2, 252, 25) {
            let [seven, six] = counts.regular;
            assert_eq!(counts.poses, 42);
            assert!(counts.own > 20 && seven.answers > 80, "{}", seven.answers);
            assert_eq!(seven.answers, six.answers);
            assert!((seven.place.difference - six.place.difference).abs() < 1e-7);
            assert!((seven.rotation.difference - six.rotation.difference).abs() < 1e-13);
            assert!(seven.place.difference < 1e-6 && seven.rotation.difference < 1e-6);
        }
    }

    /// A miss is by place relative to the arm's length, and by rotation.
    #[test]
    fn a_miss_is_a_distance() {
        let track = reachable(2, 0, 7);
        let whole = Kinematics::from_track_arm(&track.arm);
        let own = put_back(&track.angles.into(), track.joint, track.angle);
        let length: f64 = (0..8).map(|i| whole.p.column(i).norm()).sum();
        let miss = |pose: [f64; 12]| Miss::new(&whole, &own, &pose);
        let none = miss(track.pose);
        assert_eq!((none.place, none.rotation), (0.0, 0.0));
        let mut moved = track.pose;
        moved[10] += 0.25 * length;
        moved[4] += 0.5;
        let some = miss(moved);
        assert!((some.place - 0.25).abs() < 1e-15 && (some.rotation - 0.5).abs() < 1e-15);
        moved[0] = f64::NAN;
        assert_eq!(miss(moved).rotation, f64::INFINITY);
    }
}
