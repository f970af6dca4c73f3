//! Document 02's call for an arm on a track: seven axes, of which one joint is locked at an angle. The
//! six-axis arm that is left is solved, and the locked angle put back in its place.

use crate::{
    arith::Arith,
    inverse_kinematics::auxiliary::Kinematics,
    linalg::{Matrix3, Vector6, Vector7},
    solve::{
        family_answers, judge_lengths, judge_numbers, pose_numbers, pose_parts, write_answers,
        Answers, Outcome,
    },
    subproblems::auxiliary::rot,
};

/// Seven axes, then eight offsets, three numbers each.
pub const NUMBERS: usize = 45;
pub type TrackArm = [f64; NUMBERS];

pub const JOINTS: usize = 7;

/// The joint that is locked, counted from 0, and its angle.
#[derive(Clone, Copy, Debug)]
pub struct Lock {
    pub joint: u64,
    pub angle: f64,
}

impl Lock {
    /// The joint as a place among the seven, or refusal 11, which an angle that is not finite gives too.
    fn judge(&self) -> Result<usize, u32> {
        if self.joint >= JOINTS as u64 || !self.angle.is_finite() {
            return Err(11);
        }
        Ok(self.joint as usize)
    }
}

/// The six-axis arm and the pose that are handed on.
pub struct Reduced {
    pub kin: Kinematics,
    pub pose: [f64; 12],
}

impl Reduced {
    /// The rotation handed on is the wanted one times the transpose of the locked joint's own; the place
    /// is the wanted one.
    pub fn new<A: Arith>(arm: &TrackArm, joint: usize, angle: f64, pose: &[f64; 12]) -> Self {
        let whole = Kinematics::from_track_arm(arm);
        let (r, p) = pose_parts(pose);
        let r_n = rot::<A>(&whole.h.column(joint), angle);
        // Its second result is for a rotation behind the arm and plays no part here.
        let (kin, _) = whole.forward_kinematics_partial::<A>(angle, joint, &Matrix3::identity());
        Reduced {
            kin,
            pose: pose_numbers(&(r * r_n.transpose()), &p),
        }
    }

    /// An overflow, or a locked axis of no length, may have made a number that is not.
    pub fn is_finite(&self) -> bool {
        let mut numbers = self.kin.numbers().chain(self.pose);
        numbers.all(f64::is_finite)
    }
}

/// The six angles with the locked one among them.
pub fn put_back(six: &Vector6, joint: usize, angle: f64) -> Vector7 {
    Vector7::from(std::array::from_fn(|i| match i {
        _ if i < joint => six[i],
        _ if i == joint => angle,
        _ => six[i - 1],
    }))
}

/// The full list of the reduced arm; or a refusal, judged in the order 4, 5, 6, 11, 7, 8. The numbers that
/// are given come before those that are handed on; both are 8.
fn reduced_list<A: Arith>(
    family: u64,
    n: u64,
    arm: &[f64],
    lock: Lock,
    pose: &[f64],
) -> Result<(usize, Answers), u32> {
    let (arm, pose) = judge_lengths::<NUMBERS>(family, arm, pose)?;
    let joint = lock.judge()?;
    judge_numbers(family, n, arm, pose)?;
    let reduced = Reduced::new::<A>(arm, joint, lock.angle, pose);
    if !reduced.is_finite() {
        return Err(8);
    }
    let full = family_answers::<A>(family, n as usize, &reduced.kin, &reduced.pose);
    Ok((joint, full))
}

/// The call: an answer is seven angles, and refusal 9 counts sevens. There are no limits here.
pub fn solve_track<A: Arith>(
    family: u64,
    n: u64,
    arm: &[f64],
    lock: Lock,
    pose: &[f64],
    angle_list: &mut [f64],
    flag_list: &mut [u8],
) -> Outcome {
    match reduced_list::<A>(family, n, arm, lock, pose) {
        Ok((joint, full)) => {
            let list: Vec<(Vector7, bool)> = full
                .iter()
                .map(|(six, flag)| (put_back(&six, joint, lock.angle), flag))
                .collect();
            write_answers(&list, full.evaluations, angle_list, flag_list)
        }
        Err(refusal) => Outcome::refused(refusal),
    }
}

#[cfg(test)]
mod tests {
    use super::*;
    use crate::{
        arith::Rules,
        block::canonical_bits,
        differ::is_singular,
        missed::distance,
        solve::solve,
        tracks::{pose_of, reachable, Track},
    };
    use std::f64::consts::FRAC_PI_4;

    /// In lists that are long enough; a refusal writes nothing.
    fn call(family: u64, n: u64, arm: &[f64], lock: Lock, pose: &[f64]) -> Outcome {
        let (mut angles, mut flags) = ([7.0; 560], [7; 80]);
        let outcome = solve_track::<Rules>(family, n, arm, lock, pose, &mut angles, &mut flags);
        if outcome.refusal != 0 {
            assert_eq!(outcome, Outcome::refused(outcome.refusal));
            assert_eq!((angles, flags), ([7.0; 560], [7; 80]));
        }
        outcome
    }

    fn lock_of(track: &Track) -> Lock {
        Lock {
            joint: track.joint as u64,
            angle: track.angle,
        }
    }

    /// The refusal of a call that is right but for what `change` does.
    fn refusal(place: u64, change: impl FnOnce(&mut Track, &mut Lock)) -> u32 {
        let mut track = reachable(4, place, 7);
        let mut lock = lock_of(&track);
        change(&mut track, &mut lock);
        call(track.family, track.n, &track.arm, lock, &track.pose).refusal
    }

    #[test]
    fn refusals_come_in_their_order() {
        let t = reachable(4, 0, 7);
        let mut bad = t.arm;
        bad[44] = f64::NAN;
        let (arm, pose, good) = (&t.arm[..], &t.pose[..], lock_of(&t));
        let wrong = Lock {
            joint: 7,
            angle: f64::NAN,
        };
        for (family, n, arm, lock, pose, refusal) in [
            (7, 1, &bad[1..], wrong, &pose[1..], 4),
            (1, 1, &bad[1..], wrong, &pose[1..], 5),
            (1, 1, &bad[..], wrong, &pose[1..], 6),
            (1, 1, &bad, wrong, pose, 11),
            (1, 1, &bad, good, pose, 7),
            (1, 0, &bad, good, pose, 8),
            (1, 0, arm, good, pose, 0),
            (6, 0, arm, good, pose, 7),
            (6, 401, arm, good, pose, 7),
            (u64::MAX, 0, arm, good, pose, 4),
        ] {
            assert_eq!(call(family, n, arm, lock, pose).refusal, refusal);
        }
        // 45 and nothing else: also not the arm without its seventh axis.
        let long = [&bad[..], &bad].concat();
        for length in (0..=90).filter(|&length| length != NUMBERS) {
            assert_eq!(call(1, 0, &long[..length], good, pose).refusal, 5);
        }
    }

    #[test]
    fn every_joint_and_angle_is_judged() {
        for place in 0..42 {
            assert_eq!(refusal(place, |_, _| ()), 0);
            let joint = place / 6;
            for wrong in [
                7,
                8,
                8 + joint,
                255,
                256 + joint,
                1 << 32,
                (1 << 32) + joint,
                1 << 63,
                u64::MAX,
            ] {
                assert_eq!(refusal(place, |_, lock| lock.joint = wrong), 11);
            }
            for wrong in [f64::NAN, -f64::NAN, f64::INFINITY, f64::NEG_INFINITY] {
                assert_eq!(refusal(place, |_, lock| lock.angle = wrong), 11);
            }
            for right in [0.0, -0.0, f64::MAX, f64::MIN, f64::from_bits(1)] {
                assert_eq!(refusal(place, |_, lock| lock.angle = right), 0);
            }
        }
    }

    #[test]
    fn a_number_that_is_not_finite_is_refused_at_every_place() {
        for bad in [f64::NAN, f64::INFINITY, f64::NEG_INFINITY] {
            for at in 0..NUMBERS {
                assert_eq!(refusal(at as u64, |track, _| track.arm[at] = bad), 8);
            }
            for at in 0..12 {
                assert_eq!(refusal(at as u64, |track, _| track.pose[at] = bad), 8);
            }
        }
    }

    /// An eighth of a turn about z takes (x, x, 0) to (0, 1.41 x, 0), which overflows for the largest x and
    /// is finite for half of it. So each number that is handed on and turned is tried.
    #[test]
    fn an_overflow_in_what_is_handed_on_is_refused() {
        let largest = f64::MAX;
        for joint in 0..JOINTS {
            let turned = |change: &dyn Fn(&mut Track, f64), size: f64| {
                refusal(6 * joint as u64, |track, lock| {
                    track.arm[3 * joint..3 * joint + 3].copy_from_slice(&[0.0, 0.0, 1.0]);
                    lock.angle = FRAC_PI_4;
                    change(track, size);
                })
            };
            // Columns of the arm that are turned: axes behind the joint, offsets from the second behind it.
            let axes = joint + 1..7;
            let offsets = 7 + joint + 2..15;
            for column in axes.chain(offsets) {
                let change = |track: &mut Track, size: f64| {
                    track.arm[3 * column..3 * column + 3].copy_from_slice(&[size, size, 0.0]);
                };
                assert_eq!(turned(&change, largest), 8, "joint {joint} column {column}");
                assert_eq!(turned(&change, 0.5 * largest), 0);
            }
            // The joint's own offset and the turned one behind it: each is finite, their sum is not.
            for i in 0..3 {
                let change = |track: &mut Track, size: f64| {
                    let (own, behind) = (3 * (7 + joint), 3 * (8 + joint));
                    track.arm[own..own + 3].fill(0.0);
                    track.arm[behind..behind + 3].fill(0.0);
                    track.arm[own + i] = size;
                    // What the rotation takes to the axis i alone.
                    let turned_to = [[1.0, -1.0, 0.0], [1.0, 1.0, 0.0], [0.0, 0.0, 1.0]][i];
                    for (number, x) in track.arm[behind..].iter_mut().zip(turned_to) {
                        *number = 0.5 * size * x;
                    }
                };
                assert_eq!(turned(&change, largest), 8, "joint {joint} sum {i}");
                assert_eq!(turned(&change, 0.5 * largest), 0);
            }
            for row in 0..3 {
                let change = |track: &mut Track, size: f64| {
                    track.pose[3 * row..3 * row + 3].copy_from_slice(&[size, size, 0.0]);
                };
                assert_eq!(turned(&change, largest), 8, "joint {joint} row {row}");
                assert_eq!(turned(&change, 0.5 * largest), 0);
            }
        }
    }

    /// A locked axis of no length turns by NaN. One so long that its square overflows turns by nothing.
    #[test]
    fn the_length_of_the_locked_axis_decides() {
        for joint in 0..JOINTS {
            let with_axis = |axis: [f64; 3]| {
                refusal(6 * joint as u64, |track, _| {
                    track.arm[3 * joint..3 * joint + 3].copy_from_slice(&axis);
                })
            };
            assert_eq!(with_axis([0.0; 3]), 8);
            assert_eq!(with_axis([-0.0, 0.0, -0.0]), 8);
            assert_eq!(with_axis([1e-170, 0.0, 0.0]), 8);
            assert_eq!(with_axis([1e-3, 0.0, 0.0]), 0);
            assert_eq!(with_axis([0.0, 1e200, f64::MAX]), 0);
            // Any other axis may have no length.
            let other = 3 * ((joint + 1) % JOINTS);
            assert_eq!(
                refusal(6 * joint as u64, |track, _| track.arm[other..other + 3]
                    .fill(0.0)),
                0
            );
        }
    }

    /// Each answer is one of the six-axis arm with the locked angle in its place, bit for bit.
    #[test]
    fn the_locked_angle_comes_back_as_it_was_given() {
        let mut answers = 0;
        for place in 0..84 {
            let t = reachable(5, place, 25);
            let given = [t.angle, -0.0, 0.0, 1e300, -f64::from_bits(1)];
            for angle in given {
                let joint = t.joint as u64;
                let (mut seven, mut flags) = ([7.0; 700], [7; 100]);
                let lock = Lock { joint, angle };
                let arm = &t.arm;
                let outcome =
                    solve_track::<Rules>(t.family, t.n, arm, lock, &t.pose, &mut seven, &mut flags);

                let reduced = Reduced::new::<Rules>(arm, t.joint, angle, &t.pose);
                let six_axes: Vec<f64> = reduced.kin.numbers().collect();
                let (mut six, mut six_flags) = ([7.0; 600], [7; 100]);
                let expected = solve::<Rules>(
                    t.family,
                    t.n,
                    &six_axes,
                    &reduced.pose,
                    &[],
                    &mut six,
                    &mut six_flags,
                );
                assert_eq!(outcome, expected);
                assert_eq!(flags, six_flags);
                for (seven, six) in seven.chunks(7).zip(six.chunks(6)).take(outcome.answers) {
                    assert_eq!(seven[t.joint].to_bits(), angle.to_bits());
                    let mut others = seven.to_vec();
                    others.remove(t.joint);
                    let bits = |list: &[f64]| list.iter().map(|&x| canonical_bits(x)).collect();
                    let (others, six): (Vec<u64>, Vec<u64>) = (bits(&others), bits(six));
                    assert_eq!(others, six);
                }
                assert!(seven[7 * outcome.answers..].iter().all(|&x| x == 7.0));
                answers += outcome.answers;
            }
        }
        assert!(answers > 1000, "{answers}");
    }

    #[test]
    fn refusal_9_counts_whole_sevens_and_bytes() {
        let t = reachable(6, 0, 7);
        let (mut all, mut flags) = ([7.0; 56], [7; 8]);
        let solve = |angles: &mut [f64], flags: &mut [u8]| {
            let arm = &t.arm;
            solve_track::<Rules>(t.family, t.n, arm, lock_of(&t), &t.pose, angles, flags)
        };
        let whole = solve(&mut all, &mut flags);
        let count = whole.answers;
        assert!(whole.refusal == 0 && count > 2);
        for (angles, bytes, written) in [
            (7 * count, count, count),
            (7 * count - 1, count, count - 1),
            (6 * count, count, 6 * count / 7),
            (7 * count, count - 1, count - 1),
            (7 * count + 6, 0, 0),
            (6, count, 0),
            (0, 0, 0),
            (14, 1, 1),
        ] {
            let (mut some, mut few) = (vec![7.0; angles], vec![7; bytes]);
            let refusal = if written < count { 9 } else { 0 };
            let expected = Outcome { refusal, ..whole };
            assert_eq!(solve(&mut some, &mut few), expected);
            assert_eq!(some[..7 * written], all[..7 * written]);
            assert!(some[7 * written..].iter().all(|&x| x == 7.0));
            assert_eq!(few[..written], flags[..written]);
            assert!(few[written..].iter().all(|&x| x == 7));
        }
    }

    /// With every joint locked in every family: an unflagged answer that is not singular makes the pose, and
    /// the angles that made a pose are mostly among its answers.
    #[test]
    fn the_whole_arm_stands_at_the_wanted_pose() {
        let (mut tried, mut own) = (0, 0);
        for place in 0..210 {
            let t = reachable(7, place, 50);
            let lock = lock_of(&t);
            let (joint, list) = reduced_list::<Rules>(t.family, t.n, &t.arm, lock, &t.pose)
                .ok()
                .unwrap();
            let reduced = Reduced::new::<Rules>(&t.arm, joint, t.angle, &t.pose);
            let length: f64 = t.arm[21..].iter().map(|x| x.abs()).sum();
            for (six, flag) in list.iter() {
                if flag || is_singular(&reduced.kin, &six) {
                    continue;
                }
                let pose = pose_of(&t.arm, &put_back(&six, joint, t.angle));
                for (i, (made, wanted)) in pose.iter().zip(t.pose).enumerate() {
                    let size = if i < 9 { 1.0 } else { length };
                    assert!((made - wanted).abs() < 1e-6 * size, "{place} {i}");
                }
                tried += 1;
            }
            let found = |six: &Vector6| distance(six, &t.angles) < 1e-6;
            own += list.angles.iter().any(found) as usize;
        }
        assert!(tried > 900 && own > 200, "{tried} {own}");
    }
}
