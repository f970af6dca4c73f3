//! Document 01's solve call with document 02's limits: refusals 4 to 10, the families, n, and the two
//! lent lists. Beside it document 02's call that gives one answer, with refusal 12.

use crate::{
    arith::Arith,
    inverse_kinematics::{
        auxiliary::Kinematics, spherical, spherical_two_intersecting, spherical_two_parallel,
        three_parallel, three_parallel_two_intersecting, two_parallel,
    },
    limits::Limits,
    linalg::{Matrix, Matrix3, Vector3, Vector6},
};

pub const FAMILIES: std::ops::RangeInclusive<u64> = 1..=6;
pub const SPHERICAL: u64 = 3;
pub const TWO_PARALLEL: u64 = 6;

/// What a call gives beside the lists; refusal 0 is none.
#[derive(Debug, Clone, Copy, PartialEq, Eq)]
pub struct Outcome {
    pub refusal: u32,
    pub answers: usize,
    pub evaluations: u64,
}

impl Outcome {
    pub fn refused(refusal: u32) -> Self {
        Outcome {
            refusal,
            answers: 0,
            evaluations: 0,
        }
    }
}

/// The full list of a family's answers, and the evaluations of its search.
pub struct Answers {
    pub angles: Vec<Vector6>,
    pub flags: Vec<bool>,
    pub evaluations: u64,
}

impl Answers {
    /// Each answer with its flag, in their order.
    pub fn iter(&self) -> impl Iterator<Item = (Vector6, bool)> + '_ {
        let flags = self.flags.iter().copied();
        self.angles.iter().copied().zip(flags)
    }

    /// The answers inside the limits, in their order; without limits all.
    fn within(&self, limits: Option<Limits>) -> Vec<(Vector6, bool)> {
        self.iter()
            .filter(|(angles, _)| limits.is_none_or(|limits| limits.admit(angles)))
            .collect()
    }
}

/// A pose is the rotation by rows, then the place.
pub fn pose_parts(pose: &[f64; 12]) -> (Matrix3, Vector3) {
    (
        Matrix::from_entries(|i, j| pose[3 * i + j]),
        Vector3::new(pose[9], pose[10], pose[11]),
    )
}

/// The numbers of a pose, of which [`pose_parts`] makes the two.
pub fn pose_numbers(r: &Matrix3, p: &Vector3) -> [f64; 12] {
    let mut pose = [0.0; 12];
    for (number, x) in pose.iter_mut().zip(r.by_rows().chain(p.iter())) {
        *number = x;
    }
    pose
}

/// The full list of a family from 1 to 6, without any refusal.
pub fn family_answers<A: Arith>(
    family: u64,
    n: usize,
    kin: &Kinematics,
    pose: &[f64; 12],
) -> Answers {
    let (r, p) = pose_parts(pose);
    let mut evaluations = 0;
    let (angles, flags) = match family {
        1 => spherical_two_parallel::<A>(&r, &p, kin),
        2 => spherical_two_intersecting::<A>(&r, &p, kin),
        3 => spherical::<A>(&r, &p, kin),
        4 => three_parallel_two_intersecting::<A>(&r, &p, kin),
        5 => three_parallel::<A>(&r, &p, kin),
        6 => {
            let (angles, flags, count) = two_parallel::<A>(&r, &p, kin, n);
            evaluations = count;
            (angles, flags)
        }
        _ => unreachable!("refusal 4 comes first"),
    };
    Answers {
        angles,
        flags,
        evaluations,
    }
}

fn n_fits(family: u64, n: u64) -> bool {
    if family == TWO_PARALLEL {
        (1..=400).contains(&n)
    } else {
        n == 0
    }
}

/// Refusals 4, 5 and 6 in their order, or the arm, which is so many numbers, and the pose as arrays.
pub fn judge_lengths<'a, const NUMBERS: usize>(
    family: u64,
    arm: &'a [f64],
    pose: &'a [f64],
) -> Result<(&'a [f64; NUMBERS], &'a [f64; 12]), u32> {
    if !FAMILIES.contains(&family) {
        return Err(4);
    }
    let arm = arm.try_into().map_err(|_| 5u32)?;
    let pose = pose.try_into().map_err(|_| 6u32)?;
    Ok((arm, pose))
}

/// Refusals 7 and 8 in their order.
pub fn judge_numbers(family: u64, n: u64, arm: &[f64], pose: &[f64]) -> Result<(), u32> {
    if !n_fits(family, n) {
        return Err(7);
    }
    if arm.iter().chain(pose).any(|x| !x.is_finite()) {
        return Err(8);
    }
    Ok(())
}

/// The full list before any limits, or one of the refusals 4 to 8.
pub fn full_list<A: Arith>(family: u64, n: u64, arm: &[f64], pose: &[f64]) -> Result<Answers, u32> {
    let (arm, pose) = judge_lengths(family, arm, pose)?;
    judge_numbers(family, n, arm, pose)?;
    let kin = Kinematics::from_arm(arm);
    Ok(family_answers::<A>(family, n as usize, &kin, pose))
}

/// The list within the limits and the evaluations of the full one; or refusal 10, which comes before
/// 4, or one of 4 to 8. `limits` is twelve numbers or none.
fn filtered_list<A: Arith>(
    family: u64,
    n: u64,
    arm: &[f64],
    pose: &[f64],
    limits: &[f64],
) -> Result<(Vec<(Vector6, bool)>, u64), u32> {
    let limits = Limits::judge(limits)?;
    let full = full_list::<A>(family, n, arm, pose)?;
    Ok((full.within(limits), full.evaluations))
}

/// Writes the first answers that fit both lists, so many numbers each; elements past the last written
/// answer keep their values. Refusal 9 is for a list of more answers.
pub fn write_answers<const ANGLES: usize>(
    list: &[(Matrix<ANGLES, 1>, bool)],
    evaluations: u64,
    angle_list: &mut [f64],
    flag_list: &mut [u8],
) -> Outcome {
    let room = (angle_list.len() / ANGLES).min(flag_list.len());
    for (i, (angles, flag)) in list.iter().take(room).enumerate() {
        for (j, angle) in angles.iter().enumerate() {
            angle_list[ANGLES * i + j] = angle;
        }
        flag_list[i] = *flag as u8;
    }
    Outcome {
        refusal: if list.len() > room { 9 } else { 0 },
        answers: list.len(),
        evaluations,
    }
}

/// The solve call. Answers outside the limits leave the list, and what is left is counted, written and
/// held against refusal 9; the evaluations are those of the full list. Refusals but 9 write nothing.
pub fn solve<A: Arith>(
    family: u64,
    n: u64,
    arm: &[f64],
    pose: &[f64],
    limits: &[f64],
    angle_list: &mut [f64],
    flag_list: &mut [u8],
) -> Outcome {
    match filtered_list::<A>(family, n, arm, pose, limits) {
        Ok((list, evaluations)) => write_answers(&list, evaluations, angle_list, flag_list),
        Err(refusal) => Outcome::refused(refusal),
    }
}

/// What the call for one answer gives; a refusal has six times +0.0 and flag 0 beside it.
#[derive(Debug, Clone, Copy)]
pub struct OneAnswer {
    pub refusal: u32,
    pub angles: Vector6,
    pub flag: u8,
}

/// The call for one answer: the first of the list within the limits. Refusal 12 is for an empty one.
pub fn solve_one<A: Arith>(
    family: u64,
    n: u64,
    arm: &[f64],
    pose: &[f64],
    limits: &[f64],
) -> OneAnswer {
    let first = filtered_list::<A>(family, n, arm, pose, limits)
        .and_then(|(list, _)| list.first().copied().ok_or(12));
    match first {
        Ok((angles, flag)) => OneAnswer {
            refusal: 0,
            angles,
            flag: flag as u8,
        },
        Err(refusal) => OneAnswer {
            refusal,
            angles: Vector6::zeros(),
            flag: 0,
        },
    }
}

#[cfg(test)]
mod tests {
    use super::*;
    use crate::arith::Rules;
    use crate::generate::{sample, Kind};

    fn call(family: u64, n: u64, arm: &[f64], pose: &[f64]) -> Outcome {
        limited(family, n, arm, pose, &[])
    }

    fn limited(family: u64, n: u64, arm: &[f64], pose: &[f64], limits: &[f64]) -> Outcome {
        let (mut angles, mut flags) = ([7.0; 48], [7; 8]);
        let outcome = solve::<Rules>(family, n, arm, pose, limits, &mut angles, &mut flags);
        if outcome.refusal != 0 && outcome.refusal != 9 {
            assert_eq!((angles, flags), ([7.0; 48], [7; 8]));
        }
        outcome
    }

    /// Twelve numbers that admit every angle but a NaN.
    const WIDE: [f64; 12] = [
        -9.0, 9.0, -9.0, 9.0, -9.0, 9.0, -9.0, 9.0, -9.0, 9.0, -9.0, 9.0,
    ];

    fn same(one: &Vector6, other: &[f64]) -> bool {
        one.iter()
            .zip(other)
            .all(|(a, b)| a.to_bits() == b.to_bits())
    }

    #[test]
    fn refusals_come_in_their_order() {
        let (arm, pose) = ([0.0; 39], [0.0; 12]);
        let mut bad = arm;
        bad[38] = f64::NAN;
        assert_eq!(call(0, 1, &bad[1..], &pose), Outcome::refused(4));
        assert_eq!(call(7, 0, &arm, &pose), Outcome::refused(4));
        assert_eq!(call(u64::MAX, 0, &arm, &pose), Outcome::refused(4));
        assert_eq!(call(3, 1, &bad[1..], &pose[1..]), Outcome::refused(5));
        assert_eq!(call(3, 1, &bad, &pose[1..]), Outcome::refused(6));
        assert_eq!(call(3, 1, &bad, &pose), Outcome::refused(7));
        assert_eq!(call(3, 0, &bad, &pose), Outcome::refused(8));
        let mut far = pose;
        far[11] = f64::NEG_INFINITY;
        assert_eq!(call(3, 0, &arm, &far), Outcome::refused(8));
    }

    #[test]
    fn n_from_1_to_400_passes_in_family_6() {
        let (arm, pose) = ([0.0; 39], [0.0; 12]);
        assert_eq!(call(6, 0, &arm, &pose).refusal, 7);
        assert_eq!(call(6, 1, &arm, &pose).refusal, 0);
        assert_eq!(call(6, 400, &arm, &pose).refusal, 0);
        assert_eq!(call(6, 401, &arm, &pose).refusal, 7);
        assert_eq!(call(6, 256 + 1, &arm, &pose).refusal, 0);
    }

    #[test]
    fn refusal_9_writes_the_first_answers_that_fit() {
        let s = sample(Kind::Reachable, 1, 1, 0, None);
        let (mut all, mut flags) = ([7.0; 48], [7; 8]);
        let whole = solve::<Rules>(1, 0, &s.arm, &s.pose, &[], &mut all, &mut flags);
        assert_eq!(whole.refusal, 0);
        assert!(whole.answers > 2 && whole.evaluations == 0);
        assert!(flags[whole.answers..].iter().all(|&f| f == 7));
        assert!(all[6 * whole.answers..].iter().all(|&a| a == 7.0));

        // Two whole sixes and five more; flags for three.
        let (mut some, mut few) = ([7.0; 17], [7; 3]);
        let part = solve::<Rules>(1, 0, &s.arm, &s.pose, &[], &mut some, &mut few);
        assert_eq!(
            part,
            Outcome {
                refusal: 9,
                ..whole
            }
        );
        assert_eq!(some[..12], all[..12]);
        assert_eq!(some[12..], [7.0; 5]);
        assert_eq!(few, [flags[0], flags[1], 7]);
    }

    #[test]
    fn refusal_10_comes_before_4() {
        let (arm, pose) = ([0.0; 39], [0.0; 12]);
        let mut bad = WIDE;
        bad[11] = f64::INFINITY;
        let mut crossed = WIDE;
        crossed.swap(4, 5);
        let faults: [&[f64]; 4] = [&WIDE[1..], &bad, &crossed, &[0.0]];
        for limits in faults {
            assert_eq!(limited(0, 1, &arm, &pose, limits), Outcome::refused(10));
            assert_eq!(limited(3, 0, &arm, &pose, limits), Outcome::refused(10));
            assert_eq!(limited(6, 200, &arm, &pose, limits), Outcome::refused(10));
        }
        // Good limits and none leave the other refusals as they are.
        let mut far = pose;
        far[0] = f64::NAN;
        for limits in [&WIDE[..], &[]] {
            assert_eq!(limited(9, 1, &arm, &pose, limits), Outcome::refused(4));
            assert_eq!(limited(3, 1, &arm[1..], &pose, limits), Outcome::refused(5));
            assert_eq!(limited(3, 1, &arm, &pose[1..], limits), Outcome::refused(6));
            assert_eq!(limited(3, 1, &arm, &pose, limits), Outcome::refused(7));
            assert_eq!(limited(3, 0, &arm, &far, limits), Outcome::refused(8));
        }
    }

    /// Limits with both ends of a joint at an answer's own angle keep exactly the answers that have
    /// that angle there, in their order, with the evaluations of the full list.
    #[test]
    fn answers_outside_leave_the_list_and_the_others_stay_in_order() {
        let mut fewer = 0;
        for place in 0..60 {
            let family = 1 + place % 6;
            let s = sample(Kind::Reachable, family, 21, place, Some(50));
            let full = full_list::<Rules>(family, s.n, &s.arm, &s.pose)
                .ok()
                .unwrap();
            for own in &full.angles {
                for joint in 0..6 {
                    let mut limits = WIDE;
                    limits[2 * joint..2 * joint + 2].fill(own[joint]);
                    let kept: Vec<usize> = (0..full.angles.len())
                        .filter(|&i| full.angles[i][joint] == own[joint])
                        .collect();
                    let (mut angles, mut flags) = ([7.0; 600], [7; 100]);
                    let outcome = solve::<Rules>(
                        family,
                        s.n,
                        &s.arm,
                        &s.pose,
                        &limits,
                        &mut angles,
                        &mut flags,
                    );
                    let expected = Outcome {
                        refusal: 0,
                        answers: kept.len(),
                        evaluations: full.evaluations,
                    };
                    assert_eq!(outcome, expected);
                    for (i, &k) in kept.iter().enumerate() {
                        assert!(same(&full.angles[k], &angles[6 * i..]));
                        assert_eq!(flags[i], full.flags[k] as u8);
                    }
                    assert!(angles[6 * kept.len()..].iter().all(|&x| x == 7.0));
                    assert!(flags[kept.len()..].iter().all(|&x| x == 7));
                    fewer += (kept.len() < full.angles.len()) as usize;
                }
            }
        }
        assert!(fewer > 100, "{fewer}");
    }

    #[test]
    fn the_filtered_list_is_held_against_refusal_9() {
        let s = sample(Kind::Reachable, 1, 1, 0, None);
        let full = full_list::<Rules>(1, 0, &s.arm, &s.pose).ok().unwrap();
        let mut firsts: Vec<f64> = full.angles.iter().map(|q| q[0]).collect();
        firsts.sort_by(f64::total_cmp);
        let (all, most) = (firsts.len(), firsts[firsts.len() - 1]);
        let below = firsts.partition_point(|&q| q < most);
        assert!(below > 1 && below < all, "{firsts:?}");
        let mut limits = WIDE;
        limits[1] = firsts[below - 1];
        // Room for as many as stay, then for one fewer.
        for (room, refusal) in [(below, 0), (below - 1, 9)] {
            let (mut angles, mut flags) = (vec![7.0; 6 * room], vec![7; all]);
            let call = solve::<Rules>(1, 0, &s.arm, &s.pose, &limits, &mut angles, &mut flags);
            assert_eq!((call.refusal, call.answers), (refusal, below));
            let kept = full.angles.iter().filter(|q| q[0] <= limits[1]);
            for (q, six) in kept.zip(angles.chunks(6)) {
                assert!(same(q, six));
            }
            assert!(flags[room..].iter().all(|&flag| flag == 7));
        }
        // Nothing stays: no refusal, even without room.
        (limits[0], limits[1]) = (8.0, 9.0);
        let none = solve::<Rules>(1, 0, &s.arm, &s.pose, &limits, &mut [], &mut []);
        assert_eq!((none.refusal, none.answers), (0, 0));
    }

    #[test]
    fn evaluations_are_those_before_filtering() {
        let s = sample(Kind::Reachable, 6, 3, 0, Some(200));
        let free = limited(6, 200, &s.arm, &s.pose, &[]);
        let mut limits = WIDE;
        (limits[6], limits[7]) = (8.0, 8.0);
        let empty = limited(6, 200, &s.arm, &s.pose, &limits);
        assert!(free.answers > 0 && free.evaluations > 200);
        assert_eq!((empty.refusal, empty.answers), (0, 0));
        assert_eq!(empty.evaluations, free.evaluations);
    }

    fn one(family: u64, n: u64, arm: &[f64], pose: &[f64], limits: &[f64]) -> OneAnswer {
        solve_one::<Rules>(family, n, arm, pose, limits)
    }

    fn alike(one: &Vector6, other: &Vector6) -> bool {
        same(one, &other.iter().collect::<Vec<f64>>())
    }

    /// The refusal, where it has six times +0.0 and flag 0 beside it.
    fn refusal_alone(one: &OneAnswer) -> u32 {
        assert!(one.refusal != 0 && same(&one.angles, &[0.0; 6]) && one.flag == 0);
        one.refusal
    }

    #[test]
    fn one_answer_is_refused_in_the_same_order() {
        let (arm, pose) = ([0.0; 39], [0.0; 12]);
        let mut far = pose;
        far[11] = f64::NAN;
        let refusal = |family, n, arm: &[f64], pose: &[f64], limits: &[f64]| {
            refusal_alone(&one(family, n, arm, pose, limits))
        };
        assert_eq!(refusal(9, 1, &arm[1..], &far[1..], &WIDE[1..]), 10);
        for limits in [&WIDE[..], &[]] {
            assert_eq!(refusal(9, 1, &arm[1..], &far[1..], limits), 4);
            assert_eq!(refusal(3, 1, &arm[1..], &far[1..], limits), 5);
            assert_eq!(refusal(3, 1, &arm, &far[1..], limits), 6);
            assert_eq!(refusal(3, 1, &arm, &far, limits), 7);
            assert_eq!(refusal(3, 0, &arm, &far, limits), 8);
            // Zeros are accepted and have no answer.
            assert_eq!(refusal(3, 0, &arm, &pose, limits), 12);
            assert_eq!(refusal(6, 200, &arm, &pose, limits), 12);
        }
    }

    /// Limits from an answer's own angle on leave that answer and others. Given is the first of these in
    /// the list's order, which is the first that the solve call writes; limits that leave none give 12.
    #[test]
    fn one_answer_is_the_first_of_the_filtered_list() {
        let (mut later, mut flagged) = (0, 0);
        for place in 0..42 {
            let family = 1 + place % 6;
            let s = sample(Kind::Reachable, family, 22, place, Some(7));
            let full = full_list::<Rules>(family, s.n, &s.arm, &s.pose)
                .ok()
                .unwrap();
            let free = one(family, s.n, &s.arm, &s.pose, &[]);
            match full.angles.first() {
                Some(first) => assert!(free.refusal == 0 && alike(first, &free.angles)),
                None => assert_eq!(refusal_alone(&free), 12),
            }
            for joint in [0, 2, 5] {
                for own in &full.angles {
                    let mut limits = WIDE;
                    limits[2 * joint] = own[joint];
                    let given = one(family, s.n, &s.arm, &s.pose, &limits);
                    let first = (0..full.angles.len())
                        .find(|&k| full.angles[k][joint] >= own[joint])
                        .expect("its own answer stays");
                    assert!(given.refusal == 0 && alike(&full.angles[first], &given.angles));
                    assert_eq!(given.flag, full.flags[first] as u8);
                    later += (first > 0) as usize;
                    flagged += given.flag as usize;

                    let (mut angles, mut flags) = ([7.0; 6], [7; 1]);
                    let (angle_list, flag_list) = (&mut angles[..], &mut flags[..]);
                    solve::<Rules>(family, s.n, &s.arm, &s.pose, &limits, angle_list, flag_list);
                    assert!(same(&given.angles, &angles) && [given.flag] == flags);
                }
                let mut limits = WIDE;
                limits[2 * joint] = 8.5;
                let none = one(family, s.n, &s.arm, &s.pose, &limits);
                assert_eq!(refusal_alone(&none), 12);
            }
        }
        assert!(later > 200 && flagged > 100, "{later} {flagged}");
    }

    /// Without limits an answer of NaNs is a member like any other; any limits leave it out.
    #[test]
    fn one_answer_may_be_a_nan_without_limits_alone() {
        let mut seen = 0;
        for place in 0..40 {
            let s = sample(Kind::Degenerate, 5, 2, place, None);
            let full = full_list::<Rules>(5, 0, &s.arm, &s.pose).ok().unwrap();
            if full.angles.is_empty() || !full.angles[0].iter().any(f64::is_nan) {
                continue;
            }
            seen += 1;
            let free = one(5, 0, &s.arm, &s.pose, &[]);
            assert!(free.refusal == 0 && free.angles.iter().any(f64::is_nan));
            let limited = one(5, 0, &s.arm, &s.pose, &WIDE);
            assert!(limited.angles.iter().all(|q| !q.is_nan()));
        }
        assert!(seen > 0);
    }
}
