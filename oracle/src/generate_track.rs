//! Calls for an arm on a track, made from a seed: good ones, and ones with every fault, now and then
//! several. Each call depends on the seed and its place alone.

use crate::{
    arith::Rules,
    calls::{Call, Room},
    generate_calls::{room_for, Asked, POSES},
    odd::nudged,
    rng::Rng,
    solve::Outcome,
    track::{solve_track, Lock, JOINTS},
    tracks::{make_hostile, of_kind},
};

/// n for family 6: small, but for a few, since the reduced arm's evaluations are to be as many too.
const SAMPLE_COUNTS: [u64; 12] = [1, 1, 2, 2, 3, 5, 7, 12, 25, 25, 60, 200];

/// Wrong lengths of an arm of 45 numbers, that of a six-axis arm among them.
const ARM_LENGTHS: [usize; 10] = [0, 1, 39, 39, 44, 44, 46, 46, 57, 90];

/// What a call is given; the lists that it is lent go by its answers.
struct Given {
    family: u64,
    n: u64,
    arm: Vec<f64>,
    lock: Lock,
    pose: Vec<f64>,
}

/// The call at a place of a generated list.
pub fn call(seed: u64, place: u64) -> Call {
    let rng = &mut Rng::of(&[seed, 7, place]);
    let given = given(seed, place, rng);
    let full = given.solve(&mut [], &mut []);
    let room = lent_room(full.answers, rng);
    let Given {
        family,
        n,
        arm,
        lock,
        pose,
    } = given;
    Call::SolveTrack {
        family,
        n,
        arm,
        lock,
        pose,
        room,
    }
}

impl Given {
    fn solve(&self, angles: &mut [f64], flags: &mut [u8]) -> Outcome {
        let (arm, pose) = (&self.arm, &self.pose);
        solve_track::<Rules>(self.family, self.n, arm, self.lock, pose, angles, flags)
    }
}

fn given(seed: u64, place: u64, rng: &mut Rng) -> Given {
    let (kind, n) = (rng.pick(&POSES), rng.pick(&SAMPLE_COUNTS));
    let mut track = of_kind(kind, seed, place, n, rng);
    if rng.once_in(4) {
        make_hostile(&mut track, rng);
    }
    let asked = Asked {
        family: track.family,
        n: track.n,
        arm: track.arm.to_vec(),
        pose: track.pose.to_vec(),
    };
    let Asked {
        family,
        n,
        arm,
        pose,
    } = asked.with_faults(&ARM_LENGTHS, rng);
    let mut lock = Lock {
        joint: track.joint as u64,
        angle: track.angle,
    };
    spoil_lock(&mut lock, rng);
    Given {
        family,
        n,
        arm,
        lock,
        pose,
    }
}

/// Seldom a joint above 6, also such as would be right if only its lowest bits were looked at, and seldom
/// an angle that is not finite.
fn spoil_lock(lock: &mut Lock, rng: &mut Rng) {
    let joint = lock.joint;
    if rng.once_in(14) {
        let (near, far) = (
            rng.pick(&[7, 7, 8, 9]),
            rng.pick(&[1 << 32, 1 << 63, u64::MAX]),
        );
        let low_bits = rng.pick(&[
            8 + joint,
            256 + joint,
            (1 << 32) + joint,
            joint << 32 | 1 << 40,
        ]);
        lock.joint = rng.pick(&[near, far, low_bits]);
    }
    if rng.once_in(14) {
        let nan = rng.pick(&[f64::NAN, -f64::NAN, nudged(f64::INFINITY, 1)]);
        lock.angle = rng.pick(&[nan, f64::INFINITY, f64::NEG_INFINITY]);
    }
}

/// As for a solve, by sevens; now and then whole sixes for all answers but not whole sevens.
fn lent_room(answers: usize, rng: &mut Rng) -> Room {
    if answers > 0 && rng.once_in(12) {
        return Room {
            angles: 6 * answers + rng.below(answers),
            flags: answers + rng.below(2),
        };
    }
    room_for(answers, JOINTS, rng)
}

#[cfg(test)]
mod tests {
    use super::*;
    use crate::{
        calls::refusal_of,
        track::{Reduced, TrackArm},
    };
    use std::collections::{BTreeMap, BTreeSet};

    const COUNT: u64 = 2100;

    fn given_at(seed: u64, place: u64) -> Given {
        given(seed, place, &mut Rng::of(&[seed, 7, place]))
    }

    impl Given {
        /// Which of the refusals 4 to 8 and 11 apply to what is given, in the order of checking.
        fn faults(&self) -> Vec<u32> {
            let n_fits = match self.family {
                6 => (1..=400).contains(&self.n),
                _ => self.n == 0,
            };
            let locked = self.lock.joint <= 6 && self.lock.angle.is_finite();
            let finite = self.arm.iter().chain(&self.pose).all(|x| x.is_finite());
            [
                (!(1..=6).contains(&self.family), 4),
                (self.arm.len() != 45, 5),
                (self.pose.len() != 12, 6),
                (!locked, 11),
                (!n_fits, 7),
                (!finite, 8),
            ]
            .into_iter()
            .filter(|(applies, _)| *applies)
            .map(|(_, refusal)| refusal)
            .collect()
        }

        /// The arm and pose that are handed on, where the lengths and the lock are right: 39 numbers of
        /// the arm, nine of the rotation.
        fn handed_on(&self) -> Option<Vec<f64>> {
            if self.lock.joint > 6 || !self.lock.angle.is_finite() {
                return None;
            }
            let arm: &TrackArm = self.arm[..].try_into().ok()?;
            let pose = self.pose[..].try_into().ok()?;
            let joint = self.lock.joint as usize;
            let reduced = Reduced::new::<Rules>(arm, joint, self.lock.angle, pose);
            let rotation = reduced.pose[..9].iter().copied();
            Some(reduced.kin.numbers().chain(rotation).collect())
        }
    }

    #[test]
    fn the_same_arguments_make_the_same_call() {
        for place in 0..84 {
            let line = call(5, place).to_string();
            assert_eq!(line, call(5, place).to_string());
            assert_ne!(line, call(6, place).to_string());
            assert_ne!(line, call(5, place + 42).to_string());
            assert_eq!(Call::parse(&line).unwrap().to_string(), line);
        }
    }

    /// Each refusal often, and answers behind every joint in every family.
    #[test]
    fn every_refusal_joint_and_family_comes() {
        let (mut refusals, mut solved) = (BTreeMap::new(), BTreeMap::new());
        for place in 0..COUNT {
            let result = call(1, place).run::<Rules>();
            let refusal = refusal_of(&result);
            *refusals.entry(refusal).or_insert(0) += 1;
            if matches!(refusal, 0 | 9) && !result.contains(" answers 0 ") {
                let given = given_at(1, place);
                let key = (given.family, given.lock.joint);
                *solved.entry(key).or_insert(0) += 1;
            }
        }
        let seen: Vec<u64> = refusals.keys().copied().collect();
        assert_eq!(seen, [0, 4, 5, 6, 7, 8, 9, 11]);
        assert!(refusals.values().all(|&count| count > 60), "{refusals:?}");
        let accepted = refusals[&0] + refusals[&9];
        assert!(accepted > COUNT as usize * 4 / 10, "{accepted}");
        assert_eq!(solved.len(), 42, "{solved:?}");
        assert!(solved.values().all(|&count| count >= 4), "{solved:?}");
    }

    #[test]
    fn several_faults_come_at_once_and_the_first_is_given() {
        let mut pairs = BTreeSet::new();
        for place in 0..3 * COUNT {
            let given = given_at(2, place);
            let faults = given.faults();
            if let Some(&first) = faults.first() {
                let outcome = given.solve(&mut [0.0; 7], &mut [0; 1]);
                assert_eq!(outcome, Outcome::refused(first), "place {place}");
            }
            if let [first, second, ..] = faults[..] {
                pairs.insert((first, second));
            }
        }
        for pair in [(4, 5), (5, 6), (6, 11), (11, 7), (7, 8)] {
            assert!(pairs.contains(&pair), "{pair:?}: {pairs:?}");
        }
    }

    /// A number that is not finite comes alone at each of the 45 and 12 places that are given and at each
    /// of the 39 and 9 that are handed on, an infinity and a NaN.
    #[test]
    fn every_place_has_its_fault() {
        let (mut given, mut handed_on) = (BTreeSet::new(), BTreeSet::new());
        let mut none_finite = 0;
        let alone = |numbers: &mut dyn Iterator<Item = f64>| {
            let bad: Vec<usize> = numbers
                .enumerate()
                .filter(|(_, x)| !x.is_finite())
                .map(|(at, _)| at)
                .collect();
            (bad.len() == 1).then(|| bad[0])
        };
        for place in 0..8 * COUNT {
            let asked = given_at(3, place);
            match asked.faults()[..] {
                [8] => {
                    let numbers = &mut asked.arm.iter().chain(&asked.pose).copied();
                    given.extend(alone(numbers));
                }
                [] => {
                    let numbers = asked.handed_on().expect("no fault");
                    handed_on.extend(alone(&mut numbers.iter().copied()));
                    none_finite += numbers[39..].iter().all(|x| x.is_nan()) as usize;
                }
                _ => {}
            }
        }
        assert!((0..57).all(|at| given.contains(&at)), "{given:?}");
        assert!((0..48).all(|at| handed_on.contains(&at)), "{handed_on:?}");
        assert!(none_finite > 50, "{none_finite}");
    }

    #[test]
    fn locks_of_every_sort_come() {
        let mut seen = BTreeMap::new();
        for place in 0..3 * COUNT {
            let Lock { joint, angle } = given_at(4, place).lock;
            for (sort, has) in [
                ("7", joint == 7),
                ("8", joint == 8),
                ("2^32", joint == 1 << 32),
                ("2^64 - 1", joint == u64::MAX),
                ("right in its low bits", joint > 6 && joint as u32 <= 6),
                ("right in its low byte", joint > 6 && joint as u8 <= 6),
                ("NaN", angle.is_nan()),
                ("infinite", angle == f64::INFINITY),
                ("minus infinite", angle == f64::NEG_INFINITY),
                ("0.0", angle.to_bits() == 0),
                ("-0.0", angle.to_bits() == 1 << 63),
                ("more than a turn", angle.is_finite() && angle.abs() > 7.0),
                ("beyond 2^53", angle.is_finite() && angle.abs() > 1e16),
                ("above 1e300", angle.is_finite() && angle.abs() > 1e300),
                ("subnormal", angle.is_subnormal()),
            ] {
                *seen.entry(sort).or_insert(0) += has as usize;
            }
        }
        assert!(seen.values().all(|&count| count > 10), "{seen:?}");
    }

    /// The lists are long enough, just so, and too short in every way.
    #[test]
    fn rooms_of_every_sort_come() {
        let mut seen = BTreeMap::new();
        for place in 0..COUNT {
            let call = call(6, place);
            let result = call.run::<Rules>();
            let Call::SolveTrack { room, .. } = call else {
                panic!("another call");
            };
            if !matches!(refusal_of(&result), 0 | 9) {
                continue;
            }
            let answers: usize = result.split(' ').nth(4).unwrap().parse().unwrap();
            let Room { angles, flags } = room;
            let sevens = angles / 7;
            let short = sevens < answers;
            for (sort, has) in [
                ("no answer", answers == 0),
                ("enough", !short && flags >= answers),
                (
                    "just enough",
                    sevens == answers && flags == answers && answers > 0,
                ),
                ("angles short", short && flags >= answers),
                ("flags short", !short && flags < answers),
                ("both short", short && flags < answers),
                ("one short", angles + 1 == 7 * answers && flags >= answers),
                ("no list", angles == 0 && flags == 0 && answers > 0),
                ("a part of a seven", angles % 7 != 0 && short),
                (
                    "sixes enough",
                    short && angles / 6 >= answers && flags >= answers,
                ),
            ] {
                *seen.entry(sort).or_insert(0) += has as usize;
            }
        }
        assert!(seen.values().all(|&count| count > 15), "{seen:?}");
    }
}
