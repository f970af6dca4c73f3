//! Calls for comparing a library with this program, made from a seed: good ones, and ones with every
//! fault, now and then several. Each call depends on the seed and its place alone.

use crate::{
    arith::Rules,
    block::{self, BLOCK_BYTES},
    calls::{Call, Room},
    generate::{refused_block, sample, spoil_one, wrong_n, Kind, Sample},
    limited,
    limits::{Limits, NUMBERS},
    linalg::Vector6,
    rng::Rng,
    solve::full_list,
};

/// Round poses have answers at zero and at PI.
pub const POSES: [Kind; 9] = [
    Kind::Reachable,
    Kind::Reachable,
    Kind::Unreachable,
    Kind::Bent,
    Kind::Random,
    Kind::Hostile,
    Kind::Degenerate,
    Kind::Round,
    Kind::Round,
];

/// n for family 6: small, for it is the lists and their lengths that are tried here.
const SAMPLE_COUNTS: [u64; 10] = [1, 1, 2, 2, 3, 5, 7, 12, 25, 25];

/// The call at a place of a generated list.
pub fn call(seed: u64, place: u64) -> Call {
    let rng = &mut Rng::of(&[seed, 6, place]);
    let (kind, n) = (rng.pick(&POSES), rng.pick(&SAMPLE_COUNTS));
    let s = sample(kind, 1 + place % 6, seed, place, Some(n));
    match rng.below(8) {
        0 => solve_block(&s, rng),
        1 => limits_block(&s, rng),
        _ => solve(s, rng),
    }
}

/// What a call is asked, before it is lent any list.
pub struct Asked {
    pub family: u64,
    pub n: u64,
    pub arm: Vec<f64>,
    pub pose: Vec<f64>,
}

impl Asked {
    fn of(s: &Sample) -> Self {
        Asked {
            family: s.family,
            n: s.n,
            arm: s.arm.to_vec(),
            pose: s.pose.to_vec(),
        }
    }

    /// Each fault is seldom by itself: about half of the calls have none, and many of the others
    /// several. The lengths are wrong ones for the arm.
    pub fn with_faults(self, arm_lengths: &[usize], rng: &mut Rng) -> Self {
        let Asked {
            mut family,
            mut n,
            mut arm,
            mut pose,
        } = self;
        let right = family;
        if rng.once_in(14) {
            // What would be the family, or another, if only its lowest bits were looked at.
            family = rng.pick(&[0, 7, 8, 255, 256, 256 + family, family << 32, u64::MAX]);
        }
        if rng.once_in(14) {
            let wrong = wrong_n(right, rng);
            n = rng.pick(&[wrong, wrong, n + (1 << 16), n + (1 << 32), u64::MAX]);
        }
        if rng.once_in(14) {
            arm = of_length(&arm, rng.pick(arm_lengths));
        }
        if rng.once_in(14) {
            pose = of_length(&pose, rng.pick(&[0, 1, 11, 11, 13, 13, 24, 39]));
        }
        for list in [&mut arm, &mut pose] {
            if rng.once_in(14) && !list.is_empty() {
                spoil_one(list, rng);
            }
        }
        Asked {
            family,
            n,
            arm,
            pose,
        }
    }

    fn answers(&self) -> Vec<Vector6> {
        answers_of(self.family, self.n, &self.arm, &self.pose)
    }
}

/// Wrong lengths of an arm of 39 numbers.
const ARM_LENGTHS: [usize; 9] = [0, 1, 38, 38, 40, 40, 45, 51, 78];

fn solve(s: Sample, rng: &mut Rng) -> Call {
    let asked = Asked::of(&s).with_faults(&ARM_LENGTHS, rng);
    let answers = asked.answers();
    let limits = lent_limits(&answers, rng);
    let room = room_for(staying(&answers, &limits), 6, rng);
    let Asked {
        family,
        n,
        arm,
        pose,
    } = asked;
    Call::Solve {
        family,
        n,
        arm,
        pose,
        limits,
        room,
    }
}

/// n for one answer in family 6: now and then as large as in use, for the first of a long list.
const ONE_COUNTS: [u64; 12] = [1, 1, 2, 2, 3, 5, 7, 12, 25, 25, 60, 200];

/// Poses whose list has an answer with a NaN before one without, by kind, family and place: limits leave
/// the first out. They are rare, and all of one seed.
const BEHIND_NAN: [(Kind, u64, u64); 14] = [
    (Kind::Hostile, 1, 1712),
    (Kind::Hostile, 1, 2238),
    (Kind::Hostile, 1, 3251),
    (Kind::Hostile, 1, 3530),
    (Kind::Hostile, 2, 682),
    (Kind::Hostile, 2, 1547),
    (Kind::Hostile, 2, 2072),
    (Kind::Hostile, 2, 2946),
    (Kind::Round, 4, 1520),
    (Kind::Round, 5, 95),
    (Kind::Round, 5, 443),
    (Kind::Round, 5, 1240),
    (Kind::Round, 5, 1823),
    (Kind::Round, 5, 2905),
];
const BEHIND_NAN_SEED: u64 = 77;

fn behind_nan(family: u64, rng: &mut Rng) -> Option<Sample> {
    let (kind, own, place) = rng.pick(&BEHIND_NAN);
    (own == family).then(|| sample(kind, family, BEHIND_NAN_SEED, place, None))
}

/// The call for one answer at a place of a generated list.
pub fn one_call(seed: u64, place: u64) -> Call {
    let rng = &mut Rng::of(&[seed, 8, place]);
    let (kind, n) = (rng.pick(&POSES), rng.pick(&ONE_COUNTS));
    let family = 1 + place % 6;
    let s = behind_nan(family, rng)
        .filter(|_| rng.once_in(4))
        .unwrap_or_else(|| sample(kind, family, seed, place, Some(n)));
    let asked = Asked::of(&s).with_faults(&ARM_LENGTHS, rng);
    let limits = lent_limits(&asked.answers(), rng);
    let Asked {
        family,
        n,
        arm,
        pose,
    } = asked;
    Call::SolveOne {
        family,
        n,
        arm,
        pose,
        limits,
    }
}

/// A pose block, good or bad, now and then a limits block, of any length.
fn solve_block(s: &Sample, rng: &mut Rng) -> Call {
    let answers = answers_of(s.family, s.n, &s.arm, &s.pose);
    let block = match rng.below(8) {
        0..=2 => refused_block(s, rng),
        3 => limited::limits_block(&answers, rng),
        _ => block::make(&s.request()),
    };
    let block = cut_or_longer(block, rng);
    let limits = lent_limits(&answers, rng);
    let room = room_for(staying(&answers, &limits), 6, rng);
    Call::SolveBlock {
        block,
        limits,
        room,
    }
}

/// A limits block, good or bad, now and then a pose block, of any length.
fn limits_block(s: &Sample, rng: &mut Rng) -> Call {
    let answers = answers_of(s.family, s.n, &s.arm, &s.pose);
    let block = match rng.below(8) {
        0 => block::make(&s.request()),
        _ => limited::limits_block(&answers, rng),
    };
    let block = cut_or_longer(block, rng);
    Call::LimitsBlock { block }
}

/// The list without any limits; none where the call is refused.
fn answers_of(family: u64, n: u64, arm: &[f64], pose: &[f64]) -> Vec<Vector6> {
    full_list::<Rules>(family, n, arm, pose).map_or(Vec::new(), |list| list.angles)
}

/// The list's numbers again and again, up to a length.
fn of_length(list: &[f64], length: usize) -> Vec<f64> {
    list.iter().copied().cycle().take(length).collect()
}

fn cut_or_longer(block: [u8; BLOCK_BYTES], rng: &mut Rng) -> Vec<u8> {
    let length = match rng.below(8) {
        0 => rng.pick(&[0, 1, 3, 4, 8, 104, 504, 511]),
        1 => rng.pick(&[513, 520, 1023, 1024]),
        _ => BLOCK_BYTES,
    };
    block.into_iter().cycle().take(length).collect()
}

/// Limits for a list of answers: none, good ones, bad ones, and lists of another length.
fn lent_limits(answers: &[Vector6], rng: &mut Rng) -> Vec<f64> {
    let mut numbers = limited::good(answers, rng);
    let (cross, infinite, any_length) = match rng.below(20) {
        0..=3 => return Vec::new(),
        4 => (true, false, false),
        5 => (false, true, false),
        6 => (true, true, rng.once_in(2)),
        7 | 8 => (false, false, true),
        _ => (false, false, false),
    };
    if cross {
        limited::cross(&mut numbers, rng);
    }
    if infinite {
        limited::make_infinite(&mut numbers, rng);
    }
    let length = if any_length {
        let long = rng.pick(&[18, 24, 39, 120, 1200]);
        let short = rng.below(NUMBERS + 3);
        if rng.once_in(6) {
            long
        } else {
            short
        }
    } else {
        NUMBERS
    };
    of_length(&numbers, length)
}

/// How many answers stay, where the limits are not refused.
fn staying(answers: &[Vector6], limits: &[f64]) -> usize {
    match Limits::judge(limits) {
        Ok(Some(limits)) => answers.iter().filter(|q| limits.admit(q)).count(),
        _ => answers.len(),
    }
}

/// Lists for so many answers of some numbers each: enough, just enough, and too short in every way.
pub fn room_for(answers: usize, each: usize, rng: &mut Rng) -> Room {
    let numbers = each * answers;
    let (angles, flags) = match rng.below(12) {
        0..=3 => (
            numbers + each * rng.below(3) + rng.below(each),
            answers + rng.below(4),
        ),
        4 => (numbers, answers),
        5 => (numbers.saturating_sub(each), answers),
        6 => (numbers.saturating_sub(1), answers + 1),
        7 => (numbers + each - 1, answers.saturating_sub(1)),
        8 => (0, 0),
        9 => (rng.below(each), answers),
        10 => (numbers, 0),
        _ => (rng.below(numbers + 8), rng.below(answers + 3)),
    };
    Room { angles, flags }
}

#[cfg(test)]
mod tests {
    use super::*;
    use crate::calls::refusal_of;
    use std::collections::{BTreeMap, BTreeSet};

    const COUNT: u64 = 1500;

    #[test]
    fn the_same_arguments_make_the_same_call() {
        for place in 0..60 {
            let line = call(5, place).to_string();
            assert_eq!(line, call(5, place).to_string());
            assert_ne!(line, call(6, place).to_string());
            assert_ne!(line, call(5, place + 6).to_string());
            assert_eq!(Call::parse(&line).unwrap().to_string(), line);
            let line = one_call(5, place).to_string();
            assert_eq!(line, one_call(5, place).to_string());
            assert_ne!(line, one_call(6, place).to_string());
            assert_ne!(line, one_call(5, place + 6).to_string());
            assert_eq!(Call::parse(&line).unwrap().to_string(), line);
        }
    }

    #[test]
    fn every_refusal_of_every_call_comes() {
        let mut seen: BTreeMap<&str, BTreeMap<u64, usize>> = BTreeMap::new();
        let calls = (0..COUNT).map(|place| call(1, place));
        for call in calls.chain((0..COUNT).map(|place| one_call(1, place))) {
            let refusal = refusal_of(&call.run::<Rules>());
            let counts = seen.entry(call.name()).or_default();
            *counts.entry(refusal).or_default() += 1;
        }
        let refusals = |name: &str| seen[name].keys().copied().collect::<Vec<u64>>();
        assert_eq!(refusals("solve"), [0, 4, 5, 6, 7, 8, 9, 10]);
        assert_eq!(refusals("solve_block"), [0, 1, 2, 3, 4, 7, 8, 9, 10]);
        assert_eq!(refusals("limits_block"), [0, 1, 2, 3, 10]);
        assert_eq!(refusals("solve_one"), [0, 4, 5, 6, 7, 8, 10, 12]);
        for name in ["solve", "solve_one"] {
            let counts = &seen[name];
            assert!(counts.values().all(|&count| count > 20), "{counts:?}");
        }
        let accepted = seen["solve"][&0] + seen["solve"][&9];
        assert!(accepted > COUNT as usize * 3 / 10, "{accepted}");
    }

    /// The refusals that apply to a solve call or to one for one answer, of 10 and 4 to 8.
    fn faults(call: &Call) -> Vec<u64> {
        let (Call::Solve {
            family,
            n,
            arm,
            pose,
            limits,
            ..
        }
        | Call::SolveOne {
            family,
            n,
            arm,
            pose,
            limits,
        }) = call
        else {
            return Vec::new();
        };
        let n_fits = match family {
            6 => (1..=400).contains(n),
            _ => *n == 0,
        };
        let finite = arm.iter().chain(pose).all(|x| x.is_finite());
        [
            (Limits::judge(limits).is_err(), 10),
            (!(1..=6).contains(family), 4),
            (arm.len() != 39, 5),
            (pose.len() != 12, 6),
            (!n_fits, 7),
            (!finite, 8),
        ]
        .into_iter()
        .filter(|(applies, _)| *applies)
        .map(|(_, refusal)| refusal)
        .collect()
    }

    #[test]
    fn several_faults_come_at_once_and_the_first_is_given() {
        for (call, count) in [
            (call as fn(u64, u64) -> Call, 3 * COUNT),
            (one_call, 2 * COUNT),
        ] {
            let mut pairs = BTreeSet::new();
            for place in 0..count {
                let call = call(2, place);
                let faults = faults(&call);
                if let [first, second, ..] = faults[..] {
                    assert_eq!(refusal_of(&call.run::<Rules>()), first);
                    pairs.insert((first, second));
                }
            }
            let neighbours = [(10, 4), (4, 5), (5, 6), (6, 7), (7, 8)];
            for pair in neighbours {
                assert!(pairs.contains(&pair), "{pair:?}: {pairs:?}");
            }
        }
    }

    #[test]
    fn limits_of_every_length_and_sort_come() {
        limits_of_every_sort(call, 3 * COUNT);
        limits_of_every_sort(one_call, 2 * COUNT);
    }

    fn limits_of_every_sort(call: fn(u64, u64) -> Call, count: u64) {
        let (mut lengths, mut sorts) = (BTreeSet::new(), BTreeMap::new());
        for place in 0..count {
            let (Call::Solve { limits, .. } | Call::SolveOne { limits, .. }) = call(3, place)
            else {
                continue;
            };
            lengths.insert(limits.len());
            if limits.len() != NUMBERS {
                continue;
            }
            let joints = || limits.chunks(2).map(|pair| (pair[0], pair[1]));
            let minus_zero = (-0.0f64).to_bits();
            for (sort, has) in [
                ("crossed", joints().any(|(low, high)| low > high)),
                ("equal", joints().any(|(low, high)| low == high)),
                ("-0.0", limits.iter().any(|x| x.to_bits() == minus_zero)),
                ("NaN", limits.iter().any(|x| x.is_nan())),
                ("infinite", limits.iter().any(|x| x.is_infinite())),
                ("wide", joints().all(|(low, high)| high - low >= 6.0)),
            ] {
                *sorts.entry(sort).or_insert(0) += has as usize;
            }
        }
        assert!((0..=14).all(|length| lengths.contains(&length)));
        assert!(lengths.iter().any(|&length| length > 100), "{lengths:?}");
        assert!(sorts.values().all(|&count| count > 20), "{sorts:?}");
    }

    /// Among what is accepted limits leave all, some and none of a list, an answer stays whose own
    /// angle is an end, and the lists are too short in every way.
    #[test]
    fn what_is_accepted_is_of_every_sort() {
        let mut seen = BTreeMap::new();
        for place in 0..COUNT {
            let call = call(4, place);
            let Call::Solve {
                family,
                n,
                ref arm,
                ref pose,
                ref limits,
                room,
            } = call
            else {
                continue;
            };
            if !faults(&call).is_empty() {
                continue;
            }
            assert!(n <= 25);
            let answers = answers_of(family, n, arm, pose);
            let stay = staying(&answers, limits);
            let mut saw = |sort: &'static str, has: bool| {
                *seen.entry(sort).or_insert(0) += has as usize;
            };
            if !limits.is_empty() && !answers.is_empty() {
                saw("all stay", stay == answers.len());
                saw("some stay", 0 < stay && stay < answers.len());
                saw("none stays", stay == 0);
                let judged = Limits::judge(limits).unwrap().unwrap();
                let at_an_end =
                    |q: &Vector6| judged.admit(q) && (0..NUMBERS).any(|i| q[i / 2] == limits[i]);
                saw("at an end", answers.iter().any(at_an_end));
            }
            let (sixes, flags) = (room.angles / 6, room.flags);
            saw("enough", sixes >= stay && flags >= stay);
            saw("just enough", sixes == stay && flags == stay && stay > 0);
            saw("angles short", sixes < stay && flags >= stay);
            saw("flags short", sixes >= stay && flags < stay);
            saw("both short", sixes < stay && flags < stay);
            saw("no list", room.angles == 0 && flags == 0 && stay > 0);
            saw("a part of a six", room.angles % 6 != 0 && sixes < stay);
        }
        assert_eq!(seen.len(), 11);
        assert!(seen.values().all(|&count| count > 15), "{seen:?}");
    }

    /// Among the calls for one answer that are accepted the first inside the limits is the first of the
    /// full list, a later one and the last, with and without its flag; and none stays of a list, or there
    /// is none.
    #[test]
    fn one_answer_is_from_any_place_of_the_full_list() {
        let mut seen = BTreeMap::new();
        for place in 0..2 * COUNT {
            let call = one_call(4, place);
            let Call::SolveOne {
                family,
                n,
                ref arm,
                ref pose,
                ref limits,
            } = call
            else {
                continue;
            };
            if !faults(&call).is_empty() {
                continue;
            }
            let answers = answers_of(family, n, arm, pose);
            let judged = Limits::judge(limits).unwrap();
            let stays = |q: &&Vector6| judged.is_none_or(|limits| limits.admit(q));
            let first = answers.iter().position(|q| stays(&q));
            let result = call.run::<Rules>();
            assert_eq!(first.is_none(), refusal_of(&result) == 12);
            let is_nan = |q: &Vector6| q.iter().any(f64::is_nan);
            for (sort, has) in [
                ("the first", first == Some(0)),
                ("a later one", first.is_some_and(|at| at > 0)),
                (
                    "the last of several",
                    first.is_some_and(|at| at > 0 && at + 1 == answers.len()),
                ),
                ("the tenth or later", first.is_some_and(|at| at >= 9)),
                ("with a NaN", first.is_some_and(|at| is_nan(&answers[at]))),
                (
                    "behind one with a NaN",
                    first.is_some_and(|at| answers[..at].iter().any(is_nan)),
                ),
                ("flagged", result.ends_with(" flag 1")),
                ("unflagged", first.is_some() && result.ends_with(" flag 0")),
                ("none stays", first.is_none() && !answers.is_empty()),
                ("no answer", answers.is_empty()),
                ("no limits", limits.is_empty() && first.is_some()),
                ("no answer, no limits", limits.is_empty() && first.is_none()),
                ("of a long list", first.is_some() && answers.len() > 20),
            ] {
                *seen.entry(sort).or_insert(0) += has as usize;
            }
        }
        assert!(seen.values().all(|&count| count > 5), "{seen:?}");
    }
}
