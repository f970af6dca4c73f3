//! How many reachable poses have the angles that made them among their answers.

use crate::{
    arith::{Arith, Rules},
    block::for_each_block,
    errors::two_parallel_request,
    generate::{sample, Sample},
    inverse_kinematics::auxiliary::Kinematics,
    linalg::Vector6,
    missed::{distance, explain, Missed},
    solve::{family_answers, Answers, TWO_PARALLEL},
    subproblems::auxiliary::rot,
    Generated,
};
use std::collections::BTreeMap;
use std::io::{self, Read, Write};

/// Two angles are alike within this, modulo TAU.
pub const TOLERANCE: f64 = 1e-6;

#[derive(Clone, Default)]
pub struct Recovered {
    pub poses: u64,
    /// Found in an answer without the flag.
    pub unflagged: u64,
    /// Found in flagged answers alone.
    pub flagged: u64,
    pub answers: u64,
    /// Of these the flagged ones.
    pub flagged_answers: u64,
    /// Unflagged answers that do not make the pose.
    pub untrue: u64,
    /// Flagged answers that do.
    pub flagged_true: u64,
    pub evaluations: u64,
}

impl Recovered {
    pub fn missed(&self) -> u64 {
        self.poses - self.unflagged - self.flagged
    }

    /// Counts a pose's list; whether the pose's own angles are in it.
    fn count(&mut self, sample: &Sample, list: &Answers) -> bool {
        let found = |flag: bool| {
            let mut answers = list.angles.iter().zip(&list.flags);
            answers.any(|(answer, &f)| f == flag && distance(answer, &sample.angles) <= TOLERANCE)
        };
        self.poses += 1;
        self.evaluations += list.evaluations;
        self.count_answers(sample, list);
        if found(false) {
            self.unflagged += 1;
        } else if found(true) {
            self.flagged += 1;
        } else {
            return false;
        }
        true
    }

    fn count_answers(&mut self, sample: &Sample, list: &Answers) {
        for (answer, &flag) in list.angles.iter().zip(&list.flags) {
            let makes = makes_pose(sample, answer);
            self.answers += 1;
            self.flagged_answers += flag as u64;
            self.untrue += (!flag && !makes) as u64;
            self.flagged_true += (flag && makes) as u64;
        }
    }
}

/// Whether an answer's pose is the sample's: the rotation's entries, and the place relative to the
/// sum of the offsets' entries.
pub fn makes_pose(sample: &Sample, answer: &Vector6) -> bool {
    let (r, p) = Kinematics::from_arm(&sample.arm).forward_kinematics::<Rules>(answer);
    let reach: f64 = sample.arm[18..].iter().map(|x| x.abs()).sum();
    let (rotation, place) = sample.pose.split_at(9);
    let turned = r.by_rows().zip(rotation);
    let moved = p.iter().zip(place);
    turned.into_iter().all(|(a, b)| (a - b).abs() <= TOLERANCE)
        && moved
            .into_iter()
            .all(|(a, b)| (a - b).abs() <= TOLERANCE * reach)
}

/// The angle between axes 2 and 5 in a pose, in degrees from 0 to 90.
fn tilt(sample: &Sample) -> f64 {
    let kin = Kinematics::from_arm(&sample.arm);
    let (h2, h5) = (kin.h.column(1), kin.h.column(4));
    let turned = rot::<Rules>(&kin.h.column(3), sample.angles[3]) * h5;
    let across = h2.cross(&turned).norm();
    across.atan2(h2.dot(&turned).abs()).to_degrees()
}

/// How near the nearest answer is to the angles that made the pose. A NaN is near to nothing.
fn nearest(sample: &Sample, list: &Answers) -> &'static str {
    let within = |most: f64| {
        let mut answers = list.angles.iter();
        answers.any(|answer| distance(answer, &sample.angles) <= most)
    };
    if list.angles.is_empty() {
        "no-answer"
    } else if within(TOLERANCE) {
        "nearest-to-1e-6"
    } else if within(1e-3) {
        "nearest-to-1e-3"
    } else {
        "nearest-further"
    }
}

/// What poses are counted apart by.
#[derive(Clone, Copy, PartialEq, Eq)]
pub enum By {
    Nothing,
    Arm,
    Tilt,
    Distance,
}

impl By {
    /// A pose's group; groups are listed in the order of their names.
    fn group(self, sample: &Sample, list: &Answers) -> Option<String> {
        const DEGREES: [f64; 6] = [0.3, 1.0, 3.0, 10.0, 30.0, 90.0];
        match self {
            By::Nothing => None,
            By::Arm => Some(sample.arm_name.to_string()),
            By::Tilt => {
                let tilt = tilt(sample);
                let most = DEGREES.into_iter().find(|&most| tilt <= most);
                most.map(|most| format!("tilt-to-{most:04.1}"))
            }
            By::Distance => Some(nearest(sample, list).to_string()),
        }
    }
}

/// The counts of all poses, and of each group.
#[derive(Default)]
pub struct Counts {
    pub all: Recovered,
    pub groups: BTreeMap<String, Recovered>,
}

/// Counts the poses of a generated list. In family 6 `each` is given every missed one.
pub fn recover<A: Arith>(
    request: &Generated,
    by: By,
    mut each: impl FnMut(u64, &Sample, Missed),
) -> Counts {
    let mut counts = Counts::default();
    let n = Some(request.n.unwrap_or(200));
    for place in 0..request.count {
        let sample = sample(request.kind, request.family, request.seed, place, n);
        let kin = Kinematics::from_arm(&sample.arm);
        let list = family_answers::<A>(sample.family, sample.n as usize, &kin, &sample.pose);
        if let Some(group) = by.group(&sample, &list) {
            let own = counts.groups.entry(group).or_default();
            own.count(&sample, &list);
        }
        if !counts.all.count(&sample, &list) && sample.family == TWO_PARALLEL {
            each(place, &sample, explain::<A>(&sample, &list.angles));
        }
    }
    counts
}

/// One line for each block: whether the angles that made its pose are among its answers, and if
/// not, why. A block that is refused or not of family 6 has neither.
pub fn print_reasons<A: Arith>(
    input: &mut impl Read,
    output: &mut impl Write,
    angles: [f64; 6],
) -> io::Result<()> {
    for_each_block(input, |block| {
        let place = block.place;
        let Some(request) = two_parallel_request(block.request) else {
            return writeln!(output, "block {place} -");
        };
        let sample = Sample {
            family: request.family,
            n: request.n,
            arm: request.arm,
            arm_name: "given",
            pose: request.pose,
            angles,
        };
        let kin = Kinematics::from_arm(&sample.arm);
        let list = family_answers::<A>(sample.family, sample.n as usize, &kin, &sample.pose);
        if Recovered::default().count(&sample, &list) {
            return writeln!(output, "block {place} found");
        }
        let why = explain::<A>(&sample, &list.angles);
        writeln!(output, "block {place} {why}")
    })
}
