//! Why the search of family 6 misses the angles that made a pose: the branch of subproblem 6's
//! pair (q6, q4) is followed from the pose's own q1 to the two neighbouring grid points, and what
//! the samples show of it there tells the class.

use crate::{
    arith::Arith,
    generate::Sample,
    inverse_kinematics::{
        auxiliary::{wrap_to_pi, Kinematics},
        TwoParallel,
    },
    linalg::Vector6,
    solve::pose_parts,
};
use std::{f64::consts::PI, fmt, marker::PhantomData};

/// The branch's pair at the pose's own q1 is taken from subproblem 6 within this.
const SAME_PAIR: f64 = 1e-4;
/// The search looks for a dip at samples nearer to zero than this.
const TOUCH: f64 = 0.5;
/// An answer nearer than this is the pose's own angles, found badly.
const NEAR: f64 = 1e-3;

#[derive(Clone, Copy, Debug, PartialEq, Eq, PartialOrd, Ord)]
pub enum Class {
    /// The list has the angles, but not within the tolerance.
    Near,
    /// Subproblem 6 does not give the pair at q1 itself.
    Absent,
    /// The branch ends on both sides before it comes to a grid point.
    Unseen,
    /// It comes to one of the two grid points; at the other one another branch has its number.
    TakenOver,
    /// It comes to one of them; at the other one its number has no value.
    Edge,
    /// It comes to both, under two numbers.
    Renumbered,
    /// It comes to both under one number with one sign, so that it crosses zero twice between
    /// them. Neither sample is near enough to zero to be tried as a dip,
    PairFar,
    /// or one is, but the samples beside it do not make it the bottom of a dip,
    PairSlope,
    /// or a dip was tried there and led elsewhere.
    PairLost,
    /// It comes to both under one number with two signs, and the refined crossing is another one.
    Astray,
}

pub const CLASSES: [(Class, &str); 10] = [
    (Class::Near, "near"),
    (Class::Absent, "absent"),
    (Class::Unseen, "unseen"),
    (Class::TakenOver, "taken-over"),
    (Class::Edge, "edge"),
    (Class::Renumbered, "renumbered"),
    (Class::PairFar, "pair-far"),
    (Class::PairSlope, "pair-slope"),
    (Class::PairLost, "pair-lost"),
    (Class::Astray, "astray"),
];

/// Where a branch comes out when it is followed to a grid point.
#[derive(Clone, Copy, Debug)]
pub enum Reach {
    /// Its number and its error there.
    Comes { component: usize, error: f64 },
    /// The angle where it ends.
    Ends { at: f64 },
}

/// What became of a missed pose.
pub struct Missed {
    pub class: Class,
    /// The grid points k and k + 1 lie around q1.
    pub k: usize,
    /// The branch's number at q1 itself.
    pub component: Option<usize>,
    pub left: Reach,
    pub right: Reach,
}

impl fmt::Display for Reach {
    fn fmt(&self, f: &mut fmt::Formatter) -> fmt::Result {
        match self {
            Reach::Comes { component, error } => {
                write!(f, "component {component} error {error:.3e}")
            }
            Reach::Ends { at } => write!(f, "ends at {at:.9}"),
        }
    }
}

impl fmt::Display for Missed {
    fn fmt(&self, f: &mut fmt::Formatter) -> fmt::Result {
        let name = CLASSES.iter().find(|(class, _)| *class == self.class);
        let own = self.component.map_or("-".to_string(), |i| i.to_string());
        write!(
            f,
            "{} component {own} k {}: {}; k {}: {}",
            name.expect("every class has a name").1,
            self.k,
            self.left,
            self.k + 1,
            self.right
        )
    }
}

/// The largest difference of two answers' angles, modulo TAU.
pub fn distance(answer: &Vector6, angles: &[f64; 6]) -> f64 {
    let pairs = answer.iter().zip(angles);
    pairs.fold(0.0, |most: f64, (a, b)| {
        let apart = wrap_to_pi(a - b).abs();
        if apart <= most {
            most
        } else {
            apart
        }
    })
}

fn apart(a: (f64, f64), b: (f64, f64)) -> f64 {
    let (first, second) = (wrap_to_pi(a.0 - b.0).abs(), wrap_to_pi(a.1 - b.1).abs());
    first.max(second)
}

/// The number of the answer nearest to a pair, its distance, and the next one's.
fn nearest(answers: &[(f64, f64)], pair: (f64, f64)) -> Option<(usize, f64, f64)> {
    let mut best: Option<(usize, f64, f64)> = None;
    for (i, &answer) in answers.iter().enumerate() {
        let d = apart(answer, pair);
        best = match best {
            None => Some((i, d, f64::INFINITY)),
            Some((_, first, _)) if d < first => Some((i, d, first)),
            Some((at, first, second)) => Some((at, first, second.min(d))),
        };
    }
    best
}

/// Where two answers change their places, subproblem 6 may lose both over a tiny stretch: a branch
/// is looked for beyond it before it counts as ended.
const LEAPS: [f64; 3] = [1e-7, 1e-6, 1e-5];

/// Follows a branch from an angle to another one, in steps that keep it apart from the others.
fn follow<A: Arith>(problem: &TwoParallel, from: f64, pair: (f64, f64), goal: f64) -> Reach {
    const SHORTEST: f64 = 1e-9;
    let longest = (goal - from) / 64.0;
    let (mut x, mut pair, mut step, mut leaps) = (from, pair, longest, 0);
    while x != goal {
        let leap = step.abs() < SHORTEST;
        if leap && leaps == LEAPS.len() {
            return Reach::Ends { at: x };
        }
        let size = if leap { LEAPS[leaps] } else { step.abs() };
        let near_goal = (goal - x).abs() <= size;
        let next = if near_goal {
            goal
        } else {
            x + size.copysign(step)
        };
        let answers = problem.pairs::<A>(next);
        let most = if leap { 1e-3 } else { 0.1 };
        match nearest(&answers, pair) {
            Some((i, d, second)) if d < most && 3.0 * d < second => {
                (x, pair, leaps) = (next, answers[i], 0);
                step = (1.5 * size).min(longest.abs()).copysign(step);
            }
            _ if leap => leaps += 1,
            _ => step *= 0.5,
        }
    }
    let (component, ..) = nearest(&problem.pairs::<A>(goal), pair).expect("the pair is there");
    Reach::Comes {
        component,
        error: problem.error::<A>(goal)[component],
    }
}

/// The samples that the search has of a pose.
struct Samples<'a, A: Arith> {
    problem: &'a TwoParallel<'a>,
    n: usize,
    arithmetic: PhantomData<A>,
}

impl<A: Arith> Samples<'_, A> {
    /// The grid points as the search makes them.
    fn angle(&self, k: usize) -> f64 {
        -PI + k as f64 * ((PI - -PI) / self.n as f64)
    }

    /// The grid point before an angle, or the last but one.
    fn before(&self, q1: f64) -> usize {
        let step = (PI - -PI) / self.n as f64;
        (((q1 - -PI) / step) as usize).min(self.n - 1)
    }

    /// A component's value at a grid point, if there is one.
    fn value(&self, k: Option<usize>, component: usize) -> Option<f64> {
        let k = k.filter(|&k| k <= self.n)?;
        let y = self.problem.error::<A>(self.angle(k))[component];
        y.is_finite().then_some(y)
    }

    /// Whether the search takes grid point k or k + 1 for the bottom of a dip that has the stretch
    /// between them in it: the conditions of scan_samples.
    fn dip_is_tried(&self, k: usize, component: usize) -> bool {
        [k, k + 1].into_iter().any(|at| {
            let y1 = self
                .value(Some(at), component)
                .expect("the branch is there");
            let y0 = self.value(at.checked_sub(1), component);
            let y2 = self.value(Some(at + 1), component);
            let one_sign = |y: f64| (y < 0.0) == (y1 < 0.0);
            y1.abs() < TOUCH
                && match (y0, y2) {
                    (Some(y0), Some(y2)) => {
                        y1.abs() <= y0.abs() && y1.abs() < y2.abs() && one_sign(y0) && one_sign(y2)
                    }
                    (Some(y0), None) => at == k + 1 && y1.abs() <= y0.abs(),
                    (None, Some(y2)) => at == k && y1.abs() <= y2.abs(),
                    (None, None) => false,
                }
        })
    }

    fn class_of(&self, k: usize, left: Reach, right: Reach) -> Class {
        use Reach::*;
        match (left, right) {
            (Ends { .. }, Ends { .. }) => Class::Unseen,
            (Comes { component, .. }, Ends { .. }) => self.half_seen(k + 1, component),
            (Ends { .. }, Comes { component, .. }) => self.half_seen(k, component),
            (Comes { component: i, .. }, Comes { component: j, .. }) if i != j => Class::Renumbered,
            (Comes { error: a, .. }, Comes { error: b, .. }) if (a < 0.0) != (b < 0.0) => {
                Class::Astray
            }
            (Comes { error: a, .. }, Comes { error: b, .. }) if a.abs().min(b.abs()) >= TOUCH => {
                Class::PairFar
            }
            (Comes { component, .. }, _) if self.dip_is_tried(k, component) => Class::PairLost,
            _ => Class::PairSlope,
        }
    }

    /// A branch that does not come to grid point `other`, by what its number has there.
    fn half_seen(&self, other: usize, component: usize) -> Class {
        match self.value(Some(other), component) {
            Some(_) => Class::TakenOver,
            None => Class::Edge,
        }
    }
}

/// Tells why a pose's own angles are not in its list of answers.
pub fn explain<A: Arith>(sample: &Sample, answers: &[Vector6]) -> Missed {
    let (r, p) = pose_parts(&sample.pose);
    let kin = Kinematics::from_arm(&sample.arm);
    let problem = TwoParallel::new(&r, &p, &kin);
    let [q1, _, _, q4, _, q6] = sample.angles;

    let samples = Samples::<A> {
        problem: &problem,
        n: sample.n as usize,
        arithmetic: PhantomData,
    };
    let k = samples.before(q1);

    let own = nearest(&problem.pairs::<A>(q1), (q6, q4)).filter(|own| own.1 < SAME_PAIR);
    let [left, right] = match own {
        Some(_) => [k, k + 1].map(|k| follow::<A>(&problem, q1, (q6, q4), samples.angle(k))),
        None => [Reach::Ends { at: q1 }; 2],
    };
    let class = if answers.iter().any(|a| distance(a, &sample.angles) < NEAR) {
        Class::Near
    } else if own.is_none() {
        Class::Absent
    } else {
        samples.class_of(k, left, right)
    };
    Missed {
        class,
        k,
        component: own.map(|own| own.0),
        left,
        right,
    }
}

#[cfg(test)]
mod tests {
    use super::*;
    use crate::{
        arith::Rules,
        generate::Kind,
        recover::{recover, By},
        Generated,
    };

    /// A branch that is said to end has an answer just before that angle, and the next angles
    /// behind it have two answers less than the angles before it.
    #[test]
    fn branches_end_where_two_answers_vanish() {
        let mut ends = 0;
        let request = Generated {
            kind: Kind::Reachable,
            family: 6,
            seed: 8,
            count: 300,
            n: Some(25),
        };
        recover::<Rules>(&request, By::Nothing, |place, s, missed| {
            let ((r, p), kin) = (pose_parts(&s.pose), Kinematics::from_arm(&s.arm));
            let problem = TwoParallel::new(&r, &p, &kin);
            for (reach, away) in [(missed.left, -1e-6), (missed.right, 1e-6)] {
                if let (Reach::Ends { at }, Some(_)) = (reach, missed.component) {
                    let answers = |x: f64| problem.pairs::<Rules>(x).len();
                    assert_eq!(answers(at), answers(at + away) + 2, "place {place}");
                    ends += 1;
                }
            }
        });
        assert!(ends > 20);
    }
}
