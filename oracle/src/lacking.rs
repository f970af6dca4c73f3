//! How many lists lack an answer of their pose. Beside each list stand the answers that a descent of
//! another kind finds, damped Gauss-Newton on all six angles from random ones, which knows nothing of
//! the families.
//!
//! Singular answers, where two lie close or there are infinitely many, are left out: an angle there is
//! known to no better than 1e-6.

use crate::{
    arith::{Arith, Machine},
    generate::{sample, Sample},
    inverse_kinematics::auxiliary::{wrap_to_pi, Kinematics},
    linalg::{Matrix3, Vector3, Vector6},
    missed::distance,
    rng::Rng,
    solve::{family_answers, pose_parts},
    subproblems::auxiliary::rot,
    Generated,
};
use std::f64::consts::PI;

/// Random angles to start from, for each pose, and the most steps from each.
const STARTS: usize = 4000;
const STEPS: usize = 40;
/// The damping is this times the square that is left, plus the least.
const DAMPING: f64 = 0.003;
const LEAST: f64 = 1e-18;
/// An answer makes its pose with the squares of all differences below this, lengths relative to the
/// sum of the offsets' entries.
const MAKES: f64 = 1e-18;
/// Below this square of the Jacobian's determinant an answer is singular.
const SINGULAR: f64 = 1e-12;
/// Two answers are one where no angle differs by more, modulo TAU.
const SAME: f64 = 1e-4;

struct Goal<'a> {
    kin: &'a Kinematics,
    rotation: Matrix3,
    place: Vector3,
    reach: f64,
}

/// Rows: three of turning, three of moving; columns: the joints.
struct State {
    jacobian: [[f64; 6]; 6],
    residual: [f64; 6],
    square: f64,
}

fn state(goal: &Goal, angles: &[f64; 6]) -> State {
    let kin = goal.kin;
    let mut p: Vector3 = kin.p.column(0);
    let mut r = Matrix3::identity();
    let mut joints = [(Vector3::zeros(), Vector3::zeros()); 6];
    for (i, joint) in joints.iter_mut().enumerate() {
        *joint = (r * kin.h.column(i).normalize(), p);
        r *= rot::<Machine>(&kin.h.column(i), angles[i]);
        p += r * kin.p.column(i + 1);
    }
    let mut jacobian = [[0.0; 6]; 6];
    for (i, (axis, at)) in joints.iter().enumerate() {
        let moved = axis.cross(&(p - *at)) / goal.reach;
        for k in 0..3 {
            jacobian[k][i] = axis[k];
            jacobian[3 + k][i] = moved[k];
        }
    }
    let turned = |j| r.column(j).cross(&goal.rotation.column(j));
    let turn = (turned(0) + turned(1) + turned(2)) * 0.5;
    let moved = (goal.place - p) / goal.reach;
    State {
        jacobian,
        residual: [turn[0], turn[1], turn[2], moved[0], moved[1], moved[2]],
        square: (r - goal.rotation).norm_squared() + moved.norm_squared(),
    }
}

/// (J'J + damping) x = J'e by L D L'. Gives x and the product of D.
fn step(s: &State, damping: f64) -> ([f64; 6], f64) {
    let (j, mut m, mut x) = (&s.jacobian, [[0.0; 6]; 6], [0.0; 6]);
    for a in 0..6 {
        for b in 0..=a {
            m[a][b] = (0..6).map(|k| j[k][a] * j[k][b]).sum();
        }
        m[a][a] += damping;
        x[a] = (0..6).map(|k| j[k][a] * s.residual[k]).sum();
    }
    for c in 0..6 {
        for k in 0..c {
            let w = m[c][k] * m[k][k];
            for row in &mut m[c..] {
                row[c] -= row[k] * w;
            }
        }
        for a in c + 1..6 {
            m[a][c] /= m[c][c];
        }
    }
    for a in 0..6 {
        x[a] -= (0..a).map(|k| m[a][k] * x[k]).sum::<f64>();
    }
    for a in (0..6).rev() {
        x[a] = x[a] / m[a][a] - (a + 1..6).map(|k| m[k][a] * x[k]).sum::<f64>();
    }
    (x, (0..6).map(|a| m[a][a]).product())
}

/// Where the descent from these angles ends, if it makes the pose there and is not singular.
fn descend(goal: &Goal, mut angles: [f64; 6]) -> Option<[f64; 6]> {
    let mut s = state(goal, &angles);
    for _ in 0..STEPS {
        if s.square <= 1e-26 {
            break;
        }
        let (x, _) = step(&s, DAMPING * s.square + LEAST);
        for (angle, d) in angles.iter_mut().zip(x) {
            *angle = wrap_to_pi(*angle + d);
        }
        s = state(goal, &angles);
    }
    let (_, determinant) = step(&s, 0.0);
    (s.square <= MAKES && determinant > SINGULAR).then_some(angles)
}

fn put(found: &mut Vec<[f64; 6]>, angles: [f64; 6]) {
    if !has(found, &angles) {
        found.push(angles);
    }
}

fn has(found: &[[f64; 6]], angles: &[f64; 6]) -> bool {
    let of = |q: &[f64; 6]| Vector6::new(q[0], q[1], q[2], q[3], q[4], q[5]);
    found.iter().any(|q| distance(&of(q), angles) <= SAME)
}

#[derive(Default)]
pub struct Lacking {
    pub poses: u64,
    /// Answers of the list and of the descent together.
    pub answers: u64,
    /// Answers that the list has and the descent did not find: how complete it is.
    pub unfound: u64,
    /// Answers that the lists lack, and the lists that lack one.
    pub lacking: u64,
    pub lists: u64,
    /// The first pose whose list lacks one.
    pub first: Option<u64>,
}

impl Lacking {
    fn look<A: Arith>(&mut self, sample: &Sample, place: u64, rng: &mut Rng) {
        let kin = &Kinematics::from_arm(&sample.arm);
        let (rotation, p) = pose_parts(&sample.pose);
        let reach = sample.arm[18..].iter().map(|x| x.abs()).sum();
        let goal = Goal {
            kin,
            rotation,
            place: p,
            reach,
        };
        let list = family_answers::<A>(sample.family, sample.n as usize, kin, &sample.pose);
        let (mut listed, mut found) = (Vec::new(), Vec::new());
        for (answer, _) in list
            .angles
            .iter()
            .zip(&list.flags)
            .filter(|(_, &flag)| !flag)
        {
            let angles = std::array::from_fn(|i| answer[i]);
            if let Some(angles) = descend(&goal, angles) {
                put(&mut listed, angles);
            }
        }
        for _ in 0..STARTS {
            let start = std::array::from_fn(|_| rng.between(-PI, PI));
            if let Some(angles) = descend(&goal, start) {
                put(&mut found, angles);
            }
        }
        let lacking = found.iter().filter(|q| !has(&listed, q)).count() as u64;
        self.poses += 1;
        self.answers += listed.len() as u64 + lacking;
        self.unfound += listed.iter().filter(|q| !has(&found, q)).count() as u64;
        self.lacking += lacking;
        if lacking > 0 {
            self.lists += 1;
            self.first.get_or_insert(place);
        }
    }
}

pub fn lacking<A: Arith>(request: &Generated) -> Lacking {
    let mut counts = Lacking::default();
    for place in 0..request.count {
        let n = Some(request.n.unwrap_or(200));
        let pose = sample(request.kind, request.family, request.seed, place, n);
        let rng = &mut Rng::of(&[request.seed, place, STARTS as u64]);
        counts.look::<A>(&pose, place, rng);
    }
    counts
}
