//! How far the answers under document 01's rules lie from those under the machine's functions.
//!
//! The two lists of a pose are compared place by place where they have the same length and flags.
//! An answer is singular where the determinant of the arm's Jacobian there, with lengths taken
//! relative to the arm's, is below a bound: there a difference in a last place is amplified.

use crate::{
    arith::{Machine, Rules},
    generate::{sample, Kind, Sample},
    inverse_kinematics::auxiliary::{wrap_to_pi, Kinematics},
    linalg::{Matrix3, Vector3, Vector6},
    solve::family_answers,
    subproblems::auxiliary::rot,
};

/// Below this determinant an answer counts as singular.
const SINGULAR: f64 = 1e-4;

/// The largest difference of an angle, in radians, and the place of the pose that shows it.
#[derive(Default, Clone, Copy)]
pub struct Largest {
    pub answers: u64,
    pub difference: f64,
    pub place: u64,
}

impl Largest {
    pub fn note(&mut self, difference: f64, place: u64) {
        self.answers += 1;
        if difference > self.difference {
            self.difference = difference;
            self.place = place;
        }
    }
}

#[derive(Default)]
pub struct Difference {
    pub poses: u64,
    /// Lists that differ in length or in a flag, and the first pose with such a list.
    pub lists: u64,
    pub first_list: Option<u64>,
    pub regular: Largest,
    pub singular: Largest,
    pub flagged: Largest,
}

/// Modulo TAU; 0 where both are NaN, infinite where one is.
pub fn apart(a: &Vector6, b: &Vector6) -> f64 {
    let one = |(x, y): (f64, f64)| match (x.is_nan(), y.is_nan()) {
        (true, true) => 0.0,
        (false, false) => wrap_to_pi(x - y).abs(),
        _ => f64::INFINITY,
    };
    a.iter().zip(b.iter()).map(one).fold(0.0, f64::max)
}

/// The determinant of the six columns (axis × lever, axis), by elimination.
fn determinant(mut m: [[f64; 6]; 6]) -> f64 {
    let mut product = 1.0;
    for k in 0..6 {
        let pivot = (k..6).max_by(|&i, &j| m[i][k].abs().total_cmp(&m[j][k].abs()));
        let pivot = pivot.expect("k is below 6");
        m.swap(k, pivot);
        if m[k][k] == 0.0 {
            return 0.0;
        }
        product *= m[k][k];
        for i in k + 1..6 {
            let factor = m[i][k] / m[k][k];
            for j in k..6 {
                m[i][j] -= factor * m[k][j];
            }
        }
    }
    product.abs()
}

pub fn is_singular(kin: &Kinematics, angles: &Vector6) -> bool {
    let length: f64 = (0..7).map(|i| kin.p.column(i).norm()).sum();
    let mut r = Matrix3::identity();
    let mut at: Vector3 = kin.p.column(0);
    let mut joints = Vec::with_capacity(6);
    for (i, angle) in angles.iter().enumerate() {
        let axis = r * kin.h.column(i).normalize();
        joints.push((axis, at));
        r *= rot::<Machine>(&kin.h.column(i), angle);
        at += r * kin.p.column(i + 1);
    }
    let mut rows = [[0.0; 6]; 6];
    for (row, (axis, joint)) in rows.iter_mut().zip(&joints) {
        let lever = axis.cross(&(at - *joint));
        for (slot, x) in row.iter_mut().zip(lever.iter()) {
            *slot = x / length;
        }
        for (slot, x) in row[3..].iter_mut().zip(axis.iter()) {
            *slot = x;
        }
    }
    let size = determinant(rows);
    size.is_nan() || size < SINGULAR
}

fn look(sample: &Sample, place: u64, found: &mut Difference) {
    let kin = Kinematics::from_arm(&sample.arm);
    let n = sample.n as usize;
    let rules = family_answers::<Rules>(sample.family, n, &kin, &sample.pose);
    let machine = family_answers::<Machine>(sample.family, n, &kin, &sample.pose);
    found.poses += 1;
    if rules.flags != machine.flags {
        found.lists += 1;
        found.first_list.get_or_insert(place);
        return;
    }
    for ((a, b), &flag) in rules.angles.iter().zip(&machine.angles).zip(&rules.flags) {
        let class = if flag {
            &mut found.flagged
        } else if is_singular(&kin, a) {
            &mut found.singular
        } else {
            &mut found.regular
        };
        class.note(apart(a, b), place);
    }
}

pub fn differ(family: u64, seed: u64, count: u64, n: Option<u64>) -> Difference {
    let mut found = Difference::default();
    for place in 0..count {
        let pose = sample(Kind::Reachable, family, seed, place, n);
        look(&pose, place, &mut found);
    }
    found
}
