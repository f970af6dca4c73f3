//! The published Rust as it is, over nalgebra itself, and a call of its families on numbers.
//! tools/compare/untouched.sh puts the published files beside this one.

pub mod inverse_kinematics;
pub mod solutionset;
pub mod subproblems;

use inverse_kinematics::{
    auxiliary::Kinematics, spherical, spherical_two_intersecting, spherical_two_parallel,
    three_parallel, three_parallel_two_intersecting, two_parallel,
};
use nalgebra::{Matrix3, Vector3, Vector6};

/// The answers of a family, 1 to 6, with their flags. Its n is 200.
pub fn answers(family: u64, arm: &[f64; 39], pose: &[f64; 12]) -> (Vec<Vector6<f64>>, Vec<bool>) {
    let mut kin: Kinematics<6, 7> = Kinematics::new();
    for (j, axis) in arm[..18].chunks(3).enumerate() {
        kin.h.set_column(j, &Vector3::from_column_slice(axis));
    }
    for (j, offset) in arm[18..].chunks(3).enumerate() {
        kin.p.set_column(j, &Vector3::from_column_slice(offset));
    }
    let r = Matrix3::from_row_slice(&pose[..9]);
    let p = Vector3::from_column_slice(&pose[9..]);
    match family {
        1 => spherical_two_parallel(&r, &p, &kin),
        2 => spherical_two_intersecting(&r, &p, &kin),
        3 => spherical(&r, &p, &kin),
        4 => three_parallel_two_intersecting(&r, &p, &kin),
        5 => three_parallel(&r, &p, &kin),
        6 => two_parallel(&r, &p, &kin),
        _ => panic!("family {family} is not 1 to 6"),
    }
}
