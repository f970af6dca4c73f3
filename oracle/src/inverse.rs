//! Carried over from ikgeo/src/inverse.rs (MIT, see NOTICE): wrap_to_pi alone. It is not the one
//! that the families call.

use crate::arith::rem_euclid_tau;
use std::f64::consts::PI;

/// Smallest signed difference, mapped into (-pi, pi].
pub fn wrap_to_pi(theta: f64) -> f64 {
    let w = rem_euclid_tau(theta + PI) - PI;
    if w == -PI {
        PI
    } else {
        w
    }
}
