//! Document 01's "Known results", tried against this implementation.

use crate::{
    arith::{Arith, Rules},
    complex::Complex,
    inverse,
    inverse_kinematics::auxiliary::wrap_to_pi,
    linalg::{Matrix2, Vector2, Vector3, Vector5},
    solutionset::{SolutionSet2, SolutionSet4},
    subproblems::{
        auxiliary::{
            solve_cubic_roots, solve_lower_triangular_system_2x2, solve_quadratic_roots,
            vec_convolve_3, vec_self_convolve_2, vec_self_convolve_3,
        },
        candidates::reduced_solutionset,
        subproblem1, subproblem4,
    },
};
use std::f64::consts::{FRAC_PI_2, PI};

const X: Vector3 = Vector3::new(1.0, 0.0, 0.0);
const Y: Vector3 = Vector3::new(0.0, 1.0, 0.0);
const Z: Vector3 = Vector3::new(0.0, 0.0, 1.0);

#[test]
fn convolutions() {
    assert_eq!(
        vec_self_convolve_2(&Vector2::new(1.0, 2.0)),
        Vector3::new(1.0, 4.0, 4.0)
    );
    assert_eq!(
        vec_self_convolve_3(&Vector3::new(1.0, 2.0, 3.0)),
        Vector5::new(1.0, 4.0, 10.0, 12.0, 9.0)
    );
    assert_eq!(
        vec_convolve_3(&Vector3::new(1.0, 2.0, 3.0), &Vector3::new(4.0, 5.0, 6.0)),
        Vector5::new(4.0, 13.0, 28.0, 27.0, 18.0)
    );
}

#[test]
fn lower_triangular_system() {
    let l = Matrix2::new(2.0, 0.0, 1.0, 4.0);
    assert_eq!(
        solve_lower_triangular_system_2x2(&l, &Vector2::new(6.0, 11.0)),
        Vector2::new(3.0, 2.0)
    );
}

fn quadratic(coefficients: [f64; 3]) -> Vec<(u64, u64)> {
    solve_quadratic_roots::<Rules>(&coefficients.map(Complex::from_real))
        .iter()
        .map(|z| (z.re.to_bits(), z.im.to_bits()))
        .collect()
}

#[test]
fn quadratics() {
    let (zero, minus_zero) = (0.0_f64.to_bits(), (-0.0_f64).to_bits());
    assert_eq!(
        quadratic([1.0, -3.0, 2.0]),
        [(2.0_f64.to_bits(), minus_zero), (1.0_f64.to_bits(), zero)]
    );
    assert_eq!(quadratic([0.0, 0.0, 5.0]), []);
}

#[test]
fn a_cubic_of_nan_moduli_takes_the_third_branch() {
    let roots = solve_cubic_roots::<Rules>(&[1.0, 1.0, 1.0, 1e200].map(Complex::from_real));
    assert_eq!(roots.len(), 3);
    assert!(roots.iter().all(|z| z.re == -1.0 / 3.0));
}

#[test]
fn the_two_wraps_at_pi() {
    assert_eq!(wrap_to_pi(PI).to_bits(), (-PI).to_bits());
    assert_eq!(inverse::wrap_to_pi(PI).to_bits(), PI.to_bits());
    assert_eq!(wrap_to_pi((-PI).next_down()).to_bits(), PI.to_bits());
}

#[test]
fn subproblem_1_turns_x_to_y() {
    let (theta, flag) = subproblem1::<Rules>(&X, &Y, &Z);
    assert_eq!((theta.to_bits(), flag), (FRAC_PI_2.to_bits(), false));
}

#[test]
fn subproblem_4_reaches_or_not() {
    let (one, flag) = subproblem4::<Rules>(&X, &X, &Z, 1.0);
    assert_eq!((one, flag), (SolutionSet2::One(0.0), true));
    let (two, flag) = subproblem4::<Rules>(&X, &X, &Z, 0.0);
    assert_eq!(
        (two, flag),
        (SolutionSet2::Two(FRAC_PI_2, -FRAC_PI_2), false)
    );
}

#[test]
fn square_root_of_two() {
    assert_eq!(2.0_f64.sqrt().to_bits(), 0x3ff6_a09e_667f_3bcd);
    assert_eq!(Rules::cbrt(8.0), 2.0);
}

#[test]
fn candidates_are_thinned_by_gap() {
    let t = |x: f64| (x, 0.0, 0.0);
    // Up to four stay in the order found.
    assert_eq!(
        reduced_solutionset(vec![t(2.0), t(1.0)]),
        SolutionSet4::Two(t(2.0), t(1.0))
    );
    // The first has the ordering 0, then the widest gaps come first.
    assert_eq!(
        reduced_solutionset(vec![t(3.0), t(1.0), t(1.5), t(1.25), t(8.0)]),
        SolutionSet4::Four(t(1.0), t(8.0), t(3.0), t(1.25))
    );
    // NaN sorts last, and its gap is NaN, which sorts last again.
    let n = t(f64::NAN);
    let SolutionSet4::Four(a, b, c, d) = reduced_solutionset(vec![n, t(1.0), n, t(2.0), t(4.0), n])
    else {
        panic!("four are kept")
    };
    assert_eq!((a, b, c), (t(1.0), t(4.0), t(2.0)));
    assert!(d.0.is_nan());
}
