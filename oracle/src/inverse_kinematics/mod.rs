//! Carried over from ikgeo/src/inverse_kinematics/mod.rs (MIT, see NOTICE): the six families of
//! document 01. In two_parallel the number of samples is an argument, and the error and the
//! search are functions of their own, so that the search's list can be looked at.

pub mod auxiliary;

use {
    crate::{
        arith::Arith,
        linalg::{Matrix3, Vector3, Vector6},
        solutionset::SolutionSet4,
        subproblems::{
            auxiliary::rot, subproblem1, subproblem2, subproblem3, subproblem4, subproblem5,
            subproblem6,
        },
    },
    auxiliary::{search_1d_bracketed, wrap_to_pi, Kinematics, Search},
    std::f64::consts::PI,
};

pub fn spherical_two_parallel<A: Arith>(
    r_0t: &Matrix3,
    p_0t: &Vector3,
    kin: &Kinematics,
) -> (Vec<Vector6>, Vec<bool>) {
    let mut q = Vec::with_capacity(8);
    let mut is_ls = Vec::with_capacity(8);

    let (t1, q1_is_ls) = subproblem4::<A>(
        &kin.h.column(1),
        &(p_0t - r_0t * kin.p.column(6) - kin.p.column(0)),
        &(-kin.h.column(0)),
        (kin.h.column(1).transpose() * (kin.p.column(1) + kin.p.column(2) + kin.p.column(3)))[0],
    );

    for q1 in t1.get_all() {
        let (t3, q3_is_ls) = subproblem3::<A>(
            &(-kin.p.column(3)),
            &kin.p.column(2),
            &kin.h.column(2),
            (rot::<A>(&(-kin.h.column(0)), q1)
                * (-p_0t + r_0t * kin.p.column(6) + kin.p.column(0))
                + kin.p.column(1))
            .norm(),
        );

        for q3 in t3.get_all() {
            let (q2, q2_is_ls) = subproblem1::<A>(
                &(-kin.p.column(2) - rot::<A>(&kin.h.column(2), q3) * kin.p.column(3)),
                &(rot::<A>(&(-kin.h.column(0)), q1)
                    * (-p_0t + r_0t * kin.p.column(6) + kin.p.column(0))
                    + kin.p.column(1)),
                &kin.h.column(1),
            );

            let r_36 = rot::<A>(&(-kin.h.column(2)), q3)
                * rot::<A>(&(-kin.h.column(1)), q2)
                * rot::<A>(&(-kin.h.column(0)), q1)
                * r_0t;

            let (t5, q5_is_ls) = subproblem4::<A>(
                &kin.h.column(3),
                &kin.h.column(5),
                &kin.h.column(4),
                (kin.h.column(3).transpose() * r_36 * kin.h.column(5))[0],
            );

            for q5 in t5.get_all() {
                let (q4, q4_is_ls) = subproblem1::<A>(
                    &(rot::<A>(&kin.h.column(4), q5) * kin.h.column(5)),
                    &(r_36 * kin.h.column(5)),
                    &kin.h.column(3),
                );

                let (q6, q6_is_ls) = subproblem1::<A>(
                    &(rot::<A>(&(-kin.h.column(4)), q5) * kin.h.column(3)),
                    &(r_36.transpose() * kin.h.column(3)),
                    &(-kin.h.column(5)),
                );

                q.push(Vector6::new(q1, q2, q3, q4, q5, q6));
                is_ls.push(q1_is_ls || q2_is_ls || q3_is_ls || q4_is_ls || q5_is_ls || q6_is_ls)
            }
        }
    }

    (q, is_ls)
}

pub fn spherical_two_intersecting<A: Arith>(
    r_0t: &Matrix3,
    p_0t: &Vector3,
    kin: &Kinematics,
) -> (Vec<Vector6>, Vec<bool>) {
    let mut q = Vec::with_capacity(8);
    let mut is_ls = Vec::with_capacity(8);

    let p_16 = p_0t - r_0t * kin.p.column(6) - kin.p.column(0);

    let (t3, t3_is_ls) = subproblem3::<A>(
        &kin.p.column(3),
        &-kin.p.column(2),
        &kin.h.column(2),
        p_16.norm(),
    );

    for q3 in t3.get_all() {
        let (t12, t12_is_ls) = subproblem2::<A>(
            &p_16,
            &(kin.p.column(2) + rot::<A>(&kin.h.column(2), q3) * kin.p.column(3)),
            &-kin.h.column(0),
            &kin.h.column(1),
        );

        for (q1, q2) in t12.get_all() {
            let r_36 = rot::<A>(&-kin.h.column(2), q3)
                * rot::<A>(&-kin.h.column(1), q2)
                * rot::<A>(&-kin.h.column(0), q1)
                * r_0t;

            let (t5, q5_is_ls) = subproblem4::<A>(
                &kin.h.column(3),
                &kin.h.column(5),
                &kin.h.column(4),
                (kin.h.column(3).transpose() * r_36 * kin.h.column(5))[0],
            );

            for q5 in t5.get_all() {
                let (q4, q4_is_ls) = subproblem1::<A>(
                    &(rot::<A>(&kin.h.column(4), q5) * kin.h.column(5)),
                    &(r_36 * kin.h.column(5)),
                    &kin.h.column(3),
                );

                let (q6, q6_is_ls) = subproblem1::<A>(
                    &(rot::<A>(&-kin.h.column(4), q5) * kin.h.column(3)),
                    &(r_36.transpose() * kin.h.column(3)),
                    &-kin.h.column(5),
                );

                q.push(Vector6::new(q1, q2, q3, q4, q5, q6));
                is_ls.push(t3_is_ls || t12_is_ls || q5_is_ls || q4_is_ls || q6_is_ls);
            }
        }
    }

    (q, is_ls)
}

pub fn spherical<A: Arith>(
    r_06: &Matrix3,
    p_0t: &Vector3,
    kin: &Kinematics,
) -> (Vec<Vector6>, Vec<bool>) {
    let mut q = Vec::with_capacity(8);
    let mut is_ls = Vec::with_capacity(8);

    let p_16 = p_0t - kin.p.column(0) - r_06 * kin.p.column(6);

    let t123 = subproblem5::<A>(
        &-kin.p.column(1),
        &p_16,
        &kin.p.column(2),
        &kin.p.column(3),
        &-kin.h.column(0),
        &kin.h.column(1),
        &kin.h.column(2),
    );

    for (q1, q2, q3) in t123.get_all() {
        let r_36 = rot::<A>(&-kin.h.column(2), q3)
            * rot::<A>(&-kin.h.column(1), q2)
            * rot::<A>(&-kin.h.column(0), q1)
            * r_06;

        let (t5, q5_is_ls) = subproblem4::<A>(
            &kin.h.column(3),
            &kin.h.column(5),
            &kin.h.column(4),
            (kin.h.column(3).transpose() * r_36 * kin.h.column(5))[0],
        );

        for q5 in t5.get_all() {
            let (q4, q4_is_ls) = subproblem1::<A>(
                &(rot::<A>(&kin.h.column(4), q5) * kin.h.column(5)),
                &(r_36 * kin.h.column(5)),
                &kin.h.column(3),
            );

            let (q6, q6_is_ls) = subproblem1::<A>(
                &(rot::<A>(&-kin.h.column(4), q5) * kin.h.column(3)),
                &(r_36.transpose() * kin.h.column(3)),
                &-kin.h.column(5),
            );

            q.push(Vector6::new(q1, q2, q3, q4, q5, q6));
            is_ls.push(q5_is_ls || q4_is_ls || q6_is_ls);
        }
    }

    (q, is_ls)
}

pub fn three_parallel_two_intersecting<A: Arith>(
    r_06: &Matrix3,
    p_0t: &Vector3,
    kin: &Kinematics,
) -> (Vec<Vector6>, Vec<bool>) {
    let mut q = Vec::with_capacity(8);
    let mut is_ls = Vec::with_capacity(8);

    let sum_p_2_5 = kin.p.fixed_columns::<4>(1).column_sum();
    let p_16 = p_0t - kin.p.column(0) - r_06 * kin.p.column(6);

    let (theta1, theta1_is_ls) = subproblem4::<A>(
        &kin.h.column(1),
        &p_16,
        &-kin.h.column(0),
        (kin.h.column(1).transpose() * sum_p_2_5)[0],
    );

    for q1 in theta1.get_all() {
        let r_01 = rot::<A>(&kin.h.column(0), q1);

        let (theta5, theta5_is_ls) = subproblem4::<A>(
            &kin.h.column(1),
            &kin.h.column(5),
            &kin.h.column(4),
            (kin.h.column(1).transpose() * r_01.transpose() * r_06 * kin.h.column(5))[0],
        );

        for q5 in theta5.get_all() {
            let (theta14, theta_14_is_ls) = subproblem1::<A>(
                &(rot::<A>(&kin.h.column(4), q5) * kin.h.column(5)),
                &(r_01.transpose() * r_06 * kin.h.column(5)),
                &kin.h.column(1),
            );

            let r_01 = rot::<A>(&kin.h.column(0), q1);
            let r_45 = rot::<A>(&kin.h.column(4), q5);
            let r_14 = rot::<A>(&kin.h.column(1), theta14);

            let p_12: &Vector3 = &kin.p.column(1);
            let p_23: &Vector3 = &kin.p.column(2);
            let p_34: &Vector3 = &kin.p.column(3);
            let p_45: &Vector3 = &(kin.p.column(4) + kin.p.column(5));

            let d_inner = r_01.transpose() * p_16 - p_12 - r_14 * p_45;
            let d = d_inner.norm();

            let (theta_3, theta_3_is_ls) = subproblem3::<A>(&-p_34, p_23, &kin.h.column(1), d);

            for q3 in theta_3.get_all() {
                let (q2, q2_is_ls) = subproblem1::<A>(
                    &(p_23 + rot::<A>(&kin.h.column(1), q3) * p_34),
                    &d_inner,
                    &kin.h.column(1),
                );

                let q4 = wrap_to_pi(theta14 - q2 - q3);

                let (q6, q6_is_ls) = subproblem1::<A>(
                    &kin.h.column(4),
                    &(r_45.transpose()
                        * r_14.transpose()
                        * r_01.transpose()
                        * r_06
                        * kin.h.column(4)),
                    &kin.h.column(5),
                );

                q.push(Vector6::new(q1, q2, q3, q4, q5, q6));
                is_ls.push(
                    theta1_is_ls
                        || theta5_is_ls
                        || theta_14_is_ls
                        || theta_3_is_ls
                        || q2_is_ls
                        || q6_is_ls,
                );
            }
        }
    }

    (q, is_ls)
}

pub fn three_parallel<A: Arith>(
    r_06: &Matrix3,
    p_0t: &Vector3,
    kin: &Kinematics,
) -> (Vec<Vector6>, Vec<bool>) {
    let mut q = Vec::with_capacity(8);
    let mut is_ls = Vec::with_capacity(8);

    let p_16 = p_0t - kin.p.column(0) - r_06 * kin.p.column(6);

    let h_sp: [Vector3; 4] = [
        kin.h.column(1),
        kin.h.column(1),
        kin.h.column(1),
        kin.h.column(1),
    ];
    let k_sp: [Vector3; 4] = [
        -kin.h.column(0),
        kin.h.column(4),
        -kin.h.column(0),
        kin.h.column(4),
    ];
    let p_sp: [Vector3; 4] = [
        p_16,
        -kin.p.column(5),
        r_06 * kin.h.column(5),
        -kin.h.column(5),
    ];
    let d1 = (kin.h.column(1).transpose()
        * (kin.p.column(2) + kin.p.column(3) + kin.p.column(4) + kin.p.column(1)))[0];
    let d2 = 0.0;

    let theta15 = subproblem6::<A>(&h_sp, &k_sp, &p_sp, d1, d2);

    for (q1, q5) in theta15.get_all() {
        let r_01 = rot::<A>(&kin.h.column(0), q1);
        let r_45 = rot::<A>(&kin.h.column(4), q5);

        let (theta14, theta14_is_ls) = subproblem1::<A>(
            &(r_45 * kin.h.column(5)),
            &(r_01.transpose() * r_06 * kin.h.column(5)),
            &kin.h.column(1),
        );
        let (q6, q6_is_ls) = subproblem1::<A>(
            &(r_45.transpose() * kin.h.column(1)),
            &(r_06.transpose() * r_01 * kin.h.column(1)),
            &-kin.h.column(5),
        );

        let r_14 = rot::<A>(&kin.h.column(1), theta14);
        let d_inner = r_01.transpose() * p_16
            - kin.p.column(1)
            - r_14 * r_45 * kin.p.column(5)
            - r_14 * kin.p.column(4);
        let d = d_inner.norm();
        let (theta3, theta3_is_ls) =
            subproblem3::<A>(&-kin.p.column(3), &kin.p.column(2), &kin.h.column(1), d);

        for q3 in theta3.get_all() {
            let (q2, q2_is_ls) = subproblem1::<A>(
                &(kin.p.column(2) + rot::<A>(&kin.h.column(1), q3) * kin.p.column(3)),
                &d_inner,
                &kin.h.column(1),
            );
            let q4 = wrap_to_pi(theta14 - q2 - q3);

            q.push(Vector6::new(q1, q2, q3, q4, q5, q6));
            is_ls.push(theta14_is_ls || theta3_is_ls || q2_is_ls || q6_is_ls);
        }
    }

    (q, is_ls)
}

/// Subproblem 6's angles (q6, q4) given the rotation by q1.
fn t64_given_r_01<A: Arith>(
    r_06: &Matrix3,
    kin: &Kinematics,
    r_01: &Matrix3,
    p_16: &Vector3,
) -> SolutionSet4<(f64, f64)> {
    let h1: Vector3 = (kin.h.column(1).transpose() * r_01.transpose() * r_06).transpose();
    let h2: Vector3 = kin.h.column(1);
    let h3: Vector3 = h1;
    let h4: Vector3 = h2;
    let sp_h: [Vector3; 4] = [h1, h2, h3, h4];

    let sp_k: [Vector3; 4] = [
        -kin.h.column(5),
        kin.h.column(3),
        -kin.h.column(5),
        kin.h.column(3),
    ];

    let sp_p: [Vector3; 4] = [
        kin.p.column(5),
        kin.p.column(4),
        kin.h.column(4),
        -kin.h.column(4),
    ];

    let d1 = (kin.h.column(1).transpose()
        * (r_01.transpose() * p_16 - kin.p.column(1) - kin.p.column(2) - kin.p.column(3)))[0];
    let d2 = 0.0;

    subproblem6::<A>(&sp_h, &sp_k, &sp_p, d1, d2)
}

fn t64_given_q1<A: Arith>(
    r_06: &Matrix3,
    kin: &Kinematics,
    q1: f64,
    p_16: &Vector3,
) -> SolutionSet4<(f64, f64)> {
    t64_given_r_01::<A>(r_06, kin, &rot::<A>(&kin.h.column(0), q1), p_16)
}

/// The error of the search over q1, a component for each answer of subproblem 6.
fn error_given_q1<A: Arith>(r_06: &Matrix3, kin: &Kinematics, q1: f64, p_16: &Vector3) -> [f64; 4] {
    let mut error = [f64::INFINITY; 4];
    let r_01 = rot::<A>(&kin.h.column(0), q1);

    // The published closure repeats this body, operation by operation; here it is shared.
    let t64 = t64_given_r_01::<A>(r_06, kin, &r_01, p_16);

    for (i, (t6, t4)) in t64.get_all().into_iter().enumerate() {
        let r_34 = rot::<A>(&kin.h.column(3), t4);
        let r_56 = rot::<A>(&kin.h.column(5), t6);
        let (t23, _) = subproblem1::<A>(
            &(r_34 * kin.h.column(4)),
            &(r_01.transpose() * r_06 * r_56.transpose() * kin.h.column(4)),
            &kin.h.column(1),
        );
        let r_13 = rot::<A>(&kin.h.column(1), t23);

        // Relative to |p2| so the search's touch threshold is independent of the length unit.
        let l2 = kin.p.column(2).norm().max(f64::MIN_POSITIVE);
        error[i] = ((r_01.transpose() * p_16
            - kin.p.column(1)
            - r_13 * kin.p.column(3)
            - r_13 * r_34 * kin.p.column(4)
            - r_01.transpose() * r_06 * r_56.transpose() * kin.p.column(5))
        .norm()
            - l2)
            / l2;
    }

    error
}

/// An arm and a pose of family 6, for a look at the error that its search goes over.
pub struct TwoParallel<'a> {
    r_06: &'a Matrix3,
    kin: &'a Kinematics,
    p_16: Vector3,
}

impl<'a> TwoParallel<'a> {
    pub fn new(r_06: &'a Matrix3, p_0t: &Vector3, kin: &'a Kinematics) -> Self {
        let p_16 = p_0t - kin.p.column(0) - r_06 * kin.p.column(6);
        TwoParallel { r_06, kin, p_16 }
    }

    /// Subproblem 6's answers (q6, q4) at q1.
    pub fn pairs<A: Arith>(&self, q1: f64) -> Vec<(f64, f64)> {
        t64_given_q1::<A>(self.r_06, self.kin, q1, &self.p_16).get_all()
    }

    pub fn error<A: Arith>(&self, q1: f64) -> [f64; 4] {
        error_given_q1::<A>(self.r_06, self.kin, q1, &self.p_16)
    }
}

/// The search over q1 that two_parallel starts from.
pub fn two_parallel_search<A: Arith>(
    r_06: &Matrix3,
    p_0t: &Vector3,
    kin: &Kinematics,
    n: usize,
) -> Search {
    let p_16 = p_0t - kin.p.column(0) - r_06 * kin.p.column(6);
    let error = |q1: f64| error_given_q1::<A>(r_06, kin, q1, &p_16);

    search_1d_bracketed(error, -PI, PI, n, 0.5)
}

/// As published, with `n` in place of 200; the third result is the number of evaluations.
pub fn two_parallel<A: Arith>(
    r_06: &Matrix3,
    p_0t: &Vector3,
    kin: &Kinematics,
    n: usize,
) -> (Vec<Vector6>, Vec<bool>, u64) {
    let mut q = Vec::with_capacity(8);
    let mut is_ls = Vec::with_capacity(8);

    let p_16 = p_0t - kin.p.column(0) - r_06 * kin.p.column(6);

    let search = two_parallel_search::<A>(r_06, p_0t, kin, n);

    for found in search.zeros {
        let (q1, i) = (found.x, found.component);
        let t64 = t64_given_q1::<A>(r_06, kin, q1, &p_16).get_all();
        let q6 = t64[i].0;
        let q4 = t64[i].1;
        let r_01 = rot::<A>(&kin.h.column(0), q1);
        let r_34 = rot::<A>(&kin.h.column(3), q4);
        let r_56 = rot::<A>(&kin.h.column(5), q6);

        let (t23, t23_is_ls) = subproblem1::<A>(
            &(r_34 * kin.h.column(4)),
            &(r_01.transpose() * r_06 * r_56.transpose() * kin.h.column(4)),
            &kin.h.column(1),
        );
        let r_13 = rot::<A>(&kin.h.column(1), t23);

        let (q2, q2_is_ls) = subproblem1::<A>(
            &kin.p.column(2),
            &(r_01.transpose() * p_16
                - kin.p.column(1)
                - r_13 * kin.p.column(3)
                - r_13 * r_34 * kin.p.column(4)
                - r_01.transpose() * r_06 * r_56.transpose() * kin.p.column(5)),
            &kin.h.column(1),
        );

        let (q5, q5_is_ls) = subproblem1::<A>(
            &(r_34.transpose() * kin.h.column(1)),
            &(r_56 * r_06.transpose() * r_01 * kin.h.column(1)),
            &-kin.h.column(4),
        );

        let q3 = wrap_to_pi(t23 - q2);

        q.push(Vector6::new(q1, q2, q3, q4, q5, q6));
        is_ls.push(t23_is_ls || q2_is_ls || q5_is_ls);
    }

    (q, is_ls, search.evaluations)
}
