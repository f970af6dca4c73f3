//! Carried over from ikgeo/src/subproblems/auxiliary.rs (MIT, see NOTICE). Of the published
//! functions only those that the families reach are here.

use crate::{
    arith::Arith,
    complex::Complex,
    linalg::{Matrix2, Matrix3, Vector2, Vector3, Vector5},
    solutionset::SolutionSet4,
};

/// Creates a 3x3 rotation matrix about `k` by `theta`
pub fn rot<A: Arith>(k: &Vector3, theta: f64) -> Matrix3 {
    let k = k.normalize();
    Matrix3::identity() + hat(&k) * A::sin(theta) + hat(&k) * hat(&k) * (1.0 - A::cos(theta))
}

pub fn cone_polynomials(
    p0_i: &Vector3,
    k_i: &Vector3,
    p_i: &Vector3,
    p_i_s: &Vector3,
    k2: &Vector3,
) -> (Vector2, Vector3) {
    let ki_x_k2 = k_i.cross(k2);
    let ki_x_ki_x_k2 = k_i.cross(&ki_x_k2);
    let norm_ki_x_k2_sq = ki_x_k2.dot(&ki_x_k2);

    let ki_x_pi = k_i.cross(p_i);
    let norm_ki_x_pi_sq = ki_x_pi.dot(&ki_x_pi);

    let alpha = p0_i.transpose() * ki_x_ki_x_k2 / norm_ki_x_k2_sq;
    let delta = k2.dot(p_i_s);
    let beta = p0_i.transpose() * ki_x_k2 / norm_ki_x_k2_sq;

    let p_const = norm_ki_x_pi_sq + p_i_s.norm_squared() + 2.0 * alpha[0] * delta;
    let p = Vector2::new(-2.0 * alpha[0], p_const);

    let r = Vector3::new(
        -1.0,
        2.0 * delta,
        -delta * delta + norm_ki_x_pi_sq * norm_ki_x_k2_sq,
    );
    // powi(2) is one product.
    let two_beta = 2.0 * beta[0];
    let r = two_beta * two_beta * r;

    (p, r)
}

/// Performs convolution on a 2d vector with itself
pub fn vec_self_convolve_2(v: &Vector2) -> Vector3 {
    let (a, b) = (v[0], v[1]);
    Vector3::new(a * a, 2.0 * a * b, b * b)
}

/// Performs convolution on a 3d vector with itself
pub fn vec_self_convolve_3(v: &Vector3) -> Vector5 {
    let (a, b, c) = (v[0], v[1], v[2]);
    Vector5::new(a * a, 2.0 * a * b, 2.0 * a * c + b * b, 2.0 * b * c, c * c)
}

/// Performs convolution between two 3d vectors
pub fn vec_convolve_3(v1: &Vector3, v2: &Vector3) -> Vector5 {
    let (a, b, c) = (v1[0], v1[1], v1[2]);
    let (x, y, z) = (v2[0], v2[1], v2[2]);
    Vector5::new(
        a * x,
        b * x + a * y,
        a * z + b * y + c * x,
        b * z + c * y,
        c * z,
    )
}

/// Solves the roots of a quartic equation using the quartic formula
///
/// https://math.stackexchange.com/a/786
pub fn solve_quartic_roots<A: Arith>(p: &[Complex; 5]) -> Vec<Complex> {
    let [a, b, c, d, e] = *p;

    if a.abs::<A>() < 1e-12 {
        return solve_cubic_roots::<A>(&[b, c, d, e]);
    }

    let p1 =
        2.0 * c * c * c - 9.0 * b * c * d + 27.0 * a * d * d + 27.0 * b * b * e - 72.0 * a * c * e;
    let q1 = c * c - 3.0 * b * d + 12.0 * a * e;
    let p2 = p1 + (-4.0 * q1 * q1 * q1 + p1 * p1).sqrt::<A>();
    let q2 = (p2 / 2.0).cbrt::<A>();
    let p3 = q1 / (3.0 * a * q2) + q2 / (3.0 * a);
    let p4 = ((b * b) / (4.0 * a * a) - (2.0 * c) / (3.0 * a) + p3).sqrt::<A>();
    let p5 = (b * b) / (2.0 * a * a) - (4.0 * c) / (3.0 * a) - p3;
    let p6 = (-(b * b * b) / (a * a * a) + (4.0 * b * c) / (a * a) - (8.0 * d) / a) / (4.0 * p4);

    vec![
        -b / (4.0 * a) - p4 / 2.0 - (p5 - p6).sqrt::<A>() / 2.0,
        -b / (4.0 * a) - p4 / 2.0 + (p5 - p6).sqrt::<A>() / 2.0,
        -b / (4.0 * a) + p4 / 2.0 - (p5 + p6).sqrt::<A>() / 2.0,
        -b / (4.0 * a) + p4 / 2.0 + (p5 + p6).sqrt::<A>() / 2.0,
    ]
}

/// Solves the roots of a cubic equation using the cubic formula
///
/// https://en.wikipedia.org/wiki/Cubic_equation#General_cubic_formula
pub fn solve_cubic_roots<A: Arith>(p: &[Complex; 4]) -> Vec<Complex> {
    let [a, b, c, d] = *p;

    if a.abs::<A>() < 1e-12 {
        return solve_quadratic_roots::<A>(&[b, c, d]);
    }

    let z = (Complex::from_real(-1.0) + Complex::from_real(-3.0).sqrt::<A>()) / 2.0;

    let p1 = b * b - 3.0 * a * c;
    let p2 = 2.0 * b * b * b - 9.0 * a * b * c + 27.0 * a * a * d;

    let q1 = ((p2 + (p2 * p2 - 4.0 * p1 * p1 * p1).sqrt::<A>()) / 2.0).cbrt::<A>();
    let q2 = ((p2 + (p2 * p2 + 4.0 * p1 * p1 * p1).sqrt::<A>()) / 2.0).cbrt::<A>();

    if q1.abs::<A>() > 1e-12 {
        let e0 = q1;
        let e1 = e0 * z;
        let e2 = e1 * z;

        vec![
            -1.0 / (3.0 * a) * (b + e0 + p1 / e0),
            -1.0 / (3.0 * a) * (b + e1 + p1 / e1),
            -1.0 / (3.0 * a) * (b + e2 + p1 / e2),
        ]
    } else if q2.abs::<A>() > 1e-12 {
        let e0 = q2;
        let e1 = e0 * z;
        let e2 = e1 * z;

        vec![
            -1.0 / (3.0 * a) * (b + e0 + p1 / e0),
            -1.0 / (3.0 * a) * (b + e1 + p1 / e1),
            -1.0 / (3.0 * a) * (b + e2 + p1 / e2),
        ]
    } else {
        vec![
            -1.0 / (3.0 * a) * b,
            -1.0 / (3.0 * a) * b,
            -1.0 / (3.0 * a) * b,
        ]
    }
}

pub fn solve_quadratic_roots<A: Arith>(p: &[Complex; 3]) -> Vec<Complex> {
    let [a, b, c] = *p;

    if a.abs::<A>() < 1e-12 {
        return if b.abs::<A>() < 1e-12 {
            vec![]
        } else {
            vec![-c / b]
        };
    }

    let p = (b * b - 4.0 * a * c).sqrt::<A>();

    vec![(-b + p) / (2.0 * a), (-b - p) / (2.0 * a)]
}

pub fn solve_lower_triangular_system_2x2(l: &Matrix2, b_v: &Vector2) -> Vector2 {
    let a = l[(0, 0)];
    let b = l[(1, 0)];
    let c = l[(1, 1)];
    let p = b_v[0];
    let q = b_v[1];

    let x = p / a;
    Vector2::new(x, (q - x * b) / c)
}

/// Solve for intersection of 2 ellipses defined by
///
/// `xm1'*xm1 + xi'*xn1'*xn1*xi + xm1'*xn1*xi == 1`
///
/// `xm2'*xm2 + xi'*xn2'*xn2*xi + xm2'*xn2*xi == 1`
///
/// Where `xi = [xi_1; xi_2]`
///
/// https://elliotnoma.wordpress.com/2013/04/10/a-closed-form-solution-for-the-intersections-of-two-ellipses/
pub fn solve_two_ellipse_numeric<A: Arith>(
    xm1: &Vector2,
    xn1: &Matrix2,
    xm2: &Vector2,
    xn2: &Matrix2,
) -> SolutionSet4<(f64, f64)> {
    const EPSILON: f64 = 1e-12;

    let a_1 = xn1.transpose() * xn1;
    let a = a_1[0];
    let b = 2.0 * a_1[(1, 0)];
    let c = a_1[(1, 1)];
    let b_1 = 2.0 * xm1.transpose() * xn1;
    let d = b_1[0];
    let e = b_1[1];
    let f = (xm1.transpose() * xm1)[0] - 1.0;

    let a_2 = xn2.transpose() * xn2;
    let a1 = a_2[0];
    let b1 = 2.0 * a_2[(1, 0)];
    let c1 = a_2[(1, 1)];
    let b_2 = 2.0 * xm2.transpose() * xn2;
    let d1 = b_2[0];
    let e1 = b_2[1];
    let fq = (xm2.transpose() * xm2)[0] - 1.0;

    let z0 = f * a * d1 * d1 + a * a * fq * fq - d * a * d1 * fq + a1 * a1 * f * f
        - 2.0 * a * fq * a1 * f
        - d * d1 * a1 * f
        + a1 * d * d * fq;

    let z1 = e1 * d * d * a1 - fq * d1 * a * b - 2.0 * a * fq * a1 * e - f * a1 * b1 * d
        + 2.0 * d1 * b1 * a * f
        + 2.0 * e1 * fq * a * a
        + d1 * d1 * a * e
        - e1 * d1 * a * d
        - 2.0 * a * e1 * a1 * f
        - f * a1 * d1 * b
        + 2.0 * f * e * a1 * a1
        - fq * b1 * a * d
        - e * a1 * d1 * d
        + 2.0 * fq * b * a1 * d;

    let z2 = e1 * e1 * a * a + 2.0 * c1 * fq * a * a - e * a1 * d1 * b + fq * a1 * b * b
        - e * a1 * b1 * d
        - fq * b1 * a * b
        - 2.0 * a * e1 * a1 * e
        + 2.0 * d1 * b1 * a * e
        - c1 * d1 * a * d
        - 2.0 * a * c1 * a1 * f
        + b1 * b1 * a * f
        + 2.0 * e1 * b * a1 * d
        + e * e * a1 * a1
        - c * a1 * d1 * d
        - e1 * b1 * a * d
        + 2.0 * f * c * a1 * a1
        - f * a1 * b1 * b
        + c1 * d * d * a1
        + d1 * d1 * a * c
        - e1 * d1 * a * b
        - 2.0 * a * fq * a1 * c;

    let z3 = -2.0 * a * a1 * c * e1 + e1 * a1 * b * b + 2.0 * c1 * b * a1 * d - c * a1 * b1 * d
        + b1 * b1 * a * e
        - e1 * b1 * a * b
        - 2.0 * a * c1 * a1 * e
        - e * a1 * b1 * b
        - c1 * b1 * a * d
        + 2.0 * e1 * c1 * a * a
        + 2.0 * e * c * a1 * a1
        - c * a1 * d1 * b
        + 2.0 * d1 * b1 * a * c
        - c1 * d1 * a * b;

    let z4 = a * a * c1 * c1 - 2.0 * a * c1 * a1 * c + a1 * a1 * c * c
        - b * a * b1 * c1
        - b * b1 * a1 * c
        + b * b * a1 * c1
        + c * a * b1 * b1;

    let y = solve_quartic_roots::<A>(&[
        Complex::from_real(z4),
        Complex::from_real(z3),
        Complex::from_real(z2),
        Complex::from_real(z1),
        Complex::from_real(z0),
    ]);

    // The published vector expression, entry by entry.
    let x_given_y = |y: f64| {
        let y_sq = y * y;
        -((a * c1 * y_sq + a * fq - a1 * c * y_sq + a * e1 * y - a1 * e * y + -a1 * f)
            / (a * b1 * y + a * d1 - a1 * b * y + -a1 * d))
    };

    SolutionSet4::from_vec(
        &y.iter()
            .filter(|z| z.im.abs() < EPSILON)
            .map(|z| (x_given_y(z.re), z.re))
            .collect::<Vec<(f64, f64)>>(),
    )
}

// Matrix cross-product for a 3 x 3 vector
pub fn hat(k: &Vector3) -> Matrix3 {
    Matrix3::new(0.0, -k[2], k[1], k[2], 0.0, -k[0], -k[1], k[0], 0.0)
}
