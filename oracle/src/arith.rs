//! The arithmetic that document 01 fixes for scalars, and the machine's own beside it.
//!
//! Everything above this file is generic over [`Arith`], a trait of empty types. Each run is thus
//! compiled for one of them, with no choice left at the calls, so that instruction counts can be
//! compared.

use crate::complex::Complex;
use crate::nearest;
use std::f64::consts::{FRAC_PI_2, FRAC_PI_4, PI, TAU};

/// The functions that other crates or the machine would decide. Those that IEEE 754 decides
/// (+ - * / and the square root) and the exact `%` are the same in all and are no part of it.
pub trait Arith {
    /// Whether subproblem 6 takes nalgebra's QR in place of document 01's.
    const NALGEBRA_QR: bool = false;

    fn sin(x: f64) -> f64;
    fn cos(x: f64) -> f64;
    fn sin_cos(x: f64) -> (f64, f64);
    fn atan2(y: f64, x: f64) -> f64;
    fn cbrt(x: f64) -> f64;
    fn modulus(z: Complex) -> f64;
    fn complex_sqrt(z: Complex) -> Complex;
    fn complex_cbrt(z: Complex) -> Complex;
}

/// Document 01's rules.
pub struct Rules;

/// The standard library's functions, and the complex roots as num-complex takes them.
pub struct Machine;

/// The machine's functions, and nalgebra's QR.
pub struct Nalgebra;

/// (-1)^j / (2j+1)! for j = 0 to 8. Every factorial here is an f64 exactly, so each
/// coefficient is one division.
const SINE: [f64; 9] = [
    1.0,
    -1.0 / 6.0,
    1.0 / 120.0,
    -1.0 / 5040.0,
    1.0 / 362880.0,
    -1.0 / 39916800.0,
    1.0 / 6227020800.0,
    -1.0 / 1307674368000.0,
    1.0 / 355687428096000.0,
];

/// (-1)^j / (2j)! for j = 0 to 8.
const COSINE: [f64; 9] = [
    1.0,
    -1.0 / 2.0,
    1.0 / 24.0,
    -1.0 / 720.0,
    1.0 / 40320.0,
    -1.0 / 3628800.0,
    1.0 / 479001600.0,
    -1.0 / 87178291200.0,
    1.0 / 20922789888000.0,
];

/// (-1)^j / (2j+1) for j = 0 to 20.
const ARCTANGENT: [f64; 21] = [
    1.0,
    -1.0 / 3.0,
    1.0 / 5.0,
    -1.0 / 7.0,
    1.0 / 9.0,
    -1.0 / 11.0,
    1.0 / 13.0,
    -1.0 / 15.0,
    1.0 / 17.0,
    -1.0 / 19.0,
    1.0 / 21.0,
    -1.0 / 23.0,
    1.0 / 25.0,
    -1.0 / 27.0,
    1.0 / 29.0,
    -1.0 / 31.0,
    1.0 / 33.0,
    -1.0 / 35.0,
    1.0 / 37.0,
    -1.0 / 39.0,
    1.0 / 41.0,
];

/// Above this the arctangent is taken from FRAC_PI_4.
const ARCTANGENT_THRESHOLD: f64 = 0.41421356;

/// The nested sum c0 + z (c1 + z (c2 + ..)), from the last coefficient down.
#[inline]
fn nested<const N: usize>(coefficients: &[f64; N], z: f64) -> f64 {
    let mut sum = coefficients[N - 1];
    for j in (0..N - 1).rev() {
        sum = coefficients[j] + z * sum;
    }
    sum
}

/// The whole number nearest to `q`, halves toward zero. `q - q.trunc()` is exact.
#[inline]
fn nearest_whole(q: f64) -> i64 {
    let whole = q.trunc();
    let rest = q - whole;
    if rest > 0.5 {
        whole as i64 + 1
    } else if rest < -0.5 {
        whole as i64 - 1
    } else {
        whole as i64
    }
}

/// The reduction of a finite `x`: k modulo 4, and r. As k is a whole number, k = 0 gives the
/// product +0.0, and a reduced -0.0 stays -0.0.
#[inline]
fn reduce(x: f64) -> (i64, f64) {
    let t = x % TAU;
    let k = nearest_whole(t / FRAC_PI_2);
    let r = t - k as f64 * FRAC_PI_2;
    (k.rem_euclid(4), r)
}

impl Arith for Rules {
    #[inline]
    fn sin(x: f64) -> f64 {
        Self::sin_cos(x).0
    }

    #[inline]
    fn cos(x: f64) -> f64 {
        Self::sin_cos(x).1
    }

    fn sin_cos(x: f64) -> (f64, f64) {
        if !x.is_finite() {
            return (f64::NAN, f64::NAN);
        }
        let (quadrant, r) = reduce(x);
        let z = r * r;
        let s = r * nested(&SINE, z);
        let c = nested(&COSINE, z);
        match quadrant {
            0 => (s, c),
            1 => (c, -s),
            2 => (-s, -c),
            _ => (-c, s),
        }
    }

    fn atan2(y: f64, x: f64) -> f64 {
        if y.is_nan() || x.is_nan() {
            return f64::NAN;
        }
        let (ay, ax) = (y.abs(), x.abs());
        let (smaller, larger) = if ay > ax { (ax, ay) } else { (ay, ax) };
        let u = if larger == 0.0 {
            0.0
        } else if smaller == f64::INFINITY {
            1.0
        } else {
            smaller / larger
        };
        let far = u > ARCTANGENT_THRESHOLD;
        let v = if far { (u - 1.0) / (u + 1.0) } else { u };
        let mut a = v * nested(&ARCTANGENT, v * v);
        if far {
            a += FRAC_PI_4;
        }
        if ay > ax {
            a = FRAC_PI_2 - a;
        }
        // The sign bits decide, so a minus zero counts as negative.
        if x.is_sign_negative() {
            a = PI - a;
        }
        if y.is_sign_negative() {
            a = -a;
        }
        a
    }

    fn cbrt(x: f64) -> f64 {
        nearest::cbrt(x)
    }

    fn modulus(z: Complex) -> f64 {
        if z.re.is_nan() || z.im.is_nan() {
            return f64::NAN;
        }
        let (a, b) = (z.re.abs(), z.im.abs());
        let (smaller, larger) = if a > b { (b, a) } else { (a, b) };
        if larger == 0.0 {
            return 0.0;
        }
        let ratio = smaller / larger;
        larger * (1.0 + ratio * ratio).sqrt()
    }

    fn complex_sqrt(z: Complex) -> Complex {
        let root = Self::modulus(z).sqrt();
        let (s, c) = Self::sin_cos(Self::atan2(z.im, z.re) / 2.0);
        Complex::new(root * c, root * s)
    }

    fn complex_cbrt(z: Complex) -> Complex {
        let root = Self::cbrt(Self::modulus(z));
        let (s, c) = Self::sin_cos(Self::atan2(z.im, z.re) / 3.0);
        Complex::new(root * c, root * s)
    }
}

impl Arith for Machine {
    #[inline]
    fn sin(x: f64) -> f64 {
        x.sin()
    }

    #[inline]
    fn cos(x: f64) -> f64 {
        x.cos()
    }

    #[inline]
    fn sin_cos(x: f64) -> (f64, f64) {
        x.sin_cos()
    }

    #[inline]
    fn atan2(y: f64, x: f64) -> f64 {
        y.atan2(x)
    }

    #[inline]
    fn cbrt(x: f64) -> f64 {
        x.cbrt()
    }

    #[inline]
    fn modulus(z: Complex) -> f64 {
        z.re.hypot(z.im)
    }

    /// The polar form, with num-complex's shortcuts on the two axes.
    fn complex_sqrt(z: Complex) -> Complex {
        if z.im == 0.0 {
            if z.re.is_sign_positive() {
                return Complex::new(z.re.sqrt(), z.im);
            }
            return Complex::new(0.0, (-z.re).sqrt().copysign(z.im));
        }
        if z.re == 0.0 {
            let x = (z.im.abs() / 2.0).sqrt();
            return Complex::new(x, x.copysign(z.im));
        }
        let (root, angle) = (Self::modulus(z).sqrt(), z.im.atan2(z.re) / 2.0);
        Complex::new(root * angle.cos(), root * angle.sin())
    }

    fn complex_cbrt(z: Complex) -> Complex {
        if z.im == 0.0 {
            if z.re.is_sign_positive() {
                return Complex::new(z.re.cbrt(), z.im);
            }
            let re = (-z.re).cbrt() / 2.0;
            let im = 3.0_f64.sqrt() * re;
            return Complex::new(re, im.copysign(z.im));
        }
        if z.re == 0.0 {
            let im = z.im.abs().cbrt() / 2.0;
            let re = 3.0_f64.sqrt() * im;
            return Complex::new(re, im.copysign(z.im));
        }
        let (root, angle) = (Self::modulus(z).cbrt(), z.im.atan2(z.re) / 3.0);
        Complex::new(root * angle.cos(), root * angle.sin())
    }
}

impl Arith for Nalgebra {
    const NALGEBRA_QR: bool = true;

    #[inline]
    fn sin(x: f64) -> f64 {
        Machine::sin(x)
    }

    #[inline]
    fn cos(x: f64) -> f64 {
        Machine::cos(x)
    }

    #[inline]
    fn sin_cos(x: f64) -> (f64, f64) {
        Machine::sin_cos(x)
    }

    #[inline]
    fn atan2(y: f64, x: f64) -> f64 {
        Machine::atan2(y, x)
    }

    #[inline]
    fn cbrt(x: f64) -> f64 {
        Machine::cbrt(x)
    }

    #[inline]
    fn modulus(z: Complex) -> f64 {
        Machine::modulus(z)
    }

    #[inline]
    fn complex_sqrt(z: Complex) -> Complex {
        Machine::complex_sqrt(z)
    }

    #[inline]
    fn complex_cbrt(z: Complex) -> Complex {
        Machine::complex_cbrt(z)
    }
}

/// x % TAU, plus TAU if that is below zero.
#[inline]
pub fn rem_euclid_tau(x: f64) -> f64 {
    let r = x % TAU;
    if r < 0.0 {
        r + TAU
    } else {
        r
    }
}

#[cfg(test)]
mod tests {
    use super::*;

    fn bits(x: f64) -> u64 {
        x.to_bits()
    }

    #[test]
    fn coefficients_are_one_division_each() {
        let mut factorial = 1.0;
        for j in 0..9 {
            let sign = if j % 2 == 0 { 1.0 } else { -1.0 };
            if j > 0 {
                factorial *= (2 * j) as f64;
            }
            assert_eq!(bits(COSINE[j]), bits(sign / factorial));
            factorial *= (2 * j + 1) as f64;
            assert_eq!(bits(SINE[j]), bits(sign / factorial));
        }
        for (j, c) in ARCTANGENT.iter().enumerate() {
            let sign = if j % 2 == 0 { 1.0 } else { -1.0 };
            assert_eq!(bits(*c), bits(sign / (2 * j + 1) as f64));
        }
    }

    #[test]
    fn halves_go_toward_zero() {
        assert_eq!(nearest_whole(0.5), 0);
        assert_eq!(nearest_whole(-0.5), 0);
        assert_eq!(nearest_whole(1.5), 1);
        assert_eq!(nearest_whole(-2.5), -2);
        assert_eq!(nearest_whole(2.5000000000000004), 3);
        assert_eq!(nearest_whole(-3.6), -4);
        // A quotient of exactly a half leaves the argument as it is.
        assert_eq!(reduce(FRAC_PI_4), (0, FRAC_PI_4));
    }

    #[test]
    fn special_angles_have_signed_zeros() {
        assert_eq!(bits(Rules::sin(-0.0)), bits(-0.0));
        assert_eq!(bits(Rules::sin(PI)), bits(-0.0));
        assert_eq!(bits(Rules::sin(-PI)), bits(-0.0));
        assert_eq!(bits(Rules::cos(FRAC_PI_2)), bits(-0.0));
        assert_eq!(bits(Rules::cos(-FRAC_PI_2)), bits(0.0));
        assert!(Rules::sin(f64::INFINITY).is_nan() && Rules::cos(f64::NAN).is_nan());
    }

    #[test]
    fn arctangent_goes_by_sign_bits() {
        assert_eq!(bits(Rules::atan2(0.0, -0.0)), bits(PI));
        assert_eq!(bits(Rules::atan2(-0.0, 0.0)), bits(-0.0));
        assert_eq!(bits(Rules::atan2(-0.0, -0.0)), bits(-PI));
        assert_eq!(bits(Rules::atan2(1.0, 0.0)), bits(FRAC_PI_2));
        assert_eq!(
            bits(Rules::atan2(f64::INFINITY, f64::INFINITY)),
            bits(FRAC_PI_4)
        );
        assert_eq!(bits(Rules::atan2(-3.0, f64::NEG_INFINITY)), bits(-PI));
    }

    #[test]
    fn rules_are_close_to_the_machine() {
        let mut x = -20.0;
        while x < 20.0 {
            assert!((Rules::sin(x) - x.sin()).abs() < 1e-14, "sin {x}");
            assert!((Rules::cos(x) - x.cos()).abs() < 1e-14, "cos {x}");
            let y = 0.37 * x + 1.0;
            assert!(
                (Rules::atan2(y, x) - y.atan2(x)).abs() < 1e-14,
                "atan2 {y} {x}"
            );
            x += 0.0137;
        }
    }

    #[test]
    fn complex_roots_have_no_special_cases() {
        let z = Rules::complex_sqrt(Complex::new(-3.0, 0.0));
        assert_eq!((bits(z.re), bits(z.im)), (bits(-0.0), bits(3.0_f64.sqrt())));
        assert!(Rules::modulus(Complex::new(f64::INFINITY, f64::INFINITY)).is_nan());
        assert_eq!(bits(Rules::modulus(Complex::new(-0.0, 0.0))), bits(0.0));
    }
}
