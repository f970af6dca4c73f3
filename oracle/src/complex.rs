//! The operations of num-complex that the solvers use, as document 01 fixes them.

use crate::arith::Arith;
use std::ops::{Add, Div, Mul, Neg, Sub};

#[derive(Clone, Copy, Debug, PartialEq)]
pub struct Complex {
    pub re: f64,
    pub im: f64,
}

impl Complex {
    #[inline]
    pub const fn new(re: f64, im: f64) -> Self {
        Complex { re, im }
    }

    #[inline]
    pub const fn from_real(re: f64) -> Self {
        Complex { re, im: 0.0 }
    }

    /// The modulus, named as nalgebra names it.
    #[inline]
    pub fn abs<A: Arith>(self) -> f64 {
        A::modulus(self)
    }

    #[inline]
    pub fn sqrt<A: Arith>(self) -> Self {
        A::complex_sqrt(self)
    }

    #[inline]
    pub fn cbrt<A: Arith>(self) -> Self {
        A::complex_cbrt(self)
    }
}

impl Add for Complex {
    type Output = Complex;
    #[inline]
    fn add(self, other: Complex) -> Complex {
        Complex::new(self.re + other.re, self.im + other.im)
    }
}

impl Sub for Complex {
    type Output = Complex;
    #[inline]
    fn sub(self, other: Complex) -> Complex {
        Complex::new(self.re - other.re, self.im - other.im)
    }
}

impl Neg for Complex {
    type Output = Complex;
    #[inline]
    fn neg(self) -> Complex {
        Complex::new(-self.re, -self.im)
    }
}

impl Mul for Complex {
    type Output = Complex;
    #[inline]
    fn mul(self, other: Complex) -> Complex {
        Complex::new(
            self.re * other.re - self.im * other.im,
            self.re * other.im + self.im * other.re,
        )
    }
}

/// Multiplies by the conjugate, then divides both parts by the sum of squares, unscaled.
impl Div for Complex {
    type Output = Complex;
    #[inline]
    fn div(self, other: Complex) -> Complex {
        let product = self * Complex::new(other.re, -other.im);
        let squares = other.re * other.re + other.im * other.im;
        Complex::new(product.re / squares, product.im / squares)
    }
}

impl Mul<Complex> for f64 {
    type Output = Complex;
    #[inline]
    fn mul(self, z: Complex) -> Complex {
        Complex::new(self * z.re, self * z.im)
    }
}

impl Div<f64> for Complex {
    type Output = Complex;
    #[inline]
    fn div(self, s: f64) -> Complex {
        Complex::new(self.re / s, self.im / s)
    }
}

/// A real divided by a complex number is first given imaginary part 0.
impl Div<Complex> for f64 {
    type Output = Complex;
    #[inline]
    fn div(self, z: Complex) -> Complex {
        Complex::from_real(self) / z
    }
}
