//! The operations of nalgebra that the solvers use, in the order document 01 fixes: every sum
//! starts with its first term and goes on to its last, and each operation rounds by itself.
//!
//! As in nalgebra a vector is a matrix of one column, the storage goes by columns, and a single
//! index counts along them.

use std::array::from_fn;
use std::ops::{Add, AddAssign, Div, Index, IndexMut, Mul, MulAssign, Neg, Sub};

#[derive(Clone, Copy, Debug, PartialEq)]
pub struct Matrix<const R: usize, const C: usize> {
    columns: [[f64; R]; C],
}

pub type Vector2 = Matrix<2, 1>;
pub type Vector3 = Matrix<3, 1>;
pub type Vector4 = Matrix<4, 1>;
pub type Vector5 = Matrix<5, 1>;
pub type Vector6 = Matrix<6, 1>;
pub type Vector7 = Matrix<7, 1>;
pub type Matrix2 = Matrix<2, 2>;
pub type Matrix3 = Matrix<3, 3>;
pub type Matrix3x2 = Matrix<3, 2>;
pub type Matrix2x4 = Matrix<2, 4>;
pub type Matrix4x2 = Matrix<4, 2>;
pub type Matrix4 = Matrix<4, 4>;

impl<const R: usize, const C: usize> Matrix<R, C> {
    /// The matrix whose entry in row i and column j is `entry(i, j)`.
    #[inline]
    pub fn from_entries(entry: impl Fn(usize, usize) -> f64) -> Self {
        Matrix {
            columns: from_fn(|j| from_fn(|i| entry(i, j))),
        }
    }

    #[inline]
    pub fn zeros() -> Self {
        Self::from_element(0.0)
    }

    #[inline]
    pub fn from_element(x: f64) -> Self {
        Matrix {
            columns: [[x; R]; C],
        }
    }

    #[inline]
    pub fn from_columns(columns: &[Matrix<R, 1>; C]) -> Self {
        Matrix {
            columns: from_fn(|j| columns[j].columns[0]),
        }
    }

    #[inline]
    pub fn from_rows(rows: &[Matrix<1, C>; R]) -> Self {
        Self::from_entries(|i, j| rows[i][j])
    }

    #[inline]
    pub fn column(&self, j: usize) -> Matrix<R, 1> {
        Matrix {
            columns: [self.columns[j]],
        }
    }

    #[inline]
    pub fn set_column(&mut self, j: usize, column: &Matrix<R, 1>) {
        self.columns[j] = column.columns[0];
    }

    #[inline]
    pub fn fixed_rows<const K: usize>(&self, start: usize) -> Matrix<K, C> {
        Matrix::from_entries(|i, j| self[(start + i, j)])
    }

    #[inline]
    pub fn fixed_columns<const K: usize>(&self, start: usize) -> Matrix<R, K> {
        Matrix {
            columns: from_fn(|j| self.columns[start + j]),
        }
    }

    /// The sum of the columns, from the first to the last.
    #[inline]
    pub fn column_sum(&self) -> Matrix<R, 1> {
        let mut sum = self.column(0);
        for j in 1..C {
            sum += self.column(j);
        }
        sum
    }

    #[inline]
    pub fn transpose(&self) -> Matrix<C, R> {
        Matrix::from_entries(|i, j| self[(j, i)])
    }

    #[inline]
    pub fn iter(&self) -> impl Iterator<Item = f64> + '_ {
        self.columns.iter().flatten().copied()
    }

    /// Entries by rows, as the test records have them.
    #[inline]
    pub fn by_rows(&self) -> impl Iterator<Item = f64> + '_ {
        (0..R * C).map(|n| self[(n / C, n % C)])
    }

    /// The sum of products along the storage, from the first term to the last.
    #[inline]
    pub fn dot(&self, other: &Self) -> f64 {
        let mut sum = self[0] * other[0];
        for n in 1..R * C {
            sum += self[n] * other[n];
        }
        sum
    }

    #[inline]
    pub fn norm_squared(&self) -> f64 {
        self.dot(self)
    }

    #[inline]
    pub fn norm(&self) -> f64 {
        self.norm_squared().sqrt()
    }

    #[inline]
    pub fn normalize(&self) -> Self {
        *self / self.norm()
    }

    #[inline]
    fn map(&self, f: impl Fn(f64) -> f64) -> Self {
        Matrix {
            columns: from_fn(|j| from_fn(|i| f(self.columns[j][i]))),
        }
    }

    #[inline]
    fn zip(&self, other: &Self, f: impl Fn(f64, f64) -> f64) -> Self {
        Matrix {
            columns: from_fn(|j| from_fn(|i| f(self.columns[j][i], other.columns[j][i]))),
        }
    }

    /// The entry in row i and column j is the dot product of that row and that column.
    #[inline]
    fn product<const K: usize>(&self, other: &Matrix<C, K>) -> Matrix<R, K> {
        Matrix::from_entries(|i, j| {
            let mut sum = self[(i, 0)] * other[(0, j)];
            for n in 1..C {
                sum += self[(i, n)] * other[(n, j)];
            }
            sum
        })
    }
}

impl<const N: usize> Matrix<N, N> {
    #[inline]
    pub fn identity() -> Self {
        Self::from_entries(|i, j| if i == j { 1.0 } else { 0.0 })
    }
}

impl<const N: usize> From<[f64; N]> for Matrix<N, 1> {
    #[inline]
    fn from(entries: [f64; N]) -> Self {
        Matrix { columns: [entries] }
    }
}

impl Vector2 {
    #[inline]
    pub const fn new(x: f64, y: f64) -> Self {
        Matrix { columns: [[x, y]] }
    }
}

impl Vector3 {
    #[inline]
    pub const fn new(x: f64, y: f64, z: f64) -> Self {
        Matrix {
            columns: [[x, y, z]],
        }
    }

    #[inline]
    pub fn cross(&self, other: &Vector3) -> Vector3 {
        let ([x1, y1, z1], [x2, y2, z2]) = (self.columns[0], other.columns[0]);
        Vector3::new(y1 * z2 - z1 * y2, z1 * x2 - x1 * z2, x1 * y2 - y1 * x2)
    }
}

impl Vector4 {
    #[inline]
    pub const fn new(a: f64, b: f64, c: f64, d: f64) -> Self {
        Matrix {
            columns: [[a, b, c, d]],
        }
    }
}

impl Vector5 {
    #[inline]
    pub const fn new(a: f64, b: f64, c: f64, d: f64, e: f64) -> Self {
        Matrix {
            columns: [[a, b, c, d, e]],
        }
    }
}

impl Vector6 {
    #[inline]
    pub const fn new(a: f64, b: f64, c: f64, d: f64, e: f64, f: f64) -> Self {
        Matrix {
            columns: [[a, b, c, d, e, f]],
        }
    }
}

impl Matrix2 {
    /// From the entries by rows.
    #[inline]
    pub const fn new(a: f64, b: f64, c: f64, d: f64) -> Self {
        Matrix {
            columns: [[a, c], [b, d]],
        }
    }
}

impl Matrix3 {
    /// From the entries by rows.
    #[inline]
    #[allow(clippy::too_many_arguments)]
    pub const fn new(
        a: f64,
        b: f64,
        c: f64,
        d: f64,
        e: f64,
        f: f64,
        g: f64,
        h: f64,
        i: f64,
    ) -> Self {
        Matrix {
            columns: [[a, d, g], [b, e, h], [c, f, i]],
        }
    }
}

impl<const R: usize, const C: usize> Index<(usize, usize)> for Matrix<R, C> {
    type Output = f64;
    #[inline]
    fn index(&self, (i, j): (usize, usize)) -> &f64 {
        &self.columns[j][i]
    }
}

impl<const R: usize, const C: usize> IndexMut<(usize, usize)> for Matrix<R, C> {
    #[inline]
    fn index_mut(&mut self, (i, j): (usize, usize)) -> &mut f64 {
        &mut self.columns[j][i]
    }
}

impl<const R: usize, const C: usize> Index<usize> for Matrix<R, C> {
    type Output = f64;
    #[inline]
    fn index(&self, n: usize) -> &f64 {
        &self.columns[n / R][n % R]
    }
}

impl<const R: usize, const C: usize> IndexMut<usize> for Matrix<R, C> {
    #[inline]
    fn index_mut(&mut self, n: usize) -> &mut f64 {
        &mut self.columns[n / R][n % R]
    }
}

/// Operators on values and references alike, as nalgebra has them.
macro_rules! entry_by_entry {
    ($op:ident, $name:ident, $sign:tt, $($left:ty, $right:ty);+) => { $(
        impl<const R: usize, const C: usize> $op<$right> for $left {
            type Output = Matrix<R, C>;
            #[inline]
            fn $name(self, other: $right) -> Matrix<R, C> {
                self.zip(&other, |a, b| a $sign b)
            }
        }
    )+ };
}

entry_by_entry!(Add, add, +,
    Matrix<R, C>, Matrix<R, C>; Matrix<R, C>, &Matrix<R, C>;
    &Matrix<R, C>, Matrix<R, C>; &Matrix<R, C>, &Matrix<R, C>);
entry_by_entry!(Sub, sub, -,
    Matrix<R, C>, Matrix<R, C>; Matrix<R, C>, &Matrix<R, C>;
    &Matrix<R, C>, Matrix<R, C>; &Matrix<R, C>, &Matrix<R, C>);

macro_rules! matrix_product {
    ($($left:ty, $right:ty);+) => { $(
        impl<const R: usize, const C: usize, const K: usize> Mul<$right> for $left {
            type Output = Matrix<R, K>;
            #[inline]
            fn mul(self, other: $right) -> Matrix<R, K> {
                self.product(&other)
            }
        }
    )+ };
}

matrix_product!(
    Matrix<R, C>, Matrix<C, K>; Matrix<R, C>, &Matrix<C, K>;
    &Matrix<R, C>, Matrix<C, K>; &Matrix<R, C>, &Matrix<C, K>);

macro_rules! by_scalar {
    ($($matrix:ty),+) => { $(
        impl<const R: usize, const C: usize> Mul<f64> for $matrix {
            type Output = Matrix<R, C>;
            #[inline]
            fn mul(self, s: f64) -> Matrix<R, C> {
                self.map(|a| a * s)
            }
        }

        impl<const R: usize, const C: usize> Mul<$matrix> for f64 {
            type Output = Matrix<R, C>;
            #[inline]
            fn mul(self, m: $matrix) -> Matrix<R, C> {
                m.map(|a| self * a)
            }
        }

        impl<const R: usize, const C: usize> Neg for $matrix {
            type Output = Matrix<R, C>;
            #[inline]
            fn neg(self) -> Matrix<R, C> {
                self.map(|a| -a)
            }
        }

        impl<const R: usize, const C: usize> Div<f64> for $matrix {
            type Output = Matrix<R, C>;
            #[inline]
            fn div(self, s: f64) -> Matrix<R, C> {
                self.map(|a| a / s)
            }
        }
    )+ };
}

by_scalar!(Matrix<R, C>, &Matrix<R, C>);

impl<const R: usize, const C: usize> AddAssign for Matrix<R, C> {
    #[inline]
    fn add_assign(&mut self, other: Self) {
        *self = *self + other;
    }
}

impl<const N: usize> MulAssign for Matrix<N, N> {
    #[inline]
    fn mul_assign(&mut self, other: Self) {
        *self = *self * other;
    }
}

/// The QR factors of a 4 by 2 matrix: the whole of Q, and R's upper rows.
pub struct Qr {
    pub q: Matrix4,
    pub r: Matrix2,
}

/// Document 01's Householder QR, column by column on the part from the diagonal down.
pub fn qr(a: &Matrix4x2) -> Qr {
    let mut r = *a;
    let mut q_transposed = Matrix4::identity();

    for diagonal in 0..2 {
        if let Some(v) = reflector(&r, diagonal) {
            reflect(&mut r, &v, diagonal);
            reflect(&mut q_transposed, &v, diagonal);
        }
    }

    let mut q = q_transposed.transpose();
    for diagonal in 0..2 {
        // Exactly below zero: a minus zero and a NaN stay as they are.
        if r[(diagonal, diagonal)] < 0.0 {
            for j in 0..2 {
                r[(diagonal, j)] = -r[(diagonal, j)];
            }
            for i in 0..4 {
                q[(i, diagonal)] = -q[(i, diagonal)];
            }
        }
    }

    Qr {
        q,
        r: r.fixed_rows::<2>(0),
    }
}

/// The column's part from the diagonal down, with its norm added to the leading entry with that
/// entry's sign; none for a part whose every entry is zero. Only the entries from `diagonal` on
/// are meant.
#[inline]
fn reflector(r: &Matrix4x2, diagonal: usize) -> Option<[f64; 4]> {
    let mut v: [f64; 4] = from_fn(|i| r[(i, diagonal)]);
    if v[diagonal..].iter().all(|&x| x == 0.0) {
        return None;
    }
    let norm = dot(&v[diagonal..], &v[diagonal..]).sqrt();
    let leading = v[diagonal];
    v[diagonal] = if leading < 0.0 {
        leading - norm
    } else {
        leading + norm
    };
    Some(v)
}

/// Each column w becomes w - v × (2 × (v·w) / (v·v)), in the rows from `diagonal` on.
#[inline]
fn reflect<const C: usize>(m: &mut Matrix<4, C>, v: &[f64; 4], diagonal: usize) {
    let v_v = dot(&v[diagonal..], &v[diagonal..]);
    for w in m.columns.iter_mut() {
        let factor = 2.0 * dot(&v[diagonal..], &w[diagonal..]) / v_v;
        for i in diagonal..4 {
            w[i] -= v[i] * factor;
        }
    }
}

#[inline]
fn dot(a: &[f64], b: &[f64]) -> f64 {
    let mut sum = a[0] * b[0];
    for i in 1..a.len() {
        sum += a[i] * b[i];
    }
    sum
}

#[cfg(test)]
mod tests {
    use super::*;

    #[test]
    fn sums_start_with_their_first_term() {
        let minus = Vector3::new(-0.0, -0.0, -0.0);
        let one = Vector3::new(1.0, 1.0, 1.0);
        assert_eq!(minus.dot(&one).to_bits(), (-0.0_f64).to_bits());
        assert_eq!((minus.transpose() * one)[0].to_bits(), (-0.0_f64).to_bits());
        let sum = Matrix3::from_columns(&[minus, minus, minus]).column_sum();
        assert_eq!(sum[2].to_bits(), (-0.0_f64).to_bits());
    }

    #[test]
    fn products_and_indices() {
        let a = Matrix3::new(1.0, 2.0, 3.0, 4.0, 5.0, 6.0, 7.0, 8.0, 10.0);
        assert_eq!(a[(0, 2)], 3.0);
        assert_eq!(a[1], 4.0);
        assert_eq!(
            a * Vector3::new(1.0, 0.0, -1.0),
            Vector3::new(-2.0, -2.0, -3.0)
        );
        assert_eq!((a * Matrix3::identity()).transpose().transpose(), a);
        let e = Vector3::new(1.0, 0.0, 0.0);
        assert_eq!(
            e.cross(&Vector3::new(0.0, 1.0, 0.0)),
            Vector3::new(0.0, 0.0, 1.0)
        );
    }

    #[test]
    fn qr_gives_back_the_matrix() {
        let a = Matrix4x2::from_columns(&[
            Vector4::new(-1.0, 2.0, 0.5, 3.0),
            Vector4::new(4.0, -1.0, 2.0, 0.25),
        ]);
        let Qr { q, r } = qr(&a);
        let back = q.fixed_columns::<2>(0) * Matrix2::new(r[(0, 0)], r[(0, 1)], 0.0, r[(1, 1)]);
        for n in 0..8 {
            assert!((back[n] - a[n]).abs() < 1e-14);
        }
        assert!(r[(0, 0)] > 0.0 && r[(1, 1)] > 0.0);
        let unit = q.transpose() * q - Matrix4::identity();
        assert!(unit.iter().all(|x| x.abs() < 1e-15));
    }

    #[test]
    fn qr_skips_a_zero_part_only() {
        let zero = Vector4::new(-0.0, 0.0, 0.0, -0.0);
        let Qr { q, r } = qr(&Matrix4x2::from_columns(&[zero, zero]));
        assert_eq!(q, Matrix4::identity());
        assert_eq!(r[(0, 0)].to_bits(), (-0.0_f64).to_bits());
        // Squares that underflow do not make a part zero.
        let tiny = Vector4::new(1e-200, 0.0, 0.0, 0.0);
        assert!(qr(&Matrix4x2::from_columns(&[tiny, zero])).r[(0, 0)].is_nan());
    }
}
