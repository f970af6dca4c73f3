//! The QR of nalgebra 0.33.2 for a matrix of 4 by 2, in its order of operations. Document 01 has a
//! rule of its own in its place.
//!
//! What differs: an axis is brought to length 1, twice; R's diagonal has the norms themselves; and
//! with the sign of a diagonal entry all rows from that one on are multiplied, and so the null
//! vectors too.

use crate::linalg::{Matrix2, Matrix4, Matrix4x2, Qr};

/// A column from some row on.
type Part<'a> = &'a mut [f64];

/// householder::reflection_axis_mut: the part becomes the axis. Gives the entry that reflecting leads
/// to, and whether there is anything to reflect.
fn reflection_axis(part: Part) -> (f64, bool) {
    let squares = dot(part, part);
    let norm = squares.sqrt();
    let (modulus, sign) = if part[0] >= 0.0 {
        (part[0], 1.0)
    } else {
        (-part[0], -1.0)
    };
    let signed_norm = sign * norm;
    let factor = (squares + modulus * norm) * 2.0;
    part[0] += signed_norm;
    if factor == 0.0 {
        return (signed_norm, false);
    }
    let root = factor.sqrt();
    part.iter_mut().for_each(|x| *x /= root);
    let norm = dot(part, part).sqrt();
    part.iter_mut().for_each(|x| *x /= norm);
    (-signed_norm, true)
}

/// Reflection::reflect_with_sign, of one column.
fn reflect(part: Part, axis: &[f64], sign: f64) {
    let factor = dot(axis, part) * (sign * -2.0);
    for (y, x) in part.iter_mut().zip(axis) {
        *y = factor * x + sign * *y;
    }
}

/// Of a length that is not known beforehand, as nalgebra sums it: from 0.0 on.
fn dot(a: &[f64], b: &[f64]) -> f64 {
    a.iter().zip(b).fold(0.0, |sum, (x, y)| sum + x * y)
}

/// QR::new, QR::r, and QR::q_tr_mul of the identity, transposed.
pub fn qr(a: &Matrix4x2) -> Qr {
    let column = |j: usize| std::array::from_fn(|i| a[(i, j)]);
    let (mut first, mut second): ([f64; 4], [f64; 4]) = (column(0), column(1));
    let (d0, reflects) = reflection_axis(&mut first);
    if reflects {
        reflect(&mut second, &first, d0.signum());
    }
    let (d1, _) = reflection_axis(&mut second[1..]);
    let q_transposed: [[f64; 4]; 4] = std::array::from_fn(|j| {
        let mut w = std::array::from_fn(|i| if i == j { 1.0 } else { 0.0 });
        reflect(&mut w, &first, d0.signum());
        reflect(&mut w[1..], &second[1..], d1.signum());
        w
    });
    Qr {
        q: Matrix4::from_entries(|i, j| q_transposed[i][j]),
        r: Matrix2::new(d0.abs(), second[0], 0.0, d1.abs()),
    }
}

#[cfg(test)]
mod tests {
    use super::*;
    use crate::linalg::{self, Vector4};

    /// Both have the same factors but for rounding and the null vectors' sign, which is that of
    /// document 01's second diagonal entry.
    #[test]
    fn null_vectors_turn_with_the_second_diagonal_entry() {
        for first in [1.0, -1.0, 0.0] {
            for (leading, turned) in [(1.0, true), (-1.0, false)] {
                let a = Matrix4x2::from_columns(&[
                    Vector4::new(first, 0.0, 0.0, 2.0),
                    Vector4::new(0.25, leading, 1.0, 0.0),
                ]);
                let (rules, other) = (linalg::qr(&a), qr(&a));
                let near = |x: f64, y: f64| assert!((x - y).abs() < 1e-15, "{x} {y}");
                for (x, y) in rules.r.by_rows().zip(other.r.by_rows()) {
                    near(x, y);
                }
                for j in 0..4 {
                    let sign = if turned && j >= 2 { -1.0 } else { 1.0 };
                    for i in 0..4 {
                        near(sign * rules.q[(i, j)], other.q[(i, j)]);
                    }
                }
            }
        }
    }
}
