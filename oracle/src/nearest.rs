//! The real cube root that is the nearest f64 by construction.
//!
//! The machine's cube root is only a guess here. Whole-number arithmetic then decides whether the
//! argument lies between the cubes of the two midpoints beside the guess, and moves the guess
//! until it does. A tie cannot happen: a midpoint has 54 significant bits, so its cube has more
//! than 53, and no f64 equals it.

use std::cmp::Ordering;

/// A whole number below 2^256, as its upper and lower halves; tuples compare as it does.
type Wide = (u128, u128);

/// A finite positive f64 as m × 2^e with a whole m below 2^53.
pub fn decompose(x: f64) -> (u64, i32) {
    let bits = x.to_bits();
    let field = (bits >> 52) as i32 & 0x7ff;
    let fraction = bits & ((1 << 52) - 1);
    if field == 0 {
        (fraction, -1074)
    } else {
        (fraction | (1 << 52), field - 1075)
    }
}

/// h^3 for h below 2^55.
fn cube(h: u64) -> Wide {
    let h = h as u128;
    let square = h * h;
    let low = (square & u64::MAX as u128) * h;
    let high = (square >> 64) * h;
    let (sum, carry) = (high << 64).overflowing_add(low);
    ((high >> 64) + carry as u128, sum)
}

/// m × 2^shift for 0 <= shift <= 200.
fn shifted(m: u64, shift: u32) -> Wide {
    let m = m as u128;
    if shift >= 128 {
        (m << (shift - 128), 0)
    } else if shift == 0 {
        (0, m)
    } else {
        (m >> (128 - shift), m << shift)
    }
}

/// Compares m × 2^e with (h × 2^g)^3, for m from 1 to 2^53 and h from 2^52 to 2^55.
fn compare_with_cube(m: u64, e: i32, h: u64, g: i32) -> Ordering {
    let shift = e - 3 * g;
    if shift < 0 {
        Ordering::Less
    } else if shift > 200 {
        Ordering::Greater
    } else {
        shifted(m, shift as u32).cmp(&cube(h))
    }
}

/// The midpoint between a normal y and the f64 above it, as h × 2^g.
fn midpoint_above(y: f64) -> (u64, i32) {
    let (m, e) = decompose(y);
    (2 * m + 1, e - 1)
}

/// The midpoint between a normal y and the f64 below it. Below a power of two the f64s lie twice
/// as dense.
fn midpoint_below(y: f64) -> (u64, i32) {
    let (m, e) = decompose(y);
    if m == 1 << 52 {
        (4 * m - 1, e - 2)
    } else {
        (2 * m - 1, e - 1)
    }
}

/// The f64 nearest to the cube root of `x`; zeros, infinities and NaN are their own. The root of
/// every other number, subnormals too, is normal.
pub fn cbrt(x: f64) -> f64 {
    if x == 0.0 || !x.is_finite() {
        return x;
    }
    let (m, e) = decompose(x.abs());
    let mut y = x.abs().cbrt();
    loop {
        let (h, g) = midpoint_above(y);
        if compare_with_cube(m, e, h, g) == Ordering::Greater {
            y = y.next_up();
            continue;
        }
        let (h, g) = midpoint_below(y);
        if compare_with_cube(m, e, h, g) == Ordering::Less {
            y = y.next_down();
            continue;
        }
        return y.copysign(x);
    }
}

#[cfg(test)]
mod tests {
    use super::*;
    use crate::rng::{power_of_two, Rng};

    /// The nearest cube root digit by digit, with no guess: the largest r of 54 bits whose cube
    /// is not above the scaled argument, rounded by its last bit.
    fn cbrt_by_digits(x: f64) -> f64 {
        let (mut m, mut e) = decompose(x.abs());
        let up = m.leading_zeros() - 11;
        m <<= up;
        e -= up as i32;
        // m has 53 bits; choose the shift so that the exponent left is a multiple of three and
        // the root has exactly 54 bits (its cube 160 to 162).
        let mut shift = 107;
        while (e - shift) % 3 != 0 {
            shift += 1;
        }
        let scaled = shifted(m, shift as u32);
        let mut r = 0u64;
        for bit in (0..54).rev() {
            if cube(r | 1 << bit) <= scaled {
                r |= 1 << bit;
            }
        }
        assert_eq!(r >> 53, 1);
        let rounded = (r >> 1) + (r & 1);
        (rounded as f64 * power_of_two((e - shift) / 3 + 1)).copysign(x)
    }

    /// Whether y is the nearest f64 to the square root of the finite positive x.
    fn sqrt_is_nearest(x: f64, y: f64) -> bool {
        let (m, e) = decompose(x);
        let compare = |(h, g): (u64, i32)| {
            let shift = e - 2 * g;
            assert!((0..=110).contains(&shift));
            ((m as u128) << shift).cmp(&(h as u128 * h as u128))
        };
        compare(midpoint_above(y)) == Ordering::Less
            && compare(midpoint_below(y)) == Ordering::Greater
    }

    fn any_positive(rng: &mut Rng) -> f64 {
        loop {
            let x = f64::from_bits(rng.next() >> 1);
            if x.is_finite() && x > 0.0 {
                return x;
            }
        }
    }

    #[test]
    fn cube_root_agrees_with_digits() {
        let mut rng = Rng::new(1);
        for _ in 0..20_000 {
            let x = any_positive(&mut rng);
            assert_eq!(cbrt(x).to_bits(), cbrt_by_digits(x).to_bits(), "{x:e}");
            assert_eq!(cbrt(-x).to_bits(), (-cbrt(x)).to_bits());
        }
        for x in [
            f64::MIN_POSITIVE,
            f64::MAX,
            5e-324,
            1.0,
            8.0,
            27.0,
            power_of_two(-1072),
        ] {
            for x in [x.next_down().max(5e-324), x, x.next_up().min(f64::MAX)] {
                assert_eq!(cbrt(x).to_bits(), cbrt_by_digits(x).to_bits(), "{x:e}");
            }
        }
    }

    #[test]
    fn cube_root_of_cubes_and_specials() {
        for k in 1..2000_u64 {
            assert_eq!(cbrt((k * k * k) as f64), k as f64);
        }
        assert_eq!(cbrt(-0.0).to_bits(), (-0.0_f64).to_bits());
        assert_eq!(cbrt(f64::NEG_INFINITY), f64::NEG_INFINITY);
        assert!(cbrt(f64::NAN).is_nan());
    }

    #[test]
    fn square_root_is_nearest() {
        let mut rng = Rng::new(2);
        for _ in 0..20_000 {
            let x = any_positive(&mut rng);
            assert!(sqrt_is_nearest(x, x.sqrt()), "{x:e}");
        }
        for x in [f64::MIN_POSITIVE, f64::MAX, 5e-324, 2.0, 3.0, 4.0] {
            assert!(sqrt_is_nearest(x, x.sqrt()), "{x:e}");
        }
    }
}
