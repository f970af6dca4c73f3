//! Document 02's joint limits: refusal 10, and which answers leave the list.

use crate::linalg::Vector6;

const JOINTS: usize = 6;

/// Low then high, joint by joint.
pub const NUMBERS: usize = 2 * JOINTS;

/// The refusal of limits.
pub const REFUSED: u32 = 10;

/// A low and a high angle for each of six joints, as a call accepts them.
#[derive(Clone, Copy, Debug, PartialEq)]
pub struct Limits([(f64, f64); JOINTS]);

impl Limits {
    /// What a call is lent: twelve numbers or none, or refusal 10, which is also given where one of
    /// the twelve is not finite or a low is above its high. Minus zero equals zero.
    pub fn judge(lent: &[f64]) -> Result<Option<Limits>, u32> {
        if lent.is_empty() {
            return Ok(None);
        }
        let numbers: &[f64; NUMBERS] = lent.try_into().map_err(|_| REFUSED)?;
        let joints = std::array::from_fn(|joint| (numbers[2 * joint], numbers[2 * joint + 1]));
        if numbers.iter().any(|x| !x.is_finite()) || joints.iter().any(|(low, high)| low > high) {
            return Err(REFUSED);
        }
        Ok(Some(Limits(joints)))
    }

    /// An end counts as inside, a NaN as outside. The angles are taken as they stand.
    pub fn admit(&self, angles: &Vector6) -> bool {
        let mut joints = self.0.iter().zip(angles.iter());
        joints.all(|(&(low, high), q)| low <= q && q <= high)
    }
}

#[cfg(test)]
mod tests {
    use super::*;
    use crate::odd::nudged;
    use std::f64::consts::{PI, TAU};

    const WIDE: [f64; NUMBERS] = [
        -4.0, 4.0, -4.0, 4.0, -4.0, 4.0, -4.0, 4.0, -4.0, 4.0, -4.0, 4.0,
    ];

    fn with(joint: usize, low: f64, high: f64) -> [f64; NUMBERS] {
        let mut numbers = WIDE;
        (numbers[2 * joint], numbers[2 * joint + 1]) = (low, high);
        numbers
    }

    fn refused(numbers: &[f64]) -> bool {
        Limits::judge(numbers) == Err(REFUSED)
    }

    /// Whether an answer that has q at the joint and zeros elsewhere stays.
    fn stays(numbers: &[f64; NUMBERS], joint: usize, q: f64) -> bool {
        let mut angles = [0.0; JOINTS];
        angles[joint] = q;
        let limits = Limits::judge(numbers).unwrap().unwrap();
        limits.admit(&Vector6::from(angles))
    }

    #[test]
    fn neither_twelve_numbers_nor_none_is_refused() {
        assert_eq!(Limits::judge(&[]), Ok(None));
        assert!(matches!(Limits::judge(&WIDE), Ok(Some(_))));
        let long = [WIDE, WIDE].concat();
        for length in (1..=24).filter(|&length| length != NUMBERS) {
            assert!(refused(&long[..length]), "{length} numbers");
        }
    }

    #[test]
    fn a_limit_that_is_not_finite_is_refused() {
        for at in 0..NUMBERS {
            for bad in [f64::NAN, -f64::NAN, f64::INFINITY, f64::NEG_INFINITY] {
                let mut numbers = WIDE;
                numbers[at] = bad;
                assert!(refused(&numbers), "{bad} at {at}");
            }
            let mut numbers = WIDE;
            numbers[at] = if at % 2 == 0 { f64::MIN } else { f64::MAX };
            assert!(!refused(&numbers));
        }
    }

    #[test]
    fn a_low_above_its_high_is_refused_and_equal_ends_are_not() {
        for joint in 0..JOINTS {
            assert!(refused(&with(joint, nudged(1.0, 1), 1.0)));
            assert!(!refused(&with(joint, 1.0, 1.0)));
            assert!(!refused(&with(joint, 1.0, nudged(1.0, 1))));
            assert!(!refused(&with(joint, 0.0, -0.0)));
            assert!(!refused(&with(joint, -0.0, 0.0)));
            assert!(refused(&with(joint, f64::from_bits(1), -0.0)));
            assert!(refused(&with(joint, 0.0, -f64::from_bits(1))));
        }
        // A low may be above another joint's high.
        assert!(!refused(&[
            1.0, 2.0, -2.0, -1.0, 3.0, 3.0, -3.0, -3.0, 0.0, 0.0, 5.0, 6.0
        ]));
    }

    #[test]
    fn an_end_counts_as_inside() {
        for joint in 0..JOINTS {
            let numbers = with(joint, -0.5, 1.5);
            assert!(stays(&numbers, joint, -0.5) && stays(&numbers, joint, 1.5));
            assert!(stays(&numbers, joint, nudged(-0.5, -1)));
            assert!(stays(&numbers, joint, nudged(1.5, -1)));
            assert!(!stays(&numbers, joint, nudged(-0.5, 1)));
            assert!(!stays(&numbers, joint, nudged(1.5, 1)));
            let numbers = with(joint, 1.5, 1.5);
            assert!(stays(&numbers, joint, 1.5));
            assert!(!stays(&numbers, joint, nudged(1.5, 1)));
            assert!(!stays(&numbers, joint, nudged(1.5, -1)));
        }
    }

    #[test]
    fn zeros_of_both_signs_are_equal() {
        for (low, high) in [(0.0, 0.0), (-0.0, -0.0), (-0.0, 0.0), (0.0, -0.0)] {
            let numbers = with(4, low, high);
            assert!(stays(&numbers, 4, 0.0) && stays(&numbers, 4, -0.0));
            assert!(!stays(&numbers, 4, f64::from_bits(1)));
            assert!(!stays(&numbers, 4, -f64::from_bits(1)));
        }
    }

    #[test]
    fn a_nan_counts_as_outside() {
        let mut widest = [f64::MAX; NUMBERS];
        widest.iter_mut().step_by(2).for_each(|low| *low = f64::MIN);
        for joint in 0..JOINTS {
            assert!(stays(&widest, joint, f64::MAX) && stays(&widest, joint, f64::MIN));
            assert!(!stays(&widest, joint, f64::NAN) && !stays(&widest, joint, -f64::NAN));
            assert!(!stays(&widest, joint, f64::INFINITY));
            assert!(!stays(&widest, joint, f64::NEG_INFINITY));
        }
    }

    #[test]
    fn nothing_is_turned() {
        let numbers = with(2, PI, 3.0 * PI);
        assert!(stays(&numbers, 2, TAU));
        assert!(!stays(&numbers, 2, 0.0));
    }
}
