//! Records of family 6's searches, whole: every pair with what added it, and its answer.
//! `oracle layout` has their words.

use crate::{
    arith::Arith,
    block::canonical_bits,
    generate::Sample,
    inverse_kinematics::{
        auxiliary::{DipPart, DipTest, Kinematics, Origin},
        two_parallel, two_parallel_search,
    },
    solve::pose_parts,
};

pub fn record<A: Arith>(sample: &Sample) -> Vec<u64> {
    let (r, p) = pose_parts(&sample.pose);
    let kin = Kinematics::from_arm(&sample.arm);
    let n = sample.n as usize;
    let search = two_parallel_search::<A>(&r, &p, &kin, n);
    let (angles, flags, evaluations) = two_parallel::<A>(&r, &p, &kin, n);
    assert!(angles.len() == search.zeros.len() && evaluations == search.evaluations);

    let mut words = vec![sample.n];
    words.extend(sample.arm.iter().chain(&sample.pose).map(|x| x.to_bits()));
    words.extend([search.zeros.len() as u64, evaluations]);
    for (found, (angles, flag)) in search.zeros.iter().zip(angles.iter().zip(flags)) {
        words.extend([canonical_bits(found.x), found.component as u64]);
        words.extend(origin_words(found.origin));
        words.extend(angles.iter().map(canonical_bits));
        words.push(flag as u64);
    }
    words
}

/// The row, the kind of place, the index, the part.
fn origin_words(origin: Origin) -> [u64; 4] {
    let (row, place, index, part) = match origin {
        Origin::Crossing { k } => (0, 0, k, 0),
        Origin::EdgeCrossing { k, at } => (k + 1, 0, at, 0),
        Origin::Dip { k, test, part } => dip_words(0, k, test, part),
        Origin::EdgeDip { k, at, test, part } => dip_words(k + 1, at, test, part),
    };
    [row as u64, place, index as u64, part]
}

fn dip_words(row: usize, left: usize, test: DipTest, part: DipPart) -> (usize, u64, usize, u64) {
    let (place, index) = match test {
        // `left` is the sample before the lowest one.
        DipTest::Inner => (1, left + 1),
        DipTest::Last => (2, left),
        DipTest::First => (3, left),
    };
    let part = match part {
        DipPart::Touch => 0,
        DipPart::Left => 1,
        DipPart::Right => 2,
    };
    (row, place, index, part)
}

#[cfg(test)]
mod tests {
    use super::*;
    use crate::arith::Rules;
    use crate::generate::{sample, Kind};

    /// The length is what the count says, and pairs go by component, the grid's before the edges',
    /// and those by k.
    #[test]
    fn records_are_whole_and_in_order() {
        let mut pairs = 0;
        for place in 0..60 {
            let kind = [Kind::Reachable, Kind::Hostile, Kind::Random][place as usize % 3];
            let words = record::<Rules>(&sample(kind, 6, 5, place, Some(1 + place)));
            assert_eq!(words.len() as u64, 54 + 13 * words[52]);
            let keys: Vec<&[u64]> = words[54..].chunks(13).map(|pair| &pair[1..3]).collect();
            assert!(keys.windows(2).all(|w| w[0] <= w[1]));
            assert!(keys.iter().all(|key| key[0] < 4 && key[1] <= words[0]));
            pairs += words[52];
        }
        assert!(pairs > 300);
    }
}
