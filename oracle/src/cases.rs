//! Test records for a port's test program: arguments and the results that they must give, as
//! little-endian 64-bit words.

use crate::{
    arith::Arith,
    block::canonical_bits,
    functions::{Function, Group, FUNCTIONS, MOST_CANDIDATES},
    inputs::arguments,
    rng::Rng,
    run::{answers_of, run, Args, Record},
    solve::Answers,
};
use std::io::{self, Write};

/// The words of a group's record: the id, then arguments, then results.
struct Layout {
    arguments: usize,
    results: usize,
}

/// The answers whose words a family's record has room for.
const ANSWERS_KEPT: usize = 8;

fn layout(group: Group) -> Layout {
    let (arguments, results) = match group {
        Group::Float => (2, 2),
        Group::Linear => (18, 9),
        Group::Complex => (4, 2),
        Group::Polynomial => (40, 23),
        Group::Subproblems => (40, 23),
        Group::Kinematics => (45, 18),
        // n, arm, pose; answers, evaluations, the first answers, the hash.
        Group::Families => (1 + 39 + 12, 2 + 7 * ANSWERS_KEPT + 1),
        // Arm, joint, angle, rotation; the reduced arm, the rotation.
        Group::Track => (45 + 1 + 1 + 9, 39 + 9),
        // The count and the triples; the triples and the passes.
        Group::Sort => (1 + 3 * MOST_CANDIDATES, 3 * MOST_CANDIDATES + 1),
    };
    Layout { arguments, results }
}

/// Writes `count` records for each function of the group, the functions taking turns.
pub fn write_cases<A: Arith>(
    output: &mut impl Write,
    group: Group,
    seed: u64,
    count: u64,
    only: &[u64],
) -> io::Result<()> {
    let wanted = |f: &&Function| f.group == group && (only.is_empty() || only.contains(&f.id));
    for place in 0..count {
        for function in FUNCTIONS.iter().filter(wanted) {
            let rng = &mut Rng::of(&[seed, group as u64, function.id, place]);
            for word in record::<A>(function, &arguments(function, rng)) {
                output.write_all(&word.to_le_bytes())?;
            }
        }
    }
    Ok(())
}

fn record<A: Arith>(function: &Function, arguments: &[u64]) -> Vec<u64> {
    let layout = layout(function.group);
    let results = match function.group {
        Group::Families => family_results(&answers_of::<A>(function.id, &mut Args::new(arguments))),
        _ => {
            let mut results = Record::default();
            run::<A>(function, arguments, &mut results);
            results.0
        }
    };
    assert!(arguments.len() <= layout.arguments && results.len() <= layout.results);
    let mut words = vec![0; 1 + layout.arguments + layout.results];
    words[0] = function.id;
    words[1..][..arguments.len()].copy_from_slice(arguments);
    words[1 + layout.arguments..][..results.len()].copy_from_slice(&results);
    words
}

fn family_results(list: &Answers) -> Vec<u64> {
    let all: Vec<u64> = list
        .angles
        .iter()
        .zip(&list.flags)
        .flat_map(|(angles, &flag)| {
            let mut words: Vec<u64> = angles.iter().map(canonical_bits).collect();
            words.push(flag as u64);
            words
        })
        .collect();
    let mut words = vec![list.angles.len() as u64, list.evaluations];
    words.extend((0..7 * ANSWERS_KEPT).map(|i| all.get(i).copied().unwrap_or(0)));
    words.push(fnv_1a(all.iter().flat_map(|word| word.to_le_bytes())));
    words
}

/// The 64-bit FNV-1a hash.
pub fn fnv_1a(bytes: impl Iterator<Item = u8>) -> u64 {
    let mut hash = 0xcbf2_9ce4_8422_2325;
    for byte in bytes {
        hash = (hash ^ byte as u64).wrapping_mul(0x0000_0100_0000_01b3);
    }
    hash
}

pub const LAYOUT: &str = "\
Test records, as `oracle cases GROUP SEED COUNT` writes them.

A record is a fixed number of little-endian 64-bit words for each group: the function's id, its
argument words, its result words. An f64 stands as its bits, a bool as 0 or 1, a count as a whole
number. Vectors are x y z, matrices go by rows, a complex number is re im. Every NaN among the
results is 7ff8000000000000; a NaN among the arguments may have any bits. Words that a function
does not use are 0, and so are the slots of a set or list beyond its count. There are COUNT
records for each function, the functions taking turns in the order of their ids.

float: 5 words: id, x, y, result 0, result 1
   0 abs(x)            1 is_finite(x) (bool)    2 sqrt(x)       3 cbrt(x)
   4 sin(x)            5 cos(x)                 6 sin_cos(x) -> sin, cos
   7 atan2: the word x is atan2's y, the word y its x
   8 rem_tau: x % TAU  9 rem_euclid_tau: rem_euclid(x, TAU)
  10 wrap_to_pi(x) of inverse_kinematics/auxiliary.rs
  11 wrap_to_pi(x) of inverse.rs               12 infinity, no argument
  13 x + y            14 x - y                 15 x * y        16 x / y

linear: 28 words: id, 18 argument words, 9 result words
   0 dot(a, b)         1 cross(a, b)            2 norm(a)       3 norm_squared(a)
   4 normalize(a)      5 a + b                  6 a - b         7 -a
   8 scaling(a, s)     9 A * B                 10 A * v        11 transpose(A)
  12 hat(a)           13 rot(k, theta)         14 column_sum(a, b, c, d) = ((a + b) + c) + d

complex: 7 words: id, 4 argument words, 2 result words
   0 z + w    1 z - w    2 -z    3 z * w    4 z / w    5 z times the real s (z, s)
   6 z divided by the real s (z, s)    7 the real s divided by z (s, re, im)
   8 modulus (one result)    9 square root    10 cube root

polynomial: 64 words: id, 40 argument words, 23 result words
   0 cone_polynomials(p0_i, k_i, p_i, p_i_s, k2) -> p (2), r (3)
   1 vec_self_convolve_2(v of 2) -> 3       2 vec_self_convolve_3(v of 3) -> 5
   3 vec_convolve_3(v, w) -> 5
   4 solve_quartic_roots(5 complex, highest first) -> count, 4 complex slots
   5 solve_cubic_roots(4 complex) -> count, 4 complex slots
   6 solve_quadratic_roots(3 complex) -> count, 4 complex slots
   7 solve_lower_triangular_system_2x2(l by rows, b) -> 2
   8 qr of the 4 by 2 matrix given as two columns of four -> R00, R01, R11, Q by rows (16)
   9 solve_two_ellipse_numeric(xm1, xn1 by rows, xm2, xn2 by rows) -> count, 4 slots of pairs

subproblems: 64 words: id, 40 argument words, 23 result words
   1 subproblem1(p1, p2, k) -> theta, flag
   2 subproblem2(p1, p2, k1, k2) -> count, 2 slots of pairs, flag
   3 subproblem3(p1, p2, k, d) -> count, 2 slots, flag
   4 subproblem4(h, p, k, d) -> count, 2 slots, flag
   5 subproblem5(p0, p1, p2, p3, k1, k2, k3) -> count, 4 slots of triples
   6 subproblem6(h 4 vectors, k 4 vectors, p 4 vectors, d1, d2) -> count, 4 slots of pairs
   7 subproblem1_sc(p1, p2, k) -> sin, cos, flag
   8 subproblem3_sc(p1, p2, k, d) -> count, 2 slots of (sin, cos), flag
   9 subproblem4_sc(h, p, k, d) -> count, 2 slots of (sin, cos), flag
  10 reduced_solutionset(count from 0 to 12, that many triples) -> count, 4 slots of triples

kinematics: 64 words: id, 45 argument words, 18 result words
   0 forward_kinematics(arm 39, angles 6) -> rotation by rows (9), place (3)

families: 112 words: id (the family, 1 to 6), n (0 for 1 to 5), arm 39, pose 12 (rotation by rows,
   place), number of answers in the full list, evaluations, the first 8 answers as 7 words each
   (six angles, flag), and the 64-bit FNV-1a hash over the little-endian bytes of all answers'
   words in their order. Arm and pose are finite and n is in range, so the solve call accepts
   every record.

track: 105 words: id, 56 argument words, 48 result words
   0 forward_kinematics_partial(arm 45, joint 0 to 6 as a whole number, angle, rotation by rows) ->
     the reduced arm (39), the locked joint's own rotation times the one given, by rows (9)

sort: 99 words: id, 49 argument words, 49 result words
   0 sort(count m from 0 to 16, that many triples) -> 16 slots of triples, of which the first m are
     the triples in order, and the number of passes made
   1 reduced_with_passes(count from 0 to 16, that many triples) -> what reduced_solutionset keeps
     (count, 4 slots of triples), the passes of its first sort and of its second (0 and 0 up to 4)

Searches, as `oracle searches KIND SEED COUNT [N]` writes them: 54 words, then 13 for each pair.
   The 54 are n, arm 39, pose 12, the number of pairs, the evaluations. A pair's 13 are q1, the
   component, what added it as four words, and its answer: six angles, flag.
   What added it: first the row of samples, 0 for the grid or k + 1 for those between the grid's
   samples k and k + 1, where the branch ends; then 0 for a crossing, 1 for a dip about an inner
   sample, 2 for one at the row's end, 3 at its start; then the index of a sample of the row,
   counted on the grid from its first, in an edge from its left: the lowest one of an inner dip,
   else the left one of the two; then the part of a dip, 0 for one that does not cross zero, 1 and
   2 for the refinements left and right of the lowest point of one that does. It is 0 for a
   crossing.
";

#[cfg(test)]
mod tests {
    use super::*;
    use crate::arith::Rules;
    use crate::functions::GROUPS;

    #[test]
    fn every_group_fits_its_layout() {
        let words = [5, 28, 7, 64, 64, 64, 112, 105, 99];
        for ((_, group), words) in GROUPS.iter().zip(words) {
            let functions = FUNCTIONS.iter().filter(|f| f.group == *group).count();
            let mut output = Vec::new();
            let count = if *group == Group::Families { 5 } else { 300 };
            write_cases::<Rules>(&mut output, *group, 11, count as u64, &[]).unwrap();
            assert_eq!(output.len(), 8 * words * functions * count);
        }
    }

    /// Every joint comes, with finite results and with others.
    #[test]
    fn every_joint_is_among_a_tracks_records() {
        let function = FUNCTIONS.iter().find(|f| f.group == Group::Track).unwrap();
        let mut seen = std::collections::BTreeSet::new();
        for place in 0..300 {
            let rng = &mut Rng::of(&[3, place]);
            let words = record::<Rules>(function, &arguments(function, rng));
            let joint = words[1 + crate::functions::JOINT_WORD];
            let mut results = words[57..].iter().map(|&bits| f64::from_bits(bits));
            seen.insert((joint, results.all(f64::is_finite)));
        }
        let wanted = (0..7).flat_map(|joint| [(joint, false), (joint, true)]);
        assert!(seen.into_iter().eq(wanted));
    }

    #[test]
    fn hash_of_nothing_and_of_a_word() {
        assert_eq!(fnv_1a([].into_iter()), 0xcbf2_9ce4_8422_2325);
        // The bytes 61 00 00 00 00 00 00 00, hashed byte by byte.
        let mut expected = 0xaf63_dc4c_8601_ec8c_u64;
        for _ in 0..7 {
            expected = expected.wrapping_mul(0x0000_0100_0000_01b3);
        }
        assert_eq!(fnv_1a(0x61_u64.to_le_bytes().into_iter()), expected);
    }
}
