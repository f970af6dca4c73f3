//! Carried over from ikgeo/src/inverse_kinematics/auxiliary.rs (MIT, see NOTICE): the arm,
//! forward_kinematics, forward_kinematics_partial, wrap_to_pi and the bracketing search. The search
//! also counts its evaluations and notes where each of its pairs came from; neither changes what it
//! computes.

use {
    crate::{
        arith::{rem_euclid_tau, Arith},
        linalg::{Matrix, Matrix3, Vector3},
        subproblems::auxiliary::rot,
    },
    std::{cell::Cell, f64::consts::PI, fmt},
};

/// C1 axes and C2 = C1 + 1 offsets, one to a column: six axes where nothing else is said, seven on
/// a track.
#[derive(Debug, Clone)]
pub struct Kinematics<const C1: usize = 6, const C2: usize = 7> {
    pub h: Matrix<3, C1>,
    pub p: Matrix<3, C2>,
}

impl Kinematics {
    /// From an arm's 39 numbers.
    pub fn from_arm(arm: &[f64; 39]) -> Self {
        Self::from_numbers(arm)
    }
}

impl<const C1: usize, const C2: usize> Kinematics<C1, C2> {
    /// From the axes, then the offsets, three numbers each.
    fn from_numbers(numbers: &[f64]) -> Self {
        Kinematics {
            h: Matrix::from_entries(|i, j| numbers[3 * j + i]),
            p: Matrix::from_entries(|i, j| numbers[3 * (C1 + j) + i]),
        }
    }

    /// The axes, then the offsets, three numbers each.
    pub fn numbers(&self) -> impl Iterator<Item = f64> + '_ {
        self.h.iter().chain(self.p.iter())
    }

    pub fn forward_kinematics<A: Arith>(&self, theta: &Matrix<C1, 1>) -> (Matrix3, Vector3) {
        let mut p: Vector3 = self.p.column(0);
        let mut r = Matrix3::identity();

        for (i, t) in theta.iter().enumerate() {
            r *= rot::<A>(&self.h.column(i), t);
            p += r * self.p.column(i + 1);
        }

        (r, p)
    }
}

impl Kinematics<7, 8> {
    /// From the 45 numbers of an arm on a track.
    pub fn from_track_arm(arm: &[f64; 45]) -> Self {
        Self::from_numbers(arm)
    }

    /// The arm of six axes that is left where joint `n`, from 0 to 6, is locked at `q_n`.
    pub fn forward_kinematics_partial<A: Arith>(
        &self,
        q_n: f64,
        n: usize,
        r_6t: &Matrix3,
    ) -> (Kinematics<6, 7>, Matrix3) {
        let mut kin_new: Kinematics<6, 7> = Kinematics {
            h: Matrix::zeros(),
            p: Matrix::zeros(),
        };
        let r_n = rot::<A>(&self.h.column(n), q_n);

        for i in 0..7 {
            if i > n {
                set_column(&mut kin_new.h, i - 1, &(r_n * self.h.column(i)));
            } else {
                set_column(&mut kin_new.h, i, &self.h.column(i));
            }
        }

        for i in 0..8 {
            if i == n {
                let moved = self.p.column(i) + r_n * self.p.column(i + 1);
                set_column(&mut kin_new.p, i, &moved);
            } else if i > n + 1 {
                set_column(&mut kin_new.p, i - 1, &(r_n * self.p.column(i)));
            } else {
                set_column(&mut kin_new.p, i, &self.p.column(i));
            }
        }

        (kin_new, r_n * r_6t)
    }
}

/// Document 02 drops a write past the last column. Only joint 6 makes one, of an axis and of an
/// offset; the Rust panics there.
fn set_column<const C: usize>(matrix: &mut Matrix<3, C>, j: usize, column: &Vector3) {
    if j < C {
        matrix.set_column(j, column);
    }
}

pub fn wrap_to_pi(theta: f64) -> f64 {
    rem_euclid_tau(theta + PI) - PI
}

/// What minimise_dip added a pair for.
#[derive(Debug, Clone, Copy, PartialEq, Eq)]
pub enum DipPart {
    /// The refinement left of the dip's lowest point.
    Left,
    /// The refinement right of it.
    Right,
    /// A lowest point that does not cross zero.
    Touch,
}

/// Which of scan_samples' three tests found a dip: about an inner sample, at the row's end, or at
/// its start.
#[derive(Debug, Clone, Copy, PartialEq, Eq)]
pub enum DipTest {
    Inner,
    Last,
    First,
}

/// What added a pair to the search's list. In a run, `k` is the grid sample on the left. In an
/// edge, `k` is the grid sample left of the branch's end, and `at` counts the edge's own samples
/// from the left.
#[derive(Debug, Clone, Copy, PartialEq, Eq)]
pub enum Origin {
    Crossing {
        k: usize,
    },
    Dip {
        k: usize,
        test: DipTest,
        part: DipPart,
    },
    EdgeCrossing {
        k: usize,
        at: usize,
    },
    EdgeDip {
        k: usize,
        at: usize,
        test: DipTest,
        part: DipPart,
    },
}

impl fmt::Display for Origin {
    fn fmt(&self, f: &mut fmt::Formatter) -> fmt::Result {
        match self {
            Origin::Crossing { k } => write!(f, "crossing {k}"),
            Origin::Dip { k, part, .. } => write!(f, "dip {k} {part:?}"),
            Origin::EdgeCrossing { k, at } => write!(f, "edge-crossing {k} {at}"),
            Origin::EdgeDip { k, at, part, .. } => write!(f, "edge-dip {k} {at} {part:?}"),
        }
    }
}

/// Where the samples that scan_samples reads lie.
#[derive(Clone, Copy)]
enum Place {
    /// Grid samples from `first` on.
    Run { first: usize },
    /// The resampled stretch between the grid samples k and k + 1.
    Edge { k: usize },
}

impl Place {
    fn crossing(self, at: usize) -> Origin {
        match self {
            Place::Run { first } => Origin::Crossing { k: first + at },
            Place::Edge { k } => Origin::EdgeCrossing { k, at },
        }
    }

    fn dip(self, at: usize, test: DipTest, part: DipPart) -> Origin {
        match self {
            Place::Run { first } => Origin::Dip {
                k: first + at,
                test,
                part,
            },
            Place::Edge { k } => Origin::EdgeDip { k, at, test, part },
        }
    }
}

/// A pair of the search's list, and what added it.
#[derive(Debug, Clone, Copy)]
pub struct Found {
    pub x: f64,
    pub component: usize,
    pub origin: Origin,
}

/// The search's list in its order, and the number of evaluations of the error.
pub struct Search {
    pub zeros: Vec<Found>,
    pub evaluations: u64,
}

/// Illinois false position on a sign-changing bracket, for one component of `f`.
fn refine_bracket<const N: usize, F: Fn(f64) -> [f64; N]>(
    f: &F,
    i: usize,
    mut a: f64,
    mut b: f64,
    mut fa: f64,
    mut fb: f64,
) -> f64 {
    const ITERATIONS: usize = 60;
    let mut side = 0;
    let mut x = a;
    for _ in 0..ITERATIONS {
        let next = (a * fb - b * fa) / (fb - fa);
        if !next.is_finite() {
            break;
        }
        let fx = f(next)[i];
        if !fx.is_finite() {
            break;
        }
        x = next;
        if fx.abs() < 1e-15 || (b - a).abs() < 1e-14 {
            break;
        }
        if (fx < 0.0) == (fa < 0.0) {
            a = x;
            fa = fx;
            if side == -1 {
                // Illinois: halve the stale end so the bracket keeps shrinking.
                fb *= 0.5;
            }
            side = -1;
        } else {
            b = x;
            fb = fx;
            if side == 1 {
                fa *= 0.5;
            }
            side = 1;
        }
    }
    x
}

/// Golden-section search for the point of `f[i]` closest to zero on [a, b], where both ends
/// have the same sign. A minimum that crosses zero yields two brackets and two roots; one
/// that does not is returned as a tangent candidate for the polish step.
#[allow(clippy::too_many_arguments)]
fn minimise_dip<const N: usize, F: Fn(f64) -> [f64; N]>(
    f: &F,
    i: usize,
    a: f64,
    b: f64,
    fa: f64,
    fb: f64,
    origin: impl Fn(DipPart) -> Origin,
    zeros: &mut Vec<Found>,
) {
    const ITERATIONS: usize = 16;
    const INV_PHI: f64 = 0.618_033_988_749_895;
    let sign = if fa < 0.0 { -1.0 } else { 1.0 };
    let g = |x: f64| -> f64 {
        let y = f(x)[i];
        if y.is_finite() {
            sign * y
        } else {
            f64::INFINITY
        }
    };
    let (mut lo, mut hi) = (a, b);
    let mut x1 = hi - INV_PHI * (hi - lo);
    let mut x2 = lo + INV_PHI * (hi - lo);
    let (mut g1, mut g2) = (g(x1), g(x2));
    let (mut best_x, mut best_g) = if g1 < g2 { (x1, g1) } else { (x2, g2) };
    for _ in 0..ITERATIONS {
        if g1 < g2 {
            hi = x2;
            x2 = x1;
            g2 = g1;
            x1 = hi - INV_PHI * (hi - lo);
            g1 = g(x1);
        } else {
            lo = x1;
            x1 = x2;
            g1 = g2;
            x2 = lo + INV_PHI * (hi - lo);
            g2 = g(x2);
        }
        let (x, gx) = if g1 < g2 { (x1, g1) } else { (x2, g2) };
        if gx < best_g {
            best_x = x;
            best_g = gx;
        }
        if best_g < 0.0 {
            break;
        }
    }
    let mut push = |x: f64, part: DipPart| {
        zeros.push(Found {
            x,
            component: i,
            origin: origin(part),
        })
    };
    if best_g < 0.0 {
        let fm = sign * best_g;
        push(refine_bracket(f, i, a, best_x, fa, fm), DipPart::Left);
        push(refine_bracket(f, i, best_x, b, fm, fb), DipPart::Right);
    } else if best_g.is_finite() {
        push(best_x, DipPart::Touch);
    }
}

/// Sign changes and shallow dips along finite samples `pts` (sorted by x) of component `i`.
fn scan_samples<const N: usize, F: Fn(f64) -> [f64; N]>(
    f: &F,
    i: usize,
    pts: &[(f64, f64)],
    touch: f64,
    place: Place,
    zeros: &mut Vec<Found>,
) {
    let n = pts.len();
    for k in 1..n {
        let ((x0, y0), (x1, y1)) = (pts[k - 1], pts[k]);
        if (y0 < 0.0) != (y1 < 0.0) {
            zeros.push(Found {
                x: refine_bracket(f, i, x0, x1, y0, y1),
                component: i,
                origin: place.crossing(k - 1),
            });
        } else if k + 1 < n {
            let (x2, y2) = pts[k + 1];
            if y1.abs() < touch
                && y1.abs() <= y0.abs()
                && y1.abs() < y2.abs()
                && (y0 < 0.0) == (y2 < 0.0)
            {
                // A dip that does not cross at the samples: a close root pair or a tangent root.
                let origin = |part| place.dip(k - 1, DipTest::Inner, part);
                minimise_dip(f, i, x0, x2, y0, y2, origin, zeros);
            }
        }
    }
    // A run end that is still falling may hide a dip between the last two samples.
    if n >= 2 {
        let ((x0, y0), (x1, y1)) = (pts[n - 2], pts[n - 1]);
        if (y0 < 0.0) == (y1 < 0.0) && y1.abs() < touch && y1.abs() <= y0.abs() {
            let origin = |part| place.dip(n - 2, DipTest::Last, part);
            minimise_dip(f, i, x0, x1, y0, y1, origin, zeros);
        }
        let ((x0, y0), (x1, y1)) = (pts[0], pts[1]);
        if (y0 < 0.0) == (y1 < 0.0) && y0.abs() < touch && y0.abs() <= y1.abs() {
            let origin = |part| place.dip(0, DipTest::First, part);
            minimise_dip(f, i, x0, x1, y0, y1, origin, zeros);
        }
    }
}

/// Bracketing 1D search for solvers whose error components are continuous per branch
/// and infinite where the branch does not exist. Every sign change between finite
/// neighbouring samples is refined with Illinois false position, and a sample where
/// |f| dips to a local minimum below `touch` is returned too so tangent roots reach the
/// polish step. Where a branch ends between two samples its end is located by bisection
/// and the last stretch is resampled densely towards the end, because the two branches
/// born at a fold separate like a square root and their roots cluster there.
#[allow(clippy::needless_range_loop)]
pub fn search_1d_bracketed<const N: usize, F: Fn(f64) -> [f64; N]>(
    error: F,
    left: f64,
    right: f64,
    initial_samples: usize,
    touch: f64,
) -> Search {
    const EDGE_BISECTIONS: usize = 16;
    const EDGE_SUBSAMPLES: usize = 8;

    // One call at one angle is one evaluation, all components together.
    let evaluations = Cell::new(0);
    let f = |x: f64| {
        evaluations.set(evaluations.get() + 1);
        error(x)
    };

    let delta = (right - left) / initial_samples as f64;
    let xs: Vec<f64> = (0..=initial_samples)
        .map(|k| left + k as f64 * delta)
        .collect();
    let ys: Vec<[f64; N]> = xs.iter().map(|&x| f(x)).collect();
    let mut zeros = Vec::with_capacity(8);

    for i in 0..N {
        let mut run: Vec<(f64, f64)> = Vec::with_capacity(initial_samples + 1);
        let mut first = 0;
        for k in 0..=initial_samples {
            let y = ys[k][i];
            if y.is_finite() {
                if run.is_empty() {
                    first = k;
                }
                run.push((xs[k], y));
            }
            // A run of finite samples ends here, or at the far end of the grid.
            if y.is_finite() && k != initial_samples {
                continue;
            }
            if run.is_empty() {
                continue;
            }
            scan_samples(&f, i, &run, touch, Place::Run { first }, &mut zeros);
            run.clear();
        }
        for k in 1..=initial_samples {
            let (y0, y1) = (ys[k - 1][i], ys[k][i]);
            if y0.is_finite() == y1.is_finite() {
                continue;
            }
            let (x_in, y_in, x_out) = if y0.is_finite() {
                (xs[k - 1], y0, xs[k])
            } else {
                (xs[k], y1, xs[k - 1])
            };
            let (mut lo, mut y_lo, mut hi) = (x_in, y_in, x_out);
            for _ in 0..EDGE_BISECTIONS {
                let mid = 0.5 * (lo + hi);
                let y_mid = f(mid)[i];
                if y_mid.is_finite() {
                    lo = mid;
                    y_lo = y_mid;
                } else {
                    hi = mid;
                }
            }
            // Quadratic spacing from the branch end so the sqrt-like start is resolved.
            let mut pts: Vec<(f64, f64)> = Vec::with_capacity(EDGE_SUBSAMPLES + 1);
            pts.push((lo, y_lo));
            for j in 1..EDGE_SUBSAMPLES {
                // powi(2) is one product.
                let s = j as f64 / EDGE_SUBSAMPLES as f64;
                let s = s * s;
                let x = lo + (x_in - lo) * s;
                let y = f(x)[i];
                if y.is_finite() {
                    pts.push((x, y));
                }
            }
            pts.push((x_in, y_in));
            if x_in < lo {
                pts.reverse();
            }
            scan_samples(&f, i, &pts, touch, Place::Edge { k: k - 1 }, &mut zeros);
        }
    }

    Search {
        zeros,
        evaluations: evaluations.get(),
    }
}

/// An error that is easy to write down, to try a search on. Component 0 has crossings; component 1
/// has two roots in a dip, and then its branch ends.
pub fn stand_in(x: f64) -> [f64; 2] {
    let second = (x - 0.2) * (x - 0.2) - 0.01;
    [
        (x - 1.0) * (x + 2.0) * (x + 0.5),
        if x < 2.0 { second } else { f64::INFINITY },
    ]
}

#[cfg(test)]
mod tests {
    use super::*;
    use crate::{
        arith::Rules,
        arms::random_axis,
        block::canonical_bits,
        generate::{sample, Kind},
        inverse_kinematics::{error_given_q1, two_parallel_search},
        linalg::{Vector6, Vector7},
        odd::{odd, spoil},
        rng::Rng,
        solve::pose_parts,
    };
    use std::f64::consts::FRAC_PI_2;

    /// How a column of the reduced arm comes from those of the whole one, r being the locked joint's
    /// own rotation.
    #[derive(Clone, Copy)]
    enum Column {
        /// The column as it is.
        Same(usize),
        /// r times the column.
        Turned(usize),
        /// The column and r times the next one.
        Joined(usize),
    }
    use Column::{Joined as J, Same as S, Turned as T};

    /// The reduced arm's axes and offsets for the joints 0 to 6.
    const REDUCED: [([Column; 6], [Column; 7]); 7] = [
        (
            [T(1), T(2), T(3), T(4), T(5), T(6)],
            [J(0), T(2), T(3), T(4), T(5), T(6), T(7)],
        ),
        (
            [S(0), T(2), T(3), T(4), T(5), T(6)],
            [S(0), J(1), T(3), T(4), T(5), T(6), T(7)],
        ),
        (
            [S(0), S(1), T(3), T(4), T(5), T(6)],
            [S(0), S(1), J(2), T(4), T(5), T(6), T(7)],
        ),
        (
            [S(0), S(1), S(2), T(4), T(5), T(6)],
            [S(0), S(1), S(2), J(3), T(5), T(6), T(7)],
        ),
        (
            [S(0), S(1), S(2), S(3), T(5), T(6)],
            [S(0), S(1), S(2), S(3), J(4), T(6), T(7)],
        ),
        (
            [S(0), S(1), S(2), S(3), S(4), T(6)],
            [S(0), S(1), S(2), S(3), S(4), J(5), T(7)],
        ),
        (
            [S(0), S(1), S(2), S(3), S(4), S(5)],
            [S(0), S(1), S(2), S(3), S(4), S(5), J(6)],
        ),
    ];

    /// Number by number from the whole arm's 45; offsets start at column 7.
    fn reduced_number(arm: &[f64; 45], r: &Matrix3, from: Column, first: usize, i: usize) -> f64 {
        let v = |column: usize, i: usize| arm[3 * (first + column) + i];
        let turned = |c: usize| r[(i, 0)] * v(c, 0) + r[(i, 1)] * v(c, 1) + r[(i, 2)] * v(c, 2);
        match from {
            S(c) => v(c, i),
            T(c) => turned(c),
            J(c) => v(c, i) + turned(c + 1),
        }
    }

    fn bits(numbers: impl Iterator<Item = f64>) -> Vec<u64> {
        numbers.map(canonical_bits).collect()
    }

    fn some_arm(rng: &mut Rng) -> [f64; 45] {
        let mut arm = [0.0; 45];
        for axis in arm[..21].chunks_mut(3) {
            axis.copy_from_slice(&random_axis(rng));
        }
        arm[21..].fill_with(|| rng.between(-0.5, 0.5));
        arm
    }

    /// Every f64 is taken, at every joint; a NaN comes where the formula has one.
    #[test]
    fn a_locked_joint_turns_and_joins_the_columns_behind_it() {
        let mut not_finite = 0;
        for place in 0..7000 {
            let rng = &mut Rng::of(&[31, place]);
            let (joint, mut arm) = (place as usize % 7, some_arm(rng));
            let (mut q, mut r_6t) = (rng.between(-PI, PI), [0.0; 9]);
            r_6t.fill_with(|| rng.between(-1.0, 1.0));
            if rng.once_in(2) {
                spoil(&mut arm, rng, odd);
                spoil(&mut r_6t, rng, odd);
                q = odd(rng);
            }
            let r_6t = Matrix3::from_entries(|i, j| r_6t[3 * i + j]);
            let kin = Kinematics::from_track_arm(&arm);
            let (reduced, turned) = kin.forward_kinematics_partial::<Rules>(q, joint, &r_6t);

            let r = rot::<Rules>(&kin.h.column(joint), q);
            let (axes, offsets) = &REDUCED[joint];
            let mut expected = Vec::new();
            for (columns, first) in [(&axes[..], 0), (&offsets[..], 7)] {
                for &from in columns {
                    expected.extend((0..3).map(|i| reduced_number(&arm, &r, from, first, i)));
                }
            }
            assert_eq!(
                bits(reduced.numbers()),
                bits(expected.into_iter()),
                "{place}"
            );
            assert_eq!(bits(turned.iter()), bits((r * r_6t).iter()), "{place}");
            not_finite += reduced.numbers().any(|x| !x.is_finite()) as usize;
        }
        assert!(not_finite > 500, "{not_finite}");
    }

    /// A quarter turn about z takes (x, y, z) to (-y, x, z) exactly under the rules.
    #[test]
    fn a_quarter_turn_worked_by_hand() {
        let mut arm: [f64; 45] = std::array::from_fn(|i| (i + 1) as f64);
        let locked = |arm: &mut [f64; 45], joint: usize| {
            arm[3 * joint..3 * joint + 3].copy_from_slice(&[0.0, 0.0, 2.0]);
            let kin = Kinematics::from_track_arm(arm);
            let (reduced, r_n) =
                kin.forward_kinematics_partial::<Rules>(FRAC_PI_2, joint, &Matrix3::identity());
            let quarter = Matrix3::new(0.0, -1.0, 0.0, 1.0, 0.0, 0.0, 0.0, 0.0, 1.0);
            assert_eq!(r_n, quarter);
            reduced.numbers().collect::<Vec<f64>>()
        };
        let reduced = locked(&mut arm, 4);
        // h0 to h3, then h5 and h6 turned; p0 to p3, p4 and p5 joined, then p6 and p7 turned.
        assert_eq!(reduced[..12], arm[..12]);
        assert_eq!(reduced[12..18], [-17.0, 16.0, 18.0, -20.0, 19.0, 21.0]);
        assert_eq!(reduced[18..30], arm[21..33]);
        assert_eq!(reduced[30..33], [34.0 - 38.0, 35.0 + 37.0, 36.0 + 39.0]);
        assert_eq!(reduced[33..], [-41.0, 40.0, 42.0, -44.0, 43.0, 45.0]);

        // The last joint: h0 to h5, p0 to p5, and p6 and p7 joined.
        let reduced = locked(&mut arm, 6);
        assert_eq!(reduced[..18], arm[..18]);
        assert_eq!(reduced[18..36], arm[21..39]);
        assert_eq!(reduced[36..], [40.0 - 44.0, 41.0 + 43.0, 42.0 + 45.0]);
    }

    /// The reduced arm's rotation is the whole arm's times the transpose of the locked joint's own,
    /// and its place the whole arm's.
    #[test]
    fn the_reduced_arm_moves_as_the_whole_one() {
        for place in 0..700 {
            let rng = &mut Rng::of(&[32, place]);
            let (joint, arm) = (place as usize % 7, some_arm(rng));
            let seven: [f64; 7] = std::array::from_fn(|_| rng.between(-PI, PI));
            let six = std::array::from_fn(|i| seven[if i < joint { i } else { i + 1 }]);
            let kin = Kinematics::from_track_arm(&arm);
            let (r, p) = kin.forward_kinematics::<Rules>(&Vector7::from(seven));
            let identity = Matrix3::identity();
            let (reduced, r_n) =
                kin.forward_kinematics_partial::<Rules>(seven[joint], joint, &identity);
            let (r_six, p_six) = reduced.forward_kinematics::<Rules>(&Vector6::from(six));
            assert!((r * r_n.transpose() - r_six).norm() < 1e-14, "{place}");
            assert!((p - p_six).norm() < 1e-14, "{place}");
        }
    }

    fn kinds(search: &Search, component: usize) -> Vec<Origin> {
        let pairs = search.zeros.iter();
        pairs
            .filter(|found| found.component == component)
            .map(|found| found.origin)
            .collect()
    }

    #[test]
    fn crossings_are_refined_and_dips_split() {
        let search = search_1d_bracketed(stand_in, -PI, PI, 7, 0.5);
        let crossings = [1, 2, 4].map(|k| Origin::Crossing { k });
        assert_eq!(kinds(&search, 0)[..3], crossings);
        let test = DipTest::Inner;
        let dip = |part| Origin::Dip { k: 3, test, part };
        assert_eq!(
            kinds(&search, 1)[..2],
            [dip(DipPart::Left), dip(DipPart::Right)]
        );
        let roots: Vec<f64> = search.zeros.iter().map(|found| found.x).collect();
        for root in [-2.0, -0.5, 1.0, 0.1, 0.3] {
            assert!(roots.iter().any(|x| (x - root).abs() < 1e-12), "{root}");
        }
    }

    /// Demand 3, tried on generated arms and poses: each crossing has exactly one pair, every
    /// pair is finite, and the counts keep to their bounds.
    #[test]
    fn no_crossing_is_lost() {
        let mut crossings = 0;
        for place in 0..300 {
            let kind = [Kind::Reachable, Kind::Hostile, Kind::Random][place as usize % 3];
            let s = sample(kind, 6, 21, place, Some(1 + place % 40));
            let ((r, p), kin, n) = (pose_parts(&s.pose), Kinematics::from_arm(&s.arm), s.n);
            let p_16 = p - kin.p.column(0) - r * kin.p.column(6);
            let error = |q1: f64| error_given_q1::<Rules>(&r, &kin, q1, &p_16);
            let search = two_parallel_search::<Rules>(&r, &p, &kin, n as usize);

            assert!((n + 1..=n + 1 + 3128 * n).contains(&search.evaluations));
            assert!(search.zeros.len() as u64 <= 44 * n);
            for found in &search.zeros {
                assert!(found.x.is_finite() && error(found.x)[found.component].is_finite());
            }
            let sample_at = |k: u64| error(-PI + k as f64 * ((PI - -PI) / n as f64));
            for k in 0..n {
                let (y0, y1) = (sample_at(k), sample_at(k + 1));
                for i in 0..4 {
                    let both = y0[i].is_finite() && y1[i].is_finite();
                    let crossing = both && (y0[i] < 0.0) != (y1[i] < 0.0);
                    let own = Origin::Crossing { k: k as usize };
                    let positions = kinds(&search, i).iter().filter(|o| **o == own).count();
                    assert_eq!(positions, crossing as usize, "place {place} k {k} i {i}");
                    crossings += positions;
                }
            }
        }
        assert!(crossings > 300);
    }
}
