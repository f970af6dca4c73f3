//! Runs a function of the table on a list of argument words, and puts its results where they are
//! wanted: in a record, on a line, or folded into one word.

use crate::{
    arith::{rem_euclid_tau, Arith},
    block::canonical_bits,
    complex::Complex,
    functions::{Function, Group, MOST_CANDIDATES},
    inverse,
    inverse_kinematics::auxiliary::{wrap_to_pi, Kinematics},
    linalg::{qr, Matrix, Matrix2, Matrix4x2, Qr, Vector2, Vector3, Vector4, Vector6},
    solutionset::{SolutionSet2, SolutionSet4},
    solve::{family_answers, Answers},
    subproblems::{
        auxiliary::{
            cone_polynomials, hat, rot, solve_cubic_roots, solve_lower_triangular_system_2x2,
            solve_quadratic_roots, solve_quartic_roots, solve_two_ellipse_numeric, vec_convolve_3,
            vec_self_convolve_2, vec_self_convolve_3,
        },
        candidates::{compare_triples, reduced_solutionset, reduced_with_passes, sort, Triple},
        subproblem1, subproblem1_sc, subproblem2, subproblem3, subproblem3_sc, subproblem4,
        subproblem4_sc, subproblem5, subproblem6,
    },
};
use std::f64::consts::TAU;

/// Takes arguments off a list of words, one after the other.
pub struct Args<'a> {
    words: &'a [u64],
}

impl<'a> Args<'a> {
    pub fn new(words: &'a [u64]) -> Self {
        Args { words }
    }

    #[inline]
    fn word(&mut self) -> u64 {
        let (&first, rest) = self.words.split_first().expect("too few argument words");
        self.words = rest;
        first
    }

    #[inline]
    pub fn real(&mut self) -> f64 {
        f64::from_bits(self.word())
    }

    #[inline]
    pub fn count(&mut self) -> usize {
        self.word() as usize
    }

    #[inline]
    fn reals<const N: usize>(&mut self) -> [f64; N] {
        std::array::from_fn(|_| self.real())
    }

    #[inline]
    fn column<const N: usize>(&mut self) -> Matrix<N, 1> {
        Matrix::from(self.reals::<N>())
    }

    #[inline]
    pub fn vector(&mut self) -> Vector3 {
        self.column::<3>()
    }

    #[inline]
    fn vectors<const N: usize>(&mut self) -> [Vector3; N] {
        std::array::from_fn(|_| self.vector())
    }

    #[inline]
    fn matrix<const R: usize, const C: usize>(&mut self) -> Matrix<R, C> {
        let mut matrix = Matrix::zeros();
        for i in 0..R {
            for j in 0..C {
                matrix[(i, j)] = self.real();
            }
        }
        matrix
    }

    #[inline]
    fn complex(&mut self) -> Complex {
        let [re, im] = self.reals();
        Complex::new(re, im)
    }

    #[inline]
    fn complexes<const N: usize>(&mut self) -> [Complex; N] {
        std::array::from_fn(|_| self.complex())
    }

    /// The count, then as many triples.
    #[inline]
    fn triples(&mut self) -> Vec<Triple> {
        (0..self.count())
            .map(|_| (self.real(), self.real(), self.real()))
            .collect()
    }

    #[inline]
    pub fn arm(&mut self) -> Kinematics {
        Kinematics::from_arm(&self.reals())
    }

    #[inline]
    pub fn pose(&mut self) -> [f64; 12] {
        self.reals()
    }
}

/// Where results go, one after the other.
pub trait Sink {
    fn number(&mut self, x: f64);
    fn flag(&mut self, flag: bool);
    fn count(&mut self, count: usize);
    /// Words of slots that hold nothing; only a record has room for them.
    fn unused(&mut self, words: usize);
}

/// Results as the words of a record: every NaN alike, unused slots zero.
#[derive(Default)]
pub struct Record(pub Vec<u64>);

impl Sink for Record {
    fn number(&mut self, x: f64) {
        self.0.push(canonical_bits(x));
    }
    fn flag(&mut self, flag: bool) {
        self.0.push(flag as u64);
    }
    fn count(&mut self, count: usize) {
        self.0.push(count as u64);
    }
    fn unused(&mut self, words: usize) {
        self.0.extend(std::iter::repeat_n(0, words));
    }
}

/// Results as the fields of a printed line.
#[derive(Default)]
pub struct Fields(pub Vec<String>);

impl Sink for Fields {
    fn number(&mut self, x: f64) {
        self.0.push(format!("{:016x}", canonical_bits(x)));
    }
    fn flag(&mut self, flag: bool) {
        self.0.push((flag as u8).to_string());
    }
    fn count(&mut self, count: usize) {
        self.0.push(count.to_string());
    }
    fn unused(&mut self, _words: usize) {}
}

/// All results folded into one word, so that a timed run keeps them and stores nothing.
#[derive(Default)]
pub struct Folded(pub u64);

impl Sink for Folded {
    #[inline]
    fn number(&mut self, x: f64) {
        self.0 ^= canonical_bits(x);
    }
    #[inline]
    fn flag(&mut self, flag: bool) {
        self.0 ^= flag as u64;
    }
    #[inline]
    fn count(&mut self, count: usize) {
        self.0 ^= count as u64;
    }
    #[inline]
    fn unused(&mut self, _words: usize) {}
}

/// Runs a function of the table on its argument words.
pub fn run<A: Arith>(function: &Function, words: &[u64], sink: &mut impl Sink) {
    let args = &mut Args::new(words);
    match function.group {
        Group::Float => run_float::<A>(function.id, args, sink),
        Group::Linear => run_linear::<A>(function.id, args, sink),
        Group::Complex => run_complex::<A>(function.id, args, sink),
        Group::Polynomial => run_polynomial::<A>(function.id, args, sink),
        Group::Subproblems => run_subproblem::<A>(function.id, args, sink),
        Group::Kinematics => run_forward::<A>(args, sink),
        Group::Track => run_partial::<A>(args, sink),
        Group::Families => run_family::<A>(function.id, args, sink),
        Group::Sort => run_sort(function.id, args, sink),
    }
}

fn run_float<A: Arith>(id: u64, args: &mut Args, sink: &mut impl Sink) {
    match id {
        0 => sink.number(args.real().abs()),
        1 => sink.flag(args.real().is_finite()),
        2 => sink.number(args.real().sqrt()),
        3 => sink.number(A::cbrt(args.real())),
        4 => sink.number(A::sin(args.real())),
        5 => sink.number(A::cos(args.real())),
        6 => {
            let (s, c) = A::sin_cos(args.real());
            sink.number(s);
            sink.number(c);
        }
        7 => {
            let [y, x] = args.reals();
            sink.number(A::atan2(y, x));
        }
        8 => sink.number(args.real() % TAU),
        9 => sink.number(rem_euclid_tau(args.real())),
        10 => sink.number(wrap_to_pi(args.real())),
        11 => sink.number(inverse::wrap_to_pi(args.real())),
        12 => sink.number(f64::INFINITY),
        _ => {
            let [x, y] = args.reals();
            sink.number(match id {
                13 => x + y,
                14 => x - y,
                15 => x * y,
                _ => x / y,
            });
        }
    }
}

fn run_linear<A: Arith>(id: u64, args: &mut Args, sink: &mut impl Sink) {
    match id {
        0 => sink.number(args.vector().dot(&args.vector())),
        1 => entries(sink, &args.vector().cross(&args.vector())),
        2 => sink.number(args.vector().norm()),
        3 => sink.number(args.vector().norm_squared()),
        4 => entries(sink, &args.vector().normalize()),
        5 => entries(sink, &(args.vector() + args.vector())),
        6 => entries(sink, &(args.vector() - args.vector())),
        7 => entries(sink, &-args.vector()),
        8 => entries(sink, &(args.vector() * args.real())),
        9 => entries(sink, &(args.matrix::<3, 3>() * args.matrix::<3, 3>())),
        10 => entries(sink, &(args.matrix::<3, 3>() * args.vector())),
        11 => entries(sink, &args.matrix::<3, 3>().transpose()),
        12 => entries(sink, &hat(&args.vector())),
        13 => entries(sink, &rot::<A>(&args.vector(), args.real())),
        _ => entries(
            sink,
            &Matrix::from_columns(&args.vectors::<4>()).column_sum(),
        ),
    }
}

fn run_complex<A: Arith>(id: u64, args: &mut Args, sink: &mut impl Sink) {
    match id {
        0 => complex(sink, args.complex() + args.complex()),
        1 => complex(sink, args.complex() - args.complex()),
        2 => complex(sink, -args.complex()),
        3 => complex(sink, args.complex() * args.complex()),
        4 => complex(sink, args.complex() / args.complex()),
        5 => {
            let (z, s) = (args.complex(), args.real());
            complex(sink, s * z);
        }
        6 => complex(sink, args.complex() / args.real()),
        7 => complex(sink, args.real() / args.complex()),
        8 => sink.number(args.complex().abs::<A>()),
        9 => complex(sink, args.complex().sqrt::<A>()),
        _ => complex(sink, args.complex().cbrt::<A>()),
    }
}

fn run_polynomial<A: Arith>(id: u64, args: &mut Args, sink: &mut impl Sink) {
    match id {
        0 => {
            let [p0_i, k_i, p_i, p_i_s, k2] = args.vectors();
            let (p, r) = cone_polynomials(&p0_i, &k_i, &p_i, &p_i_s, &k2);
            entries(sink, &p);
            entries(sink, &r);
        }
        1 => entries(sink, &vec_self_convolve_2(&args.column::<2>())),
        2 => entries(sink, &vec_self_convolve_3(&args.vector())),
        3 => entries(sink, &vec_convolve_3(&args.vector(), &args.vector())),
        4 => roots(sink, &solve_quartic_roots::<A>(&args.complexes())),
        5 => roots(sink, &solve_cubic_roots::<A>(&args.complexes())),
        6 => roots(sink, &solve_quadratic_roots::<A>(&args.complexes())),
        7 => {
            let (l, b): (Matrix2, Vector2) = (args.matrix(), args.column());
            entries(sink, &solve_lower_triangular_system_2x2(&l, &b));
        }
        8 => {
            let columns: [Vector4; 2] = std::array::from_fn(|_| args.column());
            let Qr { q, r } = qr(&Matrix4x2::from_columns(&columns));
            sink.number(r[(0, 0)]);
            sink.number(r[(0, 1)]);
            sink.number(r[(1, 1)]);
            entries(sink, &q);
        }
        _ => {
            let (xm1, xn1) = (args.column(), args.matrix());
            let (xm2, xn2) = (args.column(), args.matrix());
            set_4(
                sink,
                &solve_two_ellipse_numeric::<A>(&xm1, &xn1, &xm2, &xn2),
            );
        }
    }
}

fn run_subproblem<A: Arith>(id: u64, args: &mut Args, sink: &mut impl Sink) {
    match id {
        1 => {
            let [p1, p2, k] = args.vectors();
            let (theta, flag) = subproblem1::<A>(&p1, &p2, &k);
            sink.number(theta);
            sink.flag(flag);
        }
        2 => {
            let [p1, p2, k1, k2] = args.vectors();
            set_2(sink, &subproblem2::<A>(&p1, &p2, &k1, &k2));
        }
        3 => {
            let [p1, p2, k] = args.vectors();
            set_2(sink, &subproblem3::<A>(&p1, &p2, &k, args.real()));
        }
        4 => {
            let [h, p, k] = args.vectors();
            set_2(sink, &subproblem4::<A>(&h, &p, &k, args.real()));
        }
        5 => {
            let [p0, p1, p2, p3, k1, k2, k3] = args.vectors();
            set_4(sink, &subproblem5::<A>(&p0, &p1, &p2, &p3, &k1, &k2, &k3));
        }
        6 => {
            let (h, k, p) = (args.vectors(), args.vectors(), args.vectors());
            let [d1, d2] = args.reals();
            set_4(sink, &subproblem6::<A>(&h, &k, &p, d1, d2));
        }
        7 => {
            let [p1, p2, k] = args.vectors();
            let ((s, c), flag) = subproblem1_sc(&p1, &p2, &k);
            sink.number(s);
            sink.number(c);
            sink.flag(flag);
        }
        8 => {
            let [p1, p2, k] = args.vectors();
            set_2(sink, &subproblem3_sc(&p1, &p2, &k, args.real()));
        }
        9 => {
            let [h, p, k] = args.vectors();
            set_2(sink, &subproblem4_sc(&h, &p, &k, args.real()));
        }
        _ => set_4(sink, &reduced_solutionset(args.triples())),
    }
}

/// The slots of the sorted list, then the passes; or the set, then the passes of its two sorts.
fn run_sort(id: u64, args: &mut Args, sink: &mut impl Sink) {
    let mut triples = args.triples();
    match id {
        0 => {
            let passes = sort(&mut triples, compare_triples);
            for &triple in &triples {
                triple.put(sink);
            }
            sink.unused(3 * MOST_CANDIDATES.saturating_sub(triples.len()));
            sink.count(passes);
        }
        _ => {
            let reduced = reduced_with_passes(triples);
            set_4(sink, &reduced.kept);
            sink.count(reduced.first_sort);
            sink.count(reduced.second_sort);
        }
    }
}

fn run_forward<A: Arith>(args: &mut Args, sink: &mut impl Sink) {
    let (kin, theta): (Kinematics, Vector6) = (args.arm(), args.column());
    let (r, p) = kin.forward_kinematics::<A>(&theta);
    entries(sink, &r);
    entries(sink, &p);
}

/// The reduced arm's numbers, then the rotation by rows.
fn run_partial<A: Arith>(args: &mut Args, sink: &mut impl Sink) {
    let kin = Kinematics::from_track_arm(&args.reals());
    let (n, q_n, r_6t) = (args.count(), args.real(), args.matrix());
    let (reduced, r) = kin.forward_kinematics_partial::<A>(q_n, n, &r_6t);
    for x in reduced.numbers() {
        sink.number(x);
    }
    entries(sink, &r);
}

/// Reads n, the arm and the pose, and solves; no refusal applies here.
pub fn answers_of<A: Arith>(family: u64, args: &mut Args) -> Answers {
    let n = args.count();
    let (kin, pose) = (args.arm(), args.pose());
    family_answers::<A>(family, n, &kin, &pose)
}

fn run_family<A: Arith>(family: u64, args: &mut Args, sink: &mut impl Sink) {
    let answers = answers_of::<A>(family, args);
    sink.count(answers.angles.len());
    sink.count(answers.evaluations as usize);
    for (angles, flag) in answers.angles.iter().zip(&answers.flags) {
        entries(sink, angles);
        sink.flag(*flag);
    }
}

fn entries<const R: usize, const C: usize>(sink: &mut impl Sink, matrix: &Matrix<R, C>) {
    for x in matrix.by_rows() {
        sink.number(x);
    }
}

fn complex(sink: &mut impl Sink, z: Complex) {
    sink.number(z.re);
    sink.number(z.im);
}

/// The count, then four slots.
fn roots(sink: &mut impl Sink, roots: &[Complex]) {
    sink.count(roots.len());
    for &root in roots {
        complex(sink, root);
    }
    sink.unused(2 * (4 - roots.len()));
}

/// What a set holds: an angle, a pair or a triple.
trait Item: Copy {
    const WORDS: usize;
    fn put(self, sink: &mut impl Sink);
}

impl Item for f64 {
    const WORDS: usize = 1;
    fn put(self, sink: &mut impl Sink) {
        sink.number(self);
    }
}

impl Item for (f64, f64) {
    const WORDS: usize = 2;
    fn put(self, sink: &mut impl Sink) {
        sink.number(self.0);
        sink.number(self.1);
    }
}

impl Item for Triple {
    const WORDS: usize = 3;
    fn put(self, sink: &mut impl Sink) {
        sink.number(self.0);
        sink.number(self.1);
        sink.number(self.2);
    }
}

/// The count, then two slots, then the flag.
fn set_2<T: Item>(sink: &mut impl Sink, (set, flag): &(SolutionSet2<T>, bool)) {
    slots(sink, &set.get_all(), 2);
    sink.flag(*flag);
}

/// The count, then four slots.
fn set_4<T: Item>(sink: &mut impl Sink, set: &SolutionSet4<T>) {
    slots(sink, &set.get_all(), 4);
}

fn slots<T: Item>(sink: &mut impl Sink, items: &[T], slots: usize) {
    sink.count(items.len());
    for &item in items {
        item.put(sink);
    }
    sink.unused((slots - items.len()) * T::WORDS);
}
