//! The solve call of the library beside the reference program's, on the same poses in one run.
//! `rules` is the reference program over document 01's arithmetic, `machine` the same with the
//! standard library's sine, arctangent and cube root. All three judge their input and write to lent
//! lists. With the setting `untouched` the published Rust over nalgebra is a side too, which judges
//! nothing and gives lists of its own; they are written to the lent ones. Its n is 200.
//!
//! `solve time FAMILY N POSES ROUNDS` prints for each side: its name, evaluations a solve (which the
//! published Rust does not count), and the nanoseconds a solve: each few poses take the least of all
//! rounds. It stops where port and rules differ in a bit, or the published Rust and the reference
//! program with nalgebra's QR.
//! `solve count FAMILY N POSES SIDE` solves each pose once with that side, for callgrind.
//!
//! The poses are the first of `oracle generate reachable FAMILY 1 POSES N`.

#[allow(dead_code)]
#[path = "../../../oracle/src/arith.rs"]
mod arith;
#[allow(dead_code)]
#[path = "../../../oracle/src/arms.rs"]
mod arms;
#[allow(dead_code)]
#[path = "../../../oracle/src/block.rs"]
mod block;
#[allow(dead_code)]
#[path = "../../../oracle/src/complex.rs"]
mod complex;
#[allow(dead_code)]
#[path = "../../../oracle/src/generate.rs"]
mod generate;
#[allow(dead_code)]
#[path = "../../../oracle/src/inverse_kinematics/mod.rs"]
mod inverse_kinematics;
#[allow(dead_code)]
#[path = "../../../oracle/src/limited.rs"]
mod limited;

#[path = "../../../oracle/src/limits.rs"]
mod limits;

#[path = "../../../oracle/src/linalg.rs"]
mod linalg;
#[allow(dead_code)]
#[path = "../../../oracle/src/nalgebra.rs"]
mod nalgebra;
#[allow(dead_code)]
#[path = "../../../oracle/src/nearest.rs"]
mod nearest;
#[allow(dead_code)]
#[path = "../../../oracle/src/odd.rs"]
mod odd;
#[allow(dead_code)]
#[path = "../../../oracle/src/rng.rs"]
mod rng;
#[allow(dead_code)]
#[path = "../../../examples/rust/saihkeb.rs"]
mod saihkeb;
#[allow(dead_code)]
#[path = "../../../oracle/src/solutionset.rs"]
mod solutionset;
#[allow(dead_code)]
#[path = "../../../oracle/src/solve.rs"]
mod solve;
#[allow(dead_code)]
#[path = "../../../oracle/src/subproblems/mod.rs"]
mod subproblems;

use arith::{Arith, Machine, Rules};
use block::canonical_bits;
use generate::{sample, Kind, Sample};
use std::hint::black_box;
use std::time::Instant;

const SEED: u64 = 1;
/// Answers that there is room for.
const ROOM: usize = 1024;

/// The lent lists, and what a solve gave beside them.
struct Lent {
    angles: Vec<f64>,
    flags: Vec<u8>,
    refusal: u64,
    answers: u64,
    evaluations: u64,
}

impl Lent {
    fn new() -> Self {
        Lent {
            angles: vec![0.0; 6 * ROOM],
            flags: vec![0; ROOM],
            refusal: 0,
            answers: 0,
            evaluations: 0,
        }
    }

    /// Everything in one list; NaNs are alike.
    fn words(&self) -> Vec<u64> {
        let written = ROOM.min(self.answers as usize);
        let mut words = vec![self.refusal, self.answers, self.evaluations];
        words.extend(
            self.angles[..6 * written]
                .iter()
                .map(|&x| canonical_bits(x)),
        );
        words.extend(self.flags[..written].iter().map(|&flag| flag as u64));
        words
    }
}

#[inline(never)]
fn port(s: &Sample, lent: &mut Lent) {
    let given = saihkeb::solve(
        s.family,
        s.n,
        &s.arm,
        &s.pose,
        &[],
        &mut lent.angles,
        &mut lent.flags,
    );
    lent.refusal = given.refusal;
    lent.answers = given.answers;
    lent.evaluations = given.evaluations;
}

fn oracle<A: Arith>(s: &Sample, lent: &mut Lent) {
    let given = solve::solve::<A>(
        s.family,
        s.n,
        &s.arm,
        &s.pose,
        &[],
        &mut lent.angles,
        &mut lent.flags,
    );
    lent.refusal = given.refusal as u64;
    lent.answers = given.answers as u64;
    lent.evaluations = given.evaluations;
}

#[inline(never)]
fn rules(s: &Sample, lent: &mut Lent) {
    oracle::<Rules>(s, lent);
}

#[inline(never)]
fn machine(s: &Sample, lent: &mut Lent) {
    oracle::<Machine>(s, lent);
}

#[cfg(untouched)]
#[inline(never)]
fn untouched(s: &Sample, lent: &mut Lent) {
    let (angles, flags) = ::untouched::answers(s.family, &s.arm, &s.pose);
    let slots = lent.angles.chunks_exact_mut(6).zip(&mut lent.flags);
    for ((six, byte), (answer, flag)) in slots.zip(angles.iter().zip(&flags)) {
        six.copy_from_slice(answer.as_slice());
        *byte = *flag as u8;
    }
    lent.refusal = 0;
    lent.answers = angles.len() as u64;
    lent.evaluations = 0;
}

type Side = fn(&Sample, &mut Lent);

/// Those that can solve it.
fn sides(_family: u64, _n: u64) -> Vec<(&'static str, Side)> {
    #[allow(unused_mut)]
    let mut sides: Vec<(&str, Side)> = vec![("port", port), ("rules", rules), ("machine", machine)];
    #[cfg(untouched)]
    if _family != 6 || _n == 200 {
        sides.push(("untouched", untouched));
    }
    sides
}

/// Stops where two sides that must agree do not.
fn agree(s: &Sample) {
    let (mut a, mut b) = (Lent::new(), Lent::new());
    port(s, &mut a);
    rules(s, &mut b);
    assert!(a.words() == b.words(), "port and rules differ");
    #[cfg(untouched)]
    if s.family != 6 || s.n == 200 {
        untouched(s, &mut a);
        oracle::<arith::Nalgebra>(s, &mut b);
        b.evaluations = 0;
        assert!(a.words() == b.words(), "untouched and nalgebra differ");
    }
}

/// Kept out of line, so that a profiler can count from its start to its end.
#[inline(never)]
fn bench_run(side: Side, samples: &[Sample], lent: &mut Lent) -> u64 {
    let mut evaluations = 0;
    for s in samples {
        side(s, lent);
        evaluations += lent.evaluations;
    }
    evaluations
}

/// How many poses are timed at once: about as long as a clock can tell, and short enough that the
/// machine's other work seldom falls into every round.
fn together(family: u64) -> usize {
    if family == 6 {
        1
    } else {
        20
    }
}

fn time(sides: &[(&str, Side)], samples: &[Sample], rounds: u64) {
    samples.iter().for_each(agree);
    let mut lent = Lent::new();
    let (mut sums, mut evaluations) = (vec![0.0; sides.len()], vec![0; sides.len()]);
    for some in samples.chunks(together(samples[0].family)) {
        // All sides in turn in every round, and the least time of each.
        let (mut least, mut made) = (vec![f64::INFINITY; sides.len()], vec![0; sides.len()]);
        for _ in 0..rounds {
            for (i, (_, side)) in sides.iter().enumerate() {
                let start = Instant::now();
                made[i] = black_box(bench_run(*side, some, &mut lent));
                least[i] = least[i].min(start.elapsed().as_secs_f64());
            }
        }
        for i in 0..sides.len() {
            sums[i] += least[i];
            evaluations[i] += made[i];
        }
    }
    let each = |x: f64| x / samples.len() as f64;
    for (i, (name, _)) in sides.iter().enumerate() {
        let (made, ns) = (each(evaluations[i] as f64), each(sums[i] * 1e9));
        println!("{name} {made:.2} {ns:.1}");
    }
}

fn main() {
    let words: Vec<String> = std::env::args().skip(1).collect();
    let number = |i: usize| -> u64 { words[i].parse().expect("a number") };
    let (family, n, poses) = (number(1), number(2), number(3));
    let samples: Vec<Sample> = (0..poses)
        .map(|place| sample(Kind::Reachable, family, SEED, place, (n > 0).then_some(n)))
        .collect();
    assert!(samples.iter().all(|s| s.n == n), "n");
    let sides = sides(family, n);
    if words[0] == "time" {
        return time(&sides, &samples, number(4));
    }
    let (_, side) = sides
        .iter()
        .find(|(name, _)| *name == words[4])
        .expect("a side");
    println!("{}", bench_run(*side, &samples, &mut Lent::new()));
}
