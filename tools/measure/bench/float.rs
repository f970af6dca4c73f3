//! Scalar functions of the port beside Rust's, in one run: nanoseconds a call, throughput.
//!
//! `rules` is document 01's rule in Rust (the reference program's own arith.rs), `machine` the
//! standard library's function. With a name as argument it makes one round of that loop alone,
//! for callgrind.

#[allow(dead_code)]
#[path = "../../../oracle/src/arith.rs"]
mod arith;
#[allow(dead_code)]
#[path = "../../../oracle/src/complex.rs"]
mod complex;
#[allow(dead_code)]
#[path = "../../../oracle/src/nearest.rs"]
mod nearest;

use arith::{Arith, Rules};
use std::hint::black_box;
use std::time::Instant;

#[link(name = "float_c", kind = "static")]
extern "C" {
    fn bench_sqrt(x: f64) -> f64;
    fn bench_cbrt(x: f64) -> f64;
    fn bench_sin_plus_cos(x: f64) -> f64;
    fn bench_atan2(y: f64, x: f64) -> f64;
}

const COUNT: usize = 4096;
const ROUNDS: usize = 400;

// Each loop calls through a function that is not inlined, on both sides.
#[inline(never)]
fn machine_sqrt(x: f64, _: f64) -> f64 {
    x.sqrt()
}
#[inline(never)]
fn machine_cbrt(x: f64, _: f64) -> f64 {
    x.cbrt()
}
#[inline(never)]
fn machine_sin_cos(x: f64, _: f64) -> f64 {
    let (s, c) = x.sin_cos();
    s + c
}
#[inline(never)]
fn machine_atan2(x: f64, y: f64) -> f64 {
    x.atan2(y)
}
#[inline(never)]
fn rules_sin_cos(x: f64, _: f64) -> f64 {
    let (s, c) = Rules::sin_cos(x);
    s + c
}
#[inline(never)]
fn rules_atan2(x: f64, y: f64) -> f64 {
    Rules::atan2(x, y)
}
#[inline(never)]
fn port_sqrt(x: f64, _: f64) -> f64 {
    unsafe { bench_sqrt(x) }
}
#[inline(never)]
fn port_cbrt(x: f64, _: f64) -> f64 {
    unsafe { bench_cbrt(x) }
}
#[inline(never)]
fn port_sin_cos(x: f64, _: f64) -> f64 {
    unsafe { bench_sin_plus_cos(x) }
}
#[inline(never)]
fn port_atan2(x: f64, y: f64) -> f64 {
    unsafe { bench_atan2(x, y) }
}

type Function = fn(f64, f64) -> f64;

const FUNCTIONS: [(&str, Function); 10] = [
    ("machine_sqrt", machine_sqrt),
    ("port_sqrt", port_sqrt),
    ("machine_cbrt", machine_cbrt),
    ("port_cbrt", port_cbrt),
    ("machine_sin_cos", machine_sin_cos),
    ("rules_sin_cos", rules_sin_cos),
    ("port_sin_cos", port_sin_cos),
    ("machine_atan2", machine_atan2),
    ("rules_atan2", rules_atan2),
    ("port_atan2", port_atan2),
];

/// Numbers in [0, 1), from a xorshift generator.
fn unit(state: &mut u64) -> f64 {
    *state ^= *state << 13;
    *state ^= *state >> 7;
    *state ^= *state << 17;
    (*state >> 11) as f64 / (1u64 << 53) as f64
}

#[inline(never)]
fn bench_run(f: Function, xs: &[f64], ys: &[f64]) -> f64 {
    let mut sum = 0.0;
    for (x, y) in xs.iter().zip(ys) {
        sum += f(*x, *y);
    }
    sum
}

fn main() {
    let mut state = 0x9E37_79B9_7F4A_7C15u64;
    // Angles in (-PI, PI); roots take their sizes.
    let mut angles = || (0..COUNT).map(|_| (unit(&mut state) * 2.0 - 1.0) * 3.14).collect::<Vec<f64>>();
    let (xs, ys) = (angles(), angles());
    let sizes: Vec<f64> = xs.iter().map(|x| x.abs() * 100.0).collect();
    let inputs = |name: &str| if name.ends_with("sqrt") { &sizes } else { &xs };
    if let Some(only) = std::env::args().nth(1) {
        let (name, f) = FUNCTIONS.iter().find(|(name, _)| *name == only).expect("no such function");
        println!("{}", black_box(bench_run(*f, inputs(name), &ys)));
        return;
    }
    // The functions in turn in every round, and the least time of each.
    let mut best = [f64::INFINITY; FUNCTIONS.len()];
    for _ in 0..ROUNDS {
        for (slot, (name, f)) in best.iter_mut().zip(FUNCTIONS) {
            let start = Instant::now();
            black_box(bench_run(f, inputs(name), &ys));
            *slot = slot.min(start.elapsed().as_secs_f64());
        }
    }
    for (time, (name, _)) in best.iter().zip(FUNCTIONS) {
        println!("{name} {:.2}", time * 1e9 / COUNT as f64);
    }
}
