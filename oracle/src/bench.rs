//! Timed runs: the inputs are made first, then one function runs over them in a loop.

use crate::{
    arith::Arith,
    functions::Function,
    inputs::typical,
    run::{run, Folded},
};

/// The most inputs made; a longer run goes over them again.
const INPUTS: usize = 1 << 16;

/// Kept out of line, so that a profiler can count from its start to its end.
#[inline(never)]
fn bench_run<A: Arith>(function: &Function, inputs: &[Vec<u64>], count: usize) -> u64 {
    let mut folded = Folded::default();
    for words in inputs.iter().cycle().take(count) {
        run::<A>(function, words, &mut folded);
    }
    folded.0
}

/// Runs the function `count` times and gives all its result bits folded into one word. The inputs
/// of a family are the arms and poses of `generate reachable` with the same family, seed and n.
pub fn bench<A: Arith>(function: &Function, count: usize, seed: u64, n: Option<u64>) -> u64 {
    let inputs: Vec<Vec<u64>> = (0..count.min(INPUTS) as u64)
        .map(|place| typical(function, seed, place, n))
        .collect();
    bench_run::<A>(function, &inputs, count)
}
