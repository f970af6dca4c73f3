//! The error that family 6's search goes over, printed at chosen angles.

use crate::{
    arith::Arith,
    block::{for_each_block, Request},
    inverse_kinematics::{auxiliary::Kinematics, TwoParallel},
    solve::{pose_parts, TWO_PARALLEL},
};
use std::f64::consts::PI;
use std::io::{self, Read, Write};

/// The request of a block of family 6 that no refusal applies to.
pub fn two_parallel_request(judged: Result<Request, u32>) -> Option<Request> {
    judged.ok().filter(|request| {
        let mut numbers = request.arm.iter().chain(&request.pose);
        request.family == TWO_PARALLEL
            && (1..=400).contains(&request.n)
            && numbers.all(|x| x.is_finite())
    })
}

/// Angles as a word of the command line names them.
pub enum Angles {
    Grid(u64),
    One(f64),
    /// From, to, and the number of steps.
    Steps(f64, f64, u64),
}

/// Reads a number, or k and a grid point's number, or FROM:TO:STEPS.
pub fn parse(word: &str) -> Result<Angles, String> {
    let wrong = || format!("{word} is no angle");
    let real = |text: &str| text.parse::<f64>().map_err(|_| wrong());
    let whole = |text: &str| text.parse::<u64>().map_err(|_| wrong());
    let parts: Vec<&str> = word.split(':').collect();
    match parts[..] {
        [from, to, steps] => Ok(Angles::Steps(real(from)?, real(to)?, whole(steps)?.max(1))),
        [one] => match one.strip_prefix('k') {
            Some(k) => Ok(Angles::Grid(whole(k)?)),
            None => Ok(Angles::One(real(one)?)),
        },
        _ => Err(wrong()),
    }
}

impl Angles {
    fn values(&self, n: u64) -> Vec<f64> {
        match *self {
            // As the search makes its grid.
            Angles::Grid(k) => vec![-PI + k as f64 * ((PI - -PI) / n as f64)],
            Angles::One(x) => vec![x],
            Angles::Steps(from, to, steps) => (0..=steps)
                .map(|j| from + (to - from) * (j as f64 / steps as f64))
                .collect(),
        }
    }
}

/// One line for each block, then one for each angle: the angle, and for each answer of
/// subproblem 6 its component's error and, in brackets, q6 and q4.
pub fn print<A: Arith>(
    input: &mut impl Read,
    output: &mut impl Write,
    angles: Vec<Angles>,
) -> io::Result<()> {
    for_each_block(input, |block| {
        writeln!(output, "block {}", block.place)?;
        let Some(request) = two_parallel_request(block.request) else {
            return Ok(());
        };
        let ((r, p), kin) = (
            pose_parts(&request.pose),
            Kinematics::from_arm(&request.arm),
        );
        let problem = TwoParallel::new(&r, &p, &kin);
        for x in angles.iter().flat_map(|angle| angle.values(request.n)) {
            let (errors, pairs) = (problem.error::<A>(x), problem.pairs::<A>(x));
            write!(output, "{x:?}")?;
            for (error, (q6, q4)) in errors.iter().zip(&pairs) {
                write!(output, " {error:.6e} ({q6:.6} {q4:.6})")?;
            }
            writeln!(output)?;
        }
        Ok(())
    })
}
