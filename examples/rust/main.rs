//! Solves a pose and prints the angles of each answer in degrees; the Rust fellow of
//! examples/c/solve.c.
//!
//!   solve          the pose below, in degrees
//!   solve inside   the same, with the answers inside the joint limits below alone
//!   solve one      the first answer inside these limits
//!   solve track    the same arm on a turntable, which is locked (track.rs; in C examples/c/track.c)
//!   solve arms     the pose below, by an arm that is found in a file of arms (arms.rs; in C examples/c/arms.c)
//!   solve lines    blocks from standard input, limits blocks among them, and the program's lines for each

mod arms;
mod saihkeb;
mod track;

use std::io::{self, Read, Write};

/// Answers that there is room for.
const ROOM: usize = 1024;

/// A large arm with a spherical wrist, in metres: family 1.
const FAMILY: u64 = 1;
#[rustfmt::skip]
const ARM: [f64; 39] = [
    0.0, 0.0, 1.0,  0.0, 1.0, 0.0,   0.0, 1.0, 0.0,    1.0, 0.0, 0.0,     0.0, 1.0, 0.0,  1.0, 0.0, 0.0,
    0.0, 0.0, 0.0,  0.32, 0.0, 0.78, 0.0, 0.0, 1.075,  1.1425, 0.0, 0.2,  0.0, 0.0, 0.0,  0.0, 0.0, 0.0,
    0.2, 0.0, 0.0,
];
/// The joint angles that make the pose, in degrees.
const TAUGHT: [f64; 6] = [30.0, -20.0, 15.0, 40.0, -60.0, 75.0];

/// The stops of each joint, low then high, in degrees. The last joint has none: no angle is beyond 180.
#[rustfmt::skip]
const STOPS: [f64; 12] = [
    -170.0, 170.0,  -65.0, 85.0,  -120.0, 70.0,  -150.0, 150.0,  -120.0, 120.0,  -200.0, 200.0,
];

const DEGREE: f64 = std::f64::consts::PI / 180.0;

/// In metres, and in an entry of the rotation.
const NEAR: f64 = 1e-6;

/// Whether the arm makes the pose with these angles. The flag does not say it, and a NaN fails here.
fn makes(arm: &[f64; 39], angles: &[f64], pose: &[f64; 12]) -> bool {
    let angles = angles.try_into().expect("six angles");
    let at = saihkeb::forward_kinematics(arm, angles);
    at.iter().zip(pose).all(|(a, b)| (a - b).abs() <= NEAR)
}

fn print_answer(arm: &[f64; 39], angles: &[f64], flag: u8, pose: &[f64; 12]) {
    for angle in angles {
        print!("{:10.4}", angle / DEGREE);
    }
    print!("{}", if flag == 1 { "  least squares" } else { "" });
    let made = makes(arm, angles, pose);
    println!("{}", if made { "" } else { "  misses the pose" });
}

/// The pose of the taught angles.
fn find_pose(arm: &[f64; 39]) -> [f64; 12] {
    saihkeb::forward_kinematics(arm, &TAUGHT.map(|t| t * DEGREE))
}

fn refused(refusal: u64) -> io::Error {
    io::Error::other(format!("refusal {refusal}"))
}

/// One answer, and no list. Refusal 12 is none inside the limits.
fn one(limits: &[f64]) -> io::Result<()> {
    let pose = find_pose(&ARM);
    let (angles, flag) = saihkeb::solve_one(FAMILY, 0, &ARM, &pose, limits).map_err(refused)?;
    print_answer(&ARM, &angles, flag, &pose);
    Ok(())
}

fn degrees(limits: &[f64]) -> io::Result<()> {
    degrees_of(FAMILY, &ARM, limits)
}

/// The limits are twelve numbers or none.
fn degrees_of(family: u64, arm: &[f64; 39], limits: &[f64]) -> io::Result<()> {
    let pose = find_pose(arm);
    let (mut angles, mut flags) = ([0.0; 6 * ROOM], [0; ROOM]);
    let solved = saihkeb::solve(family, 0, arm, &pose, limits, &mut angles, &mut flags);
    if solved.refusal != 0 {
        return Err(refused(solved.refusal));
    }
    for i in 0..solved.answers as usize {
        print_answer(arm, &angles[6 * i..6 * i + 6], flags[i], &pose);
    }
    Ok(())
}

fn bits(x: f64) -> u64 {
    if x.is_nan() {
        return 0x7ff8_0000_0000_0000;
    }
    x.to_bits()
}

/// As the program does: a limits block that is accepted holds until the next one, has no line and takes no
/// place.
fn lines() -> io::Result<()> {
    let mut input = Vec::new();
    io::stdin().read_to_end(&mut input)?;
    let mut out = io::BufWriter::new(io::stdout());
    let (mut angles, mut flags) = ([0.0; 6 * ROOM], [0; ROOM]);
    let (mut place, mut limits) = (0, Vec::new());
    for block in input.chunks(512) {
        let s = if block.len() == 512 && block[3] == 1 {
            match saihkeb::limits_block(block) {
                Ok(numbers) => {
                    limits = numbers.to_vec();
                    continue;
                }
                Err(refusal) => saihkeb::Solved {
                    refusal,
                    answers: 0,
                    evaluations: 0,
                },
            }
        } else {
            saihkeb::solve_block(block, &limits, &mut angles, &mut flags)
        };
        let (refusal, answers, evals) = (s.refusal, s.answers, s.evaluations);
        writeln!(
            out,
            "block {place} refusal {refusal} answers {answers} evals {evals}"
        )?;
        for i in 0..ROOM.min(answers as usize) {
            for &angle in &angles[6 * i..6 * i + 6] {
                write!(out, "{:016x} ", bits(angle))?;
            }
            writeln!(out, "{}", flags[i])?;
        }
        place += 1;
    }
    out.flush()
}

fn main() -> io::Result<()> {
    match std::env::args().nth(1).as_deref() {
        Some("lines") => lines(),
        Some("track") => track::degrees(),
        Some("arms") => arms::degrees(),
        Some("inside") => degrees(&STOPS.map(|stop| stop * DEGREE)),
        Some("one") => one(&STOPS.map(|stop| stop * DEGREE)),
        _ => degrees(&[]),
    }
}
