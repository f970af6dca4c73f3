//! The arm of the example on a turntable: seven axes. The Rust fellow of examples/c/track.c.

use crate::{saihkeb, DEGREE, FAMILY, NEAR};
use std::io;

/// The turntable's axis stands upright in the base, and the arm stands on it 1.5 m from that axis. Behind it are
/// the axes and offsets of the six-axis arm, of family 1; so the arm that is left where the turntable is locked is
/// of family 1 too, at every angle.
#[rustfmt::skip]
const ARM: [f64; 45] = [
    0.0, 0.0, 1.0,
    0.0, 0.0, 1.0,  0.0, 1.0, 0.0,   0.0, 1.0, 0.0,    1.0, 0.0, 0.0,     0.0, 1.0, 0.0,  1.0, 0.0, 0.0,
    0.0, 0.0, 0.35,
    1.5, 0.0, 0.2,  0.32, 0.0, 0.78, 0.0, 0.0, 1.075,  1.1425, 0.0, 0.2,  0.0, 0.0, 0.0,  0.0, 0.0, 0.0,
    0.2, 0.0, 0.0,
];
/// The first joint.
const TURNTABLE: usize = 0;

/// The angles that make the pose, in degrees. The turntable is locked at the first of them.
const TAUGHT: [f64; 7] = [50.0, 30.0, -20.0, 15.0, 40.0, -60.0, 75.0];

/// Answers that there is room for: no family but 6 has more.
const ROOM: usize = 8;

type Vector = [f64; 3];

fn vector(place: usize) -> Vector {
    std::array::from_fn(|i| ARM[3 * place + i])
}

/// v turned by an angle about an axis of length 1.
fn turn(axis: Vector, angle: f64, v: Vector) -> Vector {
    let (s, c) = angle.sin_cos();
    let along = axis[0] * v[0] + axis[1] * v[1] + axis[2] * v[2];
    std::array::from_fn(|i| {
        let (j, k) = ((i + 1) % 3, (i + 2) % 3);
        c * v[i] + s * (axis[j] * v[k] - axis[k] * v[j]) + (1.0 - c) * along * axis[i]
    })
}

/// Where the arm takes what stands at v behind its last joint, turned only or turned and moved by the offsets.
fn carry(q: &[f64; 7], v: Vector, moved: bool) -> Vector {
    (0..7).rev().fold(v, |at, joint| {
        let turned = turn(vector(joint), q[joint], at);
        let offset = vector(7 + joint);
        std::array::from_fn(|i| turned[i] + if moved { offset[i] } else { 0.0 })
    })
}

/// Forward kinematics of the seven axes: the rotation by rows, then the place.
fn pose_of(q: &[f64; 7]) -> [f64; 12] {
    let unit = |column: usize| std::array::from_fn(|i| f64::from(i == column));
    let columns = [0, 1, 2].map(|column| carry(q, unit(column), false));
    let tool = carry(q, vector(14), true);
    std::array::from_fn(|i| {
        if i < 9 {
            columns[i % 3][i / 3]
        } else {
            tool[i - 9]
        }
    })
}

/// Whether the arm makes the pose with these angles. The flag does not say it, and a NaN fails here.
fn makes(q: &[f64; 7], pose: &[f64; 12]) -> bool {
    let at = pose_of(q);
    at.iter().zip(pose).all(|(a, b)| (a - b).abs() <= NEAR)
}

/// The seven angles of each answer in degrees, and whether the arm makes the pose with them.
pub fn degrees() -> io::Result<()> {
    let taught = TAUGHT.map(|t| t * DEGREE);
    let pose = pose_of(&taught);
    let (mut angles, mut flags) = ([0.0; 7 * ROOM], [0; ROOM]);
    let locked = (TURNTABLE as u64, taught[TURNTABLE]);
    let solved = saihkeb::solve_track(FAMILY, 0, &ARM, locked, &pose, &mut angles, &mut flags);
    if solved.refusal != 0 {
        return Err(io::Error::other(format!("refusal {}", solved.refusal)));
    }
    for (q, flag) in angles.chunks(7).zip(flags).take(solved.answers as usize) {
        for angle in q {
            print!("{:10.4}", angle / DEGREE);
        }
        print!("{}", if flag == 1 { "  least squares" } else { "" });
        let made = makes(q.try_into().expect("seven angles"), &pose);
        println!("  {} the pose", if made { "makes" } else { "misses" });
    }
    Ok(())
}
