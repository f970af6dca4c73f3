//! Arms for the generator: a few close to machines one can buy, and random ones with the
//! structure that the family's solver reads out of an arm.
//!
//! | family | axes | offsets |
//! |---|---|---|
//! | 1 | h2 = h3 | p4 = p5 = 0 |
//! | 2 | any | p1 = p4 = p5 = 0 |
//! | 3 | h1, h2 and h2, h3 not parallel | p4 = p5 = 0 |
//! | 4 | h2 = h3 = h4 | p5 = 0 |
//! | 5 | h2 = h3 = h4 | any |
//! | 6 | h2 = h3 | any |
//!
//! Axes count from 1 and offsets from 0, as in document 01.

use crate::rng::Rng;

pub type Arm = [f64; 39];
type V = [f64; 3];

const O: V = [0.0, 0.0, 0.0];
const X: V = [1.0, 0.0, 0.0];
const Y: V = [0.0, 1.0, 0.0];
const Z: V = [0.0, 0.0, 1.0];

const fn minus(v: V) -> V {
    [-v[0], -v[1], -v[2]]
}

/// Axes and offsets in metres.
struct Design {
    name: &'static str,
    h: [V; 6],
    p: [V; 7],
}

/// Close to a Puma 560: shoulder offset, elbow offset, spherical wrist.
const PUMA: Design = Design {
    name: "puma",
    h: [Z, Y, Y, Z, Y, Z],
    p: [
        [0.0, 0.0, 0.6718],
        [0.0, 0.2435, 0.0],
        [0.4318, -0.0934, 0.0],
        [-0.0203, 0.0, 0.4331],
        O,
        O,
        [0.0, 0.0, 0.0563],
    ],
};

/// Close to a large palletising robot with the axes 1 and 2 apart.
const LARGE: Design = Design {
    name: "large",
    h: [Z, Y, Y, X, Y, X],
    p: [
        O,
        [0.32, 0.0, 0.78],
        [0.0, 0.0, 1.075],
        [1.1425, 0.0, 0.2],
        O,
        O,
        [0.2, 0.0, 0.0],
    ],
};

/// The same build with the makers' other sense of turning.
const LARGE_REVERSED: Design = Design {
    name: "large-reversed",
    h: [minus(Z), Y, Y, minus(X), Y, minus(X)],
    p: [
        [0.0, 0.0, 0.675],
        [0.35, 0.0, 0.0],
        [1.15, 0.0, 0.0],
        [1.2, 0.0, 0.041],
        O,
        O,
        [0.24, 0.0, 0.0],
    ],
};

/// A lightweight arm of seven axes, in metres. Locking its third joint leaves an arm of family 2, close to
/// the two that follow.
pub fn light_whole() -> [f64; 45] {
    let along = |z: f64| [0.0, 0.0, z];
    let columns: [V; 15] = [
        Z,
        Y,
        Z,
        minus(Y),
        Z,
        Y,
        Z,
        along(0.36),
        O,
        along(0.21),
        along(0.21),
        along(0.4),
        O,
        O,
        along(0.126),
    ];
    std::array::from_fn(|i| columns[i / 3][i % 3])
}

/// A lightweight arm with its third joint locked, so that axes 1 and 2 meet.
const LIGHT: Design = Design {
    name: "light",
    h: [Z, Y, minus(Y), Z, Y, Z],
    p: [
        [0.0, 0.0, 0.36],
        O,
        [0.0, 0.0, 0.42],
        [0.0, 0.0, 0.4],
        O,
        O,
        [0.0, 0.0, 0.126],
    ],
};

/// The same with the locked joint a quarter turn on.
const LIGHT_TURNED: Design = Design {
    name: "light-turned",
    h: [Z, Y, X, Z, Y, Z],
    p: [
        [0.0, 0.0, 0.34],
        O,
        [0.02, 0.0, 0.4],
        [0.0, 0.03, 0.4],
        O,
        O,
        [0.0, 0.0, 0.15],
    ],
};

/// A spherical wrist behind three axes of which no two are parallel or meet.
const SKEW: Design = Design {
    name: "skew",
    h: [Z, Y, [0.0, 0.6, 0.8], X, Y, X],
    p: [
        [0.0, 0.0, 0.4],
        [0.15, 0.0, 0.05],
        [0.07, 0.02, 0.56],
        [0.515, 0.0, 0.13],
        O,
        O,
        [0.09, 0.0, 0.0],
    ],
};

/// A spherical wrist behind axes z, y, x that do not meet.
const CRANE: Design = Design {
    name: "crane",
    h: [Z, Y, X, Z, Y, Z],
    p: [
        [0.0, 0.0, 0.3],
        [0.1, 0.05, 0.2],
        [0.35, 0.08, 0.06],
        [0.05, 0.3, 0.1],
        O,
        O,
        [0.0, 0.0, 0.07],
    ],
};

/// Close to a UR5.
const SMALL_COBOT: Design = Design {
    name: "small-cobot",
    h: [Z, Y, Y, Y, minus(Z), Y],
    p: [
        [0.0, 0.0, 0.089159],
        [0.0, 0.13585, 0.0],
        [0.425, -0.1197, 0.0],
        [0.39225, 0.0, 0.0],
        [0.0, 0.093, -0.09465],
        O,
        [0.0, 0.0823, 0.0],
    ],
};

/// Close to a UR10.
const LARGE_COBOT: Design = Design {
    name: "large-cobot",
    h: [Z, Y, Y, Y, minus(Z), Y],
    p: [
        [0.0, 0.0, 0.1273],
        [0.0, 0.220941, 0.0],
        [0.612, -0.1719, 0.0],
        [0.5723, 0.0, 0.0],
        [0.0, 0.1149, -0.1157],
        O,
        [0.0, 0.0922, 0.0],
    ],
};

/// Three parallel axes and a wrist whose last two axes do not meet.
const OFFSET_COBOT: Design = Design {
    name: "offset-cobot",
    h: [Z, Y, Y, Y, minus(Z), Y],
    p: [
        [0.0, 0.0, 0.1625],
        [0.0, 0.133, 0.0],
        [0.425, 0.0, 0.0],
        [0.3922, 0.0, 0.0],
        [0.0, 0.0, -0.0997],
        [0.03, 0.05, -0.02],
        [0.0, 0.0996, 0.0],
    ],
};

/// The same build with its last axis along x.
const OFFSET_COBOT_X: Design = Design {
    name: "offset-cobot-x",
    h: [Z, X, X, X, Z, X],
    p: [
        [0.0, 0.0, 0.2],
        [0.12, 0.0, 0.0],
        [-0.03, 0.0, 0.5],
        [0.0, 0.0, 0.45],
        [0.07, 0.02, 0.1],
        [0.04, 0.06, 0.03],
        [0.08, 0.0, 0.0],
    ],
};

/// A cobot with wrist offsets, axes 2 and 3 parallel.
const WRIST_OFFSET: Design = Design {
    name: "wrist-offset",
    h: [Z, Y, Y, X, Y, X],
    p: [
        [0.0, 0.0, 0.265],
        O,
        [0.0, 0.0, 0.444],
        [0.0, 0.01, 0.11],
        [0.47, 0.03, 0.02],
        [0.101, 0.02, 0.08],
        [0.05, 0.0, 0.0],
    ],
};

/// Close to a painting arm whose last offset lies across.
const ACROSS: Design = Design {
    name: "across",
    h: [Z, Y, Y, X, Y, X],
    p: [
        [0.0, 0.0, 0.245],
        [0.02, 0.01, 0.0],
        [0.0, 0.02, 0.54],
        [0.05, 0.0, 0.04],
        [0.49, 0.02, 0.06],
        [0.05, -0.15, 0.03],
        [0.16, 0.0, 0.0],
    ],
};

/// Axes 2 and 3 meet, so that subproblem 5's quartic is a square and its roots are double.
const MEETING: Design = Design {
    name: "meeting",
    h: [Z, Y, [0.0, 0.6, 0.8], X, Y, X],
    p: [
        [0.0, 0.0, 0.4],
        [0.15, 0.0, 0.05],
        [0.0, 0.02, 0.56],
        [0.515, 0.0, 0.13],
        O,
        O,
        [0.09, 0.0, 0.0],
    ],
};

/// p5 has no part along y, so that subproblem 6's two ellipses share an axis and its answers are
/// NaN.
const SHARED_AXIS: Design = Design {
    name: "shared-axis",
    h: [Z, X, X, X, Z, X],
    p: [
        [0.0, 0.0, 0.2],
        [0.12, 0.0, 0.0],
        [-0.03, 0.0, 0.5],
        [0.0, 0.0, 0.45],
        [0.07, 0.0, 0.1],
        [0.04, 0.0, 0.03],
        [0.08, 0.0, 0.0],
    ],
};

/// Close to a cobot that is sold: p4 lies along axis 4, with the same result.
const ALONG_AXIS: Design = Design {
    name: "along-axis",
    h: [Z, Y, Y, X, Y, X],
    p: [
        [0.0, 0.0, 0.265],
        O,
        [0.0, 0.0, 0.444],
        [0.0, 0.0, 0.11],
        [0.47, 0.0, 0.0],
        [0.0, 0.0, 0.08],
        [0.101, 0.0, 0.0],
    ],
};

/// Arms that a family's solver accepts but cannot solve well.
fn degenerate_design(family: u64) -> &'static Design {
    match family {
        1 => &LIGHT,
        2 => &SHARED_AXIS,
        3 => &MEETING,
        4 | 5 => &SHARED_AXIS,
        _ => &ALONG_AXIS,
    }
}

fn designs(family: u64) -> &'static [Design] {
    match family {
        1 => &[PUMA, LARGE, LARGE_REVERSED],
        2 => &[LIGHT, LIGHT_TURNED],
        3 => &[SKEW, CRANE],
        4 => &[SMALL_COBOT, LARGE_COBOT],
        5 => &[OFFSET_COBOT, OFFSET_COBOT_X],
        _ => &[WRIST_OFFSET, ACROSS],
    }
}

/// A vector of length one, evenly over the sphere.
pub fn random_axis(rng: &mut Rng) -> V {
    loop {
        let v: V = std::array::from_fn(|_| rng.between(-1.0, 1.0));
        let norm = (v[0] * v[0] + v[1] * v[1] + v[2] * v[2]).sqrt();
        if norm > 0.1 && norm <= 1.0 {
            return v.map(|x| x / norm);
        }
    }
}

fn random_offset(rng: &mut Rng) -> V {
    std::array::from_fn(|_| rng.between(-0.5, 0.5))
}

/// Random axes and offsets with the family's structure.
fn random_design(family: u64, rng: &mut Rng) -> Design {
    let mut h: [V; 6] = std::array::from_fn(|_| random_axis(rng));
    let mut p: [V; 7] = std::array::from_fn(|_| random_offset(rng));
    if matches!(family, 1 | 4 | 5 | 6) {
        h[2] = h[1];
    }
    if matches!(family, 4 | 5) {
        h[3] = h[1];
    }
    if matches!(family, 1..=3) {
        p[4] = O;
        p[5] = O;
    }
    if family == 2 {
        p[1] = O;
    }
    if family == 4 {
        p[5] = O;
    }
    Design {
        name: "random-axes",
        h,
        p,
    }
}

/// Random offsets on axes along x, y and z.
fn random_square_design(family: u64, rng: &mut Rng) -> Design {
    let mut design = random_design(family, rng);
    design.name = "random-offsets";
    design.h = designs(family)[rng.below(designs(family).len())].h;
    design
}

/// The arm's numbers, in metres or in millimetres.
fn numbers(design: &Design, rng: &mut Rng) -> Arm {
    let unit = rng.pick(&[1.0, 1.0, 1000.0]);
    let mut arm = [0.0; 39];
    for (i, x) in design.h.iter().flatten().enumerate() {
        arm[i] = *x;
    }
    for (i, x) in design.p.iter().flatten().enumerate() {
        arm[18 + i] = x * unit;
    }
    arm
}

/// A realistic arm of the family, and what it is called in counts.
pub fn realistic(family: u64, rng: &mut Rng) -> (Arm, &'static str) {
    let known = designs(family);
    let choice = rng.below(known.len() + 2);
    let made;
    let design = match choice.checked_sub(known.len()) {
        None => &known[choice],
        Some(0) => {
            made = random_square_design(family, rng);
            &made
        }
        Some(_) => {
            made = random_design(family, rng);
            &made
        }
    };
    (numbers(design, rng), design.name)
}

/// An arm of the family that leads its solver into double roots or divisions by zero.
pub fn degenerate(family: u64, rng: &mut Rng) -> (Arm, &'static str) {
    let design = degenerate_design(family);
    (numbers(design, rng), design.name)
}
