//! The functions that can be tried one by one: their groups, numbers, names and argument shapes.
//! `call`, `cases` and `bench` share this table; `run` runs its entries.

#[derive(Clone, Copy, Debug, PartialEq, Eq)]
pub enum Group {
    Float,
    Linear,
    Complex,
    Polynomial,
    Subproblems,
    Kinematics,
    Families,
    Track,
    Sort,
}

pub const GROUPS: [(&str, Group); 9] = [
    ("float", Group::Float),
    ("linear", Group::Linear),
    ("complex", Group::Complex),
    ("polynomial", Group::Polynomial),
    ("subproblems", Group::Subproblems),
    ("kinematics", Group::Kinematics),
    ("families", Group::Families),
    ("track", Group::Track),
    ("sort", Group::Sort),
];

/// What an argument stands for, so that suitable numbers can be made for it.
#[derive(Clone, Copy, Debug, PartialEq, Eq)]
pub enum Kind {
    Real,
    Angle,
    Length,
    Vector2,
    Vector,
    Vector4,
    Axis,
    /// Two by two, by rows.
    Matrix2,
    /// Three by three, by rows.
    Matrix,
    Complex,
    /// Six axes and seven offsets.
    Arm,
    /// The rotation by rows, then the place.
    Pose,
    Angles,
    /// A whole number.
    Count,
    /// A whole number from 0 to 6.
    Joint,
    /// A whole number, then as many triples.
    Triples,
}

impl Kind {
    /// The number of words; a list of triples has its count alone as a fixed part.
    pub fn words(self) -> usize {
        match self {
            Kind::Real | Kind::Angle | Kind::Length => 1,
            Kind::Count | Kind::Joint | Kind::Triples => 1,
            Kind::Vector2 | Kind::Complex => 2,
            Kind::Vector | Kind::Axis => 3,
            Kind::Vector4 | Kind::Matrix2 => 4,
            Kind::Angles => 6,
            Kind::Matrix => 9,
            Kind::Pose => 12,
            Kind::Arm => 39,
        }
    }
}

#[derive(Clone, Copy)]
pub struct Function {
    pub group: Group,
    pub id: u64,
    pub name: &'static str,
    pub shape: &'static [Kind],
}

impl Function {
    /// The least number of argument words.
    pub fn arity(&self) -> usize {
        self.shape.iter().map(|kind| kind.words()).sum()
    }

    /// The number of argument words that these begin; only a list of triples makes it vary.
    pub fn arity_of(&self, words: &[u64]) -> usize {
        match (self.shape, words.first()) {
            ([Kind::Triples], Some(&count)) => 1 + 3 * count.min(1 << 20) as usize,
            _ => self.arity(),
        }
    }
}

const fn entry(group: Group, id: u64, name: &'static str, shape: &'static [Kind]) -> Function {
    Function {
        group,
        id,
        name,
        shape,
    }
}

pub const FUNCTIONS: &[Function] = &[
    entry(Group::Float, 0, "abs", &[Kind::Real]),
    entry(Group::Float, 1, "is_finite", &[Kind::Real]),
    entry(Group::Float, 2, "sqrt", &[Kind::Real]),
    entry(Group::Float, 3, "cbrt", &[Kind::Real]),
    entry(Group::Float, 4, "sin", &[Kind::Angle]),
    entry(Group::Float, 5, "cos", &[Kind::Angle]),
    entry(Group::Float, 6, "sin_cos", &[Kind::Angle]),
    entry(Group::Float, 7, "atan2", &[Kind::Real, Kind::Real]),
    entry(Group::Float, 8, "rem_tau", &[Kind::Real]),
    entry(Group::Float, 9, "rem_euclid_tau", &[Kind::Real]),
    entry(Group::Float, 10, "wrap_to_pi", &[Kind::Real]),
    entry(Group::Float, 11, "wrap_to_pi_inverse", &[Kind::Real]),
    entry(Group::Float, 12, "infinity", &[]),
    entry(Group::Float, 13, "add", &[Kind::Real, Kind::Real]),
    entry(Group::Float, 14, "sub", &[Kind::Real, Kind::Real]),
    entry(Group::Float, 15, "mul", &[Kind::Real, Kind::Real]),
    entry(Group::Float, 16, "div", &[Kind::Real, Kind::Real]),
    entry(Group::Linear, 0, "dot", &[Kind::Vector, Kind::Vector]),
    entry(Group::Linear, 1, "cross", &[Kind::Vector, Kind::Vector]),
    entry(Group::Linear, 2, "norm", &[Kind::Vector]),
    entry(Group::Linear, 3, "norm_squared", &[Kind::Vector]),
    entry(Group::Linear, 4, "normalize", &[Kind::Vector]),
    entry(Group::Linear, 5, "sum", &[Kind::Vector, Kind::Vector]),
    entry(
        Group::Linear,
        6,
        "difference",
        &[Kind::Vector, Kind::Vector],
    ),
    entry(Group::Linear, 7, "negation", &[Kind::Vector]),
    entry(Group::Linear, 8, "scaling", &[Kind::Vector, Kind::Real]),
    entry(
        Group::Linear,
        9,
        "matrix_product",
        &[Kind::Matrix, Kind::Matrix],
    ),
    entry(
        Group::Linear,
        10,
        "matrix_times_vector",
        &[Kind::Matrix, Kind::Vector],
    ),
    entry(Group::Linear, 11, "transpose", &[Kind::Matrix]),
    entry(Group::Linear, 12, "hat", &[Kind::Vector]),
    entry(Group::Linear, 13, "rot", &[Kind::Axis, Kind::Angle]),
    entry(
        Group::Linear,
        14,
        "column_sum",
        &[Kind::Vector, Kind::Vector, Kind::Vector, Kind::Vector],
    ),
    entry(
        Group::Complex,
        0,
        "complex_sum",
        &[Kind::Complex, Kind::Complex],
    ),
    entry(
        Group::Complex,
        1,
        "complex_difference",
        &[Kind::Complex, Kind::Complex],
    ),
    entry(Group::Complex, 2, "complex_negation", &[Kind::Complex]),
    entry(
        Group::Complex,
        3,
        "complex_product",
        &[Kind::Complex, Kind::Complex],
    ),
    entry(
        Group::Complex,
        4,
        "complex_quotient",
        &[Kind::Complex, Kind::Complex],
    ),
    entry(
        Group::Complex,
        5,
        "complex_scaling",
        &[Kind::Complex, Kind::Real],
    ),
    entry(
        Group::Complex,
        6,
        "complex_over_real",
        &[Kind::Complex, Kind::Real],
    ),
    entry(
        Group::Complex,
        7,
        "real_over_complex",
        &[Kind::Real, Kind::Complex],
    ),
    entry(Group::Complex, 8, "modulus", &[Kind::Complex]),
    entry(Group::Complex, 9, "complex_sqrt", &[Kind::Complex]),
    entry(Group::Complex, 10, "complex_cbrt", &[Kind::Complex]),
    entry(
        Group::Polynomial,
        0,
        "cone_polynomials",
        &[
            Kind::Vector,
            Kind::Axis,
            Kind::Vector,
            Kind::Vector,
            Kind::Axis,
        ],
    ),
    entry(
        Group::Polynomial,
        1,
        "vec_self_convolve_2",
        &[Kind::Vector2],
    ),
    entry(Group::Polynomial, 2, "vec_self_convolve_3", &[Kind::Vector]),
    entry(
        Group::Polynomial,
        3,
        "vec_convolve_3",
        &[Kind::Vector, Kind::Vector],
    ),
    entry(
        Group::Polynomial,
        4,
        "solve_quartic_roots",
        &[
            Kind::Complex,
            Kind::Complex,
            Kind::Complex,
            Kind::Complex,
            Kind::Complex,
        ],
    ),
    entry(
        Group::Polynomial,
        5,
        "solve_cubic_roots",
        &[Kind::Complex, Kind::Complex, Kind::Complex, Kind::Complex],
    ),
    entry(
        Group::Polynomial,
        6,
        "solve_quadratic_roots",
        &[Kind::Complex, Kind::Complex, Kind::Complex],
    ),
    entry(
        Group::Polynomial,
        7,
        "solve_lower_triangular_system_2x2",
        &[Kind::Matrix2, Kind::Vector2],
    ),
    entry(Group::Polynomial, 8, "qr", &[Kind::Vector4, Kind::Vector4]),
    entry(
        Group::Polynomial,
        9,
        "solve_two_ellipse_numeric",
        &[Kind::Vector2, Kind::Matrix2, Kind::Vector2, Kind::Matrix2],
    ),
    entry(
        Group::Subproblems,
        1,
        "subproblem1",
        &[Kind::Vector, Kind::Vector, Kind::Axis],
    ),
    entry(
        Group::Subproblems,
        2,
        "subproblem2",
        &[Kind::Vector, Kind::Vector, Kind::Axis, Kind::Axis],
    ),
    entry(
        Group::Subproblems,
        3,
        "subproblem3",
        &[Kind::Vector, Kind::Vector, Kind::Axis, Kind::Length],
    ),
    entry(
        Group::Subproblems,
        4,
        "subproblem4",
        &[Kind::Axis, Kind::Vector, Kind::Axis, Kind::Length],
    ),
    entry(
        Group::Subproblems,
        5,
        "subproblem5",
        &[
            Kind::Vector,
            Kind::Vector,
            Kind::Vector,
            Kind::Vector,
            Kind::Axis,
            Kind::Axis,
            Kind::Axis,
        ],
    ),
    entry(
        Group::Subproblems,
        6,
        "subproblem6",
        &[
            Kind::Axis,
            Kind::Axis,
            Kind::Axis,
            Kind::Axis,
            Kind::Axis,
            Kind::Axis,
            Kind::Axis,
            Kind::Axis,
            Kind::Vector,
            Kind::Vector,
            Kind::Vector,
            Kind::Vector,
            Kind::Length,
            Kind::Length,
        ],
    ),
    entry(
        Group::Subproblems,
        7,
        "subproblem1_sc",
        &[Kind::Vector, Kind::Vector, Kind::Axis],
    ),
    entry(
        Group::Subproblems,
        8,
        "subproblem3_sc",
        &[Kind::Vector, Kind::Vector, Kind::Axis, Kind::Length],
    ),
    entry(
        Group::Subproblems,
        9,
        "subproblem4_sc",
        &[Kind::Axis, Kind::Vector, Kind::Axis, Kind::Length],
    ),
    entry(
        Group::Subproblems,
        10,
        "reduced_solutionset",
        &[Kind::Triples],
    ),
    entry(
        Group::Kinematics,
        0,
        "forward_kinematics",
        &[Kind::Arm, Kind::Angles],
    ),
    entry(Group::Families, 1, "spherical_two_parallel", FAMILY_SHAPE),
    entry(
        Group::Families,
        2,
        "spherical_two_intersecting",
        FAMILY_SHAPE,
    ),
    entry(Group::Families, 3, "spherical", FAMILY_SHAPE),
    entry(
        Group::Families,
        4,
        "three_parallel_two_intersecting",
        FAMILY_SHAPE,
    ),
    entry(Group::Families, 5, "three_parallel", FAMILY_SHAPE),
    entry(Group::Families, 6, "two_parallel", FAMILY_SHAPE),
    entry(Group::Track, 0, "forward_kinematics_partial", TRACK_SHAPE),
    entry(Group::Sort, 0, "sort", &[Kind::Triples]),
    entry(Group::Sort, 1, "reduced_with_passes", &[Kind::Triples]),
];

/// n, the arm, the pose.
const FAMILY_SHAPE: &[Kind] = &[Kind::Count, Kind::Arm, Kind::Pose];

/// Seven axes, eight offsets, the locked joint and its angle, and a rotation behind the arm.
const TRACK_SHAPE: &[Kind] = &[
    Kind::Axis,
    Kind::Axis,
    Kind::Axis,
    Kind::Axis,
    Kind::Axis,
    Kind::Axis,
    Kind::Axis,
    Kind::Vector,
    Kind::Vector,
    Kind::Vector,
    Kind::Vector,
    Kind::Vector,
    Kind::Vector,
    Kind::Vector,
    Kind::Vector,
    Kind::Joint,
    Kind::Angle,
    Kind::Matrix,
];

/// The candidates that a record of sort has room for: as many as subproblem 5 can have.
pub const MOST_CANDIDATES: usize = 16;

/// The word of the joint among a track's arguments.
pub const JOINT_WORD: usize = 45;

pub fn by_name(name: &str) -> Option<&'static Function> {
    FUNCTIONS.iter().find(|function| function.name == name)
}

pub fn by_id(group: Group, id: u64) -> Option<&'static Function> {
    FUNCTIONS
        .iter()
        .find(|function| function.group == group && function.id == id)
}
