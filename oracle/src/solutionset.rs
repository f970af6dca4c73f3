//! Carried over from ikgeo/src/solutionset.rs (MIT, see NOTICE): the two sets and what the
//! solvers call on them.

#[derive(Debug, Clone, PartialEq)]
pub enum SolutionSet2<T> {
    // The published set has this case as well, though no solver makes it.
    #[allow(dead_code)]
    Zero,
    One(T),
    Two(T, T),
}

#[derive(Debug, Clone, PartialEq)]
pub enum SolutionSet4<T> {
    Zero,
    One(T),
    Two(T, T),
    Three(T, T, T),
    Four(T, T, T, T),
}

impl<T: Copy> SolutionSet2<T> {
    pub fn expect_one(&self) -> T {
        match self {
            Self::Zero => panic!("Found no solutions where one was expected"),
            Self::One(s) => *s,
            Self::Two(..) => panic!("Found two solutions where one was expected"),
        }
    }

    pub fn expect_two(&self) -> (T, T) {
        match self {
            Self::Zero => panic!("Found no solutions where two were expected"),
            Self::One(_) => panic!("Found one solution where two were expected"),
            Self::Two(s1, s2) => (*s1, *s2),
        }
    }

    pub fn get_all(&self) -> Vec<T> {
        match self {
            Self::Zero => vec![],
            Self::One(s) => vec![*s],
            Self::Two(s1, s2) => vec![*s1, *s2],
        }
    }

    pub fn duplicated(&self) -> Self {
        match &self {
            SolutionSet2::One(s) => SolutionSet2::Two(*s, *s),
            SolutionSet2::Two(s1, s2) => SolutionSet2::Two(*s1, *s2),
            SolutionSet2::Zero => SolutionSet2::Zero,
        }
    }

    pub fn size(&self) -> usize {
        match self {
            SolutionSet2::Zero => 0,
            SolutionSet2::One(_) => 1,
            SolutionSet2::Two(..) => 2,
        }
    }
}

impl<T: Copy> SolutionSet4<T> {
    pub fn get_all(&self) -> Vec<T> {
        match self {
            Self::Zero => vec![],
            Self::One(s) => vec![*s],
            Self::Two(s1, s2) => vec![*s1, *s2],
            Self::Three(s1, s2, s3) => vec![*s1, *s2, *s3],
            Self::Four(s1, s2, s3, s4) => vec![*s1, *s2, *s3, *s4],
        }
    }

    pub fn from_vec(vec: &[T]) -> Self {
        match vec.len() {
            0 => Self::Zero,
            1 => Self::One(vec[0]),
            2 => Self::Two(vec[0], vec[1]),
            3 => Self::Three(vec[0], vec[1], vec[2]),
            4 => Self::Four(vec[0], vec[1], vec[2], vec[3]),
            i => panic!("Too many solutions: {i}"),
        }
    }
}
