//! Two programs' lines for the blocks of a generated list, beside each other: by place and as sets.
//!
//! By place, two lists are compared where they have the same length and flags. As sets, an answer
//! has a partner in the other list with the same flag, at most NEAR away; the nearest two are
//! partners first, and no answer has two.

use crate::{
    differ::{apart, is_singular, Largest},
    generate::Sample,
    inverse_kinematics::auxiliary::Kinematics,
    linalg::Vector6,
    missed::distance,
    recover::{makes_pose, TOLERANCE},
    Failure,
};
use std::io::BufRead;

/// Answers further apart are no partners.
pub const NEAR: f64 = 1e-3;

/// An answer: its angles, and its flag.
type Answer = (Vector6, bool);

/// The lists that a program printed, one for each block.
pub struct Lists<R> {
    input: R,
    line: String,
}

impl<R: BufRead> Lists<R> {
    pub fn new(input: R) -> Self {
        let line = String::new();
        Lists { input, line }
    }

    fn words(&mut self) -> Result<Vec<&str>, Failure> {
        self.line.clear();
        let read = self.input.read_line(&mut self.line);
        match read.map_err(|error| error.to_string())? {
            0 => Err("a line is missing".to_string()),
            _ => Ok(self.line.split_whitespace().collect()),
        }
    }

    /// The list of the block at that place; none where the program panicked.
    pub fn next(&mut self, place: u64) -> Result<Option<Vec<Answer>>, Failure> {
        let wrong = || format!("no line of block {place}");
        let (at, answers) = match self.words()?[..] {
            ["block", at, "refusal", "0", "answers", answers, ..] => (at, answers.parse().ok()),
            ["block", at, "panic"] => (at, None),
            _ => return Err(wrong()),
        };
        if at != place.to_string() {
            return Err(wrong());
        }
        let Some(answers) = answers else {
            return Ok(None);
        };
        (0..answers)
            .map(|_| self.answer())
            .collect::<Result<_, _>>()
            .map(Some)
    }

    fn answer(&mut self) -> Result<Answer, Failure> {
        let words = self.words()?;
        let [angles @ .., flag] = &words[..] else {
            return Err("an answer is missing".to_string());
        };
        let number = |word: &&str| u64::from_str_radix(word, 16).map(f64::from_bits);
        let angles = angles.iter().map(number).collect::<Result<Vec<f64>, _>>();
        let angles: Option<[f64; 6]> = angles.ok().and_then(|angles| angles.try_into().ok());
        let angles = angles.ok_or("an answer has not six angles")?;
        Ok((Vector6::from(angles), *flag == "1"))
    }
}

/// The classes of answers: unflagged and not singular, unflagged and singular, flagged.
pub const CLASSES: [&str; 3] = ["regular", "singular", "flagged"];

/// Answers without a partner, those of them that make the pose, and the first pose with one.
#[derive(Default, Clone, Copy)]
pub struct Alone {
    pub answers: u64,
    pub makes: u64,
    pub first: Option<u64>,
}

/// What a program's lists have of the angles that made the poses.
#[derive(Default, Clone, Copy)]
pub struct Own {
    pub unflagged: u64,
    pub flagged: u64,
    pub missing: u64,
}

/// All that is counted; what is there twice is of the first and of the second program.
#[derive(Default)]
pub struct Beside {
    pub poses: u64,
    pub panics: [u64; 2],
    pub other_length: u64,
    /// Of the same length with other flags.
    pub other_flags: u64,
    /// Every answer has the one at its place near it; a partner; the same of unflagged ones alone.
    pub same_by_place: u64,
    pub same_as_sets: u64,
    pub same_unflagged: u64,
    pub by_place: [Largest; 3],
    pub as_sets: [Largest; 3],
    pub alone: [[Alone; 3]; 2],
    pub own: [Own; 2],
    pub own_missing_in_both: u64,
}

fn class(kin: &Kinematics, (angles, flag): &Answer) -> usize {
    if *flag {
        2
    } else {
        is_singular(kin, angles) as usize
    }
}

/// The places of partners in the two lists, and how far they are apart.
fn partners(one: &[Answer], two: &[Answer]) -> Vec<(usize, usize, f64)> {
    let mut near = Vec::new();
    for (i, (a, flag)) in one.iter().enumerate() {
        for (j, (b, other)) in two.iter().enumerate() {
            let apart = apart(a, b);
            if flag == other && apart <= NEAR {
                near.push((i, j, apart));
            }
        }
    }
    near.sort_by(|a, b| a.2.total_cmp(&b.2));
    let (mut taken, mut given) = (vec![false; one.len()], vec![false; two.len()]);
    near.retain(|&(i, j, _)| {
        let free = !taken[i] && !given[j];
        if free {
            (taken[i], given[j]) = (true, true);
        }
        free
    });
    near
}

impl Beside {
    pub fn look(
        &mut self,
        place: u64,
        sample: &Sample,
        one: Option<Vec<Answer>>,
        two: Option<Vec<Answer>>,
    ) {
        self.poses += 1;
        self.panics[0] += one.is_none() as u64;
        self.panics[1] += two.is_none() as u64;
        let (Some(one), Some(two)) = (one, two) else {
            return;
        };
        let kin = Kinematics::from_arm(&sample.arm);
        self.look_by_place(place, &kin, &one, &two);
        self.look_as_sets(place, sample, &kin, [&one, &two]);
        let missing = [&one, &two].map(|list| is_missing(sample, list));
        for (own, (unflagged, flagged)) in self.own.iter_mut().zip(missing) {
            own.unflagged += !unflagged as u64;
            own.flagged += (unflagged && !flagged) as u64;
            own.missing += (unflagged && flagged) as u64;
        }
        let in_both = missing
            .iter()
            .all(|&(unflagged, flagged)| unflagged && flagged);
        self.own_missing_in_both += in_both as u64;
    }

    fn look_by_place(&mut self, place: u64, kin: &Kinematics, one: &[Answer], two: &[Answer]) {
        let flags = |list: &[Answer]| list.iter().map(|a| a.1).collect::<Vec<bool>>();
        if one.len() != two.len() {
            self.other_length += 1;
            return;
        }
        if flags(one) != flags(two) {
            self.other_flags += 1;
            return;
        }
        let mut same = true;
        for (a, b) in one.iter().zip(two) {
            let apart = apart(&a.0, &b.0);
            self.by_place[class(kin, a)].note(apart, place);
            same &= apart <= NEAR;
        }
        self.same_by_place += same as u64;
    }

    fn look_as_sets(
        &mut self,
        place: u64,
        sample: &Sample,
        kin: &Kinematics,
        lists: [&[Answer]; 2],
    ) {
        let partners = partners(lists[0], lists[1]);
        for &(i, _, apart) in &partners {
            self.as_sets[class(kin, &lists[0][i])].note(apart, place);
        }
        let (mut all, mut unflagged) = (true, true);
        for (side, list) in lists.into_iter().enumerate() {
            for (i, answer) in list.iter().enumerate() {
                if partners.iter().any(|p| [p.0, p.1][side] == i) {
                    continue;
                }
                all = false;
                unflagged &= answer.1;
                let alone = &mut self.alone[side][class(kin, answer)];
                alone.answers += 1;
                alone.makes += makes_pose(sample, &answer.0) as u64;
                alone.first.get_or_insert(place);
            }
        }
        self.same_as_sets += all as u64;
        self.same_unflagged += unflagged as u64;
    }
}

/// Whether the angles that made the pose are in no unflagged answer, and in no flagged one.
fn is_missing(sample: &Sample, list: &[Answer]) -> (bool, bool) {
    let found = |flag: bool| {
        let mut answers = list.iter();
        answers.any(|(angles, f)| *f == flag && distance(angles, &sample.angles) <= TOLERANCE)
    };
    (!found(false), !found(true))
}

#[cfg(test)]
mod tests {
    use super::*;
    use crate::generate::{sample, Kind};

    fn answer(x: f64, flag: bool) -> Answer {
        (Vector6::from([x, 0.0, 0.0, 0.0, 0.0, 0.0]), flag)
    }

    #[test]
    fn the_nearest_are_partners_first() {
        let one = [answer(0.0, false), answer(5e-4, false), answer(1.0, true)];
        let two = [answer(4e-4, false), answer(1.0, false), answer(9e-4, false)];
        let pairs: Vec<_> = partners(&one, &two).iter().map(|p| (p.0, p.1)).collect();
        assert_eq!(pairs, [(1, 0), (0, 2)]);
    }

    #[test]
    fn another_order_is_the_same_set() {
        let s = sample(Kind::Reachable, 1, 1, 0, None);
        let list = vec![(Vector6::from(s.angles), false), answer(0.5, true)];
        let turned: Vec<Answer> = list.iter().rev().copied().collect();
        let mut found = Beside::default();
        found.look(0, &s, Some(list.clone()), Some(list.clone()));
        found.look(1, &s, Some(list.clone()), Some(turned));
        found.look(2, &s, Some(list.clone()), Some(list[1..].to_vec()));
        found.look(3, &s, Some(list), None);
        assert_eq!((found.other_length, found.other_flags), (1, 1));
        assert_eq!((found.same_by_place, found.same_as_sets), (1, 2));
        assert_eq!((found.poses, found.panics), (4, [0, 1]));
        assert_eq!((found.own[0].missing, found.own[1].missing), (0, 1));
        let alone: u64 = found.alone[0].iter().map(|a| a.makes).sum();
        assert_eq!(alone, 1);
    }

    #[test]
    fn lines_are_read_as_they_are_printed() {
        let zero = "0000000000000000 ".repeat(6);
        let text = format!("block 0 refusal 0 answers 1 evals 7\n{zero}1\nblock 1 panic\n");
        let mut lists = Lists::new(text.as_bytes());
        assert_eq!(lists.next(0), Ok(Some(vec![answer(0.0, true)])));
        assert_eq!(lists.next(1), Ok(None));
        assert!(lists.next(2).is_err());
        let short = "block 0 refusal 0 answers 1 evals 0\n0 1\n";
        assert!(Lists::new(short.as_bytes()).next(0).is_err());
    }
}
