//! Calls of the library, one to a line, and what each gives: the result, and every element of the lists
//! that it is lent. A library of the same calls is held to these lines; [`FORMAT`] says how they are
//! written.

use crate::{
    arith::Arith,
    block::{self, canonical_bits, BLOCK_BYTES},
    limits,
    solve::{solve, solve_one, Outcome},
    track::{solve_track, Lock},
};
use std::fmt;
use std::io::{self, BufRead, Write};

/// The lines of calls and of results, in words for the user.
pub const FORMAT: &str = "\
A call is a line: its name and its arguments, one space between words.

  solve FAMILY N ARM POSE LIMITS ANGLES FLAGS
  solve_block BLOCK LIMITS ANGLES FLAGS
  limits_block BLOCK
  solve_track FAMILY N ARM JOINT ANGLE POSE ANGLES FLAGS
  solve_one FAMILY N ARM POSE LIMITS

FAMILY, N, JOINT, ANGLES and FLAGS are whole numbers in decimal; ANGLES and FLAGS are the numbers of
elements of the two lists that are lent. ARM, POSE and LIMITS are lists of numbers: the 16 hexadecimal
digits of each f64, with a comma between two, and '-' for an empty list. ANGLE is one number, the digits
alone. BLOCK is a list of bytes: two digits each, nothing between, and '-' for none. Every list may have
any length.

Before the call element i of a list of f64 that is lent to be written has the bits a5a5a5a500000000 + i,
and element i of a list of bytes is 128 + i modulo 128. After it a line is printed:

  call PLACE solve refusal R answers A evals E angles LIST flags LIST
  call PLACE solve_block refusal R answers A evals E angles LIST flags LIST
  call PLACE limits_block refusal R limits LIST
  call PLACE solve_track refusal R answers A evals E angles LIST flags LIST
  call PLACE solve_one refusal R angles LIST flag F

The six angles and the flag of solve_one are written with every refusal too.

PLACE counts the calls from 0. A LIST has every element: *K stands for K in a row that are as they were
before; the others are written as numbers in a call are, a flag in decimal, and every NaN as
7ff8000000000000.
";

/// A call with its arguments. The lists that it is to write to have a number of elements alone.
#[derive(Clone, Debug)]
pub enum Call {
    Solve {
        family: u64,
        n: u64,
        arm: Vec<f64>,
        pose: Vec<f64>,
        limits: Vec<f64>,
        room: Room,
    },
    SolveBlock {
        block: Vec<u8>,
        limits: Vec<f64>,
        room: Room,
    },
    LimitsBlock {
        block: Vec<u8>,
    },
    SolveTrack {
        family: u64,
        n: u64,
        arm: Vec<f64>,
        lock: Lock,
        pose: Vec<f64>,
        room: Room,
    },
    SolveOne {
        family: u64,
        n: u64,
        arm: Vec<f64>,
        pose: Vec<f64>,
        limits: Vec<f64>,
    },
}

/// The elements of the angle list and of the flag list.
#[derive(Clone, Copy, Debug, PartialEq, Eq)]
pub struct Room {
    pub angles: usize,
    pub flags: usize,
}

fn number_before(place: usize) -> f64 {
    f64::from_bits(0xa5a5_a5a5_0000_0000 + place as u64)
}

fn byte_before(place: usize) -> u8 {
    128 + (place % 128) as u8
}

/// The two lent lists of a solve.
struct Lent {
    angles: Vec<f64>,
    flags: Vec<u8>,
}

impl Lent {
    fn new(room: Room) -> Self {
        Lent {
            angles: (0..room.angles).map(number_before).collect(),
            flags: (0..room.flags).map(byte_before).collect(),
        }
    }
}

impl Call {
    pub fn name(&self) -> &'static str {
        match self {
            Call::Solve { .. } => "solve",
            Call::SolveBlock { .. } => "solve_block",
            Call::LimitsBlock { .. } => "limits_block",
            Call::SolveTrack { .. } => "solve_track",
            Call::SolveOne { .. } => "solve_one",
        }
    }

    /// The call that a line has, or what is wrong with the line.
    pub fn parse(line: &str) -> Result<Call, String> {
        let words: Vec<&str> = line.split(' ').collect();
        match words[..] {
            ["solve", family, n, arm, pose, limits, angles, flags] => Ok(Call::Solve {
                family: whole(family)?,
                n: whole(n)?,
                arm: numbers(arm)?,
                pose: numbers(pose)?,
                limits: numbers(limits)?,
                room: room(angles, flags)?,
            }),
            ["solve_block", block, limits, angles, flags] => Ok(Call::SolveBlock {
                block: bytes(block)?,
                limits: numbers(limits)?,
                room: room(angles, flags)?,
            }),
            ["limits_block", block] => Ok(Call::LimitsBlock {
                block: bytes(block)?,
            }),
            ["solve_track", family, n, arm, joint, angle, pose, angles, flags] => {
                Ok(Call::SolveTrack {
                    family: whole(family)?,
                    n: whole(n)?,
                    arm: numbers(arm)?,
                    lock: Lock {
                        joint: whole(joint)?,
                        angle: number(angle)?,
                    },
                    pose: numbers(pose)?,
                    room: room(angles, flags)?,
                })
            }
            ["solve_one", family, n, arm, pose, limits] => Ok(Call::SolveOne {
                family: whole(family)?,
                n: whole(n)?,
                arm: numbers(arm)?,
                pose: numbers(pose)?,
                limits: numbers(limits)?,
            }),
            [name @ ("solve" | "solve_block" | "limits_block" | "solve_track" | "solve_one"), ..] => {
                Err(format!("{} words are not those of {name}", words.len()))
            }
            _ => Err(format!("no call '{}'", words[0])),
        }
    }

    /// What the call gives, as its line has it behind the place.
    pub fn run<A: Arith>(&self) -> String {
        match self {
            Call::Solve {
                family,
                n,
                arm,
                pose,
                limits,
                room,
            } => {
                let mut lent = Lent::new(*room);
                let (angles, flags) = (&mut lent.angles, &mut lent.flags);
                let outcome = solve::<A>(*family, *n, arm, pose, limits, angles, flags);
                self.solved(&outcome, &lent)
            }
            Call::SolveBlock {
                block,
                limits,
                room,
            } => {
                let mut lent = Lent::new(*room);
                let (angles, flags) = (&mut lent.angles, &mut lent.flags);
                let outcome = match block::parse(first_block(block)) {
                    Ok(r) => solve::<A>(r.family, r.n, &r.arm, &r.pose, limits, angles, flags),
                    Err(refusal) => Outcome::refused(refusal),
                };
                self.solved(&outcome, &lent)
            }
            Call::LimitsBlock { block } => {
                let mut list: [f64; limits::NUMBERS] = std::array::from_fn(number_before);
                let refusal = match block::parse_limits(first_block(block)) {
                    Ok(numbers) => {
                        list = numbers;
                        0
                    }
                    Err(refusal) => refusal,
                };
                let list = shown_numbers(&list);
                format!("{} refusal {refusal} limits {list}", self.name())
            }
            Call::SolveTrack {
                family,
                n,
                arm,
                lock,
                pose,
                room,
            } => {
                let mut lent = Lent::new(*room);
                let (angles, flags) = (&mut lent.angles, &mut lent.flags);
                let outcome = solve_track::<A>(*family, *n, arm, *lock, pose, angles, flags);
                self.solved(&outcome, &lent)
            }
            Call::SolveOne {
                family,
                n,
                arm,
                pose,
                limits,
            } => {
                let one = solve_one::<A>(*family, *n, arm, pose, limits);
                let (refusal, flag) = (one.refusal, one.flag);
                let six: Vec<f64> = one.angles.iter().collect();
                let angles = shown_numbers(&six);
                let name = self.name();
                format!("{name} refusal {refusal} angles {angles} flag {flag}")
            }
        }
    }

    fn solved(&self, outcome: &Outcome, lent: &Lent) -> String {
        format!(
            "{} refusal {} answers {} evals {} angles {} flags {}",
            self.name(),
            outcome.refusal,
            outcome.answers,
            outcome.evaluations,
            shown_numbers(&lent.angles),
            shown_bytes(&lent.flags)
        )
    }
}

/// The first 512 bytes, or all where there are fewer: refusal 1 is for fewer alone.
fn first_block(bytes: &[u8]) -> &[u8] {
    &bytes[..bytes.len().min(BLOCK_BYTES)]
}

/// The call as a line.
impl fmt::Display for Call {
    fn fmt(&self, f: &mut fmt::Formatter) -> fmt::Result {
        let name = self.name();
        match self {
            Call::Solve {
                family,
                n,
                arm,
                pose,
                limits,
                room,
            } => {
                let lists = [arm, pose, limits].map(|list| written_numbers(list));
                write!(f, "{name} {family} {n} {} {room}", lists.join(" "))
            }
            Call::SolveBlock {
                block,
                limits,
                room,
            } => {
                let (block, limits) = (written_bytes(block), written_numbers(limits));
                write!(f, "{name} {block} {limits} {room}")
            }
            Call::LimitsBlock { block } => write!(f, "{name} {}", written_bytes(block)),
            Call::SolveTrack {
                family,
                n,
                arm,
                lock,
                pose,
                room,
            } => {
                let (joint, angle) = (lock.joint, written_number(lock.angle));
                let [arm, pose] = [arm, pose].map(|list| written_numbers(list));
                write!(f, "{name} {family} {n} {arm} {joint} {angle} {pose} {room}")
            }
            Call::SolveOne {
                family,
                n,
                arm,
                pose,
                limits,
            } => {
                let lists = [arm, pose, limits].map(|list| written_numbers(list));
                write!(f, "{name} {family} {n} {}", lists.join(" "))
            }
        }
    }
}

impl fmt::Display for Room {
    fn fmt(&self, f: &mut fmt::Formatter) -> fmt::Result {
        write!(f, "{} {}", self.angles, self.flags)
    }
}

const EMPTY: &str = "-";

fn written_number(x: f64) -> String {
    format!("{:016x}", x.to_bits())
}

pub fn written_numbers(list: &[f64]) -> String {
    let words: Vec<String> = list.iter().map(|&x| written_number(x)).collect();
    or_empty(words.join(","))
}

pub fn written_bytes(list: &[u8]) -> String {
    or_empty(list.iter().map(|byte| format!("{byte:02x}")).collect())
}

fn or_empty(text: String) -> String {
    if text.is_empty() {
        EMPTY.to_string()
    } else {
        text
    }
}

pub fn shown_numbers(list: &[f64]) -> String {
    shown(list, |place, x| {
        let bits = canonical_bits(x);
        (bits != number_before(place).to_bits()).then(|| format!("{bits:016x}"))
    })
}

fn shown_bytes(list: &[u8]) -> String {
    shown(list, |place, byte| {
        (byte != byte_before(place)).then(|| byte.to_string())
    })
}

/// A list after a call. `changed` gives an element in words where it is not as it was.
fn shown<T: Copy>(list: &[T], changed: impl Fn(usize, T) -> Option<String>) -> String {
    let (mut words, mut kept) = (Vec::new(), 0);
    for (place, &element) in list.iter().enumerate() {
        let Some(word) = changed(place, element) else {
            kept += 1;
            continue;
        };
        if kept > 0 {
            words.push(format!("*{kept}"));
            kept = 0;
        }
        words.push(word);
    }
    if kept > 0 {
        words.push(format!("*{kept}"));
    }
    or_empty(words.join(","))
}

pub fn whole<T: std::str::FromStr>(word: &str) -> Result<T, String> {
    let digits = word.bytes().all(|byte| byte.is_ascii_digit());
    let number = word.parse().ok().filter(|_| digits);
    number.ok_or_else(|| format!("'{word}' is not a whole number"))
}

fn room(angles: &str, flags: &str) -> Result<Room, String> {
    let (angles, flags) = (whole(angles)?, whole(flags)?);
    Ok(Room { angles, flags })
}

pub fn numbers(word: &str) -> Result<Vec<f64>, String> {
    if word == EMPTY {
        return Ok(Vec::new());
    }
    word.split(',').map(number).collect()
}

fn number(digits: &str) -> Result<f64, String> {
    hexadecimal(digits, 16).map(f64::from_bits)
}

pub fn bytes(word: &str) -> Result<Vec<u8>, String> {
    if word == EMPTY {
        return Ok(Vec::new());
    }
    if word.is_empty() {
        return Err("an empty list of bytes is '-'".to_string());
    }
    word.as_bytes()
        .chunks(2)
        .map(|pair| {
            let digits = String::from_utf8_lossy(pair);
            hexadecimal(&digits, 2).map(|byte| byte as u8)
        })
        .collect()
}

/// So many digits, in lower case.
fn hexadecimal(digits: &str, count: usize) -> Result<u64, String> {
    let fits = digits.len() == count
        && digits
            .bytes()
            .all(|byte| matches!(byte, b'0'..=b'9' | b'a'..=b'f'));
    let bits = u64::from_str_radix(digits, 16).ok().filter(|_| fits);
    bits.ok_or_else(|| format!("'{digits}' is not {count} hexadecimal digits"))
}

/// A line of results for each line of calls, up to the first that is none.
pub fn run_lines<A: Arith>(input: &mut impl BufRead, output: &mut impl Write) -> io::Result<()> {
    for (place, line) in input.lines().enumerate() {
        let call = Call::parse(&line?).map_err(|wrong| {
            let text = format!("line {}: {wrong}", place + 1);
            io::Error::new(io::ErrorKind::InvalidData, text)
        })?;
        writeln!(output, "call {place} {}", call.run::<A>())?;
    }
    Ok(())
}

/// The refusal that a result has.
#[cfg(test)]
pub fn refusal_of(result: &str) -> u64 {
    result.split(' ').nth(2).unwrap().parse().unwrap()
}

#[cfg(test)]
mod tests {
    use super::*;
    use crate::{
        arith::Rules,
        generate::{sample, Kind, Sample},
        solve::full_list,
        tracks::{reachable, Track},
    };

    fn run(line: &str) -> String {
        Call::parse(line).unwrap().run::<Rules>()
    }

    const WIDE: [f64; 12] = [
        -9.0, 9.0, -9.0, 9.0, -9.0, 9.0, -9.0, 9.0, -9.0, 9.0, -9.0, 9.0,
    ];

    fn some_pose() -> Sample {
        sample(Kind::Reachable, 1, 1, 0, None)
    }

    fn solve_call(limits: &[f64], angles: usize, flags: usize) -> Call {
        let s = some_pose();
        Call::Solve {
            family: 1,
            n: 0,
            arm: s.arm.to_vec(),
            pose: s.pose.to_vec(),
            limits: limits.to_vec(),
            room: Room { angles, flags },
        }
    }

    fn pose_block() -> Vec<u8> {
        let s = some_pose();
        block::make(&block::Request {
            family: 1,
            n: 0,
            arm: s.arm,
            pose: s.pose,
        })
        .to_vec()
    }

    fn some_track() -> Track {
        reachable(3, 9, 7)
    }

    fn track_call(angle: f64, angles: usize, flags: usize) -> Call {
        let t = some_track();
        Call::SolveTrack {
            family: t.family,
            n: t.n,
            arm: t.arm.to_vec(),
            lock: Lock {
                joint: t.joint as u64,
                angle,
            },
            pose: t.pose.to_vec(),
            room: Room { angles, flags },
        }
    }

    fn one_call(limits: &[f64]) -> Call {
        let s = some_pose();
        Call::SolveOne {
            family: 1,
            n: 0,
            arm: s.arm.to_vec(),
            pose: s.pose.to_vec(),
            limits: limits.to_vec(),
        }
    }

    #[test]
    fn a_call_as_a_line_is_read_back() {
        let mut odd = WIDE;
        odd[3] = -f64::NAN;
        odd[4] = -0.0;
        let calls = [
            track_call(-0.0, 56, 8),
            track_call(-f64::NAN, 0, 0),
            one_call(&[]),
            one_call(&odd),
            solve_call(&[], 0, 0),
            solve_call(&odd, 48, 8),
            Call::SolveBlock {
                block: pose_block(),
                limits: odd[..5].to_vec(),
                room: Room {
                    angles: 7,
                    flags: 300,
                },
            },
            Call::LimitsBlock {
                block: vec![0, 255, 16],
            },
            Call::LimitsBlock { block: Vec::new() },
        ];
        for call in calls {
            let line = call.to_string();
            assert_eq!(Call::parse(&line).unwrap().to_string(), line);
            assert_eq!(line.split(' ').next(), Some(call.name()));
        }
        let line = Call::LimitsBlock {
            block: vec![0, 255, 16],
        };
        assert_eq!(line.to_string(), "limits_block 00ff10");
    }

    #[test]
    fn a_line_that_is_no_call_is_told() {
        for (line, part) in [
            ("", "no call ''"),
            ("track 1", "no call 'track'"),
            ("solve 1 0 - - - 0", "7 words are not those of solve"),
            ("solve 1 0 - - - 0 0 0", "9 words"),
            ("solve 1 0 - - -  0 0", "9 words"),
            ("solve one 0 - - - 0 0", "'one' is not a whole number"),
            ("solve +1 0 - - - 0 0", "'+1' is not a whole number"),
            ("solve 1 0 - - - -1 0", "'-1' is not a whole number"),
            ("solve 1 18446744073709551616 - - - 0 0", "is not a whole"),
            ("solve 1 0 0 - - 0 0", "'0' is not 16 hexadecimal digits"),
            ("solve 1 0 3FF0000000000000 - - 0 0", "is not 16"),
            ("solve 1 0 3ff0000000000000, - - 0 0", "'' is not 16"),
            ("limits_block 0", "'0' is not 2 hexadecimal digits"),
            ("limits_block +1", "'+1' is not 2"),
            ("limits_block ", "an empty list of bytes is '-'"),
            ("solve_block - - 0", "4 words"),
            (
                "solve_track 1 0 - 0 - 0 0",
                "8 words are not those of solve_track",
            ),
            (
                "solve_track 1 0 - -1 0000000000000000 - 0 0",
                "'-1' is not a whole",
            ),
            (
                "solve_track 1 0 - 0 - - 0 0",
                "'-' is not 16 hexadecimal digits",
            ),
            ("solve_track 1 0 - 0 0 - 0 0", "'0' is not 16"),
            (
                "solve_one 1 0 - - - 0 0",
                "8 words are not those of solve_one",
            ),
            ("solve_one 1 0 - -", "5 words"),
        ] {
            let wrong = Call::parse(line).unwrap_err();
            assert!(wrong.contains(part), "{line}: {wrong}");
        }
        let mut output = Vec::new();
        let lines = "limits_block -\nlimits_block x\nlimits_block -\n";
        let told = run_lines::<Rules>(&mut lines.as_bytes(), &mut output).unwrap_err();
        assert_eq!(told.to_string(), "line 2: 'x' is not 2 hexadecimal digits");
        assert_eq!(output, b"call 0 limits_block refusal 1 limits *12\n");
    }

    #[test]
    fn refusals_come_in_their_order() {
        let s = some_pose();
        let mut infinite = s.arm.to_vec();
        infinite[5] = f64::INFINITY;
        let (arm, bad) = (written_numbers(&s.arm), written_numbers(&infinite));
        let pose = written_numbers(&s.pose);
        let (short_arm, short_pose) = (&arm[17..], &pose[17..]);
        let (wide, crossed) = (written_numbers(&WIDE), written_numbers(&[1.0; 11]));
        let none = "answers 0 evals 0 angles *6 flags *1";
        for (line, refusal) in [
            (format!("solve 9 1 {short_arm} - {crossed} 6 1"), 10),
            (format!("solve 9 1 {short_arm} - {wide} 6 1"), 4),
            (format!("solve 1 1 {short_arm} {short_pose} - 6 1"), 5),
            (format!("solve 1 1 {bad} {short_pose} - 6 1"), 6),
            (format!("solve 1 1 {bad} {pose} {wide} 6 1"), 7),
            (format!("solve 1 0 {bad} {pose} {wide} 6 1"), 8),
            ("solve 6 0 - - - 6 1".to_string(), 5),
        ] {
            assert_eq!(run(&line), format!("solve refusal {refusal} {none}"));
        }
        let line = format!("solve 1 0 {arm} {pose} {wide} 6 1");
        assert!(run(&line).starts_with("solve refusal 9 answers "));
    }

    /// Two answers in lists of 13 and 3 elements, then one for which alone there is room.
    #[test]
    fn a_result_has_every_element_of_both_lists() {
        let s = some_pose();
        let full = full_list::<Rules>(1, 0, &s.arm, &s.pose).ok().unwrap();
        let mut limits = WIDE;
        (limits[0], limits[1]) = (full.angles[0][0], full.angles[0][0]);
        (limits[4], limits[5]) = (full.angles[0][2], full.angles[0][2]);
        let written = |i: usize| {
            let six: Vec<f64> = full.angles[i].iter().collect();
            written_numbers(&six)
        };
        let flag = |i: usize| full.flags[i] as u8;
        assert_eq!(
            solve_call(&limits, 13, 3).run::<Rules>(),
            format!(
                "solve refusal 0 answers 2 evals 0 angles {},{},*1 flags {},{},*1",
                written(0),
                written(1),
                flag(0),
                flag(1)
            )
        );
        assert_eq!(
            solve_call(&limits, 11, 1).run::<Rules>(),
            format!(
                "solve refusal 9 answers 2 evals 0 angles {},*5 flags {}",
                written(0),
                flag(0)
            )
        );
        assert_eq!(
            solve_call(&limits, 0, 9).run::<Rules>(),
            "solve refusal 9 answers 2 evals 0 angles - flags *9"
        );
        (limits[0], limits[1]) = (8.0, 9.0);
        assert_eq!(
            solve_call(&limits, 0, 0).run::<Rules>(),
            "solve refusal 0 answers 0 evals 0 angles - flags -"
        );
    }

    #[test]
    fn what_changed_stands_between_what_did_not() {
        let mut list: Vec<f64> = (0..6).map(number_before).collect();
        assert_eq!(shown_numbers(&list), "*6");
        (list[0], list[3]) = (1.0, f64::NAN);
        list.swap(4, 5);
        let (four, five) = (0xa5a5_a5a5_0000_0004u64, 0xa5a5_a5a5_0000_0005u64);
        assert_eq!(
            shown_numbers(&list),
            format!("3ff0000000000000,*2,7ff8000000000000,{five:016x},{four:016x}")
        );
        let mut bytes: Vec<u8> = (0..260).map(byte_before).collect();
        assert_eq!(shown_bytes(&bytes), "*260");
        assert!(bytes.iter().all(|&byte| byte > 1));
        bytes[259] = 0;
        assert_eq!(shown_bytes(&bytes), "*259,0");
        assert_eq!(shown_bytes(&[]), "-");
    }

    #[test]
    fn a_block_solved_is_the_call_over_its_numbers() {
        let mut limits = WIDE;
        limits[1] = 0.0;
        let room = Room {
            angles: 50,
            flags: 9,
        };
        for limits in [&[][..], &limits, &limits[1..]] {
            let (block, limits) = (pose_block(), limits.to_vec());
            let by_numbers = solve_call(&limits, room.angles, room.flags).run::<Rules>();
            for more in [0, 1, 512] {
                let block = [block.clone(), vec![7; more]].concat();
                let limits = limits.clone();
                let call = Call::SolveBlock {
                    block,
                    limits,
                    room,
                };
                assert_eq!(
                    call.run::<Rules>(),
                    by_numbers.replacen("solve", "solve_block", 1)
                );
            }
        }
    }

    /// 1, 2 and 3 come before 10, which comes before 4.
    #[test]
    fn a_block_is_judged_before_the_limits() {
        let good = pose_block();
        let with = |at: usize, byte: u8| {
            let mut bytes: [u8; BLOCK_BYTES] = good.clone().try_into().unwrap();
            bytes[at] = byte;
            block::checked(bytes).to_vec()
        };
        let mut damaged = good.clone();
        damaged[9] ^= 1;
        let limits_block = block::make_limits(&WIDE).to_vec();
        for (block, refusal) in [
            (good[..511].to_vec(), 1),
            (Vec::new(), 1),
            (damaged, 2),
            (with(500, 1), 3),
            (limits_block, 3),
            (with(0, 9), 10),
            (good.clone(), 10),
        ] {
            let call = Call::SolveBlock {
                block,
                limits: vec![0.0],
                room: Room {
                    angles: 6,
                    flags: 1,
                },
            };
            let none = "answers 0 evals 0 angles *6 flags *1";
            assert_eq!(
                call.run::<Rules>(),
                format!("solve_block refusal {refusal} {none}")
            );
        }
    }

    #[test]
    fn a_refused_limits_block_leaves_the_twelve() {
        let mut numbers = WIDE;
        numbers[2] = -0.0;
        let good = block::make_limits(&numbers);
        let run = |block: &[u8]| {
            let block = block.to_vec();
            Call::LimitsBlock { block }.run::<Rules>()
        };
        let accepted = format!(
            "limits_block refusal 0 limits {}",
            written_numbers(&numbers)
        );
        assert_eq!(run(&good), accepted);
        assert_eq!(run(&[&good[..], &[1]].concat()), accepted);
        numbers[3] = -1.0;
        let crossed = block::make_limits(&numbers);
        let mut reserved = crossed;
        reserved[0] = 6;
        let mut damaged = reserved;
        damaged[511] ^= 1;
        for (block, refusal) in [
            (&crossed[..], 10),
            (&block::checked(reserved), 3),
            (&pose_block(), 3),
            (&damaged, 2),
            (&good[..511], 1),
            (&[], 1),
        ] {
            assert_eq!(
                run(block),
                format!("limits_block refusal {refusal} limits *12")
            );
        }
    }

    /// The answers of a track in lists of 15 and 3 elements; then what is refused, and its zeros.
    #[test]
    fn a_track_result_has_sevens() {
        let t = some_track();
        let call = track_call(t.angle, 15, 3);
        let result = call.run::<Rules>();
        let words: Vec<&str> = result.split(' ').collect();
        assert_eq!(words[..4], ["solve_track", "refusal", "9", "answers"]);
        assert_eq!(words[5..8], ["evals", "0", "angles"]);
        let angles: Vec<&str> = words[8].split(',').collect();
        assert_eq!((angles.len(), angles[14]), (15, "*1"));
        for seven in angles[..14].chunks(7) {
            assert_eq!(seven[t.joint], written_number(t.angle));
        }
        assert!(words[10].ends_with(",*1") && words[10].len() == 6);
        assert_eq!(
            track_call(f64::NAN, 7, 1).run::<Rules>(),
            "solve_track refusal 11 answers 0 evals 0 angles *7 flags *1"
        );
        let line = call.to_string();
        let Call::SolveTrack { arm, .. } = &call else {
            panic!("a track");
        };
        let all = written_numbers(arm);
        let short = line.replacen(&all, &all[17..], 1);
        let none = "answers 0 evals 0 angles *15 flags *3";
        assert_eq!(run(&short), format!("solve_track refusal 5 {none}"));
    }

    #[test]
    fn one_result_has_six_angles_and_a_flag_always() {
        let s = some_pose();
        let full = full_list::<Rules>(1, 0, &s.arm, &s.pose).ok().unwrap();
        let given = |i: usize| {
            let six: Vec<f64> = full.angles[i].iter().collect();
            let (six, flag) = (written_numbers(&six), full.flags[i] as u8);
            format!("solve_one refusal 0 angles {six} flag {flag}")
        };
        assert_eq!(one_call(&[]).run::<Rules>(), given(0));
        assert_eq!(one_call(&WIDE).run::<Rules>(), given(0));
        let last = full.angles.len() - 1;
        let mut limits = WIDE;
        for joint in 0..6 {
            limits[2 * joint..2 * joint + 2].fill(full.angles[last][joint]);
        }
        assert_eq!(one_call(&limits).run::<Rules>(), given(last));
        let zeros = written_numbers(&[0.0; 6]);
        (limits[0], limits[1]) = (8.0, 9.0);
        for (limits, refusal) in [(&limits[..], 12), (&limits[1..], 10)] {
            let refused = format!("solve_one refusal {refusal} angles {zeros} flag 0");
            assert_eq!(one_call(limits).run::<Rules>(), refused);
        }
        let line = "solve_one 6 401 - - -";
        assert_eq!(
            run(line),
            format!("solve_one refusal 5 angles {zeros} flag 0")
        );
    }
}
