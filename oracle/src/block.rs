//! Document 01's blocks of 64 little-endian words and document 02's limits blocks: refusals 1 to 3 and
//! 10, the fields, and the lines that the program prints.

use crate::{
    arith::Arith,
    limits::{self, Limits},
    solve::{solve, Outcome},
};
use std::io::{self, Read, Write};

pub const BLOCK_BYTES: usize = 512;
pub const WORDS: usize = 64;
pub const CHECK: usize = 63;

/// Byte 3 of word 0 says what a block is: 0 for a pose block, 1 for a limits block.
const KIND: usize = 3;
const LIMITS_KIND: u8 = 1;

/// Word 0 of a limits block: all its other bytes are zero.
const LIMITS_HEAD: u64 = (LIMITS_KIND as u64) << (8 * KIND);

/// The bits that stand for every NaN in what is printed or recorded.
pub const NAN_BITS: u64 = 0x7ff8_0000_0000_0000;

/// The test is of the bits as a whole number: an optimising compiler may take `x.is_nan()` beside
/// `x.to_bits()` for one of the patterns that a NaN can have.
pub fn canonical_bits(x: f64) -> u64 {
    const INFINITY_BITS: u64 = 0x7ff0_0000_0000_0000;
    let bits = std::hint::black_box(x.to_bits());
    if bits & !(1 << 63) > INFINITY_BITS {
        NAN_BITS
    } else {
        bits
    }
}

/// What a pose block asks for.
#[derive(Clone)]
pub struct Request {
    pub family: u64,
    pub n: u64,
    pub arm: [f64; 39],
    pub pose: [f64; 12],
}

fn words(block: &[u8; BLOCK_BYTES]) -> [u64; WORDS] {
    std::array::from_fn(|i| u64::from_le_bytes(block[8 * i..8 * i + 8].try_into().unwrap()))
}

fn check_word(words: &[u64; WORDS]) -> u64 {
    words[..CHECK]
        .iter()
        .fold(0, |sum: u64, &word| sum.wrapping_add(word))
}

/// A block's words, or refusal 1 or 2.
pub fn whole_words(bytes: &[u8]) -> Result<[u64; WORDS], u32> {
    let block: &[u8; BLOCK_BYTES] = bytes.try_into().map_err(|_| 1u32)?;
    let words = words(block);
    if words[CHECK] != check_word(&words) {
        return Err(2);
    }
    Ok(words)
}

/// The request of a pose block, or refusal 1, 2 or 3. A limits block is 3.
pub fn parse(bytes: &[u8]) -> Result<Request, u32> {
    let words = whole_words(bytes)?;
    if words[0] >> 24 != 0 || words[52..CHECK].iter().any(|&word| word != 0) {
        return Err(3);
    }
    Ok(Request {
        family: words[0] & 0xff,
        n: words[0] >> 8 & 0xffff,
        arm: std::array::from_fn(|i| f64::from_bits(words[1 + i])),
        pose: std::array::from_fn(|i| f64::from_bits(words[40 + i])),
    })
}

/// The twelve numbers of a limits block, or refusal 1, 2, 3 or 10. A pose block is 3.
pub fn parse_limits(bytes: &[u8]) -> Result<[f64; limits::NUMBERS], u32> {
    let words = whole_words(bytes)?;
    let reserved = &words[1 + limits::NUMBERS..CHECK];
    if words[0] != LIMITS_HEAD || reserved.iter().any(|&word| word != 0) {
        return Err(3);
    }
    let numbers: [f64; limits::NUMBERS] = std::array::from_fn(|i| f64::from_bits(words[1 + i]));
    Limits::judge(&numbers)?;
    Ok(numbers)
}

/// Whether the program judges a block as a limits block; a short one is refusal 1 either way.
fn is_limits(bytes: &[u8]) -> bool {
    bytes.get(KIND) == Some(&LIMITS_KIND)
}

fn unchecked_words(request: &Request) -> [u64; WORDS] {
    let mut words = [0; WORDS];
    words[0] = request.family & 0xff | (request.n & 0xffff) << 8;
    for (word, number) in words[1..]
        .iter_mut()
        .zip(request.arm.iter().chain(&request.pose))
    {
        *word = number.to_bits();
    }
    words
}

pub fn to_bytes(words: &[u64; WORDS]) -> [u8; BLOCK_BYTES] {
    let mut bytes = [0; BLOCK_BYTES];
    for (i, word) in words.iter().enumerate() {
        bytes[8 * i..8 * i + 8].copy_from_slice(&word.to_le_bytes());
    }
    bytes
}

/// The block of a request, with its check word.
pub fn make(request: &Request) -> [u8; BLOCK_BYTES] {
    checked(to_bytes(&unchecked_words(request)))
}

/// The limits block of twelve numbers, good or bad, with its check word.
pub fn make_limits(numbers: &[f64; limits::NUMBERS]) -> [u8; BLOCK_BYTES] {
    let mut words = [0; WORDS];
    words[0] = LIMITS_HEAD;
    for (word, number) in words[1..].iter_mut().zip(numbers) {
        *word = number.to_bits();
    }
    checked(to_bytes(&words))
}

/// The block with the check word that its other words ask for.
pub fn checked(block: [u8; BLOCK_BYTES]) -> [u8; BLOCK_BYTES] {
    let mut words = words(&block);
    words[CHECK] = check_word(&words);
    to_bytes(&words)
}

/// Fills `block` from the input and gives the number of bytes there were. A short read is read
/// on; only the end of the input makes a short block.
fn read_block(input: &mut impl Read, block: &mut [u8; BLOCK_BYTES]) -> io::Result<usize> {
    let mut length = 0;
    while length < BLOCK_BYTES {
        match input.read(&mut block[length..]) {
            Ok(0) => break,
            Ok(more) => length += more,
            Err(error) if error.kind() == io::ErrorKind::Interrupted => {}
            Err(error) => return Err(error),
        }
    }
    Ok(length)
}

/// What the program has a place for: a pose block, or the refusal of a block of either kind.
pub struct Placed<'a> {
    pub place: usize,
    pub request: Result<Request, u32>,
    /// The limits in force: twelve numbers or none.
    pub limits: &'a [f64],
}

/// Calls `each` with every block but the limits blocks that are accepted. These take no place and hold
/// until the next one that is accepted; a refused one has a place and changes nothing.
pub fn for_each_block(
    input: &mut impl Read,
    mut each: impl FnMut(Placed) -> io::Result<()>,
) -> io::Result<()> {
    let mut block = [0; BLOCK_BYTES];
    let (mut place, mut limits) = (0, Vec::new());
    loop {
        let length = read_block(input, &mut block)?;
        if length == 0 {
            return Ok(());
        }
        let bytes = &block[..length];
        let request = if is_limits(bytes) {
            match parse_limits(bytes) {
                Ok(numbers) => {
                    limits = numbers.to_vec();
                    continue;
                }
                Err(refusal) => Err(refusal),
            }
        } else {
            parse(bytes)
        };
        each(Placed {
            place,
            request,
            limits: &limits,
        })?;
        place += 1;
        if length < BLOCK_BYTES {
            return Ok(());
        }
    }
}

/// The program: every block of the input solved with space for `room` answers.
pub fn solve_blocks<A: Arith>(
    input: &mut impl Read,
    output: &mut impl Write,
    room: usize,
) -> io::Result<()> {
    let (mut angles, mut flags) = (vec![0.0; 6 * room], vec![0; room]);
    for_each_block(input, |block| {
        let outcome = match block.request {
            Ok(r) => solve::<A>(
                r.family,
                r.n,
                &r.arm,
                &r.pose,
                block.limits,
                &mut angles,
                &mut flags,
            ),
            Err(refusal) => Outcome::refused(refusal),
        };
        write_lines(output, block.place, &outcome, &angles, &flags)
    })
}

fn write_lines(
    output: &mut impl Write,
    place: usize,
    outcome: &Outcome,
    angles: &[f64],
    flags: &[u8],
) -> io::Result<()> {
    writeln!(
        output,
        "block {place} refusal {} answers {} evals {}",
        outcome.refusal, outcome.answers, outcome.evaluations
    )?;
    for (six, flag) in angles.chunks(6).zip(flags).take(outcome.answers) {
        for &angle in six {
            write!(output, "{:016x} ", canonical_bits(angle))?;
        }
        writeln!(output, "{flag}")?;
    }
    Ok(())
}

#[cfg(test)]
mod tests {
    use super::*;
    use crate::arith::Rules;
    use crate::generate::Kind;

    fn zero_block(family: u64, n: u64) -> [u8; BLOCK_BYTES] {
        make(&Request {
            family,
            n,
            arm: [0.0; 39],
            pose: [0.0; 12],
        })
    }

    fn lines(input: &[u8]) -> String {
        let mut output = Vec::new();
        solve_blocks::<Rules>(&mut &input[..], &mut output, 1024).unwrap();
        String::from_utf8(output).unwrap()
    }

    #[test]
    fn three_blocks_print_document_01s_lines() {
        let blocks = [zero_block(3, 0), zero_block(6, 200), zero_block(9, 0)];
        let checks = blocks.map(|block| words(&block)[CHECK]);
        assert_eq!(checks, [3, 51206, 9]);
        assert_eq!(
            lines(&blocks.concat()),
            "block 0 refusal 0 answers 0 evals 0\n\
             block 1 refusal 0 answers 0 evals 201\n\
             block 2 refusal 4 answers 0 evals 0\n"
        );
        assert_eq!(lines(&[]), "");
    }

    #[test]
    fn block_refusals_come_first() {
        let good = zero_block(9, 0);
        assert_eq!(lines(&good[..511]), "block 0 refusal 1 answers 0 evals 0\n");
        let mut bad = good;
        bad[3] = 1;
        assert_eq!(parse(&bad).err(), Some(2));
        assert_eq!(parse(&checked(bad)).err(), Some(3));
        let mut bad = good;
        bad[8 * 62 + 7] = 0x80;
        assert_eq!(parse(&checked(bad)).err(), Some(3));
        let request = parse(&zero_block(6, 400)).ok().unwrap();
        assert_eq!((request.family, request.n), (6, 400));
    }

    const WIDE: [f64; 12] = [
        -9.0, 9.0, -9.0, 9.0, -9.0, 9.0, -9.0, 9.0, -9.0, 9.0, -9.0, 9.0,
    ];

    /// Wide limits with other ends for a joint.
    fn limits_block(joint: usize, low: f64, high: f64) -> [u8; BLOCK_BYTES] {
        let mut numbers = WIDE;
        (numbers[2 * joint], numbers[2 * joint + 1]) = (low, high);
        make_limits(&numbers)
    }

    /// A block with a byte changed and its check word repaired.
    fn repaired(block: [u8; BLOCK_BYTES], at: usize, byte: u8) -> [u8; BLOCK_BYTES] {
        let mut bytes = block;
        bytes[at] = byte;
        checked(bytes)
    }

    /// A pose block of family 1 with answers.
    fn pose_block() -> [u8; BLOCK_BYTES] {
        crate::generate::block_bytes(Kind::Reachable, 1, 1, 0, 1, None)
            .try_into()
            .unwrap()
    }

    /// The lines with every place so much further on.
    fn moved(lines: &str, by: usize) -> String {
        let mut out = String::new();
        for line in lines.lines() {
            let mut words: Vec<String> = line.split(' ').map(String::from).collect();
            if words[0] == "block" {
                words[1] = (words[1].parse::<usize>().unwrap() + by).to_string();
            }
            out += &(words.join(" ") + "\n");
        }
        out
    }

    fn refused(place: usize, refusal: u32) -> String {
        format!("block {place} refusal {refusal} answers 0 evals 0\n")
    }

    #[test]
    fn a_limits_block_has_low_then_high_joint_by_joint() {
        let numbers = [
            -6.0, -5.0, -4.0, -3.0, -2.0, -1.0, 1.0, 2.0, 3.0, 4.0, 5.0, 6.0,
        ];
        let block = make_limits(&numbers);
        assert_eq!(block[..8], [0, 0, 0, 1, 0, 0, 0, 0]);
        for (i, number) in numbers.iter().enumerate() {
            assert_eq!(block[8 + 8 * i..16 + 8 * i], number.to_bits().to_le_bytes());
        }
        assert!(block[8 * 13..8 * 63].iter().all(|&byte| byte == 0));
        assert_eq!(parse_limits(&block), Ok(numbers));
    }

    #[test]
    fn everything_else_but_the_check_is_zero_or_3() {
        let good = make_limits(&WIDE);
        let reserved = [0, 1, 2, 4, 5, 6, 7].into_iter().chain(8 * 13..8 * 63);
        for at in reserved {
            for byte in [1, 0x80, 0xff] {
                let block = repaired(good, at, byte);
                assert_eq!(parse_limits(&block), Err(3), "{byte} at {at}");
                assert_eq!(lines(&block), refused(0, 3));
            }
        }
    }

    #[test]
    fn a_limits_block_is_judged_1_2_3_10() {
        let bad = limits_block(2, 1.0, -1.0);
        assert_eq!(parse_limits(&bad), Err(10));
        let reserved = repaired(bad, 0, 6);
        assert_eq!(parse_limits(&reserved), Err(3));
        let mut check = reserved;
        check[8 * CHECK] ^= 1;
        assert_eq!(parse_limits(&check), Err(2));
        for length in [0, 1, 3, 4, 8, 104, 504, 511] {
            assert_eq!(parse_limits(&check[..length]), Err(1));
            assert_eq!(parse_limits(&make_limits(&WIDE)[..length]), Err(1));
        }
        for block in [&bad[..], &reserved, &check, &check[..511]] {
            let refusal = parse_limits(block).unwrap_err();
            assert_eq!(lines(block), refused(0, refusal));
        }
        for number in [f64::NAN, f64::INFINITY] {
            assert_eq!(lines(&limits_block(5, -1.0, number)), refused(0, 10));
            assert_eq!(lines(&limits_block(0, -number, 1.0)), refused(0, 10));
        }
    }

    #[test]
    fn byte_3_of_another_value_is_3() {
        let pose = pose_block();
        for byte in 2..=255 {
            assert_eq!(
                lines(&repaired(make_limits(&WIDE), KIND, byte)),
                refused(0, 3)
            );
            assert_eq!(lines(&repaired(pose, KIND, byte)), refused(0, 3));
        }
        // A pose block that says it is a limits block, and the other way round.
        assert_eq!(lines(&repaired(pose, KIND, 1)), refused(0, 3));
        assert_eq!(lines(&repaired(make_limits(&WIDE), KIND, 0)), refused(0, 4));
        // Each call takes its own kind alone, and 3 comes before 10.
        assert_eq!(parse(&make_limits(&WIDE)).err(), Some(3));
        assert_eq!(parse(&limits_block(1, 2.0, 1.0)).err(), Some(3));
        assert_eq!(parse_limits(&pose), Err(3));
        // All zero but for byte 3: every joint's ends are zero.
        assert_eq!(lines(&repaired([0; BLOCK_BYTES], KIND, 1)), "");
    }

    #[test]
    fn an_accepted_limits_block_prints_nothing_and_takes_no_place() {
        let (pose, wide) = (pose_block(), make_limits(&WIDE));
        let one = lines(&pose);
        assert!(one.lines().count() > 2);
        let two = one.clone() + &moved(&one, 1);
        assert_eq!(lines(&wide), "");
        assert_eq!(lines(&[wide, wide].concat()), "");
        for blocks in [
            vec![wide, pose, pose],
            vec![pose, wide, pose],
            vec![pose, pose, wide],
            vec![wide, wide, pose, wide, wide, wide, pose, wide],
        ] {
            assert_eq!(lines(&blocks.concat()), two);
        }
    }

    /// The lines that stay of one block's under limits on one joint, worked out from the lines.
    fn filtered(one: &str, joint: usize, low: f64, high: f64) -> String {
        let inside = |line: &&str| {
            let bits = u64::from_str_radix(line.split(' ').nth(joint).unwrap(), 16).unwrap();
            (low..=high).contains(&f64::from_bits(bits))
        };
        let answers: Vec<&str> = one.lines().skip(1).filter(inside).collect();
        let head = format!("block 0 refusal 0 answers {} evals 0", answers.len());
        [vec![head.as_str()], answers, vec![""]].concat().join("\n")
    }

    #[test]
    fn it_holds_until_the_next_accepted_one() {
        let pose = pose_block();
        let one = lines(&pose);
        let (left, right) = (limits_block(0, -9.0, 0.0), limits_block(0, 0.0, 9.0));
        let (below, above) = (filtered(&one, 0, -9.0, 0.0), filtered(&one, 0, 0.0, 9.0));
        assert!(below != one && above != one && below != above);
        let bad = limits_block(3, 2.0, 1.0);
        let mut flipped = right;
        flipped[20] ^= 4;
        let reserved = repaired(right, 5, 1);
        let first = [pose, left, pose, pose, bad, pose, flipped, reserved, pose];
        let then = [
            right,
            pose,
            left,
            right,
            pose,
            bad,
            make_limits(&WIDE),
            pose,
        ];
        let expected = [
            one.clone(),
            moved(&below, 1),
            moved(&below, 2),
            refused(3, 10),
            moved(&below, 4),
            refused(5, 2),
            refused(6, 3),
            moved(&below, 7),
            moved(&above, 8),
            moved(&above, 9),
            refused(10, 10),
            moved(&one, 11),
        ];
        let input = [first.concat(), then.concat()].concat();
        assert_eq!(lines(&input), expected.concat());
    }

    #[test]
    fn before_the_first_accepted_one_there_are_no_limits() {
        let pose = pose_block();
        let bad = limits_block(3, 2.0, 1.0);
        let expected = refused(0, 10) + &moved(&lines(&pose), 1);
        assert_eq!(lines(&[bad, pose].concat()), expected);
    }

    #[test]
    fn a_short_last_block_is_1_whatever_it_begins() {
        let (pose, wide) = (pose_block(), make_limits(&WIDE));
        let one = lines(&pose);
        for short in [
            &wide[..511],
            &wide[..4],
            &wide[..3],
            &pose[..511],
            &pose[..1],
        ] {
            let input = [&pose[..], &wide, short].concat();
            assert_eq!(lines(&input), one.clone() + &refused(1, 1));
            assert_eq!(lines(&[&wide[..], short].concat()), refused(0, 1));
            assert_eq!(lines(short), refused(0, 1));
        }
    }

    #[test]
    fn a_refused_pose_block_leaves_the_limits_in_force() {
        let pose = pose_block();
        let left = limits_block(0, -9.0, 0.0);
        let below = filtered(&lines(&pose), 0, -9.0, 0.0);
        let blocks = [
            left,
            repaired(pose, 0, 9),
            pose,
            repaired(pose, 8 * 55, 1),
            pose,
        ];
        let expected = [
            refused(0, 4),
            moved(&below, 1),
            refused(2, 3),
            moved(&below, 3),
        ];
        assert_eq!(lines(&blocks.concat()), expected.concat());
    }
}
