//! Sequences of calls on a file of arms, made from a seed: buffers that are valid, and ones with every
//! fault, of every length. Each sequence depends on the seed and its place alone.

use crate::{
    arm_calls::{ArmCall, Sequence},
    arm_file::{block_of, Numbered, ARM},
    arms::realistic,
    block::{self, BLOCK_BYTES, CHECK, WORDS},
    generate::{sample, spoil_one, Kind},
    limits::NUMBERS,
    odd::{any_bits, finite_odd},
    rng::Rng,
};

/// The longest buffer of those whose lengths take turns.
const LONGEST: usize = 2000;

/// The most calls on one buffer.
const MOST_CALLS: usize = 200;

/// An arm that is put has any length up to this one; now and then it is much longer.
const LONG_ARM: usize = 45;

const MOST_NUMBERS: usize = 255;

/// The sequence at a place of a generated list.
pub fn sequence(seed: u64, place: u64) -> Sequence {
    let rng = &mut Rng::of(&[seed, 10, place]);
    match place % 8 {
        0 => any_length((place / 8) as usize % (LONGEST + 1), rng),
        1..=4 => valid(rng),
        _ => damaged(rng),
    }
}

/// An arm of finite numbers: as machines have them, of any size, zeros of both signs, subnormals.
pub fn some_arm(rng: &mut Rng) -> [f64; ARM] {
    match rng.below(5) {
        0 | 1 => realistic(1 + rng.below(6) as u64, rng).0,
        2 => std::array::from_fn(|_| finite_odd(rng)),
        3 => std::array::from_fn(|_| any_finite(rng)),
        _ => std::array::from_fn(|_| rng.pick(&[0.0, -0.0])),
    }
}

fn any_finite(rng: &mut Rng) -> f64 {
    let x = any_bits(rng);
    if x.is_finite() {
        x
    } else {
        f64::MAX
    }
}

fn some_block(number: u8, rng: &mut Rng) -> [u8; BLOCK_BYTES] {
    let arm = some_arm(rng).map(f64::to_bits);
    block_of(&Numbered { number, arm })
}

/// So many numbers from 1 to 255, no two alike: mostly low ones, in no order.
fn unlike_numbers(count: usize, rng: &mut Rng) -> Vec<u8> {
    let from = rng.pick(&[MOST_NUMBERS, MOST_NUMBERS, count + 3]);
    let mut all: Vec<u8> = (1..=from.min(MOST_NUMBERS) as u8).collect();
    for i in 0..count {
        let other = i + rng.below(all.len() - i);
        all.swap(i, other);
    }
    all.truncate(count);
    all
}

/// A valid buffer, block by block.
fn valid_blocks(rng: &mut Rng) -> Vec<[u8; BLOCK_BYTES]> {
    let count = if rng.once_in(40) {
        rng.pick(&[250, 254, 255, 256, 260, 600])
    } else {
        rng.pick(&[0, 1, 1, 2, 2, 3, 3, 4, 4, 5, 6, 8, 12, 20])
    };
    let tenths = rng.pick(&[0, 2, 5, 8, 10]);
    let mut numbers = unlike_numbers(count.min(MOST_NUMBERS), rng).into_iter();
    (0..count)
        .map(|_| {
            let number = numbers.next().filter(|_| rng.below(10) < tenths);
            number.map_or([0; BLOCK_BYTES], |number| some_block(number, rng))
        })
        .collect()
}

fn numbers_of(blocks: &[[u8; BLOCK_BYTES]]) -> Vec<u8> {
    let numbers = blocks.iter().map(|block| block[0]);
    numbers.filter(|&number| number != 0).collect()
}

/// A number that is held or was chosen for the sequence, now and then any, 0 too.
fn some_number(pool: &[u8], rng: &mut Rng) -> u8 {
    match rng.below(12) {
        0 => 0,
        1 => rng.below(256) as u8,
        _ => rng.pick(pool),
    }
}

/// An arm for a put: mostly good; of another length, or with numbers that are not finite, or both.
fn put_arm(rng: &mut Rng) -> Vec<f64> {
    let mut arm = some_arm(rng).to_vec();
    if rng.once_in(12) {
        match rng.below(4) {
            0 => spoil_one(&mut arm, rng),
            1 => arm[rng.below(ARM)] = any_nan(rng),
            2 => arm.iter_mut().for_each(|x| *x = any_nan(rng)),
            _ => arm.iter_mut().for_each(|x| *x = any_bits(rng)),
        }
    }
    if rng.once_in(12) {
        let any = rng.below(LONG_ARM + 1);
        let length = rng.pick(&[any, any, any, any, 2 * ARM, 8 * ARM, BLOCK_BYTES]);
        arm = arm.into_iter().cycle().take(length).collect();
    }
    arm
}

/// A NaN of either sign with any payload, quiet or not.
fn any_nan(rng: &mut Rng) -> f64 {
    let payload = (rng.next() & 0x000f_ffff_ffff_ffff).max(1);
    f64::from_bits(0x7ff0_0000_0000_0000 | payload | rng.next() & 1 << 63)
}

fn calls(count: usize, held: &[u8], rng: &mut Rng) -> Vec<ArmCall> {
    let mut pool = held.to_vec();
    pool.extend((0..3).map(|_| 1 + rng.below(255) as u8));
    let puts = rng.pick(&[2, 4, 6]);
    (0..count)
        .map(|_| {
            let number = some_number(&pool, rng);
            match rng.below(10) {
                kind if kind < puts => ArmCall::Put {
                    number,
                    arm: put_arm(rng),
                },
                6 | 7 => ArmCall::Find { number },
                8 if rng.once_in(3) => ArmCall::Compact,
                _ => ArmCall::TakeOut { number },
            }
        })
        .collect()
}

fn valid(rng: &mut Rng) -> Sequence {
    let blocks = valid_blocks(rng);
    let most = if blocks.len() > 20 { 24 } else { MOST_CALLS };
    let count = rng.below(most + 1);
    Sequence {
        calls: calls(count, &numbers_of(&blocks), rng),
        buffer: blocks.concat(),
    }
}

fn set_word(block: &mut [u8; BLOCK_BYTES], at: usize, word: u64) {
    block[8 * at..][..8].copy_from_slice(&word.to_le_bytes());
    *block = block::checked(*block);
}

/// A byte that must be zero: of word 0, of the first or last reserved word, or of any.
fn reserved_byte(rng: &mut Rng) -> usize {
    match rng.below(3) {
        0 => 1 + rng.below(7),
        1 => 8 * rng.pick(&[ARM + 1, CHECK - 1]) + rng.below(8),
        _ => 8 * (ARM + 1) + rng.below(8 * (CHECK - ARM - 1)),
    }
}

/// One fault in a block, which may be empty before: as a rule with the check that is then right.
fn damage(block: &mut [u8; BLOCK_BYTES], others: &[u8], rng: &mut Rng) {
    match rng.below(11) {
        0 => block[rng.below(BLOCK_BYTES)] ^= 1 << rng.below(8),
        1 => {
            let check = 8 * CHECK + rng.below(8);
            block[check] = block[check].wrapping_add(rng.pick(&[1, 255]));
        }
        2 | 3 => {
            block[reserved_byte(rng)] = 1 << rng.below(8);
            *block = block::checked(*block);
        }
        4 | 5 => {
            let mut numbers = [0.0];
            spoil_one(&mut numbers, rng);
            let [x] = numbers;
            let x = if rng.once_in(2) { any_nan(rng) } else { x };
            set_word(block, 1 + rng.below(ARM), x.to_bits());
        }
        6 => {
            *block = some_block(1, rng);
            set_word(block, 0, 0);
        }
        7 if !others.is_empty() => *block = some_block(rng.pick(others), rng),
        8 => *block = std::array::from_fn(|_| rng.next() as u8),
        9 => {
            let words: [u64; WORDS] = std::array::from_fn(|_| rng.next());
            *block = block::checked(block::to_bytes(&words));
        }
        _ => *block = other_block(rng),
    }
}

/// A pose block or a limits block.
fn other_block(rng: &mut Rng) -> [u8; BLOCK_BYTES] {
    if rng.once_in(2) {
        return block::make_limits(&[1.0; NUMBERS]);
    }
    let family = 1 + rng.below(6) as u64;
    let sample = sample(Kind::Reachable, family, rng.next(), 0, Some(1));
    block::make(&sample.request())
}

/// A valid buffer with one fault or a few, in one block or in several, or cut short or made longer.
fn damaged(rng: &mut Rng) -> Sequence {
    let mut blocks = valid_blocks(rng);
    if blocks.is_empty() || blocks.len() > 20 && !rng.once_in(10) {
        blocks = vec![some_block(7, rng), [0; BLOCK_BYTES], some_block(8, rng)];
    }
    let held = numbers_of(&blocks);
    let times = rng.pick(&[0, 1, 1, 1, 1, 2, 3]);
    let last = blocks.len() - 1;
    for _ in 0..times {
        let any = rng.below(blocks.len());
        let place = rng.pick(&[any, any, 0, last]);
        damage(&mut blocks[place], &held, rng);
    }
    let mut buffer = blocks.concat();
    if times == 0 || rng.once_in(6) {
        let length = match rng.below(3) {
            0 => buffer.len() + 1 + rng.below(BLOCK_BYTES - 1),
            1 => buffer.len() - 1,
            _ => rng.below(buffer.len()),
        };
        buffer.resize(length, 0);
    }
    let count = 1 + rng.below(8);
    Sequence {
        calls: calls(count, &held, rng),
        buffer,
    }
}

/// A buffer of this length, of whatever bytes.
fn any_length(length: usize, rng: &mut Rng) -> Sequence {
    let buffer: Vec<u8> = match rng.below(4) {
        0 => vec![0; length],
        1 => (0..length).map(|_| rng.next() as u8).collect(),
        2 => {
            let blocks = (1..=4).map(|number| some_block(number, rng));
            blocks.flatten().take(length).collect()
        }
        _ => {
            let random: Vec<u8> = (0..length).map(|_| rng.next() as u8).collect();
            let first = some_block(7, rng).into_iter().chain([0; BLOCK_BYTES]);
            first.chain(random).take(length).collect()
        }
    };
    let count = 1 + rng.below(8);
    Sequence {
        calls: calls(count, &[1, 2, 3, 7], rng),
        buffer,
    }
}

#[cfg(test)]
mod tests {
    use super::*;
    use crate::arm_file::judge;
    use std::collections::{BTreeMap, BTreeSet};

    #[test]
    fn the_same_arguments_make_the_same_sequence() {
        for place in 0..64 {
            let lines = sequence(5, place).to_string();
            assert_eq!(lines, sequence(5, place).to_string());
            assert_ne!(lines, sequence(6, place).to_string());
            assert_ne!(lines, sequence(5, place + 8).to_string());
        }
    }

    #[test]
    fn every_refusal_of_every_call_comes() {
        let mut seen: BTreeMap<&str, BTreeMap<u32, usize>> = BTreeMap::new();
        for place in 0..2000 {
            let mut sequence = sequence(1, place);
            for call in &sequence.calls {
                let (refusal, _) = call.run(&mut sequence.buffer);
                let counts = seen.entry(call.name()).or_default();
                *counts.entry(refusal).or_default() += 1;
            }
        }
        let refusals = |name: &str| seen[name].keys().copied().collect::<Vec<u32>>();
        assert_eq!(refusals("put"), [0, 1, 2, 3, 5, 8, 13, 15]);
        assert_eq!(refusals("find"), [0, 1, 2, 3, 8, 13, 14]);
        assert_eq!(refusals("take_out"), [0, 1, 2, 3, 8, 13, 14]);
        assert_eq!(refusals("compact"), [0, 1, 2, 3, 8, 13]);
        for counts in seen.values() {
            assert!(counts.values().all(|&count| count > 8), "{seen:?}");
        }
    }

    #[test]
    fn every_length_up_to_2000_comes() {
        let lengths: BTreeSet<usize> = (0..8 * 2001)
            .step_by(8)
            .map(|place| sequence(1, place).buffer.len())
            .collect();
        assert!(lengths.into_iter().eq(0..=LONGEST));
    }

    /// Every call has every number; puts have arms of every length up to 45 and longer ones, and what is not
    /// finite has any bits.
    #[test]
    fn arguments_of_every_sort_come() {
        let mut lengths = BTreeSet::new();
        let mut numbers: BTreeMap<&str, BTreeSet<u8>> = BTreeMap::new();
        let mut sorts: BTreeMap<&str, usize> = BTreeMap::new();
        for place in 0..3000 {
            for call in sequence(2, place).calls {
                if let ArmCall::Put { number, .. }
                | ArmCall::Find { number }
                | ArmCall::TakeOut { number } = call
                {
                    numbers.entry(call.name()).or_default().insert(number);
                }
                let ArmCall::Put { arm, .. } = call else {
                    continue;
                };
                lengths.insert(arm.len());
                let has = |test: fn(&f64) -> bool| arm.iter().any(test);
                for (sort, has) in [
                    (
                        "quiet NaN",
                        has(|x| x.to_bits() & 0x7ff8 << 48 == 0x7ff8 << 48),
                    ),
                    (
                        "signalling NaN",
                        has(|x| x.is_nan() && x.to_bits() & 1 << 51 == 0),
                    ),
                    ("infinity", has(|&x| x == f64::INFINITY)),
                    ("minus infinity", has(|&x| x == f64::NEG_INFINITY)),
                    ("minus zero", has(|x| x.to_bits() == 1 << 63)),
                    ("subnormal", has(|x| x.is_subnormal())),
                    ("largest", has(|x| x.abs() == f64::MAX)),
                ] {
                    *sorts.entry(sort).or_insert(0) += has as usize;
                }
            }
        }
        assert!(lengths.into_iter().eq((0..=45).chain([78, 312, 512])));
        assert_eq!(numbers.len(), 3);
        for numbers in numbers.into_values() {
            assert!(numbers.into_iter().eq(0..=255));
        }
        assert!(sorts.values().all(|&count| count > 50), "{sorts:?}");
    }

    /// Buffers: valid ones of many fills, and each fault in the first block, in a later one, and in the last.
    #[test]
    fn buffers_of_every_sort_come() {
        let mut seen: BTreeMap<(u32, &str), usize> = BTreeMap::new();
        for place in 0..3000 {
            let buffer = sequence(3, place).buffer;
            let blocks: Vec<&[u8]> = buffer.chunks(BLOCK_BYTES).collect();
            let (refusal, sort) = match judge(&buffer) {
                Ok(slots) if slots.is_empty() => (0, "no block"),
                Ok(slots) if slots.iter().all(Option::is_some) => (0, "full"),
                Ok(slots) if slots.iter().all(Option::is_none) => (0, "empty"),
                Ok(slots) if slots.iter().flatten().count() > 200 => (0, "of many arms"),
                Ok(_) => (0, "partly full"),
                Err(refusal) => {
                    // The first block with a fault is the first whose prefix of the buffer has it.
                    let at = (1..)
                        .find(|&n| judge(&blocks[..n].concat()).is_err())
                        .unwrap();
                    match at {
                        _ if at == blocks.len() && at > 1 => (refusal, "last"),
                        1 => (refusal, "first"),
                        _ => (refusal, "between"),
                    }
                }
            };
            *seen.entry((refusal, sort)).or_default() += 1;
        }
        let sorts: Vec<(u32, &str)> = seen.keys().copied().collect();
        let mut wanted = vec![(0, "empty"), (0, "full"), (0, "no block")];
        wanted.extend([
            (0, "of many arms"),
            (0, "partly full"),
            (1, "first"),
            (1, "last"),
        ]);
        for refusal in [2, 3, 8, 13] {
            wanted.extend(["between", "first", "last"].map(|sort| (refusal, sort)));
        }
        assert_eq!(sorts, wanted);
        assert!(seen.values().all(|&count| count > 3), "{seen:?}");
    }
}
