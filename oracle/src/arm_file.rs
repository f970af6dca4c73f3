//! Document 02's file of arms (request 7): one lent buffer of 512-byte blocks, each an arm with its
//! number, or empty. Each operation reads the whole buffer into a plain list first, which judges it.

use crate::block::{self, BLOCK_BYTES, CHECK, WORDS};

/// The numbers of an arm.
pub const ARM: usize = 39;

/// An arm by the bits of its numbers, so that every one comes back as it was put.
pub type Arm = [u64; ARM];

/// "Its number 1 to 255 in byte 0 of word 0, words 1 to 39 as in a pose block."
#[derive(Clone, Copy, Debug, PartialEq, Eq)]
pub struct Numbered {
    pub number: u8,
    pub arm: Arm,
}

fn is_finite(arm: &[u64]) -> bool {
    arm.iter().all(|&bits| f64::from_bits(bits).is_finite())
}

fn bits(arm: &[f64]) -> Vec<u64> {
    arm.iter().map(|x| x.to_bits()).collect()
}

/// "The rest zero, the check as before."
pub fn block_of(held: &Numbered) -> [u8; BLOCK_BYTES] {
    let mut words = [0; WORDS];
    words[0] = held.number as u64;
    words[1..1 + ARM].copy_from_slice(&held.arm);
    block::checked(block::to_bytes(&words))
}

/// What a block holds, given what the blocks before it hold; or "1, 2 or 3 as for blocks, 8 for an arm
/// that isn't finite, 13 for a non-empty block numbered 0 or as an earlier one". A short block is 1,
/// zero or not: it is no block. "An all-zero block is empty."
fn judge_block(block: &[u8], earlier: &[Option<Numbered>]) -> Result<Option<Numbered>, u32> {
    let words = block::whole_words(block)?;
    if words == [0; WORDS] {
        return Ok(None);
    }
    let reserved = &words[1 + ARM..CHECK];
    if words[0] > 0xff || reserved.iter().any(|&word| word != 0) {
        return Err(3);
    }
    let arm: Arm = words[1..1 + ARM].try_into().unwrap();
    if !is_finite(&arm) {
        return Err(8);
    }
    let number = words[0] as u8;
    if number == 0 || earlier.iter().flatten().any(|held| held.number == number) {
        return Err(13);
    }
    Ok(Some(Numbered { number, arm }))
}

/// "Every operation first judges the buffer, block by block." What each block holds, or the refusal
/// of the first that has a fault.
pub fn judge(buffer: &[u8]) -> Result<Vec<Option<Numbered>>, u32> {
    let mut slots = Vec::new();
    for block in buffer.chunks(BLOCK_BYTES) {
        let slot = judge_block(block, &slots)?;
        slots.push(slot);
    }
    Ok(slots)
}

fn place_of(slots: &[Option<Numbered>], number: u8) -> Option<usize> {
    slots
        .iter()
        .position(|slot| slot.is_some_and(|held| held.number == number))
}

fn block_at(buffer: &mut [u8], place: usize) -> &mut [u8] {
    &mut buffer[BLOCK_BYTES * place..][..BLOCK_BYTES]
}

/// "Put (into the first empty block)." Gives the refusal; its own 5 and 8 come after the buffer's, then
/// "13, put of number 0 or one already held; 15, put when no block is empty".
pub fn put(buffer: &mut [u8], number: u8, arm: &[f64]) -> u32 {
    let slots = match judge(buffer) {
        Ok(slots) => slots,
        Err(refusal) => return refusal,
    };
    let Ok(arm) = Arm::try_from(bits(arm)) else {
        return 5;
    };
    if !is_finite(&arm) {
        return 8;
    }
    if number == 0 || place_of(&slots, number).is_some() {
        return 13;
    }
    let Some(place) = slots.iter().position(|slot| slot.is_none()) else {
        return 15;
    };
    block_at(buffer, place).copy_from_slice(&block_of(&Numbered { number, arm }));
    0
}

/// "Find gives the arm, or 39 zeros where it is refused"; "14, find or take out of a number not held".
pub fn find(buffer: &[u8], number: u8) -> (u32, Arm) {
    let slots = match judge(buffer) {
        Ok(slots) => slots,
        Err(refusal) => return (refusal, [0; ARM]),
    };
    match slots.iter().flatten().find(|held| held.number == number) {
        Some(held) => (0, held.arm),
        None => (14, [0; ARM]),
    }
}

/// "Take out (the block becomes zero)."
pub fn take_out(buffer: &mut [u8], number: u8) -> u32 {
    let slots = match judge(buffer) {
        Ok(slots) => slots,
        Err(refusal) => return refusal,
    };
    let Some(place) = place_of(&slots, number) else {
        return 14;
    };
    block_at(buffer, place).fill(0);
    0
}

/// "Compact, which moves held arms to the front in their order and zeroes every block behind them."
pub fn compact(buffer: &mut [u8]) -> u32 {
    let slots = match judge(buffer) {
        Ok(slots) => slots,
        Err(refusal) => return refusal,
    };
    let held: Vec<u8> = buffer
        .chunks(BLOCK_BYTES)
        .zip(&slots)
        .filter(|(_, slot)| slot.is_some())
        .flat_map(|(block, _)| block.to_vec())
        .collect();
    buffer.fill(0);
    buffer[..held.len()].copy_from_slice(&held);
    0
}

#[cfg(test)]
mod tests {
    use super::*;
    use crate::{
        arm_calls::ArmCall,
        generate_arms::{sequence, some_arm},
        rng::Rng,
    };

    /// "A plain list of numbered arms that has room for one a block."
    struct Plain {
        list: Vec<(u8, Arm)>,
        room: usize,
    }

    impl Plain {
        /// What a valid buffer holds.
        fn of(buffer: &[u8]) -> Self {
            let slots = judge(buffer).unwrap();
            let held = slots.iter().flatten();
            Plain {
                list: held.map(|held| (held.number, held.arm)).collect(),
                room: slots.len(),
            }
        }

        fn get(&self, number: u8) -> Option<Arm> {
            let held = self.list.iter().find(|held| held.0 == number);
            held.map(|held| held.1)
        }

        fn put(&mut self, number: u8, arm: &[f64]) -> u32 {
            if arm.len() != 39 {
                return 5;
            }
            if arm.iter().any(|x| x.is_nan() || x.is_infinite()) {
                return 8;
            }
            if number == 0 || self.get(number).is_some() {
                return 13;
            }
            if self.list.len() == self.room {
                return 15;
            }
            self.list
                .push((number, std::array::from_fn(|i| arm[i].to_bits())));
            0
        }

        fn take_out(&mut self, number: u8) -> u32 {
            let before = self.list.len();
            self.list.retain(|held| held.0 != number);
            if self.list.len() < before {
                0
            } else {
                14
            }
        }

        /// What the call gives, and what find gives besides.
        fn run(&mut self, call: &ArmCall) -> (u32, Option<Arm>) {
            match call {
                ArmCall::Put { number, arm } => (self.put(*number, arm), None),
                ArmCall::Find { number } => match self.get(*number) {
                    Some(arm) => (0, Some(arm)),
                    None => (14, Some([0; 39])),
                },
                ArmCall::TakeOut { number } => (self.take_out(*number), None),
                ArmCall::Compact => (0, None),
            }
        }
    }

    /// "Any sequence of calls on a valid buffer agrees, in what each call gives, with a plain list."
    #[test]
    fn a_plain_list_gives_the_same() {
        let (mut valid, mut calls, mut most) = (0, 0, 0);
        for place in 0..4000 {
            let mut sequence = sequence(21, place);
            if judge(&sequence.buffer).is_err() {
                continue;
            }
            valid += 1;
            let mut plain = Plain::of(&sequence.buffer);
            for call in &sequence.calls {
                let got = call.run(&mut sequence.buffer);
                assert_eq!(got, plain.run(call), "{call:?}");
                calls += 1;
            }
            assert_eq!(plain.room, sequence.buffer.len() / BLOCK_BYTES);
            most = most.max(plain.list.len());
        }
        assert!(
            valid > 1500 && calls > 50_000 && most == 255,
            "{valid} {calls} {most}"
        );
    }

    fn arm_numbered(seed: u64) -> Vec<f64> {
        some_arm(&mut Rng::of(&[9, seed])).to_vec()
    }

    fn held(number: u8) -> Numbered {
        let arm = bits(&arm_numbered(number as u64));
        Numbered {
            number,
            arm: arm.try_into().unwrap(),
        }
    }

    const EMPTY: [u8; BLOCK_BYTES] = [0; BLOCK_BYTES];

    /// A buffer of blocks: a number for an arm, 0 for an empty one.
    fn buffer_of(numbers: &[u8]) -> Vec<u8> {
        numbers
            .iter()
            .flat_map(|&number| match number {
                0 => EMPTY,
                _ => block_of(&held(number)),
            })
            .collect()
    }

    /// The block with one word changed, and the check that it then asks for.
    fn with_word(mut block: [u8; BLOCK_BYTES], at: usize, word: u64) -> [u8; BLOCK_BYTES] {
        block[8 * at..][..8].copy_from_slice(&word.to_le_bytes());
        block::checked(block)
    }

    /// Every operation gives this refusal, and changes no byte.
    fn refused_by_all(buffer: &[u8], refusal: u32) {
        let arm = arm_numbered(0);
        for number in [0, 1, 7, 255] {
            let mut after = buffer.to_vec();
            assert_eq!(put(&mut after, number, &arm), refusal);
            assert_eq!(put(&mut after, number, &arm[1..]), refusal);
            assert_eq!(put(&mut after, number, &[f64::NAN; ARM]), refusal);
            assert_eq!(find(&after, number), (refusal, [0; ARM]));
            assert_eq!(take_out(&mut after, number), refusal);
            assert_eq!(compact(&mut after), refusal);
            assert_eq!(after, buffer);
        }
    }

    #[test]
    fn a_short_last_block_is_1() {
        for length in 0..1600 {
            let refusal = if length % 512 == 0 { Ok(()) } else { Err(1) };
            assert_eq!(judge(&vec![0; length]).map(|_| ()), refusal);
        }
        let two = buffer_of(&[7, 8]);
        for length in [1, 511, 513, 1023] {
            refused_by_all(&two[..length], 1);
        }
        // What is wrong with an earlier block comes first.
        let mut bad = two.clone();
        bad[100] ^= 1;
        refused_by_all(&bad[..1000], 2);
    }

    #[test]
    fn a_check_that_is_not_the_sum_is_2() {
        let good = buffer_of(&[0, 7, 0, 8]);
        assert!(judge(&good).is_ok());
        for at in 0..good.len() {
            let mut bad = good.clone();
            bad[at] ^= 1;
            assert_eq!(judge(&bad), Err(2), "byte {at}");
        }
        let mut bad = good.clone();
        bad[8 * 63] = 1;
        refused_by_all(&bad, 2);
    }

    /// Bytes 1 to 7 of word 0 and words 40 to 62.
    #[test]
    fn a_reserved_byte_is_3() {
        for at in (1..8).chain(8 * 40..8 * 63) {
            for bit in [1, 128] {
                let mut bad = block_of(&held(7));
                bad[at] = bit;
                let bad = block::checked(bad);
                assert_eq!(judge(&bad), Err(3), "byte {at}");
                // Also where it is all that is not zero.
                let mut lone = EMPTY;
                lone[at] = bit;
                assert_eq!(judge(&block::checked(lone)), Err(3), "byte {at}");
            }
        }
        let mut bad = block_of(&held(7));
        bad[511 - 8] = 1;
        refused_by_all(&[&EMPTY[..], &block::checked(bad)].concat(), 3);
    }

    #[test]
    fn a_held_arm_that_is_not_finite_is_8() {
        let not_finite = [
            f64::NAN,
            -f64::NAN,
            f64::INFINITY,
            f64::NEG_INFINITY,
            f64::from_bits(0x7ff0_0000_0000_0001),
            f64::from_bits(u64::MAX),
        ];
        for at in 1..=ARM {
            for x in not_finite {
                let bad = with_word(block_of(&held(7)), at, x.to_bits());
                assert_eq!(judge(&bad), Err(8), "word {at}");
            }
            for x in [f64::MAX, f64::MIN, 0.0, -0.0, f64::from_bits(1)] {
                let good = with_word(block_of(&held(7)), at, x.to_bits());
                assert!(judge(&good).is_ok(), "word {at}");
            }
        }
        let bad = with_word(block_of(&held(7)), 39, f64::NAN.to_bits());
        refused_by_all(&[&block_of(&held(8))[..], &bad].concat(), 8);
    }

    #[test]
    fn a_number_0_or_one_held_before_is_13() {
        refused_by_all(&with_word(block_of(&held(7)), 0, 0), 13);
        refused_by_all(&buffer_of(&[0, 7, 8, 0, 9, 7]), 13);
        // Equal arms with unlike numbers are none.
        let twice = with_word(block_of(&held(7)), 0, 8);
        assert!(judge(&[block_of(&held(7)), twice].concat()).is_ok());
        // The numbers are told apart in every bit, and all 255 can stand in one buffer.
        let all: Vec<u8> = (1..=255).collect();
        assert_eq!(judge(&buffer_of(&all)).unwrap().len(), 255);
    }

    /// Within a block 2, 3, 8, 13; and the first block with a fault decides.
    #[test]
    fn faults_come_in_their_order() {
        let nan = f64::NAN.to_bits();
        let unnumbered = with_word(block_of(&held(7)), 0, 0);
        let and_nan = with_word(unnumbered, 5, nan);
        let and_reserved = with_word(and_nan, 50, 1);
        let mut and_check = and_reserved;
        and_check[511] ^= 1;
        let by_fault = [
            (unnumbered, 13),
            (and_nan, 8),
            (and_reserved, 3),
            (and_check, 2),
        ];
        for (first, refusal) in by_fault {
            refused_by_all(&first, refusal);
            for (second, _) in by_fault {
                refused_by_all(&[first, second].concat(), refusal);
                refused_by_all(
                    &[EMPTY, block_of(&held(1)), first, second].concat(),
                    refusal,
                );
                refused_by_all(&[&first[..], &second[..9]].concat(), refusal);
            }
        }
    }

    #[test]
    fn puts_own_refusals_come_in_their_order() {
        let (good, bad) = (arm_numbered(0), vec![f64::NAN; 39]);
        let full = buffer_of(&[7, 8]);
        let refused = |number: u8, arm: &[f64]| {
            let mut after = full.clone();
            let refusal = put(&mut after, number, arm);
            assert_eq!(after, full);
            refusal
        };
        let long = [&good[..], &good].concat();
        for length in (0..=45).filter(|&length| length != 39) {
            assert_eq!(refused(0, &long[..length]), 5);
        }
        assert_eq!(refused(0, &[f64::NAN; 38]), 5);
        assert_eq!(refused(0, &bad), 8);
        assert_eq!(refused(7, &bad), 8);
        assert_eq!(refused(0, &good), 13);
        assert_eq!(refused(7, &good), 13);
        assert_eq!(refused(8, &good), 13);
        for number in (1..=255).filter(|number| ![7, 8].contains(number)) {
            assert_eq!(refused(number, &good), 15);
        }
        // No block at all is none that is empty.
        assert_eq!(put(&mut [], 0, &good), 13);
        assert_eq!(put(&mut [], 7, &good), 15);
    }

    #[test]
    fn put_goes_into_the_first_empty_block() {
        let mut buffer = buffer_of(&[7, 0, 8, 0]);
        assert_eq!(put(&mut buffer, 9, &arm_numbered(9)), 0);
        assert_eq!(buffer, buffer_of(&[7, 9, 8, 0]));
        assert_eq!(put(&mut buffer, 255, &arm_numbered(255)), 0);
        assert_eq!(buffer, buffer_of(&[7, 9, 8, 255]));
        assert_eq!(put(&mut buffer, 1, &arm_numbered(1)), 15);
    }

    /// Its words: the number, the arm, zeros, the sum.
    #[test]
    fn the_bytes_of_a_block() {
        let mut arm = vec![0.0; 39];
        (arm[0], arm[38]) = (1.0, -0.0);
        let mut buffer = EMPTY.to_vec();
        assert_eq!(put(&mut buffer, 0xa5, &arm), 0);
        let mut want = EMPTY;
        want[0] = 0xa5;
        want[8..16].copy_from_slice(&0x3ff0_0000_0000_0000_u64.to_le_bytes());
        want[8 * 39 + 7] = 0x80;
        let sum = 0xa5 + 0x3ff0_0000_0000_0000_u64 + 0x8000_0000_0000_0000;
        want[8 * 63..].copy_from_slice(&sum.to_le_bytes());
        assert_eq!(buffer, want);
    }

    /// Every finite number comes back by its bits.
    #[test]
    fn find_gives_the_arm_as_it_was_put() {
        for seed in 0..2000 {
            let arm = arm_numbered(seed);
            let number = 1 + (seed % 255) as u8;
            let mut buffer = vec![0; 1024];
            assert_eq!(put(&mut buffer, number, &arm), 0);
            let (refusal, found) = find(&buffer, number);
            assert_eq!((refusal, found.to_vec()), (0, bits(&arm)));
        }
    }

    #[test]
    fn a_number_that_is_not_held_is_14() {
        for buffer in [buffer_of(&[]), buffer_of(&[0]), buffer_of(&[7, 0, 8])] {
            for number in (0..=255).filter(|number| ![7, 8].contains(number)) {
                let mut after = buffer.clone();
                assert_eq!(find(&after, number), (14, [0; ARM]));
                assert_eq!(take_out(&mut after, number), 14);
                assert_eq!(after, buffer);
            }
        }
    }

    #[test]
    fn taking_out_makes_the_block_zero() {
        let mut buffer = buffer_of(&[7, 0, 8, 9]);
        assert_eq!(take_out(&mut buffer, 8), 0);
        assert_eq!(buffer, buffer_of(&[7, 0, 0, 9]));
        assert_eq!(take_out(&mut buffer, 8), 14);
        assert_eq!(take_out(&mut buffer, 7), 0);
        assert_eq!(buffer, buffer_of(&[0, 0, 0, 9]));
    }

    #[test]
    fn compact_moves_arms_to_the_front_in_their_order() {
        for (before, after) in [
            (&[][..], &[][..]),
            (&[0], &[0]),
            (&[7], &[7]),
            (&[0, 7], &[7, 0]),
            (&[0, 9, 0, 0, 3, 7, 0], &[9, 3, 7, 0, 0, 0, 0]),
        ] {
            let mut buffer = buffer_of(before);
            assert_eq!(compact(&mut buffer), 0);
            assert_eq!(buffer, buffer_of(after));
        }
    }

    /// "Compacting changes no find."
    #[test]
    fn compact_changes_no_find() {
        for place in 0..400 {
            let before = sequence(22, place).buffer;
            let mut after = before.clone();
            compact(&mut after);
            for number in 0..=255 {
                assert_eq!(find(&before, number), find(&after, number));
            }
        }
    }
}
