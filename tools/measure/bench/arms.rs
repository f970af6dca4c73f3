//! The library's calls on a file of arms beside the same in plain Rust (arms_plain.rs): a valid buffer, and
//! one call on it that is not refused.
//!
//! `arms SIDE CALL BLOCKS` makes the call ROUNDS times, each on the same buffer, for callgrind; SIDE is port or
//! plain. Prints the arms that the buffer holds, and a hash of what all the rounds gave: it is the same for
//! both sides. Numbers have eight bits, so a buffer holds at most 255 arms: of more blocks most are empty.

mod arms_plain;

use arms_plain::ARM;

const BLOCK: usize = 512;
const ROUNDS: usize = 10;

/// The arms that fit, with one number and one block left over for a put.
const MOST_HELD: usize = 254;

extern "C" {
    fn saihkeb_arms_put_lent(
        buffer: *mut u8,
        buffer_len: usize,
        number: u8,
        arm: *const f64,
        arm_len: usize,
    ) -> u64;
    fn saihkeb_arms_find_lent(
        buffer: *const u8,
        buffer_len: usize,
        number: u8,
        arm: *mut f64,
    ) -> u64;
    fn saihkeb_arms_take_out_lent(buffer: *mut u8, buffer_len: usize, number: u8) -> u64;
    fn saihkeb_arms_compact_lent(buffer: *mut u8, buffer_len: usize) -> u64;
}

#[derive(Clone, Copy)]
enum Call {
    Put,
    Find,
    TakeOut,
    Compact,
}

const CALLS: [(&str, Call); 4] = [
    ("put", Call::Put),
    ("find", Call::Find),
    ("take_out", Call::TakeOut),
    ("compact", Call::Compact),
];

/// A call's arguments and what it gives.
struct Round {
    buffer: Vec<u8>,
    number: u8,
    arm: [f64; ARM],
    refusal: u64,
}

fn port(call: Call, round: &mut Round) -> u64 {
    let (buffer, length) = (round.buffer.as_mut_ptr(), round.buffer.len());
    let (number, arm) = (round.number, round.arm.as_mut_ptr());
    // The buffer and the arm live through the call, and have the lengths that it is handed.
    unsafe {
        match call {
            Call::Put => saihkeb_arms_put_lent(buffer, length, number, arm, ARM),
            Call::Find => saihkeb_arms_find_lent(buffer, length, number, arm),
            Call::TakeOut => saihkeb_arms_take_out_lent(buffer, length, number),
            Call::Compact => saihkeb_arms_compact_lent(buffer, length),
        }
    }
}

fn plain(call: Call, round: &mut Round) -> u64 {
    let (buffer, number) = (&mut round.buffer, round.number);
    match call {
        Call::Put => arms_plain::put(buffer, number, &round.arm),
        Call::Find => arms_plain::find(buffer, number, &mut round.arm),
        Call::TakeOut => arms_plain::take_out(buffer, number),
        Call::Compact => arms_plain::compact(buffer),
    }
}

type Side = fn(Call, &mut Round) -> u64;

const SIDES: [(&str, Side); 2] = [("port", port), ("plain", plain)];

/// Kept out of line, so that a profiler can count from its start to its end.
#[inline(never)]
fn bench_run(side: Side, call: Call, round: &mut Round) {
    round.refusal = side(call, round);
}

fn some_arm(number: usize) -> [f64; ARM] {
    std::array::from_fn(|i| 0.25 * number as f64 - 0.001 * i as f64)
}

/// Spread evenly over all blocks but the last, so that the arms are moved by a compact wherever there are
/// empty blocks between them. Gives the numbers held, which are those from 1 on.
fn filled(blocks: usize) -> (Vec<u8>, usize) {
    let held = MOST_HELD.min(blocks - 1);
    let mut buffer = vec![0; BLOCK * blocks];
    for number in 1..=held {
        let place = (number * (blocks - 1)).div_ceil(held) - 1;
        let mut block = vec![0; BLOCK];
        assert_eq!(arms_plain::put(&mut block, number as u8, &some_arm(number)), 0);
        buffer[BLOCK * place..][..BLOCK].copy_from_slice(&block);
    }
    (buffer, held)
}

fn fold(hash: u64, bytes: &[u8]) -> u64 {
    let step = |hash: u64, &byte: &u8| (hash ^ byte as u64).wrapping_mul(0x0000_0100_0000_01b3);
    bytes.iter().fold(hash, step)
}

fn main() {
    let words: Vec<String> = std::env::args().skip(1).collect();
    let [side, call, blocks] = &words[..] else {
        panic!("arms SIDE CALL BLOCKS");
    };
    let (_, side) = SIDES.iter().find(|(name, _)| name == side).expect("no such side");
    let (_, call) = CALLS.iter().find(|(name, _)| name == call).expect("no such call");
    let (buffer, held) = filled(blocks.parse().expect("a number of blocks"));
    // Puts a number that is not held; finds and takes out the last that is.
    let number = match call {
        Call::Put => held + 1,
        _ => held,
    };
    let mut hash = 0xcbf2_9ce4_8422_2325;
    for _ in 0..ROUNDS {
        let mut round = Round {
            buffer: buffer.clone(),
            number: number as u8,
            arm: some_arm(held + 1),
            refusal: u64::MAX,
        };
        bench_run(*side, *call, &mut round);
        assert_eq!(round.refusal, 0);
        let arm = round.arm.map(f64::to_le_bytes).concat();
        hash = fold(fold(hash, &round.buffer), &arm);
    }
    println!("{held} {hash:016x}");
}
