//! Blocks on standard input, document 01's lines on standard output, by the published Rust. It
//! refuses nothing and counts no evaluations: both print as 0. Where it panics a line says so.

use std::io::{self, Read, Write};
use std::panic::catch_unwind;

const BLOCK_BYTES: usize = 512;

fn main() -> io::Result<()> {
    // A panic has its line; its message is not wanted.
    std::panic::set_hook(Box::new(|_| ()));
    let mut input = Vec::new();
    io::stdin().read_to_end(&mut input)?;
    let mut output = io::BufWriter::new(io::stdout().lock());
    for (place, block) in input.chunks_exact(BLOCK_BYTES).enumerate() {
        print_answers(place, block, &mut output)?;
    }
    output.flush()
}

/// Every NaN prints as one. The test is of bits: beside it a compiler may take any NaN for another.
fn printed(bits: u64) -> u64 {
    const INFINITY: u64 = 0x7ff0_0000_0000_0000;
    const NAN: u64 = 0x7ff8_0000_0000_0000;
    if bits & !(1 << 63) > INFINITY {
        NAN
    } else {
        bits
    }
}

fn print_answers(place: usize, block: &[u8], output: &mut impl Write) -> io::Result<()> {
    let number = |i: usize| {
        let word = block[8 * i..8 * i + 8].try_into().expect("eight bytes");
        f64::from_bits(u64::from_le_bytes(word))
    };
    let arm: [f64; 39] = std::array::from_fn(|i| number(1 + i));
    let pose: [f64; 12] = std::array::from_fn(|i| number(40 + i));
    let family = block[0] as u64;
    let Ok((angles, flags)) = catch_unwind(|| untouched::answers(family, &arm, &pose)) else {
        return writeln!(output, "block {place} panic");
    };
    writeln!(
        output,
        "block {place} refusal 0 answers {} evals 0",
        angles.len()
    )?;
    for (answer, flag) in angles.iter().zip(flags) {
        for angle in answer {
            write!(output, "{:016x} ", printed(angle.to_bits()))?;
        }
        writeln!(output, "{}", flag as u8)?;
    }
    Ok(())
}
