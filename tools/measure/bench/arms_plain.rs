//! A file of arms in plain Rust, as one would write it without proofs: what the port's calls are measured
//! beside. Document 02's request 7 says what they do; refusals are its numbers.

const BLOCK: usize = 512;
const WORDS: usize = 64;
const CHECK: usize = 63;
pub const ARM: usize = 39;

fn words(block: &[u8; BLOCK]) -> [u64; WORDS] {
    std::array::from_fn(|i| u64::from_le_bytes(block[8 * i..8 * i + 8].try_into().unwrap()))
}

fn sum(words: &[u64]) -> u64 {
    words.iter().fold(0, |sum, word| sum.wrapping_add(*word))
}

/// The number of a block's arm, or none for an empty block.
fn judge_block(block: &[u8]) -> Result<Option<u8>, u64> {
    let block: &[u8; BLOCK] = block.try_into().map_err(|_| 1u64)?;
    let words = words(block);
    if words[CHECK] != sum(&words[..CHECK]) {
        return Err(2);
    }
    if words.iter().all(|&word| word == 0) {
        return Ok(None);
    }
    if words[0] > 255 || words[1 + ARM..CHECK].iter().any(|&word| word != 0) {
        return Err(3);
    }
    if words[1..=ARM].iter().any(|&word| !f64::from_bits(word).is_finite()) {
        return Err(8);
    }
    Ok(Some(words[0] as u8))
}

/// Where the arms of a buffer are: the block of each number, and the first empty block.
struct Index {
    places: [Option<usize>; 256],
    first_empty: Option<usize>,
}

fn judge(buffer: &[u8]) -> Result<Index, u64> {
    let mut index = Index {
        places: [None; 256],
        first_empty: None,
    };
    for (place, block) in buffer.chunks(BLOCK).enumerate() {
        match judge_block(block)? {
            None => {
                index.first_empty.get_or_insert(place);
            }
            Some(number) => {
                let entry = &mut index.places[number as usize];
                if number == 0 || entry.is_some() {
                    return Err(13);
                }
                *entry = Some(place);
            }
        }
    }
    Ok(index)
}

fn block_at(buffer: &mut [u8], place: usize) -> &mut [u8] {
    &mut buffer[BLOCK * place..][..BLOCK]
}

fn try_put(buffer: &mut [u8], number: u8, arm: &[f64]) -> Result<(), u64> {
    let index = judge(buffer)?;
    let arm: &[f64; ARM] = arm.try_into().map_err(|_| 5u64)?;
    if arm.iter().any(|x| !x.is_finite()) {
        return Err(8);
    }
    if number == 0 || index.places[number as usize].is_some() {
        return Err(13);
    }
    let place = index.first_empty.ok_or(15u64)?;
    let mut words = [0; WORDS];
    words[0] = number as u64;
    for (word, x) in words[1..].iter_mut().zip(arm) {
        *word = x.to_bits();
    }
    words[CHECK] = sum(&words[..CHECK]);
    for (bytes, word) in block_at(buffer, place).chunks_exact_mut(8).zip(words) {
        bytes.copy_from_slice(&word.to_le_bytes());
    }
    Ok(())
}

fn try_find(buffer: &[u8], number: u8) -> Result<[f64; ARM], u64> {
    let place = judge(buffer)?.places[number as usize].ok_or(14u64)?;
    let numbers = &buffer[BLOCK * place + 8..][..8 * ARM];
    Ok(std::array::from_fn(|i| {
        f64::from_le_bytes(numbers[8 * i..8 * i + 8].try_into().unwrap())
    }))
}

fn try_take_out(buffer: &mut [u8], number: u8) -> Result<(), u64> {
    let place = judge(buffer)?.places[number as usize].ok_or(14u64)?;
    block_at(buffer, place).fill(0);
    Ok(())
}

fn try_compact(buffer: &mut [u8]) -> Result<(), u64> {
    judge(buffer)?;
    let mut end = 0;
    for from in (0..buffer.len()).step_by(BLOCK) {
        if buffer[from] != 0 {
            buffer.copy_within(from..from + BLOCK, end);
            end += BLOCK;
        }
    }
    buffer[end..].fill(0);
    Ok(())
}

fn refusal(done: Result<(), u64>) -> u64 {
    done.err().unwrap_or(0)
}

pub fn put(buffer: &mut [u8], number: u8, arm: &[f64]) -> u64 {
    refusal(try_put(buffer, number, arm))
}

/// Writes zeros where it refuses.
pub fn find(buffer: &[u8], number: u8, arm: &mut [f64; ARM]) -> u64 {
    let found = try_find(buffer, number);
    *arm = found.unwrap_or([0.0; ARM]);
    refusal(found.map(|_| ()))
}

pub fn take_out(buffer: &mut [u8], number: u8) -> u64 {
    refusal(try_take_out(buffer, number))
}

pub fn compact(buffer: &mut [u8]) -> u64 {
    refusal(try_compact(buffer))
}
