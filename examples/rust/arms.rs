//! Two arms in a file of arms, and a pose solved with one that is found there. The Rust fellow of
//! examples/c/arms.c.

use crate::{degrees_of, saihkeb, ARM, FAMILY};
use std::io;

/// Arms that there is room for: one a block of 512 bytes.
const BLOCKS: usize = 4;

/// Close to a Puma 560, in metres: family 1 too.
#[rustfmt::skip]
const PUMA: [f64; 39] = [
    0.0, 0.0, 1.0,     0.0, 1.0, 0.0,     0.0, 1.0, 0.0,         0.0, 0.0, 1.0,         0.0, 1.0, 0.0,  0.0, 0.0, 1.0,
    0.0, 0.0, 0.6718,  0.0, 0.2435, 0.0,  0.4318, -0.0934, 0.0,  -0.0203, 0.0, 0.4331,  0.0, 0.0, 0.0,  0.0, 0.0, 0.0,
    0.0, 0.0, 0.0563,
];

/// The answers of the example's pose by the arm of number 7. The file keeps an arm and its number, and not the
/// family.
pub fn degrees() -> io::Result<()> {
    let refused = |refusal| io::Error::other(format!("refusal {refusal}"));
    // Zero bytes are an empty file of arms.
    let mut file = [0; BLOCKS * saihkeb::BLOCK];
    saihkeb::arms_put(&mut file, 12, &PUMA).map_err(refused)?;
    saihkeb::arms_put(&mut file, 7, &ARM).map_err(refused)?;
    saihkeb::arms_take_out(&mut file, 12).map_err(refused)?;
    saihkeb::arms_compact(&mut file).map_err(refused)?;
    let arm = saihkeb::arms_find(&file, 7).map_err(refused)?;
    degrees_of(FAMILY, &arm, &[])
}
