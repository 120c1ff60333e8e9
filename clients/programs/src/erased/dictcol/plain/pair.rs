//! The file `pair.txt`: what the other files of one run have. A dictionary whose lines were changed is still one of its numbers.

use crate::rt::prelude::*; use crate::dictcol::fault::Fault;
use crate::rt::alloc::Global;

/// The checksum of no numbers.
const START: u64 = 14_695_981_039_346_656_037;

/// What it is multiplied by for each number.
const FACTOR: u64 = 1_099_511_628_211;

/// Adds a number to a checksum, as the hash function FNV-1a does with a byte.
fn add(checksum: u64, number: u32) -> u64 {
    (checksum ^ u64::from(number)).wrapping_mul(FACTOR)
}

/// Returns what stands before the checksum.
pub fn format_counts(alloc: Global, lines: usize, numbers: usize) -> Result<String, Fault> {
    crate::rt::format!(in alloc; "lines {lines}\nnumbers {numbers}\nchecksum ").map_err(|_| Fault::Memory)
}

/// Returns the lines about the dictionary and the numbers.
fn format(alloc: Global, lines: usize, numbers: usize, checksum: u64) -> Result<String, Fault> {
    crate::rt::format!(in alloc; "lines {lines}\nnumbers {numbers}\nchecksum {checksum}\n").map_err(
        |_| Fault::Memory,
    )
}

/// Returns the line behind these. Earlier versions did not write it.
pub fn end_line(is_cut: bool) -> &'static str {
    if is_cut {
        "no_final_newline 1\n"
    } else {
        "no_final_newline 0\n"
    }
}

/// Returns the checksum of the numbers that these bytes are, four each.
fn checksum_of(bytes: &[u8]) -> u64 {
    let mut checksum = START;
    for number in bytes.chunks_exact(4) {
        if let Some(number) = number.first_chunk::<4>() {
            checksum = add(checksum, u32::from_le_bytes(*number));
        }
    }
    checksum
}

/// Returns the text of the file for a dictionary of so many lines, the numbers that some bytes are, four each, and those behind
/// them, and a text whose last line has no newline or has one.
pub fn format_numbers(
    alloc: Global,
    lines: usize,
    earlier: &[u8],
    numbers: &[u32],
    is_cut: bool,
) -> Result<String, Fault> {
    let mut checksum = checksum_of(earlier);
    for number in numbers {
        checksum = add(checksum, *number);
    }
    let count = (earlier.len() / 4).saturating_add(numbers.len());
    let mut text = format(alloc, lines, count, checksum)?;
    text.push_str(end_line(is_cut)).map_err(|_| Fault::Memory)?;
    Ok(text)
}

/// Returns the lines about a dictionary of so many lines and the numbers that these bytes are, four each.
pub fn format_bytes(alloc: Global, lines: usize, bytes: &[u8]) -> Result<String, Fault> {
    format(alloc, lines, bytes.len() / 4, checksum_of(bytes))
}
