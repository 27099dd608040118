//! Block files (words low byte first), what makes a block accepted, and the check sum of bytes.

use g729::harness::{StateBlock, TableBlock};
use std::path::Path;

/// The word of a table block that holds the initial delay.
pub const INITIAL_DELAY: usize = 1867;
/// The words of a state block that hold the predictor and the delay.
pub const PREDICTOR: usize = 40;
pub const DELAY: usize = 61;

/// The `N` words of `bytes`, if there are just so many.
pub fn words<const N: usize>(bytes: &[u8]) -> Option<[i16; N]> {
    let (pairs, rest) = bytes.as_chunks::<2>();
    if pairs.len() != N || !rest.is_empty() {
        return None;
    }
    Some(std::array::from_fn(|k| i16::from_le_bytes(pairs[k])))
}

pub fn bytes(words: &[i16]) -> Vec<u8> {
    words.iter().flat_map(|word| word.to_le_bytes()).collect()
}

/// The table block of a file, or the number of its refusal.
pub fn read_tables(path: &Path) -> Result<TableBlock, u8> {
    let block: TableBlock = std::fs::read(path).ok().and_then(|b| words(&b)).ok_or(1)?;
    if accepted_delay(block[INITIAL_DELAY]) {
        Ok(block)
    } else {
        Err(2)
    }
}

/// The state block of a file, or the number of its refusal.
pub fn read_state(path: &Path) -> Result<StateBlock, u8> {
    let block: StateBlock = std::fs::read(path).ok().and_then(|b| words(&b)).ok_or(3)?;
    if matches!(block[PREDICTOR], 0 | 1) && accepted_delay(block[DELAY]) {
        Ok(block)
    } else {
        Err(4)
    }
}

fn accepted_delay(delay: i16) -> bool {
    (19..=144).contains(&delay)
}

/// The check sum of IEEE 802.3.
pub fn crc32(bytes: &[u8]) -> u32 {
    let mut sum = u32::MAX;
    for byte in bytes {
        sum ^= u32::from(*byte);
        for _ in 0..8 {
            sum = sum >> 1 ^ if sum & 1 == 1 { 0xedb8_8320 } else { 0 };
        }
    }
    !sum
}
