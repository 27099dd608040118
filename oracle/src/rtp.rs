//! The frames of RTP payloads by the Rust's `split_rtp`, and the list that replay_rtp replays. Its lines are a letter and words of four hexadecimal
//! digits: B the bytes that the payloads behind it are taken from, P a payload and its answers (README.md).

use crate::blocks;
use crate::rng::Rng;
use g729::bitstream::split_rtp;
use std::io::{self, Write};

pub const VOICE: u32 = 0;
pub const SID: u32 = 1;
/// The refusals of a length, and of an index that isn't below the number of frames.
pub const LENGTH: u32 = 12;
pub const INDEX: u32 = 13;
/// Every length up to this one is tried.
pub const LONGEST: usize = 2000;
/// The bytes of a B line, and how many payloads are taken of them.
const BYTES: usize = 4096;
const TAKEN: usize = 600;
/// Random payloads in the list.
const RANDOM: usize = 200;

/// A frame, and where it lies in its payload.
#[derive(Clone, Copy)]
pub struct Part<'a> {
    pub kind: u32,
    pub start: usize,
    pub bytes: &'a [u8],
}

/// The frames of a payload in their order. None where the Rust refuses its length.
pub fn frames(payload: &[u8]) -> Option<Vec<Part<'_>>> {
    let (voice, sid) = split_rtp(payload).ok()?;
    let part = |kind, bytes| Part {
        kind,
        start: place(payload, bytes),
        bytes,
    };
    let voice = voice.iter().map(|frame| part(VOICE, frame.as_slice()));
    let sid = sid.map(|frame| part(SID, frame.as_slice()));
    Some(voice.chain(sid).collect())
}

/// Where a part lies, by the addresses.
fn place(payload: &[u8], part: &[u8]) -> usize {
    part.as_ptr().addr() - payload.as_ptr().addr()
}

pub fn any_bytes(rng: &mut Rng, count: usize) -> Vec<u8> {
    (0..count).map(|_| rng.below(256) as u8).collect()
}

/// A length: mostly of few frames, or short, else up to `most`.
pub fn any_length(rng: &mut Rng, most: usize) -> usize {
    match rng.below(4) {
        0 => rng.below(64),
        1 => rng.below(most + 1),
        _ => 10 * rng.below(21) + rng.pick(&[0, 2]),
    }
}

/// Writes every length up to `LONGEST` once, and random ones, each at a random place.
pub fn list(out: &mut impl Write, seed: u64) -> io::Result<()> {
    let mut rng = Rng::new(seed);
    let mut lengths: Vec<usize> = (0..=LONGEST).collect();
    lengths.extend((0..RANDOM).map(|_| any_length(&mut rng, BYTES)));
    for taken in lengths.chunks(TAKEN) {
        group(out, &mut rng, taken)?;
    }
    Ok(())
}

/// A B line, and payloads of these lengths.
fn group(out: &mut impl Write, rng: &mut Rng, lengths: &[usize]) -> io::Result<()> {
    let bytes = any_bytes(rng, BYTES);
    let (pairs, _) = bytes.as_chunks::<2>();
    let words: Vec<u16> = pairs.iter().map(|pair| u16::from_le_bytes(*pair)).collect();
    line(out, 'B', &words)?;
    for length in lengths {
        let from = rng.below(BYTES - length + 1);
        let answers = answers(&bytes[from..from + length]);
        let words = [&[from as u16, *length as u16], &answers[..]].concat();
        line(out, 'P', &words)?;
    }
    Ok(())
}

fn line(out: &mut impl Write, letter: char, words: &[u16]) -> io::Result<()> {
    let digits: Vec<String> = words.iter().map(|word| format!("{word:04x}")).collect();
    writeln!(out, "{letter}{}", digits.concat())
}

/// The words behind place and length of a payload: its code, the number of frames, the last frame, the check sum of all, the code of an index that is
/// too high, and 0, what a refusal has beside its code.
fn answers(payload: &[u8]) -> [u16; 9] {
    let (code, too_high, parts) = match frames(payload) {
        Some(parts) => (0, INDEX, parts),
        None => (LENGTH, LENGTH, Vec::new()),
    };
    let last = parts.last();
    let last = last.map_or([0; 3], |p| [p.kind as usize, p.start, p.bytes.len()]);
    let sum = blocks::crc32(&record(&parts));
    [
        code as u16,
        parts.len() as u16,
        last[0] as u16,
        last[1] as u16,
        last[2] as u16,
        (sum >> 16) as u16,
        sum as u16,
        too_high as u16,
        0,
    ]
}

/// Kind, place and length of each frame, four bytes each, low byte first, and its bytes.
fn record(parts: &[Part]) -> Vec<u8> {
    let frame = |part: &Part| {
        let numbers = [part.kind, part.start as u32, part.bytes.len() as u32];
        let head = numbers.map(u32::to_le_bytes).concat();
        [&head, part.bytes].concat()
    };
    parts.iter().flat_map(frame).collect()
}
