//! The proved reading of RTP payloads beside the Rust's `split_rtp`: the number of frames, every frame by its index, and indexes that are too high.
//! Then the time of a payload.

use crate::ffi;
use crate::measure::seconds;
use crate::rng::Rng;
use crate::rtp::{self, INDEX, LENGTH, LONGEST};
use g729::bitstream::split_rtp;
use std::hint::black_box;

/// Random payloads have up to so many bytes.
const MOST: usize = 4096;
/// The payloads that are timed, and how many times.
const PAYLOADS: usize = 10_000;
const ROUNDS: usize = 101;
/// Indexes that no payload has; the place of a frame, ten times its index, leaves 64 bits from the fourth on.
const TOO_HIGH: [usize; 9] = [
    1 << 32,
    usize::MAX / 10 - 1,
    usize::MAX / 10,
    usize::MAX / 10 + 1,
    1 << 63,
    (1 << 63) + 1,
    usize::MAX / 5 + 1,
    usize::MAX - 1,
    usize::MAX,
];

/// Code and number of frames.
fn count(payload: &[u8]) -> (u32, usize) {
    let found = ffi::payload_frames(payload);
    (found.code, found.frames)
}

/// Code, kind, place and length of a frame.
fn frame(payload: &[u8], index: usize) -> (u32, u32, usize, usize) {
    let found = ffi::payload_frame(payload, index);
    (found.code, found.kind, found.start, found.length)
}

/// How many of each were compared.
#[derive(Default)]
struct Compared {
    payloads: usize,
    refused: usize,
    frames: usize,
    bytes: usize,
    indexes: usize,
}

/// Compares every length up to `LONGEST` and `count` random payloads, prints what was compared and the times. Returns 1 with the first difference.
pub fn run(seed: u64, count: usize) -> usize {
    let mut rng = Rng::new(seed);
    let mut compared = Compared::default();
    let mut lengths: Vec<usize> = (0..=LONGEST).collect();
    lengths.extend((0..count).map(|_| rtp::any_length(&mut rng, MOST)));
    for length in lengths {
        let bytes = rtp::any_bytes(&mut rng, length);
        if let Err(difference) = compared.payload(&bytes) {
            println!("failed: a payload of {length} bytes: {difference}");
            return 1;
        }
    }
    compared.print();
    println!();
    time(&mut rng);
    println!("\nno difference");
    0
}

fn same<T: PartialEq + std::fmt::Debug>(what: &str, found: T, wanted: T) -> Result<(), String> {
    match found == wanted {
        true => Ok(()),
        false => Err(format!("{what}: {found:?} instead of {wanted:?}")),
    }
}

impl Compared {
    fn payload(&mut self, payload: &[u8]) -> Result<(), String> {
        self.payloads += 1;
        let Some(parts) = rtp::frames(payload) else {
            self.refused += 1;
            same("count", count(payload), (LENGTH, 0))?;
            return self.too_high(payload, LENGTH, &[0, 1, payload.len() / 10]);
        };
        same("count", count(payload), (0, parts.len()))?;
        let mut joined = Vec::new();
        for (index, part) in parts.iter().enumerate() {
            let (code, kind, start, length) = frame(payload, index);
            let wanted = (0, part.kind, part.start, part.bytes.len());
            same("frame", (code, kind, start, length), wanted)?;
            same("bytes", &payload[start..start + length], part.bytes)?;
            joined.extend(&payload[start..start + length]);
        }
        same("joined", &joined[..], payload)?;
        self.frames += parts.len();
        self.bytes += joined.len();
        let n = parts.len();
        self.too_high(payload, INDEX, &[n, n + 1, 2 * n + 1])
    }

    /// Indexes that are refused with this code.
    fn too_high(&mut self, payload: &[u8], code: u32, near: &[usize]) -> Result<(), String> {
        for index in near.iter().chain(&TOO_HIGH) {
            let found = frame(payload, *index);
            same(&format!("index {index}"), found, (code, 0, 0, 0))?;
            self.indexes += 1;
        }
        Ok(())
    }

    fn print(&self) {
        let Compared {
            payloads,
            refused,
            frames,
            bytes,
            indexes,
        } = self;
        println!(
            "payloads, code and number of frames: {payloads} compared, {refused} of them refused"
        );
        println!("frames, kind, place and length: {frames} compared");
        println!("bytes of frames, which joined are the payload: {bytes} compared");
        println!("indexes that are refused: {indexes} compared");
    }
}

/// Goes over all frames of a payload by their indexes.
fn by_index(payload: &[u8]) {
    let (_, frames) = count(payload);
    for index in 0..frames {
        let (_, kind, start, length) = frame(payload, index);
        black_box((kind, &payload[start..start + length]));
    }
}

/// The same over what the Rust gives.
fn by_split(payload: &[u8]) {
    let Ok((voice, sid)) = split_rtp(payload) else {
        return;
    };
    for frame in voice {
        black_box((rtp::VOICE, frame.as_slice()));
    }
    if let Some(frame) = sid {
        black_box((rtp::SID, frame.as_slice()));
    }
}

/// Prints the median time of a payload, in processor time.
fn time(rng: &mut Rng) {
    println!(
        "nanoseconds a payload, all of its frames, median of {ROUNDS} rounds of {PAYLOADS} payloads, in turn"
    );
    for frames in [2, 20] {
        let any = |_| rtp::any_bytes(rng, 10 * frames);
        let payloads: Vec<Vec<u8>> = (0..PAYLOADS).map(any).collect();
        let [proved, rust] = times(&payloads);
        println!("{frames} frames: proved {proved:.1}, Rust {rust:.1}");
    }
}

/// The times of the proved library and of the Rust, which take turns.
fn times(payloads: &[Vec<u8>]) -> [f64; 2] {
    let mut times: [Vec<f64>; 2] = Default::default();
    for _ in 0..ROUNDS {
        times[0].push(turn(payloads, by_index));
        times[1].push(turn(payloads, by_split));
    }
    times.map(median)
}

fn median(mut times: Vec<f64>) -> f64 {
    times.sort_by(f64::total_cmp);
    times[times.len() / 2]
}

/// The nanoseconds of a payload.
fn turn(payloads: &[Vec<u8>], go: impl Fn(&[u8])) -> f64 {
    let begin = seconds();
    for payload in payloads {
        go(black_box(payload));
    }
    (seconds() - begin) * 1e9 / payloads.len() as f64
}
