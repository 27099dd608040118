//! Generators of accepted table blocks, accepted state blocks and calls, each of several kinds.

use crate::blocks::{DELAY, INITIAL_DELAY, PREDICTOR};
use crate::real;
use crate::rng::Rng;
use crate::text::FrameLine;
use g729::adaptive::parity_ok;
use g729::bitstream::SpeechParams;
use g729::harness::{STATE_WORDS, StateBlock, TABLE_WORDS, TableBlock};

pub const TABLE_KINDS: [&str; 8] = [
    "real",
    "uniform",
    "small",
    "magnitude",
    "extreme",
    "sparse",
    "mixture",
    "patched",
];
/// Beside these there is the fresh state, which follows from the tables alone.
pub const STATE_KINDS: [&str; 6] = ["free", "small", "magnitude", "extreme", "sparse", "mixture"];
pub const CALL_KINDS: [&str; 6] = ["voice", "mixed", "bursts", "equal", "steady", "lost"];

/// First words of the parts of a table block, and its end.
const TABLE_PARTS: [usize; 14] = [
    0,
    1280,
    1600,
    1680,
    1700,
    1720,
    1751,
    1767,
    1799,
    1807,
    1823,
    1856,
    1866,
    TABLE_WORDS,
];
/// The same of a state block.
const STATE_PARTS: [usize; 12] = [0, 40, 41, 51, 61, 62, 63, 67, 69, 70, 224, STATE_WORDS];

/// The ways to fill words at random.
const FILLS: [&str; 5] = ["uniform", "small", "magnitude", "extreme", "sparse"];
const EXTREMES: [i16; 8] = [-32768, -32767, -16384, -1, 0, 1, 16384, 32767];

/// First bit and width of P1, S1, P2 and S2, with values next to where something changes: delays
/// 19, 39, 40, 85 and 143, the ends of P2, pulses of one sign.
const CORNERS: [(usize, usize, &[u128]); 4] = [
    (
        18,
        8,
        &[0, 1, 2, 58, 59, 60, 61, 62, 195, 196, 197, 254, 255],
    ),
    (40, 4, &[0, 15]),
    (51, 5, &[0, 1, 2, 29, 30, 31]),
    (69, 4, &[0, 15]),
];

/// Fills `words` in one of the ways of `FILLS`.
fn fill(rng: &mut Rng, way: &str, words: &mut [i16]) {
    let small = rng.range(3, 12) as u32;
    for word in words {
        *word = match way {
            "uniform" => rng.word(),
            "small" => rng.word() >> (16 - small),
            "magnitude" => rng.magnitude(16) as i16,
            "extreme" => rng.pick(&EXTREMES),
            _ if rng.chance(75) => 0,
            _ => rng.word(),
        };
    }
}

/// Fills some parts of `block`, each in a way of its own, and leaves the others as they are.
fn mix(rng: &mut Rng, parts: &[usize], block: &mut [i16]) {
    let percent = rng.pick(&[10, 30, 60]);
    for part in parts.windows(2) {
        if rng.chance(percent) {
            let way = rng.pick(&FILLS);
            fill(rng, way, &mut block[part[0]..part[1]]);
        }
    }
}

/// A delay from 19 to 144, often one where something changes.
fn delay(rng: &mut Rng) -> i16 {
    if rng.chance(25) {
        rng.pick(&[19, 20, 39, 40, 143, 144])
    } else {
        rng.range(19, 144) as i16
    }
}

/// An accepted table block; `None` if there is no such kind.
pub fn tables(rng: &mut Rng, kind: &str) -> Option<TableBlock> {
    let mut block = real::tables(rng);
    match kind {
        "real" => {}
        "mixture" => mix(rng, &TABLE_PARTS, &mut block),
        "patched" => {
            for _ in 0..rng.range(1, 40) {
                let at = rng.below(TABLE_WORDS);
                let way = rng.pick(&FILLS);
                fill(rng, way, &mut block[at..at + 1]);
            }
            let scalar = rng.range(1866, 1879) as usize;
            fill(rng, "magnitude", &mut block[scalar..scalar + 1]);
        }
        way if FILLS.contains(&way) => fill(rng, way, &mut block),
        _ => return None,
    }
    block[INITIAL_DELAY] = delay(rng);
    Some(block)
}

/// An accepted state block; `None` if there is no such kind.
pub fn state(rng: &mut Rng, kind: &str) -> Option<StateBlock> {
    let mut block = [0; STATE_WORDS];
    match kind {
        "free" => fill(rng, "uniform", &mut block),
        "mixture" => mix(rng, &STATE_PARTS, &mut block),
        way if STATE_KINDS.contains(&way) => fill(rng, way, &mut block),
        _ => return None,
    }
    block[PREDICTOR] = rng.range(0, 1) as i16;
    block[DELAY] = delay(rng);
    Some(block)
}

/// A call of `frames` frames; `None` if there is no such kind. `parity` is how many percent of the
/// voice frames pass the parity check; without it the bits stay as they are drawn.
pub fn call(
    rng: &mut Rng,
    kind: &str,
    frames: usize,
    parity: Option<usize>,
) -> Option<Vec<FrameLine>> {
    if !CALL_KINDS.contains(&kind) {
        return None;
    }
    let mut payload = random_payload(rng);
    let mut burst = false;
    let next = |_| {
        burst ^= rng.chance(20);
        payload = match kind {
            "equal" => [rng.word() as u8; 10],
            "steady" => flip(rng, payload),
            _ => random_payload(rng),
        };
        if let Some(percent) = parity {
            let good = rng.chance(percent);
            set_parity(&mut payload, good);
        }
        let lost = match kind {
            "mixed" => rng.chance(40),
            "bursts" => burst,
            "lost" => true,
            _ => false,
        };
        line(if lost { rng.range(1, 3) as usize } else { 0 }, payload)
    };
    Some((0..frames).map(next).collect())
}

/// A line of the kind, with as much of `payload` as the kind takes.
fn line(kind: usize, mut payload: [u8; 10]) -> FrameLine {
    payload[[10, 2, 0, 0][kind]..].fill(0);
    FrameLine { kind, payload }
}

/// Uniform bits, with the fields of `CORNERS` often at one of their values.
fn random_payload(rng: &mut Rng) -> [u8; 10] {
    let mut bits = u128::from(rng.next()) << 64 | u128::from(rng.next());
    for (at, width, values) in CORNERS {
        if rng.chance(25) {
            let low = 80 - at - width;
            bits &= !(((1 << width) - 1) << low);
            bits |= rng.pick(values) << low;
        }
    }
    *bits.to_be_bytes().last_chunk().expect("16 bytes hold ten")
}

/// Up to three bits of `payload` flipped.
fn flip(rng: &mut Rng, mut payload: [u8; 10]) -> [u8; 10] {
    for _ in 0..rng.range(0, 3) {
        payload[rng.below(10)] ^= 1 << rng.below(8);
    }
    payload
}

/// Makes the parity check pass, or fail.
fn set_parity(payload: &mut [u8; 10], good: bool) {
    let fields = SpeechParams::unpack(payload);
    if parity_ok(fields.p1, fields.p0) != good {
        payload[3] ^= 0x20;
    }
}
