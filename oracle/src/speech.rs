//! Calls that are made like speech: a delay that glides, a spectrum that stays for a few frames, and gains that keep the
//! samples near a wanted level. Of a few drawn payloads a frame takes the one whose samples, decoded by the Rust, come
//! nearest to that level.

use crate::rng::Rng;
use crate::text::FrameLine;
use g729::adaptive::parity_ok;
use g729::{Decoder, FRAME_SAMPLES, Tables, stages};

pub const SPEECH_KINDS: [&str; 6] = ["quiet", "ordinary", "high", "deep", "concealed", "losses"];

/// The payloads of which one is taken.
const DRAWN: usize = 12;

/// The widths of the fifteen fields.
const WIDTHS: [u32; 15] = [1, 7, 5, 5, 8, 1, 13, 4, 3, 4, 5, 13, 4, 3, 4];

/// What stays from frame to frame: a syllable's level (root mean square of the samples), first codebook row and delay.
struct Syllable {
    left: i32,
    level: f64,
    spectrum: u16,
    delay: i32,
}

/// A call of `frames` frames; `None` if there is no such kind.
pub fn call(rng: &mut Rng, tables: &Tables, kind: &str, frames: usize) -> Option<Vec<FrameLine>> {
    if !SPEECH_KINDS.contains(&kind) {
        return None;
    }
    let mut decoder = Decoder::new(tables);
    let mut lost = 0;
    let mut syllable = next_syllable(rng, kind, 120);
    let next = |n: usize| {
        syllable.left -= 1;
        if syllable.left < 0 {
            syllable = next_syllable(rng, kind, syllable.delay);
        }
        syllable.delay = within(kind, syllable.delay + rng.range(-4, 4));
        lost = match kind {
            "concealed" => (n % 10) as i32,
            "losses" if lost == 0 && rng.chance(6) => rng.range(1, 3),
            _ => (lost - 1).max(0),
        };
        let (line, after) = if lost > 0 {
            concealed(rng, &decoder)
        } else {
            nearest(rng, &decoder, &syllable)
        };
        decoder = after;
        line
    };
    Some((0..frames).map(next).collect())
}

/// The number of a delay, 30 samples to 83 of them, or in a deep voice 88 to 138.
fn within(kind: &str, delay: i32) -> i32 {
    match kind {
        "deep" => delay.clamp(200, 250),
        _ => delay.clamp(30, 190),
    }
}

/// A syllable, or the pause behind one.
fn next_syllable(rng: &mut Rng, kind: &str, delay: i32) -> Syllable {
    let pause = rng.chance(35);
    let (low, high) = match kind {
        _ if pause || kind == "quiet" => (20, 60),
        "high" | "deep" => (5000, 12000),
        _ => (500, 4000),
    };
    Syllable {
        left: rng.range(8, 30),
        level: f64::from(rng.range(low, high)),
        spectrum: rng.below(128) as u16,
        delay: within(kind, delay + rng.range(-20, 20)),
    }
}

/// A frame of one of the kinds 1 to 3, and the decoder behind it.
fn concealed<'t>(rng: &mut Rng, decoder: &Decoder<'t>) -> (FrameLine, Decoder<'t>) {
    let mut line = FrameLine {
        kind: rng.range(1, 3) as usize,
        payload: [0; 10],
    };
    if line.kind == 1 {
        line.payload[..2].copy_from_slice(&rng.word().to_be_bytes());
    }
    let mut after = decoder.clone();
    after.decode(line.frame(), &mut [0; FRAME_SAMPLES]);
    (line, after)
}

/// The drawn voice frame whose samples come nearest to the syllable's level, and the decoder behind it.
fn nearest<'t>(
    rng: &mut Rng,
    decoder: &Decoder<'t>,
    syllable: &Syllable,
) -> (FrameLine, Decoder<'t>) {
    let mut best: Option<(f64, FrameLine, Decoder<'t>)> = None;
    for _ in 0..DRAWN {
        let line = FrameLine {
            kind: 0,
            payload: draw(rng, syllable),
        };
        let mut after = decoder.clone();
        let mut samples = [0; FRAME_SAMPLES];
        after.decode(line.frame(), &mut samples);
        let sum: f64 = samples.iter().map(|s| f64::from(*s) * f64::from(*s)).sum();
        let level = (sum / FRAME_SAMPLES as f64).sqrt();
        let ratio = (level + 1.0) / (syllable.level + 1.0);
        let distance = ratio.max(1.0 / ratio);
        if best.as_ref().is_none_or(|(least, ..)| distance < *least) {
            best = Some((distance, line, after));
        }
    }
    let (_, line, after) = best.expect("at least one is drawn");
    (line, after)
}

/// Ten bytes with the syllable's spectrum and delay and good parity; pulses and gains are free.
fn draw(rng: &mut Rng, syllable: &Syllable) -> [u8; 10] {
    let mut bits = 0u128;
    for (field, width) in WIDTHS.into_iter().enumerate() {
        let value = match field {
            1 => u128::from(syllable.spectrum),
            4 => syllable.delay as u128,
            5 => u128::from(!parity_ok(syllable.delay as u16, 0)),
            10 => rng.range(11, 19) as u128,
            _ => u128::from(rng.next()) & ((1 << width) - 1),
        };
        bits = bits << width | value;
    }
    *bits.to_be_bytes().last_chunk().expect("16 bytes hold ten")
}

/// How many frames of a call saturate in the first synthesis of a subframe, and the level of all samples.
pub fn saturated(tables: &Tables, call: &[FrameLine]) -> (usize, f64) {
    let mut decoder = Decoder::new(tables);
    let (mut frames, mut sum) = (0, 0.0);
    for line in call {
        let staged = stages::run(&mut decoder, line.frame());
        frames += usize::from(staged.subframes.iter().any(|s| s.saturated));
        let samples = staged.samples();
        sum += samples
            .iter()
            .map(|s| f64::from(*s) * f64::from(*s))
            .sum::<f64>();
    }
    let count = (call.len() * FRAME_SAMPLES).max(1) as f64;
    (frames, (sum / count).sqrt())
}
