//! Table blocks that look like real ones: smooth rising codebook rows, weights whose complements
//! fit, a low-pass filter, plausible gains and scalars. Every value follows from a formula and the
//! seed; no trained value is used. The formulas keep to operations that are exact or correctly
//! rounded, so that a seed gives the same block on every machine.

use crate::rng::Rng;
use g729::harness::{TABLE_WORDS, TableBlock};
use std::f64::consts::PI;

/// Appends its values word by word.
struct Block {
    words: Vec<i16>,
}

impl Block {
    /// Appends `value` times 2^`q`, rounded and limited.
    fn put(&mut self, value: f64, q: u32) {
        let scaled = (value * f64::from(1 << q) + 0.5).floor();
        self.words.push(scaled.clamp(-32768.0, 32767.0) as i16);
    }
}

pub fn tables(rng: &mut Rng) -> TableBlock {
    let mut block = Block {
        words: Vec::with_capacity(TABLE_WORDS),
    };
    codebooks(rng, &mut block);
    prediction(rng, &mut block);
    filter(rng, &mut block);
    gains(rng, &mut block);
    for i in 0..33 {
        block.put(log2(1.0 + f64::from(i) / 32.0), 15);
    }
    for i in 1..11 {
        block.put(cos(PI * f64::from(i) / 11.0) + 0.01 * rng.unit(), 15);
    }
    scalars(rng, &mut block);
    block.words.try_into().expect("1,880 words")
}

/// The first codebook: rising frequencies, Q13. The second: small smooth steps.
fn codebooks(rng: &mut Rng, block: &mut Block) {
    for _ in 0..128 {
        let warp = [0.45 * rng.unit(), 0.3 * rng.unit(), 0.2 * rng.unit()];
        for i in 1..11 {
            let x = f64::from(i) / 11.0;
            let bent = (1..4).map(|k| {
                let w = PI * f64::from(k);
                warp[k as usize - 1] * sin(w * x) / w
            });
            block.put(PI * (x + bent.sum::<f64>()) + 0.01 * rng.unit(), 13);
        }
    }
    for _ in 0..32 {
        let (size, turn, phase) = (0.12 * rng.unit(), 1.0 + rng.unit(), PI * rng.unit());
        for i in 0..10 {
            block.put(
                size * sin(turn * f64::from(i) + phase) + 0.02 * rng.unit(),
                13,
            );
        }
    }
}

/// Weights in Q15 whose sums stay below 1, their complements in Q15, the inverses in Q12.
fn prediction(rng: &mut Rng, block: &mut Block) {
    let mut left = [[1.0; 10]; 2];
    for row in &mut left {
        let share = [0.24, 0.18, 0.13, 0.09].map(|s| s * (1.0 + 0.25 * rng.unit()));
        for s in share {
            for rest in &mut *row {
                let weight = s * (1.0 + 0.15 * rng.unit());
                *rest -= weight;
                block.put(weight, 15);
            }
        }
    }
    for rest in left.as_flattened() {
        block.put(*rest, 15);
    }
    for rest in left.as_flattened() {
        block.put(1.0 / rest, 12);
    }
}

/// 31 taps of a low-pass filter at a third of the rate, the middle one first, Q15.
fn filter(rng: &mut Rng, block: &mut Block) {
    let cut = 0.88 + 0.05 * rng.unit();
    for n in 0..31 {
        let x = PI * cut * f64::from(n) / 3.0;
        let sinc = if n == 0 { 1.0 } else { sin(x) / x };
        let window = 0.54 + 0.46 * cos(PI * f64::from(n) / 30.0);
        block.put(cut * sinc * window + 0.0005 * rng.unit(), 15);
    }
}

/// Rows of pitch gain (Q14) and correction factor (Q13), and the maps, which are permutations.
fn gains(rng: &mut Rng, block: &mut Block) {
    for k in 0..8 {
        block.put(0.04 * f64::from(k) * (1.0 + 0.2 * rng.unit()), 14);
        block.put(0.1 + 0.45 * f64::from(k) * (1.0 + 0.2 * rng.unit()), 13);
    }
    for k in 0..16 {
        block.put(0.05 + 0.06 * f64::from(k) * (1.0 + 0.1 * rng.unit()), 14);
        block.put(0.05 + 0.5 * rng.unit() * rng.unit(), 13);
    }
    for length in [8, 16] {
        let mut map: Vec<i16> = (0..length).collect();
        for k in (1..map.len()).rev() {
            map.swap(k, rng.below(k + 1));
        }
        block.words.extend(map);
    }
}

/// The 14 scalars in the order of the enum `Scalar`, each within half a percent of its formula.
fn scalars(rng: &mut Rng, block: &mut Block) {
    let decibel = 10.0 / log2(10.0);
    let mean_energy = 30.0 + decibel * (log2(40.0) + 27.0);
    let near = [
        (0.8, 14),
        (60.0, 0),
        (1.0, 13),
        (-decibel, 13),
        (mean_energy / 256.0, 15),
        (64.0, 0),
        (1.0 / (2.0 * decibel), 15),
        (2.0 * decibel, 12),
        (0.9, 14),
        (0.98, 15),
        (2.0 / PI, 15),
        (0.005, 13),
        (3.135, 13),
        (0.0391, 13),
    ];
    for (value, q) in near {
        block.put(value * (1.0 + 0.005 * rng.unit()), q);
    }
}

/// Sine by its series, for arguments of a few turns.
fn sin(x: f64) -> f64 {
    let turns = (x / (2.0 * PI) + 0.5).floor();
    let x = x - turns * 2.0 * PI;
    let (mut term, mut sum) = (x, x);
    for k in 1..20 {
        term *= -x * x / f64::from(2 * k * (2 * k + 1));
        sum += term;
    }
    sum
}

fn cos(x: f64) -> f64 {
    sin(x + PI / 2.0)
}

/// Base-2 logarithm of a number from 1 up: whole part by halving, the rest by the series of the
/// natural logarithm.
fn log2(x: f64) -> f64 {
    let (mut x, mut whole) = (x, 0.0);
    while x >= 2.0 {
        x /= 2.0;
        whole += 1.0;
    }
    let y = (x - 1.0) / (x + 1.0);
    let series = (0..30)
        .rev()
        .fold(0.0, |sum, k| sum * y * y + 1.0 / f64::from(2 * k + 1));
    whole + 2.0 * y * series / std::f64::consts::LN_2
}
