//! A reference of the comparison with a far decoder whose state is not known, written plainly on top of the Rust's own frame decoder:
//! the excitation is read off the far samples, and the candidates are state blocks, the own parameters with another signal each.

use crate::text::FrameLine;
use g729::harness::{self, STATE_WORDS, Samples, StateBlock};
use g729::{Decoder, FRAME_SAMPLES, Tables, stages};

pub const CONCEALED: u32 = 0;
pub const SETTLING: u32 = 1;
pub const NOT_CLEAN: u32 = 2;
pub const KNOWN: u32 = 3;
pub const DIFFERS: u32 = 4;

/// The first word of a state block's signal: past excitation and last ten samples.
pub const SIGNAL: usize = 70;
const SIGNAL_WORDS: usize = STATE_WORDS - SIGNAL;
/// The words of past excitation, and those of two frames.
const PAST: usize = SIGNAL_WORDS - 10;
const WINDOW: usize = 2 * FRAME_SAMPLES;

pub type Signal = [i16; SIGNAL_WORDS];

/// What is answered for a frame.
#[derive(Debug, Clone, Copy, PartialEq, Eq)]
pub struct Answer {
    pub class: u32,
    pub number: u32,
    pub rest: i32,
    /// In classes 3 and 4 the samples of the candidate that comes nearest.
    pub computed: Option<Samples>,
}

/// What a comparison keeps from frame to frame.
#[derive(Clone)]
pub struct Memory {
    /// The own parameters are words 0 to 69; the signal behind them is of no matter.
    own: StateBlock,
    count: i64,
    clean: i64,
    status: i64,
    last: [i64; 10],
    window: [i64; WINDOW],
    pub candidates: Vec<Candidate>,
}

/// A candidate: its number among the eight, and its signal.
#[derive(Clone, Copy)]
pub struct Candidate {
    pub number: usize,
    pub signal: Signal,
}

pub fn begin(tables: &Tables) -> Memory {
    Memory {
        own: harness::save(&Decoder::new(tables)),
        count: 0,
        clean: 0,
        status: 0,
        last: [0; 10],
        window: [0; WINDOW],
        candidates: Vec::new(),
    }
}

/// The next frame, with the 80 samples of the far decoder.
pub fn step(tables: &Tables, m: &mut Memory, line: &FrameLine, far: &Samples) -> Answer {
    let before = m.own;
    let mut own = harness::load(tables, &before);
    let stages = stages::run(&mut own, line.frame());
    m.own = harness::save(&own);

    let last = m.last;
    m.last = std::array::from_fn(|k| i64::from(far[70 + k]));
    if line.kind != 0 {
        (m.count, m.clean, m.status) = (0, 0, 0);
        return answer(CONCEALED, 0);
    }

    m.count = match (m.count, stages.parity) {
        (0, Some(false)) => 0,
        (n, _) => (n + 1).min(32767),
    };
    let n = m.count;
    let clean =
        n >= 6 && stages.a_hat.iter().all(bounded) && far.iter().all(|&y| y > -32768 && y < 32767);
    let told = excitation(&stages.a_hat, &last, far);

    let taken = m.clean == 2 && m.status != 1;
    let known = taken || m.status != 0;
    let answer = if known {
        if taken {
            m.candidates = (0..8).map(|i| candidate(i, &m.window, &last)).collect();
        }
        let mut nearest = None;
        let mut most = 0;
        let mut fitting: Vec<Candidate> = Vec::new();
        for candidate in &mut m.candidates {
            let samples = decode(tables, &before, &mut candidate.signal, line);
            let fit = fit(&samples, far);
            if nearest.is_none() || fit > most {
                (nearest, most) = (Some(samples), fit);
            }
            if fit == FRAME_SAMPLES && fitting.iter().all(|c| c.signal != candidate.signal) {
                fitting.push(*candidate);
            }
        }
        let computed = nearest.expect("candidates are there");
        if most == FRAME_SAMPLES {
            m.candidates = fitting;
            m.status = 1;
            move_on(m, clean);
            Answer {
                computed: nearest,
                ..answer(KNOWN, 0)
            }
        } else {
            if taken {
                m.candidates.clear();
                (m.status, m.clean) = (0, -1);
            } else {
                if m.status == 1 {
                    m.clean = -1;
                } else {
                    move_on(m, clean);
                }
                m.status = 2;
            }
            Answer {
                class: DIFFERS,
                number: most as u32,
                rest: i32::from(far[most]) - i32::from(computed[most]),
                computed: nearest,
            }
        }
    } else {
        move_on(m, clean);
        answer(
            if n >= 6 && !clean {
                NOT_CLEAN
            } else {
                SETTLING
            },
            n,
        )
    };
    m.window.copy_within(FRAME_SAMPLES.., 0);
    m.window[FRAME_SAMPLES..].copy_from_slice(&told);
    answer
}

fn answer(class: u32, number: i64) -> Answer {
    Answer {
        class,
        number: number as u32,
        rest: 0,
        computed: None,
    }
}

/// How many clean frames there are in a row, two at most.
fn move_on(m: &mut Memory, clean: bool) {
    m.clean = if clean { (m.clean + 1).min(2) } else { 0 };
}

/// Whether these coefficients synthesize without saturation wherever the sample is not at full scale.
fn bounded(a: &[i16; 11]) -> bool {
    let sizes: i64 = a.iter().map(|&a| i64::from(a).abs()).sum();
    sizes <= 61439 && !a.contains(&-32768)
}

/// The excitation that the samples of a frame tell, `last` being the ten before.
fn excitation(a: &[[i16; 11]; 2], last: &[i64; 10], far: &Samples) -> [i64; FRAME_SAMPLES] {
    let mut y = last.to_vec();
    y.extend(far.iter().map(|&y| i64::from(y)));
    std::array::from_fn(|k| {
        let a = &a[k / 40];
        let sum: i64 = (1..11).map(|i| i64::from(a[i]) * y[10 + k - i]).sum();
        let x = y[10 + k] - (2048 - sum).div_euclid(4096);
        x.clamp(-32768, 32767)
    })
}

/// Candidate `i` of eight: subframes 2, 3 and 4 of the window shrunk, or not, by the bits of `i`.
fn candidate(i: usize, window: &[i64; WINDOW], last: &[i64; 10]) -> Candidate {
    let mut words = *window;
    for subframe in 0..3 {
        if i >> subframe & 1 == 1 {
            for word in &mut words[..40 * (subframe + 1)] {
                *word = word.div_euclid(4);
            }
        }
    }
    let newest = words[WINDOW - PAST..].iter().chain(last);
    let signal: Vec<i16> = newest.map(|&w| w as i16).collect();
    Candidate {
        number: i,
        signal: signal.try_into().expect("164 words"),
    }
}

/// Decodes a frame from a signal with the own parameters, and moves the signal on.
fn decode(tables: &Tables, own: &StateBlock, signal: &mut Signal, line: &FrameLine) -> Samples {
    let mut block = *own;
    block[SIGNAL..].copy_from_slice(signal);
    let mut decoder = harness::load(tables, &block);
    let mut samples = [0; FRAME_SAMPLES];
    decoder.decode(line.frame(), &mut samples);
    *signal = signal_of(&harness::save(&decoder));
    samples
}

pub fn signal_of(block: &StateBlock) -> Signal {
    block[SIGNAL..].try_into().expect("164 words")
}

/// How many samples stand before the first that differs.
fn fit(computed: &Samples, far: &Samples) -> usize {
    let differs = computed.iter().zip(far).position(|(a, b)| a != b);
    differs.unwrap_or(FRAME_SAMPLES)
}
