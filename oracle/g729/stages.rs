//! One frame stage by stage: the body of `Decoder::decode_voice_frame` (lib.rs of the crate, MIT OR
//! Apache-2.0) once more, as calls of the crate's own functions, with every stage's values kept.
//! Whoever uses it compares its samples and its state with those of `Decoder::decode`, as
//! compare.rs of the program does.

use crate::bitstream::SpeechParams;
use crate::harness::Samples;
use crate::plc::{self, Decision};
use crate::{Decoder, FRAME_SAMPLES, Frame, adaptive, fixed, gain, lpc, lsp, synth};

/// The values of a frame.
pub struct FrameStages {
    /// The fields in the order of their bits; `None` in a concealed frame.
    pub fields: Option<[u16; 15]>,
    /// Whether the parity check passed; `None` in a concealed frame.
    pub parity: Option<bool>,
    /// The line spectral frequencies after order and bounds.
    pub omega_hat: [i16; 10],
    /// The row that the LSF memory took.
    pub l_hat: [i16; 10],
    /// The LSP of both subframes.
    pub q: [[i16; 10]; 2],
    /// The filter coefficients of both subframes.
    pub a_hat: [[i16; 11]; 2],
    /// The values of both subframes.
    pub subframes: [SubframeStages; 2],
}

/// The values of a subframe.
pub struct SubframeStages {
    /// The delay used, integer part and fraction.
    pub t: (i16, i16),
    /// The adaptive-codebook vector.
    pub v: [i16; 40],
    /// The fixed-codebook index and sign index used, received or drawn.
    pub index: (u16, u16),
    /// The codevector before sharpening.
    pub codevector: [i16; 40],
    /// The sharpening factor used.
    pub beta: i16,
    /// The codevector after sharpening.
    pub sharpened: [i16; 40],
    /// The pitch gain and the fixed gain.
    pub g: gain::Gains,
    /// The excitation, as it is before synthesis.
    pub u: [i16; 40],
    /// Whether the first synthesis saturated.
    pub saturated: bool,
    /// The samples.
    pub s_hat: [i16; 40],
}

impl FrameStages {
    /// The 80 samples.
    ///
    /// # Panics
    ///
    /// Does not panic.
    pub fn samples(&self) -> Samples {
        let mut samples = [0; FRAME_SAMPLES];
        samples[..40].copy_from_slice(&self.subframes[0].s_hat);
        samples[40..].copy_from_slice(&self.subframes[1].s_hat);
        samples
    }
}

/// The fields of a voice frame in the order of their bits.
///
/// # Panics
///
/// Does not panic.
pub fn fields(f: &SpeechParams) -> [u16; 15] {
    let [l0, l1, l2, l3] = f.l;
    let ([c1, c2], [s1, s2], [ga1, ga2], [gb1, gb2]) = (f.c, f.s, f.ga, f.gb);
    [
        l0, l1, l2, l3, f.p1, f.p0, c1, s1, ga1, gb1, f.p2, c2, s2, ga2, gb2,
    ]
}

/// Decodes `frame` and keeps every stage's values.
///
/// # Panics
///
/// Does not panic.
pub fn run(decoder: &mut Decoder<'_>, frame: Frame<'_>) -> FrameStages {
    let params = match plc::decide(frame, decoder.last_frame_active) {
        Decision::Voice(params) => params,
        Decision::ComfortNoise { .. } => None,
    };
    let tables = decoder.tables;
    let omega_hat =
        decoder
            .lsf_quantizer
            .decode_frame(&mut decoder.ops, tables, params.map(|f| f.l));
    let q_current = lsp::lsf_to_lsp(&mut decoder.ops, tables, &omega_hat);
    let q_first = lsp::interpolate(&mut decoder.ops, &decoder.q_previous, &q_current);
    let a_hat = [
        lpc::lsp_to_lp(&mut decoder.ops, &q_first),
        lpc::lsp_to_lp(&mut decoder.ops, &q_current),
    ];
    decoder.q_previous = q_current;
    let first = subframe(decoder, params, 0, &a_hat[0], 0);
    let second = subframe(decoder, params, 1, &a_hat[1], first.t.0);
    decoder.u_buffer.copy_within(FRAME_SAMPLES.., 0);
    decoder.last_frame_active = true;
    FrameStages {
        fields: params.map(|f| fields(&f)),
        parity: params.map(|f| adaptive::parity_ok(f.p1, f.p0)),
        omega_hat,
        l_hat: decoder.lsf_quantizer.l_hat_past[0],
        q: [q_first, q_current],
        a_hat,
        subframes: [first, second],
    }
}

/// Subframe `n`, 0 or 1. `t1` is the integer delay of subframe 0.
fn subframe(
    decoder: &mut Decoder<'_>,
    params: Option<SpeechParams>,
    n: usize,
    a_hat: &[i16; 11],
    t1: i16,
) -> SubframeStages {
    let tables = decoder.tables;
    let start = adaptive::PAST + 40 * n;
    let t = delay(&mut decoder.delay_tracker, params, n, t1);
    let (ops, buffer) = (&mut decoder.ops, &mut decoder.u_buffer);
    adaptive::adaptive_vector(ops, tables, buffer, start, t.0, t.1);
    let mut v = [0; 40];
    v.copy_from_slice(&buffer[start..start + 40]);
    let index = match params {
        None => fixed::random_index(&mut decoder.erasure_seed),
        Some(f) => (f.c[n], f.s[n]),
    };
    let (positions, signs) = fixed::pulses(index.0, index.1);
    let codevector = fixed::codevector(tables, &positions, &signs);
    let beta = decoder.beta;
    let mut sharpened = codevector;
    fixed::sharpen(ops, &mut sharpened, t.0, beta);
    let gains = &mut decoder.gain_predictor;
    let g = match params {
        None => gains.conceal(ops, tables),
        Some(f) => gains.decode(ops, tables, f.ga[n], f.gb[n], &sharpened),
    };
    decoder.beta = gain::sharpening(tables, g.gp);
    let u = synth::excitation(ops, &v, &sharpened, g.gp, g.gc);
    buffer[start..start + 40].copy_from_slice(&u);
    let saturated = synth::synthesize(&mut ops.clone(), a_hat, &u, &decoder.s_hat_tail).1;
    let s_hat = decoder.reconstruct(a_hat, start);
    SubframeStages {
        t,
        v,
        index,
        codevector,
        beta,
        sharpened,
        g,
        u,
        saturated,
        s_hat,
    }
}

/// The delay and fraction of subframe `n`.
fn delay(
    tracker: &mut adaptive::PitchState,
    params: Option<SpeechParams>,
    n: usize,
    t1: i16,
) -> (i16, i16) {
    match (params, n) {
        (None, _) => tracker.erased(),
        (Some(f), 0) => tracker.first(f.p1, adaptive::parity_ok(f.p1, f.p0)),
        (Some(f), _) => tracker.second(f.p2, t1),
    }
}
