//! The harness inside the decoder's crate: `Tables` from a table block of 1,880 words, the state
//! from and to a state block of 234 words, and the samples before the postfilter.

extern crate std;

use crate::adaptive::PAST;
use crate::basic_op::Ctx;
use crate::tables::Tables;
use crate::{Decoder, FRAME_SAMPLES, Frame};
use core::array::from_fn;
use core::cell::Cell;

/// Words of a table block.
pub const TABLE_WORDS: usize = 1880;
/// Words of a state block.
pub const STATE_WORDS: usize = 234;
/// Scalars of a table block: the first 14 of the enum `Scalar`.
const BLOCK_SCALARS: usize = 14;

/// A table block.
pub type TableBlock = [i16; TABLE_WORDS];
/// A state block.
pub type StateBlock = [i16; STATE_WORDS];
/// The samples of one frame.
pub type Samples = [i16; FRAME_SAMPLES];

/// What is left to read of a block.
struct Words<'a>(&'a [i16]);

impl Words<'_> {
    fn row<const N: usize>(&mut self) -> [i16; N] {
        let (row, rest) = self.0.split_first_chunk().expect("a part past the block");
        self.0 = rest;
        *row
    }

    fn word(&mut self) -> i16 {
        self.row::<1>()[0]
    }
}

/// The tables of `block`. The SID tables and the comfort-noise scalars, which no block holds, are 0.
///
/// # Panics
///
/// Does not panic.
pub fn tables(block: &TableBlock) -> Tables {
    let mut words = Words(block);
    Tables {
        lsp_cb1: from_fn(|_| words.row()),
        lsp_cb2: from_fn(|_| words.row()),
        lsp_ma: from_fn(|_| from_fn(|_| words.row())),
        lsp_ma_sum: from_fn(|_| words.row()),
        lsp_ma_sum_inv: from_fn(|_| words.row()),
        b30: words.row(),
        gain_ga: from_fn(|_| words.row()),
        gain_gb: from_fn(|_| words.row()),
        map_ga: words.row(),
        map_gb: words.row(),
        log2: words.row(),
        initial_lsp: words.row(),
        sid_ma: [[[0; 10]; 4]; 2],
        sid_ma_sum: [[0; 10]; 2],
        sid_cb1_subset: [0; 32],
        sid_cb2_subset: [[0; 16]; 2],
        sid_energy_scale: [0; 3],
        sid_initial_lsp: [0; 10],
        scalars: from_fn(|k| if k < BLOCK_SCALARS { words.word() } else { 0 }),
    }
}

/// A decoder with `tables`, in the state of `block`. The predictor has to be 0 or 1.
///
/// # Panics
///
/// Does not panic.
pub fn load<'t>(tables: &'t Tables, block: &StateBlock) -> Decoder<'t> {
    let mut words = Words(block);
    let mut decoder = Decoder::new(tables);
    decoder.lsf_quantizer.l_hat_past = from_fn(|_| words.row());
    decoder.lsf_quantizer.predictor_last_good = words.word() as usize;
    decoder.lsf_quantizer.omega_last_good = words.row();
    decoder.q_previous = words.row();
    decoder.delay_tracker.old = words.word();
    decoder.erasure_seed = words.word();
    decoder.gain_predictor.mem = words.row();
    decoder.gain_predictor.past_gp = words.word();
    decoder.gain_predictor.past_gc = words.word();
    decoder.beta = words.word();
    decoder.u_buffer[..PAST].copy_from_slice(&words.row::<PAST>());
    decoder.s_hat_tail = words.row();
    decoder
}

/// The state block of a decoder between two frames.
///
/// # Panics
///
/// Does not panic.
pub fn save(decoder: &Decoder<'_>) -> StateBlock {
    let lsf = &decoder.lsf_quantizer;
    let gain = &decoder.gain_predictor;
    let parts: [&[i16]; 10] = [
        lsf.l_hat_past.as_flattened(),
        &[lsf.predictor_last_good as i16],
        &lsf.omega_last_good,
        &decoder.q_previous,
        &[decoder.delay_tracker.old, decoder.erasure_seed],
        &gain.mem,
        &[gain.past_gp, gain.past_gc],
        &[decoder.beta],
        &decoder.u_buffer[..PAST],
        &decoder.s_hat_tail,
    ];
    let mut block = [0; STATE_WORDS];
    let mut at = 0;
    for part in parts {
        block[at..at + part.len()].copy_from_slice(part);
        at += part.len();
    }
    block
}

std::thread_local! {
    /// Whether `finish_subframe` goes on into the postfilter.
    static WHOLE: Cell<bool> = const { Cell::new(false) };
    /// What `reconstruct` returned in the frame at hand, kept where `WHOLE` is set.
    static KEPT: Cell<Samples> = const { Cell::new([0; FRAME_SAMPLES]) };
}

/// `Decoder::finish_subframe` asks this with what `reconstruct` returned: whether to return it as
/// it is. So `Decoder::decode` writes the samples before the postfilter.
pub(crate) fn stops_here(start: usize, s_hat: &[i16; 40]) -> bool {
    if !WHOLE.get() {
        return true;
    }
    let mut kept = KEPT.get();
    kept[start - PAST..start - PAST + 40].copy_from_slice(s_hat);
    KEPT.set(kept);
    false
}

/// One frame through the whole of `Decoder::decode`, postfilter included. Returns what
/// `reconstruct` returned inside it.
///
/// # Panics
///
/// Does not panic.
pub fn decode_whole(decoder: &mut Decoder<'_>, frame: Frame<'_>) -> Samples {
    WHOLE.set(true);
    decoder.decode(frame, &mut [0; FRAME_SAMPLES]);
    WHOLE.set(false);
    KEPT.get()
}

/// The crate's private `interpolate_q15` between two entries.
///
/// # Panics
///
/// Does not panic.
pub fn interpolate_q15(ops: &mut Ctx, entries: [i16; 2], weight: i16) -> i32 {
    ops.interpolate_q15(&entries, 0, weight)
}
