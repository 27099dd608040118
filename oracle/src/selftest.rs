//! The oracle's check of itself: the three ways of `compare.rs` agree on generated tables, states
//! and calls of every kind, and the Rust gives the values that the specification names.

use crate::compare::ThreeWays;
use crate::generate::{self, CALL_KINDS, STATE_KINDS, TABLE_KINDS};
use crate::rng::Rng;
use crate::text;
use g729::adaptive::{PitchState, decode_t1, decode_t2, parity_ok};
use g729::basic_op::{Ctx, norm_l};
use g729::bitstream::SpeechParams;
use g729::harness::{self, StateBlock, TABLE_WORDS, TableBlock};
use g729::stages::FrameStages;
use g729::{Decoder, FRAME_SAMPLES, Frame, Tables, fixed};

/// Frames of one call.
const CALL: usize = 40;

/// What was seen with one kind of tables.
#[derive(Default)]
struct Seen {
    frames: usize,
    concealed: usize,
    bad_parity: usize,
    /// Subframes whose synthesis saturated.
    saturated: usize,
    /// Frames whose samples are all 0.
    silent: usize,
}

impl Seen {
    fn count(&mut self, stages: &FrameStages) {
        self.frames += 1;
        self.concealed += usize::from(stages.fields.is_none());
        self.bad_parity += usize::from(stages.parity == Some(false));
        self.saturated += stages.subframes.iter().filter(|s| s.saturated).count();
        self.silent += usize::from(stages.samples() == [0; FRAME_SAMPLES]);
    }
}

/// Runs all checks, the comparison over `frames` frames or a few more.
pub fn run(seed: u64, frames: usize) -> Result<(), String> {
    values()?;
    lines()?;
    let mut rng = Rng::new(seed);
    let mut seen: [Seen; TABLE_KINDS.len()] = Default::default();
    let mut done = 0;
    for round in 0.. {
        if done >= frames {
            break;
        }
        let at = round % TABLE_KINDS.len();
        one_call(&mut rng, at, &mut seen[at]).map_err(|e| format!("call {round}: {e}"))?;
        done += CALL;
    }
    println!("tables     frames concealed bad-parity saturated-subframes silent");
    for (kind, s) in TABLE_KINDS.iter().zip(&seen) {
        println!(
            "{kind:9} {:7} {:9} {:10} {:19} {:6}",
            s.frames, s.concealed, s.bad_parity, s.saturated, s.silent
        );
    }
    println!("{done} frames equal in three ways, samples and states");
    Ok(())
}

/// One call, of kinds drawn at random, with tables of kind `at`.
fn one_call(rng: &mut Rng, at: usize, seen: &mut Seen) -> Result<(), String> {
    let block = generate::tables(rng, TABLE_KINDS[at]).ok_or("no such tables")?;
    let tables = harness::tables(&block);
    check_tables(&block, &tables)?;
    let mut kinds = STATE_KINDS.to_vec();
    kinds.push("fresh");
    let state = match rng.pick(&kinds) {
        "fresh" => harness::save(&Decoder::new(&tables)),
        kind => generate::state(rng, kind).ok_or("no such state")?,
    };
    check_state(&tables, &state)?;
    let (kind, parity) = (
        rng.pick(&CALL_KINDS),
        rng.pick(&[None, Some(0), Some(95), Some(100)]),
    );
    let call = generate::call(rng, kind, CALL, parity).ok_or("no such call")?;
    let mut ways = ThreeWays::new(&tables, &state);
    for (n, line) in call.iter().enumerate() {
        let stages = ways.step(line.frame()).map_err(|e| {
            format!(
                "{} tables, {kind} call, frame {}: {e}",
                TABLE_KINDS[at],
                n + 1
            )
        })?;
        seen.count(&stages);
    }
    Ok(())
}

/// The tables hold the words of their block, in order, and 0 beyond: the loader's own order has
/// the 177 comfort-noise values between word 1,865 and word 1,866.
fn check_tables(block: &TableBlock, tables: &Tables) -> Result<(), String> {
    let mut values = Vec::new();
    tables.for_each_value(|value| values.push(value));
    let noise: Vec<i16> = values.drain(1866..1866 + 177).collect();
    let rest = values.split_off(TABLE_WORDS);
    ensure(values == block, "the tables are not their block")?;
    ensure(
        noise.iter().chain(&rest).all(|&v| v == 0),
        "a value beyond the block",
    )
}

fn check_state(tables: &Tables, state: &StateBlock) -> Result<(), String> {
    let again = harness::save(&harness::load(tables, state));
    ensure(again == *state, "a state is not its block")
}

/// The fresh state and the values that the specification says to prove.
fn values() -> Result<(), String> {
    let block: TableBlock = std::array::from_fn(|k| if k == 1867 { 77 } else { k as i16 });
    let tables = harness::tables(&block);
    let fresh = harness::save(&Decoder::new(&tables));
    let row = [
        2339, 4679, 7018, 9358, 11698, 14037, 16377, 18717, 21056, 23396,
    ];
    let lsp: Vec<i16> = (1856..1866).collect();
    let expected = [
        row.repeat(4),
        vec![0],
        row.to_vec(),
        lsp,
        vec![77, 21845, -14336, -14336, -14336, -14336, 0, 0, 3277],
        vec![0; 164],
    ];
    ensure(expected.concat() == fresh, "the fresh state")?;
    let t1 = [0, 196, 197, 255].map(decode_t1);
    ensure(t1 == [(19, 1), (85, -1), (85, 0), (143, 0)], "P1")?;
    let t2 = [(0, 20), (0, 144), (31, 20), (31, 144)].map(|(p2, t1)| decode_t2(p2, t1));
    ensure(t2 == [(19, 1), (133, 1), (30, -1), (144, -1)], "P2")?;
    let mut carried = PitchState::new(&harness::tables(&[144; TABLE_WORDS]));
    let used = [carried.erased(), carried.erased()];
    ensure(used == [(144, 0), (143, 0)], "the carried delay 144")?;
    let zeros = SpeechParams::unpack(&[0; 10]);
    ensure(parity_ok(0, 1) && !parity_ok(zeros.p1, zeros.p0), "parity")?;
    let mut seed = fixed::ERASURE_SEED;
    let draws = [fixed::random(&mut seed), fixed::random(&mut seed)];
    ensure(draws == [3242, 23867], "the draws")?;
    let pulses = ([10, 26, 12, 18], [true, true, false, true]);
    ensure(fixed::pulses(3242, 11) == pulses, "the pulses")?;
    let top = Ctx::default().l_mult(-32768, -32768);
    ensure(
        top == i32::MAX && [0, 1, -1].map(norm_l) == [0, 30, 31],
        "norms",
    )?;
    let mut out = [1; FRAME_SAMPLES];
    Decoder::new(&tables).decode(Frame::Erased, &mut out);
    ensure(out == [0; FRAME_SAMPLES], "a fresh erased frame is silent")
}

/// The reader takes what the writer gives, and nothing else near it.
fn lines() -> Result<(), String> {
    let mut rng = Rng::new(0);
    let call = generate::call(&mut rng, "mixed", 200, None).ok_or("no such call")?;
    for line in call {
        let text = line.text();
        ensure(text::parse(text.as_bytes()) == Some(line), "a line")?;
        for at in 0..text.len() {
            let mut other = text.clone().into_bytes();
            other[at] = if other[at] == b'(' { b'A' } else { b'(' };
            ensure(text::parse(&other).is_none(), "a changed line")?;
            other.remove(at);
            ensure(text::parse(&other).is_none(), "a shortened line")?;
        }
    }
    Ok(())
}

fn ensure(holds: bool, what: &str) -> Result<(), String> {
    if holds { Ok(()) } else { Err(what.to_string()) }
}
