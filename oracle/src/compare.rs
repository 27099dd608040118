//! The same frames in three ways, compared after every frame: `Decoder::decode` whole, with the
//! postfilter; `Decoder::decode` stopped before the postfilter; and stage by stage, from a state
//! block that is loaded anew for every frame.

use g729::harness::{self, StateBlock};
use g729::stages::{self, FrameStages};
use g729::{Decoder, FRAME_SAMPLES, Frame, Tables};

pub struct ThreeWays<'t> {
    tables: &'t Tables,
    whole: Decoder<'t>,
    stopped: Decoder<'t>,
    /// The state of the staged run, which is the state of all three between frames.
    pub state: StateBlock,
}

impl<'t> ThreeWays<'t> {
    pub fn new(tables: &'t Tables, state: &StateBlock) -> Self {
        ThreeWays {
            tables,
            whole: harness::load(tables, state),
            stopped: harness::load(tables, state),
            state: *state,
        }
    }

    /// Decodes one frame. An error says which value differs.
    pub fn step(&mut self, frame: Frame<'_>) -> Result<FrameStages, String> {
        let whole = harness::decode_whole(&mut self.whole, frame);
        let mut stopped = [0; FRAME_SAMPLES];
        self.stopped.decode(frame, &mut stopped);
        let mut decoder = harness::load(self.tables, &self.state);
        let staged = stages::run(&mut decoder, frame);
        self.state = harness::save(&decoder);
        same("sample, stopped", &whole, &stopped)?;
        same("sample, staged", &whole, &staged.samples())?;
        let state = harness::save(&self.whole);
        same("state word, stopped", &state, &harness::save(&self.stopped))?;
        same("state word, staged", &state, &self.state)?;
        Ok(staged)
    }
}

fn same(what: &str, expected: &[i16], found: &[i16]) -> Result<(), String> {
    match expected.iter().zip(found).position(|(e, f)| e != f) {
        None => Ok(()),
        Some(k) => Err(format!(
            "{what}: number {k} is {}, not {}",
            found[k], expected[k]
        )),
    }
}
