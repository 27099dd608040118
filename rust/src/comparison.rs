//! The comparison of a far decoder's samples with what decoders make of the same frames.

use crate::{ffi, Frame, Refusal, Samples, TableBlock, FRAME_SAMPLES};

/// Words of the memory of a comparison.
pub const COMPARE_WORDS: usize = 2203;

/// What a frame is in a comparison. A common voice frame is one that both decoders had; they are counted from one that passes
/// parity.
#[derive(Debug, Clone, Copy, PartialEq, Eq)]
pub enum Compared {
    /// A frame that isn't voice: it is not compared, and the count begins anew.
    Concealed,
    /// No state of the far decoder is computed yet, or none any more: the last window's did not fit. The frame's number in the
    /// count, 0 while none has passed parity.
    Settling(u32),
    /// The same, and this frame can't be part of a window though it is the sixth or a later one: a sample is at full scale, or
    /// coefficients are out of bound.
    NotClean(u32),
    /// A decoder of these frames, in a state that the samples before tell, makes these 80 samples.
    Known,
    /// The samples since the last frame that isn't voice (or the first frame), up to and with this frame's, are not those of any
    /// decoder of these frames, whatever its past.
    Differs {
        /// The first sample, from 0, at which no computed decoder is left.
        sample: usize,
        /// The far sample there minus the computed one.
        rest: i32,
        /// The samples of the computed decoder that agreed longest.
        computed: Samples,
    },
}

/// A comparison: tables, and what is kept between two frames.
#[derive(Debug, Clone)]
pub struct Comparison<'t> {
    tables: &'t TableBlock,
    memory: [i16; COMPARE_WORDS],
}

impl<'t> Comparison<'t> {
    /// A comparison before its first frame.
    ///
    /// # Errors
    /// None where the tables were accepted, which a [`TableBlock`] always is.
    pub fn new(tables: &'t TableBlock) -> Result<Self, Refusal> {
        let mut memory = [0; COMPARE_WORDS];
        Refusal::check(ffi::begin_compare(tables.words(), &mut memory))?;
        Ok(Comparison { tables, memory })
    }

    /// A comparison that goes on from saved words.
    pub fn resume(tables: &'t TableBlock, memory: [i16; COMPARE_WORDS]) -> Self {
        Comparison { tables, memory }
    }

    /// What the next frame is, with the far samples that belong to it. A frame that was lost at either end is [`Frame::Erased`].
    ///
    /// # Errors
    /// [`Refusal::StateValues`], where the comparison was resumed from words that aren't accepted.
    pub fn compare(&mut self, frame: &Frame, far: &Samples) -> Result<Compared, Refusal> {
        let mut computed = [0; FRAME_SAMPLES];
        let (mut what, mut number, mut rest) = (0, 0, 0);
        Refusal::check(ffi::compare(
            self.tables.words(),
            &mut self.memory,
            frame.kind(),
            frame.payload(),
            far,
            &mut computed,
            (&mut what, &mut number, &mut rest),
        ))?;
        Ok(match what {
            0 => Compared::Concealed,
            1 => Compared::Settling(number),
            2 => Compared::NotClean(number),
            3 => Compared::Known,
            _ => Compared::Differs {
                sample: number as usize,
                rest,
                computed,
            },
        })
    }

    /// Its words, to be saved.
    pub fn words(&self) -> &[i16; COMPARE_WORDS] {
        &self.memory
    }
}
