//! Holdamek for Rust: a G.729 voice path whose every function is proved, behind safe types.
//!
//! A [`TableBlock`] holds your licensed tables, checked. A [`Decoder`] takes one [`Frame`] after another and gives the 80
//! samples of each before the postfilter, and if asked the [`Report`] of its delays, each with its [`Rule`]; [`delays()`] gives these without
//! the samples. Its [`StateBlock`] can be saved between any two frames and resumed later, here or on
//! another machine. [`Frame::parse`] reads a line of a call, [`Frame::write`] writes it, and [`Counts`] counts its frames.
//! [`SpeechParams`] has the fields of a voice frame by name, read from its ten bytes or to be written as these. [`PayloadFrames`]
//! takes an RTP payload apart, without copying. A [`Law`] reads the bytes of a G.711 leg as samples, and turns them back.
//! [`mix()`] gives what each leg of a conference heard. [`playout()`] tries a playout depth on the arrivals of frames, and tells which
//! would be lost. [`StateBlock::agreement`] tells how far two decoders agree from here on. A [`Comparison`] tells of a far decoder's
//! samples whether a decoder of the same frames makes them, whatever its past.
//!
//! ```
//! use holdamek::{Decoder, Frame, TableBlock};
//! # fn main() -> Result<(), Box<dyn std::error::Error>> {
//! let tables = TableBlock::from_bytes(&std::fs::read("../examples/tables.g729")?)?;
//! let mut decoder = Decoder::new(&tables)?;
//! let samples = decoder.decode(&Frame::parse(b"(frame (lost))")?)?;
//! assert_eq!(samples, [0; 80]);
//! # Ok(())
//! # }
//! ```
//!
//! Nothing here panics, and nothing is allocated. What can be refused gives a [`Refusal`], and leaves everything as it was.

#![deny(unsafe_code)]

#[allow(unsafe_code)]
mod ffi;

mod comparison;
mod delays;
mod g711;
mod mix;
mod payload;
mod playout;
mod refusal;
mod speech_params;

pub use comparison::{Compared, Comparison, COMPARE_WORDS};
pub use delays::{delays, Delay, Report, Rule};
pub use g711::Law;
pub use mix::{mix, MOST_LEGS};
pub use payload::{payload_frame, payload_frames, PayloadFrame, PayloadFrames};
pub use playout::{playout, MOST_PLAYOUT};
pub use refusal::Refusal;
pub use speech_params::SpeechParams;

/// Words of a table block.
pub const TABLE_WORDS: usize = 1880;
/// Words of a state block.
pub const STATE_WORDS: usize = 234;
/// Samples of a frame, 10 ms.
pub const FRAME_SAMPLES: usize = 80;
/// Characters of the longest line of a call, without its line feed.
pub const LONGEST_LINE: usize = 36;
/// Frames of a call at most.
pub const MOST_FRAMES: u32 = 360_000;
/// Subframes of one rule at most.
pub const MOST_RULE: u32 = 720_000;

/// The samples of a frame.
pub type Samples = [i16; FRAME_SAMPLES];

/// A table block that was accepted.
#[derive(Debug, Clone, PartialEq, Eq)]
pub struct TableBlock([i16; TABLE_WORDS]);

impl TableBlock {
    /// The block of these words.
    ///
    /// # Errors
    /// [`Refusal::TableLength`], [`Refusal::TableDelay`].
    pub fn from_words(words: &[i16]) -> Result<Self, Refusal> {
        Refusal::check(ffi::table_check(words))?;
        let block = words.try_into().map_err(|_| Refusal::TableLength)?;
        Ok(TableBlock(block))
    }

    /// The block of a file's 3,760 bytes, the low byte of each word first.
    ///
    /// # Errors
    /// As [`TableBlock::from_words`].
    pub fn from_bytes(bytes: &[u8]) -> Result<Self, Refusal> {
        let words: [i16; TABLE_WORDS] = words(bytes).ok_or(Refusal::TableLength)?;
        TableBlock::from_words(&words)
    }

    /// Its words.
    pub fn words(&self) -> &[i16; TABLE_WORDS] {
        &self.0
    }
}

/// The state of a decoder between two frames. It may hold any words: whether they are accepted shows at the next frame.
#[derive(Debug, Clone, PartialEq, Eq)]
pub struct StateBlock([i16; STATE_WORDS]);

impl StateBlock {
    /// The state before the first frame.
    ///
    /// # Errors
    /// None where the tables were accepted, which a [`TableBlock`] always is.
    pub fn fresh(tables: &TableBlock) -> Result<Self, Refusal> {
        let mut block = [0; STATE_WORDS];
        Refusal::check(ffi::fresh_state(&tables.0, &mut block))?;
        Ok(StateBlock(block))
    }

    /// The block of these words.
    ///
    /// # Errors
    /// [`Refusal::StateLength`].
    pub fn from_words(words: &[i16]) -> Result<Self, Refusal> {
        let block = words.try_into().map_err(|_| Refusal::StateLength)?;
        Ok(StateBlock(block))
    }

    /// The block of 468 bytes, the low byte of each word first.
    ///
    /// # Errors
    /// [`Refusal::StateLength`].
    pub fn from_bytes(bytes: &[u8]) -> Result<Self, Refusal> {
        words(bytes).map(StateBlock).ok_or(Refusal::StateLength)
    }

    /// Its words.
    pub fn words(&self) -> &[i16; STATE_WORDS] {
        &self.0
    }

    /// Its words as bytes, to be saved: the low byte of each first.
    pub fn to_bytes(&self) -> [u8; 2 * STATE_WORDS] {
        let mut bytes = [0; 2 * STATE_WORDS];
        for (pair, word) in bytes.chunks_exact_mut(2).zip(self.0) {
            pair.copy_from_slice(&word.to_le_bytes());
        }
        bytes
    }

    /// How far a decoder with this state and one with the other agree from here on.
    ///
    /// # Errors
    /// [`Refusal::StateValues`], where one of the two isn't accepted.
    pub fn agreement(&self, other: &StateBlock) -> Result<Agreement, Refusal> {
        let mut agreement = 0;
        Refusal::check(ffi::agree(&self.0, &other.0, &mut agreement))?;
        Ok(match agreement {
            1 => Agreement::Parameters,
            2 => Agreement::Pulses,
            3 => Agreement::Samples,
            _ => Agreement::Nothing,
        })
    }
}

/// How far two decoders agree from here on, with the same tables, through every list of frames (of any kinds, losses too) that
/// both receive. Each says what those before it say, and more.
#[derive(Debug, Clone, Copy, PartialEq, Eq, PartialOrd, Ord, Hash)]
pub enum Agreement {
    /// Nothing can be said. It is not said that they differ.
    Nothing,
    /// Delays, pitch and fixed gains, line spectral frequencies and filter coefficients are equal.
    Parameters,
    /// And the pulses (codevectors), in concealed frames too.
    Pulses,
    /// And the samples.
    Samples,
}

/// N words, low byte first; `None` for another number of bytes.
fn words<const N: usize>(bytes: &[u8]) -> Option<[i16; N]> {
    if bytes.len() != 2 * N {
        return None;
    }
    let mut words = [0; N];
    for (word, pair) in words.iter_mut().zip(bytes.chunks_exact(2)) {
        *word = i16::from_le_bytes(pair.try_into().ok()?);
    }
    Some(words)
}

/// A frame as it was received. The last three are concealed like losses.
#[derive(Debug, Clone, Copy, PartialEq, Eq)]
pub enum Frame {
    /// Kind 0, a voice frame.
    Voice([u8; 10]),
    /// Kind 1, a silence descriptor.
    Sid([u8; 2]),
    /// Kind 2, no transmission.
    NoTransmission,
    /// Kind 3, a frame that is lost.
    Erased,
}

impl Frame {
    /// The frame of a line of a call, without its line feed.
    ///
    /// # Errors
    /// [`Refusal::LineForm`].
    pub fn parse(line: &[u8]) -> Result<Self, Refusal> {
        let (mut kind, mut payload) = (0, [0; 10]);
        Refusal::check(ffi::line(line, &mut kind, &mut payload))?;
        match kind {
            0 => Ok(Frame::Voice(payload)),
            1 => Ok(Frame::Sid([payload[0], payload[1]])),
            2 => Ok(Frame::NoTransmission),
            3 => Ok(Frame::Erased),
            _ => Err(Refusal::Kind),
        }
    }

    /// Its line of a call, without a line feed, written to the front of `out`.
    ///
    /// # Errors
    /// None: every frame has a line, and no line is longer.
    pub fn write<'o>(&self, out: &'o mut [u8; LONGEST_LINE]) -> Result<&'o [u8], Refusal> {
        let mut length = 0;
        Refusal::check(ffi::write_line(
            self.kind(),
            self.payload(),
            out,
            &mut length,
        ))?;
        out.get(..length).ok_or(Refusal::OutputLength)
    }

    /// Its kind, 0 to 3.
    pub fn kind(&self) -> u32 {
        match self {
            Frame::Voice(_) => 0,
            Frame::Sid(_) => 1,
            Frame::NoTransmission => 2,
            Frame::Erased => 3,
        }
    }

    /// Its payload: ten, two or no bytes.
    pub fn payload(&self) -> &[u8] {
        match self {
            Frame::Voice(bytes) => bytes,
            Frame::Sid(bytes) => bytes,
            Frame::NoTransmission | Frame::Erased => &[],
        }
    }
}

/// The fifteen fields of a voice frame's ten bytes: L0 L1 L2 L3 P1 P0 C1 S1 GA1 GB1 P2 C2 S2 GA2 GB2.
///
/// # Errors
/// [`Refusal::PayloadLength`].
pub fn fields(bytes: &[u8]) -> Result<[u16; 15], Refusal> {
    let mut fields = [0; 15];
    Refusal::check(ffi::fields(bytes, &mut fields))?;
    Ok(fields)
}

/// The ten bytes of a voice frame with these fifteen fields, the opposite of [`fields`]. P0 is written as it is, whether parity
/// passes or not.
///
/// # Errors
/// [`Refusal::ReceiverLength`], [`Refusal::FieldWidth`].
pub fn write_fields(fields: &[u16]) -> Result<[u8; 10], Refusal> {
    let mut bytes = [0; 10];
    Refusal::check(ffi::write_fields(fields, &mut bytes))?;
    Ok(bytes)
}

/// The ten bytes of a voice frame with these fourteen fields, all but P0, which is supplied so that parity passes. With the other
/// P0 the same fields fail it.
///
/// # Errors
/// [`Refusal::ReceiverLength`], [`Refusal::FieldWidth`].
pub fn write_fields_parity(fields: &[u16]) -> Result<[u8; 10], Refusal> {
    let mut bytes = [0; 10];
    Refusal::check(ffi::write_fields_parity(fields, &mut bytes))?;
    Ok(bytes)
}

/// The counts of a call.
#[derive(Debug, Clone, Copy, Default, PartialEq, Eq)]
pub struct Counts {
    /// Its frames.
    pub frames: u32,
    /// Those of them of kinds 1, 2 and 3.
    pub lost: u32,
    /// Its subframes by the rule of their delay: [`Rule::Thirds`].
    pub thirds: u32,
    /// [`Rule::Whole`].
    pub whole: u32,
    /// [`Rule::Relative`].
    pub relative: u32,
    /// [`Rule::BadParity`].
    pub bad_parity: u32,
    /// [`Rule::Concealed`].
    pub concealed: u32,
}

impl Counts {
    /// Counts a frame by its kind and the rules of its two subframes, as [`Report`] has them. From counts that all began at 0, the five
    /// of the rules add up to twice the frames. A kind and rules that don't go together are counted too.
    ///
    /// # Errors
    /// [`Refusal::CountLimit`].
    pub fn count(&mut self, frame: &Frame, rules: [Rule; 2]) -> Result<(), Refusal> {
        let [first, second] = rules.map(Rule::number);
        let mut numbers = self.numbers();
        Refusal::check(ffi::count(frame.kind(), first, second, &mut numbers))?;
        *self = Counts::from_numbers(numbers);
        Ok(())
    }

    /// The subframes of a rule.
    pub fn of(&self, rule: Rule) -> u32 {
        match rule {
            Rule::Thirds => self.thirds,
            Rule::Whole => self.whole,
            Rule::Relative => self.relative,
            Rule::BadParity => self.bad_parity,
            Rule::Concealed => self.concealed,
        }
    }

    /// All in their order: frames, lost, and those of rules 1 to 5.
    pub fn numbers(&self) -> [u32; 7] {
        [
            self.frames,
            self.lost,
            self.thirds,
            self.whole,
            self.relative,
            self.bad_parity,
            self.concealed,
        ]
    }

    /// The counts of these numbers, in that order.
    pub fn from_numbers(numbers: [u32; 7]) -> Self {
        let [frames, lost, thirds, whole, relative, bad_parity, concealed] = numbers;
        Counts {
            frames,
            lost,
            thirds,
            whole,
            relative,
            bad_parity,
            concealed,
        }
    }
}

/// A decoder: tables, and the state between two frames.
#[derive(Debug, Clone)]
pub struct Decoder<'t> {
    tables: &'t TableBlock,
    state: StateBlock,
}

impl<'t> Decoder<'t> {
    /// A decoder before its first frame.
    ///
    /// # Errors
    /// As [`StateBlock::fresh`].
    pub fn new(tables: &'t TableBlock) -> Result<Self, Refusal> {
        Ok(Decoder {
            tables,
            state: StateBlock::fresh(tables)?,
        })
    }

    /// A decoder that goes on from a saved state.
    pub fn resume(tables: &'t TableBlock, state: StateBlock) -> Self {
        Decoder { tables, state }
    }

    /// The 80 samples of the next frame.
    ///
    /// # Errors
    /// [`Refusal::StateValues`], where the decoder was resumed from a state that isn't accepted.
    pub fn decode(&mut self, frame: &Frame) -> Result<Samples, Refusal> {
        self.frame(frame).map(|(samples, _)| samples)
    }

    /// The 80 samples of the next frame, and its delays with their rules.
    ///
    /// # Errors
    /// As [`Decoder::decode`].
    pub fn frame(&mut self, frame: &Frame) -> Result<(Samples, Report), Refusal> {
        let mut samples = [0; FRAME_SAMPLES];
        let (mut delays, mut rules) = ([0; 4], [0; 2]);
        Refusal::check(ffi::frame(
            &self.tables.0,
            &mut self.state.0,
            frame.kind(),
            frame.payload(),
            &mut samples,
            &mut delays,
            &mut rules,
        ))?;
        Ok((samples, Report::from_numbers(delays, rules)?))
    }

    /// The state, to be saved.
    pub fn state(&self) -> &StateBlock {
        &self.state
    }
}
