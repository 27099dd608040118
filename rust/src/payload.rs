//! The frames of an RTP payload.

use crate::{ffi, Frame, Refusal};
use std::iter::FusedIterator;
use std::ops::Range;

/// A frame of an RTP payload, as the part of the payload that it occupies. It becomes a [`Frame`] by `into`.
#[derive(Debug, Clone, Copy, PartialEq, Eq, Hash)]
pub enum PayloadFrame<'a> {
    /// Kind 0, a voice frame.
    Voice(&'a [u8; 10]),
    /// Kind 1, a silence descriptor (Annex B).
    Sid(&'a [u8; 2]),
}

impl<'a> PayloadFrame<'a> {
    /// Its kind, 0 or 1.
    pub fn kind(&self) -> u32 {
        match self {
            PayloadFrame::Voice(_) => 0,
            PayloadFrame::Sid(_) => 1,
        }
    }

    /// The part of the payload that it occupies: ten or two bytes.
    pub fn bytes(&self) -> &'a [u8] {
        match self {
            PayloadFrame::Voice(bytes) => *bytes,
            PayloadFrame::Sid(bytes) => *bytes,
        }
    }
}

impl From<PayloadFrame<'_>> for Frame {
    fn from(frame: PayloadFrame) -> Self {
        match frame {
            PayloadFrame::Voice(bytes) => Frame::Voice(*bytes),
            PayloadFrame::Sid(bytes) => Frame::Sid(*bytes),
        }
    }
}

/// The number of frames of an RTP payload (RFC 3551, section 4.5.6): voice frames of ten bytes each, then at most one SID frame of
/// two. An empty payload has 0.
///
/// # Errors
/// [`Refusal::PayloadRemainder`].
pub fn payload_frames(payload: &[u8]) -> Result<usize, Refusal> {
    let count = ffi::payload_frames(payload);
    Refusal::check(count.code)?;
    Ok(count.frames)
}

/// The frame of an index, from 0, of an RTP payload. Nothing is copied: it is the part of the payload that the frame occupies.
///
/// ```
/// use holdamek::{payload_frame, PayloadFrame, Refusal};
/// let payload = [7; 12];
/// assert_eq!(payload_frame(&payload, 0), Ok(PayloadFrame::Voice(&[7; 10])));
/// assert_eq!(payload_frame(&payload, 1), Ok(PayloadFrame::Sid(&[7; 2])));
/// assert_eq!(payload_frame(&payload, 2), Err(Refusal::FrameIndex));
/// ```
///
/// # Errors
/// [`Refusal::PayloadRemainder`], [`Refusal::FrameIndex`].
pub fn payload_frame(payload: &[u8], index: usize) -> Result<PayloadFrame<'_>, Refusal> {
    let part = ffi::payload_frame(payload, index);
    Refusal::check(part.code)?;
    let behind = payload.get(part.start..).unwrap_or_default();
    let bytes = behind.get(..part.length).unwrap_or_default();
    let frame = match part.kind {
        0 => bytes.try_into().map(PayloadFrame::Voice),
        _ => bytes.try_into().map(PayloadFrame::Sid),
    };
    // A part has the length of its kind, which is proved (crates/rtp, part-length): no such refusal is given.
    frame.map_err(|_| Refusal::PayloadLength)
}

/// The frames of an RTP payload in the order of their indexes, each the part of the payload that it occupies; joined they are the
/// payload.
///
/// ```
/// use holdamek::{Decoder, PayloadFrames, Refusal, TableBlock};
/// # fn main() -> Result<(), Box<dyn std::error::Error>> {
/// let tables = TableBlock::from_bytes(&std::fs::read("../examples/tables.g729")?)?;
/// let mut decoder = Decoder::new(&tables)?;
/// let payload = [0; 22]; // two voice frames and a SID frame
/// for frame in PayloadFrames::new(&payload)? {
///     let samples = decoder.decode(&frame.into())?;
///     println!("kind {}, first sample {}", frame.kind(), samples[0]);
/// }
/// assert_eq!(PayloadFrames::new(&payload)?.len(), 3);
/// assert_eq!(PayloadFrames::new(&[0; 15]).err(), Some(Refusal::PayloadRemainder));
/// # Ok(())
/// # }
/// ```
#[derive(Debug, Clone)]
pub struct PayloadFrames<'a> {
    payload: &'a [u8],
    indexes: Range<usize>,
}

impl<'a> PayloadFrames<'a> {
    /// The frames of this payload.
    ///
    /// # Errors
    /// [`Refusal::PayloadRemainder`].
    pub fn new(payload: &'a [u8]) -> Result<Self, Refusal> {
        let indexes = 0..payload_frames(payload)?;
        Ok(PayloadFrames { payload, indexes })
    }

    /// The frame of an index that was taken. None is refused, since all are below the number of frames.
    fn frame(&self, index: usize) -> Option<PayloadFrame<'a>> {
        payload_frame(self.payload, index).ok()
    }
}

impl<'a> Iterator for PayloadFrames<'a> {
    type Item = PayloadFrame<'a>;

    fn next(&mut self) -> Option<Self::Item> {
        let index = self.indexes.next()?;
        self.frame(index)
    }

    fn nth(&mut self, n: usize) -> Option<Self::Item> {
        let index = self.indexes.nth(n)?;
        self.frame(index)
    }

    fn size_hint(&self) -> (usize, Option<usize>) {
        self.indexes.size_hint()
    }
}

impl DoubleEndedIterator for PayloadFrames<'_> {
    fn next_back(&mut self) -> Option<Self::Item> {
        let index = self.indexes.next_back()?;
        self.frame(index)
    }
}

impl ExactSizeIterator for PayloadFrames<'_> {}

impl FusedIterator for PayloadFrames<'_> {}
