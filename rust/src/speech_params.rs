//! The fields of a voice frame by name.

use crate::{fields, write_fields, write_fields_parity, Refusal};

/// The fields of a voice frame by name (G.729 Table 8), in the order of their bits. A field may hold any number: whether it
/// exceeds its width shows when the frame is written.
///
/// ```
/// use holdamek::{Frame, SpeechParams, LONGEST_LINE};
/// # fn main() -> Result<(), holdamek::Refusal> {
/// let params = SpeechParams { l1: 62, p1: 117, c1: 5904, ga1: 7, ..SpeechParams::default() };
/// let frame = Frame::Voice(params.pack_with_parity()?);
/// let mut line = [0; LONGEST_LINE];
/// assert_eq!(frame.write(&mut line)?, b"(frame (voice 3e001d77100e00000000))");
/// # Ok(())
/// # }
/// ```
#[derive(Debug, Clone, Copy, Default, PartialEq, Eq, Hash)]
pub struct SpeechParams {
    /// L0, 1 bit: predictor of the line spectral frequencies.
    pub l0: u16,
    /// L1, 7 bits: their first codebook.
    pub l1: u16,
    /// L2, 5 bits: their second codebook, for the lower five.
    pub l2: u16,
    /// L3, 5 bits: the same, for the higher five.
    pub l3: u16,
    /// P1, 8 bits: delay of the first subframe.
    pub p1: u16,
    /// P0, 1 bit: parity of bits 2 to 7 of P1.
    pub p0: u16,
    /// C1, 13 bits: positions of the first subframe's pulses.
    pub c1: u16,
    /// S1, 4 bits: their signs.
    pub s1: u16,
    /// GA1, 3 bits: gains of the first subframe, first codebook.
    pub ga1: u16,
    /// GB1, 4 bits: the same, second codebook.
    pub gb1: u16,
    /// P2, 5 bits: delay of the second subframe, relative to the first's.
    pub p2: u16,
    /// C2, 13 bits: positions of the second subframe's pulses.
    pub c2: u16,
    /// S2, 4 bits: their signs.
    pub s2: u16,
    /// GA2, 3 bits: gains of the second subframe, first codebook.
    pub ga2: u16,
    /// GB2, 4 bits: the same, second codebook.
    pub gb2: u16,
}

impl SpeechParams {
    /// The fields of a voice frame's ten bytes.
    ///
    /// # Errors
    /// None: any ten bytes have their fields.
    pub fn unpack(frame: &[u8; 10]) -> Result<Self, Refusal> {
        fields(frame).map(SpeechParams::from_fields)
    }

    /// The ten bytes of a voice frame with these fields, the opposite of [`SpeechParams::unpack`]. P0 is written as it is,
    /// whether parity passes or not.
    ///
    /// # Errors
    /// [`Refusal::FieldWidth`].
    pub fn pack(&self) -> Result<[u8; 10], Refusal> {
        write_fields(&self.fields())
    }

    /// The ten bytes of a voice frame with these fields and the P0 that passes parity; their own isn't looked at.
    ///
    /// # Errors
    /// [`Refusal::FieldWidth`].
    pub fn pack_with_parity(&self) -> Result<[u8; 10], Refusal> {
        let [l0, l1, l2, l3, p1, _, c1, s1, ga1, gb1, p2, c2, s2, ga2, gb2] = self.fields();
        write_fields_parity(&[l0, l1, l2, l3, p1, c1, s1, ga1, gb1, p2, c2, s2, ga2, gb2])
    }

    /// The fields by name, from the fifteen in the order of their bits that [`fields`] gives.
    pub fn from_fields(fields: [u16; 15]) -> Self {
        let [l0, l1, l2, l3, p1, p0, c1, s1, ga1, gb1, p2, c2, s2, ga2, gb2] = fields;
        SpeechParams {
            l0,
            l1,
            l2,
            l3,
            p1,
            p0,
            c1,
            s1,
            ga1,
            gb1,
            p2,
            c2,
            s2,
            ga2,
            gb2,
        }
    }

    /// The fields in the order of their bits, as [`write_fields`] takes them.
    pub fn fields(&self) -> [u16; 15] {
        [
            self.l0, self.l1, self.l2, self.l3, self.p1, self.p0, self.c1, self.s1, self.ga1,
            self.gb1, self.p2, self.c2, self.s2, self.ga2, self.gb2,
        ]
    }
}
