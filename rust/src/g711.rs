//! The legs of a call in G.711.

use crate::{ffi, Refusal};

/// A law of G.711, by which a byte is read as a sample.
///
/// ```
/// use holdamek::{Law, Refusal};
/// # fn main() -> Result<(), Refusal> {
/// let mut samples = [0; 2];
/// Law::Mu.read(&[0x00, 0x80], &mut samples)?;
/// assert_eq!(samples, [-32124, 32124]);
/// Law::A.read(&[0xd5, 0x55], &mut samples)?;
/// assert_eq!(samples, [8, -8]);
/// let mut bytes = [0; 2];
/// Law::A.write(&samples, &mut bytes)?;
/// assert_eq!(bytes, [0xd5, 0x55]);
/// assert_eq!(Law::A.write(&[8, 9], &mut bytes), Err(Refusal::NoTableValue));
/// # Ok(())
/// # }
/// ```
#[derive(Debug, Clone, Copy, PartialEq, Eq, Hash)]
pub enum Law {
    /// A-law: 256 values from -32256 to 32256, none of them 0.
    A,
    /// Mu-law: 255 values from -32124 to 32124.
    Mu,
}

impl Law {
    /// Its number, 1 or 2.
    pub fn number(self) -> u32 {
        match self {
            Law::A => 1,
            Law::Mu => 2,
        }
    }

    /// Reads each byte as a sample.
    ///
    /// # Errors
    /// [`Refusal::OutputLength`], where there are not as many samples as bytes.
    pub fn read(self, bytes: &[u8], samples: &mut [i16]) -> Result<(), Refusal> {
        Refusal::check(ffi::g711_read(self.number(), bytes, samples))
    }

    /// Turns each sample back into the byte that is read as it; mu-law 0, which 7F and FF are read as, into FF. No sample is
    /// rounded, and where one is refused no byte is written.
    ///
    /// # Errors
    /// [`Refusal::OutputLength`], where there are not as many bytes as samples; [`Refusal::NoTableValue`].
    pub fn write(self, samples: &[i16], bytes: &mut [u8]) -> Result<(), Refusal> {
        Refusal::check(ffi::g711_write(self.number(), samples, bytes))
    }
}
