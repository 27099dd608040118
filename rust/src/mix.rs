//! What each leg of a conference heard.

use crate::{ffi, Refusal, Samples};

/// Legs of a conference at most.
pub const MOST_LEGS: usize = 8;

/// Writes what each leg of a conference heard, given a frame of each, whether its samples come from G.711 or G.729. `heard` gets as
/// many frames, in the order of the legs: at each place the sum of all other legs' samples, limited to 16 bits. Only the whole sum is
/// limited, nothing on the way to it. A leg alone heard zeros, and of two legs each heard the other unchanged.
///
/// ```
/// use holdamek::{mix, Refusal};
/// # fn main() -> Result<(), Refusal> {
/// let legs = [[1000; 80], [30000; 80], [2000; 80]];
/// let mut heard = [[0; 80]; 3];
/// mix(&legs, &mut heard)?;
/// assert_eq!(heard, [[32000; 80], [3000; 80], [31000; 80]]);
/// mix(&[[30000; 80]; 3], &mut heard)?;
/// assert_eq!(heard, [[32767; 80]; 3]);
/// assert_eq!(mix(&[[0; 80]; 9], &mut heard), Err(Refusal::LegsLength));
/// # Ok(())
/// # }
/// ```
///
/// # Errors
/// [`Refusal::LegsLength`], where there are no legs or more than [`MOST_LEGS`]; [`Refusal::OutputLength`], where `heard` has not as
/// many frames as there are legs.
pub fn mix(legs: &[Samples], heard: &mut [Samples]) -> Result<(), Refusal> {
    Refusal::check(ffi::mix(legs.as_flattened(), heard.as_flattened_mut()))
}
