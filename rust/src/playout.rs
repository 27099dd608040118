//! The trying of playout depths.

use crate::{ffi, Refusal};

/// Frames, and arrivals, that a playout depth is tried on at most.
pub const MOST_PLAYOUT: usize = 4096;

/// Tries a playout depth on the arrivals of a call's frames, and returns how many frames would be lost. There is a frame for each of
/// `kinds`: frame i, from 0, is played at start + depth + 10 i milliseconds, summed without wrapping. Arrival j is of frame
/// `numbers[j]`, at `times[j]`; a frame may arrive several times or never, and arrivals stand in any order. The kind of each frame
/// becomes 0, voice, if one of its arrivals is at or before the time at which it is played, else 3, erased. A greater depth never
/// makes a played frame lost.
///
/// ```
/// use holdamek::{playout, Refusal};
/// # fn main() -> Result<(), Refusal> {
/// // Frame 2 overtook frame 1, frame 0 came twice, and frame 3 never.
/// let (numbers, times) = ([0, 2, 1, 0], [1012, 1035, 1040, 1050]);
/// let mut kinds = [0; 4];
/// assert_eq!(playout(1000, 15, &numbers, &times, &mut kinds)?, 2);
/// assert_eq!(kinds, [0, 3, 0, 3]);
/// assert_eq!(playout(1000, 30, &numbers, &times, &mut kinds)?, 1);
/// assert_eq!(kinds, [0, 0, 0, 3]);
/// assert_eq!(playout(1000, 30, &[4], &[1000], &mut kinds), Err(Refusal::ArrivalNumber));
/// # Ok(())
/// # }
/// ```
///
/// # Errors
/// [`Refusal::PlayoutLimit`], where there are more frames or more arrivals than [`MOST_PLAYOUT`]; [`Refusal::ArrivalNumber`], where the
/// number of an arrival is no frame's; [`Refusal::OutputLength`], where there are not as many times as numbers.
pub fn playout(
    start: u32,
    depth: u32,
    numbers: &[u32],
    times: &[u32],
    kinds: &mut [u32],
) -> Result<u32, Refusal> {
    // A count of more than 32 bits is refused like the greatest of these.
    let frames = u32::try_from(kinds.len()).unwrap_or(u32::MAX);
    let mut lost = 0;
    Refusal::check(ffi::playout(
        frames, start, depth, numbers, times, kinds, &mut lost,
    ))?;
    Ok(lost)
}
