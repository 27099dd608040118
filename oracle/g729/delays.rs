//! Delays alone, by the crate's own functions: of a frame, of a subframe as C has it, and of many in one call.

use crate::adaptive::{PitchState, decode_t1, decode_t2, parity_ok};

/// Integer and fraction of both subframes' delays, and the delay that is carried on.
pub type Delays = [i16; 5];

/// The delays of a received frame.
pub fn voice(old: i16, p1: u16, p0: u16, p2: u16) -> Delays {
    let mut tracker = PitchState { old };
    let t1 = tracker.first(p1, parity_ok(p1, p0));
    let t2 = tracker.second(p2, t1.0);
    [t1.0, t1.1, t2.0, t2.1, tracker.old]
}

/// The delays of an erased frame.
pub fn erased(old: i16) -> Delays {
    let mut tracker = PitchState { old };
    let (t1, t2) = (tracker.erased(), tracker.erased());
    [t1.0, t1.1, t2.0, t2.1, tracker.old]
}

/// A delay as C has it.
#[repr(C)]
#[derive(Clone, Copy, Debug, PartialEq, Eq)]
pub struct Thirds {
    /// The integer part.
    pub integer: i16,
    /// The thirds.
    pub fraction: i16,
}

/// How many delays one call scans.
pub const SCANNED: usize = 4096;

/// T1.
pub extern "C" fn delay_t1(p1: u16) -> Thirds {
    let (integer, fraction) = decode_t1(p1);
    Thirds { integer, fraction }
}

/// T2.
pub extern "C" fn delay_t2(p2: u16, t1: i16) -> Thirds {
    let (integer, fraction) = decode_t2(p2, t1);
    Thirds { integer, fraction }
}

/// T1 of many frames.
pub extern "C" fn scan_t1(
    p1: &[u16; SCANNED],
    integer: &mut [i16; SCANNED],
    fraction: &mut [i16; SCANNED],
) {
    for n in 0..SCANNED {
        (integer[n], fraction[n]) = decode_t1(p1[n]);
    }
}

/// T2 of many frames.
pub extern "C" fn scan_t2(
    p2: &[u16; SCANNED],
    t1: &[i16; SCANNED],
    integer: &mut [i16; SCANNED],
    fraction: &mut [i16; SCANNED],
) {
    for n in 0..SCANNED {
        (integer[n], fraction[n]) = decode_t2(p2[n], t1[n]);
    }
}
