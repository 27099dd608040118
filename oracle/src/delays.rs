//! The delays of every P1 with both P0, every P2 and every carried delay that a state may hold: what replay_delays must print.

use crate::blocks;
use g729::delays::{self, Delays};
use std::io::{self, Write};
use std::ops::RangeInclusive;

const CARRIED: RangeInclusive<i16> = 19..=144;
/// Bits above P1, P0 and P2, which are not read; above P1 an odd number of them, which a parity over more than P1 would tell.
const ABOVE: [u16; 3] = [0x7f00, !1, !31];

/// A line for each P1, with the check sums of all its frames, without the bits above the fields and with them; then that of erased frames.
pub fn list(out: &mut impl Write) -> io::Result<()> {
    for p1 in 0..256 {
        let plain = sum(voice(p1, [0; 3]));
        let above = sum(voice(p1, ABOVE));
        writeln!(out, "p1 {p1} {plain:08x} {above:08x}")?;
    }
    writeln!(out, "erased {:08x}", sum(CARRIED.map(delays::erased)))
}

/// All frames of a P1, with these bits above the fields.
fn voice(p1: u16, above: [u16; 3]) -> impl Iterator<Item = Delays> {
    let fields = (0..2).flat_map(|p0| (0..32).map(move |p2| (p0, p2)));
    fields.flat_map(move |(p0, p2)| {
        CARRIED.map(move |old| delays::voice(old, p1 | above[0], p0 | above[1], p2 | above[2]))
    })
}

fn sum(frames: impl Iterator<Item = Delays>) -> u32 {
    let words: Vec<i16> = frames.flatten().collect();
    blocks::crc32(&blocks::bytes(&words))
}
