//! Prints a frame's stages: one line for each group of values, `NAME SUBFRAME V V V ...`, the
//! subframe being 1 or 2, or 0 for a value of the whole frame.

use g729::harness::StateBlock;
use g729::stages::{FrameStages, SubframeStages};
use std::fmt::Display;
use std::io::{self, Write};

/// The lines of frame `number`, counted from 1, that left the state block `state`. A concealed
/// frame has no fields and no parity: their lines hold no values.
pub fn frame(
    out: &mut impl Write,
    number: usize,
    kind: usize,
    stages: &FrameStages,
    state: &StateBlock,
) -> io::Result<()> {
    line(out, "frame", 0, [number, kind])?;
    line(out, "fields", 0, stages.fields.into_iter().flatten())?;
    line(out, "parity", 0, stages.parity.map(u8::from))?;
    line(out, "omega_hat", 0, stages.omega_hat)?;
    line(out, "l_hat", 0, stages.l_hat)?;
    for n in [0, 1] {
        line(out, "q", n + 1, stages.q[n])?;
    }
    for n in [0, 1] {
        line(out, "a_hat", n + 1, stages.a_hat[n])?;
    }
    for n in [0, 1] {
        subframe(out, n + 1, &stages.subframes[n])?;
    }
    line(out, "samples", 0, stages.samples())?;
    line(out, "state", 0, *state)
}

fn subframe(out: &mut impl Write, n: usize, stages: &SubframeStages) -> io::Result<()> {
    line(out, "t", n, [stages.t.0, stages.t.1])?;
    line(out, "v", n, stages.v)?;
    line(out, "index", n, [stages.index.0, stages.index.1])?;
    line(out, "codevector", n, stages.codevector)?;
    line(out, "beta", n, [stages.beta])?;
    line(out, "sharpened", n, stages.sharpened)?;
    line(out, "g", n, [stages.g.gp, stages.g.gc])?;
    line(out, "u", n, stages.u)?;
    line(out, "saturated", n, [u8::from(stages.saturated)])
}

fn line<V: Display>(
    out: &mut impl Write,
    name: &str,
    subframe: usize,
    values: impl IntoIterator<Item = V>,
) -> io::Result<()> {
    write!(out, "{name} {subframe}")?;
    for value in values {
        write!(out, " {value}")?;
    }
    writeln!(out)
}
