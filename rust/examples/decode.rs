//! The decoding program in Rust over the library: decode TABLES <call >samples. It prints `(pcm H)` for each frame and then
//! `(total (frames N) (lost M))`, or `(refused (code C) (line L))` as its last form with exit status 1. Where the call can't be read
//! or the samples can't be written it says why on standard error, with exit status 2.

mod common;

use common::{on_tables, print, refused};
use holdamek::{Counts, Decoder, Frame, Refusal, Samples, LONGEST_LINE};
use std::io::{self, BufRead, Read, Write};
use std::process::ExitCode;

fn main() -> ExitCode {
    let Some(path) = std::env::args().nth(1) else {
        eprintln!("usage: decode TABLES <call");
        return ExitCode::from(2);
    };
    on_tables("decode", &path, |decoder, out| {
        decode(decoder, &mut io::stdin().lock(), out)
    })
}

/// The whole call; 0 if it ends with a total, 1 if with a refusal.
fn decode(
    decoder: &mut Decoder,
    call: &mut impl BufRead,
    out: &mut impl Write,
) -> io::Result<ExitCode> {
    let mut counts = Counts::default();
    let mut line = Vec::with_capacity(LONGEST_LINE + 1);
    loop {
        line.clear();
        call.by_ref()
            .take(LONGEST_LINE as u64 + 1)
            .read_until(b'\n', &mut line)?;
        if line.is_empty() {
            writeln!(
                out,
                "(total (frames {}) (lost {}))",
                counts.frames, counts.lost
            )?;
            return Ok(ExitCode::SUCCESS);
        }
        match next(decoder, &mut counts, &line) {
            Ok(samples) => print(&samples, out)?,
            Err(refusal) => return refused(refusal, counts.frames + 1, out),
        }
    }
}

/// The samples of a line with its line feed. An overlong or unfinished line has none.
fn next(decoder: &mut Decoder, counts: &mut Counts, line: &[u8]) -> Result<Samples, Refusal> {
    let frame = Frame::parse(line.strip_suffix(b"\n").ok_or(Refusal::LineForm)?)?;
    let (samples, report) = decoder.frame(&frame)?;
    counts.count(&frame, report.rules)?;
    Ok(samples)
}
