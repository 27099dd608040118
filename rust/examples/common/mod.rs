//! What the example programs in Rust share: tables from a file, printed forms and exit statuses.

#![allow(dead_code)] // no program uses all of it

use holdamek::{Decoder, Refusal, Samples, TableBlock, FRAME_SAMPLES};
use std::io::{self, Write};
use std::process::ExitCode;

/// Standard output, buffered.
pub type Out = io::BufWriter<io::StdoutLock<'static>>;

/// Runs a program on a decoder before its first frame, with the tables of a file, and returns the exit status.
pub fn on_tables(
    program: &str,
    path: &str,
    run: impl FnOnce(&mut Decoder, &mut Out) -> io::Result<ExitCode>,
) -> ExitCode {
    let mut out = io::BufWriter::new(io::stdout().lock());
    let tables = TableBlock::from_bytes(&read(path));
    let decoder = tables.as_ref().map_err(|refusal| *refusal);
    let answer = match decoder.and_then(Decoder::new) {
        Ok(mut decoder) => run(&mut decoder, &mut out),
        Err(refusal) => refused(refusal, 0, &mut out),
    };
    finished(program, answer, &mut out)
}

/// The bytes of a file. One that can't be read is refused like an empty one.
fn read(path: &str) -> Vec<u8> {
    std::fs::read(path).unwrap_or_else(|error| {
        eprintln!("{path}: {error}");
        Vec::new()
    })
}

/// Four digits for each sample of a frame, or of fewer; a `write!` for each would take longer than decoding it.
pub fn print(samples: &[i16], out: &mut impl Write) -> io::Result<()> {
    let mut digits = [0; 4 * FRAME_SAMPLES];
    for (four, sample) in digits.chunks_exact_mut(4).zip(samples) {
        let [high, low] = sample.to_be_bytes().map(usize::from);
        let nibbles = [high >> 4, high & 15, low >> 4, low & 15];
        four.copy_from_slice(&nibbles.map(|nibble| b"0123456789abcdef"[nibble]));
    }
    out.write_all(b"(pcm ")?;
    out.write_all(&digits[..4 * samples.len()])?;
    out.write_all(b")\n")
}

/// The line of a frame and its samples.
pub fn print_frame(line: &[u8], samples: &Samples, out: &mut impl Write) -> io::Result<()> {
    out.write_all(line)?;
    out.write_all(b"\n")?;
    print(samples, out)
}

/// Prints a refusal.
pub fn refused(refusal: Refusal, line: u32, out: &mut impl Write) -> io::Result<ExitCode> {
    writeln!(out, "(refused (code {}) (line {line}))", refusal.code())?;
    Ok(ExitCode::from(1))
}

/// The exit status. What is still in the buffer is written here: a full disk may show only now.
pub fn finished(program: &str, answer: io::Result<ExitCode>, out: &mut impl Write) -> ExitCode {
    let written = answer.and_then(|code| out.flush().map(|()| code));
    written.unwrap_or_else(|error| {
        eprintln!("{program}: {error}");
        ExitCode::from(2)
    })
}
