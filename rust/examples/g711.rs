//! G.711 legs in Rust over the library: g711 a|mu read <leg >samples reads the bytes of a leg, A-law or mu-law, and prints `(pcm H)`
//! for each 80 samples, and for those that are left; g711 a|mu write <samples >leg turns these lines back into the leg. A line of
//! another form, or with a sample that isn't a value of the law, ends it with `(refused (code C) (line L))` on standard error and exit
//! status 1; what stood before that line is written. Where something can't be read or written it says why on standard error, with exit
//! status 2.

mod common;

use common::{finished, print};
use holdamek::{Law, Refusal, FRAME_SAMPLES};
use std::io::{self, BufRead, Read, Write};
use std::process::ExitCode;

const HEAD: &[u8] = b"(pcm ";
const TAIL: &[u8] = b")\n";
const LONGEST: usize = HEAD.len() + 4 * FRAME_SAMPLES + TAIL.len();

fn main() -> ExitCode {
    let words: Vec<String> = std::env::args().skip(1).collect();
    let words: Vec<&str> = words.iter().map(String::as_str).collect();
    let mut out = io::BufWriter::new(io::stdout().lock());
    let answer = match words[..] {
        ["a", "read"] => read_leg(Law::A, &mut io::stdin().lock(), &mut out),
        ["mu", "read"] => read_leg(Law::Mu, &mut io::stdin().lock(), &mut out),
        ["a", "write"] => write_leg(Law::A, &mut io::stdin().lock(), &mut out),
        ["mu", "write"] => write_leg(Law::Mu, &mut io::stdin().lock(), &mut out),
        _ => {
            eprintln!("usage: g711 a|mu read <leg, g711 a|mu write <samples");
            return ExitCode::from(2);
        }
    };
    finished("g711", answer, &mut out)
}

/// Prints the samples of a leg.
fn read_leg(law: Law, leg: &mut impl Read, out: &mut impl Write) -> io::Result<ExitCode> {
    let mut bytes = Vec::with_capacity(FRAME_SAMPLES);
    loop {
        bytes.clear();
        leg.by_ref()
            .take(FRAME_SAMPLES as u64)
            .read_to_end(&mut bytes)?;
        if bytes.is_empty() {
            return Ok(ExitCode::SUCCESS);
        }
        let mut samples = vec![0; bytes.len()];
        // Not refused: every byte is read.
        law.read(&bytes, &mut samples).map_err(io::Error::other)?;
        print(&samples, out)?;
    }
}

/// Writes the leg of these lines; 1 if it ends with a refusal.
fn write_leg(law: Law, lines: &mut impl BufRead, out: &mut impl Write) -> io::Result<ExitCode> {
    let mut line = Vec::with_capacity(LONGEST);
    for number in 1.. {
        line.clear();
        lines
            .by_ref()
            .take(LONGEST as u64)
            .read_until(b'\n', &mut line)?;
        if line.is_empty() {
            break;
        }
        match next(law, &line) {
            Ok(bytes) => out.write_all(&bytes)?,
            Err(refusal) => {
                let code = refusal.code();
                eprintln!("(refused (code {code}) (line {number}))");
                return Ok(ExitCode::from(1));
            }
        }
    }
    Ok(ExitCode::SUCCESS)
}

/// The bytes of a line.
fn next(law: Law, line: &[u8]) -> Result<Vec<u8>, Refusal> {
    let samples = parse(line).ok_or(Refusal::LineForm)?;
    let mut bytes = vec![0; samples.len()];
    law.write(&samples, &mut bytes)?;
    Ok(bytes)
}

/// The samples of a line with its line feed; `None` for one that isn't `(pcm H)` with at least one of them.
fn parse(line: &[u8]) -> Option<Vec<i16>> {
    let digits = line.strip_prefix(HEAD)?.strip_suffix(TAIL)?;
    if digits.is_empty() || digits.len() % 4 != 0 {
        return None;
    }
    digits.chunks(4).map(word).collect()
}

/// The sample of four digits.
fn word(digits: &[u8]) -> Option<i16> {
    let lower = |digit: &u8| matches!(digit, b'0'..=b'9' | b'a'..=b'f');
    let text = std::str::from_utf8(digits).ok()?;
    let word = u16::from_str_radix(text, 16).ok()?;
    digits.iter().all(lower).then_some(word as i16)
}
