//! The decoding program, answered by the Rust, and the measurement of its speed.

use crate::blocks;
use crate::text::{self, FrameLine, Next};
use g729::harness::{self, Samples, StateBlock};
use g729::{Decoder, FRAME_SAMPLES, Tables};
use std::hint::black_box;
use std::io::{self, BufRead, Write};
use std::path::Path;
use std::time::Instant;

/// The most frames a call may have.
const MOST: usize = 360_000;

/// A refusal: its code and its line.
type Refusal = (u8, usize);

pub struct Job<'a> {
    pub tables: &'a Path,
    /// The state to start from; fresh if none.
    pub state: Option<&'a Path>,
    /// Where to write the state in the end.
    pub save: Option<&'a Path>,
    /// Whether every frame goes through the postfilter too. The output is the same.
    pub whole: bool,
}

/// Decodes the call on `input`. True if it ended with a total, false if with a refusal.
pub fn run(job: &Job, input: &mut impl BufRead, out: &mut impl Write) -> io::Result<bool> {
    let outcome = match open(job) {
        Ok((tables, state)) => {
            let mut decoder = start(&tables, state.as_ref());
            let outcome = decode_call(&mut decoder, job.whole, input, out)?;
            if let Some(path) = job.save {
                std::fs::write(path, blocks::bytes(&harness::save(&decoder)))?;
            }
            outcome
        }
        Err(code) => Err((code, 0)),
    };
    match outcome {
        Ok((frames, lost)) => writeln!(out, "(total (frames {frames}) (lost {lost}))")?,
        Err((code, line)) => writeln!(out, "(refused (code {code}) (line {line}))")?,
    }
    out.flush()?;
    Ok(outcome.is_ok())
}

/// The blocks of a job, or the number of the first refusal.
fn open(job: &Job) -> Result<(Tables, Option<StateBlock>), u8> {
    let tables = harness::tables(&blocks::read_tables(job.tables)?);
    let state = job.state.map(blocks::read_state).transpose()?;
    Ok((tables, state))
}

/// A decoder in the given state, or in the fresh one.
pub fn start<'t>(tables: &'t Tables, state: Option<&StateBlock>) -> Decoder<'t> {
    state.map_or_else(|| Decoder::new(tables), |s| harness::load(tables, s))
}

/// Prints the samples of every frame. Returns the numbers of frames and of lost ones.
fn decode_call(
    decoder: &mut Decoder,
    whole: bool,
    input: &mut impl BufRead,
    out: &mut impl Write,
) -> io::Result<Result<(usize, usize), Refusal>> {
    let (mut frames, mut lost) = (0, 0);
    let mut line = Vec::new();
    loop {
        let frame = match text::next(input, &mut line)? {
            Next::Frame(frame) => frame,
            Next::Malformed => return Ok(Err((9, frames + 1))),
            Next::End => return Ok(Ok((frames, lost))),
        };
        if frames == MOST {
            return Ok(Err((10, frames + 1)));
        }
        out.write_all(&text::pcm(&decode(decoder, whole, &frame)))?;
        frames += 1;
        lost += usize::from(frame.kind != 0);
    }
}

fn decode(decoder: &mut Decoder, whole: bool, line: &FrameLine) -> Samples {
    if whole {
        return harness::decode_whole(decoder, line.frame());
    }
    let mut samples = [0; FRAME_SAMPLES];
    decoder.decode(line.frame(), &mut samples);
    samples
}

/// Decodes a call `times` times, each from the fresh state, and prints frames per second, over
/// all and in the fastest time.
pub fn bench(tables: &Tables, call: &[FrameLine], times: usize) {
    let (mut total, mut fastest) = (0.0, f64::INFINITY);
    for _ in 0..times {
        let begin = Instant::now();
        let mut decoder = Decoder::new(tables);
        for line in call {
            black_box(decode(&mut decoder, false, black_box(line)));
        }
        let seconds = begin.elapsed().as_secs_f64();
        total += seconds;
        fastest = seconds.min(fastest);
    }
    let frames = call.len() as f64;
    let (rate, best) = (frames * times as f64 / total, frames / fastest);
    println!("{rate:.0} frames/s, fastest {best:.0} frames/s");
}
