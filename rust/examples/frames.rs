//! A test bench's traffic in Rust over the library: frames TABLES >traffic. It makes voice frames from fields by name, a steady vowel
//! whose delay grows, with a parity fault, a lost frame and one without transmission among them. Each is written as a line of a call,
//! and the line is read back and decoded. It prints the line of each frame and behind it `(pcm H)`, or `(refused (code C) (line L))`
//! as its last form with exit status 1. Where standard output can't be written it says why on standard error, with exit status 2.

mod common;

use common::{on_tables, print_frame, refused};
use holdamek::{Decoder, Frame, Refusal, Samples, SpeechParams, LONGEST_LINE};
use std::io::{self, Write};
use std::process::ExitCode;

/// A frame of the traffic; of voice its P1.
enum Step {
    Voice(u16),
    /// With the P0 that fails parity.
    Fault(u16),
    Lost,
    Quiet,
}

/// A P1 of 3 T - 58, below 197, means a delay of T samples: 40, 42 and so on.
const TRAFFIC: [Step; 12] = [
    Step::Voice(62),
    Step::Voice(68),
    Step::Voice(74),
    Step::Voice(80),
    Step::Fault(86),
    Step::Voice(92),
    Step::Lost,
    Step::Voice(104),
    Step::Voice(110),
    Step::Voice(116),
    Step::Quiet,
    Step::Voice(128),
];

fn main() -> ExitCode {
    let Some(path) = std::env::args().nth(1) else {
        eprintln!("usage: frames TABLES");
        return ExitCode::from(2);
    };
    on_tables("frames", &path, run)
}

/// Makes, prints and decodes the traffic; 0 if all of it, 1 if it ends with a refusal.
fn run(decoder: &mut Decoder, out: &mut impl Write) -> io::Result<ExitCode> {
    for (number, step) in (1..).zip(&TRAFFIC) {
        let mut room = [0; LONGEST_LINE];
        match next(decoder, step, &mut room) {
            Ok((line, samples)) => print_frame(line, &samples, out)?,
            Err(refusal) => return refused(refusal, number, out),
        }
    }
    Ok(ExitCode::SUCCESS)
}

/// The line of a frame, and the samples of the frame that is read from it.
fn next<'r>(
    decoder: &mut Decoder,
    step: &Step,
    room: &'r mut [u8; LONGEST_LINE],
) -> Result<(&'r [u8], Samples), Refusal> {
    let line = frame(step)?.write(room)?;
    let samples = decoder.decode(&Frame::parse(line)?)?;
    Ok((line, samples))
}

/// The frame of a step. A fault has the fields of a sound frame and the other P0.
fn frame(step: &Step) -> Result<Frame, Refusal> {
    Ok(match step {
        Step::Voice(p1) => Frame::Voice(vowel(*p1).pack_with_parity()?),
        Step::Fault(p1) => {
            let mut params = SpeechParams::unpack(&vowel(*p1).pack_with_parity()?)?;
            params.p0 ^= 1;
            Frame::Voice(params.pack()?)
        }
        Step::Lost => Frame::Erased,
        Step::Quiet => Frame::NoTransmission,
    })
}

/// The fields of the vowel. P0 is still to be supplied.
fn vowel(p1: u16) -> SpeechParams {
    SpeechParams {
        l0: 0,
        l1: 4,
        l2: 13,
        l3: 4,
        p1,
        p0: 0,
        c1: 5904,
        s1: 13,
        ga1: 7,
        gb1: 10,
        p2: 17, // the delay of the first subframe again
        c2: 5904,
        s2: 13,
        ga2: 7,
        gb2: 10,
    }
}
