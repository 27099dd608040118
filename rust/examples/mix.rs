//! A conference in Rust over the library: mix TABLES >heard. It has three legs of four frames: a G.711 leg, mu-law, and two G.729 legs
//! as lines of a call, each with a decoder of its own. For each frame and each leg it prints `(heard (leg L) (frame F))` and behind it
//! `(pcm H)`, what leg L heard in frame F: the sum of the two others, limited. Or it prints `(refused (code C) (line L))` as its last
//! form, with exit status 1. Where standard output can't be written it says why on standard error, with exit status 2.

mod common;

use common::{on_tables, print, refused};
use holdamek::{mix, Decoder, Frame, Law, Refusal, Samples, FRAME_SAMPLES};
use std::io::{self, Write};
use std::process::ExitCode;

/// A period of the G.711 leg: a square of 1 kHz, as loud as mu-law goes, so that sums with it meet the limit.
const PERIOD: [u8; 8] = [0x00, 0x00, 0x00, 0x00, 0x80, 0x80, 0x80, 0x80];

/// The frames of the two G.729 legs.
const CALLS: [[&str; 2]; 4] = [
    [
        "(frame (voice 84431a08a153cc2d7387))",
        "(frame (voice 845217f22f100d99679f))",
    ],
    ["(frame (voice 84f0190183e9cf496f85))", "(frame (quiet))"],
    [
        "(frame (voice 842b98af961f1097f20b))",
        "(frame (voice 0409172a888431c0a6cc))",
    ],
    ["(frame (lost))", "(frame (voice 8469173dfd8132de0c15))"],
];

fn main() -> ExitCode {
    let Some(path) = std::env::args().nth(1) else {
        eprintln!("usage: mix TABLES");
        return ExitCode::from(2);
    };
    on_tables("mix", &path, run)
}

/// Runs the conference; 0 if all of it, 1 if it ends with a refusal. Both decoders begin in the fresh state.
fn run(decoder: &mut Decoder, out: &mut impl Write) -> io::Result<ExitCode> {
    let mut decoders = [decoder.clone(), decoder.clone()];
    for (number, lines) in (1..).zip(&CALLS) {
        let heard = match hear(&mut decoders, lines) {
            Ok(heard) => heard,
            Err(refusal) => return refused(refusal, number, out),
        };
        for (leg, samples) in (1..).zip(&heard) {
            writeln!(out, "(heard (leg {leg}) (frame {number}))")?;
            print(samples, out)?;
        }
    }
    Ok(ExitCode::SUCCESS)
}

/// What each leg heard in a frame.
fn hear(decoders: &mut [Decoder; 2], lines: &[&str; 2]) -> Result<[Samples; 3], Refusal> {
    let tone: [u8; FRAME_SAMPLES] = std::array::from_fn(|place| PERIOD[place % PERIOD.len()]);
    let (mut legs, mut heard) = ([[0; FRAME_SAMPLES]; 3], [[0; FRAME_SAMPLES]; 3]);
    let [first, calls @ ..] = &mut legs;
    Law::Mu.read(&tone, first)?;
    for ((samples, decoder), line) in calls.iter_mut().zip(decoders).zip(lines) {
        *samples = decoder.decode(&Frame::parse(line.as_bytes())?)?;
    }
    mix(&legs, &mut heard)?;
    Ok(heard)
}
