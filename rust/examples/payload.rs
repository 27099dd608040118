//! RTP payloads in Rust over the library: payload TABLES >frames. It takes five payloads apart, by RFC 3551: two voice frames, a voice
//! frame and a SID frame, no frame, 15 bytes, which are refused, and a SID frame alone. It prints `(payload N (frames M))` for payload
//! N, and then for each of its frames the line of a call and `(pcm H)`; for one that is refused `(refused (code C) (payload N))`, and
//! goes on with the next. Where the tables are refused it prints `(refused (code C) (line 0))`, with exit status 1. Where standard
//! output can't be written it says why on standard error, with exit status 2.

mod common;

use common::{on_tables, print_frame, refused};
use holdamek::{Decoder, Frame, PayloadFrames, Refusal, Samples, LONGEST_LINE};
use std::io::{self, Write};
use std::process::ExitCode;

/// The payloads as they come off the wire, behind the headers of their packets.
const PAYLOADS: [&[u8]; 5] = [
    &[
        0x53, 0xc5, 0x19, 0xc3, 0xd1, 0x25, 0xce, 0xfc, 0xb0, 0x24, 0xd3, 0xac, 0xd9, 0x8e, 0x5c,
        0x75, 0xef, 0x22, 0x83, 0xb2,
    ],
    &[
        0xd3, 0x82, 0x59, 0x96, 0x2f, 0x8c, 0x0b, 0x7d, 0xc4, 0x5c, 0xf3, 0x03,
    ],
    &[],
    &[
        0xd3, 0x70, 0x57, 0x62, 0x22, 0x69, 0x6c, 0xbe, 0x9a, 0xaf, 0x53, 0xe3, 0xd6, 0xdd, 0x53,
    ],
    &[0xb9, 0xcf],
];

fn main() -> ExitCode {
    let Some(path) = std::env::args().nth(1) else {
        eprintln!("usage: payload TABLES");
        return ExitCode::from(2);
    };
    on_tables("payload", &path, run)
}

/// Takes the payloads apart; 0 unless a frame is refused.
fn run(decoder: &mut Decoder, out: &mut impl Write) -> io::Result<ExitCode> {
    for (number, payload) in (1..).zip(PAYLOADS) {
        let frames = match PayloadFrames::new(payload) {
            Ok(frames) => frames,
            Err(refusal) => {
                let code = refusal.code();
                writeln!(out, "(refused (code {code}) (payload {number}))")?;
                continue;
            }
        };
        writeln!(out, "(payload {number} (frames {}))", frames.len())?;
        for frame in frames {
            let mut room = [0; LONGEST_LINE];
            match decode(decoder, &frame.into(), &mut room) {
                Ok((line, samples)) => print_frame(line, &samples, out)?,
                // Not reached: no frame of a payload that was counted is refused.
                Err(refusal) => return refused(refusal, number, out),
            }
        }
    }
    Ok(ExitCode::SUCCESS)
}

/// The line of a frame, and its samples.
fn decode<'r>(
    decoder: &mut Decoder,
    frame: &Frame,
    room: &'r mut [u8; LONGEST_LINE],
) -> Result<(&'r [u8], Samples), Refusal> {
    let line = frame.write(room)?;
    Ok((line, decoder.decode(frame)?))
}
