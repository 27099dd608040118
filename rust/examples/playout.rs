//! Playout depths in Rust over the library: playout >losses. It has the arrivals of 20 frames as a capture gives them, by their times:
//! some frames overtook others, two came twice, and one never came. For each depth from 0 to 200 ms, by tens, it prints
//! `(playout (depth D) (lost N) (kinds K))`: how many frames would be lost at that depth, and the kind of each, 0 voice or 3 lost. Or it
//! prints `(refused (code C) (line 0))` as its last form, with exit status 1. Where standard output can't be written it says why on
//! standard error, with exit status 2.

mod common;

use common::{finished, refused};
use holdamek::playout;
use std::io::{self, Write};
use std::process::ExitCode;

const FRAMES: usize = 20;
const START: u32 = 1000;

/// Which frame arrived, and when, in milliseconds: frame i was sent at 1000 + 10 i.
const NUMBERS: [u32; 21] = [
    0, 1, 2, 4, 3, 6, 11, 7, 8, 9, 10, 12, 14, 15, 18, 15, 17, 13, 13, 16, 19,
];
const TIMES: [u32; 21] = [
    1012, 1025, 1029, 1062, 1068, 1077, 1130, 1130, 1135, 1136, 1137, 1140, 1170, 1178, 1199, 1203,
    1211, 1240, 1268, 1340, 1410,
];

fn main() -> ExitCode {
    if std::env::args().count() != 1 {
        eprintln!("usage: playout");
        return ExitCode::from(2);
    }
    let mut out = io::BufWriter::new(io::stdout().lock());
    let answer = run(&mut out);
    finished("playout", answer, &mut out)
}

/// Tries the depths; 1 if it ends with a refusal.
fn run(out: &mut impl Write) -> io::Result<ExitCode> {
    let mut kinds = [0; FRAMES];
    for depth in (0..=200).step_by(10) {
        let lost = match playout(START, depth, &NUMBERS, &TIMES, &mut kinds) {
            Ok(lost) => lost,
            // Not reached: every number is below 20.
            Err(refusal) => return refused(refusal, 0, out),
        };
        let digits: String = kinds.iter().map(u32::to_string).collect();
        writeln!(
            out,
            "(playout (depth {depth}) (lost {lost}) (kinds {digits}))"
        )?;
    }
    Ok(ExitCode::SUCCESS)
}
