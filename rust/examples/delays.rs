//! Delays with their rules in Rust over the library: delays TABLES >delays. It has ten frames as lines of a call, so that every rule is
//! among them. For each it prints the line and behind it `(delays (first T) (rule R) (second T) (rule R))`: the delay of each subframe in
//! thirds of a sample, and how it was found, by the number of its rule. Last it prints
//! `(counts (frames N) (lost M) (thirds A) (whole B) (relative C) (bad-parity D) (concealed E))`, or `(refused (code C) (line L))` with exit
//! status 1. Where standard output can't be written it says why on standard error, with exit status 2.

mod common;

use common::{on_tables, refused};
use holdamek::{delays, Counts, Decoder, Frame, Refusal, Report};
use std::io::{self, Write};
use std::process::ExitCode;

/// P1 is 62, 196, 197, 86 with the P0 that fails parity, and 255; then no voice; then 3 with the P0 that fails parity, and 62.
const CALL: [&str; 10] = [
    "(frame (voice 04690fb710df51b886fa))",
    "(frame (voice 0469311710df40b886fa))",
    "(frame (voice 0469315710df5fb886fa))",
    "(frame (voice 046915b710df49b886fa))",
    "(frame (voice 04693ff710df5fb886fa))",
    "(frame (sid f303))",
    "(frame (lost))",
    "(frame (quiet))",
    "(frame (voice 046900d710df50b886fa))",
    "(frame (voice 04690fb710df51b886fa))",
];

/// The word of a state that has the delay that is carried into the next frame.
const CARRIED: usize = 61;

fn main() -> ExitCode {
    let Some(path) = std::env::args().nth(1) else {
        eprintln!("usage: delays TABLES");
        return ExitCode::from(2);
    };
    on_tables("delays", &path, run)
}

/// Decodes the call; 0 if all of it, 1 if it ends with a refusal.
fn run(decoder: &mut Decoder, out: &mut impl Write) -> io::Result<ExitCode> {
    let mut counts = Counts::default();
    let mut carried = decoder.state().words()[CARRIED];
    for (number, line) in (1..).zip(CALL) {
        let report = match next(decoder, &mut carried, &mut counts, line) {
            Ok(report) => report,
            Err(refusal) => return refused(refusal, number, out),
        };
        let [first, second] = report.delays.map(|delay| delay.thirds());
        let [one, two] = report.rules.map(|rule| rule.number());
        writeln!(out, "{line}")?;
        writeln!(
            out,
            "(delays (first {first}) (rule {one}) (second {second}) (rule {two}))"
        )?;
    }
    print_counts(&counts, out)?;
    Ok(ExitCode::SUCCESS)
}

/// What the frame of a line hands up. `delays` tells the rules before the frame is decoded, so that a frame that isn't counted isn't
/// decoded either; what the decoder then hands up is the same.
fn next(
    decoder: &mut Decoder,
    carried: &mut i16,
    counts: &mut Counts,
    line: &str,
) -> Result<Report, Refusal> {
    let frame = Frame::parse(line.as_bytes())?;
    counts.count(&frame, delays(carried, &frame)?.rules)?;
    let (_, report) = decoder.frame(&frame)?;
    Ok(report)
}

fn print_counts(counts: &Counts, out: &mut impl Write) -> io::Result<()> {
    let names = [
        "frames",
        "lost",
        "thirds",
        "whole",
        "relative",
        "bad-parity",
        "concealed",
    ];
    write!(out, "(counts")?;
    for (name, count) in names.iter().zip(counts.numbers()) {
        write!(out, " ({name} {count})")?;
    }
    writeln!(out, ")")
}
