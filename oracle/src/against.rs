//! g729-compare: the proved library and the Rust in one process, fed the same tables, states and frames. First every sample and every
//! state word is compared, then both are timed.

// The modules are those of g729-oracle, which uses more of them.
#![allow(dead_code)]

mod blocks;
mod far;
mod ffi;
mod generate;
mod library;
mod measure;
mod pack;
mod proved;
mod real;
mod rng;
mod rtp;
mod rtp_compare;
mod scan;
mod speech;
mod text;
mod trials;

use g729::bitstream::SpeechParams;
use g729::{FRAME_SAMPLES, harness, stages};
use generate::{CALL_KINDS, STATE_KINDS, TABLE_KINDS};
use rng::Rng;
use std::process::ExitCode;
use text::FrameLine;

const USAGE: &str = "usage: g729-compare [--seed N] [--frames N] [--rounds N]
       g729-compare far SEED FRAMES
       g729-compare pack SEED N
       g729-compare rtp SEED N
       g729-compare scan LIBRARY ..
  --seed N     of all that is drawn (1)
  --frames N   how many frames are compared, at least (200000)
  --rounds N   how often each class is timed (15); 0 leaves the measurement out";

/// Frames of one compared call.
const CALL: usize = 40;

fn main() -> ExitCode {
    let args: Vec<String> = std::env::args().skip(1).collect();
    if let [name, paths @ ..] = args.as_slice()
        && name == "scan"
    {
        return scanned(paths);
    }
    if let [name, seed, count] = args.as_slice()
        && let (Ok(seed), Ok(count)) = (seed.parse(), count.parse())
        && let Some(wrong) = subcommand(name, seed, count)
    {
        return ExitCode::from(u8::from(wrong > 0));
    }
    let (mut seed, mut count, mut rounds) = (1, 200_000, 15);
    for option in args.chunks(2) {
        let value = option.get(1).and_then(|v| v.parse::<u64>().ok());
        match (option[0].as_str(), value) {
            ("--seed", Some(n)) => seed = n,
            ("--frames", Some(n)) => count = n,
            ("--rounds", Some(n)) => rounds = n,
            _ => {
                eprintln!("{USAGE}");
                return ExitCode::from(2);
            }
        }
    }
    let differing = compare(seed, count as usize);
    if rounds > 0 {
        println!();
        measure::print(seed, rounds);
    }
    ExitCode::from(u8::from(differing > 0))
}

/// Runs what is named, and returns how much of it is wrong.
fn subcommand(name: &str, seed: u64, count: usize) -> Option<usize> {
    match name {
        "far" => Some(far_decoder(seed, count)),
        "pack" => Some(pack::run(seed, count)),
        "rtp" => Some(rtp_compare::run(seed, count)),
        _ => None,
    }
}

fn scanned(paths: &[String]) -> ExitCode {
    match scan::run(paths) {
        Ok(differ) => ExitCode::from(u8::from(differ > 0)),
        Err(error) => {
            eprintln!("g729-compare: {error}");
            ExitCode::from(2)
        }
    }
}

fn far_decoder(seed: u64, frames: usize) -> usize {
    let rng = &mut Rng::new(seed);
    let block = generate::tables(rng, "real").expect("a kind of tables");
    let calls = frames / 100;
    let refused = proved::refused_comparisons(rng, &block, calls);
    println!("refusals: {calls} calls, wrong {refused}\n");
    refused + trials::run(seed, frames, Some(proved::comparison))
}

/// Compares at least `count` frames over all kinds of tables, states and calls, and prints a line for each kind of
/// tables. Returns how many calls differ.
fn compare(seed: u64, count: usize) -> usize {
    let mut rng = Rng::new(seed);
    let mut calls = [0; TABLE_KINDS.len()];
    let mut differing = [0; TABLE_KINDS.len()];
    for round in 0..count.div_ceil(CALL) {
        let at = round % TABLE_KINDS.len();
        calls[at] += 1;
        differing[at] += usize::from(!one_call(&mut rng, TABLE_KINDS[at], round));
    }
    println!(
        "compared: every sample and state word, the fields and a line for every frame; seed {seed}"
    );
    println!("tables         calls     frames    samples  state words  differing calls");
    let row = |name: &str, calls: usize, differing: usize| {
        let n = calls * CALL;
        let (samples, words) = (n * FRAME_SAMPLES, n * harness::STATE_WORDS);
        println!("{name:10} {calls:9} {n:10} {samples:10} {words:12} {differing:16}");
    };
    for ((kind, calls), differing) in TABLE_KINDS.iter().zip(calls).zip(differing) {
        row(kind, calls, differing);
    }
    row("all", calls.iter().sum(), differing.iter().sum());
    differing.iter().sum()
}

/// Whether both agree on one call; the first difference is printed.
fn one_call(rng: &mut Rng, kind: &str, round: usize) -> bool {
    let block = generate::tables(rng, kind).expect("a kind of tables");
    let tables = harness::tables(&block);
    let kinds: Vec<&str> = STATE_KINDS.iter().copied().chain(["fresh"]).collect();
    let mut state = match rng.pick(&kinds) {
        "fresh" => proved::fresh(&block),
        kind => generate::state(rng, kind).expect("a kind of state"),
    };
    let parity = rng.pick(&[None, Some(0), Some(95), Some(100)]);
    let call_kind = rng.pick(&CALL_KINDS);
    let call = generate::call(rng, call_kind, CALL, parity).expect("a kind of call");
    let mut decoder = harness::load(&tables, &state);
    for (n, line) in call.iter().enumerate() {
        let mut expected = [0; FRAME_SAMPLES];
        decoder.decode(line.frame(), &mut expected);
        let found = proved::frame(&block, &mut state, line);
        let text = damaged(rng, line);
        let unpacked = stages::fields(&SpeechParams::unpack(&line.payload));
        let same = found == expected
            && state == harness::save(&decoder)
            && proved::parse(&text) == text::parse(&text)
            && proved::fields(&line.payload) == unpacked;
        if !same {
            println!(
                "call {round} ({kind} tables, {call_kind} call), frame {}: differs",
                n + 1
            );
            return false;
        }
    }
    true
}

/// The text of a line, half of the time with a small damage.
fn damaged(rng: &mut Rng, line: &FrameLine) -> Vec<u8> {
    let mut text = line.text().into_bytes();
    let at = rng.below(text.len());
    let byte = rng.pick(b"() \n\r\x000189afgAFG\xff");
    match rng.below(8) {
        0 => text[at] = byte,
        1 => text.insert(at, byte),
        2 => text.push(byte),
        3 => text.truncate(at),
        _ => {}
    }
    text
}
