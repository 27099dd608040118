//! g729-oracle: asks the Rust decoder for its answers. README.md describes the subcommands.

mod blocks;
mod compare;
mod delays;
mod far;
mod far_list;
mod generate;
mod library;
mod ops;
mod program;
mod real;
mod replay;
mod report;
mod rng;
mod rtp;
mod rules;
mod selftest;
mod speech;
mod text;
mod trials;

use g729::bitstream::SpeechParams;
use g729::harness::{self, StateBlock, TableBlock};
use g729::tables::formula;
use g729::{Decoder, stages};
use program::Job;
use rng::Rng;
use std::fs::File;
use std::io::{self, BufReader, BufWriter, Read, StdinLock, StdoutLock, Write};
use std::path::Path;
use std::process::ExitCode;
use text::FrameLine;

const USAGE: &str = "usage:
  g729-oracle ops SEED N
  g729-oracle gen SEED tables KIND
  g729-oracle gen SEED state KIND
  g729-oracle gen SEED call KIND FRAMES [PERCENT]
  g729-oracle speech SEED TABLES KIND FRAMES
  g729-oracle fresh TABLES
  g729-oracle formula
  g729-oracle fields [HEX ...]
  g729-oracle replay SEED CASES FRAMES
  g729-oracle calls SEED CASES FRAMES
  g729-oracle stages TABLES [--state FILE]
  g729-oracle decode TABLES [--state FILE] [--save FILE] [--whole]
  g729-oracle bench TABLES CALL N
  g729-oracle selftest SEED FRAMES
  g729-oracle far SEED FRAMES
  g729-oracle far-list [SEED CASES FRAMES]
  g729-oracle far-answers
  g729-oracle rtp SEED
  g729-oracle delays
  g729-oracle rules TABLES
  g729-oracle rules SEED FRAMES LIBRARY";

/// Bytes that are read or written at once.
const BUFFER: usize = 1 << 20;

type Outcome = Result<ExitCode, String>;

fn main() -> ExitCode {
    let args: Vec<String> = std::env::args().skip(1).collect();
    let args: Vec<&str> = args.iter().map(String::as_str).collect();
    dispatch(&args).unwrap_or_else(|error| {
        eprintln!("g729-oracle: {error}");
        ExitCode::from(2)
    })
}

fn dispatch(args: &[&str]) -> Outcome {
    match *args {
        ["ops", seed, random] => {
            let (mut out, random) = (output(), number(random)?);
            ops::list(&mut out, number(seed)?, random).map_err(io_error)?;
            finish(out)
        }
        ["gen", seed, ref what @ ..] => generate(&mut Rng::new(number(seed)?), what),
        ["speech", seed, tables, kind, frames] => {
            let tables = harness::tables(&read_tables(tables)?);
            let mut rng = Rng::new(number(seed)?);
            let call = speech::call(&mut rng, &tables, kind, number(frames)?);
            let call = call.ok_or("no such kind")?;
            let (saturated, level) = speech::saturated(&tables, &call);
            eprintln!("{saturated} frames saturate, level {level:.0}");
            print_call(&call)
        }
        ["fresh", tables] => {
            let tables = harness::tables(&read_tables(tables)?);
            write(&blocks::bytes(&harness::save(&Decoder::new(&tables))))
        }
        ["formula"] => formula(),
        ["fields", ref digits @ ..] => fields(digits),
        ["replay", seed, cases, frames] => {
            let mut out = output();
            replay::stages(&mut out, number(seed)?, number(cases)?, number(frames)?)?;
            finish(out)
        }
        ["calls", seed, cases, frames] => {
            let mut out = output();
            replay::calls(&mut out, number(seed)?, number(cases)?, number(frames)?)?;
            finish(out)
        }
        ["stages", tables] => print_stages(tables, None),
        ["stages", tables, "--state", state] => print_stages(tables, Some(state)),
        ["decode", tables, ref options @ ..] => decode(tables, options),
        ["bench", tables, call, times] => {
            let tables = harness::tables(&read_tables(tables)?);
            program::bench(&tables, &read_call(call)?, number(times)?);
            Ok(ExitCode::SUCCESS)
        }
        ["selftest", seed, frames] => {
            selftest::run(number(seed)?, number(frames)?).map(|()| ExitCode::SUCCESS)
        }
        ["far-list"] => {
            let mut out = output();
            far_list::list(&mut out)?;
            finish(out)
        }
        ["far-list", seed, cases, frames] => {
            let mut out = output();
            far_list::random(&mut out, number(seed)?, number(cases)?, number(frames)?)?;
            finish(out)
        }
        ["far-answers"] => {
            let mut out = output();
            far_list::answers(&mut input(), &mut out)?;
            finish(out)
        }
        ["far", seed, frames] => {
            let wrong = trials::run(number(seed)?, number(frames)?, None);
            Ok(ExitCode::from(u8::from(wrong > 0)))
        }
        ["rtp", seed] => {
            let mut out = output();
            rtp::list(&mut out, number(seed)?).map_err(io_error)?;
            finish(out)
        }
        ["delays"] => {
            let mut out = output();
            delays::list(&mut out).map_err(io_error)?;
            finish(out)
        }
        ["rules", tables] => {
            let mut out = output();
            rules::print(&read_tables(tables)?, &mut input(), &mut out)?;
            finish(out)
        }
        ["rules", seed, frames, library] => {
            let wrong = rules::compare(number(seed)?, number(frames)?, library)?;
            Ok(ExitCode::from(u8::from(wrong > 0)))
        }
        _ => Err(USAGE.to_string()),
    }
}

fn generate(rng: &mut Rng, what: &[&str]) -> Outcome {
    let unknown = || "no such kind".to_string();
    match *what {
        ["tables", kind] => write(&blocks::bytes(
            &generate::tables(rng, kind).ok_or_else(unknown)?,
        )),
        ["state", kind] => write(&blocks::bytes(
            &generate::state(rng, kind).ok_or_else(unknown)?,
        )),
        ["call", kind, frames, ref percent @ ..] if percent.len() < 2 => {
            let parity = percent.first().map(|p| number(p)).transpose()?;
            print_call(&generate::call(rng, kind, number(frames)?, parity).ok_or_else(unknown)?)
        }
        _ => Err(USAGE.to_string()),
    }
}

fn print_call(call: &[FrameLine]) -> Outcome {
    let mut out = output();
    for line in call {
        writeln!(out, "{}", line.text()).map_err(io_error)?;
    }
    finish(out)
}

/// Prints the tables by formula that the voice path reads.
fn formula() -> Outcome {
    let mut out = output();
    let tables: [(&str, &[i16]); 6] = [
        ("lsp-cosine", &formula::LSP_COSINE),
        ("lsp-cosine-slope", &formula::LSP_COSINE_SLOPE),
        ("pow2", &formula::POW2),
        (
            "gain-prediction-coefficients",
            &formula::GAIN_PREDICTION_COEFFICIENTS,
        ),
        (
            "lsp-quantizer-initial-memory",
            &formula::LSP_QUANTIZER_INITIAL_MEMORY,
        ),
        (
            "gain-predictor-initial-memory",
            &formula::GAIN_PREDICTOR_INITIAL_MEMORY,
        ),
    ];
    for (name, words) in tables {
        let words: Vec<String> = words.iter().map(i16::to_string).collect();
        writeln!(out, "{name} {}", words.join(" ")).map_err(io_error)?;
    }
    finish(out)
}

/// Prints the fifteen numbers of each frame, given as digits or else as bytes on standard input.
fn fields(digits: &[&str]) -> Outcome {
    let mut bytes = vec![0; 10 * digits.len()];
    for (frame, text) in bytes.chunks_mut(10).zip(digits) {
        text::hexadecimal(text.as_bytes(), frame).ok_or("not 20 digits 0-9, a-f")?;
    }
    if digits.is_empty() {
        input().read_to_end(&mut bytes).map_err(io_error)?;
    }
    let (frames, rest) = bytes.as_chunks::<10>();
    if !rest.is_empty() {
        return Err("not a multiple of ten bytes".to_string());
    }
    let mut out = output();
    for frame in frames {
        let numbers = stages::fields(&SpeechParams::unpack(frame)).map(|n| n.to_string());
        writeln!(out, "{}", numbers.join(" ")).map_err(io_error)?;
    }
    finish(out)
}

fn print_stages(tables: &str, state: Option<&str>) -> Outcome {
    let tables = harness::tables(&read_tables(tables)?);
    let state = match state {
        Some(path) => read_state(path)?,
        None => harness::save(&Decoder::new(&tables)),
    };
    let call = text::read_call(&mut input()).map_err(io_error)?;
    let call = call.map_err(|line| format!("line {line} of the call is malformed"))?;
    let mut ways = compare::ThreeWays::new(&tables, &state);
    let mut out = output();
    for (n, line) in call.iter().enumerate() {
        let stages = ways
            .step(line.frame())
            .map_err(|e| format!("frame {}: {e}", n + 1))?;
        report::frame(&mut out, n + 1, line.kind, &stages, &ways.state).map_err(io_error)?;
    }
    finish(out)
}

/// Exit status 0 with a total, 1 with a refusal.
fn decode(tables: &str, mut options: &[&str]) -> Outcome {
    let mut job = Job {
        tables: Path::new(tables),
        state: None,
        save: None,
        whole: false,
    };
    while let [option, rest @ ..] = options {
        options = match (*option, rest) {
            ("--whole", _) => {
                job.whole = true;
                rest
            }
            ("--state", [path, rest @ ..]) => {
                job.state = Some(Path::new(*path));
                rest
            }
            ("--save", [path, rest @ ..]) => {
                job.save = Some(Path::new(*path));
                rest
            }
            _ => return Err(USAGE.to_string()),
        };
    }
    let total = program::run(&job, &mut input(), &mut output()).map_err(io_error)?;
    Ok(ExitCode::from(u8::from(!total)))
}

fn read_tables(path: &str) -> Result<TableBlock, String> {
    blocks::read_tables(Path::new(path)).map_err(|code| format!("{path}: refused, {code}"))
}

fn read_state(path: &str) -> Result<StateBlock, String> {
    blocks::read_state(Path::new(path)).map_err(|code| format!("{path}: refused, {code}"))
}

fn read_call(path: &str) -> Result<Vec<FrameLine>, String> {
    let file = File::open(path).map_err(io_error)?;
    let call = text::read_call(&mut BufReader::with_capacity(BUFFER, file)).map_err(io_error)?;
    call.map_err(|line| format!("{path}: line {line} is malformed"))
}

fn number<T: std::str::FromStr>(text: &str) -> Result<T, String> {
    text.parse().map_err(|_| format!("not a number: {text}"))
}

fn input() -> BufReader<StdinLock<'static>> {
    BufReader::with_capacity(BUFFER, io::stdin().lock())
}

fn output() -> BufWriter<StdoutLock<'static>> {
    BufWriter::with_capacity(BUFFER, io::stdout().lock())
}

fn write(bytes: &[u8]) -> Outcome {
    let mut out = output();
    out.write_all(bytes).map_err(io_error)?;
    finish(out)
}

fn finish(mut out: impl Write) -> Outcome {
    out.flush().map_err(io_error)?;
    Ok(ExitCode::SUCCESS)
}

fn io_error(error: io::Error) -> String {
    error.to_string()
}
