//! The proved writing of frames beside the Rust: what it writes is read by `SpeechParams::unpack`, and parity is the Rust's
//! `parity_ok`. Then the time of a frame, beside a plain bit loop.

use crate::ffi;
use crate::measure::seconds;
use crate::rng::Rng;
use g729::adaptive::parity_ok;
use g729::bitstream::SpeechParams;
use g729::stages;
use std::hint::black_box;

type Fields = [u16; 15];
type Bytes = [u8; 10];

/// The widths in the order of the bits, and the places of P1 and P0.
const WIDTHS: [u32; 15] = [1, 7, 5, 5, 8, 1, 13, 4, 3, 4, 5, 13, 4, 3, 4];
const P1: usize = 4;
const P0: usize = 5;
/// The refusal of a field that exceeds its width.
const TOO_WIDE: u32 = 15;
/// The lists that are timed, and how many times.
const LISTS: usize = 10_000;
const ROUNDS: usize = 101;

/// How many values were compared, and how many differ.
struct Count {
    what: &'static str,
    compared: usize,
    differ: usize,
}

impl Count {
    fn new(what: &'static str) -> Self {
        Count {
            what,
            compared: 0,
            differ: 0,
        }
    }

    fn add(&mut self, same: bool) {
        self.compared += 1;
        self.differ += usize::from(!same);
    }

    /// Prints it and returns how many differ.
    fn print(&self) -> usize {
        println!(
            "{}: compared {} differ {}",
            self.what, self.compared, self.differ
        );
        self.differ
    }
}

/// Compares `count` lists of fields and `count` frames, prints what was compared and the times. Returns how many differ.
pub fn run(seed: u64, count: usize) -> usize {
    let mut rng = Rng::new(seed);
    let differ = lists(&mut rng, count) + frames(&mut rng, count) + edges(&mut rng);
    println!();
    time(&mut rng);
    println!();
    match differ {
        0 => println!("no difference"),
        _ => println!("failed: {differ} differ"),
    }
    differ
}

/// The code of the proved call, and the ten bytes after it. The random bytes before show what isn't written.
fn written(fields: &[u16], parity: bool, before: Bytes) -> (u32, Bytes) {
    let mut bytes = before;
    let code = match parity {
        true => ffi::write_fields_parity(fields, &mut bytes),
        false => ffi::write_fields(fields, &mut bytes),
    };
    (code, bytes)
}

fn unpacked(bytes: &Bytes) -> Fields {
    stages::fields(&SpeechParams::unpack(bytes))
}

fn without_parity(fields: &Fields) -> [u16; 14] {
    std::array::from_fn(|k| fields[k + usize::from(k >= P0)])
}

fn fitting(rng: &mut Rng) -> Fields {
    WIDTHS.map(|width| rng.below(1 << width) as u16)
}

fn any_bytes(rng: &mut Rng) -> Bytes {
    std::array::from_fn(|_| rng.below(256) as u8)
}

/// Lists that fit, with fifteen fields and with fourteen.
fn lists(rng: &mut Rng, count: usize) -> usize {
    let mut read = Count::new("fields written, read by the Rust");
    let mut looped = Count::new("bytes written, those of the bit loop");
    let mut passes = Count::new("fourteen fields written, parity passes in the Rust");
    let mut kept = Count::new("fourteen fields written, read by the Rust");
    let mut fails = Count::new("the same with the other P0, parity fails in the Rust");
    for _ in 0..count {
        let (fields, before) = (fitting(rng), any_bytes(rng));
        let (code, bytes) = written(&fields, false, before);
        read.add(code == 0 && unpacked(&bytes) == fields);
        looped.add(bytes == bit_loop(&fields));

        let fourteen = without_parity(&fields);
        let (code, bytes) = written(&fourteen, true, before);
        let mut found = unpacked(&bytes);
        kept.add(code == 0 && without_parity(&found) == fourteen);
        passes.add(parity_ok(found[P1], found[P0]));
        found[P0] = 1 - found[P0];
        let (code, bytes) = written(&found, false, before);
        let other = unpacked(&bytes);
        fails.add(code == 0 && !parity_ok(other[P1], other[P0]));
    }
    let counts = [read, looped, kept, passes, fails];
    counts.iter().map(Count::print).sum()
}

/// What the Rust reads of any ten bytes, written, is the ten bytes.
fn frames(rng: &mut Rng, count: usize) -> usize {
    let mut same = Count::new("frames read by the Rust, written again");
    for _ in 0..count {
        let (frame, before) = (any_bytes(rng), any_bytes(rng));
        same.add(written(&unpacked(&frame), false, before) == (0, frame));
    }
    same.print()
}

/// Each field at its limit and one above, the others any, in both calls.
fn edges(rng: &mut Rng) -> usize {
    let mut limit = Count::new("a field at its limit, read by the Rust");
    let mut above = Count::new("a field one above it, refused and nothing written");
    for (place, width) in WIDTHS.into_iter().enumerate() {
        for parity in [false, true] {
            if parity && place == P0 {
                continue;
            }
            let (mut fields, before) = (fitting(rng), any_bytes(rng));
            let call = |fields: &Fields| match parity {
                true => written(&without_parity(fields), true, before),
                false => written(fields, false, before),
            };
            fields[place] = (1 << width) - 1;
            let (code, bytes) = call(&fields);
            let mut found = unpacked(&bytes);
            if parity {
                found[P0] = fields[P0];
            }
            limit.add(code == 0 && found == fields);
            fields[place] = 1 << width;
            above.add(call(&fields) == (TOO_WIDE, before));
        }
    }
    limit.print() + above.print()
}

/// The ten bytes of fields that fit, bit by bit, the highest first.
fn bit_loop(fields: &Fields) -> Bytes {
    let mut bytes = [0; 10];
    let mut at = 0;
    for (field, width) in fields.iter().zip(WIDTHS) {
        for place in (0..width).rev() {
            let bit = (field >> place & 1) as u8;
            bytes[at / 8] |= bit << (7 - at % 8);
            at += 1;
        }
    }
    bytes
}

/// The same with each field's width checked before.
fn checked_loop(fields: &Fields) -> Option<Bytes> {
    let fit = |(field, width): (&u16, u32)| u32::from(*field) < 1 << width;
    let all = fields.iter().zip(WIDTHS).all(fit);
    all.then(|| bit_loop(fields))
}

/// Prints the median time of a frame for each way of writing, in processor time. The ways take turns.
fn time(rng: &mut Rng) {
    let lists: Vec<Fields> = (0..LISTS).map(|_| fitting(rng)).collect();
    let fourteen: Vec<[u16; 14]> = lists.iter().map(without_parity).collect();
    let mut times: [Vec<f64>; 4] = Default::default();
    for _ in 0..ROUNDS {
        let round = [
            turn(&lists, |fields| written(fields, false, [0; 10])),
            turn(&fourteen, |fields| written(fields, true, [0; 10])),
            turn(&lists, bit_loop),
            turn(&lists, checked_loop),
        ];
        times.iter_mut().zip(round).for_each(|(all, t)| all.push(t));
    }
    println!("nanoseconds a frame, median of {ROUNDS} rounds of {LISTS} frames, in turn");
    let names = [
        "proved, fifteen fields",
        "proved, fourteen fields",
        "bit loop in Rust, fifteen fields, nothing refused",
        "bit loop in Rust, fifteen fields, widths checked",
    ];
    for (name, mut all) in names.into_iter().zip(times) {
        all.sort_by(f64::total_cmp);
        println!("{name}: {:.1}", all[ROUNDS / 2]);
    }
}

/// The nanoseconds of a frame, over all lists.
fn turn<T, R>(lists: &[T], write: impl Fn(&T) -> R) -> f64 {
    let begin = seconds();
    for fields in lists {
        black_box(write(black_box(fields)));
    }
    (seconds() - begin) * 1e9 / lists.len() as f64
}
