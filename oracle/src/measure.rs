//! The speed of both decoders on four classes of frames, in processor time. Both take turns, so that what else the machine does
//! weighs on both alike.

use crate::rng::Rng;
use crate::text::FrameLine;
use crate::{generate, proved, speech};
use g729::harness::{self, TableBlock};
use g729::{Decoder, FRAME_SAMPLES};
use std::hint::black_box;

/// Calls of a class, each with tables of its own; the frames of a call; those that each of both decodes in turn.
const CALLS: usize = 4;
const FRAMES: usize = 1000;
const PART: usize = 100;

/// The classes: name, kind of tables, and what they are.
const CLASSES: [(&str, &str, &str); 4] = [
    (
        "quiet",
        "real",
        "voice frames, speech-like fields, level of a pause",
    ),
    (
        "ordinary",
        "real",
        "voice frames, speech-like: syllables of level 500 to 4000 and pauses",
    ),
    (
        "loud",
        "uniform",
        "voice frames of random bits with random tables: full scale, saturating",
    ),
    (
        "concealed",
        "real",
        "nine frames of ten of kinds 1 to 3, one speech-like voice frame",
    ),
];

/// A call that is timed, and the fastest times of its parts, of the proved library and of the Rust.
struct Timed {
    block: TableBlock,
    call: Vec<FrameLine>,
    fastest: [[f64; 2]; FRAMES / PART],
}

/// Times both on each class, `rounds` times, and prints a table with its legend.
pub fn print(seed: u64, rounds: u64) {
    let frames = CALLS * FRAMES;
    println!(
        "measured: {frames} frames of each class, {CALLS} tables, both in turn every {PART} frames, fastest of {rounds} rounds"
    );
    println!("class      saturating  level  proved, frames/s  Rust, frames/s  ratio");
    for (name, tables, _) in CLASSES {
        let mut rng = Rng::new(seed);
        let mut calls: Vec<Timed> = (0..CALLS).map(|_| draw(&mut rng, name, tables)).collect();
        for _ in 0..rounds {
            calls.iter_mut().for_each(Timed::round);
        }
        row(name, &calls);
    }
    println!("saturating: frames in which a first synthesis saturates");
    println!("level: root mean square of the samples");
    for (name, tables, what) in CLASSES {
        println!("{name}: {what} ({tables} tables)");
    }
}

fn draw(rng: &mut Rng, class: &str, tables: &str) -> Timed {
    let block = generate::tables(rng, tables).expect("a kind of tables");
    let call = speech::call(rng, &harness::tables(&block), class, FRAMES)
        .or_else(|| generate::call(rng, "voice", FRAMES, Some(100)))
        .expect("a kind of call");
    Timed {
        block,
        call,
        fastest: [[f64::INFINITY; 2]; FRAMES / PART],
    }
}

fn row(name: &str, calls: &[Timed]) {
    let (mut saturated, mut power) = (0, 0.0);
    let (mut proved, mut rust) = (0.0, 0.0);
    for timed in calls {
        let (frames, level) = speech::saturated(&harness::tables(&timed.block), &timed.call);
        saturated += frames;
        power += level * level / calls.len() as f64;
        proved += timed.fastest.iter().map(|part| part[0]).sum::<f64>();
        rust += timed.fastest.iter().map(|part| part[1]).sum::<f64>();
    }
    let n = (CALLS * FRAMES) as f64;
    println!(
        "{name:10} {:8.1} % {:6.0} {:17.0} {:15.0}  {:5.2}",
        100.0 * saturated as f64 / n,
        power.sqrt(),
        n / proved,
        n / rust,
        rust / proved
    );
}

impl Timed {
    /// Decodes the call with both from the fresh state, and lowers the times of the parts that took less.
    fn round(&mut self) {
        let tables = harness::tables(&self.block);
        let mut decoder = Decoder::new(&tables);
        let mut state = proved::fresh(&self.block);
        for (part, [proved, rust]) in self.call.chunks(PART).zip(&mut self.fastest) {
            let begin = seconds();
            for line in part {
                black_box(proved::frame(&self.block, &mut state, black_box(line)));
            }
            let middle = seconds();
            for line in part {
                let mut samples = [0; FRAME_SAMPLES];
                decoder.decode(black_box(line).frame(), &mut samples);
                black_box(samples);
            }
            *proved = proved.min(middle - begin);
            *rust = rust.min(seconds() - middle);
        }
    }
}

/// The processor time of this thread.
pub fn seconds() -> f64 {
    #[repr(C)]
    struct Timespec {
        seconds: i64,
        nanoseconds: i64,
    }
    unsafe extern "C" {
        fn clock_gettime(clock: i32, time: *mut Timespec) -> i32;
    }
    const THREAD_PROCESSOR_TIME: i32 = 3;
    let mut time = Timespec {
        seconds: 0,
        nanoseconds: 0,
    };
    // SAFETY: the C library of 64-bit Linux writes these two numbers.
    assert_eq!(
        unsafe { clock_gettime(THREAD_PROCESSOR_TIME, &mut time) },
        0
    );
    time.seconds as f64 + time.nanoseconds as f64 / 1e9
}
