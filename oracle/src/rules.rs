//! The delay of each subframe with its rule, and the counters (change request 12), worked out from the Rust: the delays that its decoder uses, its fields, its parity
//! and the delay that it carries on. `print` gives them for a list of frames; `compare` has a shared library with the functions of include/holdamek.h beside them.

use crate::blocks::DELAY;
use crate::compare::ThreeWays;
use crate::generate::TABLE_KINDS;
use crate::library::Library;
use crate::replay;
use crate::rng::Rng;
use crate::text::{self, FrameLine};
use g729::harness::{self, StateBlock, TableBlock};
use g729::stages::FrameStages;
use g729::{Decoder, FRAME_SAMPLES};
use std::io::{BufRead, Write};

/// Frames, lost frames, and how often each of the five rules gave a delay.
type Counts = [u32; 7];
/// Frames, and lost frames, of a caller at most; of a rule twice as many.
const MOST: u32 = 360_000;

/// The place of P1 among the fields.
const P1: usize = 4;

/// Integer and fraction of both delays, their rules, and the delay that is carried on.
#[derive(Clone, Copy, Debug, PartialEq, Eq)]
struct Worked {
    delays: [i16; 4],
    rules: [u32; 2],
    carried: i16,
}

/// What a frame of the Rust gives; `state` is the one that it leaves.
fn worked(values: &FrameStages, state: &StateBlock) -> Worked {
    let [first, second] = [0, 1].map(|n| values.subframes[n].t);
    Worked {
        delays: [first.0, first.1, second.0, second.1],
        rules: rules(values),
        carried: state[DELAY],
    }
}

/// Both rules, by the fields of the Rust and its parity.
fn rules(values: &FrameStages) -> [u32; 2] {
    match (values.fields, values.parity) {
        (Some(_), Some(false)) => [4, 3],
        (Some(fields), _) if fields[P1] < 197 => [1, 3],
        (Some(_), _) => [2, 3],
        (None, _) => [5, 5],
    }
}

/// Counts a frame of a known kind. False where a count is at its limit, and nothing is counted.
fn count(kind: usize, rules: [u32; 2], counts: &mut Counts) -> bool {
    let full = counts[..2].iter().any(|&n| n >= MOST) || counts[2..].iter().any(|&n| n >= 2 * MOST);
    if !full {
        counts[0] += 1;
        counts[1] += u32::from(kind != 0);
        for rule in rules {
            counts[1 + rule as usize] += 1;
        }
    }
    !full
}

// ---- for a list

/// Reads `start D`, a fresh decoder that carries the delay D, and lines of a call, and prints for each frame its kind, both delays with their fractions, both rules,
/// the delay that is carried on, and the seven counters since the start.
pub fn print(
    tables: &TableBlock,
    input: &mut impl BufRead,
    out: &mut impl Write,
) -> Result<(), String> {
    let tables = harness::tables(tables);
    let fresh = harness::save(&Decoder::new(&tables));
    let (mut ways, mut counts) = (ThreeWays::new(&tables, &fresh), [0; 7]);
    for (n, line) in input.lines().enumerate() {
        let line = line.map_err(|e| e.to_string())?;
        let failed = |why: String| format!("line {}: {why}", n + 1);
        if let Some(delay) = line.strip_prefix("start ") {
            let mut state = fresh;
            state[DELAY] = delay.parse().map_err(|_| failed("no delay".to_string()))?;
            (ways, counts) = (ThreeWays::new(&tables, &state), [0; 7]);
            continue;
        }
        let frame = text::parse(line.as_bytes()).ok_or_else(|| failed("no frame".to_string()))?;
        let values = ways.step(frame.frame()).map_err(failed)?;
        let found = worked(&values, &ways.state);
        count(frame.kind, found.rules, &mut counts);
        row(out, frame.kind, &found, &counts).map_err(|e| e.to_string())?;
    }
    Ok(())
}

fn row(out: &mut impl Write, kind: usize, found: &Worked, counts: &Counts) -> std::io::Result<()> {
    write!(out, "{kind}")?;
    for n in found.delays {
        write!(out, " {n}")?;
    }
    let [first, second] = found.rules;
    write!(out, " {first} {second} {}", found.carried)?;
    for n in counts {
        write!(out, " {n}")?;
    }
    writeln!(out)
}

// ---- beside a library

/// Frames of a call that is compared.
const CALL: usize = 250;
/// Frames that are lent once more to counters that are at their limit, before these begin anew.
const BEYOND: usize = 100;
/// Differences that are printed.
const SHOWN: usize = 20;

type Line = extern "C" fn(*const u8, usize, *mut u32, *mut u8, usize) -> u32;
type Count = extern "C" fn(u32, u32, u32, *mut u32) -> u32;
type Scan = extern "C" fn(*mut i16, u32, *const u8, usize, *mut i16, *mut u32) -> u32;
type Frame = extern "C" fn(
    *const i16,
    usize,
    *mut i16,
    usize,
    u32,
    *const u8,
    usize,
    *mut i16,
    usize,
    *mut i16,
    *mut u32,
) -> u32;

/// The functions that are compared.
struct Functions {
    line: Line,
    count: Count,
    scan: Scan,
    frame: Frame,
}

impl Functions {
    fn open(path: &str) -> Result<Self, String> {
        let library = Library::open(path)?;
        // SAFETY: include/holdamek.h declares these functions so.
        unsafe {
            Ok(Functions {
                line: std::mem::transmute::<_, Line>(library.function(c"holdamek_line")?),
                count: std::mem::transmute::<_, Count>(library.function(c"holdamek_count")?),
                scan: std::mem::transmute::<_, Scan>(library.function(c"holdamek_delays")?),
                frame: std::mem::transmute::<_, Frame>(library.function(c"holdamek_frame")?),
            })
        }
    }

    /// The frame of a line; its code, if it has none.
    fn line(&self, text: &str) -> Result<FrameLine, u32> {
        let (mut kind, mut payload) = (9, [0; 10]);
        match (self.line)(
            text.as_ptr(),
            text.len(),
            &mut kind,
            payload.as_mut_ptr(),
            10,
        ) {
            0 => Ok(FrameLine {
                kind: kind as usize,
                payload,
            }),
            code => Err(code),
        }
    }

    fn scan(&self, carried: &mut i16, frame: &FrameLine) -> Result<Worked, u32> {
        let (mut delays, mut rules) = ([-1; 4], [99; 2]);
        let (kind, payload) = lent(frame);
        let (to, rule) = (delays.as_mut_ptr(), rules.as_mut_ptr());
        match (self.scan)(carried, kind, payload.as_ptr(), payload.len(), to, rule) {
            0 => Ok(Worked {
                delays,
                rules,
                carried: *carried,
            }),
            code => Err(code),
        }
    }

    fn frame(&self, t: &TableBlock, b: &mut StateBlock, frame: &FrameLine) -> Result<Worked, u32> {
        let (mut delays, mut rules) = ([-1; 4], [99; 2]);
        let mut samples = [0; FRAME_SAMPLES];
        let (kind, payload) = lent(frame);
        let code = (self.frame)(
            t.as_ptr(),
            t.len(),
            b.as_mut_ptr(),
            b.len(),
            kind,
            payload.as_ptr(),
            payload.len(),
            samples.as_mut_ptr(),
            samples.len(),
            delays.as_mut_ptr(),
            rules.as_mut_ptr(),
        );
        match code {
            0 => Ok(Worked {
                delays,
                rules,
                carried: b[DELAY],
            }),
            code => Err(code),
        }
    }

    fn count(&self, kind: usize, rules: [u32; 2], counts: &mut Counts) -> u32 {
        (self.count)(kind as u32, rules[0], rules[1], counts.as_mut_ptr())
    }
}

/// Kind and payload of a frame, as a function takes them.
fn lent(frame: &FrameLine) -> (u32, &[u8]) {
    (
        frame.kind as u32,
        &frame.payload[..[10, 2, 0, 0][frame.kind]],
    )
}

const COMPARED: [&str; 6] = [
    "holdamek_line: kind and payload",
    "holdamek_frame: code, both delays and rules, the delay that is carried on",
    "holdamek_delays: the same",
    "holdamek_count: code and seven counters of a call",
    "holdamek_count: code and seven counters up to the limit",
    "the five counters add up to twice the frames",
];

/// How many of each were compared and differ, and what was met.
#[derive(Default)]
struct Tally {
    compared: [usize; COMPARED.len()],
    differ: [usize; COMPARED.len()],
    /// Frames of each kind of tables.
    tables: [usize; TABLE_KINDS.len()],
    /// How often each rule gave a first delay, and a second.
    rules: [[usize; 5]; 2],
    /// Frames of each kind.
    kinds: [usize; 4],
    /// Concealed first subframes with the delay 144.
    at_144: usize,
    /// Bad parity with P1 below 197, and not.
    bad: [usize; 2],
    /// Frames that were not counted, a counter being at its limit.
    beyond: usize,
}

impl Tally {
    fn same<T: PartialEq + std::fmt::Debug>(&mut self, what: usize, place: &str, found: T, due: T) {
        self.compared[what] += 1;
        if found != due {
            self.differ[what] += 1;
            if self.differ.iter().sum::<usize>() <= SHOWN {
                println!(
                    "differs: {}, {place}: {found:?}, not {due:?}",
                    COMPARED[what]
                );
            }
        }
    }

    fn met(&mut self, kind: usize, values: &FrameStages, due: &Worked) {
        self.kinds[kind] += 1;
        for (n, rule) in due.rules.iter().enumerate() {
            self.rules[n][*rule as usize - 1] += 1;
        }
        self.at_144 += usize::from(kind != 0 && due.delays[0] == 144);
        if let (Some(fields), Some(false)) = (values.fields, values.parity) {
            self.bad[usize::from(fields[P1] >= 197)] += 1;
        }
    }

    /// Prints everything. Gives how much is wrong: what differs, and rules, kinds and tables that were not met.
    fn print(&self) -> usize {
        for (name, frames) in TABLE_KINDS.iter().zip(self.tables) {
            println!("{name} tables: {frames} frames");
        }
        let [voice, sid, quiet, lost] = self.kinds;
        println!("frames: {voice} voice, {sid} SID, {quiet} quiet, {lost} lost");
        for (n, name) in ["first", "second"].iter().enumerate() {
            let [thirds, whole, relative, bad, concealed] = self.rules[n];
            println!(
                "rules of {name} delays: 1 {thirds}, 2 {whole}, 3 {relative}, 4 {bad}, 5 {concealed}"
            );
        }
        let [below, above] = self.bad;
        println!("bad parity with P1 below 197: {below}, from 197 on: {above}");
        println!(
            "concealed with the delay 144: {}; not counted at a limit: {}",
            self.at_144, self.beyond
        );
        for (n, name) in COMPARED.iter().enumerate() {
            println!(
                "{name}: {} compared, {} differ",
                self.compared[n], self.differ[n]
            );
        }
        let [first, second] = self.rules;
        let met = [first[0], first[1], second[2], first[3], first[4], second[4]];
        let all = [&met[..], &self.kinds, &self.tables, &self.bad].concat();
        let missing = all.iter().filter(|n| **n == 0).count();
        if missing > 0 {
            println!("failed: {missing} of the rules, kinds, tables and parities were not met");
        }
        let differ = self.differ.iter().sum::<usize>();
        println!(
            "{} compared, {differ} differ",
            self.compared.iter().sum::<usize>()
        );
        differ + missing
    }
}

/// Counters that go on over all calls up to their limit: the library's, what they have to be, and how many frames were refused.
#[derive(Default)]
struct Long {
    found: Counts,
    due: Counts,
    refused: usize,
}

impl Long {
    fn count(&mut self, library: &Functions, kind: usize, rules: [u32; 2], tally: &mut Tally) {
        let code = library.count(kind, rules, &mut self.found);
        let due = if count(kind, rules, &mut self.due) {
            0
        } else {
            10
        };
        tally.same(4, "all calls", (code, self.found), (due, self.due));
        if due != 0 {
            tally.beyond += 1;
            self.refused += 1;
        }
        if self.refused == BEYOND {
            *self = Long::default();
        }
    }
}

/// Compares a library on so many frames, or a few more. Gives how much is wrong.
pub fn compare(seed: u64, frames: usize, path: &str) -> Result<usize, String> {
    let library = Functions::open(path)?;
    let (mut rng, mut tally, mut long) = (Rng::new(seed), Tally::default(), Long::default());
    for case in 0..frames.div_ceil(CALL) {
        one_call(&library, &mut rng, case, &mut tally, &mut long)?;
    }
    Ok(tally.print())
}

/// A call with the tables, the state and the parity of a case. The library goes its own way from the state on.
fn one_call(
    library: &Functions,
    rng: &mut Rng,
    case: usize,
    tally: &mut Tally,
    long: &mut Long,
) -> Result<(), String> {
    let (block, tables, state) = replay::blocks_of(rng, case)?;
    let mut ways = ThreeWays::new(&tables, &state);
    let (mut own, mut carried) = (state, state[DELAY]);
    let (mut found, mut counted): (Counts, Counts) = ([0; 7], [0; 7]);
    for (n, frame) in replay::call_of(rng, CALL)?.iter().enumerate() {
        let place = format!("call {case}, frame {n}, {}", frame.text());
        let values = ways
            .step(frame.frame())
            .map_err(|e| format!("{place}: {e}"))?;
        let due = worked(&values, &ways.state);
        tally.met(frame.kind, &values, &due);
        tally.tables[case % TABLE_KINDS.len()] += 1;
        tally.same(0, &place, library.line(&frame.text()), Ok(*frame));
        tally.same(1, &place, library.frame(&block, &mut own, frame), Ok(due));
        let scanned = library.scan(&mut carried, frame);
        tally.same(2, &place, scanned, Ok(due));
        let rules = scanned.map_or([0; 2], |found| found.rules);
        let code = library.count(frame.kind, rules, &mut found);
        count(frame.kind, due.rules, &mut counted);
        tally.same(3, &place, (code, found), (0, counted));
        tally.same(5, &place, found[2..].iter().sum::<u32>(), 2 * found[0]);
        long.count(library, frame.kind, due.rules, tally);
    }
    Ok(())
}
