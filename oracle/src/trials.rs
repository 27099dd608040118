//! Trials of the comparison with a far decoder (far.rs): on sound lines with losses, with faults of the line, and with a loss at the
//! far end that nobody marked. With a second comparison beside the reference, both must give the same answers for every frame.

use crate::blocks::{DELAY, PREDICTOR};
use crate::far::{self, Answer, CONCEALED, DIFFERS, KNOWN, Memory, NOT_CLEAN, SETTLING};
use crate::rng::Rng;
use crate::text::FrameLine;
use crate::{generate, speech};
use g729::adaptive::parity_ok;
use g729::bitstream::SpeechParams;
use g729::harness::{self, STATE_WORDS, Samples, StateBlock, TableBlock};
use g729::{Decoder, FRAME_SAMPLES, Tables};
use std::collections::BTreeMap;

/// Another comparison: from its tables what answers for one frame after the other.
pub type Other = fn(&TableBlock) -> Box<dyn FnMut(&FrameLine, &Samples) -> Answer>;

/// The calls: name, tables, kind of speech or else of random call.
pub const CALLS: [(&str, &str, &str); 13] = [
    ("ordinary", "real", "ordinary"),
    ("high", "real", "high"),
    ("deep", "real", "deep"),
    ("quiet", "real", "quiet"),
    ("random bits", "real", "voice"),
    ("steady bits", "real", "steady"),
    ("patched", "patched", "ordinary"),
    ("mixture", "mixture", "ordinary"),
    ("small", "small", "ordinary"),
    ("magnitude", "magnitude", "ordinary"),
    ("sparse", "sparse", "ordinary"),
    ("uniform", "uniform", "voice"),
    ("extreme", "extreme", "voice"),
];
/// How many of them are loud enough and like speech.
const SPEECH: usize = 3;
/// Losses in a thousand frames, and at whose end.
const LOSSES: [usize; 4] = [5, 10, 30, 100];
const ENDS: [&str; 3] = ["own", "far", "both"];
/// What the words of the far decoder's first state go up to; 0 for the fresh state.
pub const STARTS: [i32; 4] = [0, 300, 5000, 32767];
/// The words of a table block that hold rows of pitch gain and correction factor.
const GAINS: std::ops::Range<usize> = 1751..1799;
/// Frames of a call on a sound line, and of one with a fault.
const FRAMES: usize = 250;
const SHORT: usize = 40;
/// The greatest number of a count.
const MOST: u32 = 32767;
const LOST: FrameLine = FrameLine {
    kind: 3,
    payload: [0; 10],
};

pub struct Trials {
    rng: Rng,
    other: Option<Other>,
    /// Frames compared with the other comparison, and those that differ.
    compared: usize,
    differing: usize,
    /// What was asserted and does not hold.
    broken: BTreeMap<&'static str, usize>,
}

/// Runs all of them, the sound lines over `frames` frames or a few more. Returns how many assertions and answers are wrong.
pub fn run(seed: u64, frames: usize, other: Option<Other>) -> usize {
    let mut trials = Trials {
        rng: Rng::new(seed),
        other,
        compared: 0,
        differing: 0,
        broken: BTreeMap::new(),
    };
    trials.sound(frames);
    trials.long();
    trials.faults(frames / 400);
    trials.unmarked(frames / 400);
    if other.is_some() {
        println!(
            "\nboth compared: {} frames, differing {}",
            trials.compared, trials.differing
        );
    }
    for (what, times) in &trials.broken {
        println!("NOT SO, {times} times: {what}");
    }
    if trials.broken.is_empty() {
        println!("\nall that is asserted holds");
    }
    trials.differing + trials.broken.values().sum::<usize>()
}

/// Tables and a call for them.
pub fn draw(rng: &mut Rng, at: usize, frames: usize) -> (TableBlock, Vec<FrameLine>) {
    let (_, tables, kind) = CALLS[at];
    let mut block = generate::tables(rng, tables).expect("a kind of tables");
    if ["high", "deep"].contains(&kind) {
        raise(&mut block);
    }
    let call = draw_call(rng, &block, kind, frames);
    (block, call)
}

/// Fixed gains three times as large: with the drawn ones speech doesn't reach full scale.
pub fn raise(block: &mut TableBlock) {
    for row in block[GAINS].chunks_mut(2) {
        row[1] = row[1].saturating_mul(3);
    }
}

/// A call of a kind of speech, or else of a random kind.
pub fn draw_call(rng: &mut Rng, block: &TableBlock, kind: &str, frames: usize) -> Vec<FrameLine> {
    speech::call(rng, &harness::tables(block), kind, frames)
        .or_else(|| generate::call(rng, kind, frames, Some(95)))
        .expect("a kind of call")
}

/// A state whose words go up to `most`; the fresh one for 0.
pub fn start(rng: &mut Rng, tables: &Tables, most: i32) -> StateBlock {
    if most == 0 {
        return harness::save(&Decoder::new(tables));
    }
    let mut block: StateBlock = [0; STATE_WORDS];
    for word in &mut block {
        *word = rng.range(-most - 1, most) as i16;
    }
    block[PREDICTOR] = rng.range(0, 1) as i16;
    block[DELAY] = rng.range(19, 144) as i16;
    block
}

/// The comparison of one call, by the reference and by the other.
struct Comparison<'t> {
    tables: &'t Tables,
    memory: Memory,
    other: Option<Box<dyn FnMut(&FrameLine, &Samples) -> Answer>>,
    compared: usize,
    differing: usize,
    /// Whether a first difference was printed before.
    printed: bool,
}

impl Comparison<'_> {
    fn step(&mut self, line: &FrameLine, far: &Samples) -> Answer {
        let answer = far::step(self.tables, &mut self.memory, line, far);
        if let Some(other) = &mut self.other {
            let second = other(line, far);
            self.compared += 1;
            if second != answer {
                if !self.printed {
                    self.printed = true;
                    println!("frame {}: due {answer:?}, found {second:?}", self.compared);
                }
                self.differing += 1;
            }
        }
        answer
    }
}

/// What a call's frames were, and what became of its counts.
#[derive(Default, Clone)]
struct Seen {
    classes: [usize; 5],
    /// Counts that came to frame 8, and those of them in which frames 6 and 7 were clean.
    counts: usize,
    clean: usize,
    /// Candidates left behind the first known frame: 1, 2, more; and which of the eight is the first of them.
    left: [usize; 3],
    number: [usize; 8],
    /// Frames of the count at which something was known first.
    first: BTreeMap<i64, usize>,
}

impl Seen {
    fn add(&mut self, other: &Seen) {
        let sum = |a: &mut [usize], b: &[usize]| a.iter_mut().zip(b).for_each(|(a, b)| *a += b);
        sum(&mut self.classes, &other.classes);
        sum(&mut self.left, &other.left);
        sum(&mut self.number, &other.number);
        self.counts += other.counts;
        self.clean += other.clean;
        for (n, times) in &other.first {
            *self.first.entry(*n).or_default() += times;
        }
    }

    fn print(&self, name: &str) {
        let [concealed, settling, not_clean, known, differs] = self.classes;
        let frames: usize = self.classes.iter().sum();
        let later: usize = self.first.range(9..).map(|(_, times)| times).sum();
        let last = self.first.keys().last().copied().unwrap_or(0);
        let [one, two, more] = self.left;
        println!(
            "{name:14} {frames:8} {concealed:9} {settling:8} {not_clean:9} {known:8} {differs:7} {:7} {:7} {later:6} {last:5} {one:7} {two:5} {more:5}  {}",
            self.counts,
            self.clean,
            self.number.map(|n| n.to_string()).join(" "),
        );
    }
}

const HEAD: &str = "                 frames concealed settling not-clean    known differs  counts clean-8  later  last    one   two  more  pattern kept";

impl Trials {
    fn not_so(&mut self, holds: bool, what: &'static str) {
        if !holds {
            *self.broken.entry(what).or_default() += 1;
        }
    }

    fn comparison<'t>(&self, block: &TableBlock, tables: &'t Tables) -> Comparison<'t> {
        Comparison {
            tables,
            memory: far::begin(tables),
            other: self.other.map(|other| other(block)),
            compared: 0,
            differing: 0,
            printed: self.differing > 0,
        }
    }

    fn end(&mut self, comparison: &Comparison) {
        self.compared += comparison.compared;
        self.differing += comparison.differing;
    }

    // ---- sound lines

    fn sound(&mut self, frames: usize) {
        let mut by_call = vec![Seen::default(); CALLS.len()];
        let mut by_loss = vec![Seen::default(); LOSSES.len() * ENDS.len()];
        let mut by_start = vec![Seen::default(); STARTS.len()];
        let mut done = 0;
        // Half of the frames are like speech.
        for round in 0.. {
            if done >= frames {
                break;
            }
            let at = match round % 2 {
                0 => round / 2 % SPEECH,
                _ => SPEECH + round / 2 % (CALLS.len() - SPEECH),
            };
            let loss = self.rng.below(LOSSES.len());
            let end = self.rng.below(ENDS.len());
            let from = self.rng.below(STARTS.len());
            let seen = self.sound_call(at, LOSSES[loss], ENDS[end], STARTS[from]);
            by_call[at].add(&seen);
            if at < SPEECH {
                by_loss[loss * ENDS.len() + end].add(&seen);
                by_start[from].add(&seen);
            }
            done += FRAMES;
        }
        println!("sound line, by call\n{HEAD}");
        let mut all = Seen::default();
        for ((name, ..), seen) in CALLS.iter().zip(&by_call) {
            seen.print(name);
            all.add(seen);
        }
        all.print("all");
        println!("\nsound line, ordinary, high and deep speech, by losses and end\n{HEAD}");
        for (n, seen) in by_loss.iter().enumerate() {
            let (loss, end) = (LOSSES[n / ENDS.len()], ENDS[n % ENDS.len()]);
            seen.print(&format!("{} % {end}", loss as f64 / 10.0));
        }
        println!(
            "\nsound line, ordinary, high and deep speech, by first state of the far decoder\n{HEAD}"
        );
        for (most, seen) in STARTS.iter().zip(&by_start) {
            seen.print(&match most {
                0 => "fresh".to_string(),
                most => format!("to {most}"),
            });
        }
        println!(
            "counts: those that reach frame 8. clean-8: frames 6 and 7 clean, known from frame 8 on. later, last: counts known later, and at
which frame at the latest. one, two, more: candidates left behind the first known frame. pattern kept: the first of them, of eight"
        );
    }

    fn sound_call(&mut self, at: usize, loss: usize, end: &str, most: i32) -> Seen {
        let (block, mut call) = draw(&mut self.rng, at, FRAMES);
        let tables = harness::tables(&block);
        let mut decoder = harness::load(&tables, &start(&mut self.rng, &tables, most));
        if self.rng.chance(20) {
            // Frames that the sender did not send, for both.
            for line in &mut call {
                if self.rng.below(200) == 0 {
                    line.kind = self.rng.range(1, 2) as usize;
                    line.payload[2 * (2 - line.kind)..].fill(0);
                }
            }
        }
        let mut comparison = self.comparison(&block, &tables);
        let mut seen = Seen::default();
        let (mut count, mut clean, mut known) = (0, 0, false);
        for line in &call {
            let own_lost = end != "far" && self.rng.below(1000) < loss;
            let far_lost = end != "own" && self.rng.below(1000) < loss;
            let mut samples = [0; FRAME_SAMPLES];
            let had = if far_lost { &LOST } else { line };
            decoder.decode(had.frame(), &mut samples);
            let marked = if own_lost || far_lost { &LOST } else { line };
            let answer = comparison.step(marked, &samples);
            seen.classes[answer.class as usize] += 1;
            if marked.kind != 0 {
                (count, clean, known) = (0, 0, false);
                self.not_so(answer.class == CONCEALED, "a concealed frame is Concealed");
                continue;
            }
            count += i64::from(count > 0 || passes(line));
            let class = answer.class;
            self.not_so(class != DIFFERS, "a sound line is never blamed");
            self.not_so(class != CONCEALED, "a voice frame is not Concealed");
            self.not_so(!known || class == KNOWN, "what is known stays known");
            if class == SETTLING || class == NOT_CLEAN {
                let n = i64::from(answer.number);
                self.not_so(n == count, "the number is that of the count");
            }
            self.not_so(
                class != NOT_CLEAN || count >= 6,
                "not clean from frame 6 on",
            );
            if count == 8 {
                seen.counts += 1;
                seen.clean += usize::from(clean == 2);
                self.not_so(
                    (class == KNOWN) == (clean == 2),
                    "known at frame 8 if, and only if, frames 6 and 7 are clean",
                );
            }
            clean = match class {
                SETTLING if count >= 6 => clean + 1,
                _ => 0,
            };
            if class == KNOWN {
                let candidates = &comparison.memory.candidates;
                let signal = far::signal_of(&harness::save(&decoder));
                let found = candidates.iter().any(|c| c.signal == signal);
                if !known {
                    *seen.first.entry(count).or_default() += 1;
                    seen.left[candidates.len().min(3) - 1] += 1;
                    seen.number[candidates[0].number] += 1;
                }
                known = true;
                self.not_so(found, "the far decoder's signal is that of a candidate");
                self.not_so(
                    answer.computed == Some(samples),
                    "the computed samples of a known frame are the far ones",
                );
            }
        }
        self.end(&comparison);
        seen
    }

    /// A call so long that the count stays at its greatest number, with tables by which hardly a frame is clean.
    fn long(&mut self) {
        let block = generate::tables(&mut self.rng, "uniform").expect("a kind of tables");
        let tables = harness::tables(&block);
        let call = draw_call(&mut self.rng, &block, "voice", MOST as usize + 200);
        let mut decoder = Decoder::new(&tables);
        let mut comparison = self.comparison(&block, &tables);
        let (mut count, mut last) = (0, 0);
        for line in &call {
            let mut samples = [0; FRAME_SAMPLES];
            decoder.decode(line.frame(), &mut samples);
            let answer = comparison.step(line, &samples);
            count = MOST.min(count + u32::from(count > 0 || passes(line)));
            if answer.class == SETTLING || answer.class == NOT_CLEAN {
                last = answer.number;
                self.not_so(last == count, "the count stays at its greatest number");
            }
        }
        self.end(&comparison);
        println!(
            "\na call of {} frames: the last number is {last}",
            call.len()
        );
    }

    // ---- faults of the line

    fn faults(&mut self, cases: usize) {
        println!("\nfaults in known frames, {cases} of each");
        println!(
            "               no-effect  in-frame-at-sample  elsewhere  never  next-known  in-first:next-known next-not  behind: differs settling not-clean known"
        );
        for fault in FAULTS {
            let mut found = Found::default();
            for case in 0..cases {
                self.known_fault(fault, case, &mut found);
            }
            found.print_known(fault);
        }
        println!(
            "\nfaults in the window, {cases} of each, by the frame of the count in which they begin"
        );
        println!("               no-effect  not-clean  first-behind  later  never  latest");
        for fault in FAULTS {
            for place in [5, 6, 7] {
                let mut found = Found::default();
                for case in 0..cases {
                    self.window_fault(fault, place, case, &mut found);
                }
                found.print_window(&format!("{fault}, {place}"));
            }
        }
    }

    /// A short call without losses, mostly like speech, with the far decoder's samples, and what is answered on a sound line.
    fn short_call(&mut self, case: usize) -> (TableBlock, Vec<FrameLine>, Vec<Samples>) {
        let at = match case % 2 {
            0 => case / 2 % SPEECH,
            _ => case / 2 % (CALLS.len() - 2),
        };
        let (block, call) = draw(&mut self.rng, at, SHORT);
        let tables = harness::tables(&block);
        let most = self.rng.pick(&STARTS);
        let mut decoder = harness::load(&tables, &start(&mut self.rng, &tables, most));
        let samples = call.iter().map(|line| {
            let mut samples = [0; FRAME_SAMPLES];
            decoder.decode(line.frame(), &mut samples);
            samples
        });
        let samples = samples.collect();
        (block, call, samples)
    }

    fn answers(&mut self, block: &TableBlock, call: &[FrameLine], far: &[Samples]) -> Vec<Answer> {
        let tables = harness::tables(block);
        let mut comparison = self.comparison(block, &tables);
        let answers = call.iter().zip(far).map(|(l, y)| comparison.step(l, y));
        let answers = answers.collect();
        self.end(&comparison);
        answers
    }

    fn known_fault(&mut self, fault: &str, case: usize, found: &mut Found) {
        let (block, call, sound) = self.short_call(case);
        let answers = self.answers(&block, &call, &sound);
        let Some(first) = answers.iter().position(|a| a.class == KNOWN) else {
            return;
        };
        let place = first * 80 + self.rng.below((SHORT - first) * 80);
        let far = faulty(&mut self.rng, fault, &sound, place);
        let Some(changed) = first_changed(&sound, &far) else {
            found.no_effect += 1;
            return;
        };
        let (frame, sample) = (changed / 80, changed % 80);
        let answers = self.answers(&block, &call, &far);
        let rest = i32::from(far[frame][sample]) - i32::from(sound[frame][sample]);
        match answers.iter().position(|a| a.class == DIFFERS) {
            None => found.never += 1,
            Some(n) => {
                let a = answers[n];
                let there = n == frame && a.number as usize == sample && a.rest == rest;
                found.there += usize::from(there);
                found.elsewhere += usize::from(!there);
                self.not_so(
                    there,
                    "a fault in a known frame is found at its first sample",
                );
            }
        }
        if let ("bit", Some(next)) = (fault, answers.get(frame + 1)) {
            let known = next.class == KNOWN;
            if frame == first {
                // The candidates of this very frame were dropped.
                found.taken[usize::from(known)] += 1;
            } else {
                found.next += usize::from(known);
                self.not_so(known, "behind a fault of one bit the next frame is known");
            }
        }
        for a in answers.iter().skip(frame + 1) {
            found.behind[a.class as usize] += 1;
        }
    }

    /// A fault that begins in frame `n` of the count, 5, 6 or 7; in frame 5 among the last ten samples.
    fn window_fault(&mut self, fault: &str, n: usize, case: usize, found: &mut Found) {
        let (block, call, sound) = self.short_call(case);
        let answers = self.answers(&block, &call, &sound);
        let Some(first) = answers.iter().position(|a| a.class == KNOWN) else {
            return;
        };
        // The window is the two frames before the first known one.
        let frame = first + n - 8;
        let sample = match n {
            5 => 70 + self.rng.below(10),
            _ => self.rng.below(80),
        };
        let far = faulty(&mut self.rng, fault, &sound, 80 * frame + sample);
        if first_changed(&sound, &far).is_none_or(|c| c >= 80 * first) {
            found.no_effect += 1;
            return;
        }
        let answers = self.answers(&block, &call, &far);
        let differs = answers.iter().position(|a| a.class == DIFFERS);
        match differs {
            Some(n) if n == first => found.there += 1,
            _ if answers[first].class != KNOWN => found.not_clean += 1,
            Some(n) => {
                found.elsewhere += 1;
                found.latest = found.latest.max(n - first);
            }
            None => found.never += 1,
        }
        self.not_so(
            differs.is_none_or(|n| n >= first),
            "a fault in the window is not found before its end",
        );
    }

    // ---- a loss at the far end that is not marked

    fn unmarked(&mut self, cases: usize) {
        println!(
            "\na frame lost at the far end and not marked, {cases} calls of each: frames from it to the next known one, times"
        );
        for (at, (name, ..)) in CALLS.iter().enumerate() {
            let mut again: BTreeMap<Option<usize>, usize> = BTreeMap::new();
            for _ in 0..cases {
                if let Some(n) = self.unmarked_call(at) {
                    *again.entry(n).or_default() += 1;
                }
            }
            let texts: Vec<String> = again
                .iter()
                .map(|(n, times)| match n {
                    Some(n) => format!("{n}: {times}"),
                    None => format!("none: {times}"),
                })
                .collect();
            println!("{name:14} {}", texts.join(", "));
        }
        println!("0: the frame was known all the same; none: not within the call");
    }

    /// How many frames behind the lost one something is known again; `None` where nothing was known before.
    fn unmarked_call(&mut self, at: usize) -> Option<Option<usize>> {
        let (block, call) = draw(&mut self.rng, at, SHORT + 20);
        let tables = harness::tables(&block);
        let most = self.rng.pick(&STARTS);
        let mut decoder = harness::load(&tables, &start(&mut self.rng, &tables, most));
        let mut comparison = self.comparison(&block, &tables);
        let (mut lost, mut again, mut wait) = (None, None, 1 + self.rng.below(6));
        for (n, line) in call.iter().enumerate() {
            let mut samples = [0; FRAME_SAMPLES];
            let now = wait == 0 && lost.is_none();
            if now {
                lost = Some(n);
            }
            decoder.decode(if now { LOST.frame() } else { line.frame() }, &mut samples);
            let answer = comparison.step(line, &samples);
            if answer.class == KNOWN {
                wait = wait.saturating_sub(1);
                again = again.or(lost.map(|lost| n - lost));
            }
        }
        self.end(&comparison);
        lost.map(|_| again)
    }
}

const FAULTS: [&str; 4] = ["bit", "gain", "drop", "repeat"];

#[derive(Default)]
struct Found {
    no_effect: usize,
    not_clean: usize,
    there: usize,
    elsewhere: usize,
    never: usize,
    latest: usize,
    next: usize,
    taken: [usize; 2],
    behind: [usize; 5],
}

impl Found {
    fn print_known(&self, fault: &str) {
        let [_, settling, not_clean, known, differs] = self.behind;
        println!(
            "{fault:14} {:9} {:19} {:10} {:6} {:11} {:20} {:8}  {differs:15} {settling:8} {not_clean:9} {known:5}",
            self.no_effect,
            self.there,
            self.elsewhere,
            self.never,
            self.next,
            self.taken[1],
            self.taken[0]
        );
    }

    fn print_window(&self, name: &str) {
        println!(
            "{name:14} {:9} {:10} {:13} {:6} {:6} {:7}",
            self.no_effect, self.not_clean, self.there, self.elsewhere, self.never, self.latest
        );
    }
}

fn passes(line: &FrameLine) -> bool {
    let fields = SpeechParams::unpack(&line.payload);
    parity_ok(fields.p1, fields.p0)
}

/// The samples of a call with a fault from `place` on, counted in samples.
pub fn faulty(rng: &mut Rng, fault: &str, sound: &[Samples], place: usize) -> Vec<Samples> {
    let mut all: Vec<i16> = sound.concat();
    match fault {
        "bit" => all[place] ^= 1 << rng.below(16),
        "gain" => {
            for y in &mut all[place..] {
                let more = (f64::from(*y) * 1.01).round();
                *y = more.clamp(-32768.0, 32767.0) as i16;
            }
        }
        "drop" => {
            all.remove(place);
            all.push(0);
        }
        _ => {
            all.insert(place, all[place]);
            all.pop();
        }
    }
    all.as_chunks().0.to_vec()
}

fn first_changed(sound: &[Samples], far: &[Samples]) -> Option<usize> {
    let (a, b) = (sound.as_flattened(), far.as_flattened());
    a.iter().zip(b).position(|(a, b)| a != b)
}
