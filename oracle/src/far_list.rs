//! The list that replay_compare replays, and its answers by the reference. Its lines are a letter and words of four hexadecimal digits:
//! T the tables; N, with no words, a new comparison; F kind, payload (10), the far decoder's samples (80).

use crate::blocks::{self, INITIAL_DELAY};
use crate::far::{self, Answer, CONCEALED, DIFFERS, KNOWN, Memory, NOT_CLEAN, SETTLING};
use crate::generate;
use crate::rng::Rng;
use crate::text::FrameLine;
use crate::trials::{self, STARTS};
use g729::adaptive::parity_ok;
use g729::harness::{self, Samples, StateBlock, TABLE_WORDS, TableBlock};
use g729::{Decoder, FRAME_SAMPLES, Tables, stages};
use std::io::{BufRead, Write};

const LOST: FrameLine = line_of(3);

const fn line_of(kind: usize) -> FrameLine {
    FrameLine {
        kind,
        payload: [0; 10],
    }
}

/// The frames of a comparison, as they are marked, and the far decoder's samples.
struct Case {
    call: Vec<FrameLine>,
    far: Vec<Samples>,
}

/// An answer, and the numbers of the candidates that are there behind it.
type Step = (Answer, Vec<usize>);

impl Case {
    /// The far decoder had the frames of `had`, from `state` on.
    fn new(tables: &Tables, state: &StateBlock, call: &[FrameLine], had: &[FrameLine]) -> Case {
        let mut decoder = harness::load(tables, state);
        let samples = had.iter().map(|line| {
            let mut samples = [0; FRAME_SAMPLES];
            decoder.decode(line.frame(), &mut samples);
            samples
        });
        Case {
            far: samples.collect(),
            call: call.to_vec(),
        }
    }

    fn steps(&self, tables: &Tables) -> Vec<Step> {
        let mut memory = far::begin(tables);
        let step = |(line, far): (&FrameLine, &Samples)| {
            let answer = far::step(tables, &mut memory, line, far);
            let left = memory.candidates.iter().map(|c| c.number).collect();
            (answer, left)
        };
        self.call.iter().zip(&self.far).map(step).collect()
    }
}

/// One table block and what is drawn for it.
struct Bench {
    block: TableBlock,
    tables: Tables,
}

impl Bench {
    fn new(seed: u64, kind: &str, raised: bool) -> Bench {
        let mut block = generate::tables(&mut Rng::new(seed), kind).expect("a kind of tables");
        if raised {
            trials::raise(&mut block);
        }
        let tables = harness::tables(&block);
        Bench { block, tables }
    }

    /// A sound case: a piece of a call.
    fn sound(&self, rng: &mut Rng, kind: &str, frames: usize, most: i32) -> Case {
        let from = rng.below(30);
        let mut call = trials::draw_call(rng, &self.block, kind, from + frames);
        call.drain(..from);
        let state = trials::start(rng, &self.tables, most);
        Case::new(&self.tables, &state, &call, &call)
    }

    /// The case of one seed.
    fn one(&self, seed: u64, make: impl Fn(&Bench, &mut Rng) -> Option<Case>) -> Case {
        make(self, &mut Rng::new(seed)).expect("a seed with a case")
    }

    /// The first of all seeds for which `make` gives a case.
    fn search(&self, what: &str, make: impl Fn(&Bench, &mut Rng) -> Option<Case>) -> Case {
        let found = (0..20_000).find_map(|seed| make(self, &mut Rng::new(seed)));
        found.unwrap_or_else(|| panic!("no case: {what}"))
    }
}

fn classes(steps: &[Step]) -> Vec<u32> {
    steps.iter().map(|(answer, _)| answer.class).collect()
}

/// The frame of the first known answer.
fn first_known(steps: &[Step]) -> Option<usize> {
    steps.iter().position(|(answer, _)| answer.class == KNOWN)
}

/// Losses at either end, frames that were not sent, a bad parity before the count and in it, a fault of one bit, refused kinds.
fn losses(b: &Bench, rng: &mut Rng) -> Option<Case> {
    let mut call = trials::draw_call(rng, &b.block, "ordinary", 34);
    call[0].payload[3] ^= 0x20;
    call[4].payload[3] ^= 0x20;
    call[12] = FrameLine {
        kind: 1,
        payload: [0x5a, 0xa5, 0, 0, 0, 0, 0, 0, 0, 0],
    };
    call[13] = line_of(2);
    call[15].payload[3] ^= 0x20;
    let mut had = call.clone();
    had[11] = LOST;
    let mut marked = call;
    (marked[11], marked[14]) = (LOST, LOST);
    let state = trials::start(rng, &b.tables, 0);
    let mut case = Case::new(&b.tables, &state, &marked, &had);
    case.far[28][33] ^= 0x40;
    let steps = case.steps(&b.tables);
    let expected = [SETTLING; 8]
        .into_iter()
        .chain([KNOWN; 3])
        .chain([CONCEALED; 4])
        .chain([SETTLING; 8])
        .chain([KNOWN; 5])
        .chain([DIFFERS])
        .chain([KNOWN; 5]);
    for (at, kind) in [(26, 4), (20, 7), (3, 65535)] {
        case.call.insert(at, line_of(kind));
        case.far.insert(at, [-1; FRAME_SAMPLES]);
    }
    expected.eq(classes(&steps)).then_some(case)
}

/// Two candidates behind the first known frame, which has a short delay; of these the second alone gives the frame after it, which has
/// a long one, and a fault at its last sample.
fn second(b: &Bench, rng: &mut Rng) -> Option<Case> {
    let mut call = trials::draw_call(rng, &b.block, "high", 32);
    call.drain(..20);
    set_delay(&mut call[7], rng.range(0, 12) as u16);
    set_delay(&mut call[8], rng.range(240, 255) as u16);
    let state = trials::start(rng, &b.tables, 5000);
    let mut case = Case::new(&b.tables, &state, &call, &call);
    let steps = case.steps(&b.tables);
    if first_known(&steps)? != 7 {
        return None;
    }
    let (before, after) = (&steps[7].1, &steps[8].1);
    if before.len() != 2 || *after != before[1..] {
        return None;
    }
    case.far[8][79] ^= 1;
    Some(case)
}

/// Sets P1, and the parity that it asks for.
fn set_delay(line: &mut FrameLine, p1: u16) {
    let p = &mut line.payload;
    p[2] = p[2] & 0xc0 | (p1 >> 2) as u8;
    p[3] = p[3] & 0x1f | ((p1 & 3) << 6) as u8;
    p[3] |= u8::from(!parity_ok(p1, 0)) << 5;
}

/// Two candidates behind the first known frame, one behind the next.
fn two_sound(b: &Bench, rng: &mut Rng) -> Option<Case> {
    let case = b.sound(rng, "voice", 11, 5000);
    let steps = case.steps(&b.tables);
    let first = first_known(&steps)?;
    (steps[first].1.len() == 2).then_some(case)
}

/// A fault of the line from a known frame or from the window on.
fn fault(b: &Bench, rng: &mut Rng, kind: &str, fault: &str, frame: usize) -> Option<Case> {
    let mut case = b.sound(rng, kind, frame + 9, 32767);
    let steps = case.steps(&b.tables);
    (first_known(&steps)? == 7).then_some(())?;
    case.far = trials::faulty(rng, fault, &case.far, 80 * frame + 23);
    Some(case)
}

/// Samples of a piece of the call are 0.
fn muted(b: &Bench, rng: &mut Rng, from: usize, to: usize, frames: usize) -> Option<Case> {
    let mut case = b.sound(rng, "ordinary", frames, 300);
    let steps = case.steps(&b.tables);
    (first_known(&steps)? == 7).then_some(())?;
    case.far.as_flattened_mut()[from..to].fill(0);
    let last = *classes(&case.steps(&b.tables)).last()?;
    (last == KNOWN).then_some(case)
}

/// The first candidate that is kept is one of `numbers`. With a fault, in the very frame in which it is taken.
fn shrunk(b: &Bench, rng: &mut Rng, kind: &str, numbers: &[usize], faulty: bool) -> Option<Case> {
    let most = rng.pick(&STARTS);
    let frames = if faulty { 13 } else { 10 };
    let mut case = b.sound(rng, kind, frames, most);
    let steps = case.steps(&b.tables);
    let first = first_known(&steps)?;
    (first == 7 && numbers.contains(&steps[first].1[0])).then_some(())?;
    if faulty {
        case.far[first][79] ^= 0x10;
    }
    Some(case)
}

/// The first frame that is not clean has a sample at full scale, all such samples being `full`; known later.
fn full_scale(b: &Bench, rng: &mut Rng, full: i16) -> Option<Case> {
    let most = rng.pick(&STARTS);
    let case = b.sound(rng, "high", 13, most);
    let at = only_not_clean(&case.steps(&b.tables))?;
    let mut ends = case.far[at].iter().filter(|&&y| y == 32767 || y == -32768);
    (ends.clone().count() > 0 && ends.all(|&y| y == full)).then_some(case)
}

/// In the first frame that is not clean no sample is at full scale: the sizes of the coefficients of one subframe go beyond the bound, up
/// to `most`; known later.
fn beyond(b: &Bench, rng: &mut Rng, subframe: usize, most: i64) -> Option<Case> {
    let state = rng.pick(&STARTS);
    let case = b.sound(rng, "voice", 13, state);
    let at = only_not_clean(&case.steps(&b.tables))?;
    let mut own = Decoder::new(&b.tables);
    let lines = case.call[..=at].iter();
    let stages = lines
        .map(|line| stages::run(&mut own, line.frame()))
        .last()?;
    let sizes = stages
        .a_hat
        .map(|a| a.iter().map(|&a| i64::from(a).abs()).sum::<i64>());
    let found = sizes[subframe] > 61439 && sizes[subframe] <= most && sizes[1 - subframe] <= 61439;
    let at_full = |y: &i16| *y == 32767 || *y == -32768;
    (found && !case.far[at].iter().any(at_full)).then_some(case)
}

/// The only frame that is not clean, where something is known two frames later.
fn only_not_clean(steps: &[Step]) -> Option<usize> {
    let classes = classes(steps);
    let at = classes.iter().position(|&c| c == NOT_CLEAN)?;
    (first_known(steps)? == at + 3).then_some(at)
}

/// Samples of the window so large that the excitation they tell does not fit.
fn too_large(b: &Bench, rng: &mut Rng) -> Option<Case> {
    let mut case = b.sound(rng, "ordinary", 13, 300);
    for (k, y) in case.far[6].iter_mut().enumerate() {
        *y = if k / 3 % 2 == 0 { 32000 } else { -32000 };
    }
    (classes(&case.steps(&b.tables))[7] == DIFFERS).then_some(case)
}

/// A frame lost at the far end that is not marked.
fn unmarked(b: &Bench, rng: &mut Rng) -> Option<Case> {
    let call = trials::draw_call(rng, &b.block, "ordinary", 20);
    let mut had = call.clone();
    had[9] = LOST;
    let state = trials::start(rng, &b.tables, 5000);
    let case = Case::new(&b.tables, &state, &call, &had);
    let classes = classes(&case.steps(&b.tables));
    let known = classes[7] == KNOWN && classes[9] == DIFFERS && classes[19] == KNOWN;
    known.then_some(case)
}

/// Writes the list.
pub fn list(out: &mut impl Write) -> Result<(), String> {
    let real = Bench::new(1, "real", false);
    let raised = Bench::new(2, "real", true);
    let patched = Bench::new(3, "patched", false);
    let uniform = Bench::new(4, "uniform", false);
    let lists: [(&Bench, Vec<Case>); 4] = [
        (
            &real,
            vec![
                real.search("losses", losses),
                real.search("two", two_sound),
                real.search("gain", |b, r| fault(b, r, "ordinary", "gain", 9)),
                real.search("too large", too_large),
                real.search("muted for a moment", |b, r| muted(b, r, 750, 870, 14)),
                real.search("muted", |b, r| muted(b, r, 750, 1250, 24)),
            ],
        ),
        (
            &raised,
            vec![
                raised.search("shrunk", |b, r| shrunk(b, r, "high", &[4], false)),
                raised.search("shrunk, a fault", |b, r| shrunk(b, r, "high", &[4], true)),
                raised.search("shrunk before", |b, r| shrunk(b, r, "deep", &[1, 2], false)),
                raised.search("shrunk twice", |b, r| {
                    shrunk(b, r, "deep", &[3, 5, 6, 7], false)
                }),
                raised.search("full scale", |b, r| full_scale(b, r, 32767)),
                raised.search("full scale below", |b, r| full_scale(b, r, -32768)),
                // Seeds by which a dropped candidate, or one of another order, would be seen.
                raised.one(7, |b, r| fault(b, r, "deep", "gain", 8)),
                raised.one(10, |b, r| fault(b, r, "deep", "drop", 5)),
                raised.search("the second of two", second),
            ],
        ),
        (
            &patched,
            vec![
                patched.search("first subframe", |b, r| beyond(b, r, 0, 65000)),
                patched.search("second subframe", |b, r| beyond(b, r, 1, 62000)),
                patched.search("drop", |b, r| fault(b, r, "ordinary", "drop", 5)),
                patched.search("unmarked", unmarked),
            ],
        ),
        (
            &uniform,
            vec![uniform.search("uniform", |b, r| Some(b.sound(r, "voice", 8, 32767)))],
        ),
    ];
    for (bench, cases) in &lists {
        line(out, 'T', &bench.block)?;
        for case in cases {
            write_case(out, case)?;
        }
    }
    Ok(())
}

/// Writes `cases` random cases of `frames` frames each: sound ones, and ones with faults and with losses that are not marked.
pub fn random(out: &mut impl Write, seed: u64, cases: usize, frames: usize) -> Result<(), String> {
    let mut rng = Rng::new(seed);
    for n in 0..cases {
        let (block, mut call) = trials::draw(&mut rng, n % trials::CALLS.len(), frames);
        let tables = harness::tables(&block);
        let most = rng.pick(&STARTS);
        let state = trials::start(&mut rng, &tables, most);
        let mut had = call.clone();
        let (marked, other) = rng.pick(&[(0, 0), (1, 0), (5, 0), (3, 1)]);
        for (line, had) in call.iter_mut().zip(&mut had) {
            if rng.chance(marked) {
                *line = line_of(rng.range(2, 3) as usize);
                *had = rng.pick(&[*had, *line]);
            }
            if rng.chance(other) {
                *had = LOST;
            }
        }
        let mut case = Case::new(&tables, &state, &call, &had);
        for _ in 0..rng.below(4) {
            let fault = rng.pick(&["bit", "bit", "gain", "drop", "repeat"]);
            let place = rng.below(80 * frames);
            case.far = trials::faulty(&mut rng, fault, &case.far, place);
        }
        line(out, 'T', &block)?;
        write_case(out, &case)?;
    }
    Ok(())
}

fn write_case(out: &mut impl Write, case: &Case) -> Result<(), String> {
    line(out, 'N', &[])?;
    for (frame, far) in case.call.iter().zip(&case.far) {
        let mut words = vec![frame.kind as i16];
        words.extend(frame.payload.map(i16::from));
        words.extend(far);
        line(out, 'F', &words)?;
    }
    Ok(())
}

/// A letter, each word as four digits, a line feed.
fn line(out: &mut impl Write, letter: char, words: &[i16]) -> Result<(), String> {
    let digits: String = words.iter().map(|word| format!("{word:04x}")).collect();
    writeln!(out, "{letter}{digits}").map_err(|e| e.to_string())
}

// ---- the answers

const NAMES: [&str; 5] = ["concealed", "settling", "not-clean", "known", "differs"];

/// Answers a list as replay_compare must.
pub fn answers(input: &mut impl BufRead, out: &mut impl Write) -> Result<(), String> {
    let mut tables: Option<Tables> = None;
    let mut memory: Option<Memory> = None;
    let mut computed = [0; FRAME_SAMPLES];
    for text in input.lines() {
        let text = text.map_err(|e| e.to_string())?;
        let words = digits(&text).ok_or("a line of another form")?;
        let printed = match (text.chars().next(), &tables, &mut memory) {
            (Some('T'), ..) => {
                let block: [i16; TABLE_WORDS] = words.try_into().map_err(|_| "tables")?;
                if !(19..=144).contains(&block[INITIAL_DELAY]) {
                    return Err("tables that are refused".to_string());
                }
                (tables, memory) = (Some(harness::tables(&block)), None);
                continue;
            }
            (Some('N'), Some(tables), _) => {
                memory = Some(far::begin(tables));
                writeln!(out, "begin 0")
            }
            (Some('F'), Some(tables), Some(memory)) if words.len() == 91 => {
                let frame = FrameLine {
                    kind: usize::from(words[0] as u16),
                    payload: std::array::from_fn(|k| words[1 + k] as u8),
                };
                let far = words[11..].try_into().expect("80 words");
                let (name, number, rest) = if frame.kind > 3 {
                    ("refused", 5, 0)
                } else {
                    let answer = far::step(tables, memory, &frame, &far);
                    computed = answer.computed.unwrap_or(computed);
                    (NAMES[answer.class as usize], answer.number, answer.rest)
                };
                let sum = blocks::crc32(&blocks::bytes(&computed));
                writeln!(out, "{name} {number} {rest:08x} {sum:08x}")
            }
            _ => return Err("a line of another form".to_string()),
        };
        printed.map_err(|e| e.to_string())?;
    }
    Ok(())
}

/// The words behind a line's letter.
fn digits(text: &str) -> Option<Vec<i16>> {
    let groups = text.get(1..)?.as_bytes().chunks(4);
    let word = |group| Some(u16::from_str_radix(std::str::from_utf8(group).ok()?, 16).ok()? as i16);
    groups.map(word).collect()
}
