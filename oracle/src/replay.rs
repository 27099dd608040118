//! The replay streams: text lines of fixed sizes, a letter and words of four hexadecimal digits,
//! with the Rust's answers. README.md has their layout.

use crate::compare::ThreeWays;
use crate::generate::{self, CALL_KINDS, STATE_KINDS, TABLE_KINDS};
use crate::rng::Rng;
use crate::text::FrameLine;
use g729::harness::{self, StateBlock, TableBlock};
use g729::stages::{FrameStages, SubframeStages};
use g729::{Decoder, Tables};
use std::io::Write;

/// Prints `cases` cases of `frames` frames each, every stage's values with every frame.
pub fn stages(out: &mut impl Write, seed: u64, cases: usize, frames: usize) -> Result<(), String> {
    let mut rng = Rng::new(seed);
    for case in 0..cases {
        let (block, tables, state) = blocks_of(&mut rng, case)?;
        line(out, 'T', &block)?;
        line(out, 'S', &state)?;
        let call = call_of(&mut rng, frames)?;
        let mut ways = ThreeWays::new(&tables, &state);
        for (n, frame) in call.iter().enumerate() {
            let values = ways
                .step(frame.frame())
                .map_err(|e| format!("case {}, frame {}: {e}", case + 1, n + 1))?;
            line(out, 'F', &frame_words(frame, &values, &ways.state))?;
        }
    }
    Ok(())
}

/// The tables and the state that a case starts from.
pub fn blocks_of(rng: &mut Rng, case: usize) -> Result<(TableBlock, Tables, StateBlock), String> {
    let block = tables_of(rng, case)?;
    let tables = harness::tables(&block);
    let state = state_of(rng, case, &tables)?;
    Ok((block, tables, state))
}

/// The tables of a case: the kinds in turn.
fn tables_of(rng: &mut Rng, case: usize) -> Result<TableBlock, String> {
    generate::tables(rng, TABLE_KINDS[case % TABLE_KINDS.len()]).ok_or("no such tables".to_string())
}

/// The state that a case starts from: fresh, and each of the other kinds, in turn.
fn state_of(rng: &mut Rng, case: usize, tables: &Tables) -> Result<StateBlock, String> {
    match case % (STATE_KINDS.len() + 1) {
        0 => Ok(harness::save(&Decoder::new(tables))),
        kind => generate::state(rng, STATE_KINDS[kind - 1]).ok_or("no such state".to_string()),
    }
}

/// A call of a kind and a parity drawn at random, half of them mixed.
pub fn call_of(rng: &mut Rng, frames: usize) -> Result<Vec<FrameLine>, String> {
    let kind = if rng.chance(50) {
        "mixed"
    } else {
        rng.pick(&CALL_KINDS)
    };
    let parity = rng.pick(&[None, Some(0), Some(95), Some(100)]);
    generate::call(rng, kind, frames, parity).ok_or("no such call".to_string())
}

/// The words of an F line. A concealed frame's fields and parity are 0.
fn frame_words(frame: &FrameLine, values: &FrameStages, state: &StateBlock) -> Vec<i16> {
    let mut words = vec![frame.kind as i16];
    words.extend(frame.payload.map(i16::from));
    words.extend(values.fields.unwrap_or_default().map(|f| f as i16));
    words.push(i16::from(values.parity == Some(true)));
    words.extend(values.l_hat);
    words.extend(values.omega_hat);
    words.extend(values.q.as_flattened());
    words.extend(values.a_hat.as_flattened());
    for subframe in &values.subframes {
        subframe_words(&mut words, subframe);
    }
    words.extend(values.samples());
    words.extend(state);
    words
}

fn subframe_words(words: &mut Vec<i16>, values: &SubframeStages) {
    words.extend([values.t.0, values.t.1]);
    words.extend([values.index.0 as i16, values.index.1 as i16]);
    words.extend(values.codevector);
    words.extend(values.sharpened);
    words.extend([values.g.gp, values.g.gc, values.beta]);
    words.extend(values.v);
    words.extend(values.u);
    words.push(i16::from(values.saturated));
}

/// A letter, each word as four digits, a line feed.
fn line(out: &mut impl Write, letter: char, words: &[i16]) -> Result<(), String> {
    let digits: String = words.iter().map(|word| format!("{word:04x}")).collect();
    writeln!(out, "{letter}{digits}").map_err(|e| e.to_string())
}

/// Prints `cases` calls of `frames` frames each, with their samples and the states at several
/// places, and a refused or accepted set of arguments after every frame.
pub fn calls(out: &mut impl Write, seed: u64, cases: usize, frames: usize) -> Result<(), String> {
    let mut rng = Rng::new(seed);
    for case in 0..cases {
        let (block, tables, state) = blocks_of(&mut rng, case)?;
        line(out, 'T', &block)?;
        match case % (STATE_KINDS.len() + 1) {
            0 => line(out, 'N', &[])?,
            _ => line(out, 'S', &state)?,
        }
        line(out, 'E', &state)?;
        let call = call_of(&mut rng, frames)?;
        let mut ways = ThreeWays::new(&tables, &state);
        for (n, frame) in call.iter().enumerate() {
            let values = ways
                .step(frame.frame())
                .map_err(|e| format!("call {}, frame {}: {e}", case + 1, n + 1))?;
            let mut words = vec![frame.kind as i16];
            words.extend(frame.payload.map(i16::from));
            words.extend(values.samples());
            line(out, 'F', &words)?;
            if rng.chance(30) || n + 1 == call.len() {
                line(out, 'E', &ways.state)?;
            }
            line(out, 'R', &refusal_words(&mut rng))?;
        }
    }
    Ok(())
}

/// `right`, or one time out of six one of the others.
fn often(rng: &mut Rng, right: i16, others: &[i16]) -> i16 {
    if rng.chance(84) {
        right
    } else {
        rng.pick(others)
    }
}

/// The word that all lent memory holds, which a refusal leaves there.
const LENT: i16 = 7;

/// Lengths and words that the operations refuse or not, the number of each one's answer, and `LENT`.
fn refusal_words(rng: &mut Rng) -> [i16; 14] {
    let kind = often(rng, 0, &[1, 2, 3, 4, 5, 0x7fff, -1]);
    let payload = [10, 2, 0, 0].get(kind as usize).copied().unwrap_or(0);
    let arguments = [
        often(rng, 1880, &[0, 1, 1867, 1868, 1879, 1881, 1900]),
        often(rng, 77, &[-32768, -1, 0, 18, 19, 144, 145, 32767]),
        often(rng, 234, &[0, 40, 61, 233, 235, 250]),
        often(rng, 1, &[-32768, -1, 0, 2, 32767]),
        often(rng, 60, &[-32768, -1, 0, 18, 19, 144, 145, 32767]),
        kind,
        often(rng, payload, &[0, 1, 2, 3, 9, 10, 11, 16]),
        often(rng, 80, &[0, 1, 79, 81, 100]),
        often(rng, 15, &[0, 1, 14, 16, 20]),
    ];
    let codes = refusals(arguments);
    let mut words = [LENT; 14];
    words[..9].copy_from_slice(&arguments);
    words[9..13].copy_from_slice(&codes);
    words
}

/// The answers of Table check, Fresh state, Frame and Fields, by the conditions of document 01.
fn refusals(arguments: [i16; 9]) -> [i16; 4] {
    let [
        tables,
        initial,
        state,
        predictor,
        delay,
        kind,
        payload,
        room,
        receiver,
    ] = arguments;
    let first = |conditions: &[(bool, i16)]| {
        let found = conditions.iter().find(|(refused, _)| *refused);
        found.map_or(0, |&(_, code)| code)
    };
    let outside = |delay: i16| !(19..=144).contains(&delay);
    let length = [10, 2, 0, 0].get(kind as usize);
    let conditions = [
        (tables != 1880, 1),
        (outside(initial), 2),
        (state != 234, 3),
        (!matches!(predictor, 0 | 1) || outside(delay), 4),
        (!(0..4).contains(&kind), 5),
        (length.is_some_and(|&length| payload != length), 6),
        (room != 80, 7),
    ];
    [
        first(&conditions[..2]),
        first(&conditions[..3]),
        first(&conditions),
        first(&[(payload != 10, 6), (receiver != 15, 8)]),
    ]
}
