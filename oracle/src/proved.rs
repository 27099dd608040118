//! The proved library (rust/src/ffi.rs) as the modules of the oracle want it. A refusal of what is accepted stops the program.

use crate::blocks::{DELAY, INITIAL_DELAY, PREDICTOR};
use crate::far::{Answer, DIFFERS, KNOWN};
use crate::ffi;
use crate::rng::Rng;
use crate::text::FrameLine;
use g729::FRAME_SAMPLES;
use g729::harness::{self, Samples, StateBlock, TableBlock};

pub fn fresh(tables: &TableBlock) -> StateBlock {
    let mut state = [0; harness::STATE_WORDS];
    let code = ffi::fresh_state(tables, &mut state);
    assert_eq!(code, 0, "a fresh state was refused");
    state
}

pub fn frame(tables: &TableBlock, state: &mut StateBlock, line: &FrameLine) -> Samples {
    let mut out = [0; FRAME_SAMPLES];
    let payload = &line.payload[..[10, 2, 0, 0][line.kind]];
    let (mut delays, mut rules) = ([0; 4], [0; 2]);
    let code = ffi::frame(
        tables,
        state,
        line.kind as u32,
        payload,
        &mut out,
        &mut delays,
        &mut rules,
    );
    assert_eq!(code, 0, "an accepted frame was refused");
    out
}

/// The frame of a line, as `text::parse` gives it.
pub fn parse(text: &[u8]) -> Option<FrameLine> {
    let (mut kind, mut payload) = (0, [0; 10]);
    let code = ffi::line(text, &mut kind, &mut payload);
    let kind = kind as usize;
    (code == 0).then_some(FrameLine { kind, payload })
}

pub fn fields(bytes: &[u8; 10]) -> [u16; 15] {
    let mut fields = [0; 15];
    let code = ffi::fields(bytes, &mut fields);
    assert_eq!(code, 0, "ten bytes were refused");
    fields
}

/// The words of a comparison's memory.
const COMPARE_WORDS: usize = 2203;

/// The comparison with a far decoder, for `trials::run`. Samples that are computed in a class without any are an answer that differs.
pub fn comparison(tables: &TableBlock) -> Box<dyn FnMut(&FrameLine, &Samples) -> Answer> {
    let tables = *tables;
    let mut memory = [0x5555; COMPARE_WORDS];
    let code = ffi::begin_compare(&tables, &mut memory);
    assert_eq!(code, 0, "the beginning of a comparison was refused");
    let mut room = 0;
    Box::new(move |line, far| {
        room += 1;
        let untouched: Samples = std::array::from_fn(|k| room ^ k as i16);
        let (mut computed, mut class, mut number, mut rest) = (untouched, 99, 99, 99);
        let payload = &line.payload[..[10, 2, 0, 0][line.kind]];
        let answer = (&mut class, &mut number, &mut rest);
        let kind = line.kind as u32;
        let code = ffi::compare(
            &tables,
            &mut memory,
            kind,
            payload,
            far,
            &mut computed,
            answer,
        );
        assert_eq!(code, 0, "an accepted frame of a comparison was refused");
        let there = class == KNOWN || class == DIFFERS || computed != untouched;
        Answer {
            class,
            number,
            rest,
            computed: there.then_some(computed),
        }
    })
}

/// Calls of the comparison with lengths and words that are refused, or not: the answer must be the number of the first refusal, and what
/// is lent must stay as it was. Returns how many of `count` calls are otherwise.
pub fn refused_comparisons(rng: &mut Rng, tables: &TableBlock, count: usize) -> usize {
    let wrong = |_: &usize| !refused_comparison(rng, tables);
    (0..count).filter(wrong).count()
}

fn refused_comparison(rng: &mut Rng, tables: &TableBlock) -> bool {
    let mut often = |right: i32, others: &[i32]| match rng.chance(85) {
        true => right,
        false => rng.pick(others),
    };
    let outside = |delay: i32| !(19..=144).contains(&delay);
    let (t, initial) = (
        often(1880, &[0, 1867, 1868, 1879, 1881]) as usize,
        often(60, &[-1, 0, 18, 145, 32767]),
    );
    let m = often(2203, &[0, 40, 61, 69, 70, 234, 2202, 2204]) as usize;
    let (predictor, delay) = (
        often(1, &[-32768, -1, 2, 32767]),
        often(77, &[-32768, -1, 0, 18, 145, 32767]),
    );
    let kind = often(0, &[1, 2, 3, 4, 5, -1]) as u32;
    let due = [10, 2, 0, 0].get(kind as usize).copied();
    let payload = often(due.unwrap_or(0), &[0, 1, 2, 3, 9, 10, 11]) as usize;
    let far = often(80, &[0, 1, 79, 81]) as usize;
    let room = often(80, &[0, 1, 79]) as usize;
    let conditions = [
        t != 1880,
        outside(initial),
        m != COMPARE_WORDS,
        !(0..2).contains(&predictor) || outside(delay),
        kind > 3,
        due.is_some_and(|due| payload != due as usize),
        far != 80 || room != 80,
    ];
    let first = |conditions: &[bool]| {
        let found = conditions.iter().position(|refused| *refused);
        found.map_or(0, |n| n as u32 + 1)
    };

    let mut block = tables.to_vec();
    block.resize(t, 0);
    if let Some(word) = block.get_mut(INITIAL_DELAY) {
        *word = initial as i16;
    }
    let mut memory = vec![7; m];
    let begun = ffi::begin_compare(&block, &mut memory);
    let begins = begun == first(&conditions[..3]) && (begun == 0 || memory == vec![7; m]);
    for (place, word) in [(PREDICTOR, predictor), (DELAY, delay)] {
        if let Some(old) = memory.get_mut(place) {
            *old = word as i16;
        }
    }
    let (before, mut computed) = (memory.clone(), vec![7; room]);
    let (mut class, mut number, mut rest) = (7, 7, 7);
    let code = ffi::compare(
        &block,
        &mut memory,
        kind,
        &vec![0; payload],
        &vec![1; far],
        &mut computed,
        (&mut class, &mut number, &mut rest),
    );
    let unchanged =
        memory == before && computed == vec![7; room] && (class, number, rest) == (7, 7, 7);
    begins && code == first(&conditions) && (code == 0 || unchanged)
}
