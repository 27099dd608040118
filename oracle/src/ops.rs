//! The replay list of the basic operators: calls with their results, one a line.

use crate::rng::Rng;
use g729::basic_op::{Ctx, extract_h, extract_l, l_deposit_h, norm_l};
use g729::harness::interpolate_q15;
use std::collections::HashSet;
use std::io::{self, Write};

/// What an argument may be.
#[derive(Clone, Copy, PartialEq)]
enum Arg {
    /// None: always 0.
    No,
    /// 16 bits.
    Word,
    /// 32 bits.
    Long,
    /// A shift count of 16 bits.
    Count,
    /// A shift count up to 15, and up to 31.
    To15,
    To31,
    /// The integer argument of `base2_power`: from -32737 up, where 30 less it is still 16 bits.
    Power,
    /// The high half of 64 bits, often one that a 32-bit number has.
    High,
}
use Arg::{Count, High, Long, No, Power, To15, To31, Word};

const WORDS: &[i32] = &[
    -32768, -32767, -16385, -16384, -2, -1, 0, 1, 2, 3, 16383, 16384, 32766, 32767,
];
const FEW_WORDS: &[i32] = &[-32768, -16385, -1, 1, 16384, 32767];
const LONGS: &[i32] = &[
    i32::MIN,
    i32::MIN + 1,
    -(1 << 30) - 1,
    -(1 << 30),
    -65537,
    -65536,
    -32769,
    -32768,
    -1,
    0,
    1,
    32767,
    32768,
    65535,
    65536,
    (1 << 30) - 1,
    1 << 30,
    i32::MAX - 1,
    i32::MAX,
];
const FEW_LONGS: &[i32] = &[
    i32::MIN,
    i32::MIN + 1,
    -65537,
    -1,
    0,
    1,
    1 << 30,
    i32::MAX - 1,
    i32::MAX,
];
const COUNTS: &[i32] = &[
    -32768, -32767, -33, -32, -31, -17, -16, -15, -1, 0, 1, 14, 15, 16, 17, 30, 31, 32, 33, 32767,
];
const POWERS: &[i32] = &[
    -32737, -32736, -3, -2, -1, 0, 1, 13, 14, 15, 29, 30, 31, 61, 62, 32767,
];

impl Arg {
    /// The corner values; fewer where three arguments are to be combined.
    fn corners(self, few: bool) -> Vec<i32> {
        match (self, few) {
            (No, _) => vec![0],
            (Word, true) => FEW_WORDS.to_vec(),
            (Word, false) => WORDS.to_vec(),
            (Long, true) => FEW_LONGS.to_vec(),
            (Long, false) => LONGS.to_vec(),
            (Count, _) => COUNTS.to_vec(),
            (To15, _) => (0..16).collect(),
            (To31, _) => (0..32).collect(),
            (Power, _) => POWERS.to_vec(),
            (High, _) => vec![i32::MIN, -2, -1, 0, 1, i32::MAX],
        }
    }

    /// A random value: uniform bits, a random size, or close to an end of the range, in turn.
    fn random(self, rng: &mut Rng, way: usize) -> i32 {
        match (self, way % 3) {
            (No, _) => 0,
            (Word, 0) => rng.word().into(),
            (Word, 1) => rng.magnitude(16),
            (Word, _) => i32::from(rng.pick(&[i16::MIN, i16::MAX]) ^ (rng.magnitude(12) as i16)),
            (Long, 0) => rng.long(),
            (Long, 1) => rng.magnitude(32),
            (Long, _) => rng.pick(&[i32::MIN, i32::MAX]) ^ (rng.magnitude(32) >> 1),
            (Count, 0) => rng.word().into(),
            (Count, _) => rng.range(-34, 34),
            (To15, _) => rng.range(0, 15),
            (To31, _) => rng.range(0, 31),
            (Power, 0) => rng.range(-32737, 32767),
            (Power, _) => rng.range(-34, 64),
            (High, 0) => rng.long(),
            (High, _) => rng.range(-2, 1),
        }
    }
}

type Run = fn(&mut Ctx, [i32; 3]) -> [i32; 2];

/// The operations in the order of their numbers.
const OPERATIONS: [([Arg; 3], Run); 32] = [
    // 00 to 07
    ([Long, No, No], |ops, [x, ..]| one(ops.sat16(x))),
    ([Word, Word, No], |ops, [a, b, _]| one(ops.add(w(a), w(b)))),
    ([Word, Word, No], |ops, [a, b, _]| one(ops.sub(w(a), w(b)))),
    ([Word, Count, No], |ops, [a, n, _]| one(ops.shl(w(a), w(n)))),
    ([Word, Word, No], |ops, [a, b, _]| one(ops.mult(w(a), w(b)))),
    ([Word, Word, No], |ops, [a, b, _]| {
        one(ops.l_mult(w(a), w(b)))
    }),
    ([Long, Long, No], |ops, [x, y, _]| one(ops.l_add(x, y))),
    ([Long, Long, No], |ops, [x, y, _]| one(ops.l_sub(x, y))),
    // 08 to 0f
    ([Long, Word, Word], |ops, [x, a, b]| {
        one(ops.l_mac(x, w(a), w(b)))
    }),
    ([Long, Word, Word], |ops, [x, a, b]| {
        one(ops.l_msu(x, w(a), w(b)))
    }),
    ([Long, Count, No], |ops, [x, n, _]| one(ops.l_shl(x, w(n)))),
    ([Long, Count, No], |ops, [x, n, _]| one(ops.l_shr(x, w(n)))),
    (
        [Long, Count, No],
        |ops, [x, n, _]| one(ops.l_shr_r(x, w(n))),
    ),
    ([Long, No, No], |ops, [x, ..]| one(ops.round(x))),
    ([Long, No, No], |_, [x, ..]| one(extract_h(x))),
    ([Long, No, No], |_, [x, ..]| one(extract_l(x))),
    // 10 to 17
    ([Word, No, No], |_, [a, ..]| one(l_deposit_h(w(a)))),
    ([Long, No, No], |_, [x, ..]| one(norm_l(x))),
    ([Long, No, No], |ops, [x, ..]| two(ops.split_high_low(x))),
    ([Word, Word, No], |ops, [a, b, _]| {
        one(ops.join_high_low(w(a), w(b)))
    }),
    ([Word, Word, Word], |ops, [a, b, c]| {
        one(ops.multiply_split_by_16(w(a), w(b), w(c)))
    }),
    ([Long, Word, No], |ops, [x, a, _]| {
        one(ops.multiply_32_by_16(x, w(a)))
    }),
    ([Power, Word, No], |ops, [i, f, _]| {
        one(ops.base2_power(w(i), w(f)))
    }),
    ([Word, Word, No], |ops, [a, b, _]| {
        ops.l_mult(w(a), w(b));
        one(ops.overflow)
    }),
    // 18 to 1f
    ([Long, Word, Word], |ops, [x, a, b]| {
        ops.l_msu(x, w(a), w(b));
        one(ops.overflow)
    }),
    ([Long, No, No], |ops, [x, ..]| {
        ops.l_shl(x, 3);
        one(ops.overflow)
    }),
    ([Long, No, No], |ops, [x, ..]| {
        ops.round(x);
        one(ops.overflow)
    }),
    ([Word, To15, No], |_, [a, n, _]| one(w(a) >> n)),
    ([Long, To31, No], |_, [x, n, _]| one(x >> n)),
    ([Word, Word, Word], |ops, [a, b, c]| {
        one(interpolate_q15(ops, [w(a), w(b)], w(c)))
    }),
    ([Long, No, No], |ops, [x, ..]| {
        two(ops.base2_log(x, &made_up_table()))
    }),
    ([High, Long, No], |ops, [high, low, _]| {
        one(ops.sat32(i64::from(high) << 32 | i64::from(low as u32)))
    }),
];

fn w(x: i32) -> i16 {
    x as i16
}

fn one(x: impl Into<i32>) -> [i32; 2] {
    [x.into(), 0]
}

fn two((x, y): (i16, i16)) -> [i32; 2] {
    [x.into(), y.into()]
}

/// The table that operation 1e looks up: made up, and no logarithm.
fn made_up_table() -> [i16; 33] {
    std::array::from_fn(|i| w(31 * (i * i) as i32 + 7 * i as i32 - 9000))
}

/// All combinations of the corner values of an operation's arguments. An operation with one
/// 32-bit argument gets besides the neighbours of all powers of two, and the last number whose
/// rounding does not saturate with the one behind it.
fn corners(args: [Arg; 3]) -> Vec<[i32; 3]> {
    let few = args[2] != No;
    let [first, second, third] = args.map(|arg| arg.corners(few));
    let mut calls = Vec::new();
    for &a in &first {
        for &b in &second {
            calls.extend(third.iter().map(|&c| [a, b, c]));
        }
    }
    if args == [Long, No, No] {
        calls.extend([[0x7fff_7fff, 0, 0], [0x7fff_8000, 0, 0]]);
        for k in 1..31 {
            let power = 1 << k;
            calls.extend([power - 1, power, -power, -power - 1].map(|x| [x, 0, 0]));
        }
    }
    calls
}

/// Prints the list: for every operation its corners, then `random` random calls, none twice.
pub fn list(out: &mut impl Write, seed: u64, random: usize) -> io::Result<()> {
    let mut rng = Rng::new(seed);
    for (number, (args, run)) in OPERATIONS.iter().enumerate() {
        let mut calls = corners(*args);
        let drawn = (0..random).map(|k| args.map(|arg| arg.random(&mut rng, k)));
        calls.extend(drawn);
        let mut printed = HashSet::new();
        calls.retain(|call| printed.insert(*call));
        for call in calls {
            let [a, b, c] = call;
            let [r, s] = run(&mut Ctx::default(), call);
            writeln!(out, "{number:02x} {a:08x} {b:08x} {c:08x} {r:08x} {s:08x}")?;
        }
    }
    Ok(())
}
