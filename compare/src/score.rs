//! The weights that are scored: the edges of the ranges, and random weights of each.

use std::iter;

use crate::random::Random;
use crate::rust;
use crate::steps::step;
use crate::values::{SIGN, SPECIALS, beside, both_signs, float, linear, special};

/// The largest sizes of step 4, 2^-104, of step 5 and of the tiny weights, 0.125.
pub const STEP_4: u64 = 0x3970000000000000;
pub const STEP_5: u64 = 0x3cc0527dbd87e24d;
const TINY: u64 = 0x3fc0000000000000;

/// The sizes at which a range ends.
const BOUNDARIES: [u64; 9] = [
    0x0000000000000000,
    0x00171547652b82fe, // the least weight whose score is normal
    STEP_4,
    STEP_5,
    TINY,
    0x404a800000000000, // 53, step 6
    0x404b000000000000, // 54, step 2
    0x4090000000000000, // 1024, step 3
    0x7ff0000000000000, // infinity
];

/// The bench values of document 01.
pub const BENCH: [u64; 14] = [
    0xc04b000000000000, // -54
    0xfff0000000000000, // -infinity
    0x4090000000000000, // 1024
    0xc04affffffffffff, // the least above -54
    0xc04a800000000000, // -53
    0x404a800000000000, // 53
    0x404b000000000000, // 54
    0x8000000000000000, // -0
    0x0000000000000001,
    0x0000000000000003,
    0x3970000000000000, // 2^-104
    0x3978a5dd21ef35af, // entries whose lo changes the reply
    0xbab1e3a6eaa49c6e,
    0xfff0000000000001, // a NaN
];

pub fn is_of_step_5(x: u64) -> bool {
    (STEP_4 + 1..=STEP_5).contains(&(x & !SIGN))
}

/// The boundaries and the table entries with so many patterns on each side, and the other fixed weights.
pub fn edges(reach: i64) -> Vec<u64> {
    let mut weights = BENCH.to_vec();
    weights.extend(both_signs(&SPECIALS));
    weights.extend(halves());
    for x in both_signs(&BOUNDARIES)
        .into_iter()
        .chain(rust::exceptions())
    {
        weights.extend((-reach..=reach).map(|step| x.wrapping_add_signed(step)));
    }
    weights
}

/// The whole and half numbers from -56 to 56.
fn halves() -> impl Iterator<Item = u64> {
    (-112..=112).map(|n| (f64::from(n) / 2.0).to_bits())
}

const TWO_M14: f64 = 1.0 / 16384.0;
const TWO_M27: f64 = TWO_M14 / 8192.0;
const TWO_M40: f64 = TWO_M27 / 8192.0;
const TWO_M51: f64 = TWO_M40 / 2048.0;

/// From here to 1024, exp_1 and exp_2 meet the exponent word 0x7ff.
const DOUBLED: f64 = 1024.0 - 1.0 / 8192.0;

/// The weights of steps 7 and 8, from one number to another.
pub const RANGES: [(f64, f64); 15] = [
    (-54.0, -14.0),
    (-14.0, -1.0),
    (-1.0, -0.125),
    (-0.125, -TWO_M14),
    (-TWO_M14, -TWO_M27),
    (-TWO_M27, -TWO_M40),
    (-TWO_M40, -TWO_M51),
    (TWO_M51, TWO_M40),
    (TWO_M40, TWO_M27),
    (TWO_M27, TWO_M14),
    (TWO_M14, 0.125),
    (0.125, 1.0),
    (1.0, 64.0),
    (64.0, DOUBLED),
    (DOUBLED, 1024.0),
];

/// So many weights of each range for which the fast phase does not decide; none where there is no instance of the Rust.
pub fn undecided(random: &mut Random, count: u64) -> Vec<u64> {
    if rust::INSTANCES.is_empty() {
        return Vec::new();
    }
    let mut weights = Vec::new();
    for range in RANGES {
        let all = iter::repeat_with(|| in_range(random, range));
        weights.extend(all.filter(|&x| step(x).is_accurate()).take(count as usize));
    }
    weights
}

/// Weights up to 1/8 in size: so many of each range, and twice as many above 1/16, where the highest degrees count.
pub fn tiny_weights(random: &mut Random, count: usize) -> Vec<u64> {
    let tiny = RANGES.into_iter().filter(|&range| is_tiny(range));
    let top = [(-0.125, -0.0625), (0.0625, 0.125)];
    of_ranges(random, tiny.chain(top).chain(top), count)
}

/// Weights over 1/8 in size: so many of each range, and two for each entry of T1 and T2.
pub fn wide_weights(random: &mut Random, count: usize) -> Vec<u64> {
    let wide = RANGES.into_iter().filter(|&range| !is_tiny(range));
    let mut weights = of_ranges(random, wide, count);
    weights.extend((0..128).map(|i| of_entry(random, i)));
    weights
}

/// x of each entry of the table of 59.
pub fn tiny_entries() -> Vec<u64> {
    entries(STEP_5 + 1, TINY)
}

/// x of each entry of the table of 93.
pub fn wide_entries() -> Vec<u64> {
    entries(TINY + 1, !SIGN)
}

/// x of each entry of these sizes.
fn entries(least: u64, most: u64) -> Vec<u64> {
    let mut entries = rust::exceptions();
    entries.retain(|x| (least..=most).contains(&(x & !SIGN)));
    entries
}

fn is_tiny((from, to): (f64, f64)) -> bool {
    -0.125 <= from && to <= 0.125
}

fn of_ranges(
    random: &mut Random,
    ranges: impl Iterator<Item = (f64, f64)>,
    count: usize,
) -> Vec<u64> {
    let ranges = ranges.flat_map(|range| iter::repeat_n(range, count));
    ranges.map(|range| any_in_range(random, range)).collect()
}

/// A weight of step 7 for which exp_1 and exp_2 read the entry i of T1 and -i of T2, both modulo 64.
fn of_entry(random: &mut Random, i: i64) -> u64 {
    let whole = random.between(2, 50) * random.pick(&[-1, 1]);
    let k = whole * 4096 + (i & 63) * 64 + (-i & 63);
    let part = f64::from_bits(linear(random, -0.5, 0.5));
    ((k as f64 + part) / 4096.0).to_bits()
}

/// A weight of a range, or close to it: below -1 one whose score is close to a tie.
fn in_range(random: &mut Random, (from, to): (f64, f64)) -> u64 {
    if to <= -1.0 {
        let size = f64::from_bits(linear(random, from, to)) + 54.0;
        return near_tie(random, size.exp2() as u64);
    }
    any_in_range(random, (from, to))
}

/// Any weight of a range, each binade as often: the patterns of one sign come by increasing sizes.
fn any_in_range(random: &mut Random, (from, to): (f64, f64)) -> u64 {
    let (from, to) = (from.to_bits(), to.to_bits());
    from.min(to) + random.below(from.abs_diff(to))
}

pub fn weight(random: &mut Random) -> u64 {
    match random.below(10) {
        0 => random.word(),
        1 => special(random),
        2 => of_exponents(random, -1074, -1020),
        3 => of_exponents(random, -1022, -105),
        4 => of_exponents(random, -104, -52),
        5 => of_exponents(random, -52, -3),
        6 => of_exponents(random, -3, 9),
        7 => linear(random, -54.0, 64.0),
        8 => near_edge(random),
        _ => {
            let range = random.pick(&RANGES);
            in_range(random, range)
        }
    }
}

fn of_exponents(random: &mut Random, lo: i64, hi: i64) -> u64 {
    let exponent = random.between(lo, hi);
    float(random, exponent)
}

/// A weight close to a whole or half number, or one whose score is close to a tie.
fn near_edge(random: &mut Random) -> u64 {
    if random.below(2) == 0 {
        let x = random.between(-112, 112) as f64 / 2.0;
        return beside(random, x.to_bits(), 2);
    }
    let bits = random.between(1, 40);
    let multiple = random.below(1 << bits);
    near_tie(random, multiple)
}

/// A weight whose score is close to a tie: 2^x is close to the odd multiple of 2^-54, half a unit in the last place of the score.
fn near_tie(random: &mut Random, multiple: u64) -> u64 {
    let x = ((multiple | 1) as f64).log2() - 54.0;
    beside(random, x.to_bits(), 2)
}
