//! How household sheets are made: good ones, whose sums are of every kind, and each way for a line to be bad.

use std::mem;

use crate::random::Random;
use crate::sheet::{LINE, MOST_LINES};
use crate::values::{FRACTION, INFINITIES, SIGN, assemble, beside, float, linear, special};
use crate::{nans, score};

pub type Line = [u8; LINE];

/// Two weights to be added up.
type Pair = fn(&mut Random) -> [u64; 2];

const ONE: u64 = 0x3ff0000000000000;

/// Weights whose sums, each with each, are at the edges of a sum.
const SUMMANDS: [u64; 18] = [
    0x0000000000000000, // zeros
    0x8000000000000000,
    0x0000000000000001, // the least subnormals
    0x8000000000000001,
    0x0010000000000000, // the least normal
    0x800fffffffffffff, // the largest subnormal
    0x3ca0000000000000, // 2^-53: ties with 1 and the next float, to either side
    0x3ff0000000000000,
    0x3ff0000000000001,
    0xbff0000000000000, // -1
    0x7c8fffffffffffff, // with the largest finite no overflow
    0x7c90000000000000, // 2^970: with the largest finite a tie, and overflow
    0x7fefffffffffffff, // the largest finite
    0xffefffffffffffff,
    0x7ff0000000000000, // infinities
    0xfff0000000000000,
    0x7ff0000000000001, // NaNs, signalling and negative quiet
    0xfff8000000000002,
];

/// The first weights of chains.
const STARTS: [[u64; 2]; 11] = [
    [0x3d15555555555555, 0xbd1999999999999a], // about 2^-46: 55 times doubled it is below 1024
    [0x3fb999999999999a, 0x3fe6666666666666], // 0.1 and 0.7, whose sums are rounded
    [0x7ff0000000000001, 0xfff8000000000002], // NaNs
    [0xbfb999999999999a, 0x3f50624dd2f1a9fc], // -0.1 and 0.001
    [0x8010000000000000, 0x000fffffffffffff], // about the least normal
    [0x0000000000000001, 0x8000000000000003], // subnormals: doubled they become normal
    [0x7ff0000000000000, 0xfff0000000000000], // infinities
    [0x0000000000000000, 0x8000000000000000], // zeros
    [0x8000000000000000, 0x8000000000000000],
    [0x3ff0000000000000, 0xfff0000000000003], // 1 and a NaN
    [0x7e70000000000000, 0xfe70000000000001], // about 2^1000: doubled they overflow
];

/// Which two lines each line of a chain adds up, by its number, behind so many weights.
const CHAINS: [(usize, fn(usize) -> [usize; 2]); 5] = [
    (1, |number| [number - 1, number - 1]),
    (2, |number| [number - 1, number - 2]),
    (2, |number| [number - 2, number - 1]),
    (1, |number| [number - 1, 0]),
    (1, |number| [0, number - 1]),
];

/// The lines of a short sheet.
const SHORT: usize = 3;

fn weight(x: u64) -> Line {
    let mut line = [0; LINE];
    line[1..].copy_from_slice(&x.to_be_bytes());
    line
}

fn sum(first: usize, second: usize) -> Line {
    [1, first as u8, second as u8, 0, 0, 0, 0, 0, 0]
}

/// A good line with this number: a weight, or the sum of any two lines before it.
pub fn any_line(number: usize, random: &mut Random) -> Line {
    match random.below(2) {
        0 if 0 < number => any_sum(number, random),
        _ => weight(score::weight(random)),
    }
}

/// The sum of two lines before this number, half of them among the last four.
fn any_sum(number: usize, random: &mut Random) -> Line {
    let mut before = || {
        let near = number - 1 - random.below(number.min(4) as u64) as usize;
        let any = random.below(number as u64) as usize;
        // A line is named by one byte, also in a sheet that is too long.
        random.pick(&[near, any]).min(255)
    };
    sum(before(), before())
}

/// A good sheet of so many lines, the weights of which come in pairs.
pub fn good(count: usize, pair: Pair, random: &mut Random) -> Vec<Line> {
    let mut lines = Vec::new();
    while lines.len() < count {
        match random.below(4) {
            0 => lines.extend(pair(random).map(weight)),
            1 => {
                let weights = pair(random);
                let number = lines.len();
                lines.extend(weights.map(weight));
                add_shown(&mut lines, [number, number + 1], weights);
            }
            _ if lines.is_empty() => {}
            _ => lines.push(any_sum(lines.len(), random)),
        }
    }
    lines.truncate(count);
    lines
}

/// Adds the sum of two lines, and where it is no NaN two lines more: the same float with the other sign, and the sum of both. From 1024 on, and
/// up to -54, all floats have one score, which does not show what the sum was; but with another in its place, this last line would not be +0,
/// or invalid where the sum is infinite.
fn add_shown(lines: &mut Vec<Line>, [first, second]: [usize; 2], [x, y]: [u64; 2]) {
    lines.push(sum(first, second));
    let value = f64::from_bits(x) + f64::from_bits(y);
    if !value.is_nan() {
        let number = lines.len();
        lines.push(weight((-value).to_bits()));
        lines.push(sum(number - 1, number));
    }
}

/// Two weights whose sum is of any kind.
pub fn summands(random: &mut Random) -> [u64; 2] {
    match random.below(10) {
        0 => [random.word(), random.word()],
        1 => [special(random), special(random)],
        2 => of_exponents(random, [-1022, 1022], [-60, 60]),
        3 => of_exponents(random, [-1074, -1020], [-3, 3]),
        4 => about_overflow(random),
        5 => cancelling(random),
        6 => [0; 2].map(|zero| zero | random.word() & SIGN),
        7 => INFINITIES.map(|_| random.pick(&INFINITIES)),
        8 => of_nans(random),
        _ => moderate(random),
    }
}

/// A weight of an exponent between two, and one whose exponent is greater by a number between two.
fn of_exponents(random: &mut Random, [lo, hi]: [i64; 2], [least, most]: [i64; 2]) -> [u64; 2] {
    let exponent = random.between(lo, hi);
    let other = exponent + random.between(least, most);
    [float(random, exponent), float(random, other)]
}

/// A weight at the largest finite, and one of the same sign that takes the sum over the bound or does not.
fn about_overflow(random: &mut Random) -> [u64; 2] {
    let fraction = FRACTION - random.below(2);
    let x = assemble(random, 1023, fraction);
    let exponent = random.between(966, 972);
    let y = float(random, exponent);
    [x, y & !SIGN | x & SIGN]
}

/// A weight, and one that has the other sign and is the same or a few units in the last place off.
fn cancelling(random: &mut Random) -> [u64; 2] {
    let exponent = random.between(-1074, 1023);
    let x = float(random, exponent);
    [x, beside(random, x ^ SIGN, 2)]
}

/// Each is a NaN half of the time.
pub fn of_nans(random: &mut Random) -> [u64; 2] {
    [nans::operand(random), nans::operand(random)]
}

/// Weights that are scored by a phase, as most of their sums are.
fn moderate(random: &mut Random) -> [u64; 2] {
    [linear(random, -54.0, 64.0), linear(random, -54.0, 64.0)]
}

fn weights(random: &mut Random) -> [u64; 2] {
    [score::weight(random), score::weight(random)]
}

/// A full sheet: the members of a household, weights from -50 to 50, and as many sums of any two lines before them that are from -50 to 50 too.
pub fn household(random: &mut Random) -> Vec<Line> {
    let members = MOST_LINES / 2;
    let mut values = Vec::new();
    let mut lines = Vec::new();
    for _ in 0..members {
        let x = linear(random, -50.0, 50.0);
        values.push(f64::from_bits(x));
        lines.push(weight(x));
    }
    while lines.len() < MOST_LINES {
        let mut any = || random.below(values.len() as u64) as usize;
        let (first, second) = (any(), any());
        let value = values[first] + values[second];
        if value.abs() <= 50.0 {
            values.push(value);
            lines.push(sum(first, second));
        }
    }
    lines
}

/// A sheet of 1 to 56 lines. One in four has one bad line or two.
pub fn any(random: &mut Random) -> Vec<Line> {
    let mut lines = any_good(random);
    if random.below(4) == 0 {
        for _ in 0..random.between(1, 2) {
            let place = random.below(lines.len() as u64) as usize;
            let (_, line) = random.pick(&bad(place, lines.len()));
            lines[place] = line;
        }
    }
    lines
}

pub fn any_good(random: &mut Random) -> Vec<Line> {
    match random.below(8) {
        0 => household(random),
        1 => {
            let start = random.pick(&STARTS);
            let kind = random.below(CHAINS.len() as u64) as usize;
            chain(start, kind)
        }
        _ => {
            let count = random.between(1, MOST_LINES as i64) as usize;
            let pairs: [Pair; 4] = [moderate, weights, summands, of_nans];
            good(count, random.pick(&pairs), random)
        }
    }
}

/// Every chain from every start: full sheets with up to 55 sums, each of which needs the one before it.
pub fn chains() -> Vec<Vec<Line>> {
    let kinds = 0..CHAINS.len();
    let starts = STARTS.into_iter();
    starts
        .flat_map(|start| kinds.clone().map(move |kind| chain(start, kind)))
        .collect()
}

fn chain(start: [u64; 2], kind: usize) -> Vec<Line> {
    let (count, named) = CHAINS[kind];
    let mut lines = start.map(weight).to_vec();
    lines.truncate(count);
    lines.extend((count..MOST_LINES).map(|number| {
        let [first, second] = named(number);
        sum(first, second)
    }));
    lines
}

/// Sheets that start with weights and have the sum of each of them and each, as far as there is room; with `SUMMANDS`, and with two NaNs of each
/// kind.
pub fn crossed(random: &mut Random) -> Vec<Vec<Line>> {
    let mut sheets = cross(&SUMMANDS);
    sheets.extend(cross(&nans::of_each_kind(random, 2)));
    sheets
}

fn cross(weights: &[u64]) -> Vec<Vec<Line>> {
    let front: Vec<Line> = weights.iter().copied().map(weight).collect();
    let mut sheets = Vec::new();
    let mut lines = front.clone();
    for (first, x) in weights.iter().enumerate() {
        for (second, y) in weights.iter().enumerate() {
            if MOST_LINES < lines.len() + 3 {
                sheets.push(mem::replace(&mut lines, front.clone()));
            }
            add_shown(&mut lines, [first, second], [*x, *y]);
        }
    }
    sheets.push(lines);
    sheets
}

/// Every way for a line to be bad at a place of a sheet of so many lines, with the number by which it is refused. What else it names is the
/// line before it; at the first place there is none, and it names itself.
pub fn bad(place: usize, count: usize) -> Vec<(u8, Line)> {
    let before = place.saturating_sub(1);
    let named = sum(before, before);
    let mut by_14 = vec![
        with(named, 0, 2),
        with(named, 0, 255),
        with(weight(ONE), 0, 2),
        // The filler bytes add up to 0 modulo 256.
        [1, before as u8, before as u8, 128, 128, 128, 128, 128, 128],
        // 15 applies too.
        with(sum(place, place), 0, 2),
        with(sum(place, before), 8, 1),
        with(sum(before, 255), 3, 1),
    ];
    by_14.extend((3..LINE).map(|filler| with(named, filler, 1)));
    let mut by_15 = vec![sum(place, place)];
    for name in [place, place + 1, count - 1, count, 255] {
        by_15.extend([sum(name, before), sum(before, name)]);
    }
    let by_14 = by_14.into_iter().map(|line| (14, line));
    let by_15 = by_15.into_iter().map(|line| (15, line));
    by_14.chain(by_15).collect()
}

fn with(mut line: Line, place: usize, byte: u8) -> Line {
    line[place] = byte;
    line
}

/// The bytes of a line as a weight, whatever they would be in a sum.
pub fn as_weight(line: Line) -> Line {
    with(line, 0, 0)
}

/// A good sheet of so many lines, with other lines put at some places.
pub fn with_lines(count: usize, others: &[(usize, Line)], random: &mut Random) -> Vec<Line> {
    let mut lines = good(count, moderate, random);
    for (place, line) in others {
        lines[*place] = *line;
    }
    lines
}

/// A good sheet of so many lines but for some places, which have a bad line by this number, 14 or 15.
pub fn with_bad(count: usize, places: &[(usize, u8)], random: &mut Random) -> Vec<Line> {
    let places = places.iter().map(|&(place, number)| {
        let mut lines = bad(place, count);
        lines.retain(|(by, _)| *by == number);
        (place, random.pick(&lines).1)
    });
    let others: Vec<_> = places.collect();
    with_lines(count, &others, random)
}

/// A few sheets of each kind, for a stream that is kept: a chain from each start, the crossed weights, random sums, every bad line at each place
/// of a short sheet and one at each place of a full one, two of them in either order, and weights that have the bytes of bad lines.
pub fn recorded(random: &mut Random) -> Vec<Vec<Line>> {
    let starts = STARTS.into_iter().enumerate();
    let mut sheets: Vec<_> = starts
        .map(|(i, start)| chain(start, i % CHAINS.len()))
        .collect();
    sheets.extend(crossed(random));
    sheets.extend([1, 2, 3, 20, 55, 56].map(|count| good(count, summands, random)));
    for place in 0..SHORT {
        for (_, line) in bad(place, SHORT) {
            sheets.push(with_lines(SHORT, &[(place, line)], random));
        }
    }
    let full: Vec<_> = (0..MOST_LINES).map(one_bad).collect();
    for (place, line) in full.iter().enumerate() {
        sheets.push(with_lines(MOST_LINES, &[(place, *line)], random));
    }
    for [first, second] in [[14, 15], [15, 14]] {
        let places = [(0, first), (SHORT - 1, second)];
        sheets.push(with_bad(SHORT, &places, random));
    }
    sheets.push(full.into_iter().map(as_weight).collect());
    sheets
}

/// The bad lines of a full sheet in turn, another at each place.
fn one_bad(place: usize) -> Line {
    let lines = bad(place, MOST_LINES);
    lines[place % lines.len()].1
}
