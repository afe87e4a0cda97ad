//! How lists of entries are made: good ones, and each way for an entry to be bad.

use std::iter;

use ffi::Entry;

use crate::random::Random;
use crate::score::{self, STEP_4, STEP_5, is_of_step_5};
use crate::values::{FRACTION, SIGN, assemble, beside, float, nan, of_sizes};

/// A kind of x: its name, and how one is made, with the table of 56 at hand. There are over 300 of each, more than a list has.
pub type Kind = (&'static str, fn(&mut Random, &[Entry]) -> u64);

pub const KINDS: [Kind; 5] = [
    ("of any size", |random, _| any(random)),
    ("of step 5", |random, _| of_step_5(random)),
    ("outside of step 5", |random, _| outside_of_step_5(random)),
    ("about the ends of step 5", |random, _| {
        let end = random.pick(&[STEP_4, STEP_5]);
        beside(random, end, 100) | random.word() & SIGN
    }),
    ("about the table of 56", |random, table| {
        let entry = random.pick(table);
        beside(random, entry.x.to_bits(), 3)
    }),
];

/// Any finite number but zero.
fn any(random: &mut Random) -> u64 {
    first(random, score::weight, |x| {
        let x = f64::from_bits(x);
        x.is_finite() && x != 0.0
    })
}

pub fn of_step_5(random: &mut Random) -> u64 {
    of_sizes(random, STEP_4 + 1, STEP_5)
}

fn outside_of_step_5(random: &mut Random) -> u64 {
    first(random, any, |x| !is_of_step_5(x))
}

/// The first pattern made that is good.
fn first(random: &mut Random, make: fn(&mut Random) -> u64, good: fn(u64) -> bool) -> u64 {
    loop {
        let x = make(random);
        if good(x) {
            return x;
        }
    }
}

/// A good list of so many entries.
pub fn good(
    random: &mut Random,
    count: usize,
    mut x: impl FnMut(&mut Random) -> u64,
) -> Vec<Entry> {
    let mut all = Vec::new();
    while all.len() < count {
        let missing = count - all.len();
        let more = iter::repeat_with(|| f64::from_bits(x(random)));
        all.extend(more.take(missing));
        all.sort_by(f64::total_cmp);
        all.dedup();
    }
    all.into_iter().map(|x| entry(random, x)).collect()
}

/// A good list, with so many negative x and then so many positive ones, more than half of them of step 5.
pub fn of_signs(random: &mut Random, negative: usize, positive: usize) -> Vec<Entry> {
    let size = |random: &mut Random| match random.below(2) {
        0 => any(random) & !SIGN,
        _ => of_step_5(random) & !SIGN,
    };
    let mut list = good(random, negative, |random| size(random) | SIGN);
    list.extend(good(random, positive, size));
    list
}

fn entry(random: &mut Random, x: f64) -> Entry {
    let (hi, lo) = pair(random);
    Entry {
        x,
        hi: f64::from_bits(hi),
        lo: f64::from_bits(lo),
    }
}

/// hi and lo: any, or with a sum at the edge of overflow, of zero, or at a tie.
fn pair(random: &mut Random) -> (u64, u64) {
    match random.below(5) {
        0 => (any(random), any(random)),
        1 => (
            assemble(random, 1023, FRACTION),
            half_of_last_place(random, 1023),
        ),
        2 => {
            let hi = any(random);
            (hi, hi ^ SIGN)
        }
        3 => (random.word() & SIGN, random.word() & SIGN),
        _ => {
            let exponent = random.between(-1020, 1023);
            (
                float(random, exponent),
                half_of_last_place(random, exponent),
            )
        }
    }
}

/// Half a unit in the last place of a float with this exponent, or next to it.
fn half_of_last_place(random: &mut Random, exponent: i64) -> u64 {
    let half = assemble(random, exponent - 53, 0);
    beside(random, half, 1)
}

/// A way for an entry to be bad: its name, and the bad entry in a good one's place, given the one before; none where there is no such.
pub type Fault = (
    &'static str,
    fn(&mut Random, Entry, Option<Entry>) -> Option<Entry>,
);

pub const FAULTS: [Fault; 15] = [
    ("x NaN", |random, entry, _| with_x(entry, any_nan(random))),
    ("x infinity", |_, entry, _| with_x(entry, f64::INFINITY)),
    ("x -infinity", |_, entry, _| {
        with_x(entry, f64::NEG_INFINITY)
    }),
    ("hi NaN", |random, entry, _| with_hi(entry, any_nan(random))),
    ("hi infinity", |_, entry, _| with_hi(entry, f64::INFINITY)),
    ("hi -infinity", |_, entry, _| {
        with_hi(entry, f64::NEG_INFINITY)
    }),
    ("lo NaN", |random, entry, _| with_lo(entry, any_nan(random))),
    ("lo infinity", |_, entry, _| with_lo(entry, f64::INFINITY)),
    ("lo -infinity", |_, entry, _| {
        with_lo(entry, f64::NEG_INFINITY)
    }),
    ("x 0", |_, entry, _| with_x(entry, 0.0)),
    ("x -0", |_, entry, _| with_x(entry, -0.0)),
    ("x equal to the one before", |_, entry, before| {
        with_x(entry, before?.x)
    }),
    ("x below the one before, positive", |_, entry, before| {
        let before = before.filter(|before| 0.0 < before.x)?;
        with_x(entry, before.x.next_down())
    }),
    // By their patterns these two are in order.
    ("x below the one before, negative", |_, entry, before| {
        let before = before.filter(|before| before.x < 0.0)?;
        with_x(entry, before.x.next_down())
    }),
    ("x negative behind a positive one", |_, entry, before| {
        let before = before.filter(|before| 0.0 < before.x)?;
        with_x(entry, -before.x)
    }),
];

fn any_nan(random: &mut Random) -> f64 {
    f64::from_bits(nan(random))
}

fn with_x(entry: Entry, x: f64) -> Option<Entry> {
    Some(Entry { x, ..entry })
}

fn with_hi(entry: Entry, hi: f64) -> Option<Entry> {
    Some(Entry { hi, ..entry })
}

fn with_lo(entry: Entry, lo: f64) -> Option<Entry> {
    Some(Entry { lo, ..entry })
}
