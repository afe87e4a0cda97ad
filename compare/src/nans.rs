//! Operations on NaNs of every kind at every place, beside nan.rs and the Rust's score, and how many of each came.

use std::array;

use ffi::Direction;

use crate::case::Case;
use crate::nan::{self, is_nan};
use crate::random::Random;
use crate::run::Compared;
use crate::tally::print_count;
use crate::values::{FRACTION, NAN_KINDS, QUIET, SIGN, nan, nan_of};
use crate::{machine, rust};

const LARGEST: u64 = 0x7fefffffffffffff;
const INFINITY: u64 = 0x7ff0000000000000;

/// The names of `NAN_KINDS`.
const KINDS: [&str; 4] = [
    "signalling",
    "quiet",
    "negative signalling",
    "negative quiet",
];

/// Which of the operands of fused are NaNs.
const SETS: [(&str, [bool; 3]); 7] = [
    ("a", [true, false, false]),
    ("b", [false, true, false]),
    ("c", [false, false, true]),
    ("a and b", [true, true, false]),
    ("a and c", [true, false, true]),
    ("b and c", [false, true, true]),
    ("a, b and c", [true, true, true]),
];

/// The sizes of factors whose product is invalid. With a NaN addend the result is that NaN nevertheless.
const PRODUCTS: [(&str, [u64; 2]); 2] = [
    ("c, of 0 * infinity", [0, INFINITY]),
    ("c, of infinity * 0", [INFINITY, 0]),
];

/// Operands of each operation: so many, and as many for each million of the other cases.
const CASES: u64 = 100_000;

/// The least counts among these: of each kind for each set, of each kind for each of `PRODUCTS`, and of invalid operations without a NaN.
const FLOOR: u64 = 2000;
const FLOOR_OF_PRODUCTS: u64 = 100;
const FLOOR_OF_INVALID: u64 = 1000;

/// Runs each operation on NaNs, where it has so many million other cases; false where an answer differs, or too few NaNs of a kind came.
pub fn compare(millions: u64) -> bool {
    let mut random = Random::new(15);
    let mut compared = Compared::default();
    let mut beside_rust = Compared::default();
    let mut seen = Seen::default();
    let times = 1 + millions;
    for _ in 0..times * CASES {
        let operands = array::from_fn(|_| operand(&mut random));
        let x = nan(&mut random);
        for case in cases(&mut random, operands, x) {
            compared.compare(case, case.reference());
        }
        compared.compare(Case::Score(x), nan::of(x));
        if !rust::INSTANCES.is_empty() {
            beside_rust.compare(Case::Score(x), rust::score(x));
        }
        seen.count(operands, x);
    }
    let good = compared.print("operations on NaNs");
    let alike = rust::INSTANCES.is_empty() || beside_rust.print("score of NaNs beside the Rust's");
    let enough = seen.print(times);
    good && alike && enough
}

/// The operations but for the score, of which the machine has none.
fn cases(random: &mut Random, [a, b, c]: [u64; 3], x: u64) -> Vec<Case> {
    let mut cases = vec![
        Case::Fused(a, b, c),
        Case::FastFused(a, b, c),
        Case::Round(x),
        Case::Floor(x),
        scale(random, x),
    ];
    cases.extend(Direction::ALL.map(|direction| Case::FusedIn(direction, a, b, c)));
    cases
}

/// x with any n, half of the time a small one.
pub fn scale(random: &mut Random, x: u64) -> Case {
    let near = random.between(-2200, 2200) as i32;
    let any = random.word() as i32;
    Case::Scale(x, random.pick(&[near, any]))
}

/// A NaN half of the time, or a number.
pub fn operand(random: &mut Random) -> u64 {
    match random.below(2) {
        0 => nan(random),
        _ => number(random),
    }
}

/// A zero, a subnormal, a normal or an infinity, of either sign.
fn number(random: &mut Random) -> u64 {
    let subnormal = random.between(1, FRACTION as i64) as u64;
    let normal = random.between(FRACTION as i64 + 1, LARGEST as i64) as u64;
    random.pick(&[0, subnormal, normal, INFINITY]) | random.word() & SIGN
}

/// So many NaNs of each kind.
pub fn of_each_kind(random: &mut Random, count: usize) -> Vec<u64> {
    let kinds = NAN_KINDS.repeat(count).into_iter();
    kinds.map(|kind| nan_of(random, kind)).collect()
}

/// Operands for each set, with a first NaN of each kind, and for each of `PRODUCTS`, with an addend of each kind and with a number.
pub fn of_each_set(random: &mut Random) -> Vec<[u64; 3]> {
    let mut all = Vec::new();
    for kind in NAN_KINDS {
        all.extend(SETS.map(|(_, set)| with_first(random, set, kind)));
        let addend = nan_of(random, kind);
        all.extend(products(random, addend));
    }
    let addend = number(random);
    all.extend(products(random, addend));
    all
}

/// Each of `PRODUCTS`, of any signs, with this addend.
fn products(random: &mut Random, c: u64) -> [[u64; 3]; PRODUCTS.len()] {
    PRODUCTS.map(|(_, sizes)| {
        let [a, b] = sizes.map(|size| size | random.word() & SIGN);
        [a, b, c]
    })
}

/// Operands with one NaN, at each place a signalling one and a quiet one.
pub fn alone(random: &mut Random) -> Vec<[u64; 3]> {
    let [signalling, .., quiet] = NAN_KINDS;
    let places = SETS.into_iter().take(3);
    places
        .flat_map(|(_, set)| [signalling, quiet].map(|kind| with_first(random, set, kind)))
        .collect()
}

/// Operands with the NaNs of a set. The first is of this kind, and the others are quiet where it is signalling, and signalling where it is
/// quiet.
fn with_first(random: &mut Random, set: [bool; 3], kind: u64) -> [u64; 3] {
    let mut next = kind;
    set.map(|is_nan| {
        if !is_nan {
            return number(random);
        }
        let nan = nan_of(random, next);
        next = kind ^ QUIET ^ random.word() & SIGN;
        nan
    })
}

/// How many NaNs of each kind came.
#[derive(Clone, Copy, Default)]
pub struct Kinds([u64; 4]);

impl Kinds {
    /// Counts x where it is a NaN.
    pub fn count(&mut self, x: u64) {
        if is_nan(x) {
            let negative = usize::from(x & SIGN != 0);
            let quiet = usize::from(x & QUIET != 0);
            self.0[2 * negative + quiet] += 1;
        }
    }

    /// Prints the counts; false where one is under the floor.
    pub fn print(&self, name: &str, floor: u64) -> bool {
        let counts = KINDS.iter().zip(self.0);
        let counts: Vec<String> = counts.map(|(kind, n)| format!("{n} {kind}")).collect();
        let counts = counts.join(", ");
        let enough = self.0.iter().all(|count| floor <= *count);
        if enough {
            println!("  {name}: {counts}");
        } else {
            println!("  {name}: {counts}, under a floor of {floor}");
        }
        enough
    }
}

/// How often each set of operands came, by the kind of its first NaN.
#[derive(Default)]
pub struct Sets([Kinds; SETS.len()]);

impl Sets {
    /// Counts the operands where one is a NaN.
    pub fn count(&mut self, operands: [u64; 3]) {
        let nans = operands.map(is_nan);
        let set = SETS.iter().position(|(_, set)| *set == nans);
        let first = operands.into_iter().find(|&x| is_nan(x));
        if let (Some(set), Some(first)) = (set, first) {
            self.0[set].count(first);
        }
    }

    /// Prints the counts; false where one is under the floor.
    pub fn print(&self, floor: u64) -> bool {
        let mut enough = true;
        for ((name, _), kinds) in SETS.iter().zip(self.0) {
            enough &= kinds.print(name, floor);
        }
        enough
    }
}

/// The NaNs alone, the sets of fused, the addends of `PRODUCTS`, and how many invalid operations without a NaN came.
#[derive(Default)]
struct Seen {
    alone: Kinds,
    sets: Sets,
    addends: [Kinds; PRODUCTS.len()],
    invalid: u64,
}

impl Seen {
    fn count(&mut self, operands: [u64; 3], x: u64) {
        self.alone.count(x);
        self.sets.count(operands);
        let [a, b, c] = operands;
        for ((_, sizes), addends) in PRODUCTS.iter().zip(&mut self.addends) {
            if *sizes == [a & !SIGN, b & !SIGN] {
                addends.count(c);
            }
        }
        let has_nan = operands.into_iter().any(is_nan);
        self.invalid += u64::from(!has_nan && is_nan(machine::fused(a, b, c)));
    }

    /// Prints the counts; false where one is under its floor, taken so many times.
    fn print(&self, times: u64) -> bool {
        let mut enough = self.alone.print("x", times * FLOOR);
        enough &= self.sets.print(times * FLOOR);
        for ((name, _), addends) in PRODUCTS.iter().zip(self.addends) {
            enough &= addends.print(name, times * FLOOR_OF_PRODUCTS);
        }
        let floor = times * FLOOR_OF_INVALID;
        enough & print_count("invalid without a NaN", self.invalid, floor)
    }
}
