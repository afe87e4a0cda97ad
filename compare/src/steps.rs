//! Which step of document 01 answers a weight, and how many weights each answers.
//!
//! The calls that exp2m1.rs makes on its way tell the step: so many of fma, floor and roundeven, one of cold_path on each unlikely way, and
//! one of unsigned for each exponent word.

#[cfg(exp2m1)]
use exp2m1_counted::calls::{COUNTS, Counts};

use crate::score::RANGES;
use crate::tally::print_count;

#[derive(Clone, Copy)]
#[cfg_attr(not(exp2m1), allow(dead_code))]
pub enum Step {
    NaN,
    Low,
    High,
    Zero,
    Scaled,
    FirstEntry,
    TwoTerms,
    Whole,
    FastTiny,
    FastWide,
    FastDoubled,
    TinyEntry,
    AccurateTiny,
    WideEntry,
    AccurateWide,
    AccurateDoubled,
}

impl Step {
    /// Whether a polynomial of the accurate phase answers.
    pub fn is_accurate(self) -> bool {
        matches!(
            self,
            Step::AccurateTiny | Step::AccurateWide | Step::AccurateDoubled
        )
    }
}

#[cfg(not(exp2m1))]
pub fn step(_: u64) -> Step {
    unreachable!("compare was built without the Rust source")
}

/// The step that answers x.
#[cfg(exp2m1)]
pub fn step(x: u64) -> Step {
    COUNTS.set(Counts::default());
    exp2m1_counted::exp2m1(f64::from_bits(x));
    let calls = COUNTS.get();
    // Step 6 is an unlikely way with a floor. It may lead back to steps 7 and 8.
    let unlikely = calls.cold_path - calls.floor;
    match (calls.fma, calls.roundeven, calls.unsigned, unlikely) {
        (0, 0, 0, 1) if f64::from_bits(x).is_nan() => Step::NaN,
        (0, 0, 0, 1) if x >> 63 == 1 => Step::Low,
        (0, 0, 0, 1) => Step::High,
        (0, 0, 0, 0) if x << 1 == 0 => Step::Zero,
        (4, 0, 0, 0) => Step::Scaled,
        (0, 0, 0, 0) if calls.floor == 0 => Step::FirstEntry,
        (2, 0, 0, 0) => Step::TwoTerms,
        (0, 0, 0, 0) => Step::Whole,
        (13, 0, 0, 0) => Step::FastTiny,
        (15, 1, 1, 0) => Step::FastWide,
        (15, 1, 2, 1) => Step::FastDoubled,
        (13, 0, 0, 1) => Step::TinyEntry,
        (34, 0, 0, 1) => Step::AccurateTiny,
        (15, 1, 1, 1) => Step::WideEntry,
        (37, 2, 2, 1) => Step::AccurateWide,
        // One of exp_1 and exp_2, or both, met the word 0x7ff.
        (37, 2, 3, 2) | (37, 2, 4, 3) => Step::AccurateDoubled,
        other => panic!("{x:016x}: no step makes the calls {other:?}"),
    }
}

/// The steps in the order of `Step`, and how many weights must have reached each. The fast phase decides all entries but 20 of the table of
/// 59, and all but 7 of the table of 93.
const STEPS: [(&str, u64); 16] = [
    ("1, NaN", 20),
    ("2, x <= -54", 100),
    ("3, x >= 1024", 100),
    ("4, zero", 2),
    ("4, scaled", 1000),
    ("5, table of 56", 56),
    ("5, formula", 1000),
    ("6", 106),
    ("7, tiny", 1000),
    ("7, exp_1", 1000),
    ("7, exp_1 with word 0x7ff", 50),
    ("8, table of 59", 20),
    ("8, polynomial", 80),
    ("8, table of 93", 7),
    ("8, exp_2", 60),
    ("8, exp_2 with word 0x7ff", 10),
];

/// The number of the step that answers x.
pub fn number(x: u64) -> &'static str {
    let (name, _) = STEPS[step(x) as usize];
    &name[..1]
}

/// How many weights reached each step, and how many of each range the accurate phase's polynomials.
#[derive(Default)]
pub struct Reach {
    steps: [u64; STEPS.len()],
    ranges: [u64; RANGES.len()],
}

impl Reach {
    pub fn count(&mut self, x: u64) {
        let step = step(x);
        self.steps[step as usize] += 1;
        if step.is_accurate() {
            let x = f64::from_bits(x);
            let range = RANGES.iter().position(|&(from, to)| from <= x && x <= to);
            self.ranges[range.expect("a range of steps 7 and 8")] += 1;
        }
    }

    /// Prints the counts; false where one is under its floor, which is given for the ranges.
    pub fn print(&self, floor_of_ranges: u64) -> bool {
        let mut enough = true;
        for ((name, floor), count) in STEPS.into_iter().zip(self.steps) {
            enough &= print_count(&format!("step {name}"), count, floor);
        }
        for ((from, to), count) in RANGES.into_iter().zip(self.ranges) {
            let name = format!("step 8, {} to {}", text(from), text(to));
            enough &= print_count(&name, count, floor_of_ranges);
        }
        enough
    }
}

/// The end of a range, a power of two where it is small.
fn text(x: f64) -> String {
    let sign = if x < 0.0 { "-" } else { "" };
    match x.abs() {
        size if size < 0.1 => format!("{sign}2^{}", size.log2()),
        _ => x.to_string(),
    }
}
