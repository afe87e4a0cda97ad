//! Compares the weigher with the machine and with the Rust exp2m1, case by case.

use crate::case::Case;
use crate::cases::{FAST_FUSED, FLOOR, FUSED, ROUND, SCALE};
use crate::random::Random;
use crate::steps::Reach;
use crate::values::SPECIALS;
use crate::{directions, nans, rust, score};

/// Patterns on each side of a boundary or table entry of the score.
pub const REACH: i64 = 1000;

/// Weights of each range for which the fast phase does not decide: so many, and as many for each million cases.
const UNDECIDED: u64 = 10;

/// Runs the edges and so many million random cases of each operation; false where the two differ in any case, or too few cases reach what
/// is counted.
pub fn compare(millions: u64) -> bool {
    let mut random = Random::new(2);
    let count = millions * 1_000_000;
    let mut good = true;
    for operation in [FUSED, FAST_FUSED, ROUND, FLOOR, SCALE] {
        let edges = (operation.edges)(&SPECIALS).into_iter();
        let others = (0..count).map(|_| (operation.random)(&mut random));
        good &= compare_operation(operation.name, edges.chain(others));
    }
    good &= directions::compare(millions);
    good &= nans::compare(millions);
    if rust::INSTANCES.is_empty() {
        println!("score: not compared, the Rust source was not there");
    } else {
        good &= compare_scores(&mut random, millions);
    }
    good
}

fn compare_scores(random: &mut Random, millions: u64) -> bool {
    let mut edges = score::edges(REACH);
    edges.extend(score::undecided(random, UNDECIDED * (1 + millions)));
    let others = (0..millions * 1_000_000).map(|_| score::weight(random));
    let mut reach = Reach::default();
    let weights = edges.into_iter().chain(others).inspect(|&x| reach.count(x));
    let good = compare_operation("score", weights.map(Case::Score));
    let enough = reach.print(UNDECIDED);
    good && enough
}

fn compare_operation(name: &str, cases: impl Iterator<Item = Case>) -> bool {
    compare_answers(name, cases.map(|case| (case, case.reference())))
}

/// Compares the weigher with the answers given. Prints each mismatch and then the counts; false where there was a mismatch.
pub fn compare_answers(name: &str, cases: impl Iterator<Item = (Case, u64)>) -> bool {
    let mut compared = Compared::default();
    for (case, want) in cases {
        compared.compare(case, want);
    }
    compared.print(name)
}

/// How many cases were compared, and how many of them differ.
#[derive(Default)]
pub struct Compared {
    count: u64,
    mismatches: u64,
}

impl Compared {
    pub fn compare(&mut self, case: Case, want: u64) {
        let got = case.weigher();
        if got != want {
            println!("{case}: weigher {got:016x}, reference {want:016x}");
            self.mismatches += 1;
        }
        self.count += 1;
    }

    /// Prints the counts; false where there was a mismatch.
    pub fn print(&self, name: &str) -> bool {
        let Compared { count, mismatches } = self;
        println!("{name}: {count} cases, {mismatches} mismatches");
        *mismatches == 0
    }
}
