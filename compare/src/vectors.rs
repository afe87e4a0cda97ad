//! Writes the vectors of crates/ieee754_vectors, with the machine's answers, and of crates/exp2m1_vectors and crates/phase_vectors, with
//! the Rust's; and checks the latter.

use std::io::{self, BufWriter, Write};

use ffi::Direction;

use crate::case::Case;
use crate::cases::{FLOOR, FUSED, Operation, ROUND, SCALE, directed_edges, directed_operands};
use crate::random::Random;
use crate::rust::Function;
use crate::steps::Reach;
use crate::values::{CLASSES, SPECIALS, both_signs};
use crate::{nans, rust, score};

/// An operation, the special values that its edges are made of, and how many random cases follow.
const PARTS: [(Operation, &[u64], usize); 4] = [
    (FUSED, &CLASSES, 3500),
    (ROUND, &SPECIALS, 600),
    (FLOOR, &SPECIALS, 600),
    (SCALE, &CLASSES, 1500),
];

/// Random operands of fused in each other direction, behind the edges.
const DIRECTED: usize = 700;

/// Random weights that follow the edges of the score.
const WEIGHTS: usize = 15000;

/// NaNs of each kind for each operation on one operand, and for the score.
const NANS: usize = 12;

/// Weights of each range for which the fast phase does not decide, of which some come twice; and how many there must be.
const UNDECIDED: u64 = 200;
const LEAST: u64 = 190;

/// The arrays of coefficients in exp2m1.rs.
const COEFFICIENTS: [(&str, usize); 4] = [("P", 12), ("Q", 22), ("Q_1", 5), ("Q_2", 9)];

/// Weights of each range for which the pairs of the phases are written.
const PAIRS: usize = 20;

pub fn write() -> io::Result<()> {
    let mut random = Random::new(1);
    let mut cases = Vec::new();
    for (operation, specials, count) in PARTS {
        cases.extend((operation.edges)(specials));
        cases.extend((0..count).map(|_| (operation.random)(&mut random)));
    }
    cases.extend(directed_cases());
    cases.extend(nan_cases());
    write_cases(&cases)
}

fn directed_cases() -> Vec<Case> {
    let mut random = Random::new(13);
    // The sign of the first factor adds no product that another does not give.
    let mut operands = directed_edges(&CLASSES, &both_signs(&CLASSES));
    operands.extend((0..DIRECTED).map(|_| directed_operands(&mut random)));
    in_directions(&operands)
}

/// The same operands in each direction but to nearest, which is fused.
fn in_directions(operands: &[(u64, u64, u64)]) -> Vec<Case> {
    let directions = [Direction::TowardZero, Direction::Up, Direction::Down];
    let in_direction = |direction| {
        let operands = operands.iter();
        operands.map(move |&(a, b, c)| Case::FusedIn(direction, a, b, c))
    };
    directions.into_iter().flat_map(in_direction).collect()
}

/// NaNs of each kind at each place of each operation.
fn nan_cases() -> Vec<Case> {
    let mut random = Random::new(16);
    let operands = nans::of_each_set(&mut random).into_iter();
    let operands: Vec<(u64, u64, u64)> = operands.map(Into::into).collect();
    let mut cases = in_directions(&operands);
    cases.extend(operands.into_iter().map(Case::fused));
    for x in nans::of_each_kind(&mut random, NANS) {
        cases.extend([Case::Round(x), Case::Floor(x), nans::scale(&mut random, x)]);
    }
    cases
}

/// The scores, by increasing patterns.
pub fn write_scores() -> io::Result<()> {
    rust::require()?;
    let mut random = Random::new(4);
    let mut weights = score::edges(2);
    weights.extend(score::undecided(&mut random, UNDECIDED));
    weights.extend((0..WEIGHTS).map(|_| score::weight(&mut random)));
    weights.extend(nans::of_each_kind(&mut random, NANS));
    weights.sort_unstable();
    weights.dedup();
    write_lines("score", &weights)
}

/// The pairs of the phases, and the replies of the tables of step 8.
pub fn write_phases() -> io::Result<()> {
    rust::require()?;
    let mut random = Random::new(7);
    let tiny = score::tiny_weights(&mut random, PAIRS);
    let wide = score::wide_weights(&mut random, PAIRS);
    write_lines("exp2m1_fast_tiny", &tiny)?;
    write_lines("polynomial_q", &tiny)?;
    write_lines("exp_1", &wide)?;
    write_lines("exp_2", &wide)?;
    write_lines("table_of_59", &score::tiny_entries())?;
    write_lines("table_of_93", &score::wide_entries())
}

fn write_lines(name: &str, weights: &[u64]) -> io::Result<()> {
    let mut out = BufWriter::new(io::stdout().lock());
    for &x in weights {
        let line = answered(rust::FUNCTIONS, name, x);
        writeln!(out, "{}", line.expect("a function's name"))?;
    }
    out.flush()
}

/// The vector of the function with this name for x, where there is one.
fn answered(functions: &[Function], name: &str, x: u64) -> Option<String> {
    let (_, function) = functions.iter().find(|function| function.0 == name)?;
    let mut numbers = vec![x];
    numbers.extend(function(f64::from_bits(x)).into_iter().map(f64::to_bits));
    let numbers: String = numbers.iter().map(|n| format!(" {n:016x}")).collect();
    Some(format!("{name}{numbers}"))
}

/// Compares the vectors on standard input, those of the score and its phases, with the Rust's. Counts the steps that the scores reach, and
/// the vectors that differ where a coefficient is zero. False where an answer is another, too few reach a step, or none differs.
pub fn check_scores() -> bool {
    if rust::INSTANCES.is_empty() {
        println!("vectors of the score: not compared, the Rust source was not there");
        return true;
    }
    let lines: Vec<String> = io::stdin()
        .lines()
        .map(|line| line.expect("a text"))
        .collect();
    let mut reach = Reach::default();
    let mut mismatches = 0;
    for line in &lines {
        if let Some(("score", x)) = name_and_weight(line) {
            reach.count(x);
        }
        if !is_answered(rust::FUNCTIONS, line) {
            println!("{line}: not the Rust's");
            mismatches += 1;
        }
    }
    println!(
        "vectors of the score: {}, {mismatches} mismatches",
        lines.len()
    );
    let enough = reach.print(LEAST);
    let noticed = zeros_are_noticed(&lines);
    mismatches == 0 && enough && noticed
}

/// Sets each coefficient to zero, and prints for each how many vectors differ from the answers; false where none does.
fn zeros_are_noticed(lines: &[String]) -> bool {
    let mut noticed = true;
    for (array, length) in COEFFICIENTS {
        print!("  {array} with one coefficient zero, vectors that differ:");
        for number in 0..length {
            rust::zero(array, number);
            let differs = |line: &&String| !is_answered(rust::BENT_FUNCTIONS, line);
            let count = lines.iter().filter(differs).count();
            print!(" {count}");
            noticed &= count > 0;
        }
        println!();
    }
    noticed
}

/// Whether a line is a vector with the answer of its function.
fn is_answered(functions: &[Function], line: &str) -> bool {
    let answered = name_and_weight(line).and_then(|(name, x)| answered(functions, name, x));
    answered.is_some_and(|answered| answered == line)
}

fn name_and_weight(line: &str) -> Option<(&str, u64)> {
    let mut fields = line.split(' ');
    let name = fields.next()?;
    let x = u64::from_str_radix(fields.next()?, 16).ok()?;
    Some((name, x))
}

fn write_cases(cases: &[Case]) -> io::Result<()> {
    let mut out = BufWriter::new(io::stdout().lock());
    for case in cases {
        writeln!(out, "{case} {:016x}", case.reference())?;
    }
    out.flush()
}
