//! The Rust exp2m1 and its reader of hexadecimal floats, where compare was built with the source.

use std::path::Path;
use std::{fs, io};

#[cfg(exp2m1)]
use exp2m1_recorded::calls::OPERANDS;
use ffi::Entry;

use crate::score::is_of_step_5;

/// exp2m1 over the machine's fma, the weigher's and musl's. There is none where compare was built without the source.
pub const INSTANCES: &[(&str, fn(f64) -> f64)] = &[
    #[cfg(exp2m1)]
    ("Rust", exp2m1_machine::exp2m1),
    #[cfg(exp2m1)]
    ("Rust over weigher_fused", exp2m1_weigher::exp2m1),
    #[cfg(all(exp2m1, musl_fma))]
    ("Rust over musl's fma", exp2m1_musl::exp2m1),
];

/// A function of exp2m1.rs by a vector's name, and its answers.
pub type Function = (&'static str, fn(f64) -> Vec<f64>);

/// The functions of a crate: the score; the phases that give a pair hi, lo, two for weights up to 1/8 in size and two for larger ones; and
/// the tables of step 8.
#[cfg(exp2m1)]
macro_rules! functions {
    ($rust:ident) => {
        &[
            ("score", |x| vec![$rust::exp2m1(x)]),
            ("exp2m1_fast_tiny", |x| $rust::exp2m1::fast_tiny(x).to_vec()),
            ("polynomial_q", |x| {
                $rust::calls::OPERANDS.take();
                $rust::exp2m1::accurate_tiny(x);
                last_pair(&$rust::calls::OPERANDS.take())
            }),
            ("exp_1", |x| $rust::exp2m1::fast_power(x).to_vec()),
            ("exp_2", |x| $rust::exp2m1::accurate_power(x).to_vec()),
            ("table_of_59", |x| vec![$rust::exp2m1::accurate_tiny(x)]),
            ("table_of_93", |x| vec![$rust::exp2m1::accurate_wide(x)]),
        ]
    };
}

#[cfg(exp2m1)]
pub const FUNCTIONS: &[Function] = functions!(exp2m1_recorded);
#[cfg(not(exp2m1))]
pub const FUNCTIONS: &[Function] = &[];

/// The functions with the coefficient that `zero` names set to zero.
#[cfg(exp2m1)]
pub const BENT_FUNCTIONS: &[Function] = functions!(exp2m1_bent);
#[cfg(not(exp2m1))]
pub const BENT_FUNCTIONS: &[Function] = &[];

/// Sets a coefficient of `BENT_FUNCTIONS` to zero, by its array and number.
#[cfg(exp2m1)]
pub fn zero(array: &'static str, number: usize) {
    exp2m1_bent::calls::ZERO.set((array, number));
}

#[cfg(not(exp2m1))]
pub fn zero(_: &'static str, _: usize) {}

#[cfg(exp2m1)]
const TEXT: &str = include_str!("../../target/compare/source/libm/src/math/exp2m1.rs");
#[cfg(not(exp2m1))]
const TEXT: &str = "";

/// Where build.sh links the source's folder.
const SOURCE: &str = "target/compare/source";

/// An error where there is no instance.
pub fn require() -> io::Result<()> {
    if INSTANCES.is_empty() {
        return Err(io::Error::other("the Rust source was not there"));
    }
    Ok(())
}

/// The Rust's answer on patterns, where there is an instance. Its NaNs are its own: x + x.
pub fn score(x: u64) -> u64 {
    let (_, exp2m1) = INSTANCES[0];
    exp2m1(f64::from_bits(x)).to_bits()
}

/// The operands of every fma that exp2m1 calls for these weights; none where there is no instance.
#[cfg(exp2m1)]
pub fn fma_calls(weights: impl Iterator<Item = u64>) -> Vec<(u64, u64, u64)> {
    OPERANDS.take();
    weights.for_each(|x| {
        exp2m1_recorded::exp2m1(f64::from_bits(x));
    });
    let operands = OPERANDS.take().into_iter();
    operands
        .map(|(a, b, c)| (a.to_bits(), b.to_bits(), c.to_bits()))
        .collect()
}

#[cfg(not(exp2m1))]
pub fn fma_calls(_: impl Iterator<Item = u64>) -> Vec<(u64, u64, u64)> {
    Vec::new()
}

/// The pair that s_mul computed last, by the operands of its two calls of fma: fma(a, bh, -hi), and then lo. The accurate phase for
/// |x| <= 1/8 returns its sum.
#[cfg(exp2m1)]
fn last_pair(operands: &[(f64, f64, f64)]) -> Vec<f64> {
    let [.., (_, _, minus_hi), (a, b, c)] = *operands else {
        panic!("an entry of the table of 59");
    };
    vec![-minus_hi, a.mul_add(b, c)]
}

/// x of each entry of the exception tables.
pub fn exceptions() -> Vec<u64> {
    entries().map(|entry| entry.x.to_bits()).collect()
}

/// The table of 56, of step 5; empty where there is no instance.
pub fn first_table() -> Vec<Entry> {
    entries()
        .filter(|entry| is_of_step_5(entry.x.to_bits()))
        .collect()
}

/// The entries of the exception tables: each line that has three numbers.
fn entries() -> impl Iterator<Item = Entry> {
    TEXT.lines()
        .filter(|line| line.matches("hf64!").count() == 3)
        .map(|line| entry(line).expect("an entry of a table"))
}

/// The entry of a line. Its numbers are like `hf64!("0x1.8p-3")`, `-hf64!("0x1.8p-3")` and `hf64!("-0x1.8p-3")`.
fn entry(line: &str) -> Option<Entry> {
    let mut parts = line.split("hf64!(\"");
    let mut front = parts.next()?;
    let mut number = || {
        let (text, rest) = parts.next()?.split_once('"')?;
        let size = hexadecimal(text.trim_start_matches('-'))?;
        let negative = front.ends_with('-') || text.starts_with('-');
        front = rest;
        Some(if negative { -size } else { size })
    };
    Some(Entry {
        x: number()?,
        hi: number()?,
        lo: number()?,
    })
}

/// The float that a text like 0x1.8p-3 stands for.
fn hexadecimal(text: &str) -> Option<f64> {
    let (digits, exponent) = text.strip_prefix("0x")?.split_once('p')?;
    let (whole, fraction) = digits.split_once('.').unwrap_or((digits, ""));
    let significand = u64::from_str_radix(&format!("{whole}{fraction}"), 16).ok()?;
    let exponent = exponent.parse::<i32>().ok()? - 4 * fraction.len() as i32;
    Some(ffi::ldexp(significand as f64, exponent))
}

/// The pattern that the Rust's own reader, behind `hf64!`, gives for a text that it takes. The inf and nan that it takes too are left out.
#[cfg(exp2m1)]
pub fn constant(text: &str) -> Option<u64> {
    let pattern = exp2m1_machine::parse_hex_exact(text, 64, 52).ok()? as u64;
    f64::from_bits(pattern).is_finite().then_some(pattern)
}

#[cfg(not(exp2m1))]
pub fn constant(_: &str) -> Option<u64> {
    unreachable!("compare was built without the Rust source")
}

/// Every hexadecimal float in the files of the source, those of comments too; none where there is no instance.
pub fn constants() -> io::Result<Vec<String>> {
    let mut texts = Vec::new();
    if !INSTANCES.is_empty() {
        add_constants(Path::new(SOURCE), &mut texts)?;
    }
    Ok(texts)
}

/// A float is a word of letters, digits, points and signs with 0x and a p in it.
fn add_constants(path: &Path, texts: &mut Vec<String>) -> io::Result<()> {
    if path.is_dir() {
        for entry in fs::read_dir(path)? {
            add_constants(&entry?.path(), texts)?;
        }
        return Ok(());
    }
    let content = fs::read(path)?;
    let content = String::from_utf8_lossy(&content);
    let words = content.split(|c: char| !c.is_ascii_alphanumeric() && !".+-".contains(c));
    let floats = words.filter(|word| word.contains("0x") && word.contains('p'));
    // A point at the end is that of a sentence.
    texts.extend(floats.map(|word| word.trim_end_matches('.').to_string()));
    Ok(())
}
