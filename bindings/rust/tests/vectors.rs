//! The functions on the repository's recorded vectors: answers of the Rust exp2m1, of the machine's operations, and for screening of a plain loop.

use std::collections::BTreeSet;
use weigher::{Direction, Refusal, Screening, bits, screening};

const SCORES: &str = include_str!("../../../crates/exp2m1_vectors/stdin");
const OPERATIONS: &str = include_str!("../../../crates/ieee754_vectors/stdin");
const SCREENINGS: &str = include_str!("../../../crates/screening_vectors/stdin");

fn number(word: &str) -> u64 {
    u64::from_str_radix(word, 16).expect("a hexadecimal number")
}

fn fused_in(direction: Direction, operands: [&str; 3]) -> u64 {
    let [a, b, c] = operands.map(number);
    bits::fused_in(direction.byte(), a, b, c).expect("a known direction")
}

/// To nearest, by both functions.
fn fused(operands: [&str; 3]) -> u64 {
    let [a, b, c] = operands.map(number);
    let sum = bits::fused(a, b, c);
    assert_eq!(fused_in(Direction::Nearest, operands), sum, "{operands:?}");
    sum
}

/// Runs every vector and returns which functions there are. A line has a function's name, its operands and the answer in hexadecimal; n of
/// scale is a number of 32 bits in two's complement, and a direction is part of the name.
fn run(vectors: &str) -> BTreeSet<&str> {
    let mut functions = BTreeSet::new();
    for line in vectors.lines() {
        let words: Vec<&str> = line.split(' ').collect();
        let (got, answer) = match words[..] {
            ["score", x, answer] => (bits::score(number(x)), answer),
            ["round", x, answer] => (bits::round(number(x)), answer),
            ["floor", x, answer] => (bits::floor(number(x)), answer),
            ["fused", a, b, c, answer] => (fused([a, b, c]), answer),
            ["fused_toward_zero", a, b, c, answer] => {
                (fused_in(Direction::TowardZero, [a, b, c]), answer)
            }
            ["fused_up", a, b, c, answer] => (fused_in(Direction::Up, [a, b, c]), answer),
            ["fused_down", a, b, c, answer] => (fused_in(Direction::Down, [a, b, c]), answer),
            ["scale", x, n, answer] => (bits::scale(number(x), number(n) as i32), answer),
            _ => panic!("no vector: {line}"),
        };
        assert_eq!(got, number(answer), "{line}");
        functions.insert(words[0]);
    }
    functions
}

#[test]
fn scores() {
    assert_eq!(run(SCORES), BTreeSet::from(["score"]));
}

#[test]
fn operations() {
    let functions = [
        "fused",
        "fused_toward_zero",
        "fused_up",
        "fused_down",
        "round",
        "floor",
        "scale",
    ];
    assert_eq!(run(OPERATIONS), BTreeSet::from(functions));
}

fn bytes(digits: &str) -> Vec<u8> {
    let pairs = digits.as_bytes().chunks_exact(2);
    pairs
        .map(|pair| number(std::str::from_utf8(pair).expect("digits")) as u8)
        .collect()
}

/// A line has a payload's bytes and the reply: 0 and the refusal's number, 1 and 0 where no weight is a NaN, or 2 and the place of the first.
#[test]
fn screenings() {
    for line in SCREENINGS.lines() {
        let words: Vec<&str> = line.split(' ').collect();
        let [payload, tag, reply] = words[..] else {
            panic!("no vector: {line}");
        };
        let want = match (tag, number(reply)) {
            ("0", 5) => Screening::Refused(Refusal::BadPayload),
            ("1", 0) => Screening::Clean,
            ("2", place) => Screening::Missing(place as usize),
            _ => panic!("no reply: {line}"),
        };
        assert_eq!(screening(&bytes(payload)), want, "{line}");
    }
    assert_ne!(SCREENINGS.lines().count(), 0);
}
